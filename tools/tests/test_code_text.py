"""Tests docs/CODE_TEXT.md, tools/code_text.py, tools/code_producer.py and the tables of tools/code_vectors.py; and the
program with them, if it knows the commands `code` and `emit`.
"""

import itertools
import os
import pathlib
import re
import subprocess
import unittest

import code_producer
import code_text
import code_vectors
from code_vectors import TEXTS, TOP

PAGE = TOP / "docs" / "CODE_TEXT.md"
BLOCK = re.compile(r"^```(\w*)\n(.*?)^```$", re.MULTILINE | re.DOTALL)

HEAD = b"rgo code 1\n"
MAIN = b"func main 0 - -\nentry -[]\n0 @0 +[] return -\nend\n"
LOOP = b"func f 0 int -\nentry -[]\n0 @0 +[] jump 0 -[]\nend\n"


def main(variables, *instructions):
    """A text with a function `main`, which has these variables and these instructions and then returns."""
    lines = ["func main 0 - -", *(f"var {variable}" for variable in variables), "entry -[]"]
    lines += [f"{n} @0 {instruction}" for n, instruction in enumerate([*instructions, "+[] return -"])]
    return "".join(line + "\n" for line in [*lines, "end"]).encode()


# Programs of other tests, each after HEADER.
HEADER = 'package main\nimport "fmt"\ntype N struct { v int; p *N }\n'
LISTS = """func list(n int) *N { var l *N; for i := 0; i < n; i++ { l = &N{i, l} }; return l }
func sum(l *N) int { s := 0; for l != nil { s += l.v; l = l.p }; return s }
"""
PROGRAMS = [
    'func main() { fmt.Println("hi", 1, true) }',
    LISTS + "func main() { s := 0; for i := 0; i < 1000; i++ { s += sum(list(10)) }; fmt.Println(s) }",
    "func f(a, b *N) int { s := a.v; return s + b.v }\nfunc main() { x := &N{21, nil}; fmt.Println(f(x, x)) }",
    "func f(a *N) *N { return &N{a.v + 1, nil} }\nfunc main() { x := &N{1, nil}; x = f(x); fmt.Println(x.v) }",
    "func main() { s := make([]int, 3); fmt.Println(s[3]) }",
    "var head *N\nfunc main() { for i := 0; i < 100; i++ { fmt.Println(i); head = &N{i, head} } }",
    "func echo(a, b chan int) { for i := 0; i < 5; i++ { b <- <-a + 1 } }\n"
    "func main() { a := make(chan int); b := make(chan int); go echo(a, b); a <- 10; fmt.Println(<-b) }",
    "func prod(c chan int) { for i := 0; i < 100; i++ { c <- i }; close(c) }\n"
    "func main() { c := make(chan int, 2); go prod(c); s := 0; for i := 0; i < 100; i++ { s += <-c }; fmt.Println(s) }",
    LISTS + "func child(l *N, d chan int) { fmt.Println(sum(l)); d <- 1 }\n"
    "func main() { d := make(chan int); l := list(4); go child(l, d); <-d }",
    "func f(a, b *N, d chan int) { s := a.v; d <- s + b.v }\n"
    "func main() { x := &N{21, nil}; d := make(chan int); go f(x, x, d); fmt.Println(<-d) }",
    "func g(c chan int) { c <- 1 }\nfunc main() { var c chan int; go g(c); <-c }",
    "func main() { c := make(chan int, 2); c <- 7; close(c); fmt.Println(<-c, <-c); c <- 1 }",
    "func g() { for { fmt.Println(1) } }\nfunc main() { go g() }",
    "func main() { x := &N{1, nil}; y := &N{2, nil}; fmt.Println(x.v + y.v) }",
    "func f() { f() }\nfunc main() { f() }",
    "func main() { x := " + "(" * 198 + "1" + ")" * 198 + " }",
]

# Texts with what is reported of them, worked out by hand.
BY_HAND = [
    (b"", "line 1: code text"),
    (b"rgo code 1", "line 1: code text"),
    (HEAD, "line 2: code 1"),
    (HEAD + b"\n", "line 2: code text"),
    (HEAD + MAIN[:-1], "line 5: code text"),
    (HEAD + MAIN + b"\xff", "line 6: code text"),
    (HEAD + MAIN + b"func f 0 - -\n", "line 7: code text"),
    # the line without form is reported, although an earlier line breaks a rule
    (HEAD + b"struct S *X\nfunc main 0 - -\nentry -[]\n0 @0 +[] stop\nend\n", "line 5: code text"),
    # a struct and a function may have one name, and two structs may not
    (HEAD + b"struct main\nglobal main int\n" + MAIN, None),
    (HEAD + b"struct a\nstruct b\nstruct a\n" + MAIN, "line 4: code 1"),
    # a type that names no struct
    (HEAD + b"struct a chan.[]*b\n" + MAIN, "line 2: code 1"),
    (HEAD + b"struct int *int\n" + MAIN, None),
    # a second `main` is a repeated name; one with parameters is not the `main` that has to be there
    (HEAD + MAIN + MAIN, "line 6: code 1"),
    (HEAD + b"func main 1 - -\nvar int -\nentry -[]\n0 @0 +[] return -\nend\n", "line 7: code 1"),
    # no instruction, and a last one that leads on
    (HEAD + b"func main 0 - -\nentry -[]\nend\n", "line 4: code 1"),
    (HEAD + b"func main 0 - -\nvar int -\nentry -[]\n0 @0 +[] int v0 1 -[]\nend\n", "line 5: code 1"),
    # a field that is not there is a matter of rule 1, a variable that is no pointer one of rule 2
    (HEAD + b"struct N int\n" + main(["*N r0", "int -"], "+[r0] load v1 v0 1 -[r0]"), "line 7: code 1"),
    (HEAD + b"struct N int\n" + main(["int -", "int -"], "+[] load v1 v0 1 -[]"), "line 7: code 2"),
    # a `go` of a function with a result breaks rule 7, and a call of it without target rule 1
    (HEAD + LOOP + main([], "+[] go f() R[] -[]"), "line 8: code 7"),
    (HEAD + LOOP + main([], "+[] call - f() R[] P[] -[]"), "line 8: code 1"),
    # a return without a value in a function with a result, and the other way round
    (HEAD + LOOP.replace(b"jump 0 -[]", b"return -") + MAIN, "line 4: code 2"),
    (HEAD + main(["int -"]).replace(b"return -", b"return v0"), "line 5: code 2"),
    # both ways of a branch lead to one instruction, where nothing is held
    (HEAD + main(["[]int r7", "bool -"], "+[r7] nil v0 -[]", "+[] branch v1 2 -[r7] 2 -[r7]"), "line 6: code 13"),
    (HEAD + main(["[]int r7", "bool -"], "+[r7] nil v0 -[r7]", "+[] branch v1 2 -[r7] 2 -[r7]"), "line 7: code 13"),
    # the region of a result that is not used
    (
        HEAD
        + b"func f 0 []int r0\nvar []int r0\nentry -[]\n0 @0 +[] nil v0 -[]\n1 @0 +[] return v0\nend\n"
        + main(["[]int r0"], "+[r0] call v0 f() R[r0] P[] -[r0]"),
        None,
    ),
    # a region that is passed for a parameter and for the result is passed twice
    (
        HEAD
        + b"func f 1 []int r1\nvar []int r0\nvar []int r1\nentry -[r0]\n0 @0 +[] nil v1 -[]\n1 @0 +[] return v1\nend\n"
        + main(["[]int r0"], "+[r0] nil v0 -[]", "+[] call v0 f(v0) R[r0,r0] P[r0] -[r0]"),
        None,
    ),
]


def said(report):
    """What `rgo code` prints on standard error."""
    return f"rgo: {report}\n" if report else ""


def lines_with(text, number, edit):
    """The text with another line of this number."""
    lines = text.splitlines(keepends=True)
    return "".join([*lines[: number - 1], edit, *lines[number:]])


class Section:
    """The text of a rule's section, its message, and the text that keeps all rules."""

    def __init__(self, section):
        self.rule = int(section.split("\n", 1)[0])
        self.text, *edits = (block for _, block in BLOCK.findall(section))
        self.message = re.search(r"^`(rgo: line \d+: code \d+)`", section, re.MULTILINE)[1]
        self.mended = self.text
        numbers = re.findall(r"another\s+line (\d+)", section)
        assert len(numbers) == len(edits) > 0
        for number, edit in zip(numbers, edits):
            self.mended = lines_with(self.mended, int(number), edit)


def sections():
    rules = PAGE.read_text(encoding="ascii").split("\n## The rules\n")[1].split("\n## ")[0]
    return list(map(Section, re.split(r"^### Rule (?=\d)", rules, flags=re.MULTILINE)[1:]))


def page_texts():
    """All code texts of the page, with what is reported of them."""
    found = [(block, None) for _, block in BLOCK.findall(PAGE.read_text(encoding="ascii")) if block.startswith("rgo code 1\n")]
    broken = {section.text: section.message.removeprefix("rgo: ") for section in sections()}
    yield from ((text.encode(), broken.get(text)) for text, _ in found)
    yield from ((section.mended.encode(), None) for section in sections())


def table_texts():
    """The texts of all tables, with what is reported of them. `Tables` tests that the files have the tables of today."""
    report = lambda rule, at: None if (rule, at) == (0, 0) else f"line {at}: code {rule or 'text'}"
    of_all = code_vectors.lines_of("all")
    for table in [*code_vectors.rows_of("rules.rt").values(), *code_vectors.rows_of("forms.rt").values()]:
        for number, edit, rule, at in table:
            yield code_vectors.text_with(of_all, number, edit).encode(), report(rule, at)
    cuts, edits = code_vectors.rows_of("cuts.rt"), code_vectors.rows_of("bytes.rt")
    for name in code_vectors.NAMES:
        lines = code_vectors.lines_of(name)
        for count, rule, at in cuts[name.upper()]:
            yield "".join(line + "\n" for line in lines[:count]).encode(), report(rule, at)
        for number, offset, char, rule, at in edits[name.upper()]:
            line = lines[number - 1]
            edit = line[:offset] + char + line[offset + 1 :] + "\n"
            yield code_vectors.text_with(lines, number, edit).encode(), report(rule, at)


class Page(unittest.TestCase):
    def test_each_rule_has_a_text_that_breaks_it_and_one_that_keeps_all(self):
        found = sections()
        self.assertEqual(list(range(1, 15)), [section.rule for section in found])
        for section in found:
            with self.subTest(rule=section.rule):
                self.assertEqual(section.message, code_text.report(section.text.encode()))
                self.assertIsNone(code_text.report(section.mended.encode()))
                broken = list(code_text.RULES[section.rule - 1](code_text.read(section.text.encode())))
                self.assertNotEqual([], broken)
                if section.rule < 14:
                    self.assertRegex(section.message, f": code {section.rule}$")

    def test_the_other_texts_keep_all_rules(self):
        texts = list(page_texts())
        self.assertEqual(30, len(texts))
        for text, report in texts:
            with self.subTest(text=text):
                self.assertEqual(said(report), said((code_text.report(text) or "").removeprefix("rgo: ")))
                self.assertEqual(text, code_text.write(code_text.read(text)))

    def test_the_producer_makes_what_the_page_shows(self):
        blocks = [block for _, block in BLOCK.findall(PAGE.read_text(encoding="ascii"))]
        at = next(n for n, block in enumerate(blocks) if block.startswith("struct "))
        code = code_producer.with_regions(code_producer.read_plain(blocks[at].encode()))
        self.assertEqual(blocks[at + 1], code_text.write(code).decode())

    def test_the_first_text_is_that_of_its_program(self):
        (_, program), (_, text) = BLOCK.findall(PAGE.read_text(encoding="ascii"))[:2]
        self.assertEqual(program, (TEXTS / "field.go").read_text(encoding="ascii"))
        self.assertEqual(text, (TEXTS / "field.code").read_text(encoding="ascii"))


class Reference(unittest.TestCase):
    def test_texts_worked_out_by_hand(self):
        for text, report in BY_HAND:
            with self.subTest(text=text):
                self.assertEqual(report and "rgo: " + report, code_text.report(text))

    def test_a_text_with_another_line(self):
        text = (TEXTS / "field.code").read_text(encoding="ascii")
        self.assertIsNone(code_text.report(text.encode()))
        edit = "2 @98 +[] load v2 v1 0 -[]\n"
        self.assertEqual("rgo: line 10: code 13", code_text.report(lines_with(text, 10, edit).encode()))
        self.assertEqual("rgo: line 1: code text", code_text.report(lines_with(text, 1, "rgo code 2\n").encode()))

    def test_a_text_that_is_too_long(self):
        self.assertEqual("rgo: text longer than 67108864 bytes", code_text.report(b"\n" + b" " * 67108864))
        self.assertEqual("rgo: line 1: code text", code_text.report(b"\n" + b" " * 67108863))

    def test_strings(self):
        head = b"rgo code 1\nfunc main 0 - -\nentry -[]\n0 @0 +[] print "
        every = code_text.Text(bytes(range(256)))
        code = code_text.read(head + b'"" -[]\n1 @0 +[] return -\nend\n')
        code.functions[0].body[0].parts["pieces"] = [every, code_text.Text(b"")]
        text = code_text.write(code)
        self.assertIn(rb'"\x00\x01', text)
        self.assertIn(rb'\x09\n\x0b', text)
        self.assertIn(rb' !\"#', text)
        self.assertIn(rb'[\\]', text)
        self.assertIn(rb'~\x7f\x80', text)
        self.assertEqual([every, code_text.Text(b"")], code_text.read(text).functions[0].body[0].parts["pieces"])

    def test_the_command(self):
        command = [TOP / "tools" / "code_text.py", "check"]
        ran = subprocess.run([*command, TEXTS / "all.code"], capture_output=True, check=False)
        self.assertEqual((0, b"", b""), (ran.returncode, ran.stdout, ran.stderr))
        ran = subprocess.run([*command, TEXTS / "all.go"], capture_output=True, check=False)
        self.assertEqual((1, b"", b"rgo: line 1: code text\n"), (ran.returncode, ran.stdout, ran.stderr))


class Producer(unittest.TestCase):
    def test_code_texts(self):
        names = {path.stem for path in TEXTS.iterdir()}
        self.assertLessEqual({"all", *code_vectors.NAMES}, names)
        for name in sorted(names):
            with self.subTest(name):
                text = (TEXTS / f"{name}.code").read_bytes()
                self.assertIsNone(code_text.report(text))
                self.assertEqual(text, code_text.write(code_text.read(text)))
                plain = code_producer.read_plain((TEXTS / f"{name}.tac").read_bytes())
                self.assertEqual(text, code_text.write(code_producer.with_regions(plain)))
                self.assertEqual(text, code_text.write(code_producer.with_regions(code_text.read(text))))

    def test_a_line_without_form(self):
        self.assertEqual(3, code_producer.read_plain(b"func main 0 -\nvar int\nvar v\n0 @0 return -\nend\n"))
        self.assertEqual(4, code_producer.read_plain(b"func main 0 -\nvar int\nvar int\n0 @0 return v\nend\n"))
        self.assertEqual(5, code_producer.read_plain(b"func main 0 -\nvar int\nvar int\n0 @0 return -\n"))


class Tables(unittest.TestCase):
    def test_the_tables_are_those_of_today(self):
        ran = subprocess.run([TOP / "tools" / "code_vectors.py", "--check"], capture_output=True, check=False)
        self.assertEqual((0, b""), (ran.returncode, ran.stderr))


class WithTheProgram(unittest.TestCase):
    """What the program does with the texts. It is the one that is built, or what the variable RGO names."""

    @classmethod
    def setUpClass(cls):
        cls.program = pathlib.Path(os.environ.get("RGO") or TOP / "crates" / "rgo" / "out" / "rgo").resolve()
        if not cls.program.is_file():
            raise AssertionError("no program is built at crates/rgo/out/rgo, and the variable RGO names none")

    def command(self, word, text):
        ran = subprocess.run([self.program, word], input=text, capture_output=True, timeout=60, check=False)
        return ran.returncode, ran.stdout, ran.stderr.decode("utf-8", "replace")

    def need(self, word, text):
        """Skips the test if the program does not know the command."""
        if self.command(word, text)[0] == 64:
            self.skipTest(f"the program does not know the command `{word}` yet")

    def check_texts(self, texts):
        self.need("code", (TEXTS / "field.code").read_bytes())
        for text, report in texts:
            with self.subTest(text=text):
                self.assertEqual((1 if report else 0, b"", said(report)), self.command("code", text))

    def test_texts_of_the_page(self):
        self.check_texts(page_texts())

    def test_texts_worked_out_by_hand(self):
        self.check_texts(BY_HAND)

    def test_texts_of_the_tables(self):
        """Every tenth text: the tests of crates/rgo_code_text_tests check all of them, and each call takes a while here."""
        self.check_texts(itertools.islice(table_texts(), 0, None, 10))

    def test_programs_have_their_code_texts(self):
        self.need("emit", (TEXTS / "field.go").read_bytes())
        for path in sorted(TEXTS.glob("*.go")):
            with self.subTest(path.name):
                self.assertEqual((0, path.with_suffix(".code").read_bytes(), ""), self.command("emit", path.read_bytes()))

    def test_programs_of_the_page_on_regions(self):
        self.need("emit", (TEXTS / "field.go").read_bytes())
        page = (TOP / "docs" / "REGION_INFERENCE.md").read_text()
        pairs = re.findall(r"```go\n(package main\n[^`]*)```\n\n```\n(rgo code 1\n[^`]*)```\n", page)
        self.assertEqual(5, len(pairs))
        for program, code in pairs:
            with self.subTest(program=program):
                self.assertEqual((0, code.encode(), ""), self.command("emit", program.encode()))

    def test_what_is_emitted_keeps_all_rules(self):
        self.need("emit", (TEXTS / "field.go").read_bytes())
        self.need("code", (TEXTS / "field.code").read_bytes())
        files = [path.read_bytes() for path in sorted([*TEXTS.glob("*.go"), *(TOP / "examples").glob("*.go")])]
        for program in [*files, *((HEADER + text + "\n").encode() for text in PROGRAMS)]:
            with self.subTest(program=program):
                status, text, _ = self.command("emit", program)
                self.assertEqual(0, status)
                self.assertEqual((0, b"", ""), self.command("code", text))

    def test_the_examples_have_the_regions_that_the_producer_finds(self):
        self.need("emit", (TEXTS / "field.go").read_bytes())
        for path in sorted((TOP / "examples").glob("*.go")):
            with self.subTest(path.name):
                status, text, _ = self.command("emit", path.read_bytes())
                self.assertEqual((0, None), (status, code_text.report(text)))
                self.assertEqual(text, code_text.write(code_producer.with_regions(code_text.read(text))))


if __name__ == "__main__":
    unittest.main()
