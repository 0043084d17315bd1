"""Tests tools/regions: what is shown of a code text and a source; the command, with programs that only play the part of
rgo; and both with the program, if it knows the command `emit`.
"""

import os
import pathlib
import re
import subprocess
import textwrap
import unittest

import code_text
import region_events
import test_explain
from code_vectors import TEXTS, TOP

# Worked out by hand from tools/code_texts/NAME.go and NAME.code.
CALLS = """\
                                      1 | package main
                                      2 |
                                      3 | import "fmt"
                                      4 |
                                      5 | type N struct {
                                      6 |     v int
                                      7 |     p *N
                                      8 | }
                                      9 |
given r0 (of a), r1 (of b)           10 | func sum(a, b *N) int {
removed r0                           11 |     s := a.v
removed r1                           12 |     return s + b.v
                                     13 | }
                                     14 |
given r0 (of a), r1 (of the result)  15 | func next(a *N) *N {
removed r0                           16 |     return &N{a.v + 1, nil}
                                     17 | }
                                     18 |
given r0 (of a, the result)          19 | func twice(a *N) *N {
passed r0 (of the result) twice to   20 |     fmt.Println(sum(a, a))
  sum                                   |
protected r0 (of the result) over       |
  sum                                   |
                                     21 |     return a
                                     22 | }
                                     23 |
                                     24 | func main() {
created r0                           25 |     x := &N{21, nil}
created r1                           26 |     y := next(twice(x))
passed r0 to twice                      |
passed r0, r1 to next                   |
protected r0 over twice                 |
protected r1 over next                  |
removed r0 by next                      |
created r0                           27 |     x = next(y)
passed r1, r0 to next                   |
protected r0, r1 over next              |
passed r0, r1 to sum                 28 |     fmt.Println(sum(x, y), y.v)
protected r1 over sum                   |
removed r0 by sum                       |
removed r1                              |
                                     29 | }
"""
CALLS_LIST = """\
10:1: sum: region r0 (of a) given by the caller
10:1: sum: region r1 (of b) given by the caller
11:9: sum: region r0 removed
12:15: sum: region r1 removed
15:1: next: region r0 (of a) given by the caller
15:1: next: region r1 (of the result) given by the caller
16:14: next: region r0 removed
19:1: twice: region r0 (of a, the result) given by the caller
20:17: twice: region r0 (of the result) passed twice to sum
20:17: twice: region r0 (of the result) protected over the call of sum
25:14: main: region r0 created
26:11: main: region r1 created
26:11: main: region r0 passed to next
26:11: main: region r1 passed to next
26:11: main: region r1 protected over the call of next
26:11: main: region r0 removed by next
26:17: main: region r0 passed to twice
26:17: main: region r0 protected over the call of twice
27:10: main: region r0 created
27:10: main: region r1 passed to next
27:10: main: region r0 passed to next
27:10: main: region r0 protected over the call of next
27:10: main: region r1 protected over the call of next
28:17: main: region r0 passed to sum
28:17: main: region r1 passed to sum
28:17: main: region r1 protected over the call of sum
28:17: main: region r0 removed by sum
28:27: main: region r1 removed
"""
LOOP = """\
                      1 | package main
                      2 |
                      3 | import "fmt"
                      4 |
                      5 | type N struct {
                      6 |     v int
                      7 |     p *N
                      8 | }
                      9 |
                     10 | func main() {
created r0           11 |     var l *N
                     12 |     for i := 0; i < 3; i++ {
                     13 |         l = &N{i, l}
                     14 |     }
removed r0 if false  15 |     for l != nil {
                     16 |         fmt.Println(l.v)
                     17 |         l = l.p
                     18 |     }
                     19 | }
"""
LOOP_LIST = """\
11:6: main: region r0 created
15:2: main: region r0 removed if the condition is false
"""
CHILD = """\
                            1 | package main
                            2 | import "fmt"
                            3 | type N struct { v int; p *N }
given r0 (of the result)    4 | func list(n int) *N { var l *N; for i := 0; i < n; i++ { l = &N{i, l} }; return l }
given r0 (of l)             5 | func sum(l *N) int { s := 0; for l != nil { s += l.v; l = l.p }; return s }
removed r0 if false           |
given r0 (of l), r1 (of d)  6 | func child(l *N, d chan int) { fmt.Println(sum(l)); d <- 1 }
passed r0 to sum              |
removed r0 by sum             |
removed r1                    |
created r0, r1              7 | func main() { d := make(chan int); l := list(4); go child(l, d); <-d }
passed r1 to list             |
passed r1, r0 to go child     |
protected r1 over list        |
removed r1, r0                |
"""
CHILD_LIST = """\
4:1: list: region r0 (of the result) given by the caller
5:1: sum: region r0 (of l) given by the caller
5:30: sum: region r0 removed if the condition is false
6:1: child: region r0 (of l) given by the caller
6:1: child: region r1 (of d) given by the caller
6:47: child: region r0 passed to sum
6:47: child: region r0 removed by sum
6:55: child: region r1 removed
7:20: main: region r0 created
7:45: main: region r1 created
7:45: main: region r1 passed to list
7:45: main: region r1 protected over the call of list
7:50: main: region r1 passed to go child
7:50: main: region r0 passed to go child
7:50: main: region r1 removed
7:66: main: region r0 removed
"""
BY_HAND = {"calls": (CALLS, CALLS_LIST), "loop": (LOOP, LOOP_LIST), "child": (CHILD, CHILD_LIST)}
TWICE = """\
given r0 (of a, the result)         19 | func twice(a *N) *N {
passed r0 (of the result) twice to  20 |     fmt.Println(sum(a, a))
  sum                                  |
protected r0 (of the result) over      |
  sum                                  |
                                    21 |     return a
                                    22 | }
"""
# A command in a document, and what it prints.
SHOWN = re.compile(r"^\$ tools/regions (.*) tools/code_texts/(.*)\.go\n((?:(?!\$ |```).*\n)*)", re.MULTILINE)


def lines(text):
    return text.splitlines()


def texts_of(name):
    """The source and the code of one of tools/code_texts."""
    code = (TEXTS / f"{name}.code").read_text(encoding="ascii")
    return (TEXTS / f"{name}.go").read_text(encoding="ascii"), code.removeprefix("rgo code 1\n")


def read(text, code):
    """A source and its code. In the code, `@<WORDS>` is the first place in the source that has these words."""
    source = text.encode()
    found = re.sub(r"@<(.*?)>", lambda words: f"@{source.index(words[1].encode())}", code)
    return code_text.read(f"rgo code 1\n{found}".encode()), region_events.Source(source)


def listed(text, code, name=None):
    code, source = read(text, code)
    return list(region_events.listed(region_events.events(code, source, name), source))


def beside(text, code, name=None):
    code, source = read(text, code)
    numbers = region_events.line_numbers(code, source, name)
    return list(region_events.beside(region_events.events(code, source, name), source, numbers))


def main_of(variables, *instructions):
    """The code of a function `main`. The instructions have no numbers, and the last one is added."""
    body = [f"{n} {op}" for n, op in enumerate([*instructions, "@<}> +[] return -"])]
    code = ["func main 0 - -", *(f"var {variable}" for variable in variables), "entry -[]", *body, "end"]
    return "".join(line + "\n" for line in code)


def taking(name, count, entry):
    """The code of a function that takes slices in regions of their own, and does nothing. Its body has braces `{}`."""
    variables = "".join(f"var []int r{n}\n" for n in range(count))
    return f"func {name} {count} - -\n{variables}entry -[{entry}]\n0 @<{{}}> +[] return -\nend\n"


class Shown(unittest.TestCase):
    def test_programs_worked_out_by_hand(self):
        for name, (margin, listing) in BY_HAND.items():
            with self.subTest(name):
                text, code = texts_of(name)
                self.assertEqual(lines(margin), beside(text, code))
                self.assertEqual(lines(listing), listed(text, code))

    def test_one_function(self):
        text, code = texts_of("calls")
        self.assertEqual(lines(TWICE), beside(text, code, "twice"))
        for name in ["sum", "next", "twice", "main"]:
            self.assertEqual([line for line in lines(CALLS_LIST) if f" {name}: " in line], listed(text, code, name))

    def test_what_the_documents_show(self):
        for document in ["docs/TOOLS.md", "docs/REGIONS.md"]:
            page = (TOP / document).read_text(encoding="utf-8")
            shown = SHOWN.findall(page)
            self.assertNotEqual([], shown)
            for words, name, wanted in shown:
                with self.subTest(document, words=words):
                    self.assertIn(words, ["--list", "--function main"])
                    found = listed(*texts_of(name)) if words == "--list" else beside(*texts_of(name), "main")
                    self.assertEqual(lines(wanted), found)

    def test_a_program_without_regions(self):
        text, code = "package main\n\nfunc main() {}", main_of([])
        self.assertEqual([], listed(text, code))
        self.assertEqual(["1 | package main", "2 |", "3 | func main() {}"], beside(text, code))
        self.assertEqual(["3 | func main() {}"], beside(text, code, "main"))

    def test_what_is_not_used_is_removed_at_entry(self):
        text = "func f(a, b []int) {}\nfunc main() {}\n"
        code = taking("f", 2, "r0,r1") + main_of([])
        wanted = [
            "1:1: f: region r0 (of a) given by the caller",
            "1:1: f: region r1 (of b) given by the caller",
            "1:1: f: region r0 removed at entry",
            "1:1: f: region r1 removed at entry",
        ]
        self.assertEqual(wanted, listed(text, code))
        wanted = [
            "given r0 (of a), r1 (of b)  1 | func f(a, b []int) {}",
            "removed r0, r1 at entry       |",
            "                            2 | func main() {}",
        ]
        self.assertEqual(wanted, beside(text, code))

    def test_the_ways_of_a_branch(self):
        for words, tested, note in [
            ("if ok {", "condition", "if false"),
            ("for ok {", "condition", "if false"),
            ("a != nil && ok", "left side", "if the left side is false"),
            ("a != nil || ok", "left side", "if the left side is false"),
        ]:
            place = words if words.endswith("{") else words[9:]
            variables = ["*N r0", "*N r1", "bool -", "*N r2"]
            code = main_of(variables, f"@<{place}> +[] branch v2 1 -[r1,r2] 1 -[r0,r2]")
            with self.subTest(words):
                text = f"func main() {{ {words} }}"
                false, true, always = listed(text, code)
                self.assertRegex(false, rf": main: region r0 removed if the {tested} is false$")
                self.assertRegex(true, rf": main: region r1 removed if the {tested} is true$")
                self.assertRegex(always, ": main: region r2 removed$")
                said = [line.split("|")[0].rstrip("1 ") for line in beside(text, code)]
                wanted = [f"removed r0 {note}", f"removed r1 {note.replace('false', 'true')}", "removed r2"]
                self.assertEqual(wanted, said)

    def test_the_result_and_package_variables_are_named(self):
        text = "func f(a *N) *N { g(a, h, a, a); return a }"
        code = textwrap.dedent(
            """\
            func f 1 *N r0
            var *N r0
            var *N G
            entry -[]
            0 @<(a, h> +[] call - g(v0,v1,v0,v0) R[r0,G,r0,r0] P[r0] -[]
            1 @<return> +[] return v0
            end
            """
        )
        text += "\nfunc g(a, b, c, d []int) {}"
        code += taking("g", 4, "")
        wanted = [
            "1:1: f: region r0 (of a, the result) given by the caller",
            "1:20: f: region r0 (of the result) passed 3 times to g",
            "1:20: f: region G (of package variables) passed to g",
            "1:20: f: region r0 (of the result) protected over the call of g",
        ]
        self.assertEqual(wanted, listed(text, code, "f"))
        wanted = [
            "given r0 (of a, the result)           1 | func f(a *N) *N { g(a, h, a, a); return a }",
            "passed r0 (of the result) 3 times, G    |",
            "  (of package variables) to g           |",
            "protected r0 (of the result) over g     |",
        ]
        self.assertEqual(wanted, beside(text, code, "f"))

    def test_several_instructions_with_one_place_are_one_event(self):
        text = "func main() { x; y }"
        instructions = ["@<x> +[r0] new v0 N -[r0]", "@<x> +[r0] new v0 N -[r0]", "@<y> +[r0] new v0 N -[r0]"]
        code = main_of(["*N r0"], *instructions)
        wanted = [f"1:{column}: main: region r0 {kind}" for column in (15, 18) for kind in ("created", "removed")]
        self.assertEqual(wanted, listed(text, code))
        self.assertEqual(["created r0  1 | func main() { x; y }", "removed r0    |"], beside(text, code))

    def test_the_order_on_a_line(self):
        text = "func main() { y(x(1)) }\nfunc x(a []int) []int {}\nfunc y(a []int) {}"
        callees = taking("x", 1, "").replace("- -", "[]int r1") + taking("y", 1, "")
        calls = [
            "@<(1> +[r0,r1] call v1 x(v0) R[r0,r1] P[r1] -[]",
            "@<(x> +[r2] call - y(v1) R[r1] P[] -[r2]",
        ]
        code = main_of(["[]int r0", "[]int r1", "[]int r2"], *calls) + callees
        # In the list the order is that of the places, beside a line that of the kinds and then of the code.
        wanted = [
            "16: main: region r2 created",
            "16: main: region r1 passed to y",
            "16: main: region r1 removed by y",
            "16: main: region r2 removed",
            "18: main: region r0 created",
            "18: main: region r1 created",
            "18: main: region r0 passed to x",
            "18: main: region r1 passed to x",
            "18: main: region r1 protected over the call of x",
            "18: main: region r0 removed by x",
        ]
        self.assertEqual([f"1:{line}" for line in wanted], listed(text, code, "main"))
        wanted = ["created r0, r1, r2", "passed r0, r1 to x", "passed r1 to y", "protected r1 over x"]
        wanted += ["removed r0 by x", "removed r1 by y", "removed r2"]
        self.assertEqual(wanted, [line[:20].rstrip() for line in beside(text, code, "main")])

    def test_functions_that_share_a_line(self):
        text = "func main() { x }; func f(a []int) {}"
        code = main_of(["[]int r0"], "@<x> +[r0] nil v0 -[r0]")
        code += taking("f", 1, "r0")
        wanted = [
            "f: given r0 (of a)      1 | func main() { x }; func f(a []int) {}",
            "main: created r0          |",
            "main: removed r0          |",
            "f: removed r0 at entry    |",
        ]
        self.assertEqual(wanted, beside(text, code))
        self.assertEqual(["created r0  1 | " + text, "removed r0    |"], beside(text, code, "main"))

    def test_columns_count_bytes_and_tabs_are_blanks(self):
        text = '\ufefffunc main() {\r\n\t/* \u00e9\u4e16 */\tx\t// \x1b\r\n}\r\n'
        code = main_of(["*N r0"], "@<x> +[r0] new v0 N -[]")
        self.assertEqual(["2:14: main: region r0 created"], listed(text, code))
        wanted = [
            "            1 | func main() {",
            "created r0  2 |     /* \u00e9\u4e16 */    x    // \ufffd",
            "            3 | }",
        ]
        self.assertEqual(wanted, beside(text, code))

    def test_long_lines(self):
        name, words = "f" * 40, "x" * 200
        text = f"func main() {{ {words} }}\nfunc {name}(a []int) {{}}"
        code = main_of(["*N r0"], f"@<{words}> +[r0] call - {name}(v0) R[r0] P[] -[]")
        code += taking(name, 1, "")
        wanted = [
            "created r0                            1 | func main() { " + words + " }",
            "passed r0 to fffffffffffffffffffffff    |",
            "  fffffffffffffffff                     |",
            "removed r0 by ffffffffffffffffffffff    |",
            "  ffffffffffffffffff                    |",
        ]
        self.assertEqual(wanted, beside(text, code, "main"))


class Heads(unittest.TestCase):
    def test_places_and_parameters(self):
        for text, parameters in [
            ("func main() {}", []),
            ("func f(a int) {}", ["a"]),
            ("func f(a, b *N, c chan []*N, d []int) int {}", ["a", "b", "c", "d"]),
            ("func\tf (\n\ta,\n\tb int,\n) {}", ["a", "b"]),
            ("func /* func g( */ f( // func h(\na /*, x*/ int) {}", ["a"]),
        ]:
            for before in ["", "var i int; ", "// func g() {}\n", 'x = "func g(a int) \\"{}"; ', '/* " */', "/* // */"]:
                with self.subTest(before + text):
                    (head,) = region_events.Source((before + text).encode()).heads
                    self.assertEqual(len(before), head.place)
                    self.assertEqual(parameters, [name.decode() for name in head.parameters])

    def test_what_is_no_head(self):
        self.assertEqual([], region_events.Source(b'func_ main(); myfunc f(); x := "func f()"').heads)


class Command(test_explain.Case):
    """The command, with a program that prints a code text."""

    def setUp(self):
        super().setUp()
        self.rgo = self.room / "rgo"
        self.write_program(f'[ "$*" = emit ] && cmp - "{TEXTS}/loop.go" >&2 && cat "{TEXTS}/loop.code"')
        self.file.write_bytes((TEXTS / "loop.go").read_bytes())

    def write_program(self, script):
        self.rgo.write_text(f"#!/bin/sh\n{script}\n")
        self.rgo.chmod(0o755)

    def regions(self, *words):
        return self.tool("regions", *words, RGO=str(self.rgo))

    def test_what_it_shows(self):
        self.assertEqual((0, LOOP, ""), self.regions(self.file))
        self.assertEqual((0, LOOP_LIST, ""), self.regions("--list", self.file))
        for words in (["--function", "main", self.file], [self.file, "--function=main"]):
            self.assertEqual((0, LOOP[LOOP.index(" " * 21 + "10") :], ""), self.regions(*words))
        self.assertEqual((0, LOOP_LIST, ""), self.regions("--function", "main", self.file, "--list"))

    def test_a_function_that_is_not_there(self):
        for words in ([], ["--list"]):
            wanted = (1, "", f"regions: {self.file} has no function mane\n")
            self.assertEqual(wanted, self.regions(*words, "--function", "mane", self.file))

    def test_a_program_that_is_rejected(self):
        self.write_program('cat >/dev/null; echo "rgo: 11:2: type 33 LoopOutside" >&2; exit 1')
        page = "docs/errors/type-33-loop-outside.md"
        for words in ([], ["--list"], ["--function", "main"]):
            status, out, err = self.regions(*words, self.file)
            self.assertEqual((1, ""), (status, out))
            self.assertEqual([f"{self.file}:11:2: type 33 LoopOutside", "    var l *N", "    ^"], lines(err)[:3])
            self.assertEqual(f"Read on: {page}", lines(err)[-1])

    def test_an_empty_file(self):
        self.file.write_bytes(b"")
        self.write_program('[ -z "$(cat)" ] && echo "rgo: 1:1: syntax" >&2; exit 1')
        status, out, err = self.regions(self.file)
        self.assertEqual((1, "", [f"{self.file}:1:1: syntax", "(end of the text)", "^"]), (status, out, lines(err)[:3]))

    def test_other_statuses_are_kept(self):
        self.write_program('cat >/dev/null; echo "rgo: out of memory" >&2; exit 11')
        status, out, err = self.regions(self.file)
        self.assertEqual((11, "", f"{self.file}: out of memory"), (status, out, lines(err)[0]))

    def test_wrong_words(self):
        for words in ["", "--list", "--function main", "a.go b.go", "--all a.go", "a.go --function"]:
            with self.subTest(words):
                status, out, err = self.regions(*words.split())
                self.assertEqual((64, ""), (status, out))
                self.assertIn("    regions --list FILE.go ", err)

    def test_files_and_programs_that_are_missing(self):
        self.assertEqual((66, "", "regions: cannot read none.go: No such file or directory\n"), self.regions("none.go"))
        self.assertEqual((66, "", f"regions: cannot read {self.room}: Is a directory\n"), self.regions(self.room))
        self.rgo.unlink()
        wanted = (127, "", f"regions: cannot run {self.rgo}: No such file or directory\n")
        self.assertEqual(wanted, self.regions(self.file))

    def test_a_program_that_does_not_know_emit(self):
        self.write_program('echo "usage: rgo run | check" >&2; exit 64')
        status, out, err = self.regions(self.file)
        last = f"regions: {self.rgo} does not know the command emit: build it again"
        self.assertEqual((64, "", "usage: rgo run | check", last), (status, out, lines(err)[0], lines(err)[-1]))

    def test_a_program_that_prints_something_else(self):
        self.write_program("cat")
        wanted = (70, "", f"regions: {self.rgo} printed a text that is not a code text: line 1\n")
        self.assertEqual(wanted, self.regions(self.file))

    def test_a_reader_that_stops(self):
        self.file.write_bytes(b"package main\n" * 20000 + (TEXTS / "loop.go").read_bytes())
        self.write_program(f'cat >/dev/null; cat "{TEXTS}/loop.code"')
        command = f"'{TOP}/tools/regions' '{self.file}' | head -n 1"
        env = {**os.environ, "RGO": str(self.rgo)}
        ran = subprocess.run(["sh", "-c", command], env=env, capture_output=True, timeout=60, check=False)
        self.assertEqual((0, b""), (ran.returncode, ran.stderr))
        self.assertEqual(1, ran.stdout.count(b"\n"))


class WithTheProgram(test_explain.Case):
    """What is shown with the program. It is the one that is built, or what the variable RGO names."""

    @classmethod
    def setUpClass(cls):
        cls.program = pathlib.Path(os.environ.get("RGO") or TOP / "crates" / "rgo" / "out" / "rgo").resolve()
        if not cls.program.is_file():
            raise AssertionError("no program is built at crates/rgo/out/rgo, and the variable RGO names none")
        text = (TEXTS / "field.go").read_bytes()
        ran = subprocess.run([cls.program, "emit"], input=text, capture_output=True, timeout=60, check=False)
        if ran.returncode == 64:
            raise unittest.SkipTest("the program does not know the command `emit` yet")

    def regions(self, *words):
        return self.tool("regions", *words, RGO=str(self.program))

    def test_programs_worked_out_by_hand(self):
        for name, (margin, listing) in BY_HAND.items():
            with self.subTest(name):
                self.assertEqual((0, margin, ""), self.regions(TEXTS / f"{name}.go"))
                self.assertEqual((0, listing, ""), self.regions("--list", TEXTS / f"{name}.go"))

    def test_the_examples(self):
        for path in sorted((TOP / "examples").glob("*.go")):
            with self.subTest(path.name):
                text = path.read_bytes()
                ran = subprocess.run([self.program, "emit"], input=text, capture_output=True, timeout=60, check=True)
                code, source = code_text.read(ran.stdout), region_events.Source(text)
                events = region_events.events(code, source)
                shown = "\n".join(region_events.beside(events, source, region_events.line_numbers(code, source)))
                wanted = [line.replace("\t", "    ").rstrip() for line in lines(text.decode())]
                self.assertEqual(wanted, re.findall(r"\d \|(?: (.*))?$", shown, re.MULTILINE))
                # The places of a function's events are in the function.
                for f in code.functions:
                    found = {source.line(event.place) for event in events if event.function == f.name}
                    self.assertLessEqual(found, set(region_events.line_numbers(code, source, f.name)))

    def test_a_program_that_is_rejected(self):
        self.file.write_bytes(b"package main\nfunc main() {\n\tbreak\n}\n")
        status, out, err = self.regions(self.file)
        self.assertEqual((1, ""), (status, out))
        self.assertEqual([f"{self.file}:3:2: type 33 LoopOutside", "    break", "    ^"], lines(err)[:3])


if __name__ == "__main__":
    unittest.main()
