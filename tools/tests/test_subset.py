"""Tests tools/subset, docs/PORTING.md and the programs of examples/porting.

tools/tests/subset has programs as people write them in Go, and `found_by_go.txt` what Go's own parser and type checker find
in them and in those of examples/porting, by `features.go`.
"""

import os
import pathlib
import random
import re
import shutil
import subprocess
import sys
import tempfile
import unittest

import error_pages
import go_programs
import go_subset
import journals
from go_subset import find_statements, find_values, library, tokens
from error_pages import TOP

SUBSET = TOP / "tools" / "subset"
FOLDER = TOP / "tools" / "tests" / "subset"
FEATURES = FOLDER / "features.go"
PORTING = TOP / "docs" / "PORTING.md"
PORTED = sorted((TOP / "examples" / "porting").glob("*/before.go"))
PROGRAMS = [*(path for path in sorted(FOLDER.glob("*.go")) if path != FEATURES), *PORTED]
HEADINGS = re.findall(r"^### (.+)$", PORTING.read_text(encoding="utf-8"), re.MULTILINE)
# What Go has only since version 1.21.
NEW_IN_GO = {"range over a number", "min and max", "clear"}
# Texts that are no Go, and the first place at which Go's parser says so.
BROKEN = [
    ("package main\nfunc main() {\n\tx := := 1\n\ty := 2 +\n}\n", "3:7"),
    ("package main\nfunc main() {\n\tif {\n\t}\n}\n", "3:5"),
    ("package main\nfunc main() {\n\tfor i := range {\n\t}\n}\n", "3:17"),
    ("package main\nvar x int = \nfunc main() { }}\n", "3:6"),
    ("fucn main() {\n}\n", "1:1"),
    ("package main\nfucn main() {\n}\n", "2:1"),
    ("package main\nfunc main() { f(1, 2 }\n", "2:22"),
    ("package main\nfunc main()\n{\n}\n", "3:1"),
    ("package main\ntype T struct { a int b int }\n", "2:23"),
    ("package main\nfunc main() {\n\tx = [1, 2]\n}\n", "3:8"),
    ("package main\nfunc main() {\n\twhile x { }\n}\n", "3:8"),
    ("package main\nfunc f(a int b int) {\n}\n", "2:14"),
    ("package main\nfunc f() {\n\tx := T{1,\n\t2\n\t}\n}\n", "4:3"),
    ("\x00\x01 @ #", "1:1"),
    ("", "1:1"),
]


def constructs_by_line(text):
    """What tools/subset finds in a text, as lines with constructs."""
    lines = tokens.Lines(text)
    return {(lines.place(at)[0], construct) for at, construct, _ in go_subset.finds(text)}


def constructs(text):
    return {construct for _, construct, _ in go_subset.finds(text)}


def found_by_go():
    """What Go finds, by the names of the files."""
    found = {}
    for line in FOLDER.joinpath("found_by_go.txt").read_text(encoding="ascii").splitlines():
        if line.endswith(".go"):
            found[line] = seen = set()
        else:
            number, construct = line.split(maxsplit=1)
            seen.add((int(number), construct))
    return found


def whole(block):
    """A block of docs/PORTING.md as a whole program."""
    if block.startswith("package "):
        return block
    head = 'package main\n\nimport "fmt"\n\n'
    return head + (block if "func main()" in block else f"func main() {{\n{block}}}\n")


def sections():
    """The headings of docs/PORTING.md, each with its blocks: before, after and print, once or several times."""
    for section in re.split(r"^##+ ", PORTING.read_text(encoding="utf-8"), flags=re.MULTILINE):
        heading, _, rest = section.partition("\n")
        blocks = error_pages.BLOCK.findall(rest)
        if heading in HEADINGS:
            yield heading, [blocks[at : at + 3] for at in range(0, len(blocks), 3)]


def tool(*words, **streams):
    streams = {"stdout": subprocess.PIPE, "stderr": subprocess.PIPE, **streams}
    ran = subprocess.run([sys.executable, "-S", SUBSET, *words], cwd=TOP, timeout=60, check=False, **streams)
    return ran.returncode, (ran.stdout or b"").decode(), ran.stderr.decode()


class Finds(unittest.TestCase):
    def test_all_that_go_finds(self):
        wanted = found_by_go()
        self.assertEqual([str(path.relative_to(TOP)) for path in PROGRAMS], list(wanted))
        compared = set().union(*({construct for _, construct in found} for found in wanted.values()))
        for name, found in wanted.items():
            with self.subTest(name):
                seen = constructs_by_line(TOP.joinpath(name).read_text(encoding="utf-8"))
                self.assertEqual(found, {one for one in seen if one[1] in compared})

    def test_nothing_in_programs_of_the_language(self):
        paths = [path for path in TOP.glob("examples/**/*.go") if path.name != "before.go"]
        texts = {path.name: path.read_text(encoding="utf-8") for path in paths}
        for page in map(error_pages.read_page, error_pages.page_paths()):
            if not error_pages.is_of_code(page):
                is_journal = page.corrected.startswith(journals.FIRST)
                texts[page.path.name] = (journals.read(page.corrected).rest if is_journal else page.corrected).decode()
        texts |= {seed: go_programs.Program(seed).text() for seed in range(10)}
        for name, text in texts.items():
            with self.subTest(name):
                self.assertEqual([], go_subset.finds(text))

    def test_texts_that_are_no_go(self):
        for text, place in BROKEN:
            with self.subTest(text):
                lines = tokens.Lines(text)
                faults = [at for at, construct, _ in go_subset.finds(text) if construct == go_subset.NOT_GO]
                self.assertEqual(place, "%d:%d" % lines.place(faults[0]))

    def test_what_follows_a_fault_is_read(self):
        found = constructs("package main\nfunc f() {\n\tx := )\n\tdefer f()\n}\nvar := 3\nfunc (t *T) g() {\n\tswitch {\n\t}\n}\n")
        self.assertLessEqual({"defer", "method", "switch"}, found)

    def test_mutants_are_read(self):
        chance = random.Random(1)
        texts = [path.read_text(encoding="utf-8") for path in PROGRAMS]
        for number in range(120):
            words = re.findall(r"\w+|\s+|.", chance.choice(texts))
            for _ in range(chance.randint(1, 4)):
                at = chance.randrange(len(words))
                others = [[], [words[at]] * 2, [chance.choice(words)], ["}"], ["("], ["\n"]]
                words[at : at + chance.randint(0, 2)] = chance.choice(others)
            with self.subTest(number):
                go_subset.finds("".join(words))


class Page(unittest.TestCase):
    def test_each_construct_has_a_section(self):
        source = "".join(path.read_text(encoding="utf-8") for path in pathlib.Path(go_subset.__file__).parent.glob("*.py"))
        named = set(re.findall(r'self\.note\([^"\n]*"(\w[^"]+)"', source)) | {"range"}
        for table in (library.PACKAGES, find_statements.RANGES, find_values.BUILTINS):
            named |= set(table.values())
        self.assertEqual(set(), named - set(HEADINGS) - {"error"})
        self.assertEqual(len(HEADINGS), len(set(HEADINGS)))

    def test_each_section_is_before_and_after(self):
        for heading, triples in sections():
            with self.subTest(heading):
                self.assertGreater(len(triples), 0)
                for triple in triples:
                    self.assertEqual(["go", "go", ""], [language for language, _ in triple])
                    (_, before), (_, after), _ = triple
                    self.assertIn(heading, constructs(whole(before)))
                    self.assertEqual([], go_subset.finds(whole(after)))

    def test_the_table_of_programs(self):
        rows = re.findall(r"^\| `(\w+)` \| (\d+) \| (\d+) \| (\d+) \|", PORTING.read_text(encoding="utf-8"), re.MULTILINE)
        self.assertEqual([path.parent.name for path in PORTED], sorted(row[0] for row in rows))
        for name, *counts in rows:
            before, after = (TOP.joinpath("examples", "porting", name, part).read_text() for part in ("before.go", "after.go"))
            found = [len(before.splitlines()), len(go_subset.finds(before)), len(after.splitlines())]
            self.assertEqual(found, list(map(int, counts)), name)

    def test_lines_are_not_too_long(self):
        self.assertEqual([], [line for line in PORTING.read_text(encoding="utf-8").splitlines() if len(line) > 120])


class WithTheProgram(unittest.TestCase):
    @classmethod
    def setUpClass(cls):
        cls.program = pathlib.Path(error_pages.program()).resolve()
        if cls.program == TOP / "rgo":
            raise AssertionError("no program is built at crates/rgo/out/rgo, and the variable RGO names none")

    def run_text(self, text):
        ran = subprocess.run([self.program, "run"], input=text.encode(), capture_output=True, timeout=60, check=False)
        return ran.returncode, ran.stdout.decode(), ran.stderr.decode()

    def test_what_is_written_instead_prints_the_same(self):
        for heading, triples in sections():
            for _, (_, after), (_, printed) in triples:
                with self.subTest(heading):
                    self.assertEqual((0, printed, ""), self.run_text(whole(after)))

    def test_the_programs_that_were_ported(self):
        self.assertGreaterEqual(len(PORTED), 5)
        for path in PORTED:
            with self.subTest(path.parent.name):
                wanted = path.with_name("print.out").read_text(encoding="ascii")
                self.assertEqual((0, wanted, ""), self.run_text(path.with_name("after.go").read_text(encoding="ascii")))


@unittest.skipUnless(shutil.which("go"), "Go is not installed")
class WithGo(unittest.TestCase):
    def features(self, *paths):
        env = {**os.environ, "GO111MODULE": "off"}
        command = ["go", "run", FEATURES, "--", *paths]
        ran = subprocess.run(command, cwd=TOP, env=env, capture_output=True, text=True, timeout=300, check=False)
        self.assertEqual("", ran.stderr)
        return ran.stdout

    def test_what_go_finds_is_written_down(self):
        wanted = FOLDER.joinpath("found_by_go.txt").read_text(encoding="ascii")
        self.assertEqual(wanted, self.features(*(path.relative_to(TOP) for path in PROGRAMS)))

    def test_go_takes_what_the_page_shows(self):
        with tempfile.TemporaryDirectory() as folder:
            paths = []
            for heading, triples in sections():
                for part, block in enumerate(block for triple in triples for _, block in triple[:2]):
                    if part % 2 or heading not in NEW_IN_GO:
                        paths.append(pathlib.Path(folder, f"{len(paths)}.go"))
                        paths[-1].write_text(whole(block), encoding="utf-8")
            self.features(*paths, *(path.with_name("after.go") for path in PORTED))


class Command(unittest.TestCase):
    def setUp(self):
        folder = tempfile.TemporaryDirectory()
        self.addCleanup(folder.cleanup)
        self.file = pathlib.Path(folder.name, "a file.go")
        self.file.write_text('package main\nfunc main() {\n\tdefer f()\n\tx := "é" + 1<<3\n\tdefer f()\n}\n', encoding="utf-8")

    def test_places_with_what_to_write(self):
        status, out, err = tool(self.file)
        self.assertEqual((1, ""), (status, err))
        first, second = (out.index(f"{self.file}:{place}: defer\n    defer f()\n    ^\n") for place in ("3:2", "5:2"))
        self.assertTrue(0 == first < second)
        self.assertEqual(1, out.count("Call the function before each `return`"))
        self.assertIn("Read on: docs/PORTING.md#defer\n", out)
        # The column counts bytes, and the caret what a terminal shows.
        self.assertIn(f"{self.file}:4:12: string\n    x := \"é\" + 1<<3\n", out)
        self.assertIn(f"4:15: bit operator\n    x := \"é\" + 1<<3\n                ^\n", out)
        self.assertRegex(" ".join(out.split("\n\n")[-1].split()), r": 5 places: defer 2, string 2, bit operator 1$")

    def test_one_line_for_each_place(self):
        places = [(3, 2, "defer"), (4, 7, "string"), (4, 12, "string"), (4, 15, "bit operator"), (5, 2, "defer")]
        lines = "".join(f"{self.file}:{line}:{column}: {name}\n" for line, column, name in places)
        self.assertEqual((1, lines, ""), tool("--lines", self.file))

    def test_a_program_of_the_language(self):
        self.assertEqual((0, "examples/hello.go: no such place; `rgo check` decides\n", ""), tool("examples/hello.go"))
        self.assertEqual((0, "", ""), tool("--lines", "examples/hello.go"))

    def test_help(self):
        status, out, err = tool("--help")
        self.assertEqual((0, ""), (status, err))
        self.assertIn("tools/subset [--lines] FILE.go", out)

    def test_wrong_words_and_files(self):
        other = self.file.with_name("other")
        other.write_bytes(b"package main // \xff\n")
        deep = self.file.with_name("deep.go")
        deep.write_text("package main\nvar x = " + "(" * 50000 + "1" + ")" * 50000 + "\n")
        cases = [
            (["none.go"], 66, "subset: none.go: No such file or directory\n"),
            ([TOP / "docs"], 66, f"subset: {TOP / 'docs'}: Is a directory\n"),
            ([other], 66, f"subset: {other} is not UTF-8: byte 17 belongs to no character\n"),
            ([deep], 66, f"subset: {deep} is nested too deeply; rgo takes 200 levels\n"),
            ([], 64, None), (["a", "b"], 64, None), (["--all", "a"], 64, None), (["--lines"], 64, None),
        ]  # fmt: skip
        for words, status, said in cases:
            with self.subTest(words):
                ran, out, err = tool(*words)
                self.assertEqual((status, ""), (ran, out))
                self.assertEqual(said or err, err)
                self.assertNotIn("Traceback", err)

    def test_an_output_that_cannot_be_written(self):
        with open("/dev/full", "wb") as full:
            for words in [["--help"], [self.file]]:
                self.assertEqual((74, "", "subset: cannot write: No space left on device\n"), tool(*words, stdout=full))
        for end, status in [(">&-", 74), (">&- 2>&-", 74), ("2>&-", 0)]:
            command = ["sh", "-c", f'"$0" -S "$1" examples/hello.go {end}', sys.executable, SUBSET]
            ran = subprocess.run(command, cwd=TOP, capture_output=True, check=False)
            self.assertEqual(status, ran.returncode)
            self.assertNotIn(b"Traceback", ran.stderr)
        reader, writer = os.pipe()
        os.close(reader)
        with open(writer, "wb") as closed:
            self.assertEqual((141, "", ""), tool(self.file, stdout=closed))


if __name__ == "__main__":
    unittest.main()
