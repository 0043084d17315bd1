"""Tests what tools/regions --warn prints, and what tools/rgor and tools/explain say after `pages spent`: by hand, and with the
program."""

import pathlib
import subprocess
import unittest

import code_text
import error_pages
import growth
import region_events
import region_runs
import region_warnings
import test_explain
from code_vectors import TEXTS, TOP
from test_regions import main_of, read

# What is sent in a loop is in the region of the channel.
SENDING = "func main() { c := make(chan *N, 9); for { m := new(N); c <- m } }"
SENDING_CODE = """struct N int *N
func main 0 - -
var int -
var chan.*N r0
var chan.*N r0
var *N r0
var *N r0
entry -[]
0 @<9> +[] int v0 9 -[]
1 @<make> +[r0] chan v1 v0 -[]
2 @<:= make> +[] copy v2 v1 -[]
3 @<new> +[] new v3 N -[]
4 @<:= new> +[] copy v4 v3 -[]
5 @<<- m> +[] send v2 v4 -[]
6 @<for> +[] jump 3 -[]
end
"""
SENT = """\
a.go:1:49: main: a loop makes a new N in the older region of `c`
    1:46: main: `m` becomes the new N
    1:59: main: `m` is sent to `c`
    So `c` and `m` and all that they lead to are in one region.
    The region is created at 1:20 in main.
"""
LOOP = """\
loop.go:13:7: main: a loop makes a new N in the older region of `l`
    13:7: main: `l` is stored in the new N
    The region is created at 11:6 in main.
"""


def warned(text, code, name="a.go", function=None):
    program = region_warnings.Program(*read(text, code))
    return "".join(f"{line}\n" for line in region_warnings.lines(program, name, function))


def texts_of(name):
    code = (TEXTS / f"{name}.code").read_text(encoding="ascii")
    return (TEXTS / f"{name}.go").read_text(encoding="ascii"), code.removeprefix("rgo code 1\n")


class Warnings(unittest.TestCase):
    def test_what_is_sent(self):
        self.assertEqual(SENT, warned(SENDING, SENDING_CODE))
        self.assertEqual(SENT, warned(SENDING, SENDING_CODE, function="main"))
        self.assertEqual("", warned(SENDING, SENDING_CODE, function="other"))

    def test_a_structure_that_is_built(self):
        self.assertEqual(LOOP, warned(*texts_of("loop"), "loop.go"))

    def test_a_region_for_each_turn(self):
        code = SENDING_CODE.replace("+[] new v3 N -[]", "+[r1] new v3 N -[]").replace("send v2 v4 -[]", "send v2 v4 -[r1]")
        self.assertEqual("", warned(SENDING, code.replace("var *N r0", "var *N r1")))

    def test_no_loop(self):
        for name in ["calls", "field", "globals", "goroutines"]:
            with self.subTest(name):
                self.assertEqual("", warned(*texts_of(name)))

    def test_a_region_that_is_new_on_one_way_only(self):
        text = "func main() { for { x; y } }"
        instructions = ["@<x> +[] bool v1 true -[]", "@<x> +[] branch v1 2 -[] 3 -[]", "@<y> +[r0] nil v0 -[]"]
        instructions += ["@<y> +[] new v0 N -[]", "@<y> +[] jump 1 -[]"]
        said = warned(text, main_of(["*N r0", "bool -"], *instructions))
        self.assertEqual("a.go:1:24: main: a loop makes ", said[:30])
        self.assertEqual("", warned(text, main_of(["*N r0", "bool -"], *(line.replace("branch v1 2", "branch v1 4").replace("3 -[]", "2 -[]") for line in instructions))))

    def test_variables_without_names(self):
        instructions = [f"@<{{ for> +[] copy v{d} v{a} -[]" for d, a in [(0, 1), (1, 0)]]
        instructions += ["@<x> +[] new v2 N -[]", "@<x> +[] store v2 0 v0 -[]", "@<for> +[] jump 2 -[]"]
        said = warned("func main() { for { x } }", "struct N *N\n" + main_of(["*N r0"] * 3, *instructions)).splitlines()
        self.assertEqual("a.go:1:21: main: a loop makes a new N in the older region of a value", said[0])
        self.assertEqual("    1:21: main: a value is stored in the new N", said[1])

    def test_package_variables(self):
        text = "var g []int; func main() { for { g = make([]int, 1) } }"
        code = "global g []int\n" + main_of(["int -", "[]int G"], "@<1> +[] int v0 1 -[]", "@<make> +[] slice v1 v0 -[]", "@<= make> +[] set g v1 -[]", "@<for> +[] jump 0 -[]")
        said = warned(text, code).splitlines()
        self.assertEqual("a.go:1:38: main: a loop makes a new slice in the older region of the package variables", said[0])
        self.assertEqual("    1:36: main: the new slice is assigned to the package variable `g`", said[1])
        self.assertEqual("    The region is that of the package variables, which is never removed.", said[-1])


class Growth(unittest.TestCase):
    def said(self, **limits):
        code, source = read(SENDING, SENDING_CODE)
        return growth.said_of(region_runs.run(code, region_runs.Limits(**limits)), source, "a.go")

    def test_the_region_with_the_most_pages(self):
        wanted = [
            "In a repeated run, after 11 steps, the region that main creates at 1:20 has 1 of 1 pages, with 3 objects.",
            "Most of these, 2, are made at 1:49 in main.",
        ]
        self.assertEqual(wanted, self.said(pages=1, page_words=16)[:2])

    def test_nothing_has_a_page(self):
        self.assertEqual([], self.said(pages=0))

    def test_options(self):
        for words, pages in [([], 4096), (["--pages", "7"], 7), (["--workers", "2", "--pages=7", "--stats"], 7), (["--pages", "x"], None)]:
            with self.subTest(words):
                found = growth.limits_of(words)
                self.assertEqual(pages, found and found.pages)


class Commands(test_explain.Case):
    """tools/rgor and tools/explain with a program that prints a code text, or reports `pages spent`."""

    def setUp(self):
        super().setUp()
        self.file.write_bytes((TEXTS / "loop.go").read_bytes())
        self.rgo = self.room / "rgo"
        self.rgo.write_text(f'#!/bin/sh\ncat >/dev/null\n[ $1 = emit ] && exec cat "{TEXTS}/loop.code"\necho "rgo: pages spent" >&2\nexit 4\n')
        self.rgo.chmod(0o755)

    def test_after_pages_spent(self):
        # The real loop ends after three objects: in a page of 16 words and with one page it never meets the limit.
        status, out, err = self.tool("rgor", self.file, "--steps", "20", RGO=str(self.rgo))
        self.assertEqual((4, "", f"{self.file}: pages spent"), (status, out, err.splitlines()[0]))
        status, out, err = self.tool("explain", self.file, said=b"rgo: pages spent\n", RGO=str(self.rgo))
        self.assertEqual((0, f"{self.file}: pages spent", ""), (status, out.splitlines()[0], err))

    def test_without_a_program(self):
        status, out, err = self.tool("explain", self.file, said=b"rgo: pages spent\n", RGO=str(self.room / "none"))
        self.assertEqual((0, f"{self.file}: pages spent", ""), (status, out.splitlines()[0], err))

    def test_the_command(self):
        wanted = LOOP.replace("loop.go", str(self.file))
        self.assertEqual((0, wanted, ""), self.tool("regions", "--warn", self.file, RGO=str(self.rgo)))
        self.assertEqual((64, ""), self.tool("regions", "--warn", "--list", self.file, RGO=str(self.rgo))[:2])


# The lines of the guide's programs in which a loop makes an object in an older region, by hand: those of the pitfalls, of
# which each keeps what its loop makes, and those that only build a list.
LINES = {
    "best": [19],
    "current": [24],
    "queue": [37],
    "messages": [12],
    "report": [18, 37],
    "state": [19, 20],
    "server": [13, 13, 34],
    "lists": [13],
    "shared": [13],
}
# The programs in which each turn of a loop has regions of its own, or nothing is made in a loop.
NONE = """apart best_copied current_passed either object result scratch server_jobs state_in_turns tree twice workers""".split()


class WithTheProgram(test_explain.Case):
    """What is printed of the guide's programs. The program is the one that is built, or what the variable RGO names."""

    @classmethod
    def setUpClass(cls):
        cls.program = pathlib.Path(error_pages.program()).resolve()
        if not cls.program.is_file():
            raise AssertionError("no program is built at crates/rgo/out/rgo, and the variable RGO names none")

    def warned_lines(self, name):
        text = (TOP / "examples" / "regions" / f"{name}.go").read_bytes()
        ran = subprocess.run([self.program, "emit"], input=text, capture_output=True, timeout=60, check=True)
        source = region_events.Source(text)
        program = region_warnings.Program(code_text.read(ran.stdout), source)
        return sorted(source.line(warning.place) for warning in program.warnings())

    def test_the_programs_of_the_guide(self):
        for name, lines in {**LINES, **dict.fromkeys(NONE, [])}.items():
            with self.subTest(name):
                self.assertEqual(lines, self.warned_lines(name))

    def test_what_grew(self):
        # One region that grows, that of the package variables, and as many regions as pages.
        for name, words in [
            ("queue", ["has 7 of 7 pages", "895, are made at 16:7 in add", "regions --warn "]),
            ("current", ["the package variables, which is never removed, has 7 of 7", "at 24:13 in main", "regions --warn "]),
            ("scratch", ["the 7 live regions that total creates at 9:9 have 7 of 7", "at 9:9 in total", "recursion"]),
        ]:
            with self.subTest(name):
                path = TOP / "examples" / "regions" / f"{name}.go"
                status, out, err = self.tool("rgor", path, "--pages", "7", RGO=str(self.program))
                self.assertEqual((4, "", f"{path}: pages spent"), (status, out, err.splitlines()[0]))
                for found, wanted in zip(err.splitlines()[-3:], words):
                    self.assertIn(wanted, found)


if __name__ == "__main__":
    unittest.main()
