"""Tests examples/producer: programs of a tiny language as code texts that keep the rules and print what they should."""

import pathlib
import shutil
import subprocess
import sys
import tempfile
import unittest

import code_text
import error_pages
import region_runs
from error_pages import TOP

PRODUCER = TOP / "examples" / "producer"
# What each program prints, worked out by hand, and how many regions it makes.
PRINTS = {
    "primes": ([2, 3, 5, 7, 11, 13, 17, 19, 23, 29], 1),
    "squares": (["1 1", "2 5", "3 14", "4 30"], 4),
}
# Programs that are refused, and what is said.
REFUSED = {
    "print x\n": "line 1: x has no value\n",
    "x = 1\nx = list 2\n": "line 2: x has values of another type\n",
    "x = list 1\ny = x\n": "line 2: two names of one list would need one region, which this language does not have\n",
    "if true\n  x = list 1\nend\nprint x[0]\n": "a list is read that is not made on every way to it\n",
    "x = (1\n": "line 1: the end of the line where ) is wanted\n",
    "x = 1 2\n": "line 1: 2 where the end of the line is wanted\n",
    "x = 1 $ 2\n": "line 1: $ is not a part of the language\n",
    "x = 1\nend\nprint x\n": "line 2: no block is open here\n",
    "else\n": "line 1: no block is open here\n",
    "x = 1\nwhile x < 2\n  x = 2\n": "line 2: the block that begins here has no end\n",
    "while false\nelse\nend\n": "line 1: the block that begins here has no end\n",
    "if true\nelse\nelse\nend\n": "line 2: the block that begins here has no end\n",
    "if true\nend end\n": "line 2: end where the end of the line is wanted\n",
}


def compiled(file):
    ran = subprocess.run([sys.executable, PRODUCER / "calc.py", file], capture_output=True, text=True, check=False)
    return ran.returncode, ran.stdout, ran.stderr


class Calculator(unittest.TestCase):
    def test_programs_keep_the_rules_and_print_what_they_should(self):
        for name, (prints, regions) in PRINTS.items():
            with self.subTest(name):
                status, text, said = compiled(PRODUCER / f"{name}.calc")
                self.assertEqual((0, ""), (status, said))
                code = code_text.read(text.encode())
                self.assertIsNone(code_text.check(code))
                out = []
                run = region_runs.run(code, region_runs.limits_of({}), out.append)
                self.assertEqual("".join(f"{line}\n" for line in prints), b"".join(out).decode())
                self.assertEqual((regions, regions), (len(run.regions), run.removed))

    def test_the_program_runs_what_is_compiled(self):
        if not shutil.which(error_pages.program()):
            self.skipTest("no program is built")
        for name, (prints, regions) in PRINTS.items():
            with self.subTest(name):
                text = compiled(PRODUCER / f"{name}.calc")[1]
                words = [error_pages.program(), "runcode", "--stats"]
                ran = subprocess.run(words, input=text, capture_output=True, text=True, check=False)
                self.assertEqual((0, "".join(f"{line}\n" for line in prints)), (ran.returncode, ran.stdout))
                self.assertTrue(ran.stderr.startswith(f"rgo: regions {regions} removed {regions} "), ran.stderr)

    def test_a_trap_is_at_the_line_of_the_calculator(self):
        if not shutil.which(error_pages.program()):
            self.skipTest("no program is built")
        with tempfile.TemporaryDirectory() as folder:
            file = pathlib.Path(folder) / "a.calc"
            file.write_text("x = 0\nprint 1\nprint 1 / x\n")
            words = [error_pages.program(), "runcode"]
            ran = subprocess.run(words, input=compiled(file)[1], capture_output=True, text=True, check=False)
        self.assertEqual((2, "1\n", "rgo: @3: trap 3 DivideZero\n"), (ran.returncode, ran.stdout, ran.stderr))

    def test_the_document_shows_the_program_and_its_lines(self):
        page = TOP.joinpath("docs", "CODE_TEXT.md").read_text(encoding="utf-8")
        self.assertIn(PRODUCER.joinpath("squares.calc").read_text(encoding="utf-8"), page)
        text = compiled(PRODUCER / "squares.calc")[1]
        for line in ("5 @4 +[r4] slice v4 v1 -[]", "27 @12 +[] branch v20 28 -[] 35 -[r4]"):
            self.assertIn(f"`{line}`", page)
            self.assertIn(f"\n{line}\n", text)

    def test_what_is_wrong_is_said(self):
        with tempfile.TemporaryDirectory() as folder:
            file = pathlib.Path(folder) / "a.calc"
            for text, said in REFUSED.items():
                with self.subTest(text):
                    file.write_text(text)
                    status, _, error = compiled(file)
                    self.assertEqual((1, said), (status, error))


if __name__ == "__main__":
    unittest.main()
