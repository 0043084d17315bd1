"""Tests that tools/fail and tools/mutate accept what is right, and find what is wrong."""

import collections
import pathlib
import shutil
import subprocess
import sys
import tempfile
import unittest

import code_text
import error_pages
from error_pages import TOP
from test_proofs import loaded

OUT = b"1\n11\n21\n"
USUAL = (0, OUT, b"")
TRAP = (2, OUT, b"rgo: 4:5: trap 1 NilPointer\n")
MADE = b"rgo: regions 1 removed 1 pages 1 returned 1 objects 1 goroutines 1\n"
COUNTED = (0, OUT, MADE)
RECORD = (0, OUT, b"rgo picks 1\none 0\ntext\n")
NO_MEMORY, READ_FAILED, WRITE_FAILED = (f"rgo: {said}\n".encode() for said in ("out of memory", "read failed", "write failed"))
# A kind of failure, a command, the usual answer, what was found, the file of a failed call, and whether that is right.
JUDGED = [
    ("memory", "run", USUAL, USUAL, -1, True),
    ("memory", "run", USUAL, (11, b"", NO_MEMORY), -1, True),
    ("memory", "run", USUAL, (11, b"1\n11\n", NO_MEMORY), -1, True),
    ("memory", "run", USUAL, (11, OUT, NO_MEMORY), -1, True),
    ("memory", "run", USUAL, (11, b"1\n1", NO_MEMORY), -1, False),
    ("memory", "run", USUAL, (11, b"11\n", NO_MEMORY), -1, False),
    ("memory", "run", USUAL, (11, OUT + b"31\n", NO_MEMORY), -1, False),
    ("memory", "run", USUAL, (11, b"1\n", b""), -1, False),
    ("memory", "run", USUAL, (11, b"1\n", NO_MEMORY * 2), -1, False),
    ("memory", "run", USUAL, (0, b"1\n", b""), -1, False),
    ("memory", "run", USUAL, (-11, b"1\n", b""), -1, False),
    ("memory", "run", USUAL, (3, b"1\n", b"rgo: deadlock\n"), -1, False),
    ("memory", "run", TRAP, (2, OUT, b"rgo: 4:6: trap 1 NilPointer\n"), -1, False),
    ("memory", "record", RECORD, (11, b"1\n", NO_MEMORY), -1, True),
    ("memory", "record", RECORD, (11, b"1\n", RECORD[2] + NO_MEMORY), -1, False),
    ("memory", "emit", USUAL, (11, b"", NO_MEMORY), -1, True),
    ("memory", "emit", USUAL, (11, b"1\n", NO_MEMORY), -1, False),
    ("memory", "run --stats", COUNTED, (11, b"1\n", NO_MEMORY), -1, True),
    ("memory", "run --stats", COUNTED, (11, b"1\n", MADE + NO_MEMORY), -1, True),
    ("memory", "run --stats", COUNTED, (0, OUT, b""), -1, False),
    ("memory", "run", USUAL, (11, b"1\n", MADE + NO_MEMORY), -1, False),
    ("write", "run --stats", COUNTED, (10, b"1\n", MADE + WRITE_FAILED), 1, True),
    ("write", "run --stats", COUNTED, (10, OUT, b""), 2, True),
    ("read", "run", USUAL, (9, b"", READ_FAILED), 0, True),
    ("read", "run", USUAL, USUAL, 0, False),
    ("read", "run", USUAL, (9, b"1\n", READ_FAILED), 0, False),
    ("read", "run", USUAL, (9, b"", b""), 0, False),
    ("write", "run", USUAL, (10, b"1\n", WRITE_FAILED), 1, True),
    ("write", "run", USUAL, (10, b"", WRITE_FAILED), 1, True),
    ("write", "run", USUAL, (10, OUT, WRITE_FAILED), 1, False),
    ("write", "run", USUAL, (10, b"1\n1", WRITE_FAILED), 1, False),
    ("write", "run", USUAL, (0, b"1\n", b""), 1, False),
    ("write", "run", USUAL, (10, b"1\n", b""), 1, False),
    ("write", "run", TRAP, (10, OUT, b""), 2, True),
    ("write", "run", TRAP, (10, b"1\n", b""), 2, False),
    ("write", "run", TRAP, TRAP, 2, False),
    ("write", "record", RECORD, (10, OUT, b"rgo picks 1\n"), 2, True),
    ("write", "record", RECORD, (10, OUT, WRITE_FAILED), 2, False),
    ("write", "record", RECORD, (10, b"1\n", WRITE_FAILED), 1, True),
    ("write", "record", RECORD, (10, b"1\n", RECORD[2] + WRITE_FAILED), 1, False),
    ("short-write", "run", USUAL, USUAL, 1, True),
    ("short-write", "run", USUAL, (10, b"1\n", WRITE_FAILED), 1, False),
    ("thread", "run", USUAL, USUAL, -1, True),
    ("thread", "run", USUAL, (11, b"1\n", NO_MEMORY), -1, True),
    ("thread", "run", USUAL, (3, b"1\n", b"rgo: deadlock\n"), -1, False),
]
# Programs that play the part of rgo: one accepts every text, one refuses each, one crashes, one ends in no listed way, one never ends.
# How many texts are tried, and what is said of one.
FAKES = {
    "accepts": ("exit 0", 5, "Go refuses it|record: line"),
    "refuses": ("echo 'rgo: 1:1: syntax' >&2; exit 1", 5, "Go takes it|code: "),
    "crashes": ("kill -11 $$", 5, "status -11"),
    "ends otherwise": ("echo 'rgo: 1:1: tired' >&2; exit 1", 5, "status 1"),
    "hangs": ("exec sleep 60", 1, "not over after 2 seconds"),
}


class Fail(unittest.TestCase):
    def test_answers_are_judged(self):
        tool = loaded("fail")
        kinds = {kind.name: kind for kind in tool.KINDS}
        for name, word, usual, found, file, is_right in JUDGED:
            with self.subTest(f"{name} {word}", found=found):
                call = tool.Call("", word.split(), b"")
                self.assertEqual(is_right, bool(kinds[name].is_right(call, tool.Answer(*usual), tool.Answer(*found), file)))

    def test_numbers_are_spread(self):
        tool = loaded("fail")
        self.assertEqual([1, 2, 3], list(tool.numbers_of(3, 0)))
        self.assertEqual([1, 2, 3], list(tool.numbers_of(3, 3)))
        self.assertEqual([1, 50, 100], list(tool.numbers_of(100, 3)))
        self.assertEqual([1], list(tool.numbers_of(100, 1)))
        self.assertEqual([], list(tool.numbers_of(0, 3)))

    def fail(self, *words):
        command = [sys.executable, TOP / "tools" / "fail", "--most", "3", *words]
        return subprocess.run(command, capture_output=True, text=True, check=False)

    @unittest.skipUnless(shutil.which("cc"), "cc is not installed")
    def test_the_program_passes(self):
        ran = self.fail("--rgo", error_pages.program(), "check: field", "run --workers 1: field")
        self.assertEqual((0, ""), (ran.returncode, ran.stderr), ran.stdout)
        for kind in ("memory", "memory from there on", "read", "short-read"):
            self.assertRegex(ran.stdout, rf"(?m)^check: field: {kind}: [1-9]\d* failed, \d+ answers as usual$")
        self.assertRegex(ran.stdout, r"(?m)^run --workers 1: field: write: 1 failed, 0 answers as usual$")
        self.assertRegex(ran.stdout, r"(?m)^[1-9]\d* calls failed, 0 answers are wrong$")

    @unittest.skipUnless(shutil.which("cc"), "cc is not installed")
    def test_a_call_that_is_wrong_without_a_failure(self):
        with tempfile.TemporaryDirectory() as folder:
            fake = pathlib.Path(folder) / "rgo"
            fake.write_text("#!/bin/sh\ncat >/dev/null\necho 1\n")
            fake.chmod(0o755)
            ran = self.fail("--rgo", fake)
        self.assertEqual(1, ran.returncode)
        self.assertRegex(ran.stdout, r"(?m)^wrong: run --workers 1 --stats: echo: .*, and not ")


@unittest.skipUnless(shutil.which("go"), "Go is not installed")
class Mutate(unittest.TestCase):
    def mutate(self, rgo, *words):
        command = [sys.executable, TOP / "tools" / "mutate", "--rgo", rgo, *words]
        return subprocess.run(command, capture_output=True, check=False)

    def fake(self, script):
        """A program that knows `emit`, so that there are code texts to be changed, and otherwise plays its part."""
        folder = tempfile.TemporaryDirectory()
        self.addCleanup(folder.cleanup)
        path = pathlib.Path(folder.name) / "rgo"
        path.write_text(f"#!/bin/sh\n[ $1 = emit ] && exit 1\n{script}\n")
        path.chmod(0o755)
        return path

    def test_wrong_answers_are_found(self):
        for name, (script, count, said) in FAKES.items():
            with self.subTest(name):
                ran = self.mutate(self.fake(script), "--texts", str(count))
                self.assertEqual((1, b""), (ran.returncode, ran.stderr))
                self.assertRegex(ran.stdout.decode(), rf"(?m)^text \d+: .*({said})")

    def test_orders_of_steps_are_found(self):
        tool, counts = loaded("mutate"), collections.Counter()
        text = TOP.joinpath("examples", "journals", "keys.go").read_bytes()
        code = code_text.read(tool.answer(error_pages.program(), ["emit"], text).printed)
        line = "clerk {} has both keys\n".format
        for print_, end in [(line(1) + line(2), (0, "")), (line(2) + line(1), (0, "")), ("", (3, "deadlock"))]:
            tool.compare_orders(counts, code, text, tool.Ended(*end, print_.encode(), None), "runs")
        self.assertEqual({"runs in another order": 3}, counts)
        # With other numbers it counts as not found; with another text, or another end, it differs.
        tool.compare_orders(counts, code, text, tool.Ended(0, "", (line(3) + line(4)).encode(), None), "runs")
        self.assertEqual(1, counts["runs in an order that was not found, where goroutines race"])
        for print_, end in [(line(1), (0, "")), (line(1) + line(2), (3, "deadlock")), (line(2) * 2 + "x\n", (0, ""))]:
            with self.assertRaises(tool.Differs):
                tool.compare_orders(counts, code, text, tool.Ended(*end, print_.encode(), None), "runs")

    def test_texts_follow_from_the_seed(self):
        texts = [self.mutate(error_pages.program(), "--show", "7", "--seed", seed).stdout for seed in ("1", "1", "2")]
        self.assertTrue(texts[0])
        self.assertEqual(texts[0], texts[1])
        self.assertNotEqual(texts[0], texts[2])

    def test_the_program_passes(self):
        ran = self.mutate(error_pages.program(), "--texts", "100", "--first", "1000", "--jobs", "2")
        self.assertEqual((0, b""), (ran.returncode, ran.stderr), ran.stdout)
        self.assertRegex(ran.stdout.decode(), r"(?m)^ +40 code texts$")
        self.assertRegex(ran.stdout.decode(), r"(?m)^ +60 Go texts$")
        self.assertRegex(ran.stdout.decode(), r"(?m)^ +0 texts of 100 with another answer, from number 1000 of seed 1$")


if __name__ == "__main__":
    unittest.main()
