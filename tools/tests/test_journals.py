"""Tests journals, which reads, writes and follows journals of runs, tools/replay-at and docs/JOURNALS.md: by hand, and beside
the program.
"""

import os
import pathlib
import subprocess
import tempfile
import unittest

import code_text
import error_pages
import journals
import region_events
import region_runs
import test_guide
import test_pictures
from code_vectors import TEXTS, TOP


def picks(*lines):
    """The text of a journal with these picks. A pick may be followed by how often it is repeated."""
    repeated = [line for line in lines for line in [line.partition(" * ")[0]] * int(line.partition(" * ")[2] or 1)]
    return "".join(f"{line}\n" for line in ["rgo picks 1", *repeated, "text"]).encode()


def followed(name, *lines):
    """What follows from picks of one of tools/code_texts: the run, what it prints, and where its goroutines are."""
    printed = []
    code = code_text.read(TEXTS.joinpath(f"{name}.code").read_bytes())
    found = journals.follow(code, journals.read(picks(*lines)), journals.ENOUGH, printed.append)
    source = region_events.Source(TEXTS.joinpath(f"{name}.go").read_bytes())
    return found, b"".join(printed), list(journals.standing(found, source))


class Text(unittest.TestCase):
    """The form of a journal."""

    def test_a_journal(self):
        text = b"rgo picks 1\none 0\nmeet 0 4294967295\ncase 1 2\ncasemeet 3 2 1\ntext\npackage main\ntext\n"
        found = journals.read(text)
        self.assertEqual([("one", 0), ("meet", 0, 4294967295), ("case", 1, 2), ("casemeet", 3, 2, 1)], found.picks)
        self.assertEqual(b"package main\ntext\n", found.rest)
        self.assertEqual(journals.Journal([], b""), journals.read(b"rgo picks 1\ntext\n"))

    def test_the_first_line_without_a_form(self):
        for text, line in [
            (b"", 1),
            (b"rgo picks 2\ntext\n", 1),
            (b"rgo picks 1", 1),
            (b"text\n", 1),
            (b"rgo picks 1\n", 2),
            (b"rgo picks 1\ntext", 2),
            (b"rgo picks 1\none 0\n", 3),
            *((b"rgo picks 1\none 0\n" + bad + b"\ntext\n", 3) for bad in BAD),
        ]:
            with self.subTest(text):
                with self.assertRaises(journals.NoForm) as found:
                    journals.read(text)
                self.assertEqual(line, found.exception.line)


BAD = [b"", b"one", b"one 0 0", b"one  0", b"one 00", b"one 4294967296", b"one -1", b"One 0", b"meet 0", b"one 0 ", b"one 0\r", b"rgo picks 1"]
# Worked out by hand: all of `main` of tools/code_texts/goroutines.go up to its first receive, and then `add` up to its send.
FIRST = ["one 0 * 10", "one 1 * 4"]


class Following(unittest.TestCase):
    """Runs that follow a journal, worked out by hand."""

    def test_one_object(self):
        for taken, end, printed, standing in [
            (0, None, b"", ["goroutine 0: main, 5:7", "    x := new(N)"]),
            (4, None, b"0\n", ["goroutine 0: main, 7:1", "    }"]),
            (5, region_runs.EXIT, b"0\n", ["1 goroutine has ended"]),
        ]:
            with self.subTest(taken):
                found, out, places = followed("field", f"one 0 * {taken}") if taken else followed("field")
                self.assertEqual((taken, end, False), (found.taken, found.end, found.is_stuck))
                self.assertEqual((printed, standing), (out, places))

    def test_a_step_that_there_is_not(self):
        for lines, taken in [
            (["one 0 * 6"], 5),
            (["meet 0 1", "one 0"], 0),
            (["one 1"], 0),
            (["one 0", "case 0 0"], 1),
            (["one 0", "casemeet 0 0 0"], 1),
        ]:
            with self.subTest(lines):
                found, _, _ = followed("field", *lines)
                self.assertEqual((taken, True), (found.taken, found.is_stuck))

    def test_a_meeting(self):
        _, _, places = followed("goroutines", *FIRST)
        self.assertEqual(
            [
                "goroutine 0: main, 20:14: is about to receive from the channel made at 18:7, with goroutine 1",
                "    fmt.Println(<-d, <-d)",
                "goroutine 1: add, 12:4: is about to send to the channel made at 18:7, with goroutine 0",
                "    d <- s + b.v",
            ],
            places,
        )
        for alone in ("one 0", "one 1", "meet 1 0", "meet 0 0"):
            with self.subTest(alone):
                self.assertTrue(followed("goroutines", *FIRST, alone)[0].is_stuck)
        found, printed, places = followed("goroutines", *FIRST, "meet 0 1", "one 1 * 2", "one 0 * 3")
        self.assertEqual((20, region_runs.EXIT, b"42 0\n"), (found.taken, found.end, printed))
        self.assertEqual(["2 goroutines have ended"], places)

    def test_who_waits(self):
        _, _, places = followed("goroutines", *FIRST, "meet 0 1")
        self.assertEqual("goroutine 0: main, 20:19: waits to receive from the channel made at 18:7", places[0])
        _, _, places = followed("goroutines", *FIRST, "meet 0 1", "one 1")
        self.assertEqual("goroutine 0: main, 20:19: is about to receive from the channel made at 18:7", places[0])


class WithTheProgram(test_pictures.Case):
    """Journals that region_runs has noted, and tools/replay-at."""

    def call(self, room, *words):
        words = [TOP / "tools" / "replay-at", *words, "a.go"]
        env = {**os.environ, "RGO": str(self.program)}
        ran = subprocess.run(words, cwd=room, env=env, capture_output=True, text=True, timeout=60, check=False)
        return ran.returncode, ran.stdout, ran.stderr

    def replayed(self, text, journal):
        """What `rgo replay` answers and prints for a journal and a program, and the last line that it reports."""
        ran = self.rgo(journal + text, "replay")
        return ran.returncode, ran.stdout, ran.stderr.decode()

    def test_runs_are_replayed(self):
        """What region_runs notes of its runs is replayed by the program, with the same print and end."""
        examples = [path.read_text() for path in sorted(TOP.glob("examples/*.go"))]
        for text in [*test_pictures.programs(), *examples]:
            with self.subTest(text):
                code = test_pictures.code_of(self.rgo(text.encode(), "emit").stdout)
                noted, printed = [], []
                ran = region_runs.run(code, region_runs.Limits(steps=20000), printed.append, noted)
                journal = journals.write(noted)
                status, out, err = self.replayed(text.encode(), journal)
                self.assertEqual(b"".join(printed), out)
                # Limits of a run are none of a replay. A run whose steps were spent may be at a deadlock.
                wanted = {0: [0], 2: [2], 3: [3], 8: [13, 3]}.get(ran.end.status, [13])
                self.assertIn(status, wanted)
                if status == 2:
                    self.assertRegex(err, rf"\Argo: \d+:\d+: {ran.end.said}\n\Z")
                again = []
                found = journals.follow(code, journals.read(journal), journals.ENOUGH, again.append)
                self.assertFalse(found.is_stuck)
                self.assertEqual((printed, status), (again, found.end.status if found.end else 13))

    def test_recorded_runs(self):
        """What `rgo record` writes is what region_runs notes of the same run, and is replayed with the same print and end."""
        for text in [*test_pictures.programs(), *(path.read_text() for path in sorted(TOP.glob("examples/*.go")))]:
            with self.subTest(text):
                ran = self.rgo(text.encode(), "record", "--steps", "20000")
                code = test_pictures.code_of(self.rgo(text.encode(), "emit").stdout)
                noted, printed = [], []
                end = region_runs.run(code, region_runs.Limits(steps=20000), printed.append, noted).end
                journal = journals.write(noted)
                self.assertEqual((end.status, b"".join(printed)), (ran.returncode, ran.stdout))
                self.assertEqual(journal, ran.stderr[: len(journal)])
                status, out, _ = self.replayed(text.encode(), journal)
                self.assertEqual(ran.stdout, out)
                # If the steps were spent just when all wait, the replay is a deadlock.
                own = ran.returncode in (0, 2, 3)
                self.assertIn(status, [ran.returncode] if own else [13, 3] if ran.returncode == 8 else [13])

    def test_runs_that_lack_room(self):
        """A run that met a limit is replayed up to there, and some goroutine has a step then."""
        for text in test_pictures.programs():
            for limit in ("--pages=1", "--regions=1", "--page-words=16", "--goroutines=2"):
                with self.subTest(text, limit=limit):
                    ran = self.rgo(text.encode(), "record", "--steps=20000", limit)
                    journal = ran.stderr[: ran.stderr.index(b"\ntext\n") + len(b"\ntext\n")]
                    status, out, _ = self.replayed(text.encode(), journal)
                    self.assertEqual(ran.stdout, out)
                    wanted = {0: [0], 2: [2], 3: [3], 8: [13, 3]}.get(ran.returncode, [13])
                    self.assertIn(status, wanted)

    def test_the_tool(self):
        text = b"package main\nfunc main() {\n\tc := make(chan int)\n\tc <- 1\n}\n"
        noted = []
        region_runs.run(test_pictures.code_of(self.rgo(text, "emit").stdout), region_runs.Limits(), picks=noted)
        journal = journals.write(noted)
        steps = len(journals.read(journal).picks)
        waits = "goroutine 0: main, 4:4: waits to send to the channel made at 3:7\n    c <- 1\n"
        with tempfile.TemporaryDirectory() as room:
            for name, data in {
                "a.go": text, "a.picks": journal, "b.picks": picks("one 1"), "c.picks": b"rgo picks 1\none\ntext\n"
            }.items():  # fmt: skip
                pathlib.Path(room, name).write_bytes(data)
            self.assertEqual((0, f"after {steps} steps: deadlock\n{waits}", ""), self.call(room, "a.picks"))
            status, out, err = self.call(room, "--after", "0", "a.picks")
            self.assertEqual((0, "after 0 steps: the run can go on", ""), (status, out.splitlines()[0], err))
            status, out, err = self.call(room, "b.picks")
            self.assertEqual((1, "after 0 steps: the next line has no step"), (status, out.splitlines()[0]))
            self.assertEqual("replay-at: b.picks: line 2: pick\n", err)
            self.assertEqual((1, "", "replay-at: c.picks: line 2: picks text\n"), self.call(room, "c.picks"))


class Page(test_pictures.Case):
    """docs/JOURNALS.md: its commands, one after the other in one folder."""

    def test_commands_print_what_is_shown(self):
        page = TOP.joinpath("docs", "JOURNALS.md").read_text(encoding="utf-8")
        with tempfile.TemporaryDirectory() as room:
            for name in ("tools", "examples"):
                pathlib.Path(room, name).symlink_to(TOP / name)
            pathlib.Path(room, "rgo").symlink_to(self.program)
            for language, block in error_pages.BLOCK.findall(page):
                shown = test_guide.sessions(f"```\n{block}```\n") if not language else [(block, "")] if language == "sh" else []
                for command, printed in shown:
                    with self.subTest(command):
                        self.assertEqual(printed, self.printed(room, command))

    def printed(self, room, command):
        env = {**os.environ, "RGO": str(self.program)}
        ran = subprocess.run(["bash", "-c", command], cwd=room, env=env, stdout=subprocess.PIPE, stderr=subprocess.STDOUT, timeout=60, check=False)
        return ran.stdout.decode()


if __name__ == "__main__":
    unittest.main()
