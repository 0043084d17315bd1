"""Tests that tools/soak accepts runs that are the same on any number of workers, and finds those that are not."""

import pathlib
import subprocess
import sys
import tempfile
import unittest

import error_pages
from error_pages import TOP

# Plays the part of rgo: its arguments are `run --workers N` and more.
ALIKE = "#!/bin/sh\ncat >/dev/null\necho 1\n"
OTHER_PRINT = "#!/bin/sh\ncat >/dev/null\necho $3\n"
OTHER_STATUS = "#!/bin/sh\ncat >/dev/null\nexit $(($3 > 1))\n"
OTHER_REPORT = "#!/bin/sh\ncat >/dev/null\necho $3 >&2\n"
# The same lines in another order, of any program and of the one whose goroutines print.
SHUFFLED = "#!/bin/sh\ncat >/dev/null\nprintf '1\\n2\\n' | sort -n $([ $3 = 1 ] || echo -r)\n"
SHUFFLED_IF_PRINTING = "#!/bin/sh\n[ $3 != 1 ] && grep -q 'is done' && reverse=-r\nprintf '1\\n2\\n' | sort -n $reverse\n"


class Soak(unittest.TestCase):
    def soak(self, rgo, *more):
        command = [sys.executable, TOP / "tools" / "soak", "--rgo", rgo, *more]
        return subprocess.run(command, capture_output=True, text=True, check=False)

    def fake(self, text):
        folder = tempfile.TemporaryDirectory()
        self.addCleanup(folder.cleanup)
        path = pathlib.Path(folder.name) / "rgo"
        path.write_text(text)
        path.chmod(0o755)
        return path

    def test_runs_that_are_alike_are_counted(self):
        ran = self.soak(self.fake(ALIKE), "--seconds", "0.1", "--goroutines", "3")
        self.assertEqual((0, ""), (ran.returncode, ran.stderr))
        for kind in ("random", "sending", "jobs", "ring", "long server"):
            self.assertRegex(ran.stdout, rf"(?m)^{kind} +[1-9][0-9]* as on one worker$")

    def test_a_run_that_differs_is_kept(self):
        for text in (OTHER_PRINT, OTHER_STATUS, OTHER_REPORT, SHUFFLED):
            with self.subTest(text):
                ran = self.soak(self.fake(text), "--seconds", "0.5", "--goroutines", "3", "--workers", "7")
                self.assertEqual((1, ""), (ran.returncode, ran.stderr))
                self.assertRegex(ran.stdout, r"\Asending: the runs on 1 and on 7 workers differ, or are not over: see .*\n\Z")
                room = pathlib.Path(ran.stdout.split()[-1])
                self.assertEqual(["text.go", "workers-1.txt", "workers-7.txt"], sorted(path.name for path in room.iterdir()))
                for path in room.iterdir():
                    path.unlink()
                room.rmdir()

    def test_lines_of_several_goroutines_come_in_any_order(self):
        ran = self.soak(self.fake(SHUFFLED_IF_PRINTING), "--seconds", "0.1", "--goroutines", "3")
        self.assertEqual((0, ""), (ran.returncode, ran.stderr))
        self.assertRegex(ran.stdout, r"(?m)^printing +[1-9][0-9]* as on one worker$")

    def test_the_program_passes(self):
        ran = self.soak(error_pages.program(), "--seconds", "0.1", "--goroutines", "40", "--workers", "7")
        self.assertEqual((0, ""), (ran.returncode, ran.stderr), ran.stdout)


if __name__ == "__main__":
    unittest.main()
