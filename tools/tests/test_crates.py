"""Tests the tools that know which crates a change touches: tools/quick, tools/count and tools/wrong-bodies."""

import os
import pathlib
import re
import subprocess
import sys
import tempfile
import unittest

from crates import PARTS, crates, paths
from error_pages import TOP

# Three crates, one on the other, and one beside them.
CRATES = "# Crates\nlow:\nmiddle: clap low\nhigh: middle\nother:\n"
# Says what it is called with, and where; as a gate it ends as one that began from scratch. The file `fails` names the
# folder in which it fails, or has a `*`.
RT = """#!/bin/sh
echo "rt $*"
echo "rt: ok"
echo "3 passed, 0 failed"
fails=$(cat "${0%/bin/rt}/fails" 2>/dev/null)
[ "$fails" != "*" ] && [ "$fails" != "${PWD##*/}" ] || exit 3
"""
PROOF = """# Proof

<!-- tools/count writes from here -->
| crate | code | specs | proofs | gate's wrong bodies | others | own proof | tests | wrong bodies |
|---|---|---|---|---|---|---|---|---|
| `low` | 9 | 9 | 9 | 9 | 9 | 1.5 |  | 2.0 |
| `high` | 9 | 9 | 9 | 9 | 9 | 0.5 | 4.0 |  |

An earlier gate took a while.
<!-- to here -->
The end.
"""


class Lines(unittest.TestCase):
    """The lines of this repository's crates.txt."""

    def test_a_crate_names_what_its_line_lists(self):
        every = crates()
        for crate, below in every.items():
            files = [file for part in PARTS for file in (TOP / "crates" / crate / part).rglob("*.*")]
            names = {name for file in files for name in re.findall(r"\brgo_\w+", file.read_text(encoding="utf-8"))}
            self.assertEqual([], [name for name in below if name in every and name not in names], crate)

    def test_few_paths_lead_down(self):
        self.assertLess(sum(paths(crates()).values()), 600_000)


class Tools(unittest.TestCase):
    """Runs the tools in a small repository."""

    def setUp(self):
        folder = tempfile.TemporaryDirectory()
        self.addCleanup(folder.cleanup)
        self.top = pathlib.Path(folder.name)
        for name in ("quick", "count", "wrong-bodies", "crates.py", "command.py"):
            self.write(f"tools/{name}", (TOP / "tools" / name).read_text(encoding="utf-8"))
        self.write("crates.txt", CRATES)
        self.write("docs/PROOF.md", PROOF)
        for crate in ("low", "middle", "high", "other"):
            self.write(f"crates/{crate}/src/lib.rt", "// A comment.\n\nfn one() {}\n")
            self.write(f"wrong-bodies/{crate}/bug.edit", "file: src/lib.rt\nold: one\nnew: two\n")
        self.write("bin/rt", RT)
        (self.top / "bin" / "rt").chmod(0o755)
        self.git("init", "-q")
        self.commit()

    def write(self, name, text):
        path = self.top / name
        path.parent.mkdir(parents=True, exist_ok=True)
        path.write_text(text, encoding="utf-8")

    def git(self, *words):
        subprocess.run(["git", "-c", "user.name=a", "-c", "user.email=b", *words], cwd=self.top, check=True)

    def commit(self):
        self.git("add", "-A")
        self.git("commit", "-qm", "Change")

    def run_tool(self, name, *words, text=""):
        env = {**os.environ, "PATH": f"{self.top / 'bin'}:{os.environ['PATH']}", "PYTHONDONTWRITEBYTECODE": "1"}
        command = [sys.executable, self.top / "tools" / name, *words]
        return subprocess.run(command, cwd=self.top, env=env, input=text, capture_output=True, text=True, check=False)

    def listed(self, *words):
        """The crates that tools/quick lists, with whether each is there only for what it stands on."""
        ran = self.run_tool("quick", "--list", *words)
        self.assertEqual((0, ""), (ran.returncode, ran.stderr))
        rows = [line.split(maxsplit=1)[1] for line in ran.stdout.splitlines()[:-1]]
        return [(row.partition(",")[0], "," in row) for row in rows]


class Quick(Tools):
    def test_a_change_that_is_not_committed(self):
        self.write("crates/middle/specs/New.antt", "")
        self.assertEqual([("middle", False), ("high", True)], self.listed())

    def test_the_last_commit(self):
        self.write("crates/low/proofs/Lemmas.antt", "")
        self.commit()
        self.assertEqual([("low", False), ("middle", True), ("high", True)], self.listed())

    def test_a_line_of_the_list_of_crates(self):
        self.write("crates.txt", CRATES.replace("other:", "other: low"))
        self.assertEqual([("other", False)], self.listed("HEAD"))

    def test_what_no_proof_reads_changes_nothing(self):
        self.write("crates/low/must-fail/bug.edit", "")
        self.write("crates/low/README.md", "")
        self.assertEqual([], self.listed("HEAD"))

    def test_minutes_are_those_of_the_document(self):
        self.write("crates/low/src/lib.rt", "")
        ran = self.run_tool("quick", "--list")
        self.assertEqual("   3.5  low", ran.stdout.splitlines()[0])
        self.assertEqual(f"   8.0  minutes of one processor at most, {8 / os.cpu_count():.0f} on all of this machine", ran.stdout.splitlines()[-1])

    def steps(self):
        """The status of tools/quick, and what it runs, with the folders."""
        ran = self.run_tool("quick")
        return ran.returncode, [line for line in ran.stdout.splitlines() if ", in " in line]

    def test_these_crates_are_proved_and_tested_and_their_wrong_bodies_tried(self):
        self.write("crates/middle/src/lib.rt", "")
        self.write("crates/high/src/tests.rt", "#[test]\nfn one() {}\n")
        self.write("crates/high/must-fail/bug.edit", "")
        top = self.top.name
        wanted = [f"rt {words} {top}{folder}" for words, folder in [
            ("check, in", "/crates/middle"),
            ("check, in", "/crates/high"),
            ("test, in", "/crates/high"),
            ("must-fail high, in", ""),
        ]]
        self.assertEqual((0, wanted), self.steps())

    def test_lower_crates_are_first(self):
        self.write("crates.txt", "high: middle\nmiddle: clap low\nother:\nlow:\n")
        self.commit()
        self.write("crates/low/src/lib.rt", "")
        self.assertEqual([("low", False), ("middle", True), ("high", True)], self.listed())

    def test_it_stops_at_what_fails(self):
        self.write("crates/middle/src/lib.rt", "")
        self.write("fails", "middle")
        self.assertEqual((3, [f"rt check, in {self.top.name}/crates/middle"]), self.steps())

    def test_nothing_is_run_without_a_change(self):
        ran = self.run_tool("quick", "HEAD")
        self.assertEqual((0, False), (ran.returncode, "rt check" in ran.stdout))

    def test_a_commit_that_does_not_exist(self):
        ran = self.run_tool("quick", "nothing")
        self.assertEqual((1, True), (ran.returncode, ran.stderr.startswith("quick: fatal: ")))


class WrongBodies(Tools):
    def test_those_of_the_crates_that_changed(self):
        self.write("crates/middle/src/lib.rt", "fn one() -> u8 { 1 }\n")
        self.write("fails", "*")
        ran = self.run_tool("wrong-bodies", "--changed")
        self.assertIn("rt must-fail middle\n", ran.stdout)
        self.assertEqual((1, "middle/bug: it was not tried"), (ran.returncode, ran.stdout.splitlines()[-1]))

    def test_no_change(self):
        ran = self.run_tool("wrong-bodies", "--changed", "HEAD")
        self.assertEqual((0, "no crate with wrong bodies has changed\n"), (ran.returncode, ran.stdout))

    def test_a_commit_that_does_not_exist(self):
        self.assertEqual(1, self.run_tool("wrong-bodies", "--changed", "nothing").returncode)
        self.assertEqual(1, self.run_tool("wrong-bodies", "--changed", "nothing").returncode)
        self.assertEqual(64, self.run_tool("wrong-bodies", "--changed", "HEAD", "HEAD").returncode)


class Count(Tools):
    def table(self):
        text = (self.top / "docs" / "PROOF.md").read_text(encoding="utf-8")
        self.assertEqual(("# Proof", "The end."), (text.splitlines()[0], text.splitlines()[-1]))
        return text

    def test_lines_are_counted_and_minutes_kept(self):
        rows = self.run_tool("count").stdout.splitlines()
        self.assertIn("| `low` | 1 | 0 | 0 | 0 | 1 | 1.5 |  | 2.0 |", rows)
        self.assertIn("| `other` | 1 | 0 | 0 | 0 | 1 |  |  |  |", rows)

    def test_a_gate_that_proved_a_part_keeps_the_sentences(self):
        self.assertEqual(0, self.run_tool("count", "--write", text="rt: low is kept: proved before\n3 passed, 0 failed\n").returncode)
        self.assertIn("| `high` | 1 | 0 | 0 | 0 | 1 | 0.5 | 4.0 |  |\n| `other` | 1 | 0 | 0 | 0 | 1 |  |  |  |\n\nAn earlier gate took a while.\n<!--", self.table())

    def test_a_gate_from_nothing_writes_the_sentences(self):
        ran = self.run_tool("count", "--write", text="rt: ok\n3 passed, 0 failed\n")
        self.assertEqual(0, ran.returncode)
        self.assertIn("3 passed", ran.stderr)
        self.assertRegex(self.table(), r"\n\nThe whole gate, from scratch, took 0 minutes on \d+ processors, and 0 minutes of one processor: .*\n.*\n<!--")
        self.assertNotIn("An earlier gate", self.table())

    def test_provers_of_the_gate_are_timed(self):
        # A process that looks like a prover of this repository: it works in a crate's folder for five seconds.
        self.write("bin/rattle", "import time\nwhile time.process_time() < 5: pass\n")
        gate = f"cd crates/low && exec -a rattle {sys.executable} {self.top}/bin/rattle build --crate-name low"
        command = f"{{ bash -c '{gate}'; echo ended; }} | {sys.executable} tools/count --write"
        subprocess.run(["bash", "-c", command], cwd=self.top, check=True, capture_output=True)
        self.assertRegex(self.table(), r"\| `low` \| 1 \| 0 \| 0 \| 0 \| 1 \| 0\.1 \|")


if __name__ == "__main__":
    unittest.main()
