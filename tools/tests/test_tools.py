"""Tests how the tools end that are given bad words, files that cannot be read, or an output that cannot be written: with a
status and a line, and never with a traceback; and that none of them builds the program.
"""

import concurrent.futures
import os
import pathlib
import shutil
import subprocess
import sys
import tempfile
import unittest

import command
from error_pages import TOP

TOOLS = sorted(path.name for path in (TOP / "tools").iterdir() if path.is_file() and os.access(path, os.X_OK))
SHELL = ["install", "test-rgo"]
# Words that a tool does not take, and the first words of what it says.
WRONG = {
    "code_producer.py": ["", "a b"],
    "code_text.py": ["", "check a b", "chek a"],
    "code_vectors.py": ["", "--tables"],
    "compare-with-go": ["--programs x", "--sead 1"],
    "count": ["x", "--wright"],
    "definitions": ["x"],
    "examples": ["--tables", "a b"],
    "explain": ["a b", "--all"],
    "fail": ["--most x", "--most -1", "--moist 1"],
    "figures": ["x", "--wright"],
    "homes": ["x", "--names"],
    "install": ["a b"],
    "journal": ["", "a.go b.go", "--steps 0 a.go", "--workers 1 a.go"],
    "links": ["x", "--all"],
    "listing": ["a.go b.code", "--all a"],
    "marked_tables.py": ["", "--tables"],
    "mutate": ["x", "--texts 0", "--show x"],
    "quick": ["--all", "a b"],
    "regions": ["--all a.go", "--warn --list a.go", "--journal a.picks a.go"],
    "replay-at": ["", "a.picks", "--after x a.picks a.go", "--all a.picks a.go"],
    "rgor": ["", "--steps 5 a.go"],
    "soak": ["x", "--seconds x"],
    "subset": ["a.go b.go", "--all a.go"],
    "tags": ["a b", "--all"],
    "test-rgo": ["x"],
    "test-tools": ["--all"],
    "test-workers": ["a b", "--all"],
    "touches": ["", "--", "-x", "--write Len"],
    "unproved": ["", "a b", "--all"],
    "wrong-bodies": ["--all", "--changed a b"],
}
# Words with a file, F, that is missing or a folder, and the status.
NO_FILE = {
    "code_producer.py F": 66,
    "code_text.py check F": 66,
    "compare-with-go --rgo F": 127,
    "examples F": 127,
    "explain F": 66,
    "fail --rgo F": 127,
    "journal F": 66,
    "listing F": 66,
    "mutate --rgo F": 127,
    "regions F": 66,
    "replay-at F a.go": 66,
    "rgor F": 66,
    "soak --rgo F": 127,
    "subset F": 66,
    "test-workers F": 127,
}
WRONG, NO_FILE = ({words: found for words, found in table.items() if words.split()[0] in TOOLS} for table in (WRONG, NO_FILE))
# Words that need the program where none is built.
NO_PROGRAM = ["compare-with-go", "examples", "fail", "mutate", "listing a.go", "regions a.go", "rgor a.go", "rgor --check a.go", "soak", "test-workers"]
# Words that use the program of `rgo --unproved` if there is no other. The one that plays its part rejects every text.
UNPROVED = {"examples": 1, "explain a.go": 0, "listing a.go": 1, "regions a.go": 1, "rgor a.go": 1, "rgor --check a.go": 1}
# Words that print something without the program, and need nothing to be installed.
PRINTING = ["code_producer.py texts/all.tac", "definitions", "count", "explain", "listing texts/all.code"]


class Tools(unittest.TestCase):
    """Runs the tools in a copy of the repository without a program, where a build would be noticed."""

    @classmethod
    def setUpClass(cls):
        folder = tempfile.TemporaryDirectory()
        cls.addClassCleanup(folder.cleanup)
        cls.top = pathlib.Path(folder.name)
        leave_out = shutil.ignore_patterns("__pycache__", "tests", "code_texts")
        shutil.copytree(TOP / "tools", cls.top / "tools", ignore=leave_out)
        shutil.copytree(TOP / "tools" / "code_texts", cls.top / "texts")
        for part in ["docs", "examples"]:
            cls.top.joinpath(part).symlink_to(TOP / part)
        cls.top.joinpath("tools", "tests").mkdir()
        cls.top.joinpath("crates", "rgo_run").mkdir(parents=True)
        cls.top.joinpath("crates", "rgo_run", "specs").symlink_to(TOP / "crates" / "rgo_run" / "specs")
        shutil.copy(TOP / "crates.txt", cls.top)
        shutil.copy(TOP / "examples" / "hello.go", cls.top / "a.go")
        cls.top.joinpath("bin").mkdir()
        for name, script in [("rgo", "touch built"), ("bin/rt", "touch built"), ("bin/go", "exit 1")]:
            cls.top.joinpath(name).write_text(f"#!/bin/sh\n{script}\n")
            cls.top.joinpath(name).chmod(0o755)

    def run_tool(self, words, rgo=None, **streams):
        """The status of a tool, what it prints, and what it reports, where the variable RGO names this program."""
        tool, *words = words.split()
        env = {name: value for name, value in os.environ.items() if name != "RGO"}
        if rgo:
            env["RGO"] = rgo
        env.update(PATH=f"{self.top}/bin:{env['PATH']}", PYTHONDONTWRITEBYTECODE="1")
        start = ["sh"] if tool in SHELL else [sys.executable, "-S"]
        streams = {"stdout": subprocess.PIPE, "input": b"rgo: deadlock\n", **streams}
        ran = subprocess.run(
            [*start, self.top / "tools" / tool, *words], cwd=self.top, env=env, stderr=subprocess.PIPE, timeout=60, check=False, **streams
        )
        return ran.returncode, (ran.stdout or b"").decode(), ran.stderr.decode()

    def run_all(self, calls, **streams):
        """Runs these side by side, and checks that none builds the program or ends in a traceback."""
        with concurrent.futures.ThreadPoolExecutor(os.cpu_count()) as pool:
            found = list(zip(calls, pool.map(lambda words: self.run_tool(words, **streams), calls)))
        for words, (_, _, err) in found:
            with self.subTest(words):
                self.assertNotIn("Traceback", err)
        self.assertFalse(self.top.joinpath("built").exists())
        return found

    def test_bad_words_of_every_tool(self):
        self.assertEqual(TOOLS, sorted(WRONG))
        calls = [f"{tool} {words}" for tool, many in WRONG.items() for words in many]
        for words, (status, out, err) in self.run_all(calls):
            with self.subTest(words):
                self.assertEqual((command.WRONG_WORDS, ""), (status, out))
                self.assertNotEqual("", err)

    def test_every_tool_says_what_it_does(self):
        for words, (status, out, err) in self.run_all([f"{tool} --help" for tool in TOOLS]):
            with self.subTest(words):
                self.assertEqual((0, ""), (status, err))
                self.assertIn(f"{words.split()[0].removesuffix('.py')}", out)
                self.assertGreater(out.count("\n"), 2)

    def test_files_that_are_missing_or_folders(self):
        for file in ["none", "texts"]:
            # A folder is no program, either, but that is found in the same way for all.
            found = {words: status for words, status in NO_FILE.items() if file == "none" or status == command.NO_INPUT}
            calls = {words.replace("F", file): status for words, status in found.items()}
            for words, (status, out, err) in self.run_all(list(calls)):
                with self.subTest(words):
                    self.assertEqual((calls[words], ""), (status, out))
                    self.assertRegex(err, rf"\A[\w.-]+: .*\b{file}\b.*\n\Z")

    def test_no_tool_builds_the_program(self):
        for words, (status, out, err) in self.run_all(NO_PROGRAM):
            with self.subTest(words):
                self.assertEqual((command.NO_PROGRAM, ""), (status, out))
                self.assertRegex(err, r"\A[\w-]+: no program is built: run \./rgo run < .*\n\Z")

    def test_without_a_proved_program_the_unproved_one_is_used(self):
        unproved = self.top / "crates" / "rgo" / "out" / "unproved"
        unproved.parent.mkdir(parents=True)
        unproved.write_text("#!/bin/sh\ncat >/dev/null\nexit 1\n")
        unproved.chmod(0o755)
        self.addCleanup(shutil.rmtree, unproved.parent)
        said = "no proved program is built, so this is done by the one of ./rgo --unproved, of which nothing is proved"
        spent = {"input": b"rgo: pages spent\n"}
        for words, (status, _, err) in self.run_all(list(UNPROVED), **spent):
            with self.subTest(words):
                self.assertEqual((UNPROVED[words], f"{words.split()[0]}: {said}\n"), (status, err))
        # A program that is named is never replaced by it: so the gate tests the proved one.
        none = str(self.top / "none")
        for words, (status, out, err) in self.run_all([*NO_PROGRAM, "examples --check", f"soak --rgo {none}"], rgo=none):
            with self.subTest(words):
                self.assertEqual((command.NO_PROGRAM, ""), (status, out))
                self.assertRegex(err, rf"\A[\w-]+: cannot run {none}: No such file or directory\n\Z")
        # Nor is the proved program.
        shutil.copy(unproved, unproved.with_name("rgo"))
        self.assertEqual((1, "", ""), self.run_tool("rgor a.go"))

    def test_a_full_device(self):
        with open("/dev/full", "wb") as full:
            for words, (status, _, err) in self.run_all([f"{tool} --help" for tool in TOOLS], stdout=full):
                with self.subTest(words):
                    self.assertEqual(4 if words.split()[0] in SHELL else command.NOT_WRITTEN, status)
                    self.assertRegex(err, r"\A[\w.-]+: .*No space left on device\n\Z")

    def test_a_reader_that_has_stopped(self):
        reader, writer = os.pipe()
        os.close(reader)
        with open(writer, "wb") as closed:
            for words, (status, _, err) in self.run_all(PRINTING, stdout=closed):
                with self.subTest(words):
                    self.assertEqual((command.CLOSED, ""), (status, err))

    def test_names_of_tests_that_do_not_exist(self):
        status, out, err = self.run_tool("test-tools test_nothing")
        self.assertEqual((1, "", "test-tools: there are no tests with the name test_nothing\n"), (status, out, err))


if __name__ == "__main__":
    unittest.main()
