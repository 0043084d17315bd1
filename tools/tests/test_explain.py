"""Tests tools/explain and tools/rgor, with programs that only play the part of rgo."""

import os
import pathlib
import subprocess
import sys
import tempfile
import unittest

import error_pages
from error_pages import PAGES, TOP

# Texts, a place in them, and what is shown of it.
PLACES = [
    (b"a := b\n", "1:6", "a := b\n     ^"),
    (b"x\n\t\ty = 1\n", "2:5", "        y = 1\n          ^"),
    # Columns count bytes, and the caret counts what a terminal shows: one column, two columns, none.
    ('"é" + 1\n'.encode(), "1:6", '"é" + 1\n    ^'),
    ('"世" + 1\n'.encode(), "1:7", '"世" + 1\n     ^'),
    ('"e\u0301" + 1\n'.encode(), "1:7", '"e\u0301" + 1\n    ^'),
    (b"x\r\ny\r\n", "1:2", "x\n ^"),
    (b"x\n", "2:1", "(end of the text)\n^"),
    (b"x", "1:2", "x(end of the text)\n ^"),
    (b"", "1:1", "(end of the text)\n^"),
    (b"a\x1b[31m \xff\n", "1:7", "a\ufffd[31m \ufffd\n      ^"),
    (b"1" * 100 + b"+" + b"2" * 100, "1:101", "..." + "1" * 37 + "+" + "2" * 36 + "...\n" + " " * 40 + "^"),
    (b"1" * 40 + b"+", "1:41", "1" * 40 + "+\n" + " " * 40 + "^"),
    (b"1" * 41 + b"+", "1:42", "..." + "1" * 37 + "+\n" + " " * 40 + "^"),
    (b"x\n", "3:1", "(The file has no such place: the message is of another text.)"),
    (b"x\n", "1:3", "(The file has no such place: the message is of another text.)"),
    (b"x\n", "0:0", "(The file has no such place: the message is of another text.)"),
]
# Code texts, a line of them, and what is shown of it.
LINES = [
    (b"rgo code 1\nend\n", 1, "rgo code 1"),
    (b"rgo code 1\n\tend \n", 2, "    end "),
    (b"rgo code 1\r\n", 1, "rgo code 1\ufffd"),
    (b"rgo code 1\n\nend\n", 2, "(an empty line)"),
    (b"rgo code 1\n", 2, "(end of the text)"),
    (b"", 1, "(end of the text)"),
    (b"rgo code 1\nend", 2, "end(end of the text)"),
    (b"1" * 80 + b"\n", 1, "1" * 80),
    (b"1" * 81 + b"\n", 1, "1" * 77 + "..."),
    (b"rgo code 1\n", 3, "(The file has no such place: the message is of another text.)"),
    (b"rgo code 1\n", 0, "(The file has no such place: the message is of another text.)"),
]
CREATIONS = """CREATES of this instruction are not exactly the own names that it uses and that
are not held before it.
Read on: docs/errors/code-9-creations.md
"""
NIL = """A channel that is `nil` is closed. The place is the `(` of `close`.
Read on: docs/errors/trap-7-close-nil.md
"""
DEADLOCK = """`main` has not returned, and no goroutine can step: each has returned or waits
at a channel.
Read on: docs/errors/status-3-deadlock.md
"""


class Case(unittest.TestCase):
    def setUp(self):
        folder = tempfile.TemporaryDirectory()
        self.addCleanup(folder.cleanup)
        self.room = pathlib.Path(folder.name)
        self.file = self.room / "a file.go"

    def tool(self, *words, said=b"", cwd=TOP, **variables):
        # Without the packages of the site, which no tool needs, it starts in half the time.
        command = [sys.executable, "-S", TOP / "tools" / words[0], *words[1:]]
        env = {**os.environ, **variables}
        ran = subprocess.run(command, input=said, capture_output=True, cwd=cwd, env=env, timeout=300, check=False)
        return ran.returncode, ran.stdout.decode(), ran.stderr.decode()


class Explain(Case):
    def test_places_are_shown(self):
        for text, place, shown in PLACES:
            with self.subTest(text=text, place=place):
                said = error_pages.explained(f"rgo: {place}: trap 7 CloseNil\n".encode(), "a file", text)
                self.assertEqual(f"a file:{place}: trap 7 CloseNil\n{shown}\n{NIL}", said.decode())

    def test_lines_of_code_texts_are_shown(self):
        for text, line, shown in LINES:
            with self.subTest(text=text, line=line):
                said = error_pages.explained(f"rgo: line {line}: code 9\n".encode(), "a file", text)
                self.assertEqual(f"a file:{line}: code 9\n{shown}\n{CREATIONS}", said.decode())

    def test_instructions_of_code_texts_are_shown(self):
        text = b"rgo code 1\nfunc main 0 - -\nentry -[]\n0 @7 +[] int v0 1 -[]\n1 @77 +[] close v1 -[]\n2 @7 +[] return -\n"
        places = [(77, "5", "1 @77 +[] close v1 -[]"), (7, "4", "0 @7 +[] int v0 1 -[]")]
        places.append((8, "@8", "(The file has no such place: the message is of another text.)"))
        for number, place, shown in places:
            with self.subTest(number):
                said = error_pages.explained(f"rgo: @{number}: trap 7 CloseNil\n".encode(), "a file", text)
                self.assertEqual(f"a file:{place}: trap 7 CloseNil\n{shown}\n{NIL}", said.decode())
        self.assertEqual((0, f"rgo: @7: trap 7 CloseNil\n{NIL}", ""), self.tool("explain", said=b"rgo: @7: trap 7 CloseNil\n"))

    def test_a_code_text_and_its_message(self):
        self.file.write_bytes(b"rgo code 1\nfunc f\n")
        status, out, err = self.tool("explain", self.file, said=b"rgo: line 2: code text\n")
        wanted = [f"{self.file}:2: code text", "func f"]
        self.assertEqual((0, wanted, ""), (status, out.splitlines()[:2], err))
        message = "rgo: line 7: code 9\n"
        self.assertEqual((0, message + CREATIONS, ""), self.tool("explain", said=message.encode()))
        status, out, _ = self.tool("explain", self.file, said=b"rgo: text longer than 67108864 bytes\n")
        self.assertEqual((0, f"{self.file}: text longer than 67108864 bytes"), (status, out.splitlines()[0]))

    def test_a_file_and_its_message(self):
        self.file.write_bytes(b"package main\nclose(c)\n")
        wanted = f"{self.file}:2:6: trap 7 CloseNil\nclose(c)\n     ^\n{NIL}"
        self.assertEqual((0, wanted, ""), self.tool("explain", self.file, said=b"rgo: 2:6: trap 7 CloseNil\n"))

    def test_other_lines_are_kept(self):
        lines = b"rgo: proving rgo_lexer, 2 of 20\nrgo: 1:1: type 99 No\nrgo: line 2: code 15\nrgo:deadlock\n\xff\n"
        ran = subprocess.run([sys.executable, TOP / "tools" / "explain"], input=lines, capture_output=True, check=False)
        self.assertEqual((1, lines, b""), (ran.returncode, ran.stdout, ran.stderr))

    def test_messages_without_a_place(self):
        self.file.write_bytes(b"x\n")
        wanted = f"a\n{self.file}: deadlock\n{DEADLOCK}b"
        self.assertEqual((0, wanted, ""), self.tool("explain", self.file, said=b"a\nrgo: deadlock\nb"))

    def test_without_a_file(self):
        self.assertEqual((0, f"rgo: deadlock\n{DEADLOCK}", ""), self.tool("explain", said=b"rgo: deadlock"))
        self.assertEqual((0, f"rgo: 9:9: trap 7 CloseNil\n{NIL}", ""), self.tool("explain", said=b"rgo: 9:9: trap 7 CloseNil\n"))

    def test_the_usage_line(self):
        status, out, _ = self.tool("explain", said=b"usage: rgo run [--steps N] | check\n")
        self.assertEqual((0, "Read on: docs/errors/status-64-usage.md"), (status, out.splitlines()[-1]))

    def test_the_page_is_named_from_elsewhere(self):
        _, out, _ = self.tool("explain", said=b"rgo: deadlock\n", cwd=self.room)
        self.assertEqual(f"Read on: {PAGES}/status-3-deadlock.md", out.splitlines()[-1])

    def test_wrong_words(self):
        status, out, err = self.tool("explain", "no such file", said=b"rgo: deadlock\n")
        self.assertEqual((66, "", "explain: cannot read no such file: No such file or directory\n"), (status, out, err))
        self.assertEqual((64, ""), self.tool("explain", "a", "b")[:2])

    def test_what_a_rule_of_code_misses(self):
        text = (TOP / "tools" / "code_texts" / "field.code").read_bytes().replace(b"0 -[r0]", b"0 -[]")
        self.file.write_bytes(text)
        status, out, err = self.tool("explain", self.file, said=b"rgo: line 10: code 13\n")
        self.assertEqual((0, ""), (status, err))
        self.assertEqual("Here r0 is missing in REMOVES.", out.splitlines()[-2])


class Rgor(Case):
    def setUp(self):
        super().setUp()
        self.file.write_bytes(b"package main\nbreak\n")
        self.rgo = self.room / "rgo"
        self.write_program('printf "%s|" "$@"; cat; echo "rgo: 2:1: trap 7 CloseNil" >&2; exit 9')

    def write_program(self, script):
        self.rgo.write_text(f"#!/bin/sh\n{script}\n")
        self.rgo.chmod(0o755)

    def rgor(self, *words):
        return self.tool("rgor", *words, RGO=str(self.rgo))

    def test_words_text_print_and_status_are_kept_and_the_message_explained(self):
        err = f"{self.file}:2:1: trap 7 CloseNil\nbreak\n^\n{NIL}"
        print_of = lambda words: f"{words}|package main\nbreak\n"
        self.assertEqual((9, print_of("run|--steps|5"), err), self.rgor(self.file, "--steps", "5"))
        self.assertEqual((9, print_of("check"), err), self.rgor("--check", self.file))

    def test_a_program_that_reports_nothing(self):
        self.write_program("echo 7")
        self.assertEqual((0, "7\n", ""), self.rgor(self.file))

    def test_lines_are_printed_as_they_come(self):
        self.write_program(f'echo "rgo: proving rgo, 1 of 1" >&2; for i in $(seq 50); do [ -e "{self.room}/go" ] && exit 3; sleep 0.1; done')
        command = [sys.executable, TOP / "tools" / "rgor", self.file]
        with subprocess.Popen(command, stderr=subprocess.PIPE, env={**os.environ, "RGO": str(self.rgo)}) as ran:
            self.assertEqual(b"rgo: proving rgo, 1 of 1\n", ran.stderr.readline())
            self.room.joinpath("go").touch()
            self.assertEqual(3, ran.wait())

    def test_a_signal_that_ends_the_program(self):
        self.write_program("kill -15 $$")
        self.assertEqual(143, self.rgor(self.file)[0])

    def test_wrong_words(self):
        self.assertEqual((66, "", "rgor: cannot read none.go: No such file or directory\n"), self.rgor("none.go"))
        for words in ([], ["--check"], ["--steps", "5", self.file], ["--check", self.file, "--steps"]):
            with self.subTest(words=words):
                status, out, err = self.rgor(*words)
                self.assertEqual((64, "", "Runs a file with rgo"), (status, out, err[:20]))

    def test_a_reader_that_has_stopped(self):
        self.write_program('cat >/dev/null; echo "rgo: write failed" >&2; exit 10')
        reader, writer = os.pipe()
        os.close(reader)
        with open(writer, "wb") as closed:
            command = [sys.executable, "-S", TOP / "tools" / "rgor", self.file]
            env = {**os.environ, "RGO": str(self.rgo)}
            ran = subprocess.run(command, stdout=closed, stderr=subprocess.PIPE, env=env, timeout=60, check=False)
        self.assertEqual((10, b""), (ran.returncode, ran.stderr))

    def test_the_version(self):
        status, out, err = self.rgor("--version")
        self.assertEqual((0, ""), (status, err))
        self.assertRegex(out, r"\Argo, commit .*\n\Z")

    def test_a_missing_program(self):
        self.rgo.unlink()
        self.assertEqual((127, "", f"rgor: cannot run {self.rgo}: No such file or directory\n"), self.rgor(self.file))
