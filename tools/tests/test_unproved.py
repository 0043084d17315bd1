"""Tests tools/unproved with a toolchain that compiles nothing, and that the gate tests the proved program."""

import os
import pathlib
import shutil
import subprocess
import sys
import tempfile
import time
import unittest

from error_pages import TOP

# Plays the part of `rt`. `rt try` compiles and links with the words of a trial, where it finds its toolchain, and runs the program.
RT = """#!/bin/sh
kit=$(cd "$(dirname "$0")/.." && pwd)
[ "$1" = doc ] && echo "$kit/START-HERE.md" && exit
echo "$PWD: $*" >>'{room}/called'
[ -e '{room}/refused' ] && echo "main.rt:1:1: error" >&2 && exit 1
cat "$kit/c/asan.a" "$kit/c/other.a" "$kit/toolchain/lib/libc" >'{room}/libraries'
trap 'exit 130' INT
cd "$TMPDIR" || exit
"$kit/toolchain/bin/clang" -c -O0 -fsanitize=address "a b" || exit 2
[ -e '{room}/unlinked' ] || "$kit/toolchain/bin/ld.lld" -m x -o program "a b" || exit 2
exit 64
"""
# Play the parts of the compiler and the linker.
NOTE = """#!/bin/sh
for word in "$@"; do printf '%s|' "$word"; done >>'{room}/called'
echo >>'{room}/called'
"""
LINK = NOTE + """cp '{room}/made' program
"""
# What is linked.
PROGRAM = """#!/bin/sh
echo "$@" >'{room}/tried'
grep -q '^package main' || exit 1
"""
TOOLCHAIN = {
    "START-HERE.md": "",
    "bin/rt": RT,
    "bin/rtlib.py": "",
    "bin/rattle": "",
    "c/asan.a": "a sanitizer\n",
    "c/other.a": "a library\n",
    "rattle/std/lib.rt": "",
    "toolchain/bin/clang": NOTE,
    "toolchain/bin/ld.lld": LINK,
    "toolchain/lib/libc": "libc\n",
}


class Unproved(unittest.TestCase):
    def setUp(self):
        folder = tempfile.TemporaryDirectory()
        self.addCleanup(folder.cleanup)
        self.room = pathlib.Path(folder.name).resolve()
        for name, text in TOOLCHAIN.items():
            self.write(f"a toolchain/{name}", text)
        self.write("made", PROGRAM)
        for name in ["tools", "crates/rgo", "examples", "tmp"]:
            self.room.joinpath(name).mkdir(parents=True)
        for name in ["tools/unproved", "tools/command.py", "examples/hello.go"]:
            shutil.copy(TOP / name, self.room / name)
        self.file = self.room / "crates" / "rgo" / "out" / "unproved"

    def write(self, name, text):
        path = self.room / name
        path.parent.mkdir(parents=True, exist_ok=True)
        path.write_text(text.replace("{room}", str(self.room)), encoding="utf-8")
        path.chmod(0o755)

    def compile(self):
        """The status of the tool, and what it reports."""
        env = {**os.environ, "PATH": f"{self.room}/a toolchain/bin:/usr/bin:/bin", "TMPDIR": f"{self.room}/tmp", "PYTHONDONTWRITEBYTECODE": "1"}
        words = [sys.executable, "-S", self.room / "tools" / "unproved", self.file]
        ran = subprocess.run(words, stdin=subprocess.DEVNULL, capture_output=True, text=True, env=env, timeout=60, check=False)
        self.assertEqual("", ran.stdout)
        # Neither a folder is left, nor a part of the file.
        self.assertEqual([], list(self.room.joinpath("tmp").iterdir()))
        self.assertIn(list(self.file.parent.glob("*")), ([], [self.file]))
        return ran.returncode, ran.stderr

    def read(self, name):
        return self.room.joinpath(name).read_text(encoding="utf-8")

    def test_what_is_compiled_is_kept(self):
        begin = time.time()
        self.assertEqual((0, ""), self.compile())
        self.assertEqual(self.read("made"), self.file.read_text(encoding="utf-8"))
        self.assertTrue(os.access(self.file, os.X_OK))
        # It works, and it is no newer than a source that changed while it was compiled.
        self.assertEqual("check\n", self.read("tried"))
        self.assertLess(abs(self.file.stat().st_mtime - begin), 1)
        self.assertLess(self.file.stat().st_mtime, self.room.joinpath("tried").stat().st_mtime)
        self.assertEqual(
            f"{self.room}/crates/rgo: try --steps 1 --seconds 60\n"
            "-c|-O0|-fsanitize=address|a b|-O2|-fno-sanitize=address|\n"
            "-m|x|-o|program|a b|\n",
            self.read("called"),
        )
        # The sanitizer's library is empty; the others are those of the toolchain.
        self.assertEqual("!<arch>\na library\nlibc\n", self.read("libraries"))

    def test_the_toolchain_is_unchanged(self):
        self.compile()
        for name, text in TOOLCHAIN.items():
            self.assertEqual(text.replace("{room}", str(self.room)), self.read(f"a toolchain/{name}"))
        found = {str(path.relative_to(self.room / "a toolchain")) for path in self.room.glob("a toolchain/**/*") if path.is_file()}
        self.assertEqual(set(TOOLCHAIN), found)

    def test_sources_that_are_refused(self):
        self.write("refused", "")
        self.assertEqual((1, "unproved: the sources do not compile:\nmain.rt:1:1: error\n"), self.compile())

    def test_a_toolchain_without_a_part(self):
        for part in ["bin/rtlib.py", "c/asan.a", "toolchain/bin/clang", "toolchain/bin/ld.lld"]:
            with self.subTest(part):
                path = self.room / "a toolchain" / part
                path.rename(self.room / "aside")
                self.assertEqual((2, f"unproved: the toolchain at {self.room}/a toolchain has no {part}\n"), self.compile())
                self.room.joinpath("aside").rename(path)

    def test_a_toolchain_that_links_otherwise(self):
        self.write("unlinked", "")
        self.assertEqual((2, "unproved: the toolchain does not compile the program in this way: status 64\n"), self.compile())

    def test_a_compiler_that_fails(self):
        self.write("a toolchain/toolchain/bin/clang", "#!/bin/sh\necho 'no such word' >&2\nexit 1\n")
        self.assertEqual((2, "unproved: the toolchain does not compile the program in this way: status 2\nno such word\n"), self.compile())

    def test_an_interrupt_is_no_other_toolchain(self):
        self.write("a toolchain/toolchain/bin/clang", "#!/bin/sh\nkill -INT $PPID\nexit 1\n")
        self.assertEqual((130, "unproved: interrupted\n"), self.compile())

    def test_a_program_that_does_not_work(self):
        self.write("made", "#!/bin/sh\nexit 5\n")
        self.assertEqual((2, "unproved: the program that was compiled does not work: status 5\n"), self.compile())

    def test_what_was_kept_stays_if_nothing_new_is_compiled(self):
        self.compile()
        self.write("refused", "")
        self.assertEqual(1, self.compile()[0])
        self.assertEqual(self.read("made"), self.file.read_text(encoding="utf-8"))

    def test_no_toolchain(self):
        self.room.joinpath("a toolchain").rename(self.room / "aside")
        self.assertEqual((127, "unproved: the toolchain's command rt is not on the path\n"), self.compile())


class Gate(unittest.TestCase):
    def test_its_checks_use_the_program_that_it_has_proved(self):
        with tempfile.TemporaryDirectory() as folder:
            room = pathlib.Path(folder).resolve()
            checks = ["examples", "test-rgo", "test-workers", "test-tools"]
            for name in ["rt", *checks]:
                path = room / ("bin" if name == "rt" else "tools") / name
                path.parent.mkdir(exist_ok=True)
                path.write_text(f'#!/bin/sh\necho {name} $* "$RGO"\n')
                path.chmod(0o755)
            room.joinpath(".ci").mkdir()
            shutil.copy(TOP / ".ci" / "run", room / ".ci" / "run")
            env = {**os.environ, "PATH": f"{room}/bin:/usr/bin:/bin", "RGO": "another"}
            ran = subprocess.run([room / ".ci" / "run"], capture_output=True, text=True, env=env, timeout=60, check=True)
        rgo = room / "crates" / "rgo" / "out" / "rgo"
        checked = [f"examples --check {rgo}", f"examples {rgo} {rgo}", *(f"{name} {rgo}" for name in checks[1:])]
        self.assertEqual(["rt ci another", *checked], ran.stdout.splitlines())


if __name__ == "__main__":
    unittest.main()
