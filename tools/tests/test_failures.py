"""Tries what docs/FAILURES.md says of signals, of streams that cannot be read or written, and of limits of the system."""

import contextlib
import os
import pathlib
import re
import resource
import shutil
import signal
import subprocess
import tempfile
import time
import unittest

import error_pages
from error_pages import TOP

PAGE = TOP / "docs" / "FAILURES.md"
ROW = re.compile(r"^\| ([^|]+) \| (\d+) \| ([^|]+) \| ([^|]+) \|$", re.MULTILINE)
SECONDS = 60
NOBODY = 65534

HEAD = b'package main\nimport "fmt"\ntype N struct { v int; p *N }\n'
HELLO = HEAD + b'func main() { fmt.Println("hello") }\n'
SILENT = HEAD + b"func main() {}\n"
TRAP = HEAD + b'func main() { fmt.Println("hello"); var p *N; p.v = 1 }\n'
TRAP_SAID = b"rgo: 4:48: trap 1 NilPointer\n"
OBJECT = HEAD + b"func main() { x := &N{7, nil}; fmt.Println(x.v) }\n"
NUMBERS = HEAD + b"func main() { for i := 0; ; i++ { fmt.Println(i) } }\n"
FEW_NUMBERS = HEAD + b"func main() { for i := 0; i < 100000; i++ { fmt.Println(i) } }\n"
FEW_PRINTED = b"".join(b"%d\n" % i for i in range(100000))
LOOP = HEAD + b"func main() { fmt.Println(0); for {} }\n"
CROWD = HEAD + b"func work() { for {} }\nfunc main() { for i := 0; i < 6; i++ { go work() }; for {} }\n"
DEEP = HEAD + b"func f(n int) int { return f(n + 1) + 1 }\nfunc main() { fmt.Println(0); fmt.Println(f(0)) }\n"
NESTED = HEAD + b"func main() { fmt.Println(" + b"(" * 196 + b"1" + b")" * 196 + b") }\n"
SUMS = HEAD + b"""\
func sum(n int, c chan int) { s := 0; for i := 0; i < n; i++ { s += i }; c <- s }
func main() { c := make(chan int); for i := 0; i < 4; i++ { go sum(200000, c) }; s := 0; for i := 0; i < 4; i++ { s += <-c }; fmt.Println(s) }
"""
SUMS_PRINTED = b"79999600000\n"


def lines_before(printed):
    """Whether these are whole lines, the numbers from 0 on."""
    return printed == b"".join(b"%d\n" % i for i in range(printed.count(b"\n")))


class Answer:
    """What a call has left."""

    def __init__(self, status, printed=b"", reported=b""):
        self.status = status if status >= 0 else 128 - status
        self.printed, self.reported = printed, reported


def call(text, words=("run",), limits=(), before=None, user=None, program=None, **streams):
    """Calls the program with a text, after these limits of the system were set and `before` was done."""

    def prepare():
        for limit, most in limits:
            # Processor time has a second limit, at which the system sends SIGKILL.
            resource.setrlimit(limit, (most, most + 9 if limit == resource.RLIMIT_CPU else most))
        if before:
            before()

    if "stdin" not in streams:
        streams["input"] = text
    streams = {"stdout": subprocess.PIPE, "stderr": subprocess.PIPE, **streams}
    more = {} if user is None else {"user": user}
    ran = subprocess.run([program or error_pages.program(), *words], preexec_fn=prepare, timeout=SECONDS, check=False, **more, **streams)
    return Answer(ran.returncode, ran.stdout or b"", ran.stderr or b"")


@contextlib.contextmanager
def begun(text, words=("run",), **streams):
    """A call under way, which has its text."""
    streams = {"stdout": subprocess.PIPE, **streams}
    with subprocess.Popen([error_pages.program(), *words], stdin=subprocess.PIPE, stderr=subprocess.PIPE, **streams) as ran:
        ran.stdin.write(text)
        try:
            yield ran
        finally:
            ran.kill()


# ---- what is tried, by the rows of the page


def signalled(number, text=NUMBERS, words=("run",), is_read=True):
    """A signal comes during a run that prints, after its first line; or, for one that prints nothing, after a while."""
    with begun(text, words) as ran:
        ran.stdin.close()
        first = ran.stdout.readline() if is_read else b""
        time.sleep(0.2)
        ran.send_signal(number)
        printed, reported = first + ran.stdout.read(), ran.stderr.read()
        return Answer(ran.wait(SECONDS), printed, reported)


def signalled_early():
    with begun(HELLO[:40]) as ran:
        ran.stdin.flush()
        time.sleep(0.2)
        ran.send_signal(signal.SIGTERM)
        return Answer(ran.wait(SECONDS), ran.stdout.read(), ran.stderr.read())


def stopped():
    with begun(FEW_NUMBERS) as ran:
        ran.stdin.close()
        first = ran.stdout.readline()
        ran.send_signal(signal.SIGSTOP)
        time.sleep(0.2)
        ran.send_signal(signal.SIGCONT)
        printed = first + ran.stdout.read()
        return Answer(ran.wait(SECONDS), printed, ran.stderr.read())


def closed_pipe(name, text=HELLO, before=None):
    reader, writer = os.pipe()
    os.close(reader)
    try:
        return call(text, before=before, **{name: writer})
    finally:
        os.close(writer)


def ignored(number):
    return lambda: signal.signal(number, signal.SIG_IGN)


def closed_later():
    """The reader reads a line, and closes the pipe."""
    with begun(NUMBERS) as ran:
        ran.stdin.close()
        printed = ran.stdout.readline()
        ran.stdout.close()
        return Answer(ran.wait(SECONDS), printed, ran.stderr.read())


def with_full(*names, text=HELLO):
    with open("/dev/full", "wb") as full:
        return call(text, **{name: full for name in names})


def with_input(file, mode="rb"):
    with open(file, mode) as source:
        return call(b"", stdin=source)


def folder_as_input():
    folder = os.open("/", os.O_RDONLY)
    try:
        return call(b"", stdin=folder)
    finally:
        os.close(folder)


def waits_for_nothing():
    """Standard input does not wait, and nothing has come."""
    reader, writer = os.pipe()
    os.set_blocking(reader, False)
    try:
        return call(b"", stdin=reader)
    finally:
        os.close(reader)
        os.close(writer)


def full_and_not_waiting():
    """Standard output does not wait, and nothing reads from it until the program has ended."""
    reader, writer = os.pipe()
    os.set_blocking(writer, False)
    with open(reader, "rb") as source:
        found = call(FEW_NUMBERS, stdout=writer)
        os.close(writer)
        found.printed = source.read()
        # The last line may have had room for its first bytes alone.
        return found


def without_files(most):
    return call(HELLO, limits=[(resource.RLIMIT_NOFILE, most)])


def without_processes():
    """As nobody, since the system lets the administrator start as many as he wants."""
    with tempfile.TemporaryDirectory() as folder:
        os.chmod(folder, 0o755)
        program = shutil.copy(error_pages.program(), pathlib.Path(folder) / "rgo")
        os.chmod(program, 0o755)
        user = NOBODY if os.geteuid() == 0 else None
        return call(SUMS, ("run", "--workers", "7"), [(resource.RLIMIT_NPROC, 0)], user=user, program=program)


def into_small_file(before=None):
    with tempfile.TemporaryFile() as file:
        found = call(FEW_NUMBERS, limits=[(resource.RLIMIT_FSIZE, 4096)], before=before, stdout=file)
        file.seek(0)
        found.printed = file.read()
        return found


def in_memory(mebibytes, text=OBJECT, words=("run",)):
    return call(text, words, [(resource.RLIMIT_AS, mebibytes << 20)])


LARGE_TABLE = ("run", "--pages", "65536", "--page-words", "256")
STACK = [(resource.RLIMIT_STACK, 1 << 20)]

TRIED = {
    "SIGINT during a run": lambda: signalled(signal.SIGINT),
    "SIGTERM during a run": lambda: signalled(signal.SIGTERM),
    "SIGHUP during a run": lambda: signalled(signal.SIGHUP),
    "SIGKILL during a run": lambda: signalled(signal.SIGKILL),
    "SIGTERM while the text is read": signalled_early,
    "SIGTERM while 7 workers run": lambda: signalled(signal.SIGTERM, CROWD, ("run", "--workers", "7"), False),
    "SIGSTOP, and SIGCONT later": stopped,
    "the reader of standard output has closed it": lambda: closed_pipe("stdout"),
    "the same, and SIGPIPE is ignored": lambda: closed_pipe("stdout", before=ignored(signal.SIGPIPE)),
    "the reader of standard output closes it after the first line": closed_later,
    "the reader of standard error has closed it, and a line is to go there": lambda: closed_pipe("stderr", TRAP),
    "standard output is a full device": lambda: with_full("stdout"),
    "standard error is a full device, and a line is to go there": lambda: with_full("stderr", text=TRAP),
    "both are full devices": lambda: with_full("stdout", "stderr"),
    "standard output is closed, and something is printed": lambda: call(HELLO, before=lambda: os.close(1)),
    "standard output is closed, and nothing is printed": lambda: call(SILENT, before=lambda: os.close(1)),
    "standard error is closed, and a line is to go there": lambda: call(TRAP, before=lambda: os.close(2)),
    "standard input is closed": lambda: call(HELLO, before=lambda: os.close(0)),
    "standard input is a folder": folder_as_input,
    "standard input can only be written": lambda: with_input(os.devnull, "wb"),
    "standard input is empty": lambda: with_input(os.devnull),
    "standard input does not wait, and has nothing": waits_for_nothing,
    "standard output does not wait, and is full": full_and_not_waiting,
    "too little memory (`ulimit -v`) for a table of pages": lambda: in_memory(100, words=LARGE_TABLE),
    "too little memory for the frames of deep calls": lambda: in_memory(12, DEEP),
    "too little memory for the system to load the program": lambda: in_memory(3),
    "a stack of 1 MiB (`ulimit -s`), and 100,000 frames": lambda: call(DEEP, limits=STACK),
    "a stack of 1 MiB, and a text that is nested 200 deep": lambda: call(NESTED, limits=STACK),
    "no process or thread may be started (`ulimit -u`)": without_processes,
    "four files may be open (`ulimit -n`)": lambda: without_files(4),
    "three files may be open": lambda: without_files(3),
    "a file may have 4 KiB (`ulimit -f`), and more is printed to one": into_small_file,
    "the same, and SIGXFSZ is ignored": lambda: into_small_file(ignored(signal.SIGXFSZ)),
    "a second of processor time (`ulimit -t`) is used up": lambda: call(LOOP, limits=[(resource.RLIMIT_CPU, 1)]),
}
# What is printed if nothing fails, by the rows that print all.
ALL = {
    "SIGSTOP, and SIGCONT later": FEW_PRINTED,
    "the reader of standard error has closed it, and a line is to go there": b"hello\n",
    "standard error is a full device, and a line is to go there": b"hello\n",
    "standard error is closed, and a line is to go there": b"hello\n",
    "a stack of 1 MiB, and a text that is nested 200 deep": b"1\n",
    "no process or thread may be started (`ulimit -u`)": SUMS_PRINTED,
    "four files may be open (`ulimit -n`)": b"hello\n",
}
# The rows whose last line may be cut, since a file or a pipe has no room for all of it.
CUT = ["standard output does not wait, and is full"]


class Failures(unittest.TestCase):
    def test_the_page_has_the_rows_that_are_tried(self):
        self.assertEqual(sorted(TRIED), sorted(found[1] for found in ROW.finditer(PAGE.read_text(encoding="utf-8"))))

    def check_printed(self, name, wanted, printed):
        if name in CUT:
            printed = printed[: printed.rfind(b"\n") + 1]
        if wanted == "nothing":
            self.assertEqual(b"", printed)
        elif wanted == "all":
            self.assertEqual(ALL[name], printed)
        elif wanted == "the first lines":
            self.assertTrue(printed and lines_before(printed), printed[-200:])
        else:
            self.assertEqual("the first bytes", wanted)
            self.assertEqual(FEW_PRINTED[:4096], printed)

    def check_reported(self, wanted, reported):
        if wanted == "nothing":
            self.assertEqual(b"", reported)
        elif wanted == "a line of the system's loader":
            self.assertRegex(reported, rb"\A.*error while loading shared libraries.*\n\Z")
        else:
            self.assertEqual(wanted.strip("`").encode() + b"\n", reported)

    def check_rows(self, heading):
        section = re.search(rf"^## {heading}\n(.*?)(?=^## |\Z)", PAGE.read_text(encoding="utf-8"), re.DOTALL | re.MULTILINE)[1]
        rows = ROW.findall(section)
        self.assertGreater(len(rows), 5)
        for name, status, printed, reported in rows:
            with self.subTest(name):
                found = TRIED[name]()
                self.assertEqual(int(status), found.status, found.reported)
                self.check_printed(name, printed, found.printed)
                self.check_reported(reported, found.reported)

    def test_signals(self):
        self.check_rows("Signals")

    def test_streams(self):
        self.check_rows("Streams")

    def test_limits_of_the_system(self):
        self.check_rows("Limits of the system")

    def test_each_limit_of_memory(self):
        """Below some limit the system cannot load the program. From there on the answer is the usual one or status 11."""
        usual, refused = (0, b"7\n", b""), (11, b"", b"rgo: out of memory\n")
        answers = []
        for mebibytes in range(2, 44):
            found = in_memory(mebibytes)
            answers.append((found.status, found.printed, found.reported))
        starts = next(k for k, found in enumerate(answers) if found in (usual, refused))
        self.assertLess(starts, 10)
        self.assertEqual(set(), {found for found in answers[starts:]} - {usual, refused})
        self.assertIn(refused, answers)
        self.assertEqual(usual, answers[-1])


if __name__ == "__main__":
    unittest.main()
