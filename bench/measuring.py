"""Programs of bench/ at a size, and what a run of one takes: for bench/run and bench/growth."""

import collections
import os
import pathlib
import re
import resource
import shutil
import subprocess
import tempfile
import time

BENCH = pathlib.Path(__file__).resolve().parent
SIZE = re.compile(r"^func size\(\) int \{ return \d+ \} // (\d+) (\d+) (\d+)$", re.MULTILINE)
# The table of these pages is small, so that it takes little of the time.
PAGES = ["--page-words", "4096", "--pages", "256"]

# A run: seconds, megabytes, what it printed, and why it has none of these, or None.
Run = collections.namedtuple("Run", "seconds megabytes printed failure")


class Failed(Exception):
    """A program did not do what it should."""


def peers():
    """Where Go and yaegi are, if they are installed."""
    return {name: path for name in ("go", "yaegi") if (path := shutil.which(name))}


def sizes(name):
    """The three sizes of a program."""
    return list(map(int, SIZE.search(BENCH.joinpath(f"{name}.go").read_text(encoding="utf-8")).groups()))


def written(name, number, room):
    """A file in a folder with a program at a size."""
    text = BENCH.joinpath(f"{name}.go").read_text(encoding="utf-8")
    source = room / f"{name}.go"
    source.write_text(SIZE.sub(f"func size() int {{ return {number} }}", text), encoding="utf-8")
    return source


def rgo_command(rgo, workers):
    return [rgo, "run", *PAGES, "--workers", str(workers)]


def started(command, text, out, err, seconds):
    limit = lambda: resource.setrlimit(resource.RLIMIT_CPU, (seconds, seconds))
    return subprocess.Popen(command, stdin=text, stdout=out, stderr=err, preexec_fn=limit)


def own_megabytes():
    return resource.getrusage(resource.RUSAGE_SELF).ru_maxrss / 1024


def measured(command, source, seconds, clock):
    """Runs a command once with a file as its input. It may take some seconds of processor time."""
    with open(source, "rb") as text, tempfile.TemporaryFile() as out, tempfile.TemporaryFile() as err:
        begin = time.monotonic()
        ran = started(command, text, out, err, seconds)
        _, status, used = os.wait4(ran.pid, 0)
        wall, processor = time.monotonic() - begin, used.ru_utime + used.ru_stime
        ran.returncode = os.waitstatus_to_exitcode(status)
        out.seek(0)
        if ran.returncode < 0 and processor >= seconds - 1:
            return Run(None, None, None, f"over {seconds} s")
        if ran.returncode:
            return Run(None, None, None, f"fails with {ran.returncode}")
        # The process was a copy of this one at first, and its most memory includes that.
        most = used.ru_maxrss / 1024
        return Run(wall if clock == "wall" else processor, most if most > own_megabytes() + 1 else None, out.read(), None)
