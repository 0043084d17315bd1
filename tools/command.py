"""How each tool here starts and ends: its words, `--help`, and one line for what goes wrong outside it.

A tool calls `start(main, __doc__)`. `main` takes the words and returns the status.
"""

import argparse
import os
import pathlib
import select
import sys

# The statuses of all tools for what is not about their work.
WRONG_WORDS, NO_INPUT, NOT_WRITTEN, NO_PROGRAM, INTERRUPTED, CLOSED = 64, 66, 74, 127, 130, 141


class WrongWords(Exception):
    """The words ask for nothing that the tool does. What it does is printed."""


class Stop(Exception):
    """The tool ends with a status and one line that says why."""

    def __init__(self, status, said):
        super().__init__(status, said)
        self.status, self.said = status, said


class Parser(argparse.ArgumentParser):
    """A parser of words that ends as all tools do. `--help` is the business of `start`."""

    def __init__(self):
        super().__init__(add_help=False)

    def error(self, message):
        raise WrongWords(message)


def name():
    """The name of the tool, as its messages begin."""
    return pathlib.Path(sys.argv[0]).name


def complain(said):
    """Prints a line on standard error, if that can be written."""
    try:
        print(f"{name()}: {said}", file=sys.stderr, flush=True)
    except (OSError, ValueError, AttributeError):
        pass


def drop(stream):
    """What a stream has left to write, and cannot, is dropped, so that nothing is reported of it when Python ends."""
    try:
        os.dup2(os.open(os.devnull, os.O_WRONLY), stream.fileno())
    except (OSError, ValueError, AttributeError):
        pass


def read(file):
    """What a file has, in bytes. The tool ends if it cannot be read."""
    try:
        return pathlib.Path(file).read_bytes()
    except OSError as error:
        raise Stop(NO_INPUT, f"cannot read {file}: {error.strerror}") from error


def one_line(error):
    """The system's message about a failed call, with the file."""
    what = error.strerror or str(error)
    return what if error.filename is None else f"{error.filename}: {what}"


def is_closed(stream):
    """Whether a stream is a pipe whose reader has closed it."""
    try:
        found = select.poll()
        found.register(stream, 0)
        return any(event & select.POLLERR for _, event in found.poll(0))
    except (OSError, ValueError, AttributeError):
        return False


def ended(main, doc):
    """Calls a tool's function, and returns the status with which the tool ends."""
    try:
        status = main(sys.argv[1:])
        sys.stdout.flush()
        return status
    except WrongWords as wrong:
        said = f"{name()}: {wrong}\n\n" if wrong.args else ""
        print(f"{said}{doc.strip()}", file=sys.stderr)
        return WRONG_WORDS
    except Stop as stop:
        complain(stop.said)
        return stop.status
    except KeyboardInterrupt:
        return INTERRUPTED
    except BrokenPipeError:
        # The reader of what is printed has seen enough, as `head` does: other programs say nothing of it, either.
        return CLOSED
    except OSError as error:
        complain(one_line(error) if error.filename is not None else f"cannot write: {one_line(error)}")
        return NO_INPUT if error.filename is not None else NOT_WRITTEN


def start(main, doc):
    """Runs a tool and ends. `--help` as the first word prints what the tool does."""
    if sys.stdout is None:
        complain("cannot write: standard output is closed")
        sys.exit(NOT_WRITTEN)
    if sys.argv[1:2] in (["-h"], ["--help"]):
        main = lambda _: print(doc.strip())
    status = NOT_WRITTEN
    try:
        status = ended(main, doc)
    finally:
        for stream in (sys.stdout, sys.stderr):
            try:
                stream.flush()
            except (OSError, ValueError, AttributeError):
                drop(stream)
    sys.exit(status)
