"""Calls of a program, made at little cost, for tools that make very many of them."""

import collections
import os
import select
import signal

# What a call leaves: its status, as `subprocess` has it, what it printed, and what it reported.
Answer = collections.namedtuple("Answer", "status printed reported")
# Signals that Python ignores, and a program should not.
IGNORED = [signal.SIGPIPE, signal.SIGXFSZ]
# The number of the file for notes in the program.
NOTES = 3


class Late(Exception):
    """A call was not over in time. It was ended."""


def wait(process, seconds):
    """The status of a process when it has ended."""
    watched = os.pidfd_open(process)
    try:
        poll = select.poll()
        poll.register(watched, select.POLLIN)
        is_late = not poll.poll(seconds * 1000)
        if is_late:
            os.kill(process, signal.SIGKILL)
    finally:
        os.close(watched)
    status = os.waitstatus_to_exitcode(os.waitpid(process, 0)[1])
    if is_late:
        raise Late(f"not over after {seconds} seconds")
    return status


def content(file):
    return os.pread(file, os.fstat(file).st_size, 0)


def answer(words, text, seconds, environment=None):
    """What a call with this standard input leaves, and what it wrote to its file for notes. Its files are in memory."""
    files = [os.memfd_create(name) for name in ("in", "out", "err", "notes")]
    try:
        os.pwrite(files[0], text, 0)
        actions = [(os.POSIX_SPAWN_DUP2, file, number) for number, file in enumerate(files)]
        process = os.posix_spawn(words[0], words, environment or {}, file_actions=actions, setsigdef=IGNORED)
        status = wait(process, seconds)
        return Answer(status, content(files[1]), content(files[2])), content(files[NOTES])
    finally:
        for file in files:
            os.close(file)
