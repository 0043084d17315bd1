"""Journals of runs, read, written and followed independently of the program.

A journal lists the steps that a run takes, a line for each: `one G` is a step of goroutine G alone, and `meet R S` a
receiver and a sender that pass a value on together. docs/JOURNALS.md explains the format.

`read` turns a text into a `Journal`. `follow` runs a `code_text.Code` by its picks, up to the first that has no step, and
`standing` says of what it returns where each goroutine is.
"""

import dataclasses
import re

import command
import region_runs
from region_runs import DEADLOCK, WAITS

# Limits that no run of a journal meets.
ENOUGH = region_runs.Limits(*[2**62] * 5)

FIRST, LAST = b"rgo picks 1", b"text"
# How many numbers follow each first word.
FORMS = {b"one": 1, b"meet": 2, b"case": 2, b"casemeet": 3}
NUMBER = re.compile(rb"0|[1-9][0-9]{0,9}")
# The most callers of a function that are shown.
CALLERS = 8


class NoForm(Exception):
    """A line of a journal has no form in its place. It has the line's number."""

    def __init__(self, line):
        super().__init__(line)
        self.line = line


def number_of(word):
    """The number that a word is, or None."""
    found = int(word) if NUMBER.fullmatch(word) else 2**32
    return found if found < 2**32 else None


def pick_of(line):
    """The pick of a line as its first word and its numbers, or None if it has no form."""
    word, *digits = line.split(b" ")
    numbers = tuple(map(number_of, digits))
    return (word.decode(), *numbers) if FORMS.get(word) == len(numbers) and None not in numbers else None


@dataclasses.dataclass
class Journal:
    """The picks of a journal, and what follows its last line. The pick number 0 is on line 2."""

    picks: list
    rest: bytes


def read(text):
    """The journal that a text begins with."""
    picks, at, line = [], 0, 1
    while True:
        end = text.find(b"\n", at)
        words = None if end < 0 else text[at:end]
        if line > 1 and words == LAST:
            return Journal(picks, text[end + 1 :])
        pick = None if words is None else pick_of(words)
        if words != FIRST if line == 1 else pick is None:
            raise NoForm(line)
        if line > 1:
            picks.append(pick)
        at, line = end + 1, line + 1


def write(picks):
    """The text of the journal of picks as `region_runs` notes them, each with how often it was taken in a row."""
    lines = [(" ".join(map(str, pick)) + "\n") * times for pick, times in picks]
    return FIRST + b"\n" + "".join(lines).encode() + LAST + b"\n"


def read_file(name):
    """The journal in a file. The tool ends if the file cannot be read or a line of it has no form."""
    try:
        return read(command.read(name))
    except NoForm as found:
        raise command.Stop(1, f"{name}: line {found.line}: picks text") from found


# ---- following


@dataclasses.dataclass
class Followed:
    """A run that has followed a journal: the goroutines by their numbers; how many picks were taken; how it ended, None if
    it has not; and whether it stopped at a pick that has no step."""

    ran: region_runs.Run
    goroutines: list
    taken: int
    end: region_runs.End | None
    is_stuck: bool


def step(ran, goroutines, pick):
    """Takes a pick. Returns whether it has a step."""
    word, *numbers = pick
    # A program here has no choice between receives, so `case` and `casemeet` have no step.
    if word not in ("one", "meet") or not all(g < len(goroutines) and goroutines[g].frames for g in numbers):
        return False
    taking = [goroutines[g] for g in numbers]
    tops = [g.frames[-1] for g in taking]
    ops = [frame.function.body[frame.at] for frame in tops]
    for one, frame, op in zip(taking, tops, ops):
        ran.prepare(one, frame, op)
    if word == "one":
        (one,), (frame,), (op,) = taking, tops, ops
        return region_runs.METHODS.get(op.word, region_runs.Run.act)(ran, one, frame, op) is not WAITS
    channels = [channel_of(one) for one in taking]
    return channels[0] is not None and channels[0] is channels[1] and ran.meet(channels[0], *taking)


def follow(code, journal, limits, out=lambda line: None, most=None):
    """Runs a code by the picks of a journal, by the first `most` of them if that is given. `out` takes each line that is
    printed. The limits are those of a run, of which a journal's picks need only the page size and enough of all else."""
    ran = region_runs.Run(code, limits, out)
    # Nobody waits in a queue here, so that each goroutine is put into this list when it is started, and never again.
    goroutines, taken = ran.ready, 0
    picks = journal.picks if most is None else journal.picks[:most]
    try:
        for taken, pick in enumerate(picks):
            if not step(ran, goroutines, pick):
                return Followed(ran, goroutines, taken, None, True)
    except region_runs.Ended as ended:
        (end,) = ended.args
        ran.end = end
        # A goroutine that was stopped by a limit has not taken the pick.
        done = taken + (end.status in (0, 2))
        return Followed(ran, goroutines, done, end, done < len(picks))
    ran.end = DEADLOCK if is_deadlock(goroutines) else None
    return Followed(ran, goroutines, len(picks), ran.end, False)


# ---- where goroutines are


def at(g):
    """The next instruction of a goroutine."""
    return g.frames[-1].function.body[g.frames[-1].at]


def channel_of(g):
    """The channel at which the next instruction of a goroutine receives or sends; None if it is nil or does neither."""
    op = at(g)
    return g.frames[-1].variables[op.parts["a"]] if op.word in ("recv", "send") else None


def is_ready(g):
    """Whether a goroutine has a step alone."""
    word, channel = at(g).word, None
    if word not in ("recv", "send"):
        return True
    channel = channel_of(g)
    if channel is None:
        return False
    return channel.is_closed or (len(channel.queue) > 0 if word == "recv" else len(channel.queue) < channel.capacity)


class Sides:
    """For each open channel without capacity, the first goroutine that waits on each side, by its number."""

    def __init__(self, goroutines):
        self.first = {}
        for number, g in enumerate(goroutines):
            channel = channel_of(g) if g.frames else None
            if channel is not None and not channel.capacity and not channel.is_closed:
                self.first.setdefault((id(channel), at(g).word), number)

    def partner(self, g):
        """The number of the first goroutine that has a step together with this one, or None."""
        return self.first.get((id(channel_of(g)), "send" if at(g).word == "recv" else "recv"))


def is_deadlock(goroutines):
    """Whether no goroutine has a step, alone or with another."""
    sides = Sides(goroutines)
    return not any(g.frames and (is_ready(g) or sides.partner(g) is not None) for g in goroutines)


def doing(g, sides, source):
    """What a goroutine is about to do, where it is a thing of channels: what it waits for."""
    word, channel = at(g).word, channel_of(g)
    if word not in ("recv", "send"):
        return ""
    what = "receive from" if word == "recv" else "send to"
    if channel is None:
        return f"waits for ever to {what} a nil channel"
    made = f"the channel made at {place(source, channel.place)}"
    if is_ready(g):
        return f"is about to {what} {made}"
    with_whom = sides.partner(g)
    if with_whom is not None:
        return f"is about to {what} {made}, with goroutine {with_whom}"
    return f"waits to {what} {made}"


def ending(end, source):
    """How a run has ended, in words."""
    if end.place is None:
        return end.said or "main has returned"
    return f"{end.said} at {place(source, end.place)}"


def place(source, byte):
    return f"{source.line(byte)}:{source.column(byte)}"


def stands(g, sides, source):
    """Where a goroutine is, in lines: its function and line, what it waits for, and who has called the function."""
    frame, op = g.frames[-1], at(g)
    said = doing(g, sides, source)
    yield f"{frame.function.name}, {place(source, op.place)}" + (f": {said}" if said else "")
    yield f"    {source.lines[source.line(op.place) - 1].strip()}"
    callers = g.frames[-2::-1]
    for caller in callers[:CALLERS]:
        yield f"  called by {caller.function.name}, {place(source, caller.function.body[caller.at].place)}"
    if len(callers) > CALLERS:
        yield f"  and {len(callers) - CALLERS} more calls"


def spans(numbers):
    """Numbers in order, those that follow each other as a span."""
    found = []
    for number in numbers:
        if found and found[-1][1] == number - 1:
            found[-1][1] = number
        else:
            found.append([number, number])
    return ", ".join(str(first) if first == last else f"{first} to {last}" for first, last in found)


def standing(followed, source):
    """Where each goroutine is that has not ended, those that are at the same place together; and how many have ended."""
    groups, sides = {}, Sides(followed.goroutines)
    for number, g in enumerate(followed.goroutines):
        if g.frames:
            groups.setdefault(tuple(stands(g, sides, source)), []).append(number)
    for (first, *others), numbers in groups.items():
        yield f"goroutine{'s' if len(numbers) > 1 else ''} {spans(numbers)}: {first}"
        yield from others
    ended = sum(not g.frames for g in followed.goroutines)
    if ended:
        yield f"{ended} goroutine{'s have' if ended > 1 else ' has'} ended"
