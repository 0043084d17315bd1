"""The region operations in the code of a program, beside its source, as tools/regions prints them.

`events` finds in a `code_text.Code` what happens to regions, and where. `listed` says it in one line each, and `beside`
in a margin of the source. The source is in bytes, and is the valid program that the code was made from.
"""

import bisect
import collections
import dataclasses
import re
import textwrap

import code_text
from code_text import GLOBAL
from error_pages import shown

# The kinds of events, in the order in which they are shown: what a function is given by its caller, and what its
# instructions do.
KINDS = ["given", "created", "passed", "protected", "removed"]
# The columns of the widest margin.
WIDTH = 36

SKIPPED = re.compile(rb'//[^\n]*|/\*.*?\*/|"(?:\\.|[^"\\])*"', re.DOTALL)
HEAD = re.compile(rb"\bfunc\s+\w+\s*\(([^)]*)\)")
PARAMETER = re.compile(rb"(?:^|,)\s*(\w+)")


@dataclasses.dataclass(frozen=True)
class Event:
    """What happens to a region at a place of a function. The list ends with `how`, the margin with `note`."""

    place: int
    function: str
    kind: str
    region: str
    times: str = ""
    how: str = ""
    note: str = ""


@dataclasses.dataclass
class Head:
    """The head of a function in the source: where it begins, and the names of its parameters."""

    place: int
    parameters: list


class Source:
    """A source, its lines as they are shown, and the heads of its functions."""

    def __init__(self, text):
        self.text = text
        self.lines = [shown(line.rstrip("\r")) for line in text.decode("utf-8-sig").removesuffix("\n").split("\n")]
        self.starts = [0, *(found.end() for found in re.finditer(rb"\n", text))]
        # Comments and strings may contain the word `func`.
        words = SKIPPED.sub(lambda found: b" " * len(found[0]), text)
        self.heads = [Head(found.start(), PARAMETER.findall(found[1])) for found in HEAD.finditer(words)]

    def line(self, place):
        return bisect.bisect(self.starts, place)

    def column(self, place):
        return place - self.starts[self.line(place) - 1] + 1

    def tested(self, place):
        """What a branch at a place tests."""
        return "left side" if self.text.startswith((b"&&", b"||"), place) else "condition"


def functions(code, source, name=None):
    """The functions of a program with their heads, or only the one with this name."""
    return [(f, head) for f, head in zip(code.functions, source.heads, strict=True) if name in (None, f.name)]


# ---- events


def region_of(cls, owners):
    """A region by its name, and whose it is."""
    return code_text.show_class(cls) + (f" (of {', '.join(owners)})" if owners else "")


def region_in(f, cls):
    """A region of a function. If it is not the function's own, whose it is."""
    is_result = f.result is not None and cls == f.result.cls
    return region_of(cls, ["package variables"] if cls == GLOBAL else ["the result"] if is_result else [])


def at_entry(f, head):
    """What a function is given, and what it removes at once."""
    for cls in code_text.region_parameters(f):
        parameters = zip(head.parameters, code_text.parameter_classes(f))
        owners = [name.decode() for name, found in parameters if found == cls]
        owners += ["the result"] if f.result and f.result.cls == cls else []
        yield Event(head.place, f.name, "given", region_of(cls, owners), how=" by the caller")
    for cls in f.entry:
        yield Event(head.place, f.name, "removed", region_in(f, cls), how=" at entry", note=" at entry")


def created(f, op):
    for cls in op.creates:
        yield Event(op.place, f.name, "created", region_in(f, cls))


def passed(code, f, op):
    """What a call or the start of a goroutine passes, protects, and leaves to its function to remove."""
    callee = op.parts["f"][0]
    to = f" to {callee}" if op.word == "call" else f" to go {callee}"
    for cls, count in collections.Counter(op.parts["R"]).items():
        times = {1: "", 2: " twice"}.get(count, f" {count} times")
        yield Event(op.place, f.name, "passed", region_in(f, cls), times, how=to, note=to)
    for cls in op.parts.get("P", []):
        how, note = f" over the call of {callee}", f" over {callee}"
        yield Event(op.place, f.name, "protected", region_in(f, cls), how=how, note=note)
    for cls in sorted(code_text.given_by(code, op)):
        yield Event(op.place, f.name, "removed", region_in(f, cls), how=f" by {callee}", note=f" by {callee}")


def removed(f, op, source):
    """What an instruction removes on all its ways to the next one, or on one of the two ways of a branch."""
    ways = [set(op.parts[part]) for part in ["removes", "otherwise"] if part in op.parts]
    for cls in sorted(set().union(*ways)):
        how = note = ""
        if any(cls not in way for way in ways):
            tested, truth = source.tested(op.place), "true" if cls in ways[0] else "false"
            how = f" if the {tested} is {truth}"
            note = f" if {truth}" if tested == "condition" else how
        yield Event(op.place, f.name, "removed", region_in(f, cls), how=how, note=note)


def events(code, source, name=None):
    """The events of a program, or of one function, in the order of the code. Each is there once, even if several
    instructions have one place."""
    found = []
    for f, head in functions(code, source, name):
        found += at_entry(f, head)
        for op in f.body:
            found += created(f, op)
            found += passed(code, f, op) if "R" in op.parts else []
            found += removed(f, op, source)
    return list(dict.fromkeys(found))


# ---- what is printed


def listed(found, source):
    """A line for each event, in the order of the places."""
    for event in sorted(found, key=lambda event: (event.place, KINDS.index(event.kind))):
        place = f"{source.line(event.place)}:{source.column(event.place)}"
        yield f"{place}: {event.function}: region {event.region} {event.kind}{event.times}{event.how}"


def rows(found):
    """The margin for the events of a line: a row for each kind, and for each call and condition."""
    several = len({event.function for event in found}) > 1
    regions = collections.defaultdict(list)
    for event in sorted(found, key=lambda event: KINDS.index(event.kind)):
        start = f"{event.function}: {event.kind}" if several else event.kind
        regions[start, event.note, event.place if event.note else None].append(event.region + event.times)
    joined = {key: ", ".join(dict.fromkeys(names)) for key, names in regions.items()}
    return dict.fromkeys(f"{start} {names}{note}" for (start, note, _), names in joined.items())


def margins(found, source):
    """The rows beside each line that has events, in pieces that are narrow enough."""
    by_line = collections.defaultdict(list)
    for event in found:
        by_line[source.line(event.place)].append(event)
    wrapped = lambda row: textwrap.wrap(row, WIDTH, subsequent_indent="  ")
    return {line: [piece for row in rows(of_line) for piece in wrapped(row)] for line, of_line in by_line.items()}


def line_numbers(code, source, name=None):
    """The numbers of the lines of a program, or of one function."""
    if name is None:
        return range(1, len(source.lines) + 1)
    ((f, head),) = functions(code, source, name)
    # The last instruction has the place of the closing brace.
    return range(source.line(head.place), source.line(f.body[-1].place) + 1)


def beside(found, source, numbers):
    """The lines of the source with these numbers, each with a margin that says which events it has."""
    pieces = margins(found, source)
    width = max((len(piece) + 2 for of_line in pieces.values() for piece in of_line), default=0)
    digits = len(str(numbers[-1]))
    for number in numbers:
        first, *others = pieces.get(number, [""])
        yield f"{first:<{width}}{number:>{digits}} | {source.lines[number - 1]}".rstrip()
        yield from (f"{other:<{width}}{'':>{digits}} |" for other in others)
