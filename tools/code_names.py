"""The names that the variables and the fields of a code have in its source. A code text does not have them: those of
variables are found by places, and those of fields by the names of their structs."""

import functools
import re

WORD = re.compile(rb"[A-Za-z_]\w*")
# What is before the place of an assignment or a declaration with a value, on its line: the variable is its last word.
BEFORE = re.compile(rb"([A-Za-z_]\w*)\s*$")
DECLARED = re.compile(rb"\bvar\s*\(?\s*([A-Za-z_]\w*)[^;=]*$")
ASSIGNMENTS = (b":=", b"=", b"+=", b"-=", b"*=", b"/=", b"%=", b"++", b"--")
# Words at which a value is made, and no variable declared.
VALUES = (b"nil", b"true", b"false", b"make", b"new")
# What has no words of the program.
SKIPPED = re.compile(rb'//[^\n]*|/\*.*?\*/|"(?:\\.|[^"\\])*"', re.DOTALL)
STRUCT = re.compile(rb"\b(\w+)\s+struct\s*\{([^}]*)\}")
FIELDS = re.compile(rb"\s*(\w+(?:\s*,\s*\w+)*)\s+\S")


def assigned(text, place):
    """The variable to which an assignment or a declaration at a place of the source gives a value, or None."""
    if not text.startswith(ASSIGNMENTS, place):
        return None
    before = text[text.rfind(b"\n", 0, place) + 1 : place]
    found = (DECLARED if text.startswith(b"=", place) else BEFORE).search(before) or BEFORE.search(before)
    return found[1].decode() if found else None


def declared(text, place):
    """The variable that a declaration without a value names at a place of the source, or None."""
    found = WORD.match(text, place)
    return found[0].decode() if found and found[0] not in VALUES else None


@functools.cache
def without_comments(text):
    """A source with blanks in place of its comments and strings."""
    return SKIPPED.sub(lambda skipped: b" " * len(skipped[0]), text)


def fields_of(text):
    """The names of the fields of each struct of a source, by its name."""
    found = {}
    for struct, body in STRUCT.findall(SKIPPED.sub(lambda skipped: b"\n" if b"\n" in skipped[0] else b" ", text)):
        lines = filter(None, map(FIELDS.match, re.split(rb"[;\n]", body)))
        found[struct.decode()] = [name.decode() for line in lines for name in re.findall(rb"\w+", line[1])]
    return found


def names_of(f, head, text):
    """The names of the variables of a function that have one, by their numbers. `text` is the source, and `head` the
    head of the function there, with its parameters."""
    found = {n: name.decode() for n, name in enumerate(head.parameters[: f.count])}
    text = without_comments(text)
    for op in f.body:
        name = None
        if op.word == "copy":
            name = assigned(text, op.place)
        elif op.word in ("nil", "int", "bool"):
            name = declared(text, op.place)
        if name:
            found.setdefault(op.parts["d"], name)
    return found
