"""How Go runs a program, how rgo does, and how the two may differ: docs/LANGUAGE.md documents these differences."""

import collections
import re
import subprocess

# How long a run of either may take.
SECONDS = 20

Outcome = collections.namedtuple("Outcome", "end printed detail")

# The message of Go's runtime for each trap, and for a deadlock.
GO_ENDS = [
    ("invalid memory address or nil pointer dereference", "NilPointer"),
    ("index out of range", "IndexRange"),
    ("integer divide by zero", "DivideZero"),
    ("makeslice: len out of range", "BadSize"),
    ("makechan: size out of range", "BadSize"),
    ("send on closed channel", "SendClosed"),
    ("close of closed channel", "CloseClosed"),
    ("close of nil channel", "CloseNil"),
    ("all goroutines are asleep", "deadlock"),
    ("goroutine stack exceeds", "calls too deep"),
]

# Differences that the language has on purpose, by what the stricter side says.
GO_IS_STRICTER = [
    (r"declared (and|but) not used", "unused variables are allowed"),
    (r"imported (and|but) not used", "unused imports are allowed"),
    (r"evaluated but not used|is not used", "an unused value that is a receive or a call is allowed"),
    (r"(illegal character|invalid) NUL|byte order mark|invalid BOM", "NUL bytes and byte order marks in strings and comments are allowed"),
]
RGO_IS_STRICTER = [
    (r": syntax$", "what is left out of the grammar"),
    (r": lexical ", "what is left out of the tokens"),
    (r": nesting$", "the limit of nesting"),
    (r"ReservedName$", "names that may not be declared"),
    (r"StructByValue$|PointerBase$", "structs are used through pointers only"),
    (r"StringPlace$", "strings are arguments of fmt.Println only"),
    (r"PrintType$", "pointers, slices and channels are not printed"),
    (r"BareNil$", "nil is not printed"),
    (r"ConstRange$", "constants are within the range of int on the way"),
    (r"NotCall$|NotValue$", "function values are left out"),
    (r"ArgCount$|LiteralFields$", "variadic functions and literals of some fields are left out"),
]


def run_go(go, text, folder):
    """Compiles and runs a text with Go."""
    source, program = folder / "program.go", folder / "program"
    source.write_bytes(text)
    built = subprocess.run([go, "build", "-o", program, source], capture_output=True, text=True, check=False)
    if built.returncode:
        return Outcome("rejected", b"", built.stderr)
    try:
        ran = subprocess.run([program], capture_output=True, timeout=SECONDS, check=False)
    except subprocess.TimeoutExpired:
        return Outcome("no end", b"", "")
    if ran.returncode == 0:
        return Outcome("exit", ran.stdout, "")
    said = ran.stderr.decode("utf-8", "replace")
    return Outcome(next((end for text, end in GO_ENDS if text in said), "?"), ran.stdout, said.splitlines()[0])


def run_rgo(rgo, text):
    """Compiles and runs a text with rgo."""
    try:
        ran = subprocess.run([rgo, "run"], input=text, capture_output=True, timeout=SECONDS, check=False)
    except subprocess.TimeoutExpired:
        return Outcome("no end", b"", "")
    said = ran.stderr.decode().strip()
    ends = {0: "exit", 1: "rejected", 2: said.split()[-1] if said else "?", 3: "deadlock", 7: "calls too deep"}
    end = ends.get(ran.returncode, said)
    return Outcome(end, ran.stdout, said)


def documented(go, rgo):
    """Why the two may differ so, or None."""
    if go.end == "rejected" and rgo.end != "rejected":
        # every complaint of Go has to be one of those
        complaints = [line for line in go.detail.splitlines() if re.match(r".*\.go:\d+", line)]
        reasons = [next((why for said, why in GO_IS_STRICTER if re.search(said, line)), None) for line in complaints]
        return reasons[0] if reasons and all(reasons) else None
    if rgo.end == "rejected" and go.end != "rejected":
        return next((why for said, why in RGO_IS_STRICTER if re.search(said, rgo.detail)), None)
    if go.end == rgo.end == "calls too deep" and go.printed.startswith(rgo.printed):
        return "calls are too deep at 100,000 frames"
    if go.end in ("no end", "calls too deep") and rgo.end == "rgo: goroutines spent":
        return "a run has at most 100,000 goroutines"
    return None
