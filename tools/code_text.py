#!/usr/bin/env python3
"""Code texts, read and checked independently of the compiler. docs/CODE_TEXT.md explains the format and the rules.

    tools/code_text.py check FILE

reports what `rgo code` reports of the text in FILE, and exits with 1: the first line that has no form, or else the least
rule that is broken anywhere and the first line that breaks it. If the text has neither, it exits with 0.

`read` turns a text into a `Code`, `write` a `Code` into its text, and `check` finds the rule that a `Code` breaks.
"""

import collections
import dataclasses
import re
import sys

import command

# ---- code

# The class of a variable or a result: None where it has none, "G" for that of the package variables, or else the number
# of a name, 0 for r0.
GLOBAL = "G"
# The bytes of the longest text that `rgo code` takes.
LONGEST = 67108864
Struct = collections.namedtuple("Struct", "name types")
Global = collections.namedtuple("Global", "name type")
Variable = collections.namedtuple("Variable", "type cls")
# A piece of a print is a Text, of bytes, or the number of a variable.
Text = collections.namedtuple("Text", "bytes")


@dataclasses.dataclass
class Instruction:
    """An instruction: its first word, and what is in the place of each other word of its form."""

    place: int
    creates: list
    word: str
    parts: dict


@dataclasses.dataclass
class Function:
    """A function. `count` is the number of its parameters, `result` a Variable or None, `entry` what is removed at entry."""

    name: str
    count: int
    result: Variable
    variables: list
    entry: list
    body: list


@dataclasses.dataclass
class Code:
    structs: list
    globals: list
    functions: list


# ---- forms

# d is a variable that is written; a, b, i and n are read. `to` and `value` are variables or none. K is an int, B a bool,
# k a field, S a struct, g a package variable, f a function; t and e are instructions.
FORMS = """
int d K removes
bool d B removes
nil d removes
copy d a removes
bin d OP a b removes
neg d a removes
not d a removes
isnil d a removes
len d a removes
load d a k removes
store a k b removes
at d a i removes
put a i b removes
new d S removes
slice d n removes
chan d n removes
recv d a removes
send a b removes
close a removes
get d g removes
set g a removes
call to f R P removes
go f R removes
print pieces removes
jump t removes
branch a t removes e otherwise
return value
"""
FORMS = {words[0]: words[1:] for words in map(str.split, FORMS.split("\n")) if words}
KEYWORDS = """break case chan const continue default defer else fallthrough for func go goto if import interface map package
range return select struct switch type var""".split()
COMPARISONS = ["eq", "ne", "lt", "le", "gt", "ge"]
OPERATORS = ["add", "sub", "mul", "div", "rem", *COMPARISONS]


class NoForm(Exception):
    """A line has no form in its place."""


def some(pattern):
    """The pattern of one or more of these, with commas between them."""
    return f"{pattern}(?:,{pattern})*"


def listed(pattern):
    """The same, or nothing."""
    return f"(?:{some(pattern)})?"


NUMBER = "(?:0|[1-9][0-9]*)"
NAME = "[A-Za-z_][A-Za-z0-9_]*"
TYPE = rf"(?:\[\]|chan\.)*(?:int|bool|\*{NAME})"
CLASS = f"(?:r{NUMBER}|G|-)"
NAMES = rf"\[{listed(f'r{NUMBER}')}\]"
# The bytes from 32 to 126 are themselves, except for `"` and `\`, and each other byte is written in one way.
PRINTED = r"[ !#-\[\]-~]"
ESCAPE = r'\\(?:["\\n]|x(?:0[0-9b-f]|1[0-9a-f]|7f|[89a-f][0-9a-f]))'
# In this form a long string takes little memory: what is between two escapes is one match.
PIECE = f'(?:v{NUMBER}|"{PRINTED}*(?:{ESCAPE}{PRINTED}*)*")'


def number(digits):
    if len(digits) > 10 or int(digits) >= 2**32:
        raise NoForm
    return int(digits)


def constant(digits):
    if len(digits) > 20 or not -(2**63) <= int(digits) < 2**63:
        raise NoForm
    return int(digits)


def name(word):
    if word in KEYWORDS:
        raise NoForm
    return word


def type_of(word):
    """A type is kept as it is written: two types are one if they are spelled alike."""
    if "*" in word:
        name(word.split("*")[1])
    return word


def variable(word):
    return number(word[1:])


def optional(word):
    return None if word == "-" else variable(word)


def class_of(word):
    return None if word == "-" else GLOBAL if word == "G" else number(word[1:])


def inside(words):
    """The parts between the brackets, which are separated by commas."""
    return [part for part in words[words.index("[") + 1 : -1].split(",") if part]


def names(words):
    """Names in ascending order."""
    found = [number(part[1:]) for part in inside(words)]
    if any(one >= other for one, other in zip(found, found[1:])):
        raise NoForm
    return found


def classes(words):
    return [class_of(part) for part in inside(words)]


def called(words):
    """The name of a function, and the arguments."""
    function, arguments = words[:-1].split("(")
    return name(function), [variable(part) for part in arguments.split(",") if part]


ESCAPES = {'\\"': b'"', "\\\\": b"\\", "\\n": b"\n"}


def text_of(quoted):
    each = re.findall(f"{PRINTED}+|{ESCAPE}", quoted[1:-1])
    return Text(b"".join(ESCAPES.get(e) or (bytes([int(e[2:], 16)]) if e[0] == "\\" else e.encode()) for e in each))


def pieces(words):
    return [text_of(piece) if piece[0] == '"' else variable(piece) for piece in re.findall(PIECE, words)]


def show_class(cls):
    return "-" if cls is None else cls if cls == GLOBAL else f"r{cls}"


def show_names(found):
    return f"[{','.join(map(show_class, found))}]"


def show_byte(byte):
    char = chr(byte)
    return {'"': '\\"', "\\": "\\\\", "\n": "\\n"}.get(char) or (char if 32 <= byte <= 126 else f"\\x{byte:02x}")


def show_piece(piece):
    return '"' + "".join(map(show_byte, piece.bytes)) + '"' if isinstance(piece, Text) else f"v{piece}"


# For each word of a form the pattern of what is in its place, how that is read, and how it is written.
Part = collections.namedtuple("Part", "pattern read write")
A_VARIABLE = Part(f"v{NUMBER}", variable, "v{}".format)
AN_OPTION = Part(f"(?:v{NUMBER}|-)", optional, lambda v: "-" if v is None else f"v{v}")
A_NUMBER = Part(NUMBER, number, str)
A_NAME = Part(NAME, name, str)
REMOVES = Part(f"-{NAMES}", names, lambda found: "-" + show_names(found))
VARIABLES = ["d", "a", "b", "i", "n", "to", "value"]
PARTS = {
    **dict.fromkeys(["d", "a", "b", "i", "n"], A_VARIABLE),
    **dict.fromkeys(["to", "value"], AN_OPTION),
    **dict.fromkeys(["k", "t", "e"], A_NUMBER),
    **dict.fromkeys(["S", "g"], A_NAME),
    "K": Part(f"(?:{NUMBER}|-[1-9][0-9]*)", constant, str),
    "B": Part("(?:true|false)", "true".__eq__, lambda truth: str(truth).lower()),
    "OP": Part(f"(?:{'|'.join(OPERATORS)})", str, str),
    "f": Part(rf"{NAME}\({listed(f'v{NUMBER}')}\)", called, lambda call: f"{call[0]}({','.join(f'v{v}' for v in call[1])})"),
    "R": Part(rf"R\[{listed(CLASS)}\]", classes, lambda found: "R" + show_names(found)),
    "P": Part(f"P{NAMES}", names, lambda found: "P" + show_names(found)),
    "pieces": Part(some(PIECE), pieces, lambda found: ",".join(map(show_piece, found))),
    "removes": REMOVES,
    "otherwise": REMOVES,
}


def pattern_of(word):
    """The pattern of an instruction. One blank is before each part, and none if a print has no pieces."""
    part = lambda name: f"(?: ({PARTS[name].pattern})){'?' if name == 'pieces' else ''}"
    return re.compile(word + "".join(map(part, FORMS[word])))


PATTERNS = {word: pattern_of(word) for word in FORMS}
LINES = {
    "struct": re.compile(f"struct ({NAME})((?: {TYPE})*)"),
    "global": re.compile(f"global ({NAME}) ({TYPE})"),
    "func": re.compile(f"func ({NAME}) ({NUMBER}) (?:({TYPE}) ({CLASS})|- -)"),
    "var": re.compile(f"var ({TYPE}) ({CLASS})"),
    "entry": re.compile(f"entry -({NAMES})"),
    "instruction": re.compile(rf"({NUMBER}) @({NUMBER}) \+({NAMES}) (([a-z]+).*)"),
    "end": re.compile("end"),
}
# Which kinds of lines may follow a line. A text may end where a `func` may follow.
HEADS = ["struct", "global", "func"]
AFTER = {
    "rgo": HEADS,
    "struct": HEADS,
    "global": HEADS[1:],
    "func": ["var", "entry"],
    "var": ["var", "entry"],
    "entry": ["instruction", "end"],
    "instruction": ["instruction", "end"],
    "end": ["func"],
}

# ---- reading and writing


def read_instruction(at, words):
    index, place, creates, rest, word = words
    found = PATTERNS[word].fullmatch(rest) if word in FORMS else None
    if number(index) != at or not found:
        raise NoForm
    parts = {part: PARTS[part].read(text or "") for part, text in zip(FORMS[word], found.groups())}
    return Instruction(number(place), names(creates), word, parts)


def add_line(code, kind, words):
    """Adds to the code what a line says."""
    last = code.functions[-1] if code.functions else None
    match kind:
        case "struct":
            code.structs.append(Struct(name(words[0]), [type_of(word) for word in words[1].split()]))
        case "global":
            code.globals.append(Global(name(words[0]), type_of(words[1])))
        case "func":
            result = Variable(type_of(words[2]), class_of(words[3])) if words[2] else None
            code.functions.append(Function(name(words[0]), number(words[1]), result, [], [], []))
        case "var":
            last.variables.append(Variable(type_of(words[0]), class_of(words[1])))
        case "entry":
            last.entry = names(words[0])
        case "instruction":
            last.body.append(read_instruction(len(last.body), words))


def read(text):
    """The code of a text in bytes, or the number of the first line that has no form in its place."""
    *lines, rest = text.decode("latin-1").split("\n")
    code = Code([], [], [])
    before = None
    for at, line in enumerate(lines, start=1):
        allowed = AFTER[before] if before else []
        kind = "rgo" if not before and line == "rgo code 1" else None
        kind = kind or next((kind for kind in allowed if LINES[kind].fullmatch(line)), None)
        try:
            if not kind:
                raise NoForm
            if kind != "rgo":
                add_line(code, kind, LINES[kind].fullmatch(line).groups())
        except NoForm:
            return at
        before = kind
    # A last line without its newline has no form, and neither has a missing line.
    if rest or not before or "func" not in AFTER[before]:
        return len(lines) + 1
    return code


def write_instruction(at, op):
    parts = [PARTS[part].write(op.parts[part]) for part in FORMS[op.word]]
    return " ".join([str(at), f"@{op.place}", "+" + show_names(op.creates), op.word, *filter(None, parts)])


def write(code):
    """The text of the code, in bytes."""
    lines = ["rgo code 1"]
    lines += [" ".join(["struct", struct.name, *struct.types]) for struct in code.structs]
    lines += [f"global {name} {ty}" for name, ty in code.globals]
    for f in code.functions:
        result = f"{f.result.type} {show_class(f.result.cls)}" if f.result else "- -"
        lines.append(f"func {f.name} {f.count} {result}")
        lines += [f"var {ty} {show_class(cls)}" for ty, cls in f.variables]
        lines.append("entry -" + show_names(f.entry))
        lines += [write_instruction(at, op) for at, op in enumerate(f.body)]
        lines.append("end")
    return "".join(line + "\n" for line in lines).encode()


# ---- what instructions read and write, and where variables are live


def reads(op):
    """The variables that an instruction reads."""
    found = {op.parts[part] for part in ["a", "b", "i", "n", "value"] if op.parts.get(part) is not None}
    found.update(op.parts["f"][1] if "f" in op.parts else [])
    return found.union(piece for piece in op.parts.get("pieces", []) if not isinstance(piece, Text))


def writes(op):
    """The variables that it writes: one or none."""
    return {op.parts[part] for part in ["d", "to"] if op.parts.get(part) is not None}


def edges(op, at):
    """The instructions that may be next after the one of number `at`, each with the names that are removed on the way."""
    match op.word:
        case "jump":
            return [(op.parts["t"], op.parts["removes"])]
        case "branch":
            return [(op.parts["t"], op.parts["removes"]), (op.parts["e"], op.parts["otherwise"])]
        case "return":
            return []
    return [(at + 1, op.parts["removes"])]


def live_variables(f):
    """For each instruction, and for the place after the last one, the variables that are live just before it."""
    live = [set() for _ in range(len(f.body) + 1)]
    changed = True
    while changed:
        changed = False
        for at, op in reversed(list(enumerate(f.body))):
            after = set().union(*(live[to] for to, _ in edges(op, at)))
            before = reads(op) | (after - writes(op))
            changed = changed or before != live[at]
            live[at] = before
    return live


# ---- names of regions


def is_pointer_like(ty):
    return ty not in ("int", "bool")


def own_names(f, found):
    """Of some classes, the names that are the function's own: not G, and not the class of its result."""
    return set(found) - {None, GLOBAL, f.result.cls if f.result else None}


def live_classes(f):
    """For each instruction, and for the place after the last one, the classes that are live just before it."""
    return [{f.variables[v].cls for v in live} for live in live_variables(f)]


def parameter_classes(f):
    return [v.cls for v in f.variables[: f.count]]


def region_parameters(f):
    """The classes of which a caller passes the regions: those of the parameters, then that of the result."""
    found = parameter_classes(f) + ([f.result.cls] if f.result else [])
    return list(dict.fromkeys(cls for cls in found if cls not in (None, GLOBAL)))


def creates_of(f, op, held):
    """What an instruction creates, if the names `held` are held before it."""
    return own_names(f, {f.variables[v].cls for v in reads(op) | writes(op)}) - held


def protects_of(f, op, live_after):
    """What a call protects, if the classes `live_after` are live after it."""
    passed = op.parts["R"]
    is_needed = lambda k: k in live_after or (f.result and k == f.result.cls) or passed.count(k) > 1
    return {k for k in passed if k not in (None, GLOBAL) and is_needed(k)}


def given_by(code, op):
    """What a call leaves to its function to remove: what it passes without protection, but not what the result goes to."""
    if op.word != "call":
        return set()
    callee = callee_of(code, op)
    result = callee.result.cls if callee.result else None
    for_result = {k for parameter, k in zip(region_parameters(callee), op.parts["R"]) if parameter == result}
    return set(op.parts["R"]) - set(op.parts["P"]) - for_result - {None, GLOBAL}


def removes_of(code, op, held, held_after):
    """What is removed after an instruction, if the names `held` are held before it and `held_after` at the next one."""
    return (held | set(op.creates)) - given_by(code, op) - held_after


# ---- the rules


def find(items, name):
    """The first of these that has the name, or None."""
    return next((item for item in items if item.name == name), None)


def struct_of(code, ty):
    """The struct to which a type is a pointer, or None."""
    return find(code.structs, ty[1:]) if ty[0] == "*" else None


def type_exists(code, ty):
    return "*" not in ty or find(code.structs, ty.split("*")[1]) is not None


def functions(code):
    """Each function, after the number of its line `func`."""
    line = 2 + len(code.structs) + len(code.globals)
    for f in code.functions:
        yield line, f
        line += len(f.variables) + len(f.body) + 3


def entry_line(head, f):
    return head + len(f.variables) + 1


def body(head, f):
    """The line of each instruction of a function, its number and itself."""
    return [(entry_line(head, f) + 1 + at, at, op) for at, op in enumerate(f.body)]


def instructions(code):
    """The line of each instruction, its function and itself."""
    return [(line, f, op) for head, f in functions(code) for line, _, op in body(head, f)]


def last_line(code):
    return 1 + len(code.structs) + len(code.globals) + sum(len(f.variables) + len(f.body) + 3 for f in code.functions)


def callee_of(code, op):
    return find(code.functions, op.parts["f"][0])


def repeated(first_line, items):
    """The lines of these whose name one before them has."""
    return [first_line + n for n, item in enumerate(items) if item.name in {other.name for other in items[:n]}]


def names_exist(code, f, op):
    """Whether what an instruction names is there, and a call has the arguments and the result that its function has."""
    if any(v >= len(f.variables) for v in reads(op) | writes(op)):
        return False
    if any(to >= len(f.body) for to in (op.parts[part] for part in ["t", "e"] if part in op.parts)):
        return False
    if "S" in op.parts and not find(code.structs, op.parts["S"]):
        return False
    if "g" in op.parts and not find(code.globals, op.parts["g"]):
        return False
    if "k" in op.parts:
        struct = struct_of(code, f.variables[op.parts["a"]].type)
        return not struct or op.parts["k"] < len(struct.types)
    if "f" in op.parts:
        callee = callee_of(code, op)
        if not callee or len(op.parts["f"][1]) != callee.count:
            return False
        return op.word == "go" or (op.parts["to"] is None) == (callee.result is None)
    return True


def exists(code):
    """1. What is named is there, names differ, functions end, and there is a `main`."""
    yield from repeated(2, code.structs)
    yield from (2 + n for n, struct in enumerate(code.structs) if not all(type_exists(code, ty) for ty in struct.types))
    first = 2 + len(code.structs)
    yield from repeated(first, code.globals)
    yield from (first + n for n, variable in enumerate(code.globals) if not type_exists(code, variable.type))
    for n, (head, f) in enumerate(functions(code)):
        is_repeated = f.name in {other.name for other in code.functions[:n]}
        if is_repeated or f.count > len(f.variables) or (f.result and not type_exists(code, f.result.type)):
            yield head
        yield from (head + 1 + v for v, variable in enumerate(f.variables) if not type_exists(code, variable.type))
        for line, at, op in body(head, f):
            is_last = at + 1 == len(f.body)
            if not names_exist(code, f, op) or (is_last and op.word not in ("jump", "branch", "return")):
                yield line
        if not f.body:
            yield entry_line(head, f) + 1
    if not any(f.name == "main" and f.count == 0 and not f.result for f in code.functions):
        yield last_line(code) + 1


def field_type(code, ty, k):
    """The type of a field of the struct to which a type is a pointer, or None."""
    struct = struct_of(code, ty)
    return struct.types[k] if struct else None


def types_fit(code, f, op):
    """Whether the variables of an instruction have the types that it needs."""
    t = {part: f.variables[op.parts[part]].type for part in VARIABLES if op.parts.get(part) is not None}
    match op.word:
        case "int":
            return t["d"] == "int"
        case "bool":
            return t["d"] == "bool"
        case "nil":
            return is_pointer_like(t["d"])
        case "copy":
            return t["d"] == t["a"]
        case "bin" if op.parts["OP"] in ("eq", "ne"):
            return t["a"] == t["b"] and not t["a"].startswith("[]") and t["d"] == "bool"
        case "bin":
            return t["a"] == t["b"] == "int" and t["d"] == ("bool" if op.parts["OP"] in COMPARISONS else "int")
        case "neg":
            return t["d"] == t["a"] == "int"
        case "not":
            return t["d"] == t["a"] == "bool"
        case "isnil":
            return t["d"] == "bool" and is_pointer_like(t["a"])
        case "len":
            return t["d"] == "int" and t["a"].startswith("[]")
        case "load":
            return field_type(code, t["a"], op.parts["k"]) == t["d"]
        case "store":
            return field_type(code, t["a"], op.parts["k"]) == t["b"]
        case "at":
            return t["a"] == "[]" + t["d"] and t["i"] == "int"
        case "put":
            return t["a"] == "[]" + t["b"] and t["i"] == "int"
        case "new":
            return t["d"] == "*" + op.parts["S"]
        case "slice":
            return t["d"].startswith("[]") and t["n"] == "int"
        case "chan":
            return t["d"].startswith("chan.") and t["n"] == "int"
        case "recv":
            return t["a"] == "chan." + t["d"]
        case "send":
            return t["a"] == "chan." + t["b"]
        case "close":
            return t["a"].startswith("chan.")
        case "get":
            return find(code.globals, op.parts["g"]).type == t["d"]
        case "set":
            return find(code.globals, op.parts["g"]).type == t["a"]
        case "call" | "go":
            callee = callee_of(code, op)
            pairs = [(f.variables[v].type, callee.variables[n].type) for n, v in enumerate(op.parts["f"][1])]
            pairs += [(t["to"], callee.result.type)] if "to" in t else []
            return all(one == other for one, other in pairs)
        case "print":
            return not any(is_pointer_like(f.variables[v].type) for v in reads(op))
        case "jump":
            return True
        case "branch":
            return t["a"] == "bool"
        case "return":
            return t.get("value") == (f.result.type if f.result else None)


def types(code):
    """2. The variables of each instruction have the types that it needs."""
    return [line for line, f, op in instructions(code) if not types_fit(code, f, op)]


def classes_exist(code):
    """3. What is pointer-like has a class, and nothing else has."""
    for head, f in functions(code):
        for n, found in enumerate([f.result, *f.variables]):
            if found and (found.cls is None) == is_pointer_like(found.type):
                yield head + n


# The instructions that join two variables, and those that join one with the package variables.
JOINS = {"copy": "da", "load": "da", "store": "ab", "at": "da", "put": "ab", "recv": "da", "send": "ab"}
GLOBAL_JOINS = {"get": "d", "set": "a"}


def joins(code):
    """4. Two pointer-like variables that an instruction joins have one class."""
    for line, f, op in instructions(code):
        pair = [f.variables[op.parts[part]] for part in JOINS.get(op.word, "")]
        if pair and all(is_pointer_like(v.type) for v in pair) and pair[0].cls != pair[1].cls:
            yield line


def globals_join(code):
    """5. A pointer-like variable that goes to a package variable or comes from one has class G."""
    for line, f, op in instructions(code):
        found = [f.variables[op.parts[part]] for part in GLOBAL_JOINS.get(op.word, "")]
        if any(is_pointer_like(v.type) and v.cls != GLOBAL for v in found):
            yield line


def passes(f, callee, op):
    """Whether R has, for each region parameter of the callee, the class of each actual there."""
    expected = region_parameters(callee)
    if len(op.parts["R"]) != len(expected):
        return False
    pairs = [(callee.variables[n].cls, f.variables[v].cls) for n, v in enumerate(op.parts["f"][1])]
    pairs += [(callee.result.cls, f.variables[op.parts["to"]].cls)] if op.parts.get("to") is not None else []
    passed_for = {GLOBAL: GLOBAL, **dict(zip(expected, op.parts["R"]))}
    return all(actual == passed_for[formal] for formal, actual in pairs if formal is not None)


def calls_pass(code):
    """6. A call passes, for each region parameter of its function, the class of each actual there."""
    return [line for line, f, op in instructions(code) if op.word == "call" and not passes(f, callee_of(code, op), op)]


def starts_pass(code):
    """7. So does a `go`, and its function has no result."""
    for line, f, op in instructions(code):
        if op.word == "go" and (callee_of(code, op).result or not passes(f, callee_of(code, op), op)):
            yield line


def entry_is_known(code):
    """8. The own names that are live into the first instruction are those of parameters."""
    for head, f in functions(code):
        if own_names(f, live_classes(f)[0]) - set(parameter_classes(f)):
            yield entry_line(head, f)


def creates_used(code):
    """9. An instruction creates the own names that it uses and that are not held before it."""
    for head, f in functions(code):
        live = live_classes(f)
        for line, at, op in body(head, f):
            if set(op.creates) != creates_of(f, op, own_names(f, live[at])):
                yield line


def protects_used(code):
    """10. A call protects the names that it passes and that are live after it, the result's, or passed twice."""
    for head, f in functions(code):
        live = live_classes(f)
        for line, at, op in body(head, f):
            if op.word == "call" and set(op.parts["P"]) != protects_of(f, op, live[at + 1]):
                yield line


def returns_join(code):
    """11. A returned variable has the class of the result."""
    for line, f, op in instructions(code):
        if op.word == "return" and op.parts["value"] is not None and f.variables[op.parts["value"]].cls != f.result.cls:
            yield line


def lends_result(code):
    """12. The name of the result is neither created nor removed."""
    for head, f in functions(code):
        lent = f.result.cls if f.result else None
        if lent in f.entry:
            yield entry_line(head, f)
        for line, at, op in body(head, f):
            if any(lent in found for found in [op.creates, *(removes for _, removes in edges(op, at))]):
                yield line


def removes_dead(code):
    """13. On each way on exactly the names are removed that are held no more."""
    for head, f in functions(code):
        hold = [own_names(f, live) for live in live_classes(f)]
        if set(f.entry) != own_names(f, parameter_classes(f)) - hold[0]:
            yield entry_line(head, f)
        for line, at, op in body(head, f):
            if any(set(removes) != removes_of(code, op, hold[at], hold[to]) for to, removes in edges(op, at)):
                yield line


def holds_nothing(code):
    """14. Before a return no name is held, and a return creates none."""
    for head, f in functions(code):
        live = live_classes(f)
        for line, at, op in body(head, f):
            if op.word == "return" and (op.creates or own_names(f, live[at])):
                yield line


RULES = [
    exists,
    types,
    classes_exist,
    joins,
    globals_join,
    calls_pass,
    starts_pass,
    entry_is_known,
    creates_used,
    protects_used,
    returns_join,
    lends_result,
    removes_dead,
    holds_nothing,
]


def check(code):
    """The least rule that the code breaks and the first line that breaks it, or None. A rule is used only where those
    before it are kept."""
    for rule, broken_lines in enumerate(RULES, start=1):
        lines = list(broken_lines(code))
        if lines:
            return rule, min(lines)
    return None


def report(text):
    """What `rgo code` reports of a text in bytes, or None."""
    if len(text) > LONGEST:
        return f"rgo: text longer than {LONGEST} bytes"
    code = read(text)
    if isinstance(code, int):
        return f"rgo: line {code}: code text"
    broken = check(code)
    return f"rgo: line {broken[1]}: code {broken[0]}" if broken else None


def main(words):
    if len(words) != 2 or words[0] != "check":
        raise command.WrongWords
    with open(words[1], "rb") as file:
        said = report(file.read())
    if said:
        print(said, file=sys.stderr)
    return 1 if said else 0


if __name__ == "__main__":
    command.start(main, __doc__)
