"""Why a code text is refused. tools/explain says so of `code K` and of `code text`.

`reason` says which name is missing, and which is too many, of the rule and the line that `rgo code` reports; it expects that
the code keeps all lesser rules. `form_reason` says why a line has no form.
"""

import re

import code_text
from code_text import GLOBAL, own_names, parameter_classes, region_parameters, show_class


def listed(words):
    """Words as a list in a sentence."""
    *most, last = words
    return f"{', '.join(most)} and {last}" if most else last


def classes(found):
    return listed(list(map(show_class, sorted(found))))


def difference(what, has, needs):
    """What a list of names has too many, and what is missing there."""
    missing, more = set(needs) - set(has), set(has) - set(needs)
    said = [f"{classes(missing)} {'is' if len(missing) == 1 else 'are'} missing in {what}"] if missing else []
    said += [f"{classes(more)} {'is' if len(more) == 1 else 'are'} too many in {what}"] if more else []
    return ", and ".join(said)


def typed(f, v):
    """A variable with its type."""
    return f"v{v} is {f.variables[v].type}"


def with_class(f, v):
    """A variable with its class."""
    return f"v{v} has {show_class(f.variables[v].cls)}"


def variables_of(op):
    """The variables of an instruction, in the order of its words, each once."""
    found = [op.parts[part] for part in code_text.VARIABLES if op.parts.get(part) is not None]
    found += op.parts["f"][1] if "f" in op.parts else []
    found += [piece for piece in op.parts.get("pieces", []) if not isinstance(piece, code_text.Text)]
    return list(dict.fromkeys(found))


def number_of(f, op):
    """The number of an instruction. Another one may say the same."""
    return next(n for n, other in enumerate(f.body) if other is op)


# ---- rule 1


def missing_struct(code, ty):
    """What is wrong with a type that names no struct, or None."""
    return None if code_text.type_exists(code, ty) else f"there is no struct {ty.split('*')[1]}"


def not_there(code, f, op):
    """What an instruction names that is not there."""
    count = len(f.variables)
    for v in variables_of(op):
        if v >= count:
            yield f"there is no v{v}: {f'the variables end with v{count - 1}' if count else 'there are no variables'}"
    for part in ["t", "e"]:
        if op.parts.get(part, 0) >= len(f.body):
            yield f"there is no instruction {op.parts[part]}: the last one is {len(f.body) - 1}"
    if "S" in op.parts and not code_text.find(code.structs, op.parts["S"]):
        yield f"there is no struct {op.parts['S']}"
    if "g" in op.parts and not code_text.find(code.globals, op.parts["g"]):
        yield f"there is no package variable {op.parts['g']}"
    if "f" in op.parts:
        yield from wrong_call(code, op)
    elif "k" in op.parts and op.parts["a"] < len(f.variables):
        struct = code_text.struct_of(code, f.variables[op.parts["a"]].type)
        if struct and op.parts["k"] >= len(struct.types):
            yield f"there is no field {op.parts['k']}: struct {struct.name} has {len(struct.types)}"


def wrong_call(code, op):
    name, arguments = op.parts["f"]
    callee = code_text.find(code.functions, name)
    if not callee:
        yield f"there is no function {name}"
        return
    if len(arguments) != callee.count:
        yield f"{name} has {callee.count} parameters, and the arguments are {len(arguments)}"
    if op.word == "call" and (op.parts["to"] is None) != (callee.result is None):
        needs = "so it needs a target" if callee.result else "so there is no target: write -"
        yield f"{name} has {'a' if callee.result else 'no'} result, {needs}"


def missing_thing(code, line):
    """Rule 1: what is named and is not there, or is there twice, or has no end."""
    for first, items, kind in [(2, code.structs, "struct"), (2 + len(code.structs), code.globals, "package variable")]:
        if first <= line < first + len(items):
            item, before = items[line - first], items[: line - first]
            if code_text.find(before, item.name):
                return f"there is a {kind} {item.name} before"
            types = item.types if kind == "struct" else [item.type]
            return next(filter(None, (missing_struct(code, ty) for ty in types)), None)
    for n, (head, f) in enumerate(code_text.functions(code)):
        entry = code_text.entry_line(head, f)
        if line == head:
            if code_text.find(code.functions[:n], f.name):
                return f"there is a function {f.name} before"
            if f.count > len(f.variables):
                return f"{f.count} parameters need as many lines var, and there are {len(f.variables)}"
            return missing_struct(code, f.result.type)
        if head < line < entry:
            return missing_struct(code, f.variables[line - head - 1].type)
        if entry < line <= entry + len(f.body):
            op = f.body[line - entry - 1]
            return next(not_there(code, f, op), "the last instruction has to be a jump, a branch or a return")
        if line == entry + len(f.body) + 1:
            return f"{f.name} has no instruction"
    return "there is no function main without parameters and result"


# ---- what is passed


def passed_for(code, f, op):
    """For each region parameter of a call's function, the classes of what is passed for it, with what that is."""
    callee = code_text.callee_of(code, op)
    found = {cls: {} for cls in [*region_parameters(callee), GLOBAL]}
    for n, v in enumerate(op.parts["f"][1]):
        found.get(callee.variables[n].cls, {})[f"v{v}"] = f.variables[v].cls
    if callee.result and op.parts.get("to") is not None:
        found.get(callee.result.cls, {})[f"the target v{op.parts['to']}"] = f.variables[op.parts["to"]].cls
    return callee, found


def wrong_passing(code, f, op):
    """Rules 6 and 7."""
    callee, found = passed_for(code, f, op)
    if op.word == "go" and callee.result:
        return f"{callee.name} has a result, so it cannot be started with go"
    for cls, passed in found.items():
        if cls == GLOBAL and set(passed.values()) - {GLOBAL}:
            what, other = next((what, other) for what, other in passed.items() if other != GLOBAL)
            return f"{what} has {show_class(other)}, and {callee.name} needs G for it"
        if len(set(passed.values())) > 1:
            several = listed([f"{what} in {show_class(other)}" for what, other in passed.items()])
            return f"{callee.name} needs one region for what is passed for its {show_class(cls)}, and there are {several}"
    formals = region_parameters(callee)
    needed = [next(iter(found[cls].values()), None) for cls in formals]
    of_what = listed(list(map(show_class, formals))) if formals else "no region"
    return f"R{code_text.show_names(needed)} is needed, for {of_what} of {callee.name}"


# ---- the other rules, each of an instruction


def wrong_joins(code, f, op):
    pair = [op.parts[part] for part in code_text.JOINS[op.word]]
    return f"{listed([with_class(f, v) for v in pair])}"


def wrong_global(code, f, op):
    return f"{with_class(f, op.parts[code_text.GLOBAL_JOINS[op.word]])} in place of G"


def wrong_types(code, f, op):
    said = [typed(f, v) for v in variables_of(op)]
    if op.word == "return":
        said.append(f"the result of {f.name} is {f.result.type}" if f.result else f"{f.name} has no result")
    if op.word in ("load", "store"):
        struct = code_text.struct_of(code, f.variables[op.parts["a"]].type)
        said += [f"field {op.parts['k']} of {struct.name} is {struct.types[op.parts['k']]}"] if struct else []
    if op.word in ("get", "set"):
        said.append(f"{op.parts['g']} is {code_text.find(code.globals, op.parts['g']).type}")
    if "f" in op.parts:
        callee = code_text.callee_of(code, op)
        wanted = [variable.type for variable in callee.variables[: callee.count]]
        returned = f" and returns {callee.result.type}" if callee.result else ""
        said.append(f"{callee.name} takes {', '.join(wanted) or 'nothing'}{returned}")
    return listed(said)


def wrong_creations(code, f, op):
    held = own_names(f, code_text.live_classes(f)[number_of(f, op)])
    return difference("CREATES", op.creates, code_text.creates_of(f, op, held))


def wrong_protections(code, f, op):
    live = code_text.live_classes(f)
    return difference("P", op.parts["P"], code_text.protects_of(f, op, live[number_of(f, op) + 1]))


def wrong_return(code, f, op):
    return f"{with_class(f, op.parts['value'])}, and the result has {show_class(f.result.cls)}"


def wrong_lending(code, f, op):
    return f"{show_class(f.result.cls)} is the name of the result"


def wrong_removals(code, f, op):
    at, hold = number_of(f, op), [own_names(f, live) for live in code_text.live_classes(f)]
    ways = code_text.edges(op, at)
    for (to, removes), truth in zip(ways, ["true", "false"]):
        what = f"REMOVES on the way on which v{op.parts['a']} is {truth}" if len(ways) > 1 else "REMOVES"
        said = difference(what, removes, code_text.removes_of(code, op, hold[at], hold[to]))
        if said:
            return said
    return None


def wrong_ending(code, f, op):
    return f"{classes(op.creates)} is created by a return" if op.creates else None


OF_INSTRUCTIONS = {
    2: wrong_types,
    4: wrong_joins,
    5: wrong_global,
    6: wrong_passing,
    7: wrong_passing,
    9: wrong_creations,
    10: wrong_protections,
    11: wrong_return,
    12: wrong_lending,
    13: wrong_removals,
    14: wrong_ending,
}


def wrong_class(f, found):
    """Rule 3, of a variable or a result."""
    if found.cls is None:
        return f"a {found.type} needs a class"
    return f"an {found.type} has no class: write -" if found.type == "int" else f"a {found.type} has no class: write -"


def at_entry(f, rule):
    """Rules 8, 12 and 13, of the line `entry`."""
    live = code_text.live_classes(f)[0]
    if rule == 8:
        unknown = own_names(f, live) - set(parameter_classes(f))
        return f"{classes(unknown)} {'is' if len(unknown) == 1 else 'are'} read before an instruction writes there"
    if rule == 12:
        return f"{show_class(f.result.cls)} is the name of the result"
    return difference("REMOVES", f.entry, own_names(f, parameter_classes(f)) - own_names(f, live))


def reason(code, rule, line):
    """Why a line breaks a rule, as a clause without its full stop, or None if that cannot be said."""
    if rule == 1:
        return missing_thing(code, line)
    for head, f in code_text.functions(code):
        entry = code_text.entry_line(head, f)
        if head <= line < entry and rule == 3:
            return wrong_class(f, f.result if line == head else f.variables[line - head - 1])
        if line == entry and rule in (8, 12, 13):
            return at_entry(f, rule)
        if entry < line <= entry + len(f.body) and rule in OF_INSTRUCTIONS:
            return OF_INSTRUCTIONS[rule](code, f, f.body[line - entry - 1])
    return None


def reason_of(text, rule, line):
    """Why a text in bytes is refused for a rule, or for `text`, at a line; None if it is not refused for that."""
    code = code_text.read(text)
    if isinstance(code, int):
        return form_reason(text, line) if (rule, code) == ("text", line) else None
    return reason(code, int(rule), line) if rule != "text" and code_text.check(code) == (int(rule), line) else None


# ---- lines without form

FIRST = "the first line has to be: rgo code 1"
# What is wrong with a line that looks as if it had a form.
WRONG_WORD = "a name is a keyword of Go, or a number is too large, or the names of a list are not in ascending order"
# The forms of lines in the words of docs/CODE_TEXT.md.
LINE_FORMS = {
    "struct": "struct NAME, and a TYPE for each field",
    "global": "global NAME TYPE",
    "func": "func NAME COUNT TYPE CLASS, or func NAME COUNT - - without a result",
    "var": "var TYPE CLASS",
    "entry": "entry -[..]",
    "instruction": "INDEX @PLACE +[..], and what is done",
    "end": "end",
}


def kind_of(line):
    """The kind of a line that has a form, or None."""
    if line == "rgo code 1":
        return "rgo"
    return next((kind for kind, pattern in code_text.LINES.items() if pattern.fullmatch(line)), None)


def expected(before):
    """What may be in the line after one of a kind."""
    words = {"instruction": "an instruction", "end": "the line end", "entry": "the line entry"}
    return " or ".join(words.get(kind, f"a line {kind}") for kind in code_text.AFTER[before])


def form_of(word):
    """The form of an instruction in the words of docs/CODE_TEXT.md."""
    shown = {"removes": "-[..]", "otherwise": "-[..]", "R": "R[..]", "P": "P[..]", "f": "NAME(..)", "pieces": "PIECES"}
    shown.update(dict.fromkeys("dabin", "V"), to="(V or -)", value="(V or -)", k="FIELD", S="NAME", g="NAME")
    shown.update(t="INDEX", e="INDEX", B="(true or false)")
    return " ".join([word, *(shown.get(part, part) for part in code_text.FORMS[word])])


def form_reason(text, number):
    """Why a line of a text in bytes has no form in its place, as a clause without its full stop."""
    *lines, rest = text.decode("latin-1").split("\n")
    if number > len(lines):
        if rest:
            return "the last line does not end in a newline"
        return f"the text ends, and {expected(kind_of(lines[-1]))} has to follow" if lines else FIRST
    line = lines[number - 1]
    if not line:
        return "the line is empty"
    if line[-1] in "\r ":
        return f"the line ends in a {'blank' if line[-1] == ' ' else 'carriage return'}"
    if number == 1:
        return FIRST
    if "\t" in line or "  " in re.sub(r'"[^"]*"', "", line):
        return "a tab, or more than one blank, separates two parts"
    before, kind = kind_of(lines[number - 2]), kind_of(line)
    if kind is None or kind not in code_text.AFTER[before]:
        return other_kind(line.split(" ")[0], before)
    return wrong_instruction(line, lines[number - 2], before) if kind == "instruction" else WRONG_WORD


def other_kind(word, before):
    """Why a line that begins with a word does not follow one of a kind."""
    kind = "instruction" if word.isdigit() else word
    if kind in code_text.AFTER[before]:
        return f"the form is {LINE_FORMS[kind]}"
    return f"{expected(before)} has to be here"


def wrong_instruction(line, line_before, before):
    """Why an instruction has no form after a line of a kind."""
    index, _, _, rest, word = code_text.LINES["instruction"].fullmatch(line).groups()
    at = 0 if before == "entry" else int(code_text.LINES["instruction"].fullmatch(line_before)[1]) + 1
    if int(index) != at:
        return f"the number of this instruction is {at}"
    if word not in code_text.FORMS:
        return f"there is no instruction {word}"
    return WRONG_WORD if code_text.PATTERNS[word].fullmatch(rest) else f"the form is {form_of(word)}"
