#!/usr/bin/env python3
"""A small producer of code texts: it adds the regions to three-address code. docs/CODE_TEXT.md explains how.

    tools/code_producer.py FILE

FILE has three-address code: a code text without its first line, without the lines `entry`, and without classes and lists
of names. The code text is printed. What a list of a code text has to say is in tools/code_text.py, beside its rules.
"""

import dataclasses
import sys

import code_text
import command
from code_text import GLOBAL, GLOBAL_JOINS, JOINS, Variable, callee_of, own_names, parameter_classes, region_parameters

RESULT = "result"

# ---- three-address code


def with_empty_lists(line):
    """A line of three-address code as a line of a code text that says nothing of regions."""
    if line.startswith(("func ", "var ")):
        return line + " -"
    if not line[:1].isdigit():
        return line
    index, place, op = line.split(" ", 2)
    match op.split(" ")[0]:
        case "return":
            pass
        case "call":
            op += " R[] P[] -[]"
        case "go":
            op += " R[] -[]"
        case "branch":
            op = "{} {} {} -[] {} -[]".format(*op.split(" "))
        case _:
            op += " -[]"
    return f"{index} {place} +[] {op}"


def read_plain(text):
    """The code of three-address code in bytes, or the number of its first line that has no form."""
    lines = ["rgo code 1"]
    for line in text.decode("latin-1").split("\n"):
        if lines[-1].startswith(("func ", "var ")) and not line.startswith("var "):
            lines.append("entry -[]")
        lines.append(with_empty_lists(line))
    code = code_text.read("\n".join(lines).encode("latin-1"))
    if isinstance(code, int):
        return code - 1 - lines[:code].count("entry -[]")
    return code


# ---- classes


def call_joins(summary, op):
    """The pairs that a call or a `go` joins: what is passed for two places that have one class in the summary."""
    actuals = [*op.parts["f"][1], op.parts.get("to")]
    found = {GLOBAL: GLOBAL}
    for formal, actual in zip(summary, actuals):
        if formal is not None and actual is not None:
            yield found.setdefault(formal, actual), actual


def joins(op, summaries):
    """The pairs that an instruction joins. Each is a variable's number, RESULT or GLOBAL."""
    if op.word in JOINS:
        return [tuple(op.parts[part] for part in JOINS[op.word])]
    if op.word in GLOBAL_JOINS:
        return [(op.parts[GLOBAL_JOINS[op.word]], GLOBAL)]
    if op.word == "return":
        return [(op.parts["value"], RESULT)]
    return list(call_joins(summaries.get(op.parts["f"][0], []), op)) if "f" in op.parts else []


def classes_of(f, summaries):
    """The class of each variable and that of the result, if the functions that are called have these summaries."""
    types = {**{v: variable.type for v, variable in enumerate(f.variables)}, RESULT: f.result.type if f.result else "int"}
    members = [member for member, ty in types.items() if code_text.is_pointer_like(ty)]
    group = {member: frozenset([member]) for member in [*members, GLOBAL]}
    for op in f.body:
        for one, other in joins(op, summaries):
            if one in group and other in group:
                both = group[one] | group[other]
                group.update(dict.fromkeys(both, both))
    numbers = {}
    name = lambda member: GLOBAL if GLOBAL in group[member] else numbers.setdefault(group[member], len(numbers))
    found = {member: name(member) for member in members}
    return [found.get(member) for member in types]


def all_classes(code):
    """The classes of each function by its name, from the least summaries of all functions: none joins anything at first,
    and each is computed again until none changes. A summary has the classes of the parameters, then that of the result.
    """
    summaries, before = {}, None
    while summaries != before:
        before = dict(summaries)
        classes = {f.name: classes_of(f, summaries) for f in code.functions}
        summaries = {f.name: [*classes[f.name][: f.count], classes[f.name][-1]] for f in code.functions}
    return classes


# ---- regions


def with_classes(f, classes):
    """The function with these classes."""
    variables = [Variable(variable.type, cls) for variable, cls in zip(f.variables, classes)]
    return dataclasses.replace(f, variables=variables, result=f.result and Variable(f.result.type, classes[-1]))


def passed_by(code, f, op):
    """What a call or a `go` passes for each region parameter of its function."""
    callee = callee_of(code, op)
    formals = [*parameter_classes(callee), callee.result.cls if callee.result else None]
    actuals = [f.variables[v].cls if v is not None else None for v in [*op.parts["f"][1], op.parts.get("to")]]
    passed_for = dict(zip(formals, actuals))
    return [passed_for[parameter] for parameter in region_parameters(callee)]


def add_lists(code, f):
    """Adds to a function what it creates, passes, protects and removes."""
    live = code_text.live_classes(f)
    hold = [own_names(f, found) for found in live]
    f.entry = sorted(own_names(f, parameter_classes(f)) - hold[0])
    for at, op in enumerate(f.body):
        op.creates = sorted(code_text.creates_of(f, op, hold[at]))
        if "R" in op.parts:
            op.parts["R"] = passed_by(code, f, op)
        if "P" in op.parts:
            op.parts["P"] = sorted(code_text.protects_of(f, op, live[at + 1]))
        for part, (to, _) in zip(["removes", "otherwise"], code_text.edges(op, at)):
            op.parts[part] = sorted(code_text.removes_of(code, op, hold[at], hold[to]))


def with_regions(code):
    """The code with its regions. Any region operations that it already has are dropped."""
    classes = all_classes(code)
    forget = lambda op: dataclasses.replace(op, parts=dict(op.parts))
    functions = [dataclasses.replace(with_classes(f, classes[f.name]), body=list(map(forget, f.body))) for f in code.functions]
    code = dataclasses.replace(code, functions=functions)
    for f in functions:
        add_lists(code, f)
    return code


def main(words):
    if len(words) != 1:
        raise command.WrongWords
    with open(words[0], "rb") as file:
        code = read_plain(file.read())
    if isinstance(code, int):
        raise command.Stop(1, f"line {code} has no form")
    # The rules on names and types are kept or broken without regions.
    for rule in [code_text.exists, code_text.types]:
        if list(rule(code)):
            raise command.Stop(1, f"the code breaks rule {rule.__doc__[0]}")
    sys.stdout.buffer.write(code_text.write(with_regions(code)))
    return 0


if __name__ == "__main__":
    command.start(main, __doc__)
