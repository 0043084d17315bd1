#!/usr/bin/env python3
"""Code texts with an error, and what has to be reported of them, as tables for the tests of the checker.

    tools/code_vectors.py --table | --check

`--table` writes the tables to crates/rgo_code_text_tests/src/code_texts/, and `--check` fails if those are others. What has to
be reported comes from tools/code_text.py. Each table is made from texts in tools/code_texts, which keep all rules. All these
texts, and the programs beside them, are written for the tests of `emit`, too, to crates/rgo_compile_tests/src/inserted/.

- EXISTENCE, TYPES, CLASSES and REGIONS: a line of `all.code` is replaced, so that a rule is broken. There is a row, or
  several, for each rule but the fourteenth and each kind of line at which it can be broken.
- FORMS: a line of `all.code` is replaced by one that has no form, or by one that only seems to have none.
- CUTS: a text ends after one of its lines.
- BYTES: in each line of a text the last digit is replaced by the next one, 9 by 0. In a line without digits the last byte
  is replaced by `x`.
"""

import ast
import collections
import pathlib
import re

import code_text
import command
from code_text import FORMS, GLOBAL_JOINS, JOINS, OPERATORS

TOP = pathlib.Path(__file__).resolve().parent.parent
TEXTS = TOP / "tools" / "code_texts"
TABLES = TOP / "crates" / "rgo_code_text_tests" / "src" / "code_texts"
INSERTED = TOP / "crates" / "rgo_compile_tests" / "src" / "inserted"

WORDS = list(FORMS)
WITH_EDGE = [word for word in WORDS if word != "return"]
# The kinds of lines at which each rule can be broken: those of instructions by their words, and `last` after the last line.
KINDS = {
    1: ["struct", "global", "func", "var", *WORDS, "end", "last"],
    2: [word for word in WORDS if word != "jump"],
    3: ["func", "var"],
    4: list(JOINS),
    5: list(GLOBAL_JOINS),
    6: ["call"],
    7: ["go"],
    8: ["entry"],
    9: WORDS,
    10: ["call"],
    11: ["return"],
    12: ["entry", *WITH_EDGE],
    13: ["entry", *WITH_EDGE],
}
# The tables of rows that break a rule, with their rules. One table of all rows is more than the prover can take.
TABLES_OF_RULES = {"EXISTENCE": [1], "TYPES": [2], "CLASSES": [3, 4, 5, 6, 7, 11], "REGIONS": [8, 9, 10, 12, 13]}
# How many instructions of each word are changed.
LINES_PER_WORD = 2


def kind_of(lines, number):
    """The kind of the line of this number."""
    if number > len(lines):
        return "last"
    words = lines[number - 1].split()
    return words[3] if words[0].isdigit() else words[0]


def result_of(text):
    """The rule that is broken and its line: rule 0 if a line has no form, and 0 0 if there is nothing to report."""
    code = code_text.read(text.encode())
    return (0, code) if isinstance(code, int) else code_text.check(code) or (0, 0)


# ---- lines that break a rule


def replaced(line, pattern, others):
    """The line with one match of a pattern at a time replaced by one of the others."""
    for found in re.finditer(pattern, line):
        for other in others:
            if other != found[0]:
                yield line[: found.start()] + other + line[found.end() :]


def toggled(line):
    """The line with a name more or less in one of its lists, and what was done."""
    for n, found in enumerate(re.finditer(r"(?<=[-+P])\[([^]]*)\]", line)):
        names = {int(name[1:]) for name in found[1].split(",") if name}
        for k in range(5):
            changed = ",".join(f"r{name}" for name in sorted(names ^ {k}))
            yield f"list {n} {k in names}", f"{line[: found.start()]}[{changed}]{line[found.end() :]}"


def passing(line):
    """The line with another list R."""
    for found in re.finditer(r"R\[([^]]*)\]", line):
        classes = found[1].split(",") if found[1] else []
        for n, _ in enumerate(classes):
            for other in ["r0", "r1", "G", "-"]:
                yield f"passes {other}", [*classes[:n], other, *classes[n + 1 :]], found
        yield "passes more", [*classes, "r0"], found
        yield "passes less", classes[:-1], found


# In `all` these variables have different types or classes.
SOME = ["v0", "v1", "v2", "v3", "v9", "v20", "v31", "v34"]
TYPES = ["int", "*X", "*N", "[]*N", "chan.*N", "bool"]


def instruction_edits(line):
    head, rest = re.match(r"(\d+ @\d+ \S+ \w+)(.*)", line).groups()
    kinds = [
        ("variable", r"\bv\d+(?![^\"]*\"(,|\s))|(?<=return )-", [*SOME, "v99", "-"]),
        ("number", r"(?<=[ \]])\d+", ["0", "1", "99"]),
        ("name", r"\b(N|last|count|pick|supply|all)\b(?!\")", ["nothing", "count", "last", "pick"]),
        ("operator", rf"\b({'|'.join(OPERATORS)})\b", ["lt", "add"]),
        ("arguments", r"\bv\d+(?=\))", ["v0,v0"]),
        ("target", r"(?<=call )v\d+", ["-"]),
    ]
    for kind, pattern, others in kinds:
        yield from ((kind, head + edit) for edit in replaced(rest, pattern, others))
    for kind, classes, found in passing(line):
        yield kind, f"{line[: found.start()]}R[{','.join(classes)}]{line[found.end() :]}"
    yield from toggled(line)


def edits_of(line):
    """The line with one error at a time, a line or several, each after a word that says what was done."""
    several = lambda kind, pattern, others: ((kind, edit) for edit in replaced(line, pattern, others))
    match line.split(" ")[0]:
        case "struct" | "global":
            yield "twice", f"{line}\n{line}"
            yield from several("type", r"(?<= )\*?(int|N)$", TYPES)
        case "func":
            yield "empty", f"func empty 0 - -\nentry -[]\nend\n{line}"
            yield from several("count", r"(?<= )\d(?= )", ["0", "1", "99"])
            yield from several("name", r"(?<=func )\w+", ["main", "nothing"])
            yield from several("result", r"- -|(?<=\d )\S+ \S+$", ["int -", "int r0", "*N -", "*N G", "*N r1", "*X r0", "- -"])
        case "var":
            yield from several("type", r"(?<= )\S+(?= )", TYPES)
            yield from several("class", r"(?<= )\S+$", ["-", "G", "r0", "r1", "r9"])
        case "entry":
            yield from toggled(line)
        case word if word.isdigit():
            yield from instruction_edits(line)


def rules(lines):
    """The rows of all rules: the number of a line, what replaces it, the rule that is broken, and its line."""
    rows, wanted = {}, {(rule, kind) for rule, kinds in KINDS.items() for kind in kinds}
    of_kind = collections.Counter()
    for number, line in enumerate(lines, start=1):
        kind = kind_of(lines, number)
        of_kind[kind] += 1
        if kind in WORDS and of_kind[kind] > LINES_PER_WORD:
            continue
        for done, edit in edits_of(line):
            rule, at = result_of(text_with(lines, number, edit + "\n"))
            found = rule, kind_of(lines[: number - 1] + edit.split("\n") + lines[number:], at)
            if found in wanted:
                rows.setdefault((found, kind, done), (number, edit + "\n", rule, at))
    missing = wanted - {found for found, _, _ in rows}
    if missing:
        raise command.Stop(1, f"no row for {sorted(missing)}")
    return sorted(rows.values(), key=lambda row: (row[2], row[3]))


def text_with(lines, number, edit):
    """The text with another line of this number."""
    return "".join(line + "\n" for line in lines[: number - 1]) + edit + "".join(line + "\n" for line in lines[number:])


# ---- lines without form

# What is at the beginning of a line of `all.code`, and what replaces the line.
WITHOUT_FORM = {
    "rgo code 1": [
        "", "rgo code 2\n", "rgo code 1 \n", "rgo  code 1\n", "Rgo code 1\n", "rgo code 1\r\n", "\nrgo code 1\n",
    ],
    "struct N": [
        "struct\n", "struct N \n", "struct N  int *N\n", "struct type int *N\n", "struct N int N\n",
        "struct 1 int *N\n", "struct N int,*N\n", "Struct N int *N\n", "struct N int *func\n", "struct N int * N\n",
        "struct N int []\n", "struct N int chan *N\n", "struct N int chan.\n", "global last *N\nstruct N int *N\n",
    ],
    "global last": [
        "global last\n", "global last *N r0\n", "global last *N \n", "global var *N\n", "global last **N\n",
    ],
    "func pick": [
        "func pick 02 *N r0\n", "func pick 2 *N\n", "func pick 2 - r0\n", "func pick 2 - G\n", "func pick -1 *N r0\n",
        "func go 2 *N r0\n", "func pick 4294967296 *N r0\n", "func pick +2 *N r0\n", "func pick 2 *N R0\n", "",
    ],
    "var chan.*N r0": [
        "var chan.*N r00\n", "var chan.*N r\n", "var chan.*N\n", "var chan.*N g\n", "var chan *N r0\n", "\n",
        "var chan.*N r4294967296\n", "var  chan.*N r0\n", "var chan.*N r0 -\n", "var chan.*N -0\n",
    ],
    "entry -[]": [
        "", "entry\n", "entry -[] \n", "entry +[]\n", "entry -[r0,r0]\n", "entry -[r1,r0]\n", "entry -[r0,]\n",
        "entry -[G]\n", "entry -[r0, r1]\n", "entry -[,]\n", "entry -[-]\n", "entry -[]\nentry -[]\n",
        "entry -[]\nvar int -\n",
    ],
    "0 @117": [
        "1 @117 +[] bin v2 eq v0 v1 -[r1]\n", "00 @117 +[] bin v2 eq v0 v1 -[r1]\n",
        "0 117 +[] bin v2 eq v0 v1 -[r1]\n", "0 @0117 +[] bin v2 eq v0 v1 -[r1]\n",
        "0 @117 [] bin v2 eq v0 v1 -[r1]\n", "0 @117 +[] bin v2 and v0 v1 -[r1]\n", "0 @117 +[] bin v2 eq v0 v1\n",
        "0 @117 bin v2 eq v0 v1 -[r1]\n", "0 @117 +[] bin v2 v0 eq v1 -[r1]\n", "",
        "0 @117 +[] bin v2 eq v0,v1 -[r1]\n", "0 @117 +[] bin v2 eq v00 v1 -[r1]\n",
        "0 @117 +[] bin 2 eq 0 1 -[r1]\n", "0 @4294967296 +[] bin v2 eq v0 v1 -[r1]\n",
        "0 @117 +[r0] +[] bin v2 eq v0 v1 -[r1]\n", "0 @117 +[]  bin v2 eq v0 v1 -[r1]\n",
    ],
    "1 @112": [
        "1 @112 +[] branch v2 2 -[] 3\n", "1 @112 +[] branch v2 2 3 -[] -[]\n", "1 @112 +[] branch v2 02 -[] 3 -[]\n",
    ],
    "2 @126": ["2 @126 +[] return v0 -[]\n", "2 @126 +[] return\n", "2 @126 +[] return -[]\n"],
    "0 @242": [
        "0 @242 +[] bool v3 True -[]\n", "0 @242 +[] bool v3 1 -[]\n", "0 @242 +[] nop -[]\n",
        "0 @242 +[] bool true v3 -[]\n",
    ],
    "12 @308": [
        "12 @308 +[] int v11 -0 -[]\n", "12 @308 +[] int v11 +1 -[]\n", "12 @308 +[] int v11 01 -[]\n",
        "12 @308 +[] int v11  -[]\n", "12 @308 +[] int v11 9223372036854775808 -[]\n",
        "12 @308 +[] int v11 -9223372036854775809 -[]\n", "12 @308 +[] int v11 1e3 -[]\n",
        "12 @308 +[] int v11 0x1 -[]\n", "12 @308 +[] int v11 -01 -[]\n",
    ],
    "20 @357": [
        "20 @357 +[] send v17 v1 -[]\t\n", "20 @357 +[] send v17\tv1 -[]\n", "20 @357 +[] Send v17 v1 -[]\n",
        "20 @357 +[] send v17 -[]\n",
    ],
    "23 @373": [
        "23 @373 +[] go supply(v17, v19) R[r1] -[]\n", "23 @373 +[] go supply(v17,v19) R[r1] P[] -[]\n",
        "23 @373 +[] go - supply(v17,v19) R[r1] -[]\n", "23 @373 +[] go supply(v17,v19) -[]\n",
        "23 @373 +[] go supply (v17,v19) R[r1] -[]\n",
    ],
    "24 @397": ["24 @397 +[] new v20 *N -[]\n", "24 @397 +[] new v20 -[]\n", "24 @397 +[] new v20 for -[]\n"],
    "29 @441": [
        "29 @441 +[] load v23 v22 -[]\n", "29 @441 +[] load v23 v22 v0 -[]\n",
        "29 @441 +[] load v23 v22 4294967296 -[]\n",
    ],
    "31 @428": [
        '31 @428 +[] print "all", v23 -[]\n', '31 @428 +[] print "all"v23 -[]\n', "31 @428 +[] print  -[]\n",
        '31 @428 +[] print "a"" -[]\n', '31 @428 +[] print "\\x41" -[]\n', '31 @428 +[] print "\\x0a" -[]\n',
        '31 @428 +[] print "\\xFF" -[]\n', '31 @428 +[] print "\\t" -[]\n', '31 @428 +[] print "\\x22" -[]\n',
        '31 @428 +[] print "\\x5c" -[]\n', '31 @428 +[] print "\t" -[]\n', '31 @428 +[] print "\\" -[]\n',
        '31 @428 +[] print "\x7f" -[]\n', '31 @428 +[] print "\\x7" -[]\n', '31 @428 +[] print "a,v23 -[]\n',
        "31 @428 +[] print v23, -[]\n", '31 @428 +[] print "é" -[]\n',
    ],
    "32 @461": [
        "32 @461 +[] call v25 pick(v14,v19) R[r0,r1] -[]\n", "32 @461 +[] call pick(v14,v19) R[r0,r1] P[r0] -[]\n",
        "32 @461 +[] call v25 pick(v14,v19) R[r0,r1] P[G] -[]\n",
        "32 @461 +[] call v25 pick(v14,v19) R[r0,r1] P[r1,r0] -[]\n",
        "32 @461 +[] call v25 pick(v14,) R[r0,r1] P[r0] -[]\n",
        "32 @461 +[] call v25 pick v14,v19 R[r0,r1] P[r0] -[]\n",
    ],
    "36 @469": ["36 @469 +[] branch v28 37 -[] 40 -[r0] \n", "36 @469 +[] branch v28 -[] 37 -[r0] 40\n"],
    "39 @469": [
        "39 @469 +[] jump -[]\n", "39 @469 +[] jump v3 -[]\n", "39 @469 +[] jump -1 -[]\n",
        "39 @469 +[] jump 34 -[] 35 -[]\n",
    ],
    "end": [
        "end \n", "End\n", "end\nend\n", "end\nvar int -\n", "end\nstruct M int\n", "end\nglobal more int\n",
        "end\n\n", "",
    ],
}

# Unusual lines that have a form.
WITH_FORM = {
    "struct N": [
        "struct N\n", "struct int int *int\nstruct N int *N\n", "struct N int *N []chan.[]*N\n",
        "struct _1 bool\nstruct N int *N\n",
    ],
    "global last": ["global last *N\nglobal new int\n", "global last *N\nglobal N int\n"],
    "func pick": [
        "func pick 4294967295 *N r0\n", "func pick 2 *N r4294967295\n", "func pick 2 int r0\n", "func pick 2 *N -\n",
    ],
    "12 @308": [
        "12 @308 +[] int v11 9223372036854775807 -[]\n", "12 @308 +[] int v11 -9223372036854775808 -[]\n",
        "12 @4294967295 +[] int v11 0 -[]\n", "12 @308 +[] int v4294967295 0 -[]\n",
    ],
    "31 @428": [
        "31 @428 +[] print -[]\n", '31 @428 +[] print "" -[]\n',
        '31 @428 +[] print "\\"\\\\\\n\\x00\\x7f\\xff\\x1a",v23,", -[] " -[]\n',
    ],
    "32 @461": ["32 @461 +[] call v25 pick(v14,v19) R[-,G] P[] -[]\n", "32 @461 +[] call v25 pick() R[] P[] -[]\n"],
}


def forms(lines):
    """The rows of FORMS, as those of rules."""
    # The last line without its newline, or with more after it.
    last = ["end", "end\nfunc", "end\nfunc more 0 - -\n"]
    rows = [(len(lines), edit, *result_of(text_with(lines, len(lines), edit))) for edit in last]
    for has_form, table_of_edits in [(False, WITHOUT_FORM), (True, WITH_FORM)]:
        for beginning, edits in table_of_edits.items():
            number = next(n for n, line in enumerate(lines, start=1) if line.startswith(beginning))
            found = [(number, edit, *result_of(text_with(lines, number, edit))) for edit in edits]
            wrong = [row for row in found if (row[2] == 0 and row[3] != 0) == has_form]
            if wrong:
                raise command.Stop(1, f"{wrong[0]}")
            rows += found
    return rows


# ---- cuts and bytes


def cuts(lines):
    """The rows of CUTS: how many lines are left, the rule that is broken, and its line."""
    return [(count, *result_of("".join(line + "\n" for line in lines[:count]))) for count in range(len(lines))]


def other_byte(line):
    """Which byte of a line is replaced, and by what."""
    digits = [at for at, char in enumerate(line) if char.isdigit()]
    return (digits[-1], str((int(line[digits[-1]]) + 1) % 10)) if digits else (len(line) - 1, "x")


def with_bytes(lines):
    """The rows of BYTES: the number of a line, the offset of the byte in it, the other byte, the rule and its line."""
    rows = []
    for number, line in enumerate(lines, start=1):
        at, char = other_byte(line)
        edit = line[:at] + char + line[at + 1 :] + "\n"
        rows.append((number, at, char, *result_of(text_with(lines, number, edit))))
    return rows


# ---- tables


def literal(text):
    escapes = {"\\": "\\\\", '"': '\\"', "\n": "\\n", "\t": "\\t", "\r": "\\r", "\x7f": "\\x7f"}
    return '"' + "".join(escapes.get(char, char) for char in text) + '"'


def item(value):
    return literal(value) if isinstance(value, str) else str(value)


def table(doc, name, types, rows):
    """A table. A row that is too long for a line has one line for each item, as `rt fmt` lays it out."""
    lines = []
    for row in rows:
        items = list(map(item, row))
        short = ", ".join(items)
        long = "\n" + "".join(f"        {each},\n" for each in items) + "    "
        lines.append(f"    ({short if len(short) <= 60 else long}),\n")
    return f"/// {doc}\npub(crate) static {name}: [({types}); {len(rows)}] = [\n{''.join(lines)}];\n"


# The texts of CUTS and BYTES.
NAMES = ["calls", "field", "globals", "goroutines", "loop"]


def lines_of(name):
    return (TEXTS / f"{name}.code").read_text(encoding="ascii").split("\n")[:-1]


def text_table(name):
    text = "".join(f"{literal(line)[1:-1]}\n" for line in lines_of(name))
    return f"/// The code text of `tools/code_texts/{name}.go`.\npub(crate) static {name.upper()}: &str = \"\\\n{text}\";\n"


def file_of(head, *tables_of_file):
    """A file of tables with what its first line says."""
    return "\n".join([f"//! {head}, as `tools/code_vectors.py --table` writes them.\n", *tables_of_file])


def constants(kind):
    """The files of `code_texts` that end so, each as a constant."""
    for path in sorted(TEXTS.glob(f"*.{kind}")):
        text = "".join(f"{literal(line)[1:-1]}\n" for line in path.read_text(encoding="ascii").splitlines())
        yield f"pub(crate) const {path.stem.upper()}: &str = \"\\\n{text}\";\n"


def tables():
    """The files with the tables."""
    yield INSERTED / "codes.rt", file_of("The code texts of programs, from `tools/code_texts`", *constants("code"))
    yield INSERTED / "programs.rt", file_of("Programs, from `tools/code_texts`", *constants("go"))
    for name, text in tables_of_texts():
        yield TABLES / name, text


def tables_of_texts():
    """The files with what has to be reported of texts."""
    every = lines_of("all")
    yield "texts.rt", file_of("Code texts that keep all rules", *map(text_table, ["all", *NAMES]))
    doc = "The number of a line of ALL, what replaces it, the rule that is then broken, and the line that breaks it."
    types, rows = "usize, &str, u8, u32", rules(every)
    found = [table(doc, name, types, [row for row in rows if row[2] in of]) for name, of in TABLES_OF_RULES.items()]
    yield "rules.rt", file_of("Code texts that break a rule", *found)
    doc = "The same; the rule is 0 if a line has no form, and rule and line are 0 if the text keeps all rules."
    found = table(doc, "FORMS", types, forms(every))
    yield "forms.rt", file_of("Code texts of which a line has no form", found)
    doc = "How many lines of {} are left, the rule that is then broken, or 0, and the line."
    found = [table(doc.format(name.upper()), name.upper(), "usize, u8, u32", cuts(lines_of(name))) for name in NAMES]
    yield "cuts.rt", file_of("Code texts that end early", *found)
    doc = "The number of a line of {}, the offset of a byte in it, what replaces that, the rule, or 0, and its line."
    types = "usize, usize, &str, u8, u32"
    found = [table(doc.format(name.upper()), name.upper(), types, with_bytes(lines_of(name))) for name in NAMES]
    yield "bytes.rt", file_of("Code texts with another byte", *found)


def rows_of(file):
    """The rows of each table of a file, by the table's name, as the file has them."""
    text = (TABLES / file).read_text(encoding="utf-8")
    found = re.findall(r"^pub\(crate\) static (\w+): .* = (\[\n(?:    .*\n)*\]);$", text, re.MULTILINE)
    # A table is written as a list would be in Python.
    return {name: ast.literal_eval(rows) for name, rows in found}


def is_written(path, text):
    """Whether the file of tables has this text."""
    return path.is_file() and path.read_text(encoding="utf-8") == text


def main(words):
    if words == ["--table"]:
        TABLES.mkdir(exist_ok=True)
        for path, text in tables():
            path.write_text(text, encoding="utf-8")
    elif words == ["--check"]:
        if not all(is_written(path, text) for path, text in tables()):
            raise command.Stop(1, "the tables are not those of today: run tools/code_vectors.py --table")
    else:
        raise command.WrongWords
    return 0


if __name__ == "__main__":
    command.start(main, __doc__)
