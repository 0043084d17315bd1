#!/usr/bin/env python3
"""Texts with a mark at the place of what is wrong, and the tables that tests have of them.

    tools/marked_tables.py --table | --check

`--table` writes the tables to crates/rgo_tests/src/run/ and crates/rgo_parsing_tests/src/lexer/, and `--check` fails if those
differ from them. The texts are in tools/marked_programs. So no line and no column is counted by hand.

A mark is a comment directly before the place that is reported, and names what is reported:

    func main() { x := 1 /* Mismatch */ + true }

The name is `syntax`, or one of specs/RuleNames.antt of rgo_typing_rules, specs/LexicalKinds.antt of rgo_lexer and
specs/Traps.antt of rgo_memory. In a journal or a code text a mark is a line of its own before the line that is reported, with
what is reported of it: `pick`, `picks text`, `code text`, or `code` with the number of a rule. A text has at most one mark. The
space after a mark belongs to it, and so does the newline if the mark is a line of its own, for a place where the text has
ended. Since marks are taken out before a text is used, there can be one in a string or a number, too.

There are three kinds of files:

- `NAME.go` is a table of programs for `rgo check`. It begins with a sentence about the table, as a comment, and with the lines
  that are before each of its programs, if there are such lines. An empty line is between programs. A program without a mark
  has to pass. A program that begins with `package main` in a file with lines before each program is given with these lines,
  so that there can be a mark in them.
- `NAME.calls` has tables of calls, whose rows are those of crates/rgo_tests/src/run/rows.rt, but that the line of the mark is
  not reported there. It begins with a sentence about the file, after `#`. A table begins with `=`, its name and a sentence about
  it, and with the lines that are before each of its texts. A space at the end of a line is written `\\x20`.
- `NAME.texts` has tables of texts for the lexer, a text on each line, with the same beginnings. A byte that a line cannot have
  is written with `%` and two hexadecimal digits.
"""

import pathlib
import re
import urllib.parse

import command
from code_vectors import is_written, literal

TOP = pathlib.Path(__file__).resolve().parent.parent
PROGRAMS = TOP / "tools" / "marked_programs"
TABLES = TOP / "crates" / "rgo_tests" / "src" / "run"
LEXER_TABLES = TOP / "crates" / "rgo_parsing_tests" / "src" / "lexer"
# The files that number what is reported, by the word that is reported with the number.
NUMBERS = {
    "lexical": TOP / "crates" / "rgo_lexer" / "specs" / "LexicalKinds.antt",
    "type": TOP / "crates" / "rgo_typing_rules" / "specs" / "RuleNames.antt",
    "trap": TOP / "crates" / "rgo_memory" / "specs" / "Traps.antt",
}
# The files of tables of programs, what the first line of each says, and the tables in it.
FILES = {
    "rule_texts.rt": ("A text for each rule on meaning, and texts that pass", ["rules", "whole", "passing", "syntax"]),
    "broken_texts.rt": ("Texts that break rules on meaning", ["declarations", "order", "operators", "statements"]),
}
HEAD = """\
//! {}, as `tools/marked_tables.py --table` writes them.
//!
//! Before the first `|` is what a check finds: the place, and `syntax` or the rule with its number and name, or `ok`. A `~`
//! means a newline.
"""
# What is reported of a line, and not of a place in it.
OF_LINES = r"picks? text|pick|code text|code \d+"
NAME = rf"([A-Z]\w+|syntax|{OF_LINES})"
MARK = re.compile(rf"^/\* {NAME} \*/\n|/\* {NAME} \*/ ?", re.MULTILINE)
PACKAGE = "package main\n"


def numbered(kind):
    """The names of a kind, each with what is reported: the kind, the number and the name."""
    text = command.read(NUMBERS[kind]).decode()
    return {name: f"{kind} {number} {name}" for name, number in re.findall(r"^\w+ (\w+) = (\d+)$", text, re.MULTILINE)}


def findings():
    """What is reported at the place of a mark, by its name."""
    return {"syntax": "syntax", **numbered("lexical"), **numbered("type"), **numbered("trap")}


def unmarked(whole, found):
    """A text without its mark, the offset of the mark, and its name; without offset and name if there is no mark."""
    marks = list(MARK.finditer(whole))
    text = MARK.sub("", whole)
    if len(marks) > 1:
        raise command.Stop(1, f"a text has several marks:\n{whole}")
    if not marks:
        return text, None, None
    name = marks[0][1] or marks[0][2]
    if name not in found and not re.fullmatch(OF_LINES, name):
        raise command.Stop(1, f"there is no rule {name}")
    return text, marks[0].start(), name


def reported(text, offset, name, found):
    """What is reported at an offset, with the line and the column. Those of a program after a journal are counted from its
    beginning."""
    if name not in found:
        return f"line {text.count(chr(10), 0, offset) + 1}: {name}"
    begin = text.index("\ntext\n") + 6 if text.startswith("rgo picks ") else 0
    before = text[begin:offset]
    return f"{before.count(chr(10)) + 1}:{offset - begin - before.rfind(chr(10))}: {found[name]}"


# ---- programs


def row(head, program, found):
    """The row of a program that comes after these lines."""
    whole = program if program.startswith(PACKAGE) and head else head + program
    text, offset, name = unmarked(whole, found)
    wrong = "a ~" if "~" in text else None if text.startswith(head) else "other first lines"
    if wrong:
        raise command.Stop(1, f"a program has {wrong}:\n{program}")
    finding = "ok" if name is None else reported(text, offset, name, found)
    return f"{finding} | {text[len(head) :].removesuffix(chr(10))}".replace("\n", "~")


def rows_of(text, found):
    """The sentence about the table of a file of programs, and the rows."""
    first, *programs = text.removesuffix("\n").split("\n\n")
    lines = first.splitlines(keepends=True)
    said = [line.removeprefix("// ") for line in lines if line.startswith("//")]
    head = "".join(lines[len(said) :])
    if head and not head.endswith("\n"):
        head += "\n"
    return "".join(said).strip(), [row(head, f"{program}\n", found) for program in programs]


def table(name, found):
    """A table of rows as a constant."""
    said, rows = rows_of(command.read(PROGRAMS / f"{name}.go").decode("ascii"), found)
    lines = "".join(f"{literal(line)[1:-1]}\n" for line in rows)
    return f"/// {said}\npub(super) const {name.upper()}: &str = \"\\\n{lines}\";\n"


# ---- calls and texts


def parts(text):
    """The sentence about a file, and for each of its tables the name, the sentence about it, and the rest."""
    said, *found = re.split(r"^= (\w+): ", text, flags=re.MULTILINE)
    of_tables = [(name, *rest.partition("\n")[::2]) for name, rest in zip(found[::2], found[1::2])]
    return said.strip().replace("# ", "//! "), of_tables


def file_of(path, constants):
    """A file with constants that are made from the tables of a file of marked texts."""
    said, found = parts(command.read(path).decode())
    named = path.relative_to(TOP)
    head = f"{said}\n//!\n//! `tools/marked_tables.py --table` writes this file from `{named}`.\n"
    return "\n".join([head, *(constants(*each) for each in found)])


def call_row(head, marked, found):
    """The row of a call with a text that comes after these lines."""
    calls, _, rest = marked.partition("\n")
    lines, _, rest = rest.partition("\n< ")
    status, _, output = rest.partition("\n")
    text, offset, name = unmarked(head + lines + ("\n" if head else ""), found)
    report = name and reported(text, offset, name, found)
    # A trap ends a run with 2, and what is refused ends with 1; with no other status is there a place.
    wanted = "-" if name is None else "2" if found.get(name, "").startswith("trap") else "1"
    if (status if status in ("1", "2") else "-") != wanted or not text.startswith(head):
        raise command.Stop(1, f"a row has another status, no mark or other first lines:\n{marked}")
    lines = text[len(head) :].removesuffix("\n") if head else text
    more = "" if report is None else f"{'' if '!' + chr(10) in output else '!' + chr(10)}rgo: {report}\n"
    return f"\n> {calls}\n{lines}\n< {status}\n{output}{more}"


def call_table(found):
    """How a table of calls is made a constant."""

    def constant(name, said, rest):
        head, *rows = f"\n{rest}".split("\n\n> ")
        head = head.strip("\n") and head.strip("\n") + "\n"
        table_of_rows = "".join(call_row(head, f"{each.strip(chr(10))}\n", found) for each in rows)
        # The last rows are followed by empty lines, and a space at the end of a line is already written.
        shown = literal(table_of_rows)[1:-1].replace("\\n", "\n").replace("\\\\x20\n", "\\x20\n")
        return f"/// {said}\npub(super) const {name}: &str = \"{shown}\";\n"

    return constant


def bytes_literal(text):
    """Bytes as a literal."""
    named = {10: "\\n", 13: "\\r", 34: '\\"', 92: "\\\\"}
    return 'b"' + "".join(named.get(byte) or (chr(byte) if 32 <= byte < 127 else f"\\x{byte:02X}") for byte in text) + '"'


def text_table(found):
    """How a table of texts for the lexer is made a constant: each text with the number of its refusal and the place."""

    def constant(name, said, rest):
        rows = []
        for line in rest.splitlines():
            if line:
                text, offset, mark = unmarked(line, found)
                if offset is None:
                    raise command.Stop(1, f"a text has no mark:\n{line}")
                before, all_bytes = (urllib.parse.unquote_to_bytes(each) for each in (text[:offset], text))
                rows.append(f'    ({bytes_literal(all_bytes)}, "{found[mark].split()[1]}@{len(before)}"),\n')
        return f"/// {said}\npub(super) static {name}: [(&[u8], &str); {len(rows)}] = [\n{''.join(rows)}];\n"

    return constant


def tables():
    """The files with the tables."""
    found = findings()
    for file, (said, names) in FILES.items():
        yield TABLES / file, "\n".join([HEAD.format(said), *(table(name, found) for name in names)])
    for path in sorted(PROGRAMS.glob("*.calls")):
        yield TABLES / f"{path.stem}.rt", file_of(path, call_table(found))
    for path in sorted(PROGRAMS.glob("*.texts")):
        yield LEXER_TABLES / f"{path.stem}.rt", file_of(path, text_table(found))


def main(words):
    if words == ["--table"]:
        for path, text in tables():
            path.write_text(text, encoding="utf-8")
    elif words == ["--check"]:
        if not all(is_written(path, text) for path, text in tables()):
            raise command.Stop(1, "the tables are not those of today: run tools/marked_tables.py --table")
    else:
        raise command.WrongWords
    return 0


if __name__ == "__main__":
    command.start(main, __doc__)
