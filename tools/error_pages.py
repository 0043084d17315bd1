"""The pages of docs/errors, one for each message of rgo, and how a message is explained by its page.

All pages have the same form, and `read_page` accepts no other:

    # TITLE                   the message without `rgo:` and without its place
    a paragraph               what the message means
    ## Example                a text that has the message, unless none has
    ## Message                "`COMMAND` reports, and exits with N:", and the message; there may be several commands
    ## Why                    why rgo reports it, and what Go does
    ## Corrected example      the nearest text that exits with 0, and after "It prints:" what it prints

A text is a block of `go`, or a block of `sh` with commands that write it. In the last section a command in
backquotes replaces the commands of the message.

If the command is `rgo code`, a text is a code text: a block without a language, or one of `sh`. "Why" says why there is
the rule and what a producer of code often forgets. The title of a rule has its name, which the message does not have.
"""

import collections
import errno
import os
import pathlib
import re
import shutil
import subprocess
import sys
import textwrap
import unicodedata

import command

TOP = pathlib.Path(__file__).resolve().parent.parent
PAGES = TOP / "docs" / "errors"
SECTIONS = ["Example", "Message", "Why", "Corrected example"]
# The most bytes of a code text that is read to explain a message of it.
LONGEST_CODE = 500_000
# The columns of what is printed.
WIDTH = 80

Page = collections.namedtuple(
    "Page", "path title meaning example commands status message why corrected corrected_commands printed"
)
BLOCK = re.compile(r"^```(\w*)\n(.*?\n)```$", re.MULTILINE | re.DOTALL)
COMMAND = re.compile(r"`(rgo(?: [^`]*)?)`")
REPORTS = re.compile(r"^((?:`rgo[^`]*`(?:, | and )?)+) reports?, and exits? with (\d+):$", re.MULTILINE)
LINE = re.compile(
    r"rgo: (?:(?P<line>\d+):(?P<column>\d+): |line (?P<whole>\d+): |@(?P<number>\d+): )?(?P<what>.*)", re.DOTALL
)
CODE = "rgo code"
# What rgo reports of a write that failed.
WRITE_FAILED = b"rgo: write failed\n"
# The program that `rgo --unproved` has compiled and kept.
UNPROVED = TOP / "crates" / "rgo" / "out" / "unproved"
# What a tool says that uses it.
NOT_PROVED = "no proved program is built, so this is done by the one of ./rgo --unproved, of which nothing is proved"
# What a tool says that needs the program.
NOT_BUILT = (
    "no program is built: run ./rgo run < examples/hello.go once, which proves it in half an hour, or"
    " ./rgo --unproved run < examples/hello.go, which proves nothing and takes about four minutes; or name a program by the variable RGO"
)


class BadPage(Exception):
    """A page does not have the form of all pages."""


def text_of(blocks, is_code):
    """The text that a section contains, in bytes, or None."""
    for language, source in blocks:
        if language == ("" if is_code else "go"):
            return source.encode()
        if language == "sh":
            return subprocess.run(["sh", "-c", source], capture_output=True, check=True).stdout
    return None


def plain_blocks(blocks):
    return [source for language, source in blocks if not language]


def sections_of(path):
    """The title and the meaning of a page, and its sections by their headings."""
    head, *rest = re.split(r"^## ", path.read_text(encoding="utf-8"), flags=re.MULTILINE)
    found = re.fullmatch(r"# (.+)\n\n(\S[^#]*?)\n\n", head)
    if not found or "\n\n" in found[2]:
        raise BadPage(f"{path.name}: it does not begin with a title and one paragraph")
    sections = dict(section.split("\n", 1) for section in rest)
    if [section.split("\n", 1)[0] for section in rest] != SECTIONS:
        raise BadPage(f"{path.name}: its sections are not {', '.join(SECTIONS)}")
    return found[1], " ".join(found[2].split()), sections


def read_page(path):
    title, meaning, sections = sections_of(path)
    blocks = {name: BLOCK.findall(section) for name, section in sections.items()}
    reports = REPORTS.search(sections["Message"])
    if not reports or len(plain_blocks(blocks["Message"])) != 1:
        raise BadPage(f"{path.name}: no command, status and message")
    commands = COMMAND.findall(reports[1])
    is_code = commands == [CODE]
    corrected = text_of(blocks["Corrected example"], is_code)
    if corrected is None:
        raise BadPage(f"{path.name}: no corrected text")
    words = BLOCK.sub("", sections["Corrected example"])
    printed = [] if is_code else plain_blocks(blocks["Corrected example"])
    if len(printed) > 1 or bool(printed) != ("It prints:" in words):
        raise BadPage(f"{path.name}: it is not clear what the corrected text prints")
    return Page(
        path,
        title,
        meaning,
        text_of(blocks["Example"], is_code),
        commands,
        int(reports[2]),
        plain_blocks(blocks["Message"])[0],
        " ".join(sections["Why"].split()),
        corrected,
        COMMAND.findall(words) or commands,
        "".join(printed),
    )


def page_paths():
    """The files of the pages, without the index."""
    return sorted(path for path in PAGES.glob("*.md") if path.name != "README.md")


def is_of_code(page):
    """Whether a page is about code texts."""
    return page.commands == [CODE]


def titles():
    """The files of the pages by their titles."""
    return {path.read_text(encoding="utf-8").split("\n", 1)[0][2:]: path for path in page_paths()}


def message_of(title):
    """What the message says, without its place: the message of a rule of code texts does not name the rule."""
    return re.sub(r"^(code \d+) \w+$", r"\1", title)


def shown(text):
    """Characters as they are shown: none that a terminal would take for a command."""
    return "".join("    " if c == "\t" else c if c.isprintable() else "\N{REPLACEMENT CHARACTER}" for c in text)


def columns(text):
    """How many columns of a terminal these characters take."""
    return sum(0 if unicodedata.combining(c) else 2 if unicodedata.east_asian_width(c) in "WF" else 1 for c in text)


def marked_line(text, line, column):
    """The line of a text with a caret at a column, which counts bytes from 1, or None if there is no such place."""
    lines = text.split(b"\n")
    if not 1 <= line <= len(lines) or not 1 <= column <= len(lines[line - 1]) + 1:
        return None
    whole = lines[line - 1]
    before = shown(whole[: column - 1].decode("utf-8", "replace"))
    after = shown(whole[column - 1 :].rstrip(b"\r").decode("utf-8", "replace"))
    if line == len(lines) and not after:
        after = "(end of the text)"
    # Only the part of a long line around the place is shown.
    if columns(before) > WIDTH // 2:
        before = "..." + before[3 - WIDTH // 2 :]
    if columns(before + after) > WIDTH:
        after = after[: WIDTH // 2 - 3] + "..."
    return f"{before}{after}\n{' ' * columns(before)}^"


def whole_line(text, line):
    """A line of a code text as it is shown from its beginning, or None if there is no such line."""
    lines = text.split(b"\n")
    if not 1 <= line <= len(lines):
        return None
    whole = shown(lines[line - 1].decode("utf-8", "replace"))
    if columns(whole) > WIDTH:
        whole = whole[: WIDTH - 3] + "..."
    # A last line without its newline has no form.
    return whole + ("(end of the text)" if line == len(lines) else "") or "(an empty line)"


def line_at(text, number):
    """The number of the first line of a code text whose instruction has this place, from 1, or 0 if there is none."""
    for line, instruction in enumerate(text.split(b"\n"), 1):
        if re.match(rb"\d+ @%d " % number, instruction):
            return line
    return 0


def where(path):
    """A path as it is shortest to type."""
    try:
        return path.relative_to(pathlib.Path.cwd())
    except ValueError:
        return path


def place_of(message, text):
    """The place of a message as it follows the name of a file, and the lines that show it. Both may be empty."""
    if message["column"]:
        place = f"{message['line']}:{message['column']}:"
        found = marked_line(text, int(message["line"]), int(message["column"]))
    elif message["whole"]:
        place = f"{message['whole']}:"
        found = whole_line(text, int(message["whole"]))
    elif message["number"]:
        line = line_at(text, int(message["number"]))
        place = f"{line}:" if line else f"@{message['number']}:"
        found = whole_line(text, line)
    else:
        return "", []
    return place, [found or "(The file has no such place: the message is of another text.)"]


def filled(paragraph):
    """A paragraph in lines. What is in backquotes stays in one."""
    joined = re.sub("`[^`]*`", lambda found: found[0].replace(" ", "\0"), paragraph)
    return textwrap.fill(joined, WIDTH, break_on_hyphens=False, break_long_words=False).replace("\0", " ")


def meaning_of(message, path, text):
    """The paragraphs that say what a message means: the first one of its page, or what is wrong at this place of the text,
    or both. What finds that is loaded when it is needed, since it takes longer to load than all else."""
    said = None
    if message and message["column"] and text is not None:
        import constructs

        find = constructs.of_syntax if message["what"] == "syntax" else constructs.of_type
        said = find(text, int(message["line"]), int(message["column"]), path.read_text(encoding="utf-8"))
    if said:
        return [said]
    found = [sections_of(path)[1]]
    rule = re.fullmatch(r"code (\d+|text)", message["what"]) if message and message["whole"] else None
    if rule and text is not None and len(text) <= LONGEST_CODE:
        import code_reasons

        reason = code_reasons.reason_of(text, rule[1], int(message["whole"]))
        found += [f"Here {reason}."] if reason else []
    return found


def explained(line, file, text):
    """A line of standard error with its explanation; a line that is not a message of rgo as it is.

    The line and what is returned are bytes, and so is `text`, what the file has. Without a file both are None.
    """
    said = line.decode("utf-8", "replace").rstrip("\n")
    message = LINE.fullmatch(said)
    what = "usage" if said.startswith("usage: rgo ") else message["what"] if message else ""
    path = {message_of(title): path for title, path in titles().items()}.get(what)
    if not path:
        return line
    parts = [said]
    if message and file:
        place, place_shown = place_of(message, text)
        parts = [f"{file}:{place} {what}", *place_shown]
    for paragraph in meaning_of(message, path, text):
        parts.append(filled(paragraph))
    parts.append(f"Read on: {where(path)}")
    return ("\n".join(parts) + "\n").encode("utf-8", "surrogateescape")


def run(words, source, file, text, out=None):
    """Runs a command and explains each line that it reports, as soon as it comes. Returns the status.

    The input of the command is `source`, an open file. What is reported is about the file with the name `file` and with
    `text`, in bytes. The output goes to the open file `out`, or to standard output. If its reader has closed that, nothing
    is reported of the failed write.
    """
    with subprocess.Popen(words, stdin=source, stdout=out, stderr=subprocess.PIPE) as ran:
        try:
            for line in ran.stderr:
                if line == WRITE_FAILED and out is None and command.is_closed(sys.stdout):
                    continue
                sys.stderr.buffer.write(explained(line, file, text))
                sys.stderr.flush()
            status = ran.wait()
        except KeyboardInterrupt:
            # The program was interrupted, too.
            status = ran.wait()
    return status if status >= 0 else 128 - status


def program():
    """The file of the proved program: what the variable RGO names, or else the one that is installed or built here. Whether
    it exists is another question: none is built for the sake of a tool."""
    is_repository = TOP.joinpath("crates.txt").is_file()
    return os.environ.get("RGO") or str(TOP / "crates" / "rgo" / "out" / "rgo" if is_repository else TOP / "rgo")


def found():
    """The file of the program that a tool uses if its words name none, or None if there is none. Where no proved one is built it
    is the one of `rgo --unproved`, and a line says so; but never where the variable RGO names one, as the gate does."""
    file = shutil.which(program())
    if not file and not os.environ.get("RGO"):
        file = shutil.which(UNPROVED)
        if file:
            command.complain(NOT_PROVED)
    return file


def existing(file=None):
    """The file of a program if it can be run; if none is named, what `found` finds. Otherwise the tool ends."""
    runs = found() if file is None else shutil.which(str(file))
    if runs:
        return runs
    if file is None and not os.environ.get("RGO"):
        raise command.Stop(command.NO_PROGRAM, NOT_BUILT)
    file = program() if file is None else file
    reason = "it is not a program" if os.path.exists(file) else os.strerror(errno.ENOENT)
    raise command.Stop(command.NO_PROGRAM, f"cannot run {file}: {reason}")
