"""The repository's documents: their links, the headings that these may lead to, and the files that they name."""

import os
import pathlib
import re
import textwrap

TOP = pathlib.Path(__file__).resolve().parent.parent
# The documents in which each file of the repository that is named is linked, too.
LINKED = ["README.md", *(f"docs/{name}.md" for name in "ARCHITECTURE LANGUAGE PROOF REGIONS REGION_INFERENCE REGION_MACHINE".split())]
BLOCK = re.compile(r"^( *)```.*?^\1```$", re.DOTALL | re.MULTILINE)
CODE = re.compile(r"`[^`]*`")
LINK = re.compile(r"\]\(\s*([^)\s]+)\s*\)")
# A name in a text: in a link of its own, or not.
NAME = re.compile(r"\[`[^`]+`\]\([^)]*\)|\[[^]`]*\]\([^)]*\)|`([\w.-]+/[\w./{},*-]*|[\w-]+\.md)`")
# A link with its text.
TEXT = re.compile(r"\[([^]]+)\]\(\s*([^)\s]+)\s*\)")
# Names that a document says are in a file. After `of` only the last of them is: in "`a` of `B` and `C` in [..](..)", `B` is elsewhere.
WITHIN = re.compile(r"(of\s+)?((?:`[\w.:]+`(?:,\s+(?:and\s+)?|\s+and\s+))*`[\w.:]+`)\s+(?:of|in)\s+\[[^]]+\]\(([^)\s]+\.(?:antt|rt))\)")
# What follows a link in its sentence, or in its cell of a table.
REST = re.compile(r"(?:[^|.\n[]|\.(?!\s)|\n(?!\s*(?:\n|- |\||\d+\. )))*")
# What a merge writes around two texts of one place.
MERGE = re.compile(r"(?:<{7}|>{7}|\|{7})(?: |$)")
WIDTH = 132


def paths(top=TOP):
    """All documents, in the order of their names."""
    parts = (path for path in top.rglob("*.md") if not {"out", ".git"} & set(path.relative_to(top).parts))
    return sorted(parts)


def links(text):
    """The links of a document, without those that lead out of the repository."""
    plain = CODE.sub("", BLOCK.sub("", text))
    return [link for link in LINK.findall(plain) if not re.match(r"\w+:", link)]


def headings(text):
    """The headings of a document."""
    return re.findall(r"^#+ (.+)$", BLOCK.sub("", text), re.MULTILINE)


def anchors(text):
    """What follows the `#` in links to the headings of a document. Equal headings are numbered, except the first."""
    found = {}
    for heading in headings(text):
        named = re.sub(r"\[([^]]*)\]\([^)]*\)", r"\1", heading)
        anchor = re.sub(r"[^\w -]", "", named.lower()).replace(" ", "-")
        found[anchor] = found.get(anchor, 0) + 1
    return {anchor if not count else f"{anchor}-{count}" for anchor, many in found.items() for count in range(many)}


def broken(path):
    """The links of a document that lead to no file or folder, or to no heading."""
    text = path.read_text(encoding="utf-8")
    return [link for link in links(text) if not leads(path, text, link)]


def conflicts(path):
    """The lines of a document that a merge has left, as `<<<<<<< HEAD`."""
    return [line for line in path.read_text(encoding="utf-8").splitlines() if MERGE.match(line)]


def leads(path, text, link):
    file, _, anchor = link.partition("#")
    to = path.parent / file if file else path
    if not to.exists():
        return False
    return not anchor or (to.suffix == ".md" and anchor in anchors(to.read_text(encoding="utf-8") if file else text))


def place_of(name, top=TOP):
    """The file or folder that a name in a document means: from the top or from `crates`. If there are several files, their folder."""
    before, brace, rest = name.partition("{")
    if brace:
        inner, _, after = rest.partition("}")
        if any(place_of(before + part + after, top) is None for part in inner.split(",")):
            return None
        name = before.rpartition("/")[0]
    elif "*" in name:
        name = name[: name.index("*")].rpartition("/")[0]
    if not name.strip("/"):
        return None
    return next((place for place in (top / name, top / "crates" / name) if place.exists()), None)


def title(path):
    return headings(path.read_text(encoding="utf-8"))[0]


def linked(path, text, top=TOP):
    """A text of a document, in which what it names is linked."""

    def link(found):
        place = found[1] and place_of(found[1], top)
        if not place or place == path:
            return found[0]
        to = os.path.relpath(place, path.parent)
        return f"[{title(place) if place.suffix == '.md' else found[0]}]({to})"

    return NAME.sub(link, text)


def unlinked(path, top=TOP):
    """What a document names and does not link."""
    text = BLOCK.sub("", path.read_text(encoding="utf-8"))
    return [found[1] for found in NAME.finditer(text) if found[1] and place_of(found[1], top) not in (None, path)]


def missing(path, top=TOP):
    """What a document names as a file of a crate, and is none."""
    text = BLOCK.sub("", path.read_text(encoding="utf-8"))
    names = re.findall(r"`((?:crates/)?(\w+)/(?:src|specs|proofs)\b[\w./{},*-]*)`", text)
    return [name for name, crate in names if top.joinpath("crates", crate).is_dir() and place_of(name, top) is None]


def misnamed(path):
    """The links of a document whose text is a file's name, but not that of the file that they lead to."""
    found = TEXT.findall(BLOCK.sub("", path.read_text(encoding="utf-8")))
    return [f"[{text}]({link})" for text, link in found if not is_name_of(text.strip("`"), link)]


def is_name_of(text, link):
    if not re.fullmatch(r"[\w./-]+\.(antt|rt)", text):
        return True
    return text.rpartition("/")[2] == link.partition("#")[0].rpartition("/")[2]


def absent(path):
    """The names that a document gives with a place where they are not.

    These are names before "in" or "of" a linked file of definitions or code; capitalised names after such a file and a colon; and
    names of files after a linked folder of definitions or proofs, in the same sentence or cell.
    """
    text = BLOCK.sub("", path.read_text(encoding="utf-8"))
    named = [(name, link) for of, names, link in WITHIN.findall(text) for name in re.findall(r"`([^`]+)`", names)[-1 if of else 0 :]]
    wrong = [(name, link) for name, link in named if not all(has_word(path, link, word) for word in re.findall(r"\w+", name))]
    for found in TEXT.finditer(text):
        link = found[2]
        rest = REST.match(text, found.end())[0]
        if link.endswith((".antt", ".rt")):
            names = re.findall(r"`([A-Z]\w*)`", rest) if rest.startswith(": ") else []
            wrong += [(name, link) for name in names if not has_word(path, link, name)]
        elif {"specs", "proofs"} & set(link.split("/")) and (path.parent / link).is_dir():
            names = re.findall(r"`((?:\w+/)*[A-Z][\w*]*)(?:\.antt)?`", rest)
            wrong += [(name, link) for name in names if not any((path.parent / link).glob(f"{name}.antt"))]
    return [f"{name} is not in {link}" for name, link in dict.fromkeys(wrong)]


def has_word(path, link, word):
    to = path.parent / link
    return not to.is_file() or bool(re.search(rf"\b{word}\b", to.read_text(encoding="utf-8")))


def wrapped(text):
    """A paragraph or an item of a list in lines that are not too long. Code stays in one line."""
    mark = re.match(r" *(?:- |\d+\. )?", text)[0]
    whole = CODE.sub(lambda found: found[0].replace(" ", "\0"), " ".join(text.split()))
    indent = " " * len(mark)
    before = mark[: len(mark) - len(mark.lstrip())]
    lines = textwrap.wrap(whole, WIDTH, initial_indent=before, subsequent_indent=indent, break_long_words=False, break_on_hyphens=False)
    return "\n".join(lines).replace("\0", " ")


def with_links(path, top=TOP, tables=True):
    """A document in which what it names is linked: its text, with paragraphs that have changed in lines of their width."""
    pieces = []
    text = path.read_text(encoding="utf-8")
    last = 0
    for block in BLOCK.finditer(text):
        pieces += [prose(path, text[last : block.start()], top, tables), block[0]]
        last = block.end()
    return "".join([*pieces, prose(path, text[last:], top, tables)])


def prose(path, text, top, tables):
    # Paragraphs, items of lists, rows of tables and headings.
    parts = re.split(r"(\n\n+|\n(?= *- | *\d+\. |\||#))", text)
    return "".join(changed(path, part, top, tables) for part in parts)


def changed(path, part, top, tables):
    if not part.strip() or part.startswith("#"):
        return part
    stripped = part.lstrip("\n")
    if stripped.startswith("|"):
        return linked(path, part, top) if tables else part
    new = linked(path, part, top)
    if new == part:
        return part
    head = part[: len(part) - len(stripped)]
    body = new[len(head) :]
    tail = body[len(body.rstrip("\n")) :]
    return head + wrapped(body) + tail
