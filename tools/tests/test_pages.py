"""Tests the pages of docs/errors: that each message has one, and that the program does what the page says."""

import functools
import os
import pathlib
import re
import resource
import shutil
import subprocess
import tempfile
import unittest

import code_text
import error_pages
from error_pages import PAGES, TOP

ROW = re.compile(r"^\| (.+) \|$", re.MULTILINE)
# The rule of code texts that is never the least that is broken. Its page has the message of another one.
NEVER = "code 14 Endings"


def cells(row):
    return re.split(r"\s*(?<!\\)\|\s*", row)


def rows(path, heading):
    """The cells of each row of the first table after a heading of a document, without the head of the table."""
    after = path.read_text(encoding="utf-8").split(f"\n{heading}\n", 1)[1]
    table = re.search(r"^\|(?:.*\n\|)*.*$", after, re.MULTILINE)[0]
    return list(map(cells, ROW.findall(table)[1:]))


def numbered(kind, text):
    """The titles of a list such as `1 NilPointer, 2 IndexRange`."""
    return [f"{kind} {number} {name}" for number, name in re.findall(r"(\d+) ([A-Z]\w+)", text)]


def code_rules():
    """The titles of the rules of code texts, as the checker numbers and names them."""
    rules = TOP.joinpath("crates", "rgo_code", "src", "rules.rt").read_text(encoding="utf-8")
    return [f"code {number} {name}" for name, number in re.findall(r"Rule::(\w+) => (\d+),", rules)]


def messages():
    """The titles of all messages of docs/COMMAND_LINE.md and docs/LANGUAGE.md, with their statuses and what they say of them."""
    rules = rows(TOP / "docs" / "LANGUAGE.md", "## The rules")
    traps = rows(TOP / "docs" / "LANGUAGE.md", "### Traps")
    table = TOP.joinpath("docs", "COMMAND_LINE.md").read_text(encoding="utf-8").split("| status | line on standard error | meaning |\n")[1]
    for status, line, meaning in map(cells, ROW.findall(table.split("\n\n")[0])[1:]):
        said = re.sub("^rgo: (L:C: |line L: )?", "", line.strip("`"))
        if said.startswith("@N: "):
            # The messages of another row, at places of a code text.
            continue
        if said == "lexical K Name":
            yield from ((title, int(status), None) for title in numbered("lexical", meaning))
        elif said == "type K Name":
            yield from ((f"type {number} {name}", int(status), what) for number, name, what in rules)
        elif said == "trap K Name":
            assert numbered("trap", meaning) == [f"trap {number} {name}" for number, name, _ in traps]
            yield from ((f"trap {number} {name}", int(status), what) for number, name, what in traps)
        elif said == "code K":
            yield from ((title, int(status), None) for title in code_rules())
        elif said == "the usage line":
            yield "usage", int(status), meaning
        elif said:
            yield said, int(status), meaning


def file_name(title, status):
    """The name of a page's file: of its title, or of its status and words of its own."""
    words = re.sub(r"(?<=[a-z0-9])(?=[A-Z])", "-", title).lower().replace(" ", "-")
    is_named = re.search(r"\d-|^syntax$|^nesting$|^code-text$", words) and " longer " not in title
    return words if is_named else rf"status-{status}-[a-z-]+"


@functools.cache
def all_pages():
    """All pages. They are read once, since commands on them make long texts."""
    return list(map(error_pages.read_page, error_pages.page_paths()))


def pages(of_code):
    """All pages about code texts, or all others."""
    return [page for page in all_pages() if error_pages.is_of_code(page) == of_code]


class Form(unittest.TestCase):
    """What can be seen without the program."""

    def test_each_message_has_a_page(self):
        wanted = {title: status for title, status, _ in messages()}
        found = {page.title: page for page in all_pages()}
        self.assertEqual(sorted(wanted), sorted(found))
        for title, status in wanted.items():
            with self.subTest(title):
                self.assertEqual(status, found[title].status)
                self.assertRegex(found[title].path.stem, f"^{file_name(title, status)}$")
                if title != "usage":
                    said = "code 9" if title == NEVER else re.escape(error_pages.message_of(title))
                    self.assertRegex(found[title].message, rf"\Argo: (\d+:\d+: |line \d+: )?{said}\n\Z")

    def test_the_index_has_each_page_with_the_words_of_the_rule(self):
        index = PAGES.joinpath("README.md").read_text(encoding="utf-8")
        listed = {}
        for row in ROW.findall(index):
            link = re.search(r"\[(.+?)\]\((.+?)\)", row)
            if link:
                listed[link[1]] = link[2], cells(row)[-1]
        paths = error_pages.titles()
        self.assertEqual({title: path.name for title, path in paths.items()}, {title: name for title, (name, _) in listed.items()})
        for title, _, what in messages():
            if what and title not in ("syntax", "nesting"):
                with self.subTest(title):
                    self.assertEqual(what, listed[title][1])

    def test_each_page_names_the_specification_and_says_what_go_does(self):
        for page in pages(of_code=False):
            with self.subTest(page.title):
                self.assertRegex(page.why, r"https://go\.dev/ref/spec#\w+|The specification does not say")
                if page.example is not None and "does not say what happens when printing" not in page.why:
                    self.assertRegex(page.why, "Go (accepts|rejects) this text")

    def test_each_page_of_code_texts_names_the_rule_and_says_what_producers_forget(self):
        for page in pages(of_code=True):
            with self.subTest(page.title):
                rule = re.match(r"code (\d+) ", page.title)
                anchor = f"rule-{rule[1]}" if rule else "grammar"
                self.assertIn(f"](../CODE_TEXT.md#{anchor})", page.why)
                self.assertRegex(page.why, r"\b[Aa] producer .*\b(forgets|need not think)\b")

    def test_code_texts_have_what_the_pages_say(self):
        for page in pages(of_code=True):
            with self.subTest(page.title):
                self.assertEqual(page.message, f"{code_text.report(page.example)}\n")
                self.assertIsNone(code_text.report(page.corrected))
                rule = re.match(r"code (\d+) ", page.title)
                if rule:
                    # Rule 14, too, is broken, although another one is reported.
                    self.assertNotEqual([], list(code_text.RULES[int(rule[1]) - 1](code_text.read(page.example))))


class WithTheProgram(unittest.TestCase):
    """What the program does with the texts of the pages."""

    @classmethod
    def setUpClass(cls):
        program = pathlib.Path(error_pages.program()).resolve()
        if not program.is_file():
            raise AssertionError("no program is built at crates/rgo/out/rgo, and the variable RGO names none")
        cls.room = pathlib.Path(tempfile.mkdtemp())
        cls.room.joinpath("bin").mkdir()
        cls.room.joinpath("bin", "rgo").symlink_to(program)

    @classmethod
    def tearDownClass(cls):
        shutil.rmtree(cls.room)

    def run_command(self, command, text):
        """The status, the output and the errors of a command of a page."""
        ran = subprocess.run(
            ["sh", "-c", command],
            input=text or b"",
            capture_output=True,
            cwd=self.room,
            env={**os.environ, "PATH": f"{self.room}/bin:{os.environ['PATH']}"},
            preexec_fn=lambda: resource.setrlimit(resource.RLIMIT_AS, (2**30, 2**30)),
            timeout=300,
            check=False,
        )
        return ran.returncode, ran.stdout.decode(), ran.stderr.decode()

    def check_examples(self, found):
        for page in found:
            for command in page.commands:
                with self.subTest(page.title, command=command):
                    self.assertEqual((page.status, "", page.message), self.run_command(command, page.example))

    def check_corrected(self, found):
        for page in found:
            for command in page.corrected_commands:
                with self.subTest(page.title, command=command):
                    printed = page.printed if command.startswith("rgo run") else ""
                    self.assertEqual((0, printed, ""), self.run_command(command, page.corrected))

    def pages_of_code(self):
        """The pages about code texts. The test is skipped if the program does not know their command."""
        if self.run_command(error_pages.CODE, b"")[0] == 64:
            self.skipTest(f"the program does not know the command `{error_pages.CODE}` yet")
        return pages(of_code=True)

    def test_examples_have_their_messages(self):
        self.check_examples(pages(of_code=False))

    def test_corrected_examples_pass(self):
        self.check_corrected(pages(of_code=False))

    def test_code_texts_have_their_messages(self):
        self.check_examples(self.pages_of_code())

    def test_corrected_code_texts_pass(self):
        self.check_corrected(self.pages_of_code())

    def test_the_documents_show_what_happens(self):
        for name, least in [("README.md", 4), ("docs/COMMAND_LINE.md", 3), ("docs/TOOLS.md", 2)]:
            text = TOP.joinpath(name).read_text(encoding="utf-8")
            shown = [block for language, block in error_pages.BLOCK.findall(text) if not language and block.startswith("$ ")]
            commands = [part.split("\n", 1) for block in shown for part in re.split(r"^\$ ", block, flags=re.MULTILINE)[1:]]
            self.assertGreaterEqual(len(commands), least)
            for command, output in commands:
                with self.subTest(name, command=command):
                    self.assertEqual(output, self.printed_by(command))

    def printed_by(self, command):
        """What a command of a document prints, at the top of the repository."""
        ran = subprocess.run(
            ["sh", "-c", command.replace("./rgo ", "rgo ")],
            stdout=subprocess.PIPE,
            stderr=subprocess.STDOUT,
            cwd=TOP,
            env={**os.environ, "PATH": f"{self.room}/bin:{os.environ['PATH']}", "RGO": f"{self.room}/bin/rgo"},
            timeout=300,
            check=False,
        )
        return ran.stdout.decode()

    def test_what_the_grammar_leaves_out_has_a_syntax_error(self):
        page = PAGES.joinpath("syntax.md").read_text(encoding="utf-8")
        inside, outside = (part.split("\n\n")[0] for part in page.split("| Go | rgo |\n|---|---|\n")[1:])
        heads = [(inside, "package main\nfunc main() {{\n{}\n"), (outside, "package main\n{}\n")]
        count = 0
        for table, text in heads:
            for row in ROW.findall(table):
                for words in re.findall(r"`(.*?)`", cells(row)[0]):
                    with self.subTest(words):
                        count += 1
                        status, _, said = self.run_command("rgo check", text.format(words).encode())
                        line = text.split("{}")[0].count("\n") + 1
                        self.assertEqual(1, status)
                        self.assertRegex(said, rf"\Argo: {line}:\d+: syntax\n\Z")
        self.assertGreater(count, 15)


@unittest.skipUnless(shutil.which("go"), "Go is not installed")
class WithGo(unittest.TestCase):
    """What Go does with the texts of the pages."""

    def test_go_does_what_the_pages_say(self):
        texts, accepted = {}, {}
        for page in pages(of_code=False):
            if page.example is not None:
                texts[f"{page.path.stem}/example"] = page.example
                accepted[f"{page.path.stem}/example"] = "Go rejects this text" not in page.why
            texts[f"{page.path.stem}/corrected"] = page.corrected
            # A journal is no Go text.
            accepted[f"{page.path.stem}/corrected"] = not page.corrected.startswith(b"rgo picks")
        with tempfile.TemporaryDirectory() as folder:
            room = pathlib.Path(folder)
            room.joinpath("go.mod").write_text("module pages\n")
            for name, text in texts.items():
                room.joinpath(name).mkdir(parents=True)
                room.joinpath(name, "main.go").write_bytes(text)
            # This compiles all packages and links none.
            command = ["go", "list", "-e", "-export", "./..."]
            said = subprocess.run(command, cwd=room, capture_output=True, text=True, check=False).stderr
            rejected = set(re.findall(r"^# pages/([\w-]+/\w+)$", said, re.MULTILINE))
            # A missing main is found when the program is linked.
            for name in (name for name, text in texts.items() if b"func main()" not in text and name not in rejected):
                linked = subprocess.run(["go", "build", "-o", os.devnull, f"./{name}"], cwd=room, capture_output=True, check=False)
                rejected.update([name] if linked.returncode else [])
        for name, is_accepted in accepted.items():
            with self.subTest(name):
                self.assertEqual(is_accepted, name not in rejected, said)
