"""Tests docs/REGIONS_GUIDE.md and what docs/REGIONS.md says of runs: that the programs are examples, that the commands
print what is shown, and that the numbers in the text are those of the runs.
"""

import operator
import os
import pathlib
import re
import subprocess
import sys
import unittest

import error_pages
from error_pages import TOP

GUIDE = TOP / "docs" / "REGIONS_GUIDE.md"
REGIONS = TOP / "docs" / "REGIONS.md"
EXAMPLES = TOP / "examples" / "regions"
COUNTS = re.compile(r"^rgo: regions (\d+) removed \d+ pages (\d+) returned \d+ objects (\d+) goroutines \d+\n", re.MULTILINE)
# A program with its margin, and its run.
MARGIN = re.compile(r"^tools/regions (?:--list )?(?:--function \w+ )?(\S+)$")
RUN = re.compile(r"^\./rgo run --stats (?:--workers 1 )?< (\S+)$")
# What the text says of other parts of the page, of statuses, and of arithmetic.
REFERENCE = re.compile(r"\[(program|pitfall) (\d+)\]\(#(\d+)-[\w-]+\)")
LINE = re.compile(r"\bline (\d+)")
COUNTED = re.compile(r"\b(\d+) (region|page|object|goroutine)s?\b")
STATUS = re.compile(r"\b[Ss]tatus(?:es)? (\d+(?:(?:, | and | or )\d+)*)")
ARITHMETIC = re.compile(r"`(\d+) ([-+*/]) (\d+) = (\d+)`")
OPERATORS = {"+": operator.add, "-": operator.sub, "*": operator.mul, "/": operator.floordiv}
NUMBER = re.compile(r"(?<![\w.@/])\d+(?:,\d{3})*(?![\w.]\w)")
# Numbers in words that no test compares.
WORDS = re.compile(r"\b(four|five|seven|eight|nine|eleven|twelve|\w+teen|(twen|thir|for|fif|six|eigh)ty|hundred|thousand|million)\b")


def sessions(text):
    """The commands that a text shows in its blocks without a language, each with what it prints."""
    for language, block in error_pages.BLOCK.findall(text):
        if not language and block.startswith("$ "):
            yield from (part.split("\n", 1) for part in re.split(r"^\$ ", block, flags=re.MULTILINE)[1:])


def programs(form, text):
    """The files that commands of a form name, in the order of the text."""
    return [found[1] for command, _ in sessions(text) for found in [form.match(command)] if found]


def sections(text, mark):
    """The sections of a text by their headings, which begin with this mark."""
    return dict(part.split("\n", 1) for part in re.split(rf"^{mark} ", text, flags=re.MULTILINE)[1:])


def rows(text):
    """The cells of each row of the first table of a text, without its head."""
    table = re.search(r"^\|(?:.*\n\|)*.*$", text, re.MULTILINE)[0]
    return [re.split(r" *\| *", row.strip("| ")) for row in table.split("\n")[2:]]


def numbers(text):
    return {int(found.replace(",", "")) for found in NUMBER.findall(text)}


def of_a_margin(line):
    """A line of a source without the margin and the number of the line."""
    return re.sub(r"^.*?\d* \|", "", line)


def limits():
    """The numbers in the table of options, and the most frames of a goroutine."""
    page = TOP.joinpath("docs", "COMMAND_LINE.md").read_text(encoding="utf-8")
    language = TOP.joinpath("docs", "LANGUAGE.md").read_text(encoding="utf-8")
    options = [" ".join(row) for row in rows(page[page.index("| option of `run` |") :])]
    return set().union(*map(numbers, options)) | numbers(re.search(r"^\| frames .*$", language, re.MULTILINE)[0])


def statuses():
    """The statuses that the page on the command line lists."""
    page = TOP.joinpath("docs", "COMMAND_LINE.md").read_text(encoding="utf-8")
    return {int(row[0]) for row in rows(page[page.index("| status |") :])}


class Text(unittest.TestCase):
    """What can be seen without the program."""

    def setUp(self):
        self.text = GUIDE.read_text(encoding="utf-8")
        self.parts = sections(self.text, "##")

    def test_the_sections_are_as_many_as_the_headings_say(self):
        for heading, count in [("Ten programs", 10), ("Six pitfalls", 6)]:
            found = re.findall(r"^### (\d+)\. ", self.parts[heading], re.MULTILINE)
            self.assertEqual([str(number) for number in range(1, count + 1)], found)

    def test_each_section_shows_programs_with_margin_and_counts(self):
        for heading, least in [("Ten programs", 1), ("Six pitfalls", 2)]:
            for name, section in sections(self.parts[heading], "###").items():
                with self.subTest(name):
                    runs = programs(RUN, section)
                    self.assertEqual(list(dict.fromkeys(programs(MARGIN, section))), runs)
                    self.assertGreaterEqual(len(runs), least)

    def test_each_run_is_that_of_an_example(self):
        for command, printed in sessions(self.text):
            with self.subTest(command):
                for name in RUN.findall(command):
                    files = [(TOP / name).with_suffix(suffix).read_text(encoding="ascii") for suffix in (".out", ".err")]
                    self.assertEqual("".join(files), printed)

    def test_each_example_is_in_the_guide_or_in_the_table(self):
        named = set(re.findall(r"\b(\w+\.go)\b", self.text + REGIONS.read_text(encoding="utf-8")))
        self.assertEqual(set(), {path.name for path in EXAMPLES.glob("*.go")} - named)

    def test_the_table_of_ten_programs(self):
        found = rows(sections(REGIONS.read_text(encoding="utf-8"), "##")["Ten programs"])
        self.assertEqual(10, len(found))
        for program, _, *said in found:
            with self.subTest(program):
                counted = (EXAMPLES / program.strip("`")).with_suffix(".err").read_text(encoding="ascii")
                self.assertEqual(said, list(COUNTS.fullmatch(counted).groups()))

    def test_the_table_of_pitfalls_names_the_programs_of_their_sections(self):
        shown = {}
        for name, section in sections(self.parts["Six pitfalls"], "###").items():
            before, *after = [pathlib.Path(path).name for path in programs(RUN, section)]
            shown[name[0]] = {(before, one) for one in after}
        listed = {}
        for pitfall, before, _, after, _ in rows(self.parts["Six pitfalls"]):
            listed.setdefault(pitfall[1], set()).add((before.strip("`"), after.strip("`")))
        self.assertEqual(shown, listed)

    def test_numbers_are_those_of_the_commands(self):
        known = limits()
        for heading, part in self.parts.items():
            first = re.split(r"^### ", part, flags=re.MULTILINE)[0]
            for name, section in {heading: first, **sections(part, "###")}.items():
                with self.subTest(name):
                    self.check_numbers(section, known)

    def check_numbers(self, section, known):
        """Checks that each number in the text of a section is a limit, or appears in what the section shows."""
        shown, listed, counted = set(), set(), set()
        for command, printed in sessions(section):
            is_margin = command.startswith("tools/regions") and "--list" not in command
            lines = map(of_a_margin, printed.splitlines()) if is_margin else [printed]
            shown |= numbers(command).union(*map(numbers, lines))
            listed |= {int(line) for line in re.findall(r"^(\d+):", printed, re.MULTILINE)}
            counted |= set(re.findall(r"\b(region|page|object|goroutine)s (\d+)", f"{command}\n{printed}"))
        prose = " ".join(re.sub(r"^\|.*$|^\d+\. ", "", error_pages.BLOCK.sub("", section), flags=re.MULTILINE).split())
        self.assertIsNone(WORDS.search(prose))
        for _, number, heading in REFERENCE.findall(prose):
            self.assertEqual(number, heading)
        for found in STATUS.findall(prose):
            self.assertLessEqual(numbers(found), statuses())
        self.assertLessEqual(set(map(int, LINE.findall(prose))), listed)
        self.assertLessEqual({(what, number) for number, what in COUNTED.findall(prose)}, counted)
        prose = LINE.sub("", STATUS.sub("", REFERENCE.sub("", prose)))
        self.assertNotRegex(prose, r"\b(program|pitfall)s? \d")
        for left, sign, right, result in ARITHMETIC.findall(prose):
            self.assertEqual(int(result), OPERATORS[sign](int(left), int(right)))
            shown.add(int(result))
        # A count of one digit by which another number is changed, such as the words of a struct, need not be shown.
        prose = ARITHMETIC.sub(lambda found: f"{found[1]} {found[3] if len(found[3]) > 1 else ''} {found[4]}", prose)
        self.assertLessEqual(numbers(prose), shown | known)

    def test_statuses_are_those_of_their_pages(self):
        named = re.findall(r"^\*\*Status (\d+)\*\*, \[(.+?)\]\(errors/(.+?)\):$", self.text, re.MULTILINE)
        self.assertEqual(["4", "5", "6"], [status for status, _, _ in named])
        for status, title, name in named:
            page = error_pages.read_page(error_pages.titles()[title])
            self.assertEqual((int(status), name), (page.status, page.path.name))

    def test_lines_are_not_too_long(self):
        self.assertEqual([], [line for line in self.text.splitlines() if len(line) > 120])


class WithTheProgram(unittest.TestCase):
    """What the program does with the examples."""

    @classmethod
    def setUpClass(cls):
        cls.program = pathlib.Path(error_pages.program()).resolve()
        if not cls.program.is_file():
            raise AssertionError("no program is built at crates/rgo/out/rgo, and the variable RGO names none")

    def status(self, text, pages):
        """The status of a run on one worker with this many pages at most."""
        command = [self.program, "run", "--pages", str(pages), "--workers", "1"]
        return subprocess.run(command, input=text.encode(), capture_output=True, timeout=300, check=False).returncode

    def test_commands_print_what_is_shown(self):
        for path in [GUIDE, REGIONS]:
            for command, printed in sessions(path.read_text(encoding="utf-8")):
                with self.subTest(path.name, command=command):
                    # Without the packages of the site the tool starts in half the time.
                    command = command.replace("./rgo ", '"$RGO" ').replace("tools/regions ", '"$PYTHON" -S tools/regions ')
                    ran = subprocess.run(
                        ["sh", "-c", command],
                        stdout=subprocess.PIPE,
                        stderr=subprocess.STDOUT,
                        cwd=TOP,
                        env={**os.environ, "RGO": str(self.program), "PYTHON": sys.executable},
                        timeout=300,
                        check=False,
                    )
                    self.assertEqual(printed, ran.stdout.decode())

    def test_the_pages_that_programs_need(self):
        table = rows(sections(GUIDE.read_text(encoding="utf-8"), "##")["Six pitfalls"])
        self.assertGreaterEqual(len(table), 6)
        for _, before, needs_before, after, needs_after in table:
            for program, needs, with_more in [(before, int(needs_before), 4), (after, int(needs_after), 0)]:
                with self.subTest(program):
                    text = (EXAMPLES / program.strip("`")).read_text(encoding="ascii")
                    self.assertEqual(0, self.status(text, needs))
                    if needs > 1:
                        self.assertEqual(4, self.status(text, needs - 1))
                    more = text.replace("1000", "10000") if "1000" in text else text.replace("i < 100;", "i < 1000;")
                    self.assertNotEqual(text, more)
                    self.assertEqual(with_more, self.status(more, needs))
