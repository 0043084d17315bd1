"""Tests docs/RULES.md: that each row names what is in the file that it links, and that the page has the rules that rgo reports."""

import re
import unittest

import documents
from error_pages import PAGES, TOP
from test_proofs import loaded

PAGE = TOP / "docs" / "RULES.md"
HEAD = ["rule", "in words", "definition", "code", "the proof begins in"]
# The fewest rows that the page may have.
LEAST = 70
LINK = re.compile(r"\[([^]]*)\]\(([^)#\s]+)(#[^)\s]*)?\)")
# Names, and the file that has them.
NAMED = re.compile(r"((?:`[^`]+`, )*`[^`]+`) in \[[^]]*\]\(([^)\s]+)\)")
# A cell of a table ends at a bar that is not escaped.
BAR = re.compile(r"(?<!\\)\|")
# What a cell may say in place of a name.
NOTHING = re.compile(r"\bnone\b|\bfound by the prover\b|\bby the definition\b")


def tables(text):
    """The tables of the page: each the rows below its line of dashes, and before them its head."""
    for table in re.findall(r"(?:^\|.*\n)+", text, re.MULTILINE):
        rows = [[cell.strip() for cell in BAR.split(line)[1:-1]] for line in table.splitlines()]
        yield rows[:1] + rows[2:]


class Rules(unittest.TestCase):
    tool = loaded("tags")
    text = PAGE.read_text(encoding="utf-8")
    rows = [row for table in tables(text) for row in table[1:]]

    def defined(self, path):
        """The names that a file defines."""
        lines = path.read_text(encoding="utf-8").splitlines()
        found = self.tool.of_code(lines) if path.suffix == ".rt" else self.tool.of_logic(lines)
        return {name.strip("«»") for name, _, _ in found}

    def test_each_row_has_all_cells(self):
        self.assertGreaterEqual(len(self.rows), LEAST)
        for head, *rows in tables(self.text):
            self.assertEqual(HEAD, head)
            for row in rows:
                with self.subTest(row[0]):
                    self.assertEqual(len(HEAD), len(row))
                    self.assertTrue(all(row))

    def test_no_rule_has_two_rows(self):
        rules = [row[0] for row in self.rows]
        self.assertEqual(sorted(set(rules)), sorted(rules))

    def test_each_link_leads_to_a_file(self):
        self.assertEqual([], documents.broken(PAGE))
        for label, link, _ in LINK.findall(self.text):
            with self.subTest(label, link=link):
                path = (PAGE.parent / link).resolve()
                self.assertTrue(path.exists())
                # A name of a file in its place is the file's.
                if re.search(r"\.(?:antt|rt)$", label):
                    self.assertTrue(path.is_file())
                    self.assertEqual(path.name, label.rpartition("/")[2])

    def test_what_is_named_is_defined_in_the_file(self):
        found = NAMED.findall(self.text)
        self.assertGreater(len(found), 3 * LEAST)
        for names, link in found:
            defined = self.defined((PAGE.parent / link).resolve())
            for name in re.findall(r"`([^`]+)`", names):
                with self.subTest(name, link=link):
                    self.assertIn(name, defined)

    def test_each_cell_leads_where_its_column_says(self):
        parts = {"definition": "specs", "code": "src", "the proof begins in": "proofs"}
        for row in self.rows:
            for column, part in parts.items():
                cell = row[HEAD.index(column)]
                with self.subTest(row[0], column=column):
                    links = [link for _, link, _ in LINK.findall(cell)]
                    self.assertTrue(any(re.match(rf"\.\./crates/\w+/{part}/", link) for link in links) or NOTHING.search(cell))
            with self.subTest(row[0], column="in words"):
                words = [link for _, link, _ in LINK.findall(row[HEAD.index("in words")])]
                self.assertTrue(words and all(link.endswith(".md") for link in words))

    def test_each_rule_that_has_a_page_of_its_own_is_there(self):
        pages = [path for kind in ["lexical", "type", "trap", "code"] for path in sorted(PAGES.glob(f"{kind}-[0-9]*.md"))]
        self.assertEqual(6 + 34 + 7 + 14, len(pages))
        rules = " ".join(row[0] for row in self.rows)
        for path in pages:
            name = documents.title(path).split()[-1]
            with self.subTest(name):
                self.assertRegex(rules, rf"\b{name}\b")
        for path in sorted(PAGES.glob("status-[0-9]*.md")):
            with self.subTest(path.name):
                self.assertTrue(f"errors/{path.name}" in self.text or re.search(rf"\bstatus {path.name.split('-')[1]}\b", rules))


class Reading(unittest.TestCase):
    def test_tables(self):
        text = "Text.\n\n| a | b |\n|---|---|\n| `x \\| y` | [c](d) |\n\n| a | b |\n|---|---|\n"
        self.assertEqual([[["a", "b"], ["`x \\| y`", "[c](d)"]], [["a", "b"]]], list(tables(text)))

    def test_names(self):
        text = "with `a`, `b-c` in [A.antt](../a/A.antt), `d` of [b.rt](b.rt), folder `e` in [f](f)"
        self.assertEqual([("`a`, `b-c`", "../a/A.antt"), ("`e`", "f")], NAMED.findall(text))


if __name__ == "__main__":
    unittest.main()
