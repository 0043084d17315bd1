"""Tests that each crate has a README in the one form that a reader can rely on. That its links lead somewhere is tested with
those of all documents."""

import re
import unittest
from collections import Counter

import documents
from crates import crates
from error_pages import TOP

HEADINGS = [
    "What it is",
    "Its one call",
    "What a contract sees",
    "Proved",
    "Only tested, or not said",
    "What may change",
]
# One screen.
MOST_LINES = 60


class Readmes(unittest.TestCase):
    """The README of each crate of crates.txt."""

    def test_each_crate_has_one_in_one_form(self):
        for crate in crates():
            with self.subTest(crate=crate):
                path = TOP / "crates" / crate / "README.md"
                self.assertTrue(path.is_file(), f"{path} is missing")
                text = path.read_text(encoding="utf-8")
                self.assertEqual(f"# `{crate}`", text.split("\n", 1)[0])
                self.assertEqual(HEADINGS, re.findall(r"^## (.*)$", text, re.MULTILINE))
                self.assertLessEqual(len(text.splitlines()), MOST_LINES)
                self.assertEqual([], [heading for heading, many in Counter(documents.headings(text)).items() if many > 1])

    def test_no_section_is_empty(self):
        for crate in crates():
            path = TOP / "crates" / crate / "README.md"
            if not path.is_file():
                continue
            with self.subTest(crate=crate):
                sections = re.split(r"^#.*$", path.read_text(encoding="utf-8"), flags=re.MULTILINE)[2:]
                self.assertEqual([], [n for n, section in enumerate(sections) if not section.strip()])


if __name__ == "__main__":
    unittest.main()
