"""Tests tools/figures, and that the numbers in documents that follow from the sources are those of today."""

import pathlib
import tempfile
import unittest

import command
from error_pages import TOP
from test_proofs import loaded


class Figures(unittest.TestCase):
    tool = loaded("figures")

    def test_documents_have_the_numbers_of_today(self):
        found = [f"{place}:{line}: {number}, not {right}" for place, _, line, number, right in self.tool.differences()]
        self.assertEqual([], found, "tools/figures --write brings the documents up to date")

    def test_the_table_of_crates_is_that_of_today(self):
        text = TOP.joinpath("docs", "PROOF.md").read_text(encoding="utf-8")
        self.assertEqual(self.tool.counted(text), text, "tools/figures --write brings docs/PROOF.md up to date")

    def test_each_figure_of_the_proof_is_in_a_document(self):
        for places, sentence, _ in self.tool.FIGURES:
            if places != self.tool.EVERYWHERE:
                with self.subTest(sentence):
                    self.assertEqual(1, len(list(self.tool.found(places, sentence))))

    def test_what_is_counted_exists(self):
        for _, sentence, ways in self.tool.FIGURES:
            with self.subTest(sentence):
                self.assertTrue(all(way() for way in ways))
        with self.assertRaises(command.Stop):
            self.tool.matches("crates/rgo_memory/specs/Traps.antt", r"^no_such_name ")

    def test_numbers_in_words_and_digits(self):
        for number, value in [("14", 14), ("fourteen", 14), ("Seven", 7), ("6,079", 6079)]:
            self.assertEqual(value, self.tool.read(number))
        self.assertEqual(["fifteen", "15", "6,080", "34"], [self.tool.written(*it) for it in [(15, "two"), (15, "14"), (6080, "6,079"), (34, "two")]])

    def test_a_wrong_number_is_found_also_over_the_end_of_a_line(self):
        with tempfile.TemporaryDirectory() as folder:
            page = pathlib.Path(folder, "page.md")
            page.write_text("It keeps the fourteen\nrules, and the 33\nrules.\n", encoding="utf-8")
            places = lambda text: [(match[1], line) for _, match, line in self.tool.found([str(page.relative_to("/"))], text)]
            top, self.tool.TOP = self.tool.TOP, pathlib.Path("/")
            self.addCleanup(setattr, self.tool, "TOP", top)
            self.assertEqual([("fourteen", 1), ("33", 2)], places("the {} rules"))
