"""Tests tools/marked_tables.py and the texts in tools/marked_programs: the tables of `rgo_tests` and `rgo_parsing_tests` are made
from these, and each rule on meaning is broken by one of them. No table of tests counts a line or a column by hand.
"""

import re
import unittest

import command
import marked_tables

FOUND = {
    "syntax": "syntax", "NoSuchName": "type 4 NoSuchName", "NoMain": "type 34 NoMain", "BadByte": "lexical 2 BadByte",
    "NilPointer": "trap 1 NilPointer",
}
CRATES = marked_tables.TOP / "crates"


class Tables(unittest.TestCase):
    def test_the_tables_are_those_of_today(self):
        for path, text in marked_tables.tables():
            with self.subTest(path.name):
                self.assertEqual(path.read_text(encoding="utf-8"), text)

    def test_each_file_of_programs_has_a_table(self):
        named = [f"{name}.go" for _, names in marked_tables.FILES.values() for name in names]
        found = [path.name for path in marked_tables.PROGRAMS.iterdir() if path.suffix not in (".calls", ".texts")]
        self.assertEqual(sorted(found), sorted(named))

    def test_each_rule_is_broken(self):
        texts = [(marked_tables.PROGRAMS / f"{name}.go").read_text(encoding="ascii") for name in ("rules", "whole")]
        marks = {mark[1] or mark[2] for text in texts for mark in marked_tables.MARK.finditer(text)}
        self.assertEqual(set(), marked_tables.numbered("type").keys() - marks)

    def test_each_lexical_error_and_each_trap_is_reported(self):
        texts = [path.read_text(encoding="ascii") for path in marked_tables.PROGRAMS.iterdir() if path.suffix != ".go"]
        marks = {mark[1] or mark[2] for text in texts for mark in marked_tables.MARK.finditer(text)}
        self.assertEqual(set(), {*marked_tables.numbered("lexical"), *marked_tables.numbered("trap")} - marks)

    def test_no_other_table_of_calls_has_a_place(self):
        written = {path for path, _ in marked_tables.tables()}
        for path in sorted(CRATES.glob("rgo_tests/src/**/*.rt")):
            if path not in written:
                with self.subTest(path.name):
                    found = re.findall(r"^rgo: (?:\d+:\d+|line \d+): .*", path.read_text(encoding="utf-8"), re.MULTILINE)
                    self.assertEqual([], found)


class Rows(unittest.TestCase):
    """What is read of a file of programs."""

    def rows(self, text):
        return marked_tables.rows_of(text, FOUND)[1]

    def test_places(self):
        text = "// Two programs.\npackage main\n\nfunc main() { /* NoSuchName */ f() }\n\nvar x int\nvar y /* syntax */ 1\n"
        self.assertEqual(["2:15: type 4 NoSuchName | func main() { f() }", "3:7: syntax | var x int~var y 1"], self.rows(text))

    def test_a_place_after_the_text(self):
        self.assertEqual(["2:1: type 34 NoMain | package main"], self.rows("// One.\n\npackage main\n/* NoMain */\n"))

    def test_a_place_in_the_lines_before(self):
        text = "// One.\npackage main\nvar x int\n\npackage main\nvar x /* NoSuchName */ int\nfunc main() {}\n"
        self.assertEqual(["2:7: type 4 NoSuchName | func main() {}"], self.rows(text))

    def test_programs_without_a_mark_pass(self):
        self.assertEqual(["ok | package main~func main() {}"], self.rows("// One.\n\npackage main\nfunc main() {}\n"))

    def test_what_is_refused(self):
        for program in ["/* NoMain */ x /* NoMain */ y", "/* NoSuchRule */ x", 'x := "~"', "package main\nx"]:
            with self.subTest(program), self.assertRaises(command.Stop):
                self.rows(f"// One.\npackage main\nvar x int\n\n{program}\n")


class Calls(unittest.TestCase):
    """What is read of a file of calls."""

    def row(self, row, head="package main\n"):
        return marked_tables.call_row(head, row, FOUND)

    def test_a_refused_program(self):
        wanted = "\n> rgo run\nvar x 1\n< 1\n!\nrgo: 2:7: syntax\n"
        self.assertEqual(wanted, self.row("rgo run\nvar x /* syntax */ 1\n< 1\n"))

    def test_a_trap_after_what_is_printed_and_reported(self):
        wanted = "\n> rgo run\nx.v()\n< 2\n7\n!\nrgo: regions 0\nrgo: 2:3: trap 1 NilPointer\n"
        self.assertEqual(wanted, self.row("rgo run\nx./* NilPointer */ v()\n< 2\n7\n!\nrgo: regions 0\n"))

    def test_a_program_after_a_journal(self):
        wanted = "\n> rgo replay\nrgo picks 1\none 0\ntext\nx\ny\n\n< 2\n!\nrgo: 2:1: trap 1 NilPointer\n"
        self.assertEqual(wanted, self.row("rgo replay\nrgo picks 1\none 0\ntext\nx\n/* NilPointer */ y\n\n< 2\n", ""))

    def test_a_line_of_a_code_text(self):
        wanted = "\n> rgo code\nrgo code 1\nend\n\n< 1\n!\nrgo: line 2: code text\n"
        self.assertEqual(wanted, self.row("rgo code\nrgo code 1\n/* code text */\nend\n\n< 1\n", ""))

    def test_other_comments_are_no_marks(self):
        self.assertEqual("\n> rgo run\nx /* two */ y\n< 0\n", self.row("rgo run\nx /* two */ y\n< 0\n"))

    def test_what_is_refused(self):
        for row in ["x\n< 1\n", "/* syntax */ x\n< 2\n", "/* NilPointer */ x\n< 1\n", "/* syntax */ x\n< 0\n", "/* Other */ x\n< 1\n"]:
            with self.subTest(row), self.assertRaises(command.Stop):
                self.row(f"rgo run\n{row}")


class Texts(unittest.TestCase):
    """What is read of a file of texts for the lexer."""

    def test_bytes(self):
        wanted = '/// Said.\npub(super) static BYTES: [(&[u8], &str); 1] = [\n    (b"\\xEF\\n\\"#", "2@3"),\n];\n'
        self.assertEqual(wanted, marked_tables.text_table(FOUND)("BYTES", "Said.", '\n%EF%0A"/* BadByte */ #\n'))

    def test_a_text_without_a_mark(self):
        with self.assertRaises(command.Stop):
            marked_tables.text_table(FOUND)("BYTES", "Said.", "x\n")


if __name__ == "__main__":
    unittest.main()
