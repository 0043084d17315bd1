"""Tests code_reasons: why code texts are refused, by hand for the texts of docs/CODE_TEXT.md and some others, and that there is
a reason for each text of the tables."""

import re
import unittest

import code_reasons
import code_text
from test_code_text import BY_HAND, HEAD, main, sections, table_texts

# The reasons of the smallest texts that break the rules, in the order of the rules. That of rule 14 breaks rule 9.
OF_RULES = [
    "there is no function main without parameters and result",
    "v0 is int",
    "a []int needs a class",
    "v1 has r1 and v0 has r0",
    "v0 has r0 in place of G",
    "R[r0] is needed, for r0 of f",
    "R[r0] is needed, for r0 of f",
    "r0 is read before an instruction writes there",
    "r0 is missing in CREATES",
    "r0 is missing in P",
    "v0 has r0, and the result has r1",
    "r0 is the name of the result",
    "r0 is missing in REMOVES",
    "r0 is too many in CREATES",
]
MAIN = "func main 0 - -\nvar int -\nvar []int r0\nvar bool -\nentry -[]\n"
ONE = "func f 1 []int r0\nvar []int r0\nentry -[]\n0 @0 +[] return v0\nend\n"
# Texts after their first line, and the reasons.
TEXTS = [
    ("struct S *X\n", "there is no struct X"),
    ("struct S\nstruct S\n", "there is a struct S before"),
    ("global g int\nglobal g int\n", "there is a package variable g before"),
    (ONE + ONE, "there is a function f before"),
    ("func f 2 - -\nvar int -\nentry -[]\n0 @0 +[] return -\nend\n", "2 parameters need as many lines var, and there are 1"),
    ("func f 0 - -\nentry -[]\nend\n", "f has no instruction"),
    (MAIN + "0 @0 +[] int v0 1 -[]\nend\n", "the last instruction has to be a jump, a branch or a return"),
    (MAIN + "0 @0 +[] int v7 1 -[]\nend\n", "there is no v7: the variables end with v2"),
    (MAIN + "0 @0 +[] jump 1 -[]\nend\n", "there is no instruction 1: the last one is 0"),
    (MAIN + "0 @0 +[] new v1 S -[]\nend\n", "there is no struct S"),
    (MAIN + "0 @0 +[] get v1 g -[]\nend\n", "there is no package variable g"),
    (MAIN + "0 @0 +[] go f() R[] -[]\nend\n", "there is no function f"),
    (ONE + MAIN + "0 @0 +[] call v1 f() R[r0] P[] -[]\nend\n", "f has 1 parameters, and the arguments are 0"),
    (ONE + MAIN + "0 @0 +[] call - f(v1) R[r0] P[] -[]\nend\n", "f has a result, so it needs a target"),
    (MAIN + "0 @0 +[] bin v0 add v0 v2 -[]\n1 @0 +[] return -\nend\n", "v0 is int and v2 is bool"),
    (ONE + MAIN + "0 @0 +[] call v0 f(v1) R[r0] P[] -[]\n1 @0 +[] return -\nend\n", "v0 is int, v1 is []int and f takes []int and returns []int"),
    (MAIN.replace("int -", "int r1") + "0 @0 +[] return -\nend\n", "an int has no class: write -"),
    (ONE + MAIN + "0 @0 +[r0] nil v1 -[]\n1 @0 +[] go f(v1) R[r0] -[r0]\n2 @0 +[] return -\nend\n", "f has a result, so it cannot be started with go"),
    (
        ONE + MAIN.replace("bool -", "[]int r1") + "0 @0 +[r0] nil v1 -[]\n1 @0 +[r1] call v2 f(v1) R[r1] P[] -[r1]\n2 @0 +[] return -\nend\n",
        "f needs one region for what is passed for its r0, and there are v1 in r0 and the target v2 in r1",
    ),
    # The same instruction twice, of which the second is wrong.
    (MAIN + "0 @0 +[r0] nil v1 -[r0]\n1 @0 +[] nil v1 -[r0]\n2 @0 +[] return -\nend\n", "r0 is missing in CREATES"),
    (MAIN + "0 @0 +[r0] nil v1 -[r0]\n1 @0 +[r0] nil v1 -[r0]\n2 @0 +[r0] nil v1 -[]\n3 @0 +[] return -\nend\n", "r0 is missing in REMOVES"),
    (
        MAIN
        + "0 @0 +[r0] nil v1 -[]\n1 @0 +[] bool v2 true -[]\n2 @0 +[] branch v2 3 -[] 4 -[]\n3 @0 +[] len v0 v1 -[r0]\n"
        + "4 @0 +[] return -\nend\n",
        "r0 is missing in REMOVES on the way on which v2 is false",
    ),
]
# Texts with a line that has no form, and the reasons.
WITHOUT_FORM = [
    (b"", "the first line has to be: rgo code 1"),
    (b"rgo code 1", "the last line does not end in a newline"),
    (HEAD + b"\n", "the line is empty"),
    (HEAD + b"struct S\r\n", "the line ends in a carriage return"),
    (HEAD + b"struct S \n", "the line ends in a blank"),
    (HEAD + b"struct S  int\n", "a tab, or more than one blank, separates two parts"),
    (HEAD + b"var int -\n", "a line struct or a line global or a line func has to be here"),
    (HEAD + b"global g\n", "the form is global NAME TYPE"),
    (HEAD + b"global go int\n", code_reasons.WRONG_WORD),
    (HEAD + main(["int -"], "+[] int v0 -[]"), "the form is int V K -[..]"),
    (HEAD + main(["int -"], "+[] print \"a  b\",v0"), "the form is print PIECES -[..]"),
    (HEAD + main([], "+[] stop -[]"), "there is no instruction stop"),
    (HEAD + main([]).replace(b"0 @0", b"1 @0"), "the number of this instruction is 0"),
    (HEAD + main([]).replace(b"end\n", b""), "the text ends, and an instruction or the line end has to follow"),
]


def refused(text):
    """The rule, or `text`, and the line for which a text is refused."""
    found = re.fullmatch(r"rgo: line (\d+): code (\w+)", code_text.report(text))
    return found[2], int(found[1])


class Reasons(unittest.TestCase):
    def test_the_texts_of_the_page(self):
        for section, wanted in zip(sections(), OF_RULES, strict=True):
            with self.subTest(section.rule):
                text = section.text.encode()
                self.assertEqual(wanted, code_reasons.reason_of(text, *refused(text)))
                self.assertIsNone(code_reasons.reason_of(section.mended.encode(), *refused(text)))

    def test_other_texts(self):
        for text, wanted in TEXTS:
            with self.subTest(text):
                found = HEAD + text.encode() + (b"" if "func main" in text else main([]))
                self.assertEqual(wanted, code_reasons.reason_of(found, *refused(found)))

    def test_lines_without_form(self):
        for text, wanted in WITHOUT_FORM:
            with self.subTest(text):
                rule, line = refused(text)
                self.assertEqual(("text", wanted), (rule, code_reasons.reason_of(text, rule, line)))

    def test_each_text_of_the_tables_has_a_reason(self):
        count = 0
        for text, report in [*table_texts(), *BY_HAND]:
            if report:
                count += 1
                with self.subTest(text=text):
                    self.assertTrue(code_reasons.reason_of(text, *refused(text)))
        self.assertGreater(count, 800)


if __name__ == "__main__":
    unittest.main()
