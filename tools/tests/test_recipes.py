"""Tests the recipes of CONTRIBUTING.md: they show what tools/touches prints today, and that is where a construct is."""

import re
import unittest

from error_pages import TOP
from test_proofs import loaded

PAGE = TOP / "CONTRIBUTING.md"


class Recipes(unittest.TestCase):
    tool = loaded("touches")

    def test_recipes_show_what_the_tool_prints(self):
        text = PAGE.read_text(encoding="utf-8")
        self.assertEqual(text, self.tool.with_calls(text), "tools/touches --write brings CONTRIBUTING.md up to date")

    def test_each_recipe_shows_a_construct(self):
        recipes = PAGE.read_text(encoding="utf-8").partition("## How to add")[2].split("\n### ")[1:]
        self.assertLess(7, len(recipes))
        for recipe in recipes:
            with self.subTest(recipe.partition("\n")[0]):
                self.assertRegex(recipe, r"\n```console\n\$ tools/touches .+\n\w+: .+\n")

    def test_where_an_action_is(self):
        lines = self.tool.touched(["Neg"])
        crates = re.findall(r"^(rgo_\w+):", lines, re.MULTILINE)
        self.assertEqual(crates, sorted(crates, key=list(self.tool.lowest_first(self.tool.crates())).index))
        # Where it is declared, what it does, how it is printed, read and checked.
        self.assertLessEqual({"rgo_typed", "rgo_memory", "rgo_tac", "rgo_code_printing", "rgo_code_text", "rgo_checker"}, set(crates))

    def test_a_name_is_found_as_a_whole(self):
        finds = lambda name, text: bool(self.tool.matcher(name).search(text))
        for name, text in [("Len", "Action::Len,"), ("Len", "action.Len a"), ("--pages", "`--pages N`"), ("len", 'codes "len"'), ("len()", "a.len()"), ("is_len", "{is_len}")]:
            self.assertTrue(finds(name, text), text)
        for name, text in [("Len", "CallLen"), ("Len", "Length"), ("--pages", "--pages-in"), ("len", "its len"), ("sizes.pages", "sizes.pages_in"), ("len()", "is_len"), ("is_len", "is_lent"), ("len", 'the "len of"')]:
            self.assertFalse(finds(name, text), text)

    def test_a_word_is_found_where_each_kind_of_file_has_it(self):
        finds = lambda name, suffix, text: bool(self.tool.matcher(name, suffix).search(text))
        found = [(".md", "`len v1 v0`"), (".py", 'case "len":'), (".go", "x := len(s)"), (".go", "x := len/* ArgCount */ ()"),
                 (".code", "1 @0 +[] len v1 v0 -[]"), (".vim", "  len variable variable removes\n")]  # fmt: skip
        for suffix, text in found:
            self.assertTrue(finds("len", suffix, text), text)
        for suffix, text in [(".md", "its len"), (".py", "len(words)"), (".go", "length(s)"), (".code", "func len 0 int"), (".vim", '" len')]:
            self.assertFalse(finds("len", suffix, text), text)
        self.assertFalse(finds("len()", ".md", "its len"))
