"""Tests what reads the proofs' sources: tools/wrong-bodies, tools/definitions and tools/homes."""

import importlib.machinery
import importlib.util
import re
import unittest

from error_pages import TOP


def loaded(tool):
    """A tool without a suffix, as a module."""
    loader = importlib.machinery.SourceFileLoader(tool.replace("-", "_"), str(TOP / "tools" / tool))
    module = importlib.util.module_from_spec(importlib.util.spec_from_loader(loader.name, loader))
    loader.exec_module(module)
    return module


class WrongBodies(unittest.TestCase):
    tool = loaded("wrong-bodies")

    def test_each_can_be_applied(self):
        for crate in sorted(path.name for path in (TOP / "crates").iterdir()):
            for edit in self.tool.wrong_bodies(crate):
                with self.subTest(f"{crate}/{edit.stem}"):
                    texts = self.tool.edited(edit, TOP / "crates" / crate)
                    self.assertTrue(texts and all(before != after for before, after in texts.values()))

    def changed(self, crate, name):
        folder = TOP / "crates" / crate
        edit = next(edit for edit in self.tool.wrong_bodies(crate) if edit.stem == name)
        texts = self.tool.edited(edit, folder)
        return [self.tool.function_changed(path, *both, folder) for path, both in texts.items()]

    def test_the_changed_function_is_named_as_by_the_prover(self):
        # A function; a method beside its type; one of another file; one of a trait with a parameter; a table.
        self.assertEqual(["turns::wake"], self.changed("rgo_round_robin", "channel_that_changed_wakes_nobody"))
        self.assertEqual(["worlds::World::share"], self.changed("rgo_region_interpreter", "a_child_has_no_stakes"))
        self.assertEqual(["expressions::Expr::place"], self.changed("rgo_ast", "selector_at_its_operand"))
        self.assertEqual(["refusals::TextErrorFromTypeError::from"], self.changed("rgo_run", "rule_is_reported_at_another_place"))
        self.assertEqual([None], self.changed("rgo_lexer", "goto_is_a_name"))


class Definitions(unittest.TestCase):
    def test_what_the_claim_names_is_listed_and_nothing_that_serves_code(self):
        tool = loaded("definitions")
        found = {path.relative_to(tool.CRATES).as_posix(): names for path, names in tool.reached({}).items()}
        # The claim's own words, one of a file that code uses, too, and a case of a type.
        self.assertLessEqual({"Headline", "Suffices", "AlwaysHas"}, found["rgo_run/specs/Headline.antt"])
        # What it says of the run with regions.
        self.assertEqual({"NamesLive", "RegionRun"}, found["rgo_sound/specs/RegionRuns.antt"])
        room = {"pages_in_use", "live_regions", "StateFitsIn", "MakesTooLarge", "LacksIn"}
        # How many pages are enough.
        room |= {"pages_of", "pages_before", "most_of", "most_next", "most_pages", "object_pages", "enough_pages"}
        self.assertEqual(room, found["rgo_region_machine/specs/Room.antt"])
        self.assertIn("Event", found["rgo_region_machine/specs/Machine.antt"])
        # What is named through an alias, and in the head of a module.
        self.assertIn("instructed_with", found["rgo_region_machine/specs/Instructions.antt"])
        # How the claim is proved is no part of it.
        self.assertNotIn("rgo_core/specs/Core.antt", found)
        self.assertTrue(all(any(path.startswith(f"{crate}/") for crates in tool.CHAPTERS.values() for crate in crates) for path in found))


class Homes(unittest.TestCase):
    tool = loaded("homes")
    # How many names of definitions may have several homes, in all crates together.
    MOST = 20

    def test_few_names_have_several_homes(self):
        shared = self.tool.several(self.tool.homes())
        self.assertLessEqual(len(shared), self.MOST, " ".join(shared))

    def test_what_is_counted(self):
        found = self.tool.homes()
        # A type in a block, and a definition; but no field of a record, and no function of code.
        self.assertIn("rgo_typed", found["Term"])
        self.assertIn("rgo_run", found["Claim"])
        self.assertNotIn("read_at", found)
        self.assertNotIn("main", found)


class Answers(unittest.TestCase):
    """The tables in docs/PROOF.md that name the clause of each answer."""

    # What declares a name: a clause, a function, a definition or a field, and a case of a type.
    RUST = re.compile(r"(?:ensures|fn|enum|struct|type) (\w+)|^ +(\w+)(?:\(.*\))?,$", re.MULTILINE)
    RULES = re.compile(r"^ *(?:abbrev )?(?:pub )?(?:record |data )?(\w+) :", re.MULTILINE)

    def declared(self):
        found = set()
        for path in (TOP / "crates").glob("*/src/**/*.rt"):
            found.update(name for names in self.RUST.findall(path.read_text(encoding="utf-8")) for name in names)
        for path in (TOP / "crates").glob("*/specs/**/*.antt"):
            found.update(self.RULES.findall(path.read_text(encoding="utf-8")))
            found.update(re.findall(r"(?:record|data) (\w+)", path.read_text(encoding="utf-8")))
        return found

    def test_what_the_tables_name_exists(self):
        page = TOP.joinpath("docs", "PROOF.md").read_text(encoding="utf-8")
        section = re.search(r"^## Statuses and results, and their causes\n(.*?)^## ", page, re.DOTALL | re.MULTILINE)[1]
        rows = [line.split(" | ") for line in section.splitlines() if line.startswith("| ") and "---" not in line]
        self.assertGreater(len(rows), 40)
        names = self.declared() | {path.name for path in (TOP / "crates").iterdir()}
        for row in rows:
            for word in re.findall(r"`([^`]+)`", row[-2]):
                for one in re.findall(r"[\w/.{},]+", word):
                    with self.subTest(row[0], name=one):
                        self.assert_exists(one, names)

    def assert_exists(self, one, names):
        if "/" not in one:
            # The error of std has no other value than that memory was refused.
            self.assertTrue(one in names or one == "AllocError", f"{one} is declared nowhere")
            return
        before, _, rest = one.partition("{")
        inner, _, after = rest.partition("}")
        for part in inner.split(","):
            self.assertTrue(TOP.joinpath("crates", before + part + after).exists(), one)


if __name__ == "__main__":
    unittest.main()
