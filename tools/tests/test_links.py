"""Tests the links of the repository's documents, and what tools/links finds wrong with them."""

import pathlib
import re
import tempfile
import unittest

import documents
from crates import crates
from error_pages import TOP


class Documents(unittest.TestCase):
    def test_links_lead_to_files_and_headings(self):
        found = documents.paths()
        self.assertGreater(len(found), 80)
        for path in found:
            with self.subTest(str(path.relative_to(TOP))):
                self.assertEqual([], documents.broken(path))


    def test_each_crate_has_a_row_that_links_its_page(self):
        text = TOP.joinpath("docs", "ARCHITECTURE.md").read_text(encoding="utf-8")
        found = re.findall(r"^\| \[`(\w+)`\]\(\.\./crates/(\w+)/README\.md\) \|", text, re.MULTILINE)
        self.assertEqual(sorted((name, name) for name in crates()), sorted(found))

    def test_what_is_named_is_linked(self):
        for name in documents.LINKED:
            with self.subTest(name):
                self.assertEqual([], documents.unlinked(TOP / name), "tools/links --write makes these links")
                self.assertEqual([], documents.missing(TOP / name))


    def test_what_is_named_with_its_place_is_there(self):
        for path in documents.paths():
            with self.subTest(str(path.relative_to(TOP))):
                self.assertEqual([], documents.misnamed(path))
                self.assertEqual([], documents.absent(path))

    def test_no_merge_is_left(self):
        for path in documents.paths():
            with self.subTest(str(path.relative_to(TOP))):
                self.assertEqual([], documents.conflicts(path))


class Links(unittest.TestCase):
    def setUp(self):
        folder = tempfile.TemporaryDirectory()
        self.addCleanup(folder.cleanup)
        self.top = pathlib.Path(folder.name).resolve()
        self.top.joinpath("docs").mkdir()
        self.top.joinpath("crates", "low", "src").mkdir(parents=True)
        for name in ["a.rt", "b.rt"]:
            self.top.joinpath("crates", "low", "src", name).touch()
        self.page = self.top / "docs" / "PAGE.md"
        self.other = self.top / "docs" / "OTHER.md"
        self.other.write_text("# The other page\n\n## `a` and b\n\n## Twice\n\n## Twice\n\n```\n# no heading\n```\n")

    def written(self, text):
        self.page.write_text(text)
        return self.page

    def test_links(self):
        text = "[a](OTHER.md) [b](https://go.dev/ref) `s[0](1)`\n[c\nd](#here)\n```\n[e](none)\n```\n"
        self.assertEqual(["OTHER.md", "#here"], documents.links(text))

    def test_anchors(self):
        self.assertEqual({"the-other-page", "a-and-b", "twice", "twice-1"}, documents.anchors(self.other.read_text()))

    def test_links_that_lead_nowhere(self):
        good = "[a](OTHER.md) [b](OTHER.md#twice-1) [c](#here) [d](../crates/low)\n\n## Here\n"
        self.assertEqual([], documents.broken(self.written(good)))
        for link in ["NONE.md", "OTHER.md#twice-2", "OTHER.md#no-heading", "#there", "../crates/high", "../crates/low#here"]:
            with self.subTest(link):
                self.assertEqual([link], documents.broken(self.written(f"{good}\n[e]({link})\n")))

    def test_names_become_links(self):
        text = "A file `low/src/a.rt`, both `low/src/{a,b}.rt`, `low/src/{a,c}.rt`, `docs/OTHER.md`, `1/2` and [`crates/low/src/a.rt`](x).\n"
        wanted = (
            "A file [`low/src/a.rt`](../crates/low/src/a.rt), both [`low/src/{a,b}.rt`](../crates/low/src), `low/src/{a,c}.rt`, [The other\n"
            "page](OTHER.md), `1/2` and [`crates/low/src/a.rt`](x).\n"
        )
        self.assertEqual(["low/src/a.rt", "low/src/{a,b}.rt", "docs/OTHER.md"], documents.unlinked(self.written(text), self.top))
        self.assertEqual(wanted, documents.with_links(self.page, self.top))
        self.assertEqual([], documents.unlinked(self.written(wanted), self.top))
        self.assertEqual(wanted, documents.with_links(self.page, self.top))

    def test_names_of_no_file(self):
        text = "`low/src/a.rt`, `crates/low/src/{a,b}.rt`, `low/src/c.rt`, `low/src/{a,c}.rt`, `high/src/a.rt` and `low/a`.\n"
        self.assertEqual(["low/src/c.rt", "low/src/{a,c}.rt"], documents.missing(self.written(text), self.top))

    def test_links_with_the_name_of_another_file(self):
        good = "[a.rt](../crates/low/src/a.rt), [`low/src/b.rt`](../crates/low/src/b.rt), [what a.rt is](OTHER.md), [a](x.rt)\n"
        self.assertEqual([], documents.misnamed(self.written(good)))
        wrong = ["[a.rt](../crates/low/src/b.rt)", "[`low/src/a.rt`](../crates/low/src)", "[`A.antt`](../crates/low/specs/B.antt)"]
        self.assertEqual(wrong, documents.misnamed(self.written(good + " ".join(wrong))))

    def test_names_that_are_not_in_their_place(self):
        specs = self.top / "crates" / "low" / "specs"
        specs.joinpath("words").mkdir(parents=True)
        specs.joinpath("Lists.antt").write_text("pub record Sorted\n  pub least : Item\n")
        specs.joinpath("words", "Front.antt").touch()
        file, folder = "[Lists.antt](../crates/low/specs/Lists.antt)", "[`low/specs`](../crates/low/specs)"
        good = [
            f"`Sorted`, `least` in\n{file}, `x` of `Other` and `Sorted.least` in {file}; and `Nothing`.",
            f"{file}: lists that are `Sorted`, which `sort` returns. `Other` is elsewhere.",
            f"| {folder}: `Lists`, `words/Front`, `words/Fr*`; small examples are in `Lists.antt` | `Other` |",
            f"In {folder}, as `Lists`. `Other` too.\n\n- `Other`",
        ]
        for text in good:
            with self.subTest(text):
                self.assertEqual([], documents.absent(self.written(text)))
        wrong = {
            f"`Sorted`, `most` in\n{file}": ["most is not in ../crates/low/specs/Lists.antt"],
            f"`Other` and `Sorted` in {file}": ["Other is not in ../crates/low/specs/Lists.antt"],
            f"{file}: `Sorted`; `Refuses`,\nthe first": ["Refuses is not in ../crates/low/specs/Lists.antt"],
            f"| {folder}: `Lists`, `Front`, `words/Back` |": ["Front is not in ../crates/low/specs", "words/Back is not in ../crates/low/specs"],
            f"{folder}: `Lists`,\nand small examples in `Examples`.": ["Examples is not in ../crates/low/specs"],
        }
        for text, found in wrong.items():
            with self.subTest(text):
                self.assertEqual(found, documents.absent(self.written(text)))

    def test_what_a_merge_leaves(self):
        left = ["<<<<<<< HEAD", "||||||| 1a2b3c", ">>>>>>> 1a2b3c"]
        self.assertEqual(left, documents.conflicts(self.written("\n".join(["# A", left[0], "a", left[1], "=======", "b", left[2], ""]))))
        self.assertEqual([], documents.conflicts(self.written("Title\n=======\n\n<<<<<<<< and `<<<<<<< HEAD` within a line\n")))

    def test_only_what_has_changed_is_laid_out_anew(self):
        text = "Short\nlines.\n\n- one\n  two\n- `low/src/a.rt`\n  and more\n\n| `low/src/b.rt` |\n\n```\n`low/src/a.rt`\n```\n"
        wanted = text.replace("- `low/src/a.rt`\n  and", "- [`low/src/a.rt`](../crates/low/src/a.rt) and")
        wanted = wanted.replace("| `low/src/b.rt`", "| [`low/src/b.rt`](../crates/low/src/b.rt)")
        self.assertEqual(wanted, documents.with_links(self.written(text), self.top))


if __name__ == "__main__":
    unittest.main()
