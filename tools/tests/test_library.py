"""Tests docs/LIBRARY.md: that its program names public items of crates that exist, and that its other parts fit these."""

import re
import subprocess
import unittest

import error_pages
from crates import crates
from error_pages import TOP

PAGE = TOP.joinpath("docs", "LIBRARY.md").read_text(encoding="utf-8")
BLOCKS = error_pages.BLOCK.findall(PAGE)
USED = re.compile(r"^(?:pub )?use (?:\w+::)*?(\w+)::(?:\{([^}]*)\}|(\w+));", re.MULTILINE)


def block(language, beginning=""):
    return next(text for found, text in BLOCKS if found == language and text.startswith(beginning))


def imports(text):
    """The items that a program imports from crates of this repository, by crate."""
    found = {}
    for crate, several, one in USED.findall(text):
        if crate in crates():
            found.setdefault(crate, []).extend(re.findall(r"\w+", several or one))
    return found


def exported(crate):
    """The names that a crate's `lib.rt` exports."""
    text = TOP.joinpath("crates", crate, "src", "lib.rt").read_text(encoding="utf-8")
    found = re.findall(r"^pub use [\w:]+?(?:\{([^}]*)\}|(\w+));", text, re.MULTILINE)
    return {name for several, one in found for name in re.findall(r"\w+", several or one)}


def below(names):
    """These crates and all that they depend on."""
    every, found = crates(), set()
    while names:
        name, *names = names
        if name in every and name not in found:
            found.add(name)
            names += every[name]
    return found


class Library(unittest.TestCase):
    def test_the_program_names_public_items(self):
        found = imports(block("rust"))
        self.assertLessEqual({"rgo_run", "rgo_flow", "rgo_summaries", "rgo_code_text", "rgo_checker"}, set(found))
        for crate, items in found.items():
            with self.subTest(crate):
                self.assertEqual([], [item for item in items if item not in exported(crate)])

    def test_the_calls_of_the_table_are_made(self):
        rows = re.findall(r"^\| `(\w+)\(.*?\)` \| `(\w+)` \|", PAGE, re.MULTILINE)
        self.assertEqual(["lower_text", "live", "summaries", "read_code", "check_code"], [call for call, _ in rows])
        for call, crate in rows:
            with self.subTest(call):
                self.assertIn(call, imports(block("rust"))[crate])
                self.assertRegex(block("rust"), rf"\b{call}\(")
                sources = TOP.joinpath("crates", crate, "src").glob("*.rt")
                heads = [text for path in sources for text in re.findall(rf"^pub fn {call}\((.*?)\)", path.read_text(encoding="utf-8"), re.M)]
                self.assertEqual(1, len(heads))
                arguments = re.search(rf"`{call}\((.*?)\)`", PAGE)[1]
                self.assertEqual(arguments, ", ".join(re.findall(r"(\w+):", heads[0])))

    def test_the_line_of_the_crate_names_what_is_imported(self):
        name, *listed = block("", "analyses:").split()
        self.assertEqual(sorted(imports(block("rust"))), listed)

    def test_the_command_prints_the_crates_below(self):
        ran = subprocess.run(["sh", "-c", block("sh")], cwd=TOP, capture_output=True, text=True, check=True)
        wanted = below(["rgo_checker", "rgo_code_text"])
        self.assertEqual((sorted(wanted), ""), (sorted(ran.stdout.split()), ran.stderr))
        seen = set()
        for crate in ran.stdout.split():
            self.assertEqual([], [one for one in crates()[crate] if one in wanted and one not in seen])
            seen.add(crate)


if __name__ == "__main__":
    unittest.main()
