"""Tests what editors have for the sources: the index of definitions, and how Vim and VS Code show and use them."""

import json
import pathlib
import re
import shutil
import subprocess
import tempfile
import unittest

from error_pages import TOP

VSCODE = TOP / "editors" / "vscode" / "rattle"
CODE = """\
//! A module.
ghost use Rattle.x.specs.Sizes.{Size, ◌≡◌};

pub(crate) const MOST: usize = 64;

#[derive(Drop)]
pub enum Answer {
    /// Nothing.
    None,
    Some(u64),
    Named { at: usize },
}

impl Answer {
    ghost view = { λ a. a };

    pub fn size(&self) -> u64
        ensures is { result ≡ record { n = 3 }.n }
    {
        let end = "}"; // fn no_function
        3
    }
}
"""
LOGIC = """\
-- no : comment
use Rattle.x.specs.Sizes.{Size}

abbrev pub sum_of : List ℕ → ℕ
sum_of [] = 0
sum_of (n ∷ ns) = n + sum_of ns

pub record Size (z : ℕ) : Type 0 where
  pub words : ℕ
  -- the rest
  pub rest : words ≤ z

pub data Choice : Type 0 where
  First : Choice
  Second : (n : ℕ)
      → Choice

module _ (n : ℕ) where
  pub inner : n ≡ n
  inner = helper n
    where
      helper : (m : ℕ) → m ≡ m
      helper m = refl
"""


def needs(command):
    return unittest.skipUnless(shutil.which(command), f"{command} is not installed")


class Case(unittest.TestCase):
    def setUp(self):
        folder = tempfile.TemporaryDirectory()
        self.addCleanup(folder.cleanup)
        self.room = pathlib.Path(folder.name).resolve()

    def run_it(self, *words, **given):
        ran = subprocess.run(words, capture_output=True, text=True, timeout=300, check=False, cwd=self.room, **given)
        return ran.returncode, ran.stdout, ran.stderr

    def repository(self):
        """A repository with these two files, and the tool."""
        self.room.joinpath("tools").mkdir()
        for name in ("tags", "command.py"):
            shutil.copy(TOP / "tools" / name, self.room / "tools" / name)
        for part, name, text in [("src", "lib.rt", CODE), ("specs", "Sizes.antt", LOGIC), ("proofs", "Answers.antt", LOGIC)]:
            folder = self.room / "crates" / "x" / part
            folder.mkdir(parents=True)
            folder.joinpath(name).write_text(text, encoding="utf-8")

    def index(self, top, *words):
        """The entries of an index that the tool writes: a name, a file, a line and a kind each."""
        self.assertEqual((0, "", ""), self.run_it(top / "tools" / "tags", *words))
        lines = pathlib.Path(*words or [top / "tags"]).read_text(encoding="utf-8").splitlines()
        cells = [line.split("\t") for line in lines if not line.startswith("!")]
        return [(name, where, int(at.removeprefix("line:")), kind, pattern) for name, where, pattern, kind, at, _ in cells]


class Index(Case):
    def test_what_is_defined(self):
        self.repository()
        found = {name: (where, line, kind) for name, where, line, kind, _ in self.index(self.room)}
        code, logic = "crates/x/src/lib.rt", "crates/x/specs/Sizes.antt"
        wanted = {"MOST": (code, 4, "d"), "Answer": (code, 7, "g"), "None": (code, 9, "e"), "Some": (code, 10, "e")}
        wanted |= {"Named": (code, 11, "e"), "view": (code, 15, "m"), "size": (code, 17, "f")}
        wanted |= {"sum_of": (logic, 4, "f"), "Size": (logic, 8, "s"), "words": (logic, 9, "m"), "rest": (logic, 11, "m")}
        wanted |= {"Choice": (logic, 13, "s"), "First": (logic, 14, "m"), "Second": (logic, 15, "m"), "inner": (logic, 19, "f")}
        self.assertEqual(wanted, found)

    def test_each_entry_is_the_line_that_it_says(self):
        entries = self.index(TOP, self.room / "tags")
        self.assertEqual(entries, sorted(entries, key=lambda entry: entry[0].encode()))
        texts = {where: (TOP / where).read_text(encoding="utf-8").splitlines() for _, where, *_ in entries}
        for name, where, line, _, pattern in entries:
            shown = texts[where][line - 1]
            self.assertEqual(f'/^{shown}$/;"'.replace("\\", ""), pattern.replace("\\", ""))
            self.assertIn(name, shown)

    def test_all_functions_of_a_crate_are_there(self):
        found = {(name, where) for name, where, _, _, _ in self.index(TOP, self.room / "tags")}
        for path in sorted((TOP / "crates" / "rgo_core" / "src").rglob("*.rt")):
            where = str(path.relative_to(TOP))
            functions = re.findall(r"^\s*pub fn (\w+)", path.read_text(encoding="utf-8"), re.MULTILINE)
            self.assertLessEqual({(name, where) for name in functions}, found)

    def test_an_index_that_cannot_be_written(self):
        self.repository()
        file = self.room / "no folder" / "tags"
        ending = (74, "", f"tags: cannot write {file}: No such file or directory\n")
        self.assertEqual(ending, self.run_it(self.room / "tools" / "tags", file))


class Vim(Case):
    def vim(self, name, text, script):
        """What a script writes to the file `found` in Vim, which shows a file with this text."""
        self.repository()
        self.run_it(self.room / "tools" / "tags")
        self.room.joinpath(name).write_text(text, encoding="utf-8")
        head = f"set encoding=utf-8 rtp^={TOP / 'editors' / 'vim'}\nfiletype plugin on\nsyntax on\nedit {name}\n"
        self.room.joinpath("script.vim").write_text(f"{head}{script}\nqall!\n", encoding="utf-8")
        status, _, err = self.run_it("vim", "-Nu", "NONE", "-es", "-S", self.room / "script.vim")
        self.assertEqual(0, status, err)
        return self.room.joinpath("found").read_text(encoding="utf-8").splitlines()

    def groups(self, name, text, words):
        """How these words are shown, where each stands first."""
        shown = "synIDattr(synID(line('.'), col('.'), 1), 'name')"
        search = "".join(f"call cursor(1, 1)\ncall search('{word}', 'c')\ncall add(g:all, {shown})\n" for word in words)
        return self.vim(name, text, f"let g:all = []\n{search}call writefile(g:all, 'found')\n")

    @needs("vim")
    def test_logic_is_shown(self):
        words = ["no : comment", "use", "abbrev", "Size", "[]", "0$", "refl"]
        wanted = ["anttComment", "anttImport", "anttDefine", "anttType", "", "anttNumber", ""]
        self.assertEqual(wanted, self.groups("a.antt", LOGIC, words))

    @needs("vim")
    def test_clauses_are_shown_in_code(self):
        words = ["ensures", "record", "= 3", "3 }", "let end", "Rattle"]
        wanted = ["rattleClause", "anttDefine", "anttOperator", "anttNumber", "rustKeyword", "anttType"]
        self.assertEqual(wanted, self.groups("a.rt", CODE, words))

    @needs("vim")
    def test_a_jump_goes_to_the_definition(self):
        text = "x : sum_of [] ≡ 0\n"
        script = "call cursor(1, 6)\nexecute \"normal! \\<C-]>\"\ncall writefile([expand('%'), line('.')], 'found')\n"
        self.assertEqual(["crates/x/specs/Sizes.antt", "4"], self.vim("a.antt", text, script))


class VsCode(Case):
    def grammar(self, name):
        return json.loads((VSCODE / "syntaxes" / f"{name}.tmLanguage.json").read_text(encoding="utf-8"))

    def patterns(self, grammar):
        """All patterns of a grammar, also those inside others."""
        inner = [*grammar.get("patterns", []), *grammar.get("repository", {}).values()]
        return [grammar, *[found for one in inner for found in self.patterns(one)]]

    def test_what_the_package_names_is_there(self):
        package = json.loads((VSCODE / "package.json").read_text(encoding="utf-8"))
        has = package["contributes"]
        files = [package["main"], *[one["configuration"] for one in has["languages"]], *[one["path"] for one in has["grammars"]]]
        self.assertEqual([], [file for file in files if not VSCODE.joinpath(file).is_file()])
        names = [self.grammar(one["language"])["scopeName"] for one in has["grammars"]]
        self.assertEqual([one["scopeName"] for one in has["grammars"]], names)

    def test_patterns_are_well_formed(self):
        for name in ("antt", "rattle"):
            for pattern in self.patterns(self.grammar(name)):
                for part in ("match", "begin", "end"):
                    re.compile(pattern.get(part, ""))

    def test_words_are_those_of_vim(self):
        vim = (TOP / "editors" / "vim" / "syntax" / "antt.vim").read_text(encoding="utf-8")
        wanted = {word for line in re.findall(r"^syn keyword \w+ (.*)$", vim, re.MULTILINE) for word in line.split()}
        lists = [pattern["match"] for pattern in self.grammar("antt")["patterns"] if pattern["match"].startswith("\\b(?:")]
        self.assertEqual(wanted, {word for text in lists for word in re.findall(r"\(\?:([\w|]+)\)", text)[0].split("|")})

    @needs("node")
    def test_a_name_leads_to_its_definitions(self):
        self.repository()
        self.run_it(self.room / "tools" / "tags")
        script = f"const e = require({json.dumps(str(VSCODE / 'extension.js'))});"
        folder = self.room / "crates" / "x" / "proofs"
        script += "".join(f"console.log(JSON.stringify(e.definitionsOf({json.dumps(name)}, {json.dumps(str(folder))})));" for name in ("sum_of", "zz"))
        status, out, err = self.run_it("node", "-e", script)
        self.assertEqual((0, ""), (status, err))
        wanted = [{"file": str(self.room / "crates" / "x" / "specs" / "Sizes.antt"), "line": 3}]
        self.assertEqual([wanted, []], [json.loads(line) for line in out.splitlines()])
