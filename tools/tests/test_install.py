"""Tests tools/install, the manual page, the completions and the editors' files."""

import json
import os
import pathlib
import pty
import re
import shutil
import subprocess
import tempfile
import threading
import time
import unittest

import code_vectors
import documents
from error_pages import TOP

LIMITS = ["--goroutines", "--page-words", "--pages", "--regions", "--steps"]
NUMBERS = [*LIMITS, "--workers"]
OPTIONS = sorted([*NUMBERS, "--stats"])
COMMANDS = ["big", "check", "code", "emit", "record", "replay", "run", "runcode"]
FAKE = '#!/bin/sh\necho "$@"\ncat >/dev/null\necho "rgo: 2:15: type 4 NoSuchName" >&2\nexit 1\n'
TEXT = "package main\nfunc main() { zz() }\n"


def page_rows(head):
    """The rows of a table of the page on the command line by its head, as lists of cells."""
    table = TOP.joinpath("docs", "COMMAND_LINE.md").read_text(encoding="utf-8").split(head)[1].split("\n\n")[0]
    return [re.split(r" *\| *", line.strip("|").strip()) for line in table.splitlines()[1:]]


def needs(command):
    return unittest.skipUnless(shutil.which(command), f"{command} is not installed")


class Case(unittest.TestCase):
    def setUp(self):
        folder = tempfile.TemporaryDirectory()
        self.addCleanup(folder.cleanup)
        self.room = pathlib.Path(folder.name).resolve()
        self.fake = self.room / "fake"
        self.fake.write_text(FAKE)
        self.fake.chmod(0o755)
        self.file = self.room / "a file.go"
        self.file.write_text(TEXT)

    def run_it(self, *command, **variables):
        env = {name: value for name, value in os.environ.items() if name != "RGO"}
        env.update(HOME=str(self.room), **{name: str(value) for name, value in variables.items()})
        ran = subprocess.run(command, capture_output=True, text=True, env=env, cwd=self.room, timeout=300, check=False)
        return ran.returncode, ran.stdout, ran.stderr

    def install(self):
        return self.run_it(TOP / "tools" / "install", self.room / "a prefix", RGO=self.fake)


class Install(Case):
    def test_what_is_installed_works_from_there(self):
        self.assertEqual((0, ""), self.install()[::2])
        # A second installation replaces the first.
        status, out, err = self.install()
        self.assertEqual((0, ""), (status, err))
        top = self.room / "a prefix" / "lib" / "rgo"
        for name in out.splitlines():
            with self.subTest(name):
                self.assertTrue(pathlib.Path(name).exists())
                self.assertTrue(pathlib.Path(name).resolve().is_relative_to(top))
        bin_folder = self.room / "a prefix" / "bin"
        self.assertEqual((1, "run\n", "rgo: 2:15: type 4 NoSuchName\n"), self.run_it(bin_folder / "rgo", "run"))
        page = pathlib.Path("a prefix/lib/rgo/docs/errors/type-4-no-such-name.md")
        self.assertTrue(self.room.joinpath(page).is_file())
        meaning = "Nothing in scope declares this name, and it is not built in."
        explained = f"{self.file}:2:15: type 4 NoSuchName\n{TEXT.splitlines()[1]}\n{' ' * 14}^\n{meaning}\nRead on: {page}\n"
        self.assertEqual((1, "run --steps 5\n", explained), self.run_it(bin_folder / "rgor", self.file, "--steps", "5"))
        self.assertEqual((1, "", explained), self.run_it(bin_folder / "rgo-regions", self.file))
        self.assertRegex(self.run_it(bin_folder / "rgor", "--version")[1], r"\Argo, commit .*\n\Z")

    def test_documents_lead_to_what_is_installed(self):
        self.install()
        found = documents.paths(self.room / "a prefix" / "lib" / "rgo")
        self.assertGreater(len(found), 70)
        for path in found:
            with self.subTest(path.name):
                self.assertEqual([], documents.broken(path))

    def test_without_a_program(self):
        status, out, err = self.run_it(TOP / "tools" / "install", self.room / "prefix", RGO=self.room / "none")
        self.assertEqual((1, "", "install: no program at "), (status, out, err[:23]))
        self.assertFalse(self.room.joinpath("prefix").exists())

    def test_wrong_words(self):
        for words in ([], [""], ["a", "b"], ["--all"]):
            with self.subTest(words=words):
                status, out, err = self.run_it(TOP / "tools" / "install", *words, RGO=self.fake)
                self.assertEqual((64, "", "usage: tools/install PREFIX\n"), (status, out, err))

    def test_a_folder_of_another_thing_is_kept(self):
        self.room.joinpath("a prefix", "lib", "rgo").mkdir(parents=True)
        kept = self.room.joinpath("a prefix", "lib", "rgo", "notes")
        kept.touch()
        status, _, err = self.install()
        self.assertEqual((1, True), (status, "exists and is not an installation of rgo" in err))
        self.assertTrue(kept.exists())


class Manual(Case):
    def setUp(self):
        super().setUp()
        self.page = TOP.joinpath("man", "rgo.1").read_text(encoding="utf-8")

    def test_statuses_and_messages_are_those_of_the_page(self):
        section = self.page.split(".Sh EXIT STATUS\n")[1].split(".Sh ")[0]
        found = []
        for item in re.split(r"^\.It ", section, flags=re.MULTILINE)[1:]:
            messages = re.findall(r"^\.Ql (rgo: .*) :$", item, re.MULTILINE)
            found += [[item.split()[0], message] for message in messages or [""]]
        rows = page_rows("| status | line on standard error | meaning |\n")
        wanted = [[status, line.strip("`") if line.startswith("`") else ""] for status, line, _ in rows]
        self.assertEqual(wanted, found)

    def test_options_are_those_of_the_page(self):
        found = re.findall(r"^\.It Fl -([\w-]+) Ar N\n(?:.*\n)*?.*from (\d+) to (\d+), by default (\d+)\.$", self.page, re.MULTILINE)
        rows = page_rows("| option of `run` | least | most | default |\n")
        wanted = [tuple([row[0].split()[0].strip("`-"), *row[1:]]) for row in rows if row[1]]
        self.assertEqual(wanted, found)
        self.assertEqual([option.strip("-") for option in NUMBERS], sorted(name for name, *_ in found))
        self.assertEqual(["`--stats`:"], [row[0].split()[0] for row in rows if not row[1]])
        self.assertIn("\n.It Fl -stats\n", self.page)

    @needs("man")
    def test_it_is_formatted_without_warnings(self):
        status, out, err = self.run_it("man", "--warnings=w", "-l", TOP / "man" / "rgo.1", MANPAGER="cat", MANWIDTH="80")
        self.assertEqual((0, ""), (status, err))
        for command in ["check", "emit", "code"]:
            self.assertIn(f"rgo {command} [--]", out)
        self.assertIn("rgo big N [--]", out)


class Completions(Case):
    """Lines that are typed, and the words that each shell offers for the last of them."""

    LINES = [
        ("rgo ", COMMANDS),
        ("rgo r", ["record", "replay", "run", "runcode"]),
        ("rgo c", ["check", "code"]),
        ("rgo run", ["run", "runcode"]),
        ("rgo runc", ["runcode"]),
        ("rgo run --", OPTIONS),
        ("rgo run --s", ["--stats", "--steps"]),
        ("rgo run --steps ", []),
        ("rgo run --pages ", []),
        ("rgo run --w", ["--workers"]),
        ("rgo run --workers ", []),
        ("rgo run --steps 5 --", [option for option in OPTIONS if option != "--steps"]),
        ("rgo run --stats --", NUMBERS),
        ("rgo runcode --", OPTIONS),
        ("rgo runcode --w", ["--workers"]),
        ("rgo runcode --steps ", []),
        ("rgo runcode --stats --", NUMBERS),
        ("rgo record --", LIMITS),
        ("rgo record --steps ", []),
        ("rgo record --steps 5 --", [option for option in LIMITS if option != "--steps"]),
        ("rgo check --", []),
        ("rgo code --", []),
        ("rgo b", ["big"]),
        ("rgo big ", []),
        ("rgo big --", []),
        ("rgor --", ["--check"]),
        ("rgor a.go --", OPTIONS),
        ("rgor a.go --goroutines 5 --", [option for option in OPTIONS if option != "--goroutines"]),
        ("rgo-regions --", ["--function", "--list", "--picture", "--warn"]),
        ("rgo-regions --l", ["--list"]),
        ("rgo-regions --list --", ["--function"]),
        ("rgo-regions --function ", []),
        ("rgo-regions --warn --", ["--function"]),
        ("rgo-regions a.go --function main --", ["--list", "--warn"]),
        ("rgo-regions --picture a.svg --", sorted(["--journal", *LIMITS])),
        ("rgo-regions --picture a.svg a.go --pages 5 --", sorted(["--journal", *(option for option in LIMITS if option != "--pages")])),
        ("rgo-regions --picture a.svg --pages ", []),
    ]

    # Lines after which a Go file may follow.
    FILES = ["rgor ", "rgor --check ", "rgo-regions ", "rgo-regions --list ", "rgo-regions --warn ", "rgo-regions --picture a.svg "]

    def offers(self, line, words):
        raise NotImplementedError

    def check_lines(self, offered):
        self.room.joinpath("a.go").touch()
        self.room.joinpath("b.txt").touch()
        self.file.unlink()
        self.fake.unlink()
        files = [(line, ["a.go"]) for line in self.FILES]
        for line, wanted in [*self.LINES, *files]:
            with self.subTest(line):
                self.assertEqual(wanted, sorted(offered(line)))

    @needs("bash")
    def test_bash(self):
        script = f"""source '{TOP}/completions/rgo.bash'
            words=($1); [[ $1 == *' ' ]] && words+=('')
            COMP_WORDS=("${{words[@]}}"); COMP_CWORD=$((${{#words[@]}} - 1))
            _${{words[0]}}; printf '%s\\n' "${{COMPREPLY[@]}}" """
        self.check_lines(lambda line: self.run_it("bash", "-c", script, "bash", line)[1].split())

    @needs("fish")
    def test_fish(self):
        sources = "".join(f"source '{TOP}/completions/{name}.fish'; " for name in ["rgo", "rgor", "rgo-regions"])
        script = sources + "complete -C $argv[1]"

        def offered(line):
            lines = self.run_it("fish", "--no-config", "-c", script, line)[1].splitlines()
            return [offer.split("\t")[0] for offer in lines]

        self.check_lines(offered)

    @needs("zsh")
    def test_zsh(self):
        offers = self.room / "offers"
        # What is offered is noted by a function in place of compadd.
        setup = f"""fpath=('{TOP}/completions' $fpath); autoload -Uz compinit; compinit -D -u; PS1=
            compadd() {{
                local -a found
                [[ " $* " == *' -'[OAD]' '* ]] || {{ builtin compadd -O found "$@"; print -rl -- $found >> '{offers}' }}
                builtin compadd "$@"
            }}
            """
        self.room.joinpath("setup").write_text(setup)
        ours, theirs = pty.openpty()
        env = {**os.environ, "HOME": str(self.room), "TERM": "dumb"}
        shell = subprocess.Popen(["zsh", "-f", "-i"], stdin=theirs, stdout=theirs, stderr=theirs, cwd=self.room, env=env, start_new_session=True)
        os.close(theirs)
        # What the shell shows has to be read, or it waits.
        reader = threading.Thread(target=lambda: all(read_some(ours) for _ in iter(int, 1)), daemon=True)
        reader.start()

        def typed(keys):
            """Types keys and a command, and returns what was offered until the command ran."""
            offers.write_text("")
            os.write(ours, f"{keys}\x15print -r -- over >> offers\n".encode())
            for _ in range(100):
                if offers.read_text().endswith("over\n"):
                    break
                time.sleep(0.05)
            return set(offers.read_text().split()) - {"over"}

        try:
            typed("source ./setup\n")
            self.check_lines(lambda line: typed(f"{line}\t"))
        finally:
            shell.kill()
            shell.wait()
            reader.join()
            os.close(ours)


def read_some(terminal):
    try:
        return os.read(terminal, 1000)
    except OSError:
        return b""


# Lines of code texts, and how Vim shows them: the parts with the groups of their colours.
SHOWN = [
    ("struct int chan.[]*N", "Statement:struct Type:int_chan.[]*N"),
    ("global new int", "Statement:global Constant:new Type:int"),
    ("func f 1 *r1 r1", "Statement:func Identifier:f Constant:1 Type:*r1_ Special:r1"),
    ("func f 0 - -", "Statement:func Identifier:f Constant:0 Type:-_ Special:-"),
    ("var []int G", "Statement:var Type:[]int Special:G"),
    ("entry -[r0,r12]", "Statement:entry DiffDelete:-[r0,r12]"),
    (
        "0 @17 +[r0] call v1 v0(v2,v3) R[r0,G,-] P[r1] -[]",
        "LineNr:0 Comment:@17 DiffAdd:+[r0] Statement:call Identifier:v1 Identifier:v0(v2,v3) Special:R[r0,G,-]"
        " DiffChange:P[r1] Comment:-[]",
    ),
    (
        "1 @0 +[] branch v0 2 -[r0] 3 -[]",
        "LineNr:1 Comment:@0 Comment:+[] Statement:branch Identifier:v0 Constant:2 DiffDelete:-[r0] Constant:3"
        " Comment:-[]",
    ),
    ("2 @0 +[] print -[]", "LineNr:2 Comment:@0 Comment:+[] Statement:print Comment:-[]"),
    (
        r'3 @0 +[] print " v1\"",v1 -[]',
        r'LineNr:3 Comment:@0 Comment:+[] Statement:print Constant:"_v1 Special:\" Constant:" Identifier:,v1'
        " Comment:-[]",
    ),
    ("end", "Statement:end"),
    # From the first part that has no form the line is an error.
    ("end ", "Error:end_"),
    ("0 @0 +[] copy v1 v0", "LineNr:0 Comment:@0 Comment:+[] Statement:copy Identifier:v1 Error:_v0"),
    ("0 @0 +[] nil v1x -[]", "LineNr:0 Comment:@0 Comment:+[] Statement:nil Error:_v1x_-[]"),
    ("0 @0 +[] nil v1 -[] -[]", "LineNr:0 Comment:@0 Comment:+[] Statement:nil Identifier:v1 Comment:-[] Error:_-[]"),
    ("func go 0 - -", "Statement:func Error:_go_0_-_-"),
]
# What has no form but is shown as if it had one: the order and the size of numbers.
NOT_SEEN = re.compile(r"^1 @117|\[r0,r0\]|\[r1,r0\]|\d{10}")
# Writes the parts of each line with their groups to the file `found`. A blank of a part is written as `_`.
PARTS = """
let found = []
for l in range(1, line('$'))
  let parts = []
  let last = ''
  for c in range(1, col([l, '$']) - 1)
    let group = synIDattr(synIDtrans(synID(l, c, 0)), 'name')
    let byte = getline(l)[c - 1]
    if group != last
      let parts += group == '' ? [] : [group . ':']
      let last = group
    endif
    if group != ''
      let parts[-1] .= byte == ' ' ? '_' : byte
    endif
  endfor
  let found += [join(parts)]
endfor
call writefile(found, 'found')
"""


class Editors(Case):
    def vim(self, script, **variables):
        """What a script writes to the file `found` in Vim, which looks for its files in the installation."""
        self.install()
        folder = str(self.room / "a prefix" / "share" / "vim" / "vimfiles").replace(" ", "\\ ")
        self.room.joinpath("script.vim").write_text(f"set encoding=utf-8 rtp^={folder}\n{script}\nqall!\n")
        status, _, err = self.run_it("vim", "-Nu", "NONE", "-es", "-S", self.room / "script.vim", **variables)
        self.assertEqual(0, status, err)
        return self.room.joinpath("found").read_text(encoding="latin-1").splitlines()

    def groups(self, lines):
        """How Vim shows these lines of a code text, after its first line."""
        self.room.joinpath("text").write_text("rgo code 1\n" + "".join(line + "\n" for line in lines), encoding="utf-8")
        first, *found = self.vim(f"filetype on\nsyntax on\nedit ++ff=unix text\n{PARTS}")
        self.assertEqual(("PreProc:rgo_code_1", len(lines)), (first, len(found)))
        return zip(lines, found)

    @needs("vim")
    def test_vim_jumps_to_the_place(self):
        file = str(self.file).replace(" ", "\\ ")
        errors = "map(getqflist(), {_, e -> join([bufname(e.bufnr), e.lnum, e.col, e.valid, e.text], '|')})"
        script = f"edit {file}\ncompiler rgo\nsilent make!\ncall writefile({errors}, 'found')\n"
        found = self.vim(script, PATH=f"{self.room}/a prefix/bin:{os.environ['PATH']}")
        self.assertEqual([f"{self.file}|2|15|1|type 4 NoSuchName"], found)

    @needs("vim")
    def test_vim_knows_code_texts_by_their_first_line(self):
        self.room.joinpath("a.txt").write_text("rgo code 1\n")
        self.room.joinpath("b.txt").write_text("\nrgo code 1\n")
        names = ["a.txt", "b.txt", "a.txt"]
        script = "".join(f"edit {name}\ncall writefile([&filetype], 'found', 'a')\n" for name in names)
        self.assertEqual(["rgocode", "text", "rgocode"], self.vim(f"filetype on\n{script}"))

    @needs("vim")
    def test_vim_shows_code_texts(self):
        for (line, found), (_, wanted) in zip(self.groups([line for line, _ in SHOWN]), SHOWN):
            with self.subTest(line):
                self.assertEqual(wanted, found)

    @needs("vim")
    def test_vim_shows_lines_without_form_as_errors(self):
        files = sorted(code_vectors.TEXTS.glob("*.code"))
        texts = [line for path in files for line in path.read_text(encoding="ascii").splitlines()[1:]]
        right = [line for edits in code_vectors.WITH_FORM.values() for edit in edits for line in edit.splitlines()]
        edits = [edit for edits in code_vectors.WITHOUT_FORM.values() for edit in edits]
        wrong = [edit[:-1] for edit in edits if edit != "\n" and edit.count("\n") == 1 and not NOT_SEEN.search(edit)]
        self.assertGreater(len(wrong), 100)
        for n, (line, found) in enumerate(self.groups([*texts, *right, *wrong])):
            with self.subTest(line):
                self.assertEqual(n >= len(texts) + len(right), "Error:" in found)

    def test_vs_code_finds_the_place(self):
        self.install()
        tasks = json.loads(TOP.joinpath("editors", "vscode", "tasks.json").read_text())["tasks"]
        self.assertEqual([["--check", "${file}"], ["${file}"]], [task["args"] for task in tasks])
        for task in tasks:
            words = [word.replace("${file}", str(self.file)) for word in task["args"]]
            _, _, err = self.run_it(self.room / "a prefix" / "bin" / task["command"], *words)
            pattern = task["problemMatcher"]["pattern"]
            found = [re.match(pattern["regexp"], line) for line in err.splitlines()]
            places = [[match[pattern[part]] for part in ("file", "line", "column", "message")] for match in found if match]
            self.assertEqual([[str(self.file), "2", "15", "type 4 NoSuchName"]], places)
