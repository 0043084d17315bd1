"""The crates of the repository: their order, what each depends on, and which of them a change touches."""

import pathlib
import subprocess

TOP = pathlib.Path(__file__).resolve().parent.parent
# The folders of a crate that its proof reads.
PARTS = ("src", "specs", "proofs")


def read_crates(text):
    """The crates of a crates.txt in its order, which is that of the layers, each with the names that it lists."""
    found = {}
    for line in text.splitlines():
        if line and not line.startswith("#"):
            name, _, below = line.partition(":")
            found[name.split()[0]] = below.split()
    return found


def crates():
    """The crates of the repository, each with the names that it lists."""
    return read_crates((TOP / "crates.txt").read_text(encoding="utf-8"))


def lowest_first(every):
    """The names of crates, each after those that it depends on, and otherwise in their order."""
    found = {}

    def visit(crate):
        if crate in every and crate not in found:
            for below in every[crate]:
                visit(below)
            found[crate] = None

    for crate in every:
        visit(crate)
    return list(found)


def paths(every):
    """How many paths lead down from each crate. The toolchain walks all of them, and reads the files on them."""
    found = {}
    for crate in lowest_first(every):
        found[crate] = 1 + sum(found[below] for below in every[crate] if below in every)
    return found


def with_those_above(names):
    """These crates and those that depend on them, each after those that it depends on."""
    every, found = crates(), set(names)
    while True:
        more = {crate for crate, below in every.items() if found & set(below)} - found
        if not more:
            return [crate for crate in lowest_first(every) if crate in found]
        found |= more


def git(*words):
    return subprocess.run(["git", *words], cwd=TOP, capture_output=True, check=True, text=True).stdout


def changed(commit):
    """The crates whose proofs read something that differs from what it was at a commit, in the order of crates.txt."""
    files = git("diff", "--name-only", commit).splitlines() + git("ls-files", "-o", "--exclude-standard").splitlines()
    places = [pathlib.PurePath(name).parts for name in files]
    found = {place[1] for place in places if len(place) > 3 and place[0] == "crates" and place[2] in PARTS}
    now, before = crates(), read_crates(git("show", f"{commit}:crates.txt"))
    return [crate for crate in now if crate in found or now[crate] != before.get(crate)]
