"""Tests region_runs, the runs of code texts that are independent of the program, and region_pictures, which draws them:
both by hand, and region_runs beside the program, for all programs that are here."""

import pathlib
import random
import re
import subprocess
import unittest
import xml.etree.ElementTree

import code_text
import error_pages
import go_programs
import region_events
import region_pictures
import region_runs
import test_explain
from code_vectors import TEXTS, TOP

FIELD = (TEXTS / "field.code").read_bytes()
# Programs that end in each way, and goroutines that wait for each other in each way. A line that begins with a blank
# continues the one before.
PROGRAMS = """
func main() { var x *N; x.v = 1 }
func main() { var x *N; fmt.Println(x.v) }
func main() { s := make([]int, 2); fmt.Println(s[1], s[len(s)]) }
func main() { var s []int; s[0] = 1 }
func main() { a := 7; b := 0; fmt.Println(a / b) }
func main() { a := 7; b := 0; fmt.Println(a % b) }
func main() { n := 0 - 1; s := make([]int, n); fmt.Println(len(s)) }
func main() { n := 0 - 1; c := make(chan int, n); c <- 1 }
func main() { c := make(chan int, 1); close(c); c <- 1 }
func main() { c := make(chan int, 1); close(c); close(c) }
func main() { var c chan int; close(c) }
func main() { var c chan int; c <- 1 }
func f(c chan *N) { c <- &N{1, nil} }; func main() { var c chan *N; go f(c); x := <-c; fmt.Println(x.v) }
func f(n int) int { return f(n + 1) }; func main() { fmt.Println(f(0)) }
func main() { for { } }
func f() { go f(); go f() }; func main() { f(); for { } }
func main() { a := 0 - 9223372036854775807; a--; fmt.Println(a, -a, a / -1, a % -1, a - 1, -7 / 2, -7 % 2, a * 3) }
func main() { n := 254; s := make([]bool, n); fmt.Println(len(s), s[0]);
  n++; c := make(chan bool, n); close(c); fmt.Println(<-c) }
func main() { n := 256; s := make([]bool, n); fmt.Println(len(s), s[0]) }
func main() { n := 16384; s := make([]int, n); s[n-1] = 9; fmt.Println(len(s), s[n-1], s[n/2]) }
func main() { n := 16385; s := make([]int, n); fmt.Println(len(s)) }
func main() { c := make(chan int, 300); for i := 0; i < 300; i++ { c <- i }; s := 0;
  for i := 0; i < 300; i++ { s += <-c }; fmt.Println(s) }
func main() { x := &N{1, nil}; s := make([]int, 257); y := &N{2, x}; s[256] = y.p.v; fmt.Println(s[256], s[255]) }
func f(a, b *N, c chan int) { c <- a.v + b.v; c <- 1 }
  func main() { x := &N{21, nil}; c := make(chan int); go f(x, x, c); fmt.Println(<-c) }
func f(c, d chan int, n int) { for i := 0; i < n; i++ { c <- i + <-d }; close(c) }
  func main() { c := make(chan int); d := make(chan int, 3); go f(c, d, 600);
  for i := 0; i < 600; i++ { d <- i; fmt.Println(<-c) }; fmt.Println(<-c) }
func f(c chan *N, n int) { c <- &N{n, nil} }
  func main() { c := make(chan *N); for i := 0; i < 9; i++ { go f(c, i) };
  for i := 0; i < 9; i++ { x := <-c; fmt.Println(x.v) } }
func f(c chan *N, d chan int) { x := <-c; d <- x.v }
  func main() { c := make(chan *N); d := make(chan int); for i := 0; i < 9; i++ { go f(c, d) };
  for i := 0; i < 9; i++ { c <- &N{i, nil}; fmt.Println(<-d) } }
"""


def programs():
    """The texts of these programs."""
    head = 'package main\nimport "fmt"\ntype N struct { v int; p *N }\n'
    return [head + text.replace("}; func", "}\nfunc") for text in re.split(r"\n(?! )", PROGRAMS.strip())]


def code_of(text):
    code = code_text.read(text)
    if isinstance(code, int):
        raise AssertionError(f"line {code} has no form")
    return code


def ran_of(text, **limits):
    """The run of a code text, and what it prints."""
    lines = []
    ran = region_runs.run(code_of(text), region_runs.Limits(**limits), lines.append)
    return ran, b"".join(lines)


class ByHand(unittest.TestCase):
    """Runs of code texts, worked out by hand."""

    def test_one_object(self):
        ran, printed = ran_of(FIELD)
        self.assertEqual((b"0\n", region_runs.EXIT, 5), (printed, ran.end, ran.steps))
        self.assertEqual("regions 1 removed 1 pages 1 returned 1 objects 1 goroutines 1", ran.counts())
        (region,) = ran.regions
        self.assertEqual((76, "main", 0, 0, [0], 3, 1), tuple(getattr(region, name) for name in NAMES))

    def test_limits(self):
        for limits, end, steps in [
            ({"pages": 1, "regions": 1, "steps": 6, "goroutines": 1}, region_runs.EXIT, 5),
            ({"steps": 5}, region_runs.EXIT, 5),
            ({"pages": 0}, region_runs.PAGES_SPENT, 0),
            ({"page_words": 0}, region_runs.TOO_LARGE, 0),
            ({"regions": 0}, region_runs.REGIONS_SPENT, 0),
        ]:
            with self.subTest(limits):
                ran, _ = ran_of(FIELD, **limits)
                self.assertEqual((end, steps), (ran.end, ran.steps))

    def test_steps_are_looked_at_after_a_round(self):
        text = b"rgo code 1\nfunc main 0 - -\nentry -[]\n0 @0 +[] jump 0 -[]\nend\n"
        for limit, steps in [(1, 1000), (1000, 1000), (1001, 2000)]:
            ran, _ = ran_of(text, steps=limit)
            self.assertEqual((region_runs.STEPS_SPENT, steps), (ran.end, ran.steps))

    def test_what_the_rules_exclude(self):
        for old, new in [
            (b"copy v1 v0 -[]", b"copy v1 v0 -[r0]"),
            (b"+[r0] new", b"+[] new"),
            (b"print v2 -[]", b"print v2 -[r0]"),
        ]:
            with self.subTest(new), self.assertRaises(region_runs.Fault):
                self.assertIn(old, FIELD)
                ran_of(FIELD.replace(old, new))

    def test_options(self):
        self.assertEqual(region_runs.Limits(), region_runs.limits_of({}))
        found = region_runs.limits_of({"--pages": "0065536", "--page-words": "256", "--steps": "1", "--regions": "2"})
        self.assertEqual(region_runs.Limits(steps=1, pages=65536, page_words=256, regions=2), found)
        wrong = ["pages 0", "pages 65537", "pages ", "page-words 15", "page-words 4097"]
        wrong += ["steps -1", "regions +1", "steps ²"]
        for words in wrong:
            option, word = words.split(" ")
            with self.subTest(words):
                self.assertIsNone(region_runs.limits_of({f"--{option}": word}))
        self.assertIsNone(region_runs.limits_of({"--pages": "65536", "--page-words": "257"}))


NAMES = ["place", "function", "name", "created", "pages", "removed", "objects"]


class Case(unittest.TestCase):
    """What is tested beside the program. It is the one that is built, or what the variable RGO names."""

    @classmethod
    def setUpClass(cls):
        # Without this the first run would build the program, which takes an hour.
        cls.program = pathlib.Path(error_pages.program()).resolve()
        if not cls.program.is_file():
            raise AssertionError("no program is built at crates/rgo/out/rgo, and the variable RGO names none")

    def setUp(self):
        self.statuses = set()

    def rgo(self, text, *words):
        return subprocess.run([self.program, *words], input=text, capture_output=True, timeout=300, check=False)

    def check_runs(self, text, *all_limits):
        """Runs a program with limits, and compares print, end and counts. A text that is rejected is no program."""
        emitted = self.rgo(text, "emit")
        if emitted.returncode == 1:
            return
        code, source = code_of(emitted.stdout), region_events.Source(text)
        for limits in all_limits:
            with self.subTest(**limits):
                words = [word for name, n in limits.items() for word in (f"--{name.replace('_', '-')}", str(n))]
                lines = []
                ran = region_runs.run(code, region_runs.Limits(**limits), lines.append)
                line = f"rgo: {said(ran.end, source)}\n" if ran.end.status else ""
                # Its rounds are those of `record`, which counts nothing. What `run` counts depends on its own rounds,
                # but where main is alone, and is not stopped between two of them.
                wanted = self.rgo(text, "record", *words)
                self.assertEqual((wanted.returncode, wanted.stdout), (ran.end.status, b"".join(lines)))
                self.assertTrue(wanted.stderr.decode().endswith(line))
                if ran.goroutines == 1 and ran.end != region_runs.STEPS_SPENT:
                    wanted = self.rgo(text, "run", "--stats", "--workers", "1", *words)
                    self.assertEqual((wanted.returncode, wanted.stderr.decode()), (ran.end.status, f"rgo: {ran.counts()}\n{line}"))
                self.statuses.add(ran.end.status)
                self.check_removed(ran)

    def check_removed(self, ran):
        """Where main is alone and returns, nothing is left."""
        if ran.end == region_runs.EXIT and ran.goroutines == 1:
            self.assertEqual(len(ran.regions), ran.removed)


def said(end, source):
    place = "" if end.place is None else f"{source.line(end.place)}:{source.column(end.place)}: "
    return place + end.said


class BesideTheProgram(Case):
    def test_examples(self):
        paths = list(TOP.glob("examples/**/*.go"))
        self.assertGreater(len(paths), 20)
        for path in sorted(paths):
            with self.subTest(path.name):
                self.check_runs(path.read_bytes(), {}, {"pages": 3, "page_words": 16})

    def test_code_texts(self):
        for path in sorted(TEXTS.glob("*.go")):
            with self.subTest(path.name):
                limits = [{"pages": 1, "page_words": 16}, {"regions": 1}, {"steps": 40}, {"goroutines": 1}]
                self.check_runs(path.read_bytes(), {}, *limits)

    def test_benchmarks(self):
        for path in sorted(TOP.glob("bench/*.go")):
            with self.subTest(path.name):
                self.check_runs(path.read_bytes(), {"page_words": 4096})

    def test_random_programs(self):
        for seed in range(12):
            with self.subTest(seed):
                limits = [{"page_words": 4096}, {"pages": 2, "page_words": 16}, {"regions": 3}, {"steps": 2001}]
                self.check_runs(go_programs.program(seed).encode(), *({"steps": 500000, **one} for one in limits))

    def test_programs_that_end_in_each_way(self):
        texts = programs()
        self.assertEqual(27, len(texts))
        for text in texts:
            with self.subTest(text):
                self.assertEqual(0, self.rgo(text.encode(), "check").returncode)
                limits = [{"steps": 500000, "goroutines": 500}, {"steps": 3000, "pages": 1, "page_words": 16}]
                self.check_runs(text.encode(), *limits)
        self.assertEqual({0, 2, 3, 4, 6, 7, 8, 12}, self.statuses)


def steps_of(picture):
    return [(bar[0].text, bar.get("d")) for bar in bars_in(picture)]


def elements(picture, name):
    return xml.etree.ElementTree.fromstring(picture).iter(f"{{http://www.w3.org/2000/svg}}{name}")


def bars_in(picture):
    """The bars of a picture: what has a fill and a tooltip."""
    return [path for path in elements(picture, "path") if path.get("fill")]


def texts_in(picture):
    return [text.text for text in elements(picture, "text")]


def crossed(path, x):
    """The pixels between the lowest and the highest that a path has at a place, for each of its parts there."""
    found = []
    for part in re.findall(r"M[^Z]*Z", path):
        at, level = map(float, re.match(r"M([\d.]+) ([\d.]+)", part).groups())
        for letter, number in re.findall(r"([VH])([\d.]+)", part):
            if letter == "V":
                level = float(number)
            else:
                if min(at, float(number)) < x < max(at, float(number)):
                    found.append(level)
                at = float(number)
    return list(zip(sorted(found)[::2], sorted(found)[1::2]))


def drawn(regions, steps, name="a.go", end=region_runs.EXIT, text=b"func main() {}\n", package=()):
    """A picture of a run that has made these regions."""
    ran, _ = ran_of(FIELD)
    ran.regions, ran.steps, ran.end = regions, steps, end
    ran.package.pages = list(package)
    return region_pictures.picture(name, ran, region_events.Source(text))


def region(created, pages, removed, place=0, name=0):
    found = region_runs.Region(place, "main", name, created)
    found.pages, found.removed, found.objects = list(pages), removed, len(pages)
    return found


class Pictures(unittest.TestCase):
    def test_one_object(self):
        ran, _ = ran_of(FIELD)
        source = region_events.Source((TEXTS / "field.go").read_bytes())
        picture = region_pictures.picture("field.go", ran, source)
        what = "5:7 main r0: created after step 0, removed after step 3, 1 page, 1 object"
        self.assertEqual([(what, "M64 136V96H640V136H64Z")], steps_of(picture))
        wanted = ["field.go", "main returned after 5 steps; a page has 256 words", ran.counts()]
        self.assertEqual(wanted, texts_in(picture)[:3])
        self.assertEqual(["0", "1", "0", "1", "2", "3", "4", "5", "pages", "steps"], texts_in(picture)[3:-1])
        self.assertEqual("5:7 main r0: 1 region, 1 page, 1 object", texts_in(picture)[-1])

    def test_bars_lie_on_each_other(self):
        # The second region is of another place. It moves down when the first one goes, and grows.
        regions = [region(0, [0, 1], 4), region(2, [2, 6], None, 3), region(3, [], None), region(3, [3], 5)]
        found = dict(steps_of(drawn(regions, 8, package=[7])))
        names = {"package": "M904 256V216H1024V256H904Z"}
        names["main r0: created after step 0"] = "M64 256V216H184V176H544V256H64Z"
        names["main r0: created after step 3"] = "M424 176V136H544V216H664V256H544V176H424Z"
        tops, bases = "M304 176V136H424V96H544V176H664V216H784V176H904V136", "V216H904V256H664V216H544V136H424V176H304Z"
        names["1:4 main r0"] = f"{tops}H1024{bases}"
        self.assertEqual(len(names), len(found))
        for start, path in names.items():
            with self.subTest(start):
                self.assertEqual([path], [d for said, d in found.items() if start in said])

    def test_what_never_ends(self):
        found = [said for said, _ in steps_of(drawn([region(1, [1], None)], 9, package=[3, 5]))]
        wanted = ["package variables: 2 pages, 0 objects, never removed"]
        wanted += ["1:1 main r0: created after step 1, not removed, 1 page, 1 object"]
        self.assertEqual(wanted, found)

    def test_the_height_is_the_pages_in_use(self):
        for seed in range(12):
            chance = random.Random(seed)
            steps = chance.choice([7, 300, 960, 5000, 100000])
            regions = []
            for created in sorted(chance.randrange(steps) for _ in range(chance.choice([3, 60]))):
                pages = sorted(chance.randrange(created, steps) for _ in range(chance.randrange(4)))
                removed = chance.choice([None, chance.randint((pages or [created])[-1] + 1, steps)])
                regions.append(region(created, pages, removed, chance.randrange(5)))
            with self.subTest(seed=seed):
                self.check_heights(drawn(regions, steps), regions, steps)

    def check_heights(self, picture, regions, steps):
        """In some columns no bar covers another, and all are as high as the most pages in use at a step of the
        column."""
        columns = region_pictures.Columns(regions, steps)
        pixels = min(region_pictures.HEIGHT / max(1, *columns.pages), region_pictures.PAGE)
        for column in range(0, columns.count, 1 + columns.count // 40):
            is_there = lambda r, step: r.removed is None or step < r.removed
            in_use = lambda step: sum(page <= step for r in regions if is_there(r, step) for page in r.pages)
            changes = {step for step in columns.changed if columns.first(column) < step < columns.first(column + 1)}
            most = max(map(in_use, {columns.first(column), *changes}))
            middle = columns.pixel(column + 0.5)
            parts = sorted(part for bar in bars_in(picture) for part in crossed(bar.get("d"), middle))
            found = sum(last - first for first, last in parts)
            self.assertAlmostEqual(most * pixels, found, delta=0.2 + 0.2 * len(parts))
            self.assertTrue(all(one[1] <= other[0] + 0.11 for one, other in zip(parts, parts[1:])))

    def test_many_regions(self):
        chance = random.Random(1)
        regions = []
        for created in range(0, 1000000, 10):
            removed = created + 1 + chance.randrange(chance.choice([10, 10, 1000, 300000]))
            regions.append(region(created, [created], removed if removed < 1000000 else None, chance.randrange(4)))
        picture = drawn(regions, 1000000)
        self.assertLess(len(picture), 400000)
        self.assertLess(len(bars_in(picture)), 2000)
        together = [int(found.replace(",", "")) for found in re.findall(r": ([\d,]+) regions, created", picture)]
        self.assertGreater(sum(together), 90000)

    def test_many_places(self):
        picture = drawn([region(n, [n], n + 20, n) for n in range(2000)], 2020, text=b"x" * 2000)
        self.assertEqual(2000, len(bars_in(picture)))
        self.assertLess(len(picture), 600000)
        self.assertIn("1,988 other places: 1,988 regions, 1,988 pages, 1,988 objects", texts_in(picture))

    def test_bars_beside_each_other_differ(self):
        regions = [region(n, [n], n + 1, n // 3) for n in range(6)]
        first, second, third, fourth, *_ = [bar.get("fill") for bar in bars_in(drawn(regions, 6))]
        self.assertEqual(("#4477aa", "#82a4c6", "#4477aa", "#ee6677"), (first, second, third, fourth))

    def test_how_a_run_ended(self):
        trap = region_runs.End(2, "trap 2 IndexRange", 5)
        for end, words in [
            (region_runs.EXIT, "main returned after 1,000 steps"),
            (region_runs.DEADLOCK, "deadlock, after 1,000 steps"),
            (trap, "trap 2 IndexRange at 1:6, after 1,000 steps"),
            (region_runs.STEPS_SPENT, "only the first 1,000 steps are drawn: the run was cut there"),
        ]:
            self.assertEqual(f"{words}; a page has 256 words", texts_in(drawn([], 1000, end=end))[1])

    def test_nothing_to_draw(self):
        for regions, steps in [([], 0), ([], 1), ([region(0, [], None)], 3)]:
            picture = drawn(regions, steps)
            self.assertEqual([], bars_in(picture))
            self.assertEqual("steps", texts_in(picture)[-1])

    def test_names_are_escaped(self):
        picture = drawn([], 1, "<a> & \"b\" \x01\udcff.go")
        self.assertEqual('<a> & "b" \ufffd\ufffd.go', texts_in(picture)[0])
        self.assertEqual('Regions of <a> & "b" \ufffd\ufffd.go', next(elements(picture, "title")).text)

    def test_round_numbers(self):
        for most, count, wanted in [
            (1, 6, [0, 1]),
            (6, 6, [0, 1, 2, 3, 4, 5, 6]),
            (7, 6, [0, 2, 4, 6]),
            (13, 6, [0, 2, 4, 6, 8, 10, 12]),
            (14, 6, [0, 5, 10]),
            (31, 6, [0, 5, 10, 15, 20, 25, 30]),
            (100, 6, [0, 20, 40, 60, 80, 100]),
            (28324, 8, [0, 5000, 10000, 15000, 20000, 25000]),
        ]:
            self.assertEqual(wanted, list(region_pictures.ticks(most, count)))


class Command(test_explain.Case):
    """The command, with a program that prints a code text."""

    def setUp(self):
        super().setUp()
        self.rgo = self.room / "rgo"
        self.write_program(f'cat >/dev/null; cat "{TEXTS}/loop.code"')
        self.file.write_bytes((TEXTS / "loop.go").read_bytes())
        self.picture = self.room / "a picture.svg"

    def write_program(self, script):
        self.rgo.write_text(f"#!/bin/sh\n{script}\n")
        self.rgo.chmod(0o755)

    def regions(self, *words):
        return self.tool("regions", *words, RGO=str(self.rgo))

    def test_a_picture(self):
        self.assertEqual((0, "", ""), self.regions("--picture", self.picture, self.file))
        texts = texts_in(self.picture.read_text(encoding="utf-8"))
        wanted = ["a file.go", "main returned after 67 steps; a page has 256 words"]
        self.assertEqual([*wanted, "regions 1 removed 1 pages 1 returned 1 objects 3 goroutines 1"], texts[:3])
        self.assertEqual("11:6 main r0: 1 region, 1 page, 3 objects", texts[-1])

    def test_options(self):
        for words, said in [
            ("--page-words 16", "main returned after 67 steps; a page has 16 words"),
            ("--steps 1 --pages 1 --regions 1 --goroutines 1", "main returned after 67 steps; a page has 256 words"),
        ]:
            self.assertEqual((0, "", ""), self.regions(self.file, f"--picture={self.picture}", *words.split()))
            self.assertEqual(said, texts_in(self.picture.read_text(encoding="utf-8"))[1])

    def test_wrong_words(self):
        for words in ["--list", "--function main", "--pages 0", "--page-words 15", "--steps x", "--stats", "--workers 1", "b.go"]:
            with self.subTest(words):
                status, out, err = self.regions("--picture", self.picture, self.file, *words.split())
                self.assertEqual((64, "", True), (status, out, "--picture OUT.svg FILE.go" in err))
        for words in (["--picture", self.picture], ["--picture", self.file, self.file], ["--pages", "1", self.file]):
            self.assertEqual((64, ""), self.regions(*words)[:2])
        self.assertFalse(self.picture.exists())

    def test_a_file_that_cannot_be_written(self):
        wanted = (73, "", f"regions: cannot write {self.room}/none/a.svg: No such file or directory\n")
        self.assertEqual(wanted, self.regions("--picture", self.room / "none" / "a.svg", self.file))

    def test_a_program_that_is_rejected(self):
        self.write_program('cat >/dev/null; echo "rgo: 11:2: type 33 LoopOutside" >&2; exit 1')
        status, out, err = self.regions("--picture", self.picture, self.file)
        self.assertEqual((1, "", f"{self.file}:11:2: type 33 LoopOutside"), (status, out, err.splitlines()[0]))
        self.assertFalse(self.picture.exists())

    def test_code_that_breaks_a_rule(self):
        self.write_program(f'cat >/dev/null; sed "s/new v5 N -\\[\\]/new v5 N -[r0]/" "{TEXTS}/loop.code"')
        wanted = (70, "", f"regions: the code of {self.file} breaks a rule: an object of a removed region is touched\n")
        self.assertEqual(wanted, self.regions("--picture", self.picture, self.file))


class Documents(Case):
    def test_the_pictures_are_what_is_drawn(self):
        drawn = {"queue": "queue_renewed.go", "server": "server.go", "server-rebuilt": "server_rebuilt.go"}
        self.assertEqual({f"regions-{name}.svg" for name in drawn}, {path.name for path in TOP.glob("docs/*.svg")})
        for name, file in drawn.items():
            with self.subTest(name):
                path = TOP / "examples" / "regions" / file
                code, source = code_of(self.rgo(path.read_bytes(), "emit").stdout), region_events.Source(path.read_bytes())
                ran = region_runs.run(code, region_runs.Limits())
                kept = TOP.joinpath("docs", f"regions-{name}.svg").read_text(encoding="utf-8")
                self.assertEqual(kept, region_pictures.picture(path.name, ran, source))


if __name__ == "__main__":
    unittest.main()
