"""Tests the programs of bench/ and the scripts that measure them."""

import os
import pathlib
import re
import shutil
import subprocess
import sys
import tempfile
import unittest

import error_pages
from error_pages import TOP

BENCH = TOP / "bench"
# Plays the part of rgo: prints what the program of this name prints.
FAKE = """#!/bin/sh
text=$(cat)
for file in '{bench}'/*.go; do
    [ "$text" = "$(sed 's, // [0-9 ]*$,,' "$file")" ] && exec cat "${{file%.go}}.out"
done
exit {status}
"""


class Programs(unittest.TestCase):
    @classmethod
    def setUpClass(cls):
        # Without this the first run would build the program, which takes an hour.
        if not pathlib.Path(error_pages.program()).is_file():
            raise AssertionError("no program is built at crates/rgo/out/rgo, and the variable RGO names none")

    def test_the_smallest_sizes_print_what_go_printed(self):
        sources = sorted(BENCH.glob("*.go"))
        self.assertEqual(20, len(sources))
        for source in sources:
            with self.subTest(source.name), open(source, "rb") as text:
                command = [error_pages.program(), "run", "--page-words", "4096", "--pages", "256"]
                ran = subprocess.run(command, stdin=text, capture_output=True, timeout=300, check=False)
                self.assertEqual((0, source.with_suffix(".out").read_bytes(), b""), (ran.returncode, ran.stdout, ran.stderr))

    def test_each_has_three_sizes_of_which_the_first_is_in_its_text(self):
        for source in BENCH.glob("*.go"):
            with self.subTest(source.name):
                found = re.findall(r"^func size\(\) int { return (\d+) } // (\d+) (\d+) (\d+)$", source.read_text(), re.MULTILINE)
                self.assertEqual(1, len(found))
                sizes = list(map(int, found[0]))
                self.assertEqual(sorted(sizes), sizes)
                self.assertEqual(sizes[0], sizes[1])


class Case(unittest.TestCase):
    def setUp(self):
        folder = tempfile.TemporaryDirectory()
        self.addCleanup(folder.cleanup)
        self.room = pathlib.Path(folder.name)

    def write(self, name, text):
        path = self.room / name
        path.parent.mkdir(exist_ok=True)
        path.write_text(text)
        path.chmod(0o755)
        return path

    def script(self, name, *words):
        """Runs a script with nothing on the path but what it needs and what a test has put there."""
        found = {command: shutil.which(command) for command in ("cat", "cp", "sed", "sh", "sleep")}
        for command, path in {**found, "python3": sys.executable}.items():
            link = self.room / "bin" / command
            link.parent.mkdir(exist_ok=True)
            if not link.is_symlink():
                link.symlink_to(path)
        command = [sys.executable, BENCH / name, *words]
        env = {**os.environ, "PATH": f"{self.room}/bin"}
        return subprocess.run(command, capture_output=True, text=True, env=env, timeout=300, check=False)

    def rows(self, ran):
        return [[cell.strip() for cell in line.strip("|").split("|")] for line in ran.stdout.splitlines() if line.startswith("| ")][1:]


class Script(Case):
    def bench(self, *words):
        return self.script("run", "--times", "1", "--sizes", "1", *words)

    def test_rgo_alone(self):
        fake = self.write("rgo", FAKE.format(bench=BENCH, status=9))
        ran = self.bench("--rgo", fake, "--beside", "a test", "fibonacci", "sieve")
        self.assertEqual((0, ""), (ran.returncode, ran.stderr))
        self.assertIn("- Go: not installed\n- yaegi: not installed\n", ran.stdout)
        self.assertIn("- Beside it: a test.", ran.stdout)
        rows = self.rows(ran)
        self.assertEqual([["fibonacci", "16"], ["sieve", "1"]], [row[:2] for row in rows])
        for row in rows:
            self.assertRegex(row[2], r"^\d+\.\d{3}$")
            self.assertGreater(float(row[7]), 0.1)
            self.assertEqual([""] * 11, row[3:7] + row[8:])

    def test_peers(self):
        fake = self.write("rgo", FAKE.format(bench=BENCH, status=9))
        # Plays the part of go: what it builds waits, and reports pauses if it is asked for them.
        built = f"#!/bin/sh\nsleep 0.2\ncat '{BENCH}/sieve.out'\n[ $GODEBUG ] && echo 'gc 1 @0.0s 2%: 0.5+9.0+0.25 ms clock, 1 P' >&2\nexit 0\n"
        self.write("built", built)
        self.write("bin/go", f"#!/bin/sh\n[ $1 = version ] && echo go9 && exit 0\ncp '{self.room}/built' \"$3\"\n")
        self.write("bin/yaegi", "#!/bin/sh\n[ $1 = version ] && echo yaegi9 && exit 0\nexit 3\n")
        ran = self.bench("--rgo", fake, "sieve")
        self.assertEqual((0, ""), (ran.returncode, ran.stderr))
        self.assertIn("- Go: go9\n- yaegi: yaegi9\n", ran.stdout)
        row = self.rows(ran)[0]
        self.assertGreater(float(row[3]), 0.2)
        self.assertEqual("fails with 3", row[4])
        self.assertAlmostEqual(float(row[2]) / float(row[3]) / float(row[5]), 1, delta=0.1)
        self.assertEqual(["", "0.50", "0.75", "1", "", ""], [row[6], *row[10:]])

    def test_processor_time_is_not_that_of_waiting(self):
        fake = self.write("rgo", "#!/bin/sh\ncat >/dev/null\n[ \"$8\" = --stats ] || sleep 0.5\n")
        seconds = [float(self.rows(self.bench("--rgo", fake, "--clock", clock, "sieve"))[0][2]) for clock in ("wall", "processor")]
        self.assertGreaterEqual(seconds[0], 0.5)
        self.assertLess(seconds[1], 0.25)

    def test_memory_is_that_of_a_run_with_the_text(self):
        # A program that has less memory than the script, and more than a shell.
        fake = self.write("rgo", "#!/bin/sh\nread -r line\n[ \"$line\" ] && exec python3 -I -S -c 'print(168)'\n")
        self.assertGreater(float(self.rows(self.bench("--rgo", fake, "sieve"))[0][7]), 4)

    def test_regions_and_pages_are_those_of_the_statistics(self):
        made = "rgo: regions 3 removed 2 pages 7 returned 5 objects 9 goroutines 1"
        fake = self.write("rgo", f"#!/bin/sh\ncat >/dev/null\n[ \"$8\" = --stats ] && echo '{made}' >&2\nexit 0\n")
        self.assertEqual(["3", "7"], self.rows(self.bench("--rgo", fake, "sieve"))[0][13:])

    def test_programs_with_goroutines_run_on_several_workers(self):
        # Waits longer on two workers than on one.
        fake = self.write("rgo", "#!/bin/sh\ncat >/dev/null\n[ \"$7\" = 2 ] && sleep 0.5\nexit 0\n")
        ran = self.bench("--rgo", fake, "--workers", "1,2", "pingpong", "sieve")
        self.assertEqual((0, ""), (ran.returncode, ran.stderr))
        self.assertIn("\n| program | size | 1 worker s | 2 workers s |\n", ran.stdout)
        rows = self.rows(ran)
        self.assertEqual(["pingpong", "sieve", "program", "pingpong"], [row[0] for row in rows])
        self.assertLess(float(rows[-1][2]), 0.3)
        self.assertGreater(float(rows[-1][3]), 0.5)

    def test_a_program_that_fails_stops_it(self):
        ran = self.bench("--rgo", self.write("rgo", "#!/bin/sh\nexit 9\n"), "sieve")
        self.assertEqual((1, "bench/run: sieve at size 1: rgo fails with 9\n"), (ran.returncode, ran.stderr))

    def test_different_prints_stop_it(self):
        fake = self.write("rgo", FAKE.format(bench=BENCH, status=9))
        self.write("bin/yaegi", "#!/bin/sh\necho other\n")
        ran = self.bench("--rgo", fake, "sieve")
        self.assertEqual(1, ran.returncode)
        self.assertIn("sieve at size 1 prints different things", ran.stderr)

    def test_a_run_that_takes_too_long(self):
        fake = self.write("rgo", "#!/bin/sh\nwhile :; do :; done\n")
        ran = self.bench("--rgo", fake, "--seconds", "1", "sieve")
        self.assertEqual((0, ["sieve", "1", "over 1 s"]), (ran.returncode, self.rows(ran)[0][:3]))


# Plays the part of rgo: prints the size of a program, after it has counted to a number that depends on that.
COUNTING = r"""#!/bin/sh
size=$(sed -n 's/^func size() int { return \([0-9]*\) }$/\1/p')
case $size in CASES esac
i=0
while [ $i -lt $count ]; do i=$((i + 1)); done
echo $size
"""
# Plays the part of a program that Go has compiled: prints the size of which its folder has the name.
COMPILED = "#!/bin/sh\nfolder=${0%/*}\necho ${folder##*-}\n"
# Plays the part of yaegi, and fails if the size is 20.
INTERPRETER = "#!/bin/sh\nfolder=${2%/*}\n[ ${folder##*-} = 20 ] && exit 3\necho ${folder##*-}\n"


class Growth(Case):
    def counting(self, counts):
        return self.write("rgo", COUNTING.replace("CASES", " ".join(f"{size}) count={count};;" for size, count in counts.items())))

    def growth(self, *words):
        return self.script("growth", "--times", "1", *words)

    def test_times_and_ratios(self):
        fake = self.counting({10: 2000, 20: 100_000})
        ran = self.growth("--rgo", fake, "--sizes", "20,10", "--workers", "1,3", "jobs", "ring")
        self.assertEqual((0, ""), (ran.returncode, ran.stderr))
        self.assertTrue(ran.stdout.startswith("| program | goroutines | 1 worker s | ratio | 3 workers s | ratio |\n|---|---|---|---|---|---|\n"))
        rows = self.rows(ran)
        self.assertEqual([["jobs", "10"], ["jobs", "20"], ["ring", "10"], ["ring", "20"]], [row[:2] for row in rows])
        for few, many in (rows[:2], rows[2:]):
            for at in (2, 4):
                self.assertRegex(few[at], r"^\d+\.\d{3}$")
                self.assertGreater(float(many[at]), 2 * float(few[at]))
                self.assertEqual("", few[at + 1])
                self.assertGreater(float(many[at + 1]), 2)

    def test_without_words_all_programs_have_three_sizes(self):
        ran = self.growth("--rgo", self.write("rgo", "#!/bin/sh\ncat >/dev/null\n"))
        self.assertEqual((0, ""), (ran.returncode, ran.stderr))
        wanted = [[name, size] for name in ("collect", "jobs", "server", "ring") for size in ("4,000", "8,000", "16,000")]
        self.assertEqual(wanted, [row[:2] for row in self.rows(ran)])

    def test_channels_have_room(self):
        # Prints the channels that are made.
        fake = self.write("rgo", "#!/bin/sh\nsed -n 's/.*make(\\([^)]*\\)).*/\\1/p' >>\"$0.made\"\n")
        for room, made in [("0", "chan *request\nchan int\nchan int\n"), ("7", "chan *request, 7\nchan int, 7\nchan int, 7\n")]:
            with self.subTest(room):
                self.assertEqual(0, self.growth("--rgo", fake, "--room", room, "--sizes", "10", "--workers", "1", "server").returncode)
                self.assertEqual(made, self.room.joinpath("rgo.made").read_text())
                self.room.joinpath("rgo.made").unlink()

    def test_peers(self):
        fake = self.counting({10: 1, 20: 1})
        self.write("compiled", COMPILED)
        self.write("bin/go", f"#!/bin/sh\ncp '{self.room}/compiled' \"$3\"\n")
        self.write("bin/yaegi", INTERPRETER)
        ran = self.growth("--rgo", fake, "--sizes", "10,20", "--workers", "1", "collect")
        self.assertEqual((0, ""), (ran.returncode, ran.stderr))
        self.assertTrue(ran.stdout.startswith("| program | goroutines | 1 worker s | ratio | Go s | ratio | yaegi s | ratio |\n"))
        few, many = self.rows(ran)
        self.assertRegex(" ".join(few), r"^collect 10 [\d.]+  [\d.]+  [\d.]+ $")
        self.assertRegex(" ".join(many), r"^collect 20 [\d.]+ [\d.]+ [\d.]+ [\d.]+ fails with 3 $")

    def test_check_accepts_what_grows_little(self):
        ran = self.growth("--rgo", self.counting({4000: 9999, 8000: 9999, 99999: 9999}), "--check", "--times", "3", "--workers", "1", "jobs")
        self.assertEqual((0, ""), (ran.returncode, ran.stderr), ran.stdout)
        self.assertEqual(["4,000", "8,000", "99,999"], [row[1] for row in self.rows(ran)])
        self.assertTrue(ran.stdout.endswith(" |\n"))

    def test_check_finds_what_grows_too_much(self):
        ran = self.growth("--rgo", self.counting({4000: 1, 8000: 100_000, 99999: 1}), "--check", "--workers", "1", "jobs")
        self.assertEqual((1, ""), (ran.returncode, ran.stderr))
        self.assertRegex(ran.stdout, r"\|\n\njobs on 1 worker takes [\d.]+ times as long with 8,000 goroutines as with 4,000; 2\.5 is allowed\n\Z")

    def test_check_measures_a_slow_run_again(self):
        seen = self.room / "seen"
        slow_at_first = f"9999; [ -e '{seen}' ] || count=300000; : >'{seen}'"
        ran = self.growth("--rgo", self.counting({4000: 9999, 8000: slow_at_first, 99999: 9999}), "--check", "--workers", "1", "jobs")
        self.assertEqual((0, ""), (ran.returncode, ran.stderr), ran.stdout)

    def test_check_finds_a_run_that_takes_too_long(self):
        fake = self.counting({4000: 1, 8000: 1, 99999: 100_000_000})
        ran = self.growth("--rgo", fake, "--check", "--workers", "2", "--seconds", "1", "ring")
        self.assertEqual((1, ""), (ran.returncode, ran.stderr))
        self.assertEqual(["ring", "99,999", "over 1 s", ""], self.rows(ran)[2])
        self.assertTrue(ran.stdout.endswith("\n\nring with 99,999 goroutines on 2 workers takes over 1 s\n"))

    def test_what_stops_it(self):
        different = self.write("different", "#!/bin/sh\ncat >/dev/null\necho $7\n")
        for rgo, status, said in [
            (self.write("failing", "#!/bin/sh\nexit 9\n"), 1, "growth: ring with 4000 goroutines: rgo on 1 worker fails with 9\n"),
            (different, 1, "growth: ring with 4000 goroutines prints different things: "),
            (self.room / "none", 127, f"growth: cannot run {self.room}/none: No such file or directory\n"),
        ]:
            with self.subTest(said):
                ran = self.growth("--rgo", rgo, "ring")
                self.assertEqual(status, ran.returncode)
                self.assertTrue(ran.stderr.startswith(said), ran.stderr)

    def test_words(self):
        for words in (["sieve"], ["--sizes", "0"], ["--sizes", "4,x"], ["--check", "--sizes", "4"], ["--times", "0"], ["--room", "-1"], ["--fast"]):
            with self.subTest(words):
                ran = self.script("growth", *words)
                self.assertEqual((64, ""), (ran.returncode, ran.stdout))
                self.assertIn("bench/growth [--sizes", ran.stderr)
        ran = self.script("growth", "--help")
        self.assertEqual((0, ""), (ran.returncode, ran.stderr))
        self.assertIn("bench/growth [--sizes", ran.stdout)


if __name__ == "__main__":
    unittest.main()
