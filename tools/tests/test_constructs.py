"""Tests constructs: which part of Go a message is about, by places that were worked out by hand from the grammar, and, with
the program, by the places that it reports."""

import pathlib
import re
import subprocess
import unittest

import constructs
import error_pages
from error_pages import PAGES, TOP

PAGE = PAGES.joinpath("syntax.md").read_text(encoding="utf-8")
# Lines in a function, with a § before the first token with which no program of the grammar can continue, by a snippet of their row.
INSIDE = {
    "a, b := 1, 2": ["a§, b := 1, 2", "lo§, hi := 0, len(s)-1", "for i§, j := 0, 9; i < j; i++ {", "x§, err := f(1)"],
    "a, b = b, a": ["a§, b = b, a", "s[i]§, s[j] = s[j], s[i]"],
    "for i := range s {": [
        "for i := §range s {",
        "for i§, v := range s {",
        "for _§, v := range s {",
        "for §range s {",
        "for i§, v = range f(s) {",
    ],
    "for v := range c {": ["c := make(chan int); for v := §range c {"],
    "v, ok := <-c": ["v§, ok := <-c", "if v§, ok := <-c; ok {", "v§, ok = <-c"],
    "switch x {": ["§switch x {", "§switch {"],
    "s := []int{1, 2}": ["s := §[]int{1, 2}", "f(§[]int{1, 2})", "var s []int = §[]int{}", "return §[]int{1}", "s := §[3]int{}"],
    "s = s[1:2]": ["s = s[1§:2]", "s = s[§:2]", "f(s[1§:])"],
    "var f func()": ["var f §func()", "var f, g §func(int) int"],
    "m := map[int]int{}": ["m := §map[int]int{}", "var m §map[int]bool", "m := make(§map[int]int)"],
    "x = 1 << 3": ["x = 1 §<< 3", "x §>>= 1"],
    "x = a & 7": ["x = a §& 7", "x §|= 1", "x = §^a", "x = a §&^ b"],
    "x = 1.5": ["x = 1.§5"],
    "go fmt.Println(1)": ["go fmt§.Println(1)", "go s§.run()"],
    "defer f()": ["§defer f()", "§defer close(c)"],
    "select {": ["§select {"],
    "goto end": ["§goto end"],
    "outer:": ["outer§:"],
    "break outer": ["break §outer", "continue §outer"],
    "go func() { f(1) }()": ["go §func() { f(1) }()", "f := §func() {", "each(l, §func(n int) {", "return §func() int {"],
    "return a, b": ["return a§, b", "return 1§, true"],
    "s = make([]int, 0, 10)": ["s = make([]int, 0, §10)"],
    "p := T{1, 2}": ["p := T§{1, 2}", "s[0] = T§{v: 1}", "f(T§{1})"],
    "p := &x": ["p := &x§", "f(&x§)", "p := &s§[1]", "p := &p§.v"],
    "*p = 1": ["§*p = 1", "x = §*p", "f(§*p)"],
    "var a [3]int": ["var a [§3]int", "var a [§n]int"],
    "var x interface{}": ["var x §interface{}"],
    "v = x.(int)": ["v = x.§(int)"],
    "c := make(chan struct{})": ["c := make(chan §struct{})", "c <- §struct{}{}"],
    "var a, b int = 1, 2": ["var a, b int §= 1, 2", "var a, b §= 1, 2"],
    "type local struct { v int }": ["§type local struct { v int }"],
    "var wg sync.WaitGroup": ["var wg sync§.WaitGroup", "var wg *sync§.WaitGroup"],
    "var mu sync.Mutex": ["var mu sync§.Mutex", "var mu sync§.RWMutex"],
    "var b strings.Builder": ["var b strings§.Builder", "var f *os§.File"],
    "const n = 10": ["§const n = 10"],
    # What is wrong is not a part of Go.
    None: ["x = §)", "if x §= 1 {", "§}}", "x := 1 §2", "f(1§;", "§else {", "for i := 0; i < 3 §{", "var x §"],
}
OUTSIDE = {
    "const n = 10": ["§const n = 10", "§const ("],
    "var n int = 10": ["var n int §= 10", "var n §= 10", "var s []int §= make([]int, 3)"],
    "type number int": ["type number §int", "type F §func(int) int", "type S §[]int", "type A §= int"],
    "func (p *T) size() int {": ["func §(p *T) size() int {", "func §(t T) f() {"],
    "func f() (int, bool) {": ["func f() §(int, bool) {", "func f(a int) §(n int, err error) {"],
    "func f(c <-chan int) {": ["func f(c §<-chan int) {", "func f(c chan§<- int) {", "func f(a int, c, d §<-chan int) {", "func f() §<-chan int {"],
    "type Shape interface {": ["type Shape §interface {"],
    "type T struct { Base }": ["type T struct { Base §}", "type T struct { §*Base }", "type T struct { v int; Base§; w int }"],
    "type Pair[T any] struct {": ["type Pair§[T any] struct {", "func f§[T any](x T) {"],
    "func f(xs ...int) {": ["func f(xs §...int) {"],
    "var wg sync.WaitGroup": ["type T struct { wg sync§.WaitGroup }", "func f(wg *sync§.WaitGroup) {", "var wg sync§.WaitGroup"],
    "var mu sync.Mutex": ["type T struct { mu sync§.Mutex }"],
    "m := map[int]int{}": ["var m §map[int]int", "func f(m §map[int]int) {", "type T struct { m §map[int]int }"],
    "var f func()": ["type T struct { f §func(int) }", "func each(f §func(int)) {"],
    "var a [3]int": ["type T struct { a [§3]int }", "var a [§10]bool"],
    None: ["§x := 1", "func §{", "§}", "var x int§ y"],
}


def marked(text):
    """A text without its mark, and the line and the column of that."""
    before = text[: text.index("§")].encode()
    return text.replace("§", "").encode(), before.count(b"\n") + 1, len(before) - before.rfind(b"\n")


def cases():
    for table, text in [(INSIDE, "package main\ntype T struct {{ v int }}\nfunc main() {{\n\t{}\n}}\n"), (OUTSIDE, "package main\n\n{}\n")]:
        for snippet, lines in table.items():
            yield from ((snippet, line, text.format(line)) for line in lines)


class ByHand(unittest.TestCase):
    def test_places(self):
        for snippet, line, text in cases():
            with self.subTest(line):
                found = constructs.named(*marked(text))
                wanted = snippet and constructs.row_with(PAGE, snippet)
                self.assertEqual(wanted, found and constructs.row_with(PAGE, found[1]))

    def test_each_construct_has_its_row_and_each_row_its_construct(self):
        of_constructs = {snippet for _, snippet, _ in constructs.CONSTRUCTS}
        self.assertEqual(set(), {snippet for snippet in of_constructs if constructs.row_with(PAGE, snippet) is None})
        for go, said in constructs.rows(PAGE):
            if go != "Go":
                with self.subTest(go):
                    self.assertNotEqual(set(), set(re.findall(r"`(.+?)`", go)) & of_constructs)

    def test_what_is_said(self):
        text = b"package main\nfunc main() {\n\tx := 1\n\tswitch x {\n\t}\n}\n"
        said = error_pages.explained(b"rgo: 4:2: syntax\n", "a.go", text).decode()
        wanted = "a.go:4:2: syntax\n    switch x {\n    ^\n`switch` is left out of rgo (`switch x {`). Instead: `if` and `else if`.\n"
        self.assertEqual(wanted + "Read on: docs/errors/syntax.md\n", said)

    def test_links_in_a_row(self):
        for said, wanted in [("none", "Nothing takes its place."), ("none; a", "Nothing takes its place: a."), ("b", "Instead: b.")]:
            self.assertEqual(wanted, constructs.advice(said))
        said = constructs.advice("see [The rules](../LANGUAGE.md#the-rules)")
        self.assertEqual("Instead: see The rules in docs/LANGUAGE.md.", said)

    def test_names(self):
        for message, line, beginning in [
            ("type 9 StringPlace", 'fmt.Printf(§"%d\\n", 3)', "`fmt.Printf` is left out of rgo. Instead: "),
            ("type 9 StringPlace", 'panic(§"x")', "`panic` is left out of rgo. Instead: "),
            ("type 9 StringPlace", 's := fmt.Sprintf(§"%d", 3)', "`fmt.Sprintf` is left out of rgo. Instead: "),
            ("type 9 StringPlace", 's := §"x"', "A string appears elsewhere than as an argument"),
            ("type 4 NoSuchName", "s = §append(s, 1)", "`append` is left out of rgo. Instead: "),
            ("type 4 NoSuchName", "x := §int64(y)", "`int64` is left out of rgo. Instead: "),
            ("type 4 NoSuchName", "§panic(3)", "`panic` is left out of rgo. Instead: "),
            ("type 4 NoSuchName", "§print(3)", "`print` is left out of rgo. Instead: "),
            ("type 4 NoSuchName", "§other(3)", "Nothing in scope declares this name"),
            ("type 17 NotCall", "fmt.Printf§(3)", "`fmt.Printf` is left out of rgo. Instead: "),
            ("type 17 NotCall", "t.run§(3)", "`x.f()` is left out of rgo. Instead: `f(x)`: a function"),
            ("type 17 NotCall", "t§(3)", "What is called is not a function"),
            ("type 9 StringPlace", 'fmt.Println(§"a" + 1)', "A string appears elsewhere than as an argument"),
            ("type 1 BadImport", 'import §"sync"', "`sync` is left out of rgo. Instead: "),
            ("type 1 BadImport", 'import §"log"', "The program imports a package other than `fmt`"),
        ]:
            with self.subTest(line):
                text, number, column = marked(f"package main\n{line}\n")
                said = error_pages.explained(f"rgo: {number}:{column}: {message}\n".encode(), "a.go", text).decode()
                self.assertEqual(beginning, " ".join(said.splitlines()[3:])[: len(beginning)])

    def test_any_place_of_any_text(self):
        for path in [*sorted(TOP.glob("examples/*.go")), *sorted(TOP.glob("tools/tests/test_p*.py"))[:1]]:
            text = path.read_bytes()[:400]
            for line, of_line in enumerate(text.split(b"\n"), 1):
                for column in range(1, len(of_line) + 2):
                    constructs.named(text, line, column)
        for text in [b"", b"\xff", b"(", b"range", b"&", b"[", b"chan", b",", b"."]:
            for column in (1, len(text) + 1):
                constructs.named(text, 1, column)
                constructs.of_type(text, 1, column, PAGE)


class WithTheProgram(unittest.TestCase):
    """The places that the program reports. It is the one that is built, or what the variable RGO names."""

    @classmethod
    def setUpClass(cls):
        cls.program = pathlib.Path(error_pages.program()).resolve()
        if not cls.program.is_file():
            raise AssertionError("no program is built at crates/rgo/out/rgo, and the variable RGO names none")

    def test_the_program_reports_these_places(self):
        for snippet, line, text in cases():
            if snippet:
                with self.subTest(line):
                    text, number, column = marked(text)
                    ran = subprocess.run([self.program, "check"], input=text, capture_output=True, timeout=60, check=False)
                    self.assertEqual(f"rgo: {number}:{column}: syntax\n", ran.stderr.decode())


if __name__ == "__main__":
    unittest.main()
