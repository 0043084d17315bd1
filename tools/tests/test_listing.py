"""Tests tools/listing and code_names: what is shown of code texts, worked out by hand."""

import unittest

import code_names
import code_text
import region_events
import test_explain
from code_vectors import TEXTS

FIELD = """\
struct N { v int; p *N }

func main()
    var v0 *N in r0
    var v1 x *N in r0
    var v2 int
    0  5:7   v0 = new(N)  create r0
    1  5:4   v1 = v0
    2  6:16  v2 = v1.v    remove r0
    3  6:13  print v2
    4  7:1   return
"""
PLAIN = """\
struct N { int; *N }

func main()
    var v0 *N
    var v1 *N
    var v2 int
    0  76   v0 = new(N)
    1  73   v1 = v0
    2  98   v2 = v1.0
    3  95   print v2
    4  101  return
"""
# Instructions of a code text, and how they are shown.
SHOWN = [
    ("int v0 -1 -[]", "v0 = -1"),
    ("bool v1 true -[]", "v1 = true"),
    ("nil v2 -[]", "v2 = nil"),
    ("copy v0 v0 -[]", "v0 = v0"),
    ("bin v0 rem v0 v3 -[]", "v0 = v0 % v3"),
    ("bin v1 ge v0 v3 -[]", "v1 = v0 >= v3"),
    ("neg v0 v3 -[]", "v0 = -v3"),
    ("not v1 v1 -[]", "v1 = !v1"),
    ("isnil v1 v2 -[]", "v1 = v2 == nil"),
    ("len v0 v4 -[]", "v0 = len(v4)"),
    ("load v0 v2 1 -[]", "v0 = v2.1"),
    ("store v2 1 v0 -[]", "v2.1 = v0"),
    ("at v0 v4 v3 -[]", "v0 = v4[v3]"),
    ("put v4 v3 v0 -[]", "v4[v3] = v0"),
    ("new v2 N -[]", "v2 = new(N)"),
    ("slice v4 v0 -[]", "v4 = make([]int, v0)"),
    ("chan v5 v0 -[]", "v5 = make(chan int, v0)"),
    ("recv v0 v5 -[]", "v0 = <-v5"),
    ("send v5 v0 -[]", "v5 <- v0"),
    ("close v5 -[]", "close(v5)"),
    ("get v0 g -[]", "v0 = g"),
    ("set g v0 -[]", "g = v0"),
    ("call v0 f(v2,v4) R[r0,r1] P[r1] -[]", "v0 = f(v2, v4)  pass r0, r1; protect r1"),
    ("call - f() R[] P[] -[r0,r1]", "f()  remove r0, r1"),
    ("go f(v2) R[r0] -[]", "go f(v2)  pass r0"),
    (r'print "a\n",v0 -[]', r'print "a\n", v0'),
    ("print -[]", "print"),
    ("jump 7 -[r1]", "goto 7  remove r1"),
    ("branch v1 2 -[r0] 3 -[r1]", "if v1 goto 2 else 3  remove r0 if true; remove r1 if false"),
    ("branch v1 2 -[r0] 3 -[r0]", "if v1 goto 2 else 3  remove r0"),
    ("return v0", "return v0"),
    ("return -", "return"),
]
HEAD = "rgo code 1\nstruct N int int\nglobal g int\nfunc main 0 - -\n"
VARIABLES = ["int -", "bool -", "*N r0", "int -", "[]int r1", "chan.int r2"]
SOURCE = b"""func f(a, b *N) {
\tx := 1
\tvar y *N
\tvar z int = 2
\tx += 1
\ty /* x */ = nil // :=
\tvar c = make(chan int)
}
"""


class Listing(test_explain.Case):
    def setUp(self):
        super().setUp()
        self.file = self.room / "a text.code"

    def listing(self, *words, **variables):
        return self.tool("listing", *words, **variables)

    def test_with_the_source_and_without(self):
        self.assertEqual((0, FIELD, ""), self.listing(TEXTS / "field.code", TEXTS / "field.go"))
        self.assertEqual((0, PLAIN, ""), self.listing("--plain", TEXTS / "field.code"))

    def test_a_program(self):
        rgo = self.room / "rgo"
        rgo.write_text(f'#!/bin/sh\n[ "$*" = emit ] && cmp - "{TEXTS}/field.go" >&2 && cat "{TEXTS}/field.code"\n')
        rgo.chmod(0o755)
        self.assertEqual((0, FIELD, ""), self.listing(TEXTS / "field.go", RGO=str(rgo)))
        rgo.write_text('#!/bin/sh\ncat >/dev/null\necho "rgo: 1:1: syntax" >&2\nexit 1\n')
        status, out, err = self.listing(TEXTS / "field.go", RGO=str(rgo))
        self.assertEqual((1, "", f"{TEXTS}/field.go:1:1: syntax"), (status, out, err.splitlines()[0]))

    def test_each_instruction(self):
        lines = [*(f"var {variable}" for variable in VARIABLES), "entry -[]"]
        lines += [f"{n} @0 +[] {op}" for n, (op, _) in enumerate(SHOWN)]
        self.file.write_text(HEAD + "".join(f"{line}\n" for line in [*lines, "end"]))
        status, out, err = self.listing(self.file)
        self.assertEqual((0, ""), (status, err))
        found = [" ".join(line.split()) for line in out.splitlines()[-len(SHOWN) :]]
        self.assertEqual([" ".join(f"{n} 0 {shown}".split()) for n, (_, shown) in enumerate(SHOWN)], found)
        self.assertEqual({op.split()[0] for op, _ in SHOWN}, set(code_text.FORMS))

    def test_a_text_without_form(self):
        self.file.write_text("rgo code 1\nnothing\n")
        self.assertEqual((1, "", f"listing: {self.file}: line 2 has no form\n"), self.listing(self.file))


class Names(unittest.TestCase):
    def test_names_of_fields(self):
        text = b"""type A struct { v int; p, q *A }
            type (
                B struct {
                    // a comment; x int
                    s []chan *A
                    t,
                    u bool
                }
                C struct {}
            )
            // type D struct { v int }
        """
        self.assertEqual({"A": ["v", "p", "q"], "B": ["s", "u"], "C": []}, code_names.fields_of(text))

    def test_names_of_variables(self):
        place = lambda words: SOURCE.index(words)
        ops = [
            (place(b"1"), "int", {"d": 2, "K": 1}),
            (place(b":= 1"), "copy", {"d": 3, "a": 2}),
            (place(b"y *N"), "nil", {"d": 4}),
            (place(b"= 2"), "copy", {"d": 6, "a": 5}),
            (place(b"+= 1"), "copy", {"d": 3, "a": 7}),
            (place(b"nil"), "nil", {"d": 8}),
            (place(b"= nil"), "copy", {"d": 4, "a": 8}),
            (place(b"make"), "int", {"d": 9, "K": 0}),
            (place(b"= make"), "copy", {"d": 11, "a": 10}),
        ]
        f = code_text.Function("f", 2, None, [], [], [code_text.Instruction(at, [], word, parts) for at, word, parts in ops])
        (head,) = region_events.Source(SOURCE).heads
        wanted = {0: "a", 1: "b", 3: "x", 4: "y", 6: "z", 11: "c"}
        self.assertEqual(wanted, code_names.names_of(f, head, SOURCE))


if __name__ == "__main__":
    unittest.main()
