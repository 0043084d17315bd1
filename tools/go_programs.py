"""Random programs of the language that Go takes too, by a seed.

Every program terminates: loops count to a bound, recursion counts down, and goroutines only talk
over channels in patterns with one possible print. A program may trap, and some end in a deadlock.
Every variable is used, since Go asks for that.
"""

import random

INT, BOOL, POINTER, SLICE = "int", "bool", "*N", "[]int"
TYPES = [INT, INT, BOOL, POINTER, SLICE]

HEAD = 'package main\nimport "fmt"\ntype N struct { v int; b bool; p *N }\nvar total int\nvar root *N\n'

# A buffered pipe, a rendezvous, and workers that share a channel and are joined by their sums.
PIPES = """\
func send(c chan int, n int) { for i := 0; i < n; i++ { c <- i * i }; close(c) }
func echo(a, b chan int, n int) { for i := 0; i < n; i++ { b <- <-a + i } }
func work(in, out chan int) { s := 0; for x := <-in; x != 0; x = <-in { s += x }; out <- s }
func pipe(room, n int) int { c := make(chan int, room); go send(c, n); s := 0; for i := 0; i < n + 1; i++ { s += <-c }; return s }
func talk(n int) int { a := make(chan int); b := make(chan int); go echo(a, b, n); s := 0; for i := 0; i < n; i++ { a <- i; s += <-b }; return s }
func share(k, n int) int { in := make(chan int, 2); out := make(chan int); for i := 0; i < k; i++ { go work(in, out) }; for x := 1; x <= n; x++ { in <- x }; close(in); s := 0; for i := 0; i < k; i++ { s += <-out }; return s }
"""


def line(depth, text):
    return "\t" * depth + text + "\n"


class Program:
    """One random program. Names are numbered, so that none hides another by chance."""

    def __init__(self, seed):
        self.random = random.Random(seed)
        self.functions = []
        self.count = 0

    def name(self, letter):
        self.count += 1
        return f"{letter}{self.count}"

    def text(self):
        bodies = [self.function() for _ in range(self.random.randint(1, 4))]
        return HEAD + PIPES + "".join(bodies) + "func main() {\n" + self.main() + "}\n"

    def function(self):
        """A function that may call those before it, and itself with its first parameter counted down."""
        name, down = self.name("f"), self.name("n")
        params = [(down, INT)]
        params += [(self.name("a"), self.random.choice(TYPES)) for _ in range(self.random.randint(0, 2))]
        result = self.random.choice([INT, INT, BOOL])
        scope = list(params)
        body = self.statements(scope, 1, 4)
        if self.random.random() < 0.5:
            args = [f"{down} - 1", *(self.expression(scope, ty, 1) for _, ty in params[1:])]
            body += line(1, f"if {down} < 20 {{ return {name}({', '.join(args)}) }}")
        body += line(1, f"return {self.expression(scope, result, 2)}")
        self.functions.append((name, [ty for _, ty in params], result))
        heads = ", ".join(f"{param} {ty}" for param, ty in params)
        return f"func {name}({heads}) {result} {{\n\tif {down} <= 0 {{ return {self.literal(result)} }}\n{body}}}\n"

    def main(self):
        scope = []
        text = "".join(self.declaration(scope, 1, ty) for ty in (INT, BOOL, POINTER, SLICE))
        text += self.statements(scope, 1, 8)
        if self.random.random() < 0.02:
            text += "\tvar never chan int\n\tnever <- 1\n"
        return text + "".join(self.show(scope, name) for name, _ in scope) + "\tfmt.Println(total, root == nil)\n"

    def show(self, scope, name):
        ty = dict(scope)[name]
        shown = {POINTER: f"{name} == nil", SLICE: f"len({name})"}.get(ty, name)
        return f"\tfmt.Println(\"{name}\", {shown})\n"

    def statements(self, scope, depth, most):
        return "".join(self.statement(scope, depth) for _ in range(self.random.randint(1, most)))

    def statement(self, scope, depth):
        kinds = [self.declaration, self.assignment, self.assignment, self.update, self.print_some, self.store]
        if depth < 3:
            kinds += [self.branch, self.loop, self.block]
        return self.random.choice(kinds)(scope, depth)

    def declaration(self, scope, depth, ty=None):
        """A new variable that is used at once."""
        ty = ty or self.random.choice(TYPES)
        name = self.name("x")
        value = self.expression(scope, ty, 2)
        forms = [f"var {name} {ty}", f"var {name} {ty} = {value}"] + ([] if value == "nil" else [f"{name} := {value}"])
        scope.append((name, ty))
        use = {INT: f"total += {name}", BOOL: f"if {name} {{ total++ }}", POINTER: f"root = {name}", SLICE: f"total += len({name})"}[ty]
        return line(depth, self.random.choice(forms)) + line(depth, use)

    def variable(self, scope, ty):
        names = [name for name, of in scope if of == ty]
        return self.random.choice(names) if names else None

    def assignment(self, scope, depth):
        ty = self.random.choice(TYPES)
        name = self.variable(scope, ty)
        return line(depth, f"{name} = {self.expression(scope, ty, 3)}") if name else self.print_some(scope, depth)

    def update(self, scope, depth):
        name = self.variable(scope, INT) or "total"
        form = self.random.choice(["{} += {}", "{} -= {}", "{} *= {}", "{} /= {}", "{} %= {}", "{}++", "{}--"])
        value = self.divisor(scope) if "/" in form or "%" in form else self.expression(scope, INT, 2)
        return line(depth, form.format(name, value))

    def store(self, scope, depth):
        pointer, slice_ = self.variable(scope, POINTER), self.variable(scope, SLICE)
        if pointer and self.random.random() < 0.5:
            field, ty = self.random.choice([("v", INT), ("b", BOOL), ("p", POINTER)])
            stored = f"{pointer}.{field} = {self.expression(scope, ty, 2)}"
            return line(depth, stored if self.random.random() < 0.1 else f"if {pointer} != nil {{ {stored} }}")
        if slice_:
            index = self.index(scope, slice_)
            return line(depth, f"if len({slice_}) > 0 {{ {slice_}[{index}] = {self.expression(scope, INT, 2)} }}")
        return self.print_some(scope, depth)

    def print_some(self, scope, depth):
        parts = [self.expression(scope, self.random.choice([INT, BOOL]), 2) for _ in range(self.random.randint(0, 3))]
        return line(depth, "fmt.Println(" + ", ".join(['"at"', *parts]) + ")")

    def branch(self, scope, depth):
        tabs = "\t" * depth
        text = f"{tabs}if {self.expression(scope, BOOL, 2)} {{\n{self.statements(list(scope), depth + 1, 3)}{tabs}}}"
        if self.random.random() < 0.5:
            text += f" else {{\n{self.statements(list(scope), depth + 1, 3)}{tabs}}}"
        return text + "\n"

    def loop(self, scope, depth):
        tabs, i = "\t" * depth, self.name("i")
        inner = self.statements(list(scope) + [(i, "counter")], depth + 1, 3)
        jump = self.random.choice(["", "", f"{tabs}\tif {i} == 2 {{ continue }}\n", f"{tabs}\tif {i} > 1 {{ break }}\n"])
        return f"{tabs}for {i} := 0; {i} < {self.random.randint(0, 5)}; {i}++ {{\n{jump}{inner}{tabs}}}\n"

    def block(self, scope, depth):
        tabs = "\t" * depth
        return f"{tabs}{{\n{self.statements(list(scope), depth + 1, 3)}{tabs}}}\n"

    def literal(self, ty):
        if ty == INT:
            return str(self.random.choice([0, 1, 2, 3, 7, 10, 100, 9223372036854775807]))
        if ty == BOOL:
            return self.random.choice(["true", "false"])
        if ty == POINTER:
            return self.random.choice(["nil", "new(N)", "&N{}", "&N{v: 3}", "&N{1, true, nil}"])
        return self.random.choice(["nil", "make([]int, 3)", "make([]int, 0)"])

    def divisor(self, scope):
        return self.random.choice(["2", "3", "7", f"({self.expression(scope, INT, 1)})"]) if scope else "2"

    def index(self, scope, slice_):
        if self.random.random() < 0.1:
            return f"({self.expression(scope, INT, 1)})"
        return self.random.choice(["0", f"len({slice_}) - 1"])

    def call(self, scope, ty, depth):
        fits = [f for f in self.functions if f[2] == ty]
        if not fits:
            return None
        name, params, _ = self.random.choice(fits)
        args = [str(self.random.randint(0, 3))] + [self.expression(scope, of, depth - 1) for of in params[1:]]
        return f"{name}({', '.join(args)})"

    def expression(self, scope, ty, depth):
        name = self.variable(scope, ty)
        if depth <= 0:
            return name or self.literal(ty)
        pick = self.random.random()
        if pick < 0.25 and name:
            return name
        if pick < 0.4:
            return self.literal(ty)
        if pick < 0.5:
            return self.call(scope, ty, depth) or name or self.literal(ty)
        return {INT: self.int_expression, BOOL: self.bool_expression}.get(ty, lambda *_: name or self.literal(ty))(scope, depth)

    def int_expression(self, scope, depth):
        left = lambda: self.expression(scope, INT, depth - 1)
        name = self.variable(scope, INT) or "total"
        pointer, slice_ = self.variable(scope, POINTER), self.variable(scope, SLICE)
        forms = [lambda: f"({left()} + {name})", lambda: f"({name} - {left()})", lambda: f"({left()} * {name})",
                 lambda: f"({name} / {self.divisor(scope)})", lambda: f"({name} % {self.divisor(scope)})", lambda: f"-{name}",
                 lambda: f"pipe({self.random.randint(0, 3)}, {self.random.randint(0, 5)})", lambda: f"talk({self.random.randint(0, 4)})",
                 lambda: f"share({self.random.randint(1, 3)}, {self.random.randint(0, 6)})"]
        if slice_:
            forms.append(lambda: f"len({slice_})")
        if slice_ and self.random.random() < 0.2:
            forms.append(lambda: f"{slice_}[{self.index(scope, slice_)}]")
        if pointer and self.random.random() < 0.2:
            forms.append(lambda: f"{pointer}.v")
        return self.random.choice(forms)()

    def bool_expression(self, scope, depth):
        name = self.variable(scope, INT) or "total"
        truth = self.variable(scope, BOOL) or "(total > 0)"
        pointer = self.variable(scope, POINTER) or "root"
        side = lambda: self.expression(scope, BOOL, depth - 1)
        forms = [lambda: f"({name} {self.random.choice(['<', '<=', '>', '>=', '==', '!='])} {self.expression(scope, INT, depth - 1)})",
                 lambda: f"({truth} && {side()})", lambda: f"({truth} || {side()})", lambda: f"!{truth}",
                 lambda: f"({pointer} == nil)", lambda: f"({pointer} != nil && {pointer}.b)", lambda: f"({truth} == {side()})"]
        return self.random.choice(forms)()


def program(seed):
    """The program of a seed."""
    return Program(seed).text()


TOKENS = ["+", "-", "*", "/", "%", "==", "!=", "<", "&&", "||", "=", ":=", "+=", "++", "!", "(", ")", "{", "}", "[", "]", ",", ";", ".",
          "0", "1", "true", "nil", "total", "root", "int", "bool", "N", "if", "else", "for", "return", "break", "continue", "go", "func",
          "var", "chan", "<-", "new", "make", "len", "close", "fmt", '"s"']


def mutant(seed):
    """The program of a seed with one of its tokens changed, dropped or doubled, so that most are rejected."""
    import re

    rng = random.Random(f"mutant {seed}")
    parts = re.findall(r'\s+|"[^"]*"|\w+|<-|:=|[-+*/%=!<>]=|\+\+|--|&&|\|\||.', program(seed))
    places = [k for k, part in enumerate(parts) if not part.isspace()]
    k = rng.choice(places[7:])
    parts[k] = rng.choice([rng.choice(TOKENS), rng.choice(TOKENS), "", f"{parts[k]} {parts[k]}", parts[rng.choice(places)]])
    return "".join(parts)
