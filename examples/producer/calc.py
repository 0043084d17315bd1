#!/usr/bin/env python3
"""Compiles a program of a tiny language to a code text with regions.

    calc.py FILE.calc > FILE.code
    rgo runcode < FILE.code

A line is `x = EXPR`, `x[EXPR] = EXPR`, `x = list EXPR`, `print EXPR ..`, `while EXPR`, `if EXPR`, `else` or `end`. An EXPR is a
number, `true`, `false`, `x`, `x[EXPR]`, `len x`, or a combination of these with operators and brackets. Each list variable has
its own region, which is created where a list is made and removed where the list is used for the last time. `rgo code` and `rgo
runcode` report values of the wrong type, and `rgo runcode` reports a trap at the line of FILE.calc.
"""

import re
import sys

TOKEN = re.compile(r"\s*(\d+|[a-z]\w*|[<>=!]=|[-+*/%<>=()\[\]])")
# The operators of each precedence, the lowest first, and their words in the code text.
LEVELS = [{"==": "eq", "!=": "ne", "<": "lt", "<=": "le", ">": "gt", ">=": "ge"},
          {"+": "add", "-": "sub"}, {"*": "mul", "/": "div", "%": "rem"}]  # fmt: skip


def tokens(line, at):
    """The tokens of a line without its comment."""
    found, end = [], 0
    while line[end:].strip():
        token = TOKEN.match(line, end)
        if not token:
            sys.exit(f"line {at}: {line[end:].split()[0]} is not a part of the language")
        found.append(token[1])
        end = token.end()
    return found


class Compiler:
    def __init__(self, text):
        # The types of variables, the variables by name, and the instructions: line, words, what is read and written, targets.
        self.types, self.named, self.code = [], {}, []
        self.lines = [tokens(line.partition("#")[0], at) for at, line in enumerate(text.splitlines(), 1)]
        self.at = 0
        if self.block() is not None:
            sys.exit(f"line {self.at}: no block is open here")
        self.emit("return -", [], None, [])

    def new(self, ty):
        self.types.append(ty)
        return len(self.types) - 1

    def emit(self, words, reads, written, targets=None):
        self.code.append([self.at, words, reads, written, [len(self.code) + 1] if targets is None else targets])
        return written

    # Takes the next token of the line. If `wanted` is given, it has to be that token.
    def take(self, wanted=None):
        token = self.line.pop(0) if self.line else "the end of the line"
        if wanted is not None and token != wanted:
            sys.exit(f"line {self.at}: {token} where {wanted} is wanted")
        return token

    def block(self):
        """Compiles the lines up to the `end` or `else` of a block, and returns that word, or `None` at the end of the text."""
        while self.at < len(self.lines):
            self.line, self.at = self.lines[self.at], self.at + 1
            word = self.take() if self.line else ""
            if word in ("end", "else"):
                if self.line:
                    self.take("the end of the line")
                return word
            if word in ("while", "if"):
                self.branch(word)
            elif word == "print":
                values = [self.expr()]
                while self.line:
                    values.append(self.expr())
                self.emit("print " + ",".join(f"v{v}" for v in values), values, None)
            elif word:
                self.assign(word)
            if self.line:
                self.take("the end of the line")

    def branch(self, word):
        start = len(self.code)
        test = self.expr()
        branch, _ = len(self.code), self.emit("branch", [test], None, [len(self.code) + 1, None])
        last = self.inside("end", "else") if word == "if" else self.inside("end")
        if word == "while" or last == "else":
            jump, _ = len(self.code), self.emit("jump", [], None, [start])
        self.code[branch][4][1] = len(self.code)
        if last == "else":
            self.inside("end")
            self.code[jump][4] = [len(self.code)]

    def inside(self, *wanted):
        """Compiles the lines of a block, which has to end with one of these words, and returns that word."""
        first, last = self.at, self.block()
        if last not in wanted:
            sys.exit(f"line {first}: the block that begins here has no end")
        return last

    def assign(self, name):
        if self.line[:1] == ["["]:
            target, index = self.variable(name), self.index()
            self.take("=")
            value = self.expr()
            return self.emit(f"put v{target} v{index} v{value}", [target, index, value], None)
        self.take("=")
        if self.line[:1] == ["list"]:
            self.take()
            size = self.expr()
            variable = self.declared(name, "[]int")
            return self.emit(f"slice v{variable} v{size}", [size], variable)
        value = self.expr()
        if self.types[value] == "[]int":
            sys.exit(f"line {self.at}: two names of one list would need one region, which this language does not have")
        variable = self.declared(name, self.types[value])
        return self.emit(f"copy v{variable} v{value}", [value], variable)

    def declared(self, name, ty):
        """The variable of a name. The first assignment declares it, and fixes its type."""
        if name not in self.named:
            self.named[name] = self.new(ty)
        if self.types[self.named[name]] != ty:
            sys.exit(f"line {self.at}: {name} has values of another type")
        return self.named[name]

    def variable(self, name):
        return self.named[name] if name in self.named else sys.exit(f"line {self.at}: {name} has no value")

    def index(self):
        self.take("[")
        index = self.expr()
        self.take("]")
        return index

    def expr(self, level=0):
        if level == len(LEVELS):
            return self.operand()
        left = self.expr(level + 1)
        while self.line and self.line[0] in LEVELS[level]:
            op = LEVELS[level][self.take()]
            right = self.expr(level + 1)
            left = self.emit(f"bin v{{0}} {op} v{left} v{right}", [left, right], self.new("int" if level else "bool"))
        return left

    def operand(self):
        word = self.take()
        if word == "(":
            value = self.expr()
            self.take(")")
            return value
        if word.isdigit():
            return self.emit(f"int v{{0}} {int(word)}", [], self.new("int"))
        if word in ("true", "false"):
            return self.emit(f"bool v{{0}} {word}", [], self.new("bool"))
        if word == "len":
            of = self.variable(self.take())
            return self.emit(f"len v{{0}} v{of}", [of], self.new("int"))
        variable = self.variable(word)
        if self.line[:1] == ["["]:
            index = self.index()
            return self.emit(f"at v{{0}} v{variable} v{index}", [variable, index], self.new("int"))
        return variable

    # ---- regions: the class of a list variable has the number of the variable

    def live(self):
        """The lists that are live before each instruction."""
        lists = {v for v, ty in enumerate(self.types) if ty == "[]int"}
        live = [set() for _ in [*self.code, None]]
        while True:
            before = [
                (set().union(*(live[t] for t in targets)) - {written}) | (lists & {*reads})
                for _, _, reads, written, targets in self.code
            ]
            if before == live[:-1]:
                return before, lists
            live[:-1] = before

    def text(self):
        live, lists = self.live()
        if live[0]:
            sys.exit("a list is read that is not made on every way to it")
        names = lambda found: "[" + ",".join(f"r{v}" for v in sorted(found)) + "]"
        yield "rgo code 1\nfunc main 0 - -"
        yield from (f"var {ty} {f'r{v}' if v in lists else '-'}" for v, ty in enumerate(self.types))
        yield "entry -[]"
        for at, (line, words, reads, written, targets) in enumerate(self.code):
            creates = (lists & {*reads, written}) - live[at]
            removes = [f"-{names((live[at] | creates) - live[t])}" for t in targets]
            words = words.format(written)
            if words == "branch":
                words = f"branch v{reads[0]} {targets[0]} {removes[0]} {targets[1]} {removes[1]}"
            elif words == "jump":
                words = f"jump {targets[0]} {removes[0]}"
            elif targets:
                words = f"{words} {removes[0]}"
            yield f"{at} @{line} +{names(creates)} {words}"
        yield "end"


if __name__ == "__main__":
    if len(sys.argv) != 2:
        sys.exit(__doc__.strip())
    with open(sys.argv[1], encoding="utf-8") as file:
        print("\n".join(Compiler(file.read()).text()))
