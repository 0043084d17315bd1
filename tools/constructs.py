"""Which part of Go a message is about: the row of a table in docs/errors that says what to write instead.

`syntax` is reported at the first token with which no program of the grammar can continue. It and those before it show which
part of Go was meant: each entry of CONSTRUCTS has its name, a snippet of the row in docs/errors/syntax.md, and a test. For
other messages the name at the place is looked up in a table of the message's page.
"""

import dataclasses
import re

TOKEN = re.compile(
    rb'//[^\n]*|/\*.*?(?:\*/|\Z)|\s+|(?P<word>[A-Za-z_]\w*)|(?P<number>[0-9][\w]*)|(?P<string>"(?:\\.|[^"\\\n])*"?)'
    rb"|(?P<raw>`[^`]*`?)|(?P<rune>'(?:\\.|[^'\\\n])*'?)"
    rb"|(?P<sign><<=|>>=|&\^=|\.\.\.|&&|\|\||<-|\+\+|--|==|<=|>=|!=|:=|\+=|-=|\*=|/=|%=|&=|\|=|\^=|<<|>>|&\^|.)",
    re.DOTALL,
)
KEYWORDS = """break case chan const continue default defer else fallthrough for func go goto if import interface map package
range return select struct switch type var""".split()
SHIFTS = ["<<", ">>", "<<=", ">>="]
BIT_OPERATORS = ["&", "|", "^", "&^", "&=", "|=", "^=", "&^="]
# What comes before an expression.
BEFORE_VALUES = """( [ { , ; : = := += -= *= /= %= == != < <= > >= + - * / % && || ! <- & return range if for switch case
go defer""".split()
# The most bytes before a place that are read.
LONGEST = 200_000


@dataclasses.dataclass
class Token:
    kind: str
    text: str
    start: int
    line: int

    def __eq__(self, other):
        return self.text == other

    def is_name(self):
        return self.kind == "word" and self.text not in KEYWORDS


NOTHING = Token("", "", -1, 0)


def tokens(text):
    """The tokens of a text in bytes. Comments and blanks are left out, and any byte is a token in the end."""
    found, line, last = [], 1, 0
    for match in TOKEN.finditer(text):
        if match.lastgroup:
            line, last = line + text.count(b"\n", last, match.start()), match.start()
            found.append(Token(match.lastgroup, match[0].decode("utf-8", "replace"), match.start(), line))
    return found


class Place:
    """A place of a text: the token there, or the end of a line, and its neighbours."""

    def __init__(self, text, line, column):
        lines = text.split(b"\n")
        offset = sum(len(one) + 1 for one in lines[: line - 1]) + column - 1
        self.text, self.all = text, tokens(text)
        self.at = next((n for n, token in enumerate(self.all) if token.start >= offset), len(self.all))
        found = self.all[self.at] if self.at < len(self.all) else NOTHING
        # At the end of a line a `;` is meant.
        self.is_end = found.start != offset
        self.token = Token("end", "", offset, line) if self.is_end else found

    def before(self, n=1):
        """The token that is n tokens before the place."""
        return self.all[self.at - n] if n <= self.at else NOTHING

    def after(self, n=1):
        at = self.at + n - self.is_end
        return self.all[at] if at < len(self.all) else NOTHING

    def is_outside(self):
        """Whether the place is in no braces: outside of all functions."""
        depth = sum((token == "{") - (token == "}") for token in self.all[: self.at] if token.kind == "sign")
        return depth <= 0

    def opened(self):
        """The number of the last bracket before the place that is open there, or None."""
        depth = 0
        for at in range(self.at - 1, -1, -1):
            if self.all[at].kind == "sign":
                depth += (self.all[at].text in ")]}") - (self.all[at].text in "([{")
                if depth < 0:
                    return at
        return None

    def statement(self):
        """The tokens of the statement, or of the declaration, from its beginning to the place: those of its line, from
        the last `;` or brace on."""
        at = self.at
        while at and self.all[at - 1].text not in (";", "{", "}") and self.all[at - 1].line == self.token.line:
            at -= 1
        return self.all[at : self.at]

    def starts(self):
        """Whether the place begins a statement or a value."""
        before = self.before()
        return not self.statement() or before.text in BEFORE_VALUES

    def callee(self):
        """The name that is called with the place among its arguments, such as `fmt.Printf`, or None."""
        opened = self.opened()
        if not opened or self.all[opened] != "(" or not self.all[opened - 1].is_name():
            return None
        if opened > 2 and self.all[opened - 2] == "." and self.all[opened - 3].is_name():
            return f"{self.all[opened - 3].text}.{self.all[opened - 1].text}"
        return self.all[opened - 1].text


# ---- what a syntax error is about


def word(text):
    """A test whether the token has this text."""
    return lambda place: place.token == text


def inside(test):
    return lambda place: not place.is_outside() and test(place)


def outside(test):
    return lambda place: place.is_outside() and test(place)


def is_comma(*words):
    """A test for a comma in a statement that has one of these words soon after, or any if there are none."""

    def test(place):
        if place.token != "," or place.is_outside() or place.opened() is not None and place.all[place.opened()] != "{":
            return False
        line = [token.text for token in place.all[place.at :] if token.line == place.token.line]
        return not words or any(each in line for each in words)

    return test


def is_ok(place):
    """`v, ok := <-c`, of a receive."""
    line = [token.text for token in place.all[place.at :] if token.line == place.token.line]
    return is_comma()(place) and any(line[n : n + 2] in ([":=", "<-"], ["=", "<-"]) for n in range(len(line)))


def is_in_range(place):
    """`for .. range`, at the word `range` or at the comma before it."""
    line = [token.text for token in place.all[place.at :] if token.line == place.token.line]
    return place.token == "range" or is_comma("range")(place) and line.index("range") < (line + ["{"]).index("{")


def is_over_channel(place):
    """Nothing but a name with one variable may be a channel, by what the text makes or declares of that name."""
    at = next((n for n in range(place.at, len(place.all)) if place.all[n] == "range"), None)
    if place.token != "range" or at + 1 >= len(place.all) or place.before(2) == ",":
        return False
    name = re.escape(place.all[at + 1].text.encode())
    return bool(re.search(rb"\b" + name + rb"\b[^\n;(){}]*(?:\bmake\(\s*)?(?:<-\s*)?\bchan\b", place.text))


def is_package_type(place):
    """The dot of a type such as `sync.Mutex`."""
    return place.token == "." and place.before().is_name() and place.after().is_name() and not is_go_of_method(place)


def of_package(name):
    return lambda place: is_package_type(place) and f"{place.before().text}.{place.after().text}" == name


def is_go_of_method(place):
    return place.token == "." and place.before(2) in ("go",)


def is_float(place):
    return place.token.kind == "number" and place.before() == "." and place.before(2).kind == "number"


def is_made_with_capacity(place):
    opened = place.opened()
    return place.before() == "," and opened is not None and place.all[opened - 1] == "make"


def is_slicing(place):
    opened = place.opened()
    return place.token == ":" and opened is not None and place.all[opened] == "["


def is_label(place):
    return place.token == ":" and place.before().is_name() and len(place.statement()) == 1


def is_jump_to_label(place):
    word = place.before()
    return place.token.is_name() and word.text in ("break", "continue", "goto") and word.line == place.token.line


def is_struct_value(place):
    """`T{..}` without its `&`, and a type of the package with this name."""
    name = place.before()
    declared = re.search(rb"\btype\s+" + re.escape(name.text.encode()) + rb"\b", place.text) if name.is_name() else None
    return place.token == "{" and bool(declared)


def is_address(place):
    """`&x` of something other than a literal."""
    return place.before().is_name() and place.before(2) == "&" and place.before(3).text in BEFORE_VALUES or (
        place.before() == "&" and place.before(2).text in BEFORE_VALUES
    )


def is_slice_literal(place):
    """`[]T{..}` or `[3]T{..}`, at its `[`, where a value is expected."""
    return place.token == "[" and place.starts() and place.before() != "["


def is_array(place):
    """`[3]T`, at its length."""
    return place.before() == "[" and place.token.kind in ("number", "word") and place.after() == "]"


def is_generic(place):
    is_named = place.before().is_name() and place.before(2).text in ("func", "type")
    return place.token == "[" and is_named and place.after().is_name()


def is_embedded(place):
    """A field without a type in a struct, or with a star."""
    opened = place.opened()
    in_struct = opened is not None and place.all[opened] == "{" and place.all[opened - 1] == "struct"
    has_no_type = (place.is_end or place.token.text in (";", "}")) and place.before().is_name()
    return in_struct and (place.token == "*" and not place.before().is_name() or has_no_type)


def is_method(place):
    return place.token == "(" and place.before() == "func" and place.is_outside()


def has_several_results(place):
    """The `(` of results, or a `,` of a return."""
    if place.token == "(" and place.before() == ")":
        return any(token == "func" for token in place.statement()) or place.is_outside()
    return place.token == "," and any(token == "return" for token in place.statement())


def is_directional(place):
    return place.token == "<-" and "chan" in (place.before().text, place.after().text)


def is_initialised(place):
    """The `=` of a package variable."""
    return place.token == "=" and any(token == "var" for token in place.all[max(0, place.at - 12) : place.at])


def has_several_values(place):
    """`var a, b int = 1, 2` in a function."""
    found = [token.text for token in place.statement()]
    return place.token == "=" and "var" in found and "," in found


def is_other_type(place):
    """A type declaration of something other than a struct."""
    return place.before().is_name() and place.before(2) == "type" or place.token == "=" and place.before(2) == "type"


def is_local_type(place):
    return place.token == "type" and not place.is_outside()


def is_dereference(place):
    return place.token == "*" and place.starts()


# The name of a part of Go, a snippet of its row in docs/errors/syntax.md, and a test of the place. The first that fits is
# taken.
CONSTRUCTS = [
    ("`switch`", "switch x {", word("switch")),
    ("`select`", "select {", word("select")),
    ("`defer`", "defer f()", word("defer")),
    ("`goto`", "goto end", word("goto")),
    ("A constant declaration", "const n = 10", word("const")),
    ("A variadic parameter", "func f(xs ...int) {", word("...")),
    ("A map", "m := map[int]int{}", word("map")),
    ("A receive with `ok`", "v, ok := <-c", is_ok),
    ("`range` over a channel", "for v := range c {", lambda place: is_in_range(place) and is_over_channel(place)),
    ("`range`", "for i := range s {", is_in_range),
    ("A method", "func (p *T) size() int {", is_method),
    ("A function with several results", "func f() (int, bool) {", outside(has_several_results)),
    ("A return of several values", "return a, b", inside(has_several_results)),
    ("A directional channel", "func f(c <-chan int) {", is_directional),
    ("A generic function or type", "type Pair[T any] struct {", is_generic),
    ("An interface", "type Shape interface {", lambda place: place.token == "interface" and place.is_outside()),
    ("An interface", "var x interface{}", word("interface")),
    ("An embedded field", "type T struct { Base }", is_embedded),
    ("A local type", "type local struct { v int }", is_local_type),
    ("A type declaration of something other than a struct", "type number int", is_other_type),
    ("A function value", "var f func()", lambda place: place.token == "func" and not place.starts()),
    ("A closure", "go func() { f(1) }()", word("func")),
    ("`go` of something other than a function of the program", "go fmt.Println(1)", is_go_of_method),
    ("The address of a variable", "p := &x", is_address),
    ("`sync.WaitGroup`", "var wg sync.WaitGroup", of_package("sync.WaitGroup")),
    ("`sync.Mutex`", "var mu sync.Mutex", of_package("sync.Mutex")),
    ("`sync.RWMutex`", "var mu sync.Mutex", of_package("sync.RWMutex")),
    ("A type of another package", "var b strings.Builder", is_package_type),
    ("A float", "x = 1.5", is_float),
    ("A label", "outer:", lambda place: is_label(place) or is_jump_to_label(place)),
    ("`make` of a slice with a capacity", "s = make([]int, 0, 10)", is_made_with_capacity),
    ("Slicing", "s = s[1:2]", is_slicing),
    ("A type assertion", "v = x.(int)", lambda place: place.token == "(" and place.before() == "."),
    ("A struct as a value", "p := T{1, 2}", is_struct_value),
    ("A literal of a slice or an array", "s := []int{1, 2}", is_slice_literal),
    ("An array", "var a [3]int", is_array),
    ("A shift", "x = 1 << 3", lambda place: place.token.text in SHIFTS),
    ("A bit operator", "x = a & 7", lambda place: place.token.text in BIT_OPERATORS),
    ("Following a pointer by `*`", "*p = 1", is_dereference),
    ("A channel of an empty struct", "c := make(chan struct{})", lambda place: place.token == "struct"),
    ("A declaration of several values", "var a, b int = 1, 2", inside(has_several_values)),
    ("The initial value of a package variable", "var n int = 10", outside(is_initialised)),
    ("A declaration of several variables by `:=`", "a, b := 1, 2", is_comma(":=")),
    ("An assignment to several variables", "a, b = b, a", is_comma("=")),
]


def named(text, line, column):
    """The name of the part of Go at a place, and the snippet of its row; None if it is not known."""
    if column > LONGEST or len(text) > LONGEST:
        return None
    place = Place(text, line, column)
    return next(((name, snippet) for name, snippet, test in CONSTRUCTS if test(place)), None)


# ---- the tables of the pages


def rows(page):
    """The rows of all tables of a page: the two cells of each."""
    for row in re.findall(r"^\| (.+) \|$", page, re.MULTILINE):
        found = re.split(r"\s*(?<!\\)\|\s*", row)
        if len(found) == 2 and not found[0].startswith("--"):
            yield tuple(cell.replace("\\|", "|") for cell in found)


def row_with(page, snippet):
    """What a page says in the row that has this snippet, or None."""
    return next((said for go, said in rows(page) if f"`{snippet}`" in go), None)


def advice(said):
    """A cell of a table as a sentence that says what to write. A link is written as its words and its page."""
    said = re.sub(r"\[([^]]+)\]\((?:\.\./)*([^)#]+)[^)]*\)", r"\1 in docs/\2", said)
    if said.startswith("none"):
        rest = said.removeprefix("none").lstrip("; ")
        return f"Nothing takes its place{f': {rest}' if rest else ''}."
    return f"Instead: {said}."


def of_syntax(text, line, column, page):
    """The explanation of a syntax error at a place, or None. `page` is the text of its page."""
    found = named(text, line, column)
    said = found and row_with(page, found[1])
    return f"{found[0]} is left out of rgo (`{found[1]}`). {advice(said)}" if said else None


def of_type(text, line, column, page):
    """The explanation of a name at the place of another message, or of the function that is called with the place as an
    argument; None if the page has no row for it."""
    if len(text) > LONGEST:
        return None
    place = Place(text, line, column)
    selected = place.before() == "." and place.before(2).is_name()
    whole = f"{place.before(2).text}.{place.token.text}" if selected else place.token.text
    called = ""
    if place.token == "(" and place.before().is_name():
        # The place of a call is its parenthesis.
        called = place.before().text if place.before(2) != "." else f"{place.before(3).text}.{place.before().text}"
    # Of what is selected from something other than `fmt` there is one row for all.
    method = "x.f()" if "." in called and not called.startswith("fmt.") else ""
    for name in filter(None, [whole.strip('"'), called, method, place.callee()]):
        said = row_with(page, name)
        if said:
            return f"`{name}` is left out of rgo. {advice(said)}"
    return None
