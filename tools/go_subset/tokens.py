"""Tokens of Go: all of Go's, with those that rgo leaves out, and never an error.

A text that is no Go is divided as well: a byte that begins no token is a token of the kind `bad`, and a literal or a
comment that is not closed ends with its line or with the text.
"""

import bisect
import collections
import re

# `at` is where a token begins, counted in characters. A `;` that is inserted at the end of a line has the text "\n".
Token = collections.namedtuple("Token", "kind text at")

KEYWORDS = set(
    "break case chan const continue default defer else fallthrough for func go goto if import interface map package"
    " range return select struct switch type var".split()
)
OPERATORS = sorted(
    "+ - * / % & | ^ << >> &^ += -= *= /= %= &= |= ^= <<= >>= &^= && || <- ++ -- == < > = ! ~ != <= >= := ... ( ) [ ] { }"
    " , ; . :".split(),
    key=len,
    reverse=True,
)
INT = r"0[xX][\da-fA-F_]+|0[bBoO][\d_]+|\d[\d_]*"
FLOAT = (
    r"0[xX][\da-fA-F_]*\.?[\da-fA-F_]*[pP][+-]?[\d_]+|\d[\d_]*\.[\d_]*(?:[eE][+-]?[\d_]+)?"
    r"|\d[\d_]*[eE][+-]?[\d_]+|\.\d[\d_]*(?:[eE][+-]?[\d_]+)?"
)
# The first form that fits is taken.
FORMS = [
    ("newline", r"\n"),
    ("blank", r"[ \t\r]+"),
    ("comment", r"//[^\n]*|/\*(?s:.)*?(?:\*/|\Z)"),
    ("imaginary", f"(?:{FLOAT}|{INT})i"),
    ("float", FLOAT),
    ("int", INT),
    ("rune", r"'(?:\\[^\n]|[^\\'\n])*(?:'|(?=\n)|\Z)"),
    ("string", r'"(?:\\[^\n]|[^\\"\n])*(?:"|(?=\n)|\Z|\\(?=\n))'),
    ("raw", r"`[^`]*(?:`|\Z)"),
    ("name", r"[^\W\d]\w*"),
    ("operator", "|".join(map(re.escape, OPERATORS))),
    ("bad", r"(?s:.)"),
]
SCAN = re.compile("|".join(f"(?P<{kind}>{form})" for kind, form in FORMS))
VALUES = {"name", "int", "float", "imaginary", "rune", "string", "raw"}
ENDS = {"break", "continue", "fallthrough", "return", "++", "--", ")", "]", "}"}


def ends_line(token):
    """Whether a newline after this token ends a statement."""
    return token is not None and (token.kind in VALUES or token.text in ENDS)


def tokens_of(text):
    """The tokens of a text, with those that are inserted. The last one has the kind `end`."""
    found, last = [], None
    for match in SCAN.finditer(text, 1 if text.startswith("\ufeff") else 0):
        kind, word = match.lastgroup, match.group()
        if kind == "blank" or (kind == "comment" and "\n" not in word):
            continue
        if kind in ("newline", "comment"):
            if ends_line(last):
                found.append(Token("operator", "\n", match.start()))
            last = None
            continue
        if kind == "name" and word in KEYWORDS:
            kind = "keyword"
        last = Token(kind, word, match.start())
        found.append(last)
    if ends_line(last):
        found.append(Token("operator", "\n", len(text)))
    return found + [Token("end", "", len(text))]


class Lines:
    """Lines and columns of the places of a text. Both count from 1, and columns count bytes."""

    def __init__(self, text):
        self.text = text
        self.starts = [0, *(found.end() for found in re.finditer("\n", text))]

    def place(self, at):
        line = bisect.bisect_right(self.starts, at)
        return line, len(self.text[self.starts[line - 1] : at].encode("utf-8", "surrogatepass")) + 1
