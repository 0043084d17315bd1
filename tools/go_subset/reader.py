"""A reader of Go: the tree of a text by the grammar of The Go Programming Language Specification.

It reads all of Go, not only what rgo takes, and it is tolerant: where it cannot continue it notes the place, and goes on
with the next statement or declaration.
"""

from go_subset.read_declarations import DeclarationReader
from go_subset.read_expressions import ExpressionReader
from go_subset.read_statements import StatementReader
from go_subset.read_types import TypeReader
from go_subset.tokens import tokens_of
from go_subset.tree import Node, Unreadable

OPENING = {"(": ")", "[": "]", "{": "}"}


def read(text):
    """The declarations of a text, and the places at which it is no Go, each with what would be there."""
    reader = Reader(tokens_of(text))
    return reader.file(), reader.faults


class Reader(DeclarationReader, TypeReader, StatementReader, ExpressionReader):
    """The words that all productions are made of, and what is done at a fault."""

    def __init__(self, tokens):
        self.tokens = tokens
        self.next = 0
        self.faults = []
        # Below 0 between `if`, `for` or `switch` and the block, where a `{` begins no literal.
        self.level = 0

    @property
    def token(self):
        return self.tokens[self.next]

    def ahead(self, count=1):
        return self.tokens[min(self.next + count, len(self.tokens) - 1)]

    def is_at(self, *texts):
        return self.token.kind in ("operator", "keyword") and self.token.text in texts

    def is_at_end_of_statement(self):
        return self.is_at(";", "\n", ")", "}") or self.token.kind == "end"

    def take(self):
        token = self.token
        if token.kind != "end":
            self.next += 1
        return token

    def took(self, *texts):
        return self.take() if self.is_at(*texts) else None

    def expect(self, *texts):
        if not self.is_at(*texts):
            raise Unreadable(self.token.at, " or ".join(f"`{text}`" for text in texts))
        return self.take()

    def name(self):
        if self.token.kind != "name":
            raise Unreadable(self.token.at, "a name")
        token = self.take()
        return Node("name", token.at, text=token.text)

    def end_statement(self):
        if not self.took(";", "\n") and not self.is_at_end_of_statement():
            raise Unreadable(self.token.at, "the end of the statement")

    def listed(self, part, end):
        """Parts with commas between them, and perhaps one after the last, up to the closing bracket, which is taken."""
        found = []
        while not self.is_at(end) and self.token.kind != "end":
            found.append(part())
            if not self.took(","):
                break
        self.expect(end)
        return found

    def in_brackets(self, part, *words):
        """What a part reads between brackets, where literals may begin."""
        before, self.level = self.level, max(self.level, 0) + 1
        try:
            return part(*words)
        finally:
            self.level = before

    def tried(self, part, stops):
        """What a part reads, or None: then the fault is noted, and the tokens up to the next statement are skipped."""
        begin, level = self.next, self.level
        try:
            return part()
        except Unreadable as fault:
            self.faults.append(fault.args)
            self.level = level
            self.skip(begin, stops)
            return None

    def skip(self, begin, stops):
        """Skips to the end of the line or statement at which the reader stopped, without its open brackets."""
        depth = 0
        for token in self.tokens[begin : self.next]:
            if token.kind == "operator":
                depth += (token.text in OPENING) - (token.text in OPENING.values())
        depth = max(depth, 0)
        if self.next == begin:
            self.take()
            depth += (self.tokens[begin].text in OPENING)
        while self.token.kind != "end":
            if self.token.kind == "keyword" and self.token.text in stops and self.tokens[self.next - 1].text in ("\n", "}"):
                return
            if self.token.kind == "operator":
                if self.token.text in OPENING:
                    depth += 1
                elif self.token.text in OPENING.values():
                    if depth == 0:
                        return
                    depth -= 1
                elif self.token.text in (";", "\n") and depth == 0:
                    self.take()
                    return
            self.take()
