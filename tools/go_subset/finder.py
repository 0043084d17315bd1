"""A walk through the tree of a text, which notes what is outside the subset."""

from go_subset import known_types
from go_subset.find_declarations import DeclarationFinder
from go_subset.find_statements import StatementFinder
from go_subset.find_types import TypeFinder
from go_subset.find_values import ValueFinder
from go_subset.known_types import Scope

RESERVED = {"int", "bool", "true", "false", "nil", "new", "make", "len", "close", "cap", "append", "fmt", "sync", "init", "_"}


class Finder(DeclarationFinder, TypeFinder, StatementFinder, ValueFinder):
    """What is noted, and the names in scope."""

    def __init__(self):
        self.found = []
        self.scope = Scope(known_types.universe())
        # The results of the function around, and how many loops and other statements a `break` may leave.
        self.results = []
        self.leaves = []

    def note(self, at, construct):
        self.found.append((at, construct))

    def declare(self, name, entity):
        self.check_name(name)
        if name.text != "_":
            self.scope.names[name.text] = entity

    def check_name(self, name):
        if not name.text.isascii():
            self.note(name.at, "name beyond ASCII")
        elif name.text == "_":
            self.note(name.at, "blank name")
        elif name.text in RESERVED:
            self.note(name.at, "reserved name")

    def within(self, part, *words):
        """Walks through a part in a block of its own."""
        self.scope = Scope(self.scope)
        part(*words)
        self.scope = self.scope.outer
