"""What is outside the subset in expressions: a method for each kind of node."""

import re

from go_subset.known_types import (
    NIL,
    element_of,
    is_library,
    is_string,
    is_type,
    library_of,
    member,
    resolved,
    sort_of,
    type_of,
)
from go_subset.library import of_library

BIT_OPERATORS = {"&", "|", "^", "<<", ">>", "&^"}
BUILTINS = {
    "append": "append", "copy": "copy", "cap": "cap", "delete": "map", "panic": "panic", "recover": "panic",
    "print": "Printf", "println": "Printf", "min": "min and max", "max": "min and max", "clear": "clear",
    "complex": "float", "real": "float", "imag": "float",
}  # fmt: skip
# The arguments of these calls may be strings: the call itself is a find.
TAKES_STRINGS = {"panic", "print", "println"}
GOOD_STRING = re.compile(r'"(?:[^"\\\n]|\\[abfnrtv\\"])*"')


class ValueFinder:
    def value(self, node):
        getattr(self, "of_" + node.kind, self.type)(node)
        type_of(node, self.scope)

    def of_name(self, node):
        if not node.text.isascii():
            self.note(node.at, "name beyond ASCII")
        entity = self.scope.find(node.text)
        if entity is not None and entity.sort == "func":
            self.note(node.at, "function value")
        elif entity is not None and entity.sort == "type":
            self.type(node)

    def of_literal(self, node):
        text = node.text
        if node.sort == "string":
            self.note(node.at, "string")
        elif node.sort == "raw":
            self.note(node.at, "raw string")
        elif node.sort == "rune":
            self.note(node.at, "rune")
        elif node.sort in ("float", "imaginary"):
            self.note(node.at, "float")
        elif re.match(r"0[bBoO\d_]", text):
            self.note(node.at, "octal or binary number")
        elif number(text) > 2**63 - 1:
            self.note(node.at, "number too large")

    def of_paren(self, node):
        if is_type(node.inner, self.scope):
            self.type(node)
        else:
            self.value(node.inner)

    def of_select(self, node):
        if is_library(node, self.scope):
            self.library(node)
            return
        self.value(node.base)
        base = type_of(node.base, self.scope)
        if library := library_of(base, node.name.text):
            self.note(node.name.at, of_library(*library.split(".")))
        elif member(base, node.name.text)[0] == "method":
            self.note(node.name.at, "function value")

    def library(self, node):
        package, name = node.base.text, node.name.text
        self.note(node.at, of_library(package, name))

    def of_index(self, node):
        if is_type(node.base, self.scope):
            self.type(node)
            return
        if node.base.kind == "name" and (entity := self.scope.find(node.base.text)) and entity.sort == "func":
            self.note(node.at, "generic")
            return
        self.value(node.base)
        for one in node.words:
            self.value(one)
        base = type_of(node.base, self.scope)
        if is_string(base):
            self.note(node.bracket, "string")
        elif sort_of(base) == "map":
            self.note(node.bracket, "map")

    def of_sliced(self, node):
        self.note(node.bracket, "slicing")
        self.value(node.base)
        for one in node.parts:
            self.value(one)

    def of_asserted(self, node):
        self.note(node.at, "type assertion")
        self.value(node.base)
        if node.type:
            self.type(node.type)

    def of_star(self, node):
        if is_type(node.inner, self.scope):
            self.type(node)
            return
        self.note(node.at, "dereference")
        self.value(node.inner)

    def of_unary(self, node):
        if node.op == "&" and node.inner.kind == "composite" and node.inner.type is not None:
            self.pointed(node)
            return
        if node.op == "&":
            is_struct = sort_of(type_of(node.inner, self.scope)) == "struct" and node.inner.kind != "composite"
            self.note(node.at, "address of a struct" if is_struct else "pointer to a variable")
        elif node.op == "^":
            self.note(node.at, "bit operator")
        self.value(node.inner)

    def pointed(self, node):
        """`&T{..}`, which is in the subset if T is the name of a struct."""
        inner = node.inner
        if inner.type.kind != "name" or sort_of(resolved(inner.type, self.scope)) != "struct":
            self.note(node.at, "pointer to a variable")
            self.value(inner)
            return
        self.elements(inner)

    def of_binary(self, node):
        self.value(node.left)
        self.value(node.right)
        left, right = type_of(node.left, self.scope), type_of(node.right, self.scope)
        if node.op in BIT_OPERATORS:
            self.note(node.at, "bit operator")
        elif is_string(left) or is_string(right):
            self.note(node.at, "string")
        elif node.op in ("==", "!="):
            self.copied(node.left)
            self.copied(node.right)

    def of_composite(self, node):
        if node.type is None:
            self.note(node.at, "struct value" if getattr(node, "is_struct", False) else "slice literal")
        elif node.type.kind in ("slice_type", "array_type"):
            self.note(node.at, "slice literal" if node.type.kind == "slice_type" else "array")
            self.type(node.type.element)
        elif node.type.kind == "name" and sort_of(resolved(node.type, self.scope)) in ("slice", "map", "array"):
            self.type(node.type)
            sort = sort_of(resolved(node.type, self.scope))
            self.note(node.at, sort if sort in ("map", "array") else "slice literal")
        else:
            self.type(node.type)
        self.elements(node)

    def elements(self, node):
        found = resolved(node.type, self.scope) if node.type else getattr(node, "inherited", None)
        is_struct = sort_of(found) == "struct"
        for key, value in node.elements:
            if key is not None and not is_struct and key.kind != "composite":
                self.value(key)
            for part in (key, value):
                if part is not None and part.kind == "composite" and part.type is None:
                    part.inherited = element_of(found)
                    if sort_of(part.inherited) == "pointer":
                        part.inherited = element_of(part.inherited)
                    part.is_struct = sort_of(part.inherited) == "struct"
                    self.value(part)
            if value.kind != "composite" or value.type is not None:
                self.value(value)
                self.copied(value)

    def of_closure(self, node):
        self.note(node.at, "closure")
        self.body_of_closure(node)

    def body_of_closure(self, node):
        self.within(self.function, node.type, node.body)

    def of_call(self, node):
        callee = node.callee
        if is_type(callee, self.scope):
            self.note(node.at, "conversion")
            self.type(callee.inner if callee.kind == "paren" else callee)
            for one in node.arguments:
                self.value(one)
            return
        if node.spread:
            self.note(node.bracket, "variadic function")
        strings = self.callee(node, callee)
        self.arguments(node, strings)

    def callee(self, node, callee):
        """Notes what is called, and returns whether its arguments may be strings."""
        if callee.kind == "name":
            return self.named_callee(node, callee)
        if callee.kind == "select" and is_library(callee, self.scope):
            if callee.base.text == "fmt" and callee.name.text == "Println":
                self.printed(node)
                return True
            self.library(callee)
            return callee.base.text in ("fmt", "errors", "log")
        if callee.kind == "select":
            self.value(callee.base)
            self.member_called(callee)
        else:
            self.value(callee)
        return False

    def named_callee(self, node, callee):
        entity = self.scope.find(callee.text)
        if entity is not None and entity.sort == "builtin":
            return self.builtin(node, callee.text)
        if entity is not None and entity.sort == "var":
            self.note(node.at, "function value")
        return False

    def member_called(self, callee):
        base = type_of(callee.base, self.scope)
        if library := library_of(base, callee.name.text):
            self.note(callee.name.at, of_library(*library.split(".")))
        elif sort_of(base) == "interface":
            self.note(callee.name.at, "interface" if callee.name.text != "Error" else "error")
        elif member(base, callee.name.text)[0] == "field":
            self.note(callee.name.at, "function value")
        else:
            self.note(callee.name.at, "method call")

    def builtin(self, node, name):
        arguments = node.arguments
        if name in BUILTINS:
            self.note(node.at, BUILTINS[name])
        elif name == "len" and arguments:
            found = type_of(arguments[0], self.scope)
            if is_string(found):
                self.note(node.at, "string")
            elif sort_of(found) in ("map", "chan", "array"):
                self.note(node.at, {"map": "map", "chan": "len of a channel", "array": "array"}[sort_of(found)])
        elif name == "make" and arguments:
            if len(arguments) > 2:
                self.note(node.at, "make with a capacity")
            elif arguments[0].kind == "name":
                self.note(node.at, "type definition")
        elif name == "new" and arguments:
            if arguments[0].kind != "name" or sort_of(resolved(arguments[0], self.scope)) != "struct":
                self.note(node.at, "pointer to a variable")
        return name in TAKES_STRINGS

    def printed(self, node):
        for one in node.arguments:
            found = type_of(one, self.scope)
            if sort_of(found) in ("pointer", "slice", "array", "map", "chan", "struct", "func", "interface") or found == NIL:
                self.note(one.at, "Println of a structure")

    def arguments(self, node, strings=False):
        for number, one in enumerate(node.arguments):
            if strings and one.kind == "literal" and one.sort == "string":
                if not GOOD_STRING.fullmatch(one.text):
                    self.note(one.at, "escape")
                continue
            is_type_of = node.callee.kind == "name" and node.callee.text in ("make", "new") and number == 0
            if is_type_of and is_type(one, self.scope):
                if node.callee.text == "make" or one.kind != "name" or sort_of(resolved(one, self.scope)) != "struct":
                    self.type(one)
                continue
            self.value(one)
            if not (node.callee.kind == "name" and node.callee.text == "len"):
                self.copied(one)


def number(text):
    """The value of a decimal or hexadecimal number, or 0 if it is malformed."""
    try:
        return int(text.replace("_", ""), 0)
    except ValueError:
        return 0
