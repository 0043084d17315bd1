"""What is outside the subset in types: a method for each kind of node."""

from go_subset.known_types import FLOATS, INTEGERS, resolved, sort_of
from go_subset.tree import NOT_GO


class TypeFinder:
    def type(self, node):
        getattr(self, node.kind + "_as_type", self.other_as_type)(node)

    def other_as_type(self, node):
        self.note(node.at, NOT_GO)

    def name_as_type(self, node):
        text = node.text
        entity = self.scope.find(text)
        if entity is None or entity.sort != "type":
            return
        if entity.node is not None:
            self.named_as_type(node, entity)
        elif entity.kind == ("interface",):
            self.note(node.at, "error" if text == "error" else "interface")
        elif text in INTEGERS:
            self.note(node.at, "integer type")
        elif text in FLOATS:
            self.note(node.at, "float")
        elif text == "string":
            self.note(node.at, "string")

    def named_as_type(self, node, entity):
        sort = sort_of(("named", entity))
        if sort == "struct":
            self.note(node.at, "struct value")
        elif sort == "interface":
            self.note(node.at, "interface")
        else:
            self.note(node.at, "type definition")

    def select_as_type(self, node):
        self.library(node)

    def star_as_type(self, node):
        inner = node.inner
        if inner.kind == "name" and sort_of(resolved(inner, self.scope)) == "struct":
            return
        if inner.kind == "select":
            self.type(inner)
            return
        if inner.kind == "name" and (entity := self.scope.find(inner.text)) and entity.sort != "type":
            return
        self.note(node.at, "pointer to a variable")
        self.type(inner)

    def paren_as_type(self, node):
        self.note(node.at, "type in parentheses")
        self.type(node.inner)

    def index_as_type(self, node):
        self.note(node.at, "generic")
        for one in node.words:
            self.type(one)

    def slice_type_as_type(self, node):
        self.type(node.element)

    def array_type_as_type(self, node):
        self.note(node.at, "array")
        if node.length:
            self.value(node.length)
        self.type(node.element)

    def map_type_as_type(self, node):
        self.note(node.at, "map")
        self.type(node.key)
        self.type(node.element)

    def chan_type_as_type(self, node):
        if node.direction:
            self.note(node.at, "directional channel")
        self.type(node.element)

    def func_type_as_type(self, node):
        self.note(node.at, "function value")
        for one in [*node.parameters, *node.results]:
            self.type(one.type)

    def struct_type_as_type(self, node):
        self.note(node.at, "anonymous struct")
        self.fields(node.fields)

    def interface_type_as_type(self, node):
        self.note(node.at, "interface")
        self.methods(node)

    def methods(self, node):
        for method in node.methods:
            if method.kind == "method":
                for one in [*method.type.parameters, *method.type.results]:
                    self.type(one.type)
