"""What is outside the subset in declarations and functions."""

import re

from go_subset.known_types import Entity, BOOL, INT, resolved, type_of


class DeclarationFinder:
    def file(self, tree):
        has_main = any(one.kind == "func" and one.receiver is None and one.name.text == "main" for one in tree.declarations)
        if tree.package and (tree.package.text != "main" or not has_main):
            self.note(tree.package.at, "package")
        for one in tree.declarations:
            if one.kind == "import":
                self.import_of(one)
        self.collect(tree.declarations)
        for one in tree.declarations:
            if one.kind != "import":
                getattr(self, one.kind + "_outside")(one)

    def import_of(self, node):
        name = node.name or re.sub(r"^(.*/)?([^/]+?)(/v\d+)?$", r"\2", node.path)
        if node.path != "fmt":
            self.note(node.path_at, "import")
        elif node.name and node.name != "fmt":
            self.note(node.at, "import")
        if name not in (".", "_"):
            self.scope.names[name] = Entity("package")

    def collect(self, declarations):
        """Declares what the package declares, so that it is known everywhere in it."""
        for one in declarations:
            if one.kind == "type":
                self.scope.names[one.name.text] = self.type_entity(one)
        for one in declarations:
            if one.kind == "func" and one.receiver is None:
                self.scope.names[one.name.text] = Entity("func", self.in_package(one.type))
            elif one.kind == "func":
                self.collect_method(one)
            elif one.kind in ("var", "const"):
                self.collect_values(one)

    def in_package(self, node):
        scope = self.scope
        return lambda: resolved(node, scope)

    def type_entity(self, node):
        entity = Entity("type", node=node)
        scope = self.scope
        entity.kind = lambda: resolved(node.type, scope)
        return entity

    def collect_method(self, node):
        kind = node.receiver[0].type if node.receiver else None
        while kind is not None and kind.kind in ("star", "paren", "index"):
            kind = kind.base if kind.kind == "index" else kind.inner
        entity = self.scope.find(kind.text) if kind is not None and kind.kind == "name" else None
        if entity is not None and entity.sort == "type":
            entity.methods[node.name.text] = resolved(node.type, self.scope)

    def collect_values(self, node):
        scope = self.scope
        for number, name in enumerate(node.names):
            kind = (lambda n=number: value_type(node.type, node.values, n, scope)) if node.values or node.type else INT
            self.scope.names[name.text] = Entity(node.kind, kind)

    def type_outside(self, node):
        self.check_name(node.name)
        self.type_declaration(node)

    def type_declaration(self, node):
        if node.parameters:
            self.note(node.at, "generic")
        if node.is_alias or node.type.kind != "struct_type":
            is_interface = node.type.kind == "interface_type"
            self.note(node.at, "interface" if is_interface else "type definition")
            self.within(self.generic, node.parameters, self.methods if is_interface else self.type, node.type)
            return
        self.within(self.generic, node.parameters, self.fields, node.type.fields)

    def generic(self, parameters, part, *words):
        for one in parameters:
            for name in one.names:
                self.scope.names[name.text] = Entity("type", ("interface",))
        part(*words)

    def fields(self, fields):
        for field in fields:
            if not field.names:
                self.note(field.at, "embedded field")
            if field.tag:
                self.note(field.tag.at, "tag")
            for name in field.names:
                self.check_name(name)
            self.type(field.type)

    def const_outside(self, node):
        self.note(node.word if node.count == 0 else node.at, "const")
        for name in node.names:
            self.check_name(name)
        if node.type:
            self.type(node.type)
        for value in node.values or []:
            self.value(value)

    def var_outside(self, node):
        for name in node.names:
            self.check_name(name)
        if node.type:
            self.type(node.type)
        if node.values:
            self.note(node.at, "initialised package variable")
        for value in node.values:
            self.value(value)

    def func_outside(self, node):
        if node.receiver is not None:
            self.note(node.word, "method")
        elif node.name.text == "init":
            self.note(node.at, "init function")
        else:
            self.check_name(node.name)
        if node.body is None:
            self.note(node.at, "package")
        if node.parameters:
            self.note(node.at, "generic")
        self.within(self.generic, node.parameters, self.function, node.type, node.body, node.receiver or [])

    def function(self, kind, body, receiver=()):
        for one in receiver:
            self.parameter(one, is_receiver=True)
        self.signature(kind)
        before, self.results = self.results, kind.results
        leaves, self.leaves = self.leaves, []
        if body is not None:
            self.within(self.statements, body.body)
        self.results, self.leaves = before, leaves

    def signature(self, kind):
        for one in kind.parameters:
            self.parameter(one)
        count = sum(max(1, len(one.names)) for one in kind.results)
        if count > 1:
            self.note(kind.results[0].at, "several results")
        elif kind.results and kind.results[0].names:
            self.note(kind.results[0].at, "named result")
        for one in kind.results:
            self.type(one.type)
            for name in one.names:
                self.scope.names[name.text] = Entity("var", resolved(one.type, self.scope))

    def parameter(self, one, is_receiver=False):
        found = resolved(one.type, self.scope)
        if one.is_variadic:
            self.note(one.at, "variadic function")
            found = ("slice", found)
        elif not one.names and not is_receiver:
            self.note(one.at, "unnamed parameter")
        for name in one.names:
            self.declare(name, Entity("var", found))
        if is_receiver and one.type.kind == "index":
            return
        self.type(one.type)


def value_type(kind, values, number, scope):
    """The type of the name with this number in a declaration, which may have a type and values."""
    if kind is not None:
        return resolved(kind, scope)
    if not values:
        return None
    if len(values) > 1:
        return type_of(values[number], scope) if number < len(values) else None
    found = type_of(values[0], scope)
    if found and found[0] == "several":
        return found[1][number] if number < len(found[1]) else None
    # The second name of `v, ok := ..`.
    return found if number == 0 else BOOL
