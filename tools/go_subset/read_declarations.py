"""Declarations, as they are read: a method for each production."""

from go_subset.tree import Node, Unreadable

DECLARATIONS = {"import", "const", "type", "var", "func"}


class DeclarationReader:
    def file(self):
        found = []
        head = self.tried(self.package, DECLARATIONS)
        while self.token.kind != "end":
            if self.took(";", "\n"):
                continue
            found += self.tried(self.declaration, DECLARATIONS) or []
        return Node("file", 0, package=head, declarations=found)

    def package(self):
        self.expect("package")
        name = self.name()
        self.end_statement()
        return name

    def declaration(self):
        if not self.is_at(*DECLARATIONS):
            raise Unreadable(self.token.at, "a declaration")
        found = [self.function()] if self.is_at("func") else self.grouped()
        self.end_statement()
        return found

    def grouped(self):
        word = self.take()
        part = {"import": self.imported, "const": self.constant, "type": self.type_declared, "var": self.variable}[word.text]
        if not self.took("("):
            return [part(word, 0)]
        found = []
        while not self.is_at(")") and self.token.kind != "end":
            if self.took(";", "\n"):
                continue
            one = self.tried(lambda: self.one_of_group(part, word, len(found)), ())
            found += [one] if one else []
        self.expect(")")
        return found

    def one_of_group(self, part, word, count):
        one = part(word, count)
        self.end_statement()
        return one

    def imported(self, word, _):
        at, name = self.token.at, None
        if self.token.kind == "name" or self.is_at("."):
            name = self.take().text
        if self.token.kind not in ("string", "raw"):
            raise Unreadable(self.token.at, "a path")
        path = self.take()
        return Node("import", at, name=name, path=path.text[1:-1], path_at=path.at)

    def constant(self, word, count):
        names = self.names()
        kind = None if self.is_at("=") or self.is_at_end_of_statement() else self.type()
        values = self.expressions() if self.took("=") else None
        return Node("const", names[0].at, word=word.at, names=names, type=kind, values=values, count=count)

    def variable(self, word, _):
        names = self.names()
        kind = None if self.is_at("=") else self.type()
        equals = self.token.at
        values = self.expressions() if self.took("=") else []
        return Node("var", names[0].at, names=names, type=kind, values=values, equals=equals)

    def type_declared(self, word, _):
        name = self.name()
        parameters = []
        first, second = self.ahead(), self.ahead(2)
        # `type T [n]int` has no parameters.
        is_parameter = first.kind == "name" and (second.kind in ("name", "keyword") or second.text in (",", "~", "["))
        if self.is_at("[") and is_parameter:
            self.take()
            parameters = self.in_brackets(self.listed, self.parameter_of_type, "]")
        is_alias = bool(self.took("="))
        return Node("type", name.at, name=name, parameters=parameters, is_alias=is_alias, type=self.type())

    def parameter_of_type(self):
        names = self.names()
        self.took("~")
        kind = self.type_union()
        return Node("parameter", names[0].at, names=names, type=kind)

    def type_union(self):
        kind = self.type()
        while self.took("|"):
            self.took("~")
            self.type()
        return kind

    def function(self):
        word = self.expect("func")
        receiver = self.parameters() if self.is_at("(") else None
        name = self.name()
        parameters = []
        if self.took("["):
            parameters = self.in_brackets(self.listed, self.parameter_of_type, "]")
        kind = self.signature(word.at)
        body = self.in_brackets(self.block) if self.is_at("{") else None
        return Node(
            "func", name.at, word=word.at, receiver=receiver, name=name, parameters=parameters, type=kind, body=body
        )

    def names(self):
        found = [self.name()]
        while self.took(","):
            found.append(self.name())
        return found
