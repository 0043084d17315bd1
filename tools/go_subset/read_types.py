"""Types and parameters, as they are read."""

from go_subset.tree import Node, Unreadable


class TypeReader:
    def type(self):
        kind = self.type_or_none()
        if kind is None:
            raise Unreadable(self.token.at, "a type")
        return kind

    def type_or_none(self):
        token = self.token
        if token.kind == "name":
            return self.type_name()
        if self.took("*"):
            return Node("star", token.at, inner=self.type())
        if self.took("("):
            inner = self.in_brackets(self.type)
            self.expect(")")
            return Node("paren", token.at, inner=inner)
        if self.is_at("["):
            return self.array_type()
        if self.is_at("chan", "<-", "func", "map", "struct", "interface"):
            return self.type_of_word()
        return None

    def type_name(self):
        found = self.name()
        if self.took("."):
            name = self.name()
            found = Node("select", found.at, base=found, name=name)
        if self.is_at("[") and self.ahead().text != "]":
            at = self.take().at
            words = self.in_brackets(self.listed, self.type, "]")
            found = Node("index", found.at, base=found, words=words, bracket=at)
        return found

    def array_type(self):
        at = self.expect("[").at
        if self.took("]"):
            return Node("slice_type", at, element=self.type())
        length = None if self.took("...") else self.in_brackets(self.expression)
        self.expect("]")
        return Node("array_type", at, length=length, element=self.type())

    def type_of_word(self):
        token = self.take()
        if token.text == "func":
            return self.signature(token.at)
        if token.text == "map":
            self.expect("[")
            key = self.in_brackets(self.type)
            self.expect("]")
            return Node("map_type", token.at, key=key, element=self.type())
        if token.text == "struct":
            return self.struct_type(token.at)
        if token.text == "interface":
            return self.interface_type(token.at)
        if token.text == "<-":
            self.expect("chan")
            return Node("chan_type", token.at, direction="receive", element=self.type())
        direction = "send" if self.took("<-") else None
        return Node("chan_type", token.at, direction=direction, element=self.type())

    def struct_type(self, at):
        self.expect("{")
        fields = []
        while not self.is_at("}") and self.token.kind != "end":
            if self.took(";", "\n"):
                continue
            field = self.tried(self.field, ())
            fields += [field] if field else []
        self.expect("}")
        return Node("struct_type", at, fields=fields)

    def field(self):
        at = self.token.at
        if self.is_at("*", "(") or (self.token.kind == "name" and self.ahead().text in (".", "\n", ";", "}")):
            names, kind = [], self.type()
        elif self.token.kind == "name" and self.ahead().kind in ("string", "raw"):
            names, kind = [], self.type()
        elif self.is_generic_before("\n", ";", "}"):
            names, kind = [], self.type()
        else:
            names, kind = self.names(), self.type()
        tag = self.take() if self.token.kind in ("string", "raw") else None
        self.end_statement()
        return Node("field", at, names=names, type=kind, tag=tag)

    def interface_type(self, at):
        self.expect("{")
        methods = []
        while not self.is_at("}") and self.token.kind != "end":
            if self.took(";", "\n"):
                continue
            method = self.tried(self.method_of_interface, ())
            methods += [method] if method else []
        self.expect("}")
        return Node("interface_type", at, methods=methods)

    def method_of_interface(self):
        if self.token.kind == "name" and self.ahead().text == "(":
            name = self.name()
            method = Node("method", name.at, name=name, type=self.signature(name.at))
        else:
            self.took("~")
            method = Node("embedded", self.token.at, type=self.type_union())
        self.end_statement()
        return method

    def signature(self, at):
        parameters = self.parameters()
        results = []
        if self.is_at("("):
            results = self.parameters()
        elif (kind := self.type_or_none()) is not None:
            results = [Node("parameter", kind.at, names=[], type=kind, is_variadic=False)]
        return Node("func_type", at, parameters=parameters, results=results)

    def parameters(self):
        self.expect("(")
        entries = self.in_brackets(self.listed, self.entry, ")")
        if not any(kind for _, kind, _ in entries):
            return [Node("parameter", name.at, names=[], type=name, is_variadic=False) for name, _, _ in entries]
        found, waiting = [], []
        for name, kind, is_variadic in entries:
            if kind is None:
                waiting.append(name)
                continue
            if name is None and waiting:
                # Types without names, of which some are only words.
                found += [Node("parameter", one.at, names=[], type=one, is_variadic=False) for one in waiting]
                waiting = []
            names = [*waiting, name] if name else []
            found.append(Node("parameter", (names or [kind])[0].at, names=names, type=kind, is_variadic=is_variadic))
            waiting = []
        found += [Node("parameter", one.at, names=[], type=one, is_variadic=False) for one in waiting]
        return found

    def is_generic_before(self, *ends):
        """Whether what is next is a type such as `T[int]`, and not a name with a type such as `a [n]int`."""
        begin = self.next
        try:
            self.type_name()
            return self.tokens[self.next - 1].text == "]" and self.is_at(*ends)
        except Unreadable:
            return False
        finally:
            self.next = begin

    def entry(self):
        """A name with its type, or one of both: a name alone may turn out to be a type."""
        if self.took("..."):
            return None, self.type(), True
        if self.token.kind != "name":
            return None, self.type(), False
        if self.ahead().text in (",", ")"):
            return self.name(), None, False
        if self.ahead().text == "." or self.is_generic_before(",", ")"):
            return None, self.type(), False
        name = self.name()
        if self.took("..."):
            return name, self.type(), True
        return name, self.type(), False
