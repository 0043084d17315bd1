"""Expressions, as they are read. A type may be an operand."""

from go_subset.tree import Node, Unreadable

BINARY = {
    "||": 1, "&&": 2, "==": 3, "!=": 3, "<": 3, "<=": 3, ">": 3, ">=": 3, "+": 4, "-": 4, "|": 4, "^": 4,
    "*": 5, "/": 5, "%": 5, "<<": 5, ">>": 5, "&": 5, "&^": 5,
}  # fmt: skip
UNARY = {"+", "-", "!", "^", "<-", "&", "*"}


class ExpressionReader:
    def expressions(self):
        found = [self.expression()]
        while self.took(","):
            found.append(self.expression())
        return found

    def expression(self, least=1):
        left = self.unary()
        while self.token.kind == "operator" and BINARY.get(self.token.text, 0) >= least:
            op = self.take()
            right = self.expression(BINARY[op.text] + 1)
            left = Node("binary", op.at, op=op.text, left=left, right=right)
        return left

    def unary(self):
        token = self.token
        if token.kind != "operator" or token.text not in UNARY:
            return self.primary()
        if token.text == "<-" and self.ahead().text == "chan":
            return self.primary()
        self.take()
        inner = self.unary()
        if token.text == "*":
            return Node("star", token.at, inner=inner)
        return Node("unary", token.at, op=token.text, inner=inner)

    def primary(self):
        found = self.operand()
        while True:
            if self.is_at("."):
                found = self.selected(found)
            elif self.is_at("["):
                found = self.indexed(found)
            elif self.is_at("("):
                found = self.called(found)
            elif self.is_at("{") and self.is_literal_type(found):
                found = self.literal(found)
            else:
                return found

    def operand(self):
        token = self.token
        if token.kind in ("int", "float", "imaginary", "rune", "string", "raw"):
            self.take()
            return Node("literal", token.at, sort=token.kind, text=token.text)
        if token.kind == "name":
            return self.name()
        if self.is_at("("):
            self.take()
            inner = self.in_brackets(self.expression)
            self.expect(")")
            return Node("paren", token.at, inner=inner)
        if self.is_at("func"):
            self.take()
            kind = self.signature(token.at)
            if self.is_at("{"):
                return Node("closure", token.at, type=kind, body=self.in_brackets(self.block))
            return kind
        if self.is_at("[", "chan", "<-", "map", "struct", "interface"):
            return self.type()
        raise Unreadable(token.at, "an expression")

    def selected(self, base):
        self.take()
        if self.took("("):
            kind = None if self.took("type") else self.in_brackets(self.type)
            self.expect(")")
            return Node("asserted", base.at, base=base, type=kind)
        return Node("select", base.at, base=base, name=self.name())

    def indexed(self, base):
        bracket = self.take().at
        parts, colons = [None], 0
        before, self.level = self.level, max(self.level, 0) + 1
        while not self.is_at("]"):
            if self.took(":"):
                colons += 1
                parts.append(None)
            elif self.took(","):
                parts.append(None)
            else:
                parts[-1] = self.expression()
                if not self.is_at(":", ",", "]"):
                    raise Unreadable(self.token.at, "`]`")
        self.take()
        self.level = before
        if colons:
            return Node("sliced", base.at, base=base, parts=[part for part in parts if part], bracket=bracket)
        words = [part for part in parts if part]
        if not words:
            raise Unreadable(bracket, "an index")
        return Node("index", base.at, base=base, words=words, bracket=bracket)

    def called(self, callee):
        at = self.take().at
        spread = []
        arguments = self.in_brackets(self.listed, lambda: self.argument(spread), ")")
        return Node("call", callee.at, callee=callee, arguments=arguments, spread=bool(spread), bracket=at)

    def argument(self, spread):
        found = self.expression()
        if self.took("..."):
            spread.append(True)
        return found

    def is_literal_type(self, node):
        if node.kind in ("slice_type", "array_type", "map_type", "struct_type"):
            return True
        while node.kind in ("index", "select"):
            node = node.base
        return node.kind == "name" and self.level >= 0

    def literal(self, kind):
        brace = self.expect("{").at
        elements = self.in_brackets(self.listed, self.element, "}")
        at = kind.at if kind else brace
        return Node("composite", at, type=kind, elements=elements, brace=brace)

    def element(self):
        """A key, or None, and a value."""
        value = self.element_value()
        if self.took(":"):
            return value, self.element_value()
        return None, value

    def element_value(self):
        return self.literal(None) if self.is_at("{") else self.expression()
