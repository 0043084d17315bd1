"""Statements, as they are read."""

from go_subset.tree import Node, Unreadable

ASSIGN = {"=", "+=", "-=", "*=", "/=", "%=", "&=", "|=", "^=", "<<=", ">>=", "&^="}


class StatementReader:
    def block(self):
        at = self.expect("{").at
        before, self.level = self.level, 0
        body = self.statements()
        self.level = before
        return Node("block", at, body=body, end=self.expect("}").at)

    def statements(self):
        found = []
        while not self.is_at("}", "case", "default") and self.token.kind != "end":
            if self.took(";", "\n"):
                continue
            one = self.tried(self.whole_statement, ())
            found += [one] if one else []
        return found

    def whole_statement(self):
        one = self.statement()
        self.end_statement()
        return one

    def statement(self):
        token = self.token
        if token.kind == "keyword":
            reads = {
                "if": self.if_statement, "for": self.for_statement, "switch": self.switch, "select": self.select,
                "go": self.started, "defer": self.started, "return": self.returned, "break": self.branch,
                "continue": self.branch, "goto": self.branch, "fallthrough": self.branch,
            }.get(token.text)  # fmt: skip
            if reads:
                return reads()
            if token.text in ("const", "type", "var"):
                return Node("declared", token.at, declarations=self.grouped())
        if self.is_at("{"):
            return self.block()
        if token.kind == "name" and self.ahead().text == ":" and self.ahead().kind == "operator":
            name = self.name()
            self.take()
            inner = None if self.is_at_end_of_statement() else self.statement()
            return Node("label", token.at, name=name, inner=inner)
        return self.simple()

    def simple(self, in_for=False):
        at = self.token.at
        if in_for and self.took("range"):
            return Node("range", at, lefts=[], is_define=False, subject=self.expression())
        lefts = self.expressions()
        token = self.token
        if self.took(":="):
            if in_for and self.took("range"):
                return Node("range", at, lefts=lefts, is_define=True, subject=self.expression())
            return Node("define", token.at, lefts=lefts, rights=self.expressions())
        if self.is_at(*ASSIGN):
            self.take()
            if token.text == "=" and in_for and self.took("range"):
                return Node("range", at, lefts=lefts, is_define=False, subject=self.expression())
            return Node("assign", token.at, lefts=lefts, op=token.text, rights=self.expressions())
        if len(lefts) > 1:
            raise Unreadable(token.at, "`=` or `:=`")
        if self.took("++", "--"):
            return Node("count", token.at, inner=lefts[0])
        if self.took("<-"):
            return Node("send", token.at, channel=lefts[0], value=self.expression())
        return Node("expression", at, inner=lefts[0])

    def header(self, part):
        before, self.level = self.level, -1
        try:
            return part()
        finally:
            self.level = before

    def if_statement(self):
        at = self.expect("if").at
        first, condition = self.header(self.header_of_if)
        then = self.block()
        other = None
        if self.took("else"):
            other = self.if_statement() if self.is_at("if") else self.block()
        return Node("if", at, first=first, condition=condition, then=then, other=other)

    def header_of_if(self):
        first = None if self.is_at(";") else self.simple()
        return (first, self.simple()) if self.took(";") else (None, first)

    def for_statement(self):
        at = self.expect("for").at
        first, condition, last = self.header(self.header_of_for)
        body = self.block()
        if condition is not None and condition.kind == "range":
            condition.word, condition.body = at, body
            return condition
        return Node("for", at, first=first, condition=condition, last=last, body=body)

    def header_of_for(self):
        if self.is_at("{"):
            return None, None, None
        first = None if self.is_at(";") else self.simple(in_for=True)
        if self.is_at("{"):
            return None, first, None
        self.expect(";")
        condition = None if self.is_at(";", "\n") else self.simple()
        self.expect(";", "\n")
        last = None if self.is_at("{") else self.simple()
        return first, condition, last

    def switch(self):
        at = self.expect("switch").at
        first, subject = self.header(self.header_of_switch)
        return Node("switch", at, first=first, subject=subject, clauses=self.clauses(self.case))

    def header_of_switch(self):
        if self.is_at("{"):
            return None, None
        first = None if self.is_at(";") else self.simple()
        if not self.took(";"):
            return None, first
        return first, None if self.is_at("{") else self.simple()

    def select(self):
        at = self.expect("select").at
        return Node("select_statement", at, clauses=self.clauses(self.case_of_select))

    def clauses(self, case):
        self.expect("{")
        before, self.level = self.level, 0
        found = []
        while self.is_at("case", "default"):
            token = self.take()
            values = case() if token.text == "case" else []
            self.expect(":")
            found.append(Node("clause", token.at, values=values, body=self.statements()))
        self.level = before
        self.expect("}")
        return found

    def case(self):
        found = [self.expression()]
        while self.took(","):
            found.append(self.expression())
        return found

    def case_of_select(self):
        return [self.simple()]

    def started(self):
        token = self.take()
        return Node(token.text, token.at, call=self.expression())

    def returned(self):
        at = self.expect("return").at
        return Node("return", at, values=[] if self.is_at_end_of_statement() else self.expressions())

    def branch(self):
        token = self.take()
        label = self.name() if self.token.kind == "name" else None
        return Node("branch", token.at, word=token.text, label=label)
