"""What is outside the subset in statements: a method for each kind of node."""

from go_subset.find_declarations import value_type
from go_subset.known_types import (
    Entity,
    INT,
    RUNE,
    element_of,
    is_library,
    is_string,
    is_type,
    resolved,
    sort_of,
    type_of,
    under,
)
from go_subset.tree import NOT_GO, plain

BIT_OPERATORS = {"&", "|", "^", "<<", ">>", "&^"}
RANGES = {
    "slice": "range over a slice", "array": "range over a slice", "chan": "range over a channel", "map": "range over a map",
}  # fmt: skip


class StatementFinder:
    def statements(self, body):
        for one in body:
            self.statement(one)

    def statement(self, node):
        if node is not None:
            getattr(self, "see_" + node.kind)(node)

    def see_block(self, node):
        self.within(self.statements, node.body)

    def see_declared(self, node):
        for one in node.declarations:
            getattr(self, one.kind + "_inside")(one)

    def const_inside(self, node):
        self.const_outside(node)
        self.collect_values(node)

    def type_inside(self, node):
        self.note(node.at, "local type")
        self.scope.names[node.name.text] = self.type_entity(node)
        self.type_declaration(node)

    def var_inside(self, node):
        if node.type:
            self.type(node.type)
        for value in node.values:
            self.value(value)
        if len(node.values) > 1:
            self.note(node.at, "several variables")
        elif node.values and len(node.names) > 1:
            self.several_of_one(node, node.names, node.values[0])
        for number, name in enumerate(node.names):
            found = value_type(node.type, node.values, number, self.scope)
            if number < len(node.values):
                self.copied(node.values[number])
            self.declare(name, Entity("var", found))

    def see_expression(self, node):
        self.value(node.inner)

    def see_count(self, node):
        self.value(node.inner)

    def see_send(self, node):
        self.value(node.channel)
        self.value(node.value)
        self.copied(node.value)

    def see_assign(self, node):
        if len(node.rights) > 1:
            self.note(node.at, "several assignments")
        elif len(node.lefts) > 1:
            self.several_of_one(node, node.lefts, node.rights[0])
        if node.op[:-1] in BIT_OPERATORS:
            self.note(node.at, "bit operator")
        for one in map(plain, node.lefts):
            if one.kind != "name" or one.text != "_":
                self.value(one)
            elif len(node.lefts) == 1:
                self.note(one.at, "blank name")
        if node.op == "+=" and is_string(type_of(node.lefts[0], self.scope)):
            self.note(node.at, "string")
        for one in node.rights:
            self.value(one)
            self.copied(one)

    def see_define(self, node):
        for one in node.rights:
            self.value(one)
            self.copied(one)
        if len(node.rights) > 1:
            self.note(node.at, "several variables")
        elif len(node.lefts) > 1:
            self.several_of_one(node, node.lefts, node.rights[0])
        for number, name in enumerate(node.lefts):
            if name.kind == "name" and name.text != "_":
                self.declare(name, Entity("var", value_type(None, node.rights, number, self.scope)))
            elif name.kind == "name" and len(node.lefts) == 1:
                self.note(name.at, "blank name")

    def several_of_one(self, node, lefts, right):
        """Several names for one value: `v, ok := ..` or the results of a call."""
        right = plain(right)
        is_question = right.kind in ("index", "asserted") or (right.kind == "unary" and right.op == "<-")
        self.note(node.at, "comma ok" if is_question else "several results")

    def copied(self, node):
        """Notes a value that is copied where it is assigned, passed or compared: after porting nothing would copy it."""
        node = plain(node)
        if node.kind in ("name", "select", "index", "star") and not is_type(node, self.scope):
            if sort_of(type_of(node, self.scope)) in ("struct", "array"):
                self.note(node.at, "copy of a struct")

    def see_if(self, node):
        self.within(self.if_with_header, node)

    def if_with_header(self, node):
        self.statement(node.first)
        self.statement(node.condition)
        self.statement(node.then)
        self.statement(node.other)

    def see_for(self, node):
        self.within(self.for_with_header, node)

    def for_with_header(self, node):
        self.statement(node.first)
        self.statement(node.condition)
        self.statement(node.last)
        self.body_of("for", node.body)

    def body_of(self, word, body):
        self.leaves.append(word)
        self.statement(body)
        self.leaves.pop()

    def see_range(self, node):
        if not hasattr(node, "body"):
            self.note(node.at, NOT_GO)
            return
        self.within(self.range_with_header, node)

    def range_with_header(self, node):
        self.value(node.subject)
        found = type_of(node.subject, self.scope)
        found = element_of(found) if sort_of(found) == "pointer" else found
        sort = sort_of(found)
        if is_string(found):
            self.note(node.word, "range over a string")
        elif sort == "basic":
            self.note(node.word, "range over a number")
        else:
            self.note(node.word, RANGES.get(sort, "range"))
        first, second = range_types(found)
        for name, kind in zip(node.lefts, (first, second)):
            if not node.is_define:
                self.value(name)
            elif name.kind == "name" and name.text != "_":
                self.declare(name, Entity("var", kind))
                if sort_of(kind) in ("struct", "array") and kind is second:
                    self.note(name.at, "copy of a struct")
        self.body_of("for", node.body)

    def see_switch(self, node):
        self.within(self.switch_with_header, node)

    def switch_with_header(self, node):
        self.statement(node.first)
        asserted, name = typed_switch(node.subject)
        if asserted is not None:
            self.note(node.at, "type switch")
            self.value(asserted.base)
        else:
            self.note(node.at, "switch")
            self.statement(node.subject)
        for clause in node.clauses:
            kinds = [resolved(value, self.scope) for value in clause.values] if asserted is not None else []
            for value in clause.values:
                if asserted is None:
                    self.value(value)
                elif value.kind != "name" or value.text != "nil":
                    self.type(value)
            self.within(self.clause, clause, name, kinds)

    def clause(self, clause, name, kinds):
        if name is not None:
            self.scope.names[name.text] = Entity("var", kinds[0] if len(kinds) == 1 else ("interface",))
        self.leaves.append("switch")
        self.statements(clause.body)
        self.leaves.pop()

    def see_select_statement(self, node):
        self.note(node.at, "select")
        for clause in node.clauses:
            self.within(self.communication, clause)

    def communication(self, clause):
        for value in clause.values:
            self.statement(value)
        self.clause(clause, None, [])

    def see_go(self, node):
        call = node.call
        if call.kind == "call" and call.callee.kind == "closure":
            self.note(node.at, "go func")
            self.body_of_closure(call.callee)
            self.arguments(call)
            return
        self.value(call)
        if call.kind == "call" and self.has_other_target(call):
            self.note(node.at, "go of a call with a result")

    def has_other_target(self, call):
        found = type_of(call.callee, self.scope)
        is_name = call.callee.kind == "name"
        is_builtin = is_name and (entity := self.scope.find(call.callee.text)) and entity.sort == "builtin"
        is_print = is_library(call.callee, self.scope)
        return is_builtin or is_print or bool(found and found[0] == "func" and found[1])

    def see_defer(self, node):
        self.note(node.at, "defer")
        if node.call.kind == "call" and node.call.callee.kind == "closure":
            self.body_of_closure(node.call.callee)
            self.arguments(node.call)
        else:
            self.value(node.call)

    def see_return(self, node):
        if len(node.values) > 1:
            self.note(node.at, "several results")
        elif not node.values and self.results:
            self.note(node.at, "named result")
        for value in node.values:
            self.value(value)
            self.copied(value)

    def see_branch(self, node):
        if node.label is not None or node.word == "goto":
            self.note(node.at, "label")
        elif node.word == "fallthrough":
            self.note(node.at, "switch")
        elif node.word == "break" and self.leaves and self.leaves[-1] == "switch" and "for" in self.leaves:
            self.note(node.at, "break in a switch")

    def see_label(self, node):
        self.note(node.at, "label")
        self.statement(node.inner)


def range_types(found):
    """The types of the two variables of a `range` over something of a type."""
    sort = sort_of(found)
    if is_string(found):
        return INT, RUNE
    if sort == "map":
        return under(found)[1], element_of(found)
    if sort == "chan":
        return element_of(found), None
    return INT, element_of(found)


def typed_switch(subject):
    """The `x.(type)` of a switch and the name that it is given, or None for each."""
    if subject is None:
        return None, None
    name, value = None, getattr(subject, "inner", None)
    if subject.kind == "define" and len(subject.rights) == 1 and subject.lefts[0].kind == "name":
        name, value = subject.lefts[0], subject.rights[0]
    if value is not None and value.kind == "asserted" and value.type is None:
        return value, name
    return None, None
