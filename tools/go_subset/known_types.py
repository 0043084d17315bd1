"""The types of Go's expressions, as far as a single file tells them.

A type is a tuple that begins with its sort, and None if it is not known:

    ("basic", name)  ("pointer", type)  ("slice", type)  ("array", type)  ("map", key, type)  ("chan", type)
    ("func", results)  ("struct", fields, embedded)  ("interface",)  ("named", entity)  ("library", name)  ("several", types)

`nil` is ("basic", "nil"), and a constant without a type is of the type that it has by default.
"""

from go_subset.library import LIBRARY, LIBRARY_METHODS, LIBRARY_TYPES

INTEGERS = "int8 int16 int32 int64 uint uint8 uint16 uint32 uint64 uintptr byte rune".split()
FLOATS = "float32 float64 complex64 complex128".split()
BASIC = ["int", "bool", "string", *INTEGERS, *FLOATS]
BUILTINS = "append cap clear close complex copy delete imag len make max min new panic print println real recover".split()
INT, BOOL, STRING, NIL = (("basic", name) for name in ("int", "bool", "string", "nil"))
RUNE = ("basic", "rune")
FLOAT, COMPLEX = ("basic", "float64"), ("basic", "complex128")
LITERALS = {"int": INT, "float": FLOAT, "imaginary": COMPLEX, "rune": RUNE, "string": STRING, "raw": STRING}
COMPARISONS = {"==", "!=", "<", "<=", ">", ">=", "&&", "||"}


class Entity:
    """What a name stands for: a variable, a constant, a function, a type, a package or a builtin.

    The type of a variable may be given as a function that finds it when it is asked for.
    """

    def __init__(self, sort, kind=None, node=None):
        self.sort = sort
        self.kind = kind
        self.node = node
        self.value = None
        self.methods = {}

    def type(self):
        if callable(self.kind):
            find, self.kind = self.kind, None
            self.kind = find()
        return self.kind


class Scope:
    """The names of a block, and those of the blocks around it."""

    def __init__(self, outer):
        self.outer = outer
        self.names = {}

    def find(self, name):
        scope = self
        while scope is not None:
            if name in scope.names:
                return scope.names[name]
            scope = scope.outer
        return None


def universe():
    scope = Scope(None)
    scope.names.update((name, Entity("type", ("basic", name))) for name in BASIC)
    scope.names.update((name, Entity("type", ("interface",))) for name in ("any", "error", "comparable"))
    scope.names.update((name, Entity("builtin")) for name in BUILTINS)
    scope.names.update((name, Entity("const", BOOL)) for name in ("true", "false"))
    scope.names.update(nil=Entity("const", NIL), iota=Entity("const", INT))
    return scope


def under(kind):
    """A type without the names that are declared for it."""
    for _ in range(100):
        if kind is None or kind[0] != "named":
            return kind
        kind = kind[1].type()
    return None


def sort_of(kind):
    kind = under(kind)
    return kind[0] if kind else None


def element_of(kind):
    """What a pointer, a slice, an array, a map or a channel leads to."""
    kind = under(kind)
    return kind[-1] if kind and kind[0] in ("pointer", "slice", "array", "map", "chan") else None


def is_string(kind):
    return under(kind) == STRING


def resolved(node, scope):
    """The type that a node of the tree denotes, or None."""
    if node.kind == "name":
        entity = scope.find(node.text)
        if entity is None or entity.sort != "type":
            return None
        return entity.type() if entity.node is None else ("named", entity)
    if node.kind == "select":
        package = scope.find(node.base.text) if node.base.kind == "name" else None
        return ("library", f"{node.base.text}.{node.name.text}") if package and package.sort == "package" else None
    if node.kind == "func_type":
        return ("func", [kind for one in node.results for kind in [resolved(one.type, scope)] * max(1, len(one.names))])
    if node.kind == "struct_type":
        fields = {name.text: resolved(field.type, scope) for field in node.fields for name in field.names}
        embedded = [resolved(field.type, scope) for field in node.fields if not field.names]
        return ("struct", fields, embedded)
    if node.kind == "map_type":
        return ("map", resolved(node.key, scope), resolved(node.element, scope))
    if node.kind in ("slice_type", "array_type", "chan_type"):
        return (node.kind[:-5], resolved(node.element, scope))
    if node.kind == "star":
        return ("pointer", resolved(node.inner, scope))
    if node.kind == "paren":
        return resolved(node.inner, scope)
    if node.kind == "index":
        return resolved(node.base, scope)
    return ("interface",) if node.kind == "interface_type" else None


def is_type(node, scope):
    """Whether a node of the tree denotes a type."""
    if node.kind == "name":
        entity = scope.find(node.text)
        return entity is not None and entity.sort == "type"
    if node.kind in ("paren", "star"):
        return is_type(node.inner, scope)
    if node.kind == "index":
        return is_type(node.base, scope)
    if node.kind == "select":
        return is_library(node, scope) and f"{node.base.text}.{node.name.text}" in LIBRARY_TYPES
    return node.kind.endswith("_type")


def is_library(node, scope):
    """Whether a node is a name of an imported package, such as `time.Now`."""
    if node.kind != "select" or node.base.kind != "name":
        return False
    entity = scope.find(node.base.text)
    return entity is not None and entity.sort == "package"


def member(kind, name, depth=0):
    """What `x.name` is for an x of a type: its sort, `field` or `method`, and its type. Both may be None."""
    is_pointer = sort_of(kind) == "pointer"
    named = element_of(kind) if is_pointer else kind
    if named and named[0] == "named" and name in named[1].methods:
        return "method", named[1].methods[name]
    inner = under(named)
    if inner and inner[0] == "library":
        return "method", ("func", [found] if (found := LIBRARY_METHODS.get(f"{inner[1]}.{name}")) else [])
    if inner and inner[0] == "interface":
        return "method", ("func", [STRING] if name == "Error" else [])
    if not inner or inner[0] != "struct" or depth > 20:
        return None, None
    if name in inner[1]:
        return "field", inner[1][name]
    for one in inner[2]:
        plain = element_of(one) if sort_of(one) == "pointer" else one
        if plain and plain[0] == "named" and plain[1].node is not None and plain[1].node.name.text == name:
            return "field", one
        if plain and plain[0] == "library" and plain[1].split(".")[1] == name:
            return "field", one
        found = member(one, name, depth + 1)
        if found[0]:
            return found
    return None, None


def library_of(kind, name, depth=0):
    """The name of the library's type that `x.name` belongs to, for an x of a type, or None: it may be embedded."""
    named = element_of(kind) if sort_of(kind) == "pointer" else kind
    inner = under(named)
    if inner and inner[0] == "library":
        return inner[1]
    if not inner or inner[0] != "struct" or depth > 20 or name in inner[1]:
        return None
    if named[0] == "named" and name in named[1].methods:
        return None
    return next((found for one in inner[2] if (found := library_of(one, name, depth + 1))), None)


def type_of(node, scope):
    """The type of an expression, or None. It is found once for each node: the scope is that of the first time."""
    if not hasattr(node, "known"):
        node.known = None
        node.known = find_type(node, scope)
    return node.known


def find_type(node, scope):
    if node.kind == "literal":
        return LITERALS[node.sort]
    if node.kind == "name":
        entity = scope.find(node.text)
        return entity.type() if entity and entity.sort in ("var", "const", "func") else None
    if node.kind == "paren":
        return type_of(node.inner, scope)
    if node.kind == "binary":
        return type_of_binary(node, scope)
    if node.kind == "unary":
        inner = type_of(node.inner, scope)
        return {"&": ("pointer", inner), "<-": element_of(inner), "!": BOOL}.get(node.op, inner)
    if node.kind == "star":
        return element_of(type_of(node.inner, scope))
    if node.kind == "composite":
        return resolved(node.type, scope) if node.type else None
    if node.kind == "closure":
        return resolved(node.type, scope)
    if node.kind == "asserted":
        return resolved(node.type, scope) if node.type else None
    if node.kind == "index":
        base = type_of(node.base, scope)
        base = under(element_of(base)) if sort_of(base) == "pointer" else base
        return ("basic", "byte") if is_string(base) else element_of(base)
    if node.kind == "sliced":
        base = type_of(node.base, scope)
        return ("slice", element_of(base)) if sort_of(base) == "array" else base
    if node.kind == "select":
        if is_library(node, scope):
            return LIBRARY.get(f"{node.base.text}.{node.name.text}")
        return member(type_of(node.base, scope), node.name.text)[1]
    return type_of_call(node, scope) if node.kind == "call" else None


def type_of_binary(node, scope):
    left, right = type_of(node.left, scope), type_of(node.right, scope)
    if node.op in COMPARISONS:
        return BOOL
    if node.op in ("<<", ">>"):
        return left
    # A constant without a type takes the type of the other side.
    return right if left is None or node.left.kind == "literal" else left


def type_of_call(node, scope):
    callee = node.callee
    while callee.kind == "paren":
        callee = callee.inner
    if is_type(callee, scope):
        return resolved(callee, scope)
    if callee.kind == "name":
        entity = scope.find(callee.text)
        if entity and entity.sort == "builtin":
            return type_of_builtin(callee.text, node.arguments, scope)
    if is_library(callee, scope):
        return LIBRARY.get(f"{callee.base.text}.{callee.name.text}")
    called = under(type_of(callee, scope))
    if not called or called[0] != "func":
        return None
    return called[1][0] if len(called[1]) == 1 else ("several", called[1])


def type_of_builtin(name, arguments, scope):
    if name in ("len", "cap", "copy"):
        return INT
    if name in ("make", "new") and arguments:
        kind = resolved(arguments[0], scope)
        return kind if name == "make" else ("pointer", kind)
    if name in ("append", "min", "max") and arguments:
        return type_of(arguments[0], scope)
    return ("interface",) if name == "recover" else None
