"""The tree of a Go text."""

# The construct of a place that is no Go.
NOT_GO = "not Go"


class Node:
    """A part of the tree: its kind, the place where it is reported, and its parts by name."""

    def __init__(self, kind, at, **parts):
        self.kind = kind
        self.at = at
        self.__dict__.update(parts)

    def __repr__(self):
        return "Node(" + ", ".join(f"{name}={value!r}" for name, value in self.__dict__.items()) + ")"


class Unreadable(Exception):
    """The text is no Go at this place."""


def plain(node):
    """An expression without the parentheses around it."""
    while node.kind == "paren":
        node = node.inner
    return node
