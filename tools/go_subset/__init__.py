"""Where a Go program leaves the subset that rgo takes.

`finds` walks through the tree of a text, with the names in scope, and notes each place with the name of its construct. The names
are the headings of docs/PORTING.md, which says what to write instead.
"""

import sys

from go_subset.finder import Finder
from go_subset.reader import read
from go_subset.tree import NOT_GO


def finds(text):
    """The places of a text, each as (place, construct, what is expected), in the order of the text.

    A text that is nested too deeply ends in a RecursionError.
    """
    # A level of nesting takes some ten calls.
    sys.setrecursionlimit(max(sys.getrecursionlimit(), 10000))
    tree, faults = read(text)
    finder = Finder()
    finder.file(tree)
    found = dict.fromkeys((at, construct, None) for at, construct in finder.found)
    found.update(dict.fromkeys((at, NOT_GO, expected) for at, expected in faults))
    return sorted(found, key=lambda one: one[:2])
