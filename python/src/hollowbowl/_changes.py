"""Changes of a graph's arcs: the requests for one, and what their replies say.

A change is made by its `parts`, each a change of at most so many items that is one request. `counts` looks at a reply
and gives how many arcs went by it, and how many came. So `Session.change` makes any change, and moves `m` by it.
"""

import re

from ._columns import column
from ._errors import OutOfStep
from ._text import arcs_text, pairs_text


class _Change:
    """A change, by items in columns. How many arcs went and came is counted as its parts are made."""

    def __init__(self, columns):
        self.columns = columns
        self.gone = self.come = 0

    def parts(self, size):
        """The changes, of so many items at most, that make this one."""
        for first in range(0, len(self.columns[0]) or 1, size):
            yield type(self)([each[first : first + size] for each in self.columns])

    def counts(self, body):
        """Gives how many arcs went and came by a reply."""
        found = self.reply.fullmatch(body)
        gone, come = [int(each or 0) for each in found.groups()] if found else (0, -1)
        if come != (len(self.columns[0]) if self.brings else 0):
            raise OutOfStep("arcs were changed by another reply")
        return gone, come


class Addition(_Change):
    """The arcs that are added: columns of tails, heads and weights."""

    brings = True
    reply = re.compile(rb"()g ([0-9]+)\n")

    def request(self):
        """The text that asks for all of it at once."""
        return arcs_text(b"add", *self.columns)

    def keep(self, log):
        """Has it made again by a program that begins later."""
        log.append(self.columns)


class Removal(_Change):
    """The pairs of vertices whose arcs all go: columns of tails and heads."""

    brings = False
    reply = re.compile(rb"x ([0-9]+)\n()")

    def request(self):
        return pairs_text(b"cut", *self.columns)

    def keep(self, log):
        log.cut(*self.columns)


class Setting(_Change):
    """The arcs that come, in columns, once all between the ends of each went."""

    brings = True
    reply = re.compile(rb"x ([0-9]+)\ng ([0-9]+)\n")

    def parts(self, size):
        if len(self.columns[0]) <= size:
            yield self
        else:
            # A later part would take away what an earlier one has set.
            yield from Removal(self.columns[:2]).parts(size)
            yield from Addition(self.columns).parts(size)

    def request(self):
        return arcs_text(b"set", *self.columns)

    def keep(self, log):
        log.cut(*self.columns[:2])
        log.append(self.columns)


def undoing(pairs, found):
    """The changes that leave, between the ends of these pairs, the arcs that were found and no others."""
    here = {(tail, head) for tail, head, _ in found}
    bare = [pair for pair in pairs if pair not in here]
    kinds = (Removal, bare), (Setting, found)
    return [kind([column(each) for each in zip(*items)]) for kind, items in kinds if items]
