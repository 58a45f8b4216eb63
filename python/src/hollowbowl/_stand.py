"""The arcs of a graph as they stand: those that it was made of, and what was changed since."""

from array import array

from ._changes import Addition, Removal
from ._errors import GraphChanged, NotKept
from ._numbers import numpy


class Stand:
    """What the arcs of a graph are made of at some moment. The thread of its program takes it in."""

    def __init__(self, known=None):
        """`known` is the version of one that is here already: of the same nothing is taken in but that."""
        self._known = known
        self.version = self.n = self.m = None
        self._kept, self._changes = None, ()

    def take(self, session):
        """Takes in what a session has. NotKept if Python keeps no arcs."""
        if not session.is_kept:
            raise NotKept("the graph was made with keep=False, so Python has no arcs of it")
        session.kept.check()
        self.version = session.version
        if self.version != self._known:
            self.n, self.m, self._kept = session.n, session.m, session.kept
            self._changes = list(session.log.changes())

    def is_known(self):
        """Tells whether the graph is still the one that is known."""
        return self.version == self._known

    def columns(self):
        """The tails, heads and weights: columns, in the order in which the arcs came."""
        columns = self._kept.columns()
        for change in self._changes:
            if isinstance(change, Removal):
                columns = _without(columns, change.columns)
            elif isinstance(change, Addition):
                columns = joined(columns, change.columns)
        if len(columns[0]) != self.m:
            raise GraphChanged(f"{len(columns[0])} arcs are kept, where the graph has {self.m}")
        return columns


def joined(columns, others):
    """Columns, and after them others of as many kinds."""
    if numpy is None:
        return [one + array("I", other) for one, other in zip(columns, others)]
    return [numpy.concatenate([one, _as_column(other)]) for one, other in zip(columns, others)]


def both_ways(*columns):
    """Tails, heads and what else arcs have, and after these each arc turned round, but for loops."""
    tails, heads, *rest = columns
    if numpy is None:
        others = [place for place, (tail, head) in enumerate(zip(tails, heads)) if tail != head]
        turned = [array("I", [column[place] for place in others]) for column in (heads, tails, *rest)]
    else:
        others = numpy.asarray(tails) != numpy.asarray(heads)
        turned = [_as_column(column)[others] for column in (heads, tails, *rest)]
    return joined(columns, turned)


def scaled(weights, times, are_ones):
    """Weights times a number, or that number for each."""
    if numpy is None:
        return array("I", [times]) * len(weights) if are_ones else array("I", [weight * times for weight in weights])
    if are_ones:
        return numpy.full(len(weights), times, dtype=numpy.uint32)
    return _as_column(weights) * numpy.uint32(times)


def _without(columns, ends):
    """Columns of arcs without those between these ends."""
    if numpy is None:
        gone = set(zip(*ends))
        left = [place for place, pair in enumerate(zip(columns[0], columns[1])) if pair not in gone]
        return [array("I", [column[place] for place in left]) for column in columns]
    left = ~numpy.isin(_keys(*columns[:2]), _keys(*ends))
    return [column[left] for column in columns]


def _keys(tails, heads):
    return _as_column(tails).astype(numpy.uint64) << numpy.uint64(32) | _as_column(heads)


def _as_column(given):
    return numpy.asarray(given, dtype=numpy.uint32)
