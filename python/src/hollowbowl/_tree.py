"""The tree of the walks from a source, as the vertex before each.

A walk of least cost goes by tight arcs alone: those whose weight is the difference of the costs of their ends. Of these
walks one of fewest arcs is wanted, and before each vertex the least vertex that fits, as `path` gives them. So the
fewest arcs are asked of a program that has the tight arcs alone.
"""

from array import array

from ._asked import Asked
from ._columns import ones
from ._errors import GraphChanged
from ._kept import Columns
from ._numbers import INF, as_seconds, numbers_of, numpy

# So often it is tried anew if the graph is changed meanwhile.
_TRIES = 3


class Tree(Asked):
    """A graph as far as the tree of walks is asked of it."""

    def predecessors(self, source, *, hops=False, timeout=None):
        """For each vertex the one before it on the path from the source, as `path` gives it: a row, in 8 bytes each.

        It is -1 for the source and where no walk leads; names are a list, with None there. It takes some runs, and the
        arcs that Python keeps: with `keep=False` that is a NotKept.
        """
        place = self._names.place("source", source)
        for _ in range(_TRIES):
            stand = self._standing(timeout)
            costs = self.distances(source, hops=hops, whole=True, timeout=timeout)
            if self._standing(timeout, stand.version).is_known():
                tails, heads, weights = stand.columns()
                weights = ones(len(tails), None) if hops else weights
                found = self._before(place, costs, (tails, heads, weights), hops, timeout)
                return found if self._names.names is None else [self._name_or_none(each) for each in found.tolist()]
        raise GraphChanged("the graph's arcs have changed while they were looked at")

    def _before(self, place, costs, columns, hops, timeout):
        tails, heads = _tight(costs, *columns)
        if not hops:
            kept = Columns(self._names.n, tails, heads, ones(len(tails), None))
            with self._like(kept, 1, as_seconds(timeout)) as other:
                fewest = other.distances(self._names.name(place), whole=True, timeout=timeout)
            tails, heads = _tight(fewest, tails, heads, ones(len(tails), None))
        return _least_tails(tails, heads, self._names.n)

    def _name_or_none(self, place):
        return None if place < 0 else self._names.name(place)


def _tight(costs, tails, heads, weights):
    """The ends of the arcs by which a walk of least cost may go."""
    if numpy is not None:
        is_tight = (costs[tails] != INF) & (costs[tails] + weights == costs[heads])
        return tails[is_tight], heads[is_tight]
    arcs = zip(tails, heads, weights)
    found = [(tail, head) for tail, head, weight in arcs if costs[tail] != INF and costs[tail] + weight == costs[head]]
    return array("I", [tail for tail, _ in found]), array("I", [head for _, head in found])


def _least_tails(tails, heads, n):
    """For each vertex the least tail of an arc that leads to it; -1 without one."""
    if numpy is not None:
        found = numpy.full(n, n, dtype=numpy.int64)
        numpy.minimum.at(found, heads, tails)
        found[found == n] = -1
        return found
    found = numbers_of([-1] * n)
    for tail, head in zip(tails, heads):
        if found[head] < 0 or tail < found[head]:
            found[head] = tail
    return found
