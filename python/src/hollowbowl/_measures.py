"""Numbers of single vertices and of the whole graph: totals, closeness, eccentricity and weak components."""

from typing import Hashable, NamedTuple

from . import _questions
from ._asked import Asked, kind_of
from ._numbers import INF, as_cost, as_floats, floats_of, labels_of, numbered, numpy


class Totals(NamedTuple):
    """The sums of the least costs from a source."""

    #: How many vertices a walk reaches, the source among them.
    reached: int
    #: The sum of their costs.
    sum: int
    #: The greatest of their costs.
    greatest: int
    #: The vertex that has it; of several the one that comes first.
    farthest: Hashable


class Measures(Asked):
    """A graph as far as such numbers are asked of it."""

    def totals(self, sources, *, hops=False, to=False, whole=False, timeout=None, progress=None):
        """For each of the sources what the costs from it come to; a single source gives a single one.

        With `to=True` they are the costs to it, of the vertices from which a walk leads there.
        """
        divisor = self._divisor(hops, None, whole)
        is_one, found = self._totals(sources, hops, to, timeout, progress)
        totals = [
            Totals(reached, as_cost(total, divisor), as_cost(greatest, divisor), self._names.name(place))
            for reached, total, greatest, place in found
        ]
        return totals[0] if is_one else totals

    def _totals(self, sources, hops, to, timeout, progress):
        is_one, places = self._names.one_or_several("sources", sources)
        return is_one, self._ask(_questions.Totals(kind_of(hops), places), timeout, progress, to).found

    def closeness(self, sources=None, *, hops=False, to=False, wf_improved=False, timeout=None, progress=None):
        """The closeness of each of the sources, or of all vertices: a row of floats, and for a single source a number.

        It is (reached - 1) / sum of the costs from the source, and 0 where that is no number. With `wf_improved` it is
        multiplied by (reached - 1) / (n - 1), as Wasserman and Faust do, so that a vertex that reaches few others isn't
        the closest. With `to=True` the costs are those to the source, as networkx has them; else both are what networkx
        gives for the reversed graph.
        """
        is_one, found = self._totals(self if sources is None else sources, hops, to, timeout, progress)
        scale = 1 if hops or self._scale is None else self._scale
        others = max(self._names.n - 1, 1)
        each = [
            scale * (reached - 1) / total * ((reached - 1) / others if wf_improved else 1) if total else 0.0
            for reached, total, _, _ in found
        ]
        return each[0] if is_one else floats_of(each)

    def eccentricity(
        self, sources=None, *, hops=False, to=False, dtype=None, whole=False, timeout=None, progress=None
    ):
        """The greatest cost from each of the sources, or of all vertices: a row, and for a single source a number.

        It is 2**64 - 1, or as a float `inf`, where no walk leads to some vertex. `totals` has the greatest of the rest.
        """
        divisor = self._divisor(hops, dtype, whole)
        is_one, found = self._totals(self if sources is None else sources, hops, to, timeout, progress)
        labels = [greatest if reached == self._names.n else INF for reached, _, greatest, _ in found]
        if is_one:
            return as_cost(labels[0], divisor)
        return labels_of(labels) if divisor is None else as_floats(labels_of(labels), divisor)

    def components(self, *, counted=False, timeout=None):
        """For each vertex the place of the least vertex that arcs join to it, whichever way they point: a row.

        With `counted=True` how many components there are, and a row of their numbers from 0 on, in the order of their
        least vertices: as scipy gives them.
        """
        labels = self._ask(_questions.Components(self._names.n), timeout).labels
        return numbered(labels) if counted else labels

    def component_count(self, *, timeout=None):
        """The number of weak components."""
        labels = self.components(timeout=timeout)
        if numpy is not None:
            return int(numpy.count_nonzero(labels == numpy.arange(len(labels), dtype=numpy.uint64)))
        return sum(label == place for place, label in enumerate(labels))

    def component_of(self, vertex, *, timeout=None):
        """The vertices of the weak component of a vertex, in the order of rows."""
        place = self._names.place("vertex", vertex)
        labels = self.components(timeout=timeout)
        if numpy is not None:
            return self._names.several(numpy.flatnonzero(labels == labels[place]).tolist())
        return self._names.several([each for each, label in enumerate(labels) if label == labels[place]])
