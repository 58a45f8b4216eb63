"""Walks of least cost, as the vertices on them."""

from ._asked import Asked, kind_of
from ._edges import taken_apart
from ._errors import NoPath, fault_of
from ._questions import SortedWalks, Walks


class Paths(Asked):
    """A graph as far as walks are asked of it."""

    def path(self, source, target, *, hops=False, timeout=None):
        """The vertices of a walk of least cost, with as few arcs as one can have; NoPath if there is none."""
        return self._walk(source, target, hops, timeout)[1]

    def distance_and_path(self, source, target, *, hops=False, whole=False, timeout=None):
        """The least cost and the vertices of such a walk, by one question; NoPath if there is none."""
        label, vertices = self._walk(source, target, hops, timeout)
        return label if hops or whole or self._scale is None else label / self._scale, vertices

    def _walk(self, source, target, hops, timeout):
        ends = [self._names.place("source", source, "paths")], [self._names.place("target", target, "paths")]
        label, vertices = self._ask(Walks(kind_of(hops), *ends), timeout).found[0]
        if vertices is None:
            raise fault_of(NoPath, source, target)
        return label, self._names.several(vertices)

    def paths(self, pairs, *, hops=False, missing="raise", timeout=None, progress=None):
        """Gives the path of each (source, target) in turn, as `path` and by requests as `rows`.

        Where no walk leads, the next is a NoPath; with `missing=None` it is None, and the paths after it follow.
        """
        if missing is not None and missing != "raise":
            raise ValueError(f"missing is {missing!r}, where 'raise' or None is wanted")
        kind = kind_of(hops)
        ends = taken_apart("pairs", pairs, "(source, target)", True)
        sources, targets = map(self._names.places, ("sources", "targets"), ends)

        def make(first, last):
            return SortedWalks(kind, sources[first:last], targets[first:last])

        def answers(question):
            for source, target, vertices in question.in_order():
                if vertices is None and missing is not None:
                    raise fault_of(NoPath, self._names.name(source), self._names.name(target))
                yield None if vertices is None else self._names.several(vertices)

        return self._each(kind, SortedWalks.form, len(sources), make, answers, timeout, progress)
