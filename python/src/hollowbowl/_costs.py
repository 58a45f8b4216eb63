"""The costs of walks: between two vertices, from some to all, and within a bound."""

from ._asked import Asked, kind_of
from ._columns import as_bound
from ._edges import taken_apart
from ._errors import NoPath, fault_of
from ._numbers import (
    INF,
    as_float_rows,
    as_floats,
    as_rows,
    check_room,
    count_of,
    labels_for,
    rows_for,
    turned_rows,
)
from ._questions import Matrix, Near, Rows, RowsAt, SortedPairs

# How many bytes of rows a request of `rows` has, if it has more than one row.
_BYTES = 1 << 26

# A matrix is taken from whole rows if more of the vertices than one in so many are targets, and they are not few: a
# request and a reply for a pair take as long as some vertices of a run.
_PART, _FEW = 6, 16


class Costs(Asked):
    """A graph as far as costs are asked of it."""

    def distance(self, source, target, *, hops=False, whole=False, timeout=None):
        """The least cost of a walk from the source to the target; NoPath if there is none."""
        label = self._label(source, target, hops, timeout)
        if label == INF:
            raise fault_of(NoPath, source, target)
        return label if hops or whole or self._scale is None else label / self._scale

    def hops(self, source, target, *, timeout=None):
        """The fewest arcs of a walk from the source to the target; NoPath if there is none."""
        return self.distance(source, target, hops=True, timeout=timeout)

    def has_path(self, source, target, *, timeout=None):
        """Tells whether a walk leads from the source to the target."""
        return self._label(source, target, False, timeout) != INF

    def _label(self, source, target, hops, timeout):
        ends = [self._names.place("source", source, "pairs")], [self._names.place("target", target, "pairs")]
        return int(self._ask(Matrix(kind_of(hops), *ends), timeout).costs[0])

    def distances(self, sources, *, hops=False, to=False, dtype=None, whole=False, timeout=None, progress=None):
        """The least costs from each of the sources to all vertices: a row for each, 2**64 - 1 where no walk leads.

        A single source gives a single row. Rows are numpy arrays of uint64 if numpy is there, and else `array('Q')`.
        With `dtype=float`, and of a graph with a scale, they are of floats, with `inf` where no walk leads. Rows that
        would take more than half of the memory that is left are a ValueError: ask for `rows`.

        With `to=True` they are the costs from all vertices to each of the sources. The reversed graph that has them is
        kept, with a program of its own.
        """
        divisor = self._divisor(hops, dtype, whole)
        is_one, places = self._names.one_or_several("sources", sources)
        what = f"sources has {len(places)} vertices, whose rows"
        check_room(what, len(places) * self._names.n, "rows(), totals() or within()")
        question = Rows(kind_of(hops), places, rows_for(len(places), self._names.n))
        rows = self._ask(question, timeout, progress, to).rows
        rows = rows if divisor is None else as_float_rows(rows, divisor)
        return rows[0] if is_one else rows

    def levels(self, sources, *, to=False, dtype=None, timeout=None, progress=None):
        """As `distances`, the fewest arcs of a walk in place of the least cost."""
        return self.distances(sources, hops=True, to=to, dtype=dtype, timeout=timeout, progress=progress)

    def rows(self, sources, *, hops=False, to=False, dtype=None, whole=False, timeout=None, progress=None):
        """Gives (source, row) for each of the sources in turn, with rows as in `distances`.

        Rows of two requests are in memory at a time, each of a quarter of a second and 64 MiB at most. If arcs come
        before the last row, the next is a GraphChanged.
        """
        divisor = self._divisor(hops, dtype, whole)
        _, places = self._names.one_or_several("sources", sources)

        def each(place, labels):
            return self._names.name(place), labels if divisor is None else as_floats(labels, divisor)

        return self._rows(places, kind_of(hops), to, each, timeout, progress)

    def _rows(self, places, kind, to, each, timeout, progress):
        """What a function of the place and the labels of a source gives, for each of the sources in turn."""
        n = self._names.n

        def make(first, last):
            return Rows(kind, places[first:last], [labels_for(n) for _ in range(first, last)])

        def answers(question):
            rows = question.rows[::-1]
            question.rows = None
            for place in question.sources:
                yield each(int(place), rows.pop())

        most = max(1, _BYTES // max(8 * n, 1))
        return self._each(kind, Rows.form, len(places), make, answers, timeout, progress, most, to)

    def frame(self, sources, *, hops=False, to=False, whole=False, timeout=None, progress=None):
        """A DataFrame of pandas: a line (source, target, cost) for each vertex that a walk from a source reaches.

        With `to=True` those of walks to the sources, which stand under `target` then. Names are categories. Lines that
        would take more than half of the memory that is left are a ValueError: ask for `rows`.
        """
        from . import _frame  # It needs pandas, which is no part of the package's own needs.

        _, places = self._names.one_or_several("sources", sources)
        lines = _frame.Lines()
        for _ in self._rows(places, kind_of(hops), to, lines.take, timeout, progress):
            pass
        return lines.frame(self._names.names, self._divisor(hops, None, whole), to)

    def matrix(self, sources, targets, *, hops=False, dtype=None, whole=False, timeout=None, progress=None):
        """The least costs from each source to each target: a row for each source, as in `distances`.

        They are found from whichever are fewer: from the targets by the reversed graph, which is kept.
        """
        divisor = self._divisor(hops, dtype, whole)
        sources, targets = self._names.places("sources", sources), self._names.places("targets", targets)
        check_room(f"matrix has {len(sources)} x {len(targets)} costs, which", len(sources) * len(targets), "rows()")
        if self._goes_back(len(sources), len(targets), timeout):
            rows = turned_rows(self._costs_of(targets, sources, hops, timeout, progress, True))
        else:
            rows = self._costs_of(sources, targets, hops, timeout, progress, False)
        return rows if divisor is None else as_float_rows(rows, divisor)

    def _costs_of(self, sources, targets, hops, timeout, progress, to):
        """The costs as rows: by whole rows of labels where these are found sooner than so many pairs."""
        kind, n = kind_of(hops), self._names.n
        if len(targets) > max(_FEW, n // _PART):
            question = RowsAt(kind, sources, targets, n)
        else:
            question = Matrix(kind, sources, targets)
        return as_rows(self._ask(question, timeout, progress, to).costs, len(sources), len(targets))

    def pairs(self, sources, targets=None, *, hops=False, dtype=None, whole=False, timeout=None, progress=None):
        """The least cost from each source to the target at its place: a row, as in `distances`.

        Without targets `sources` are pairs (source, target), as `paths` takes them. They are found from the sources or
        from the targets, as in `matrix`.
        """
        divisor = self._divisor(hops, dtype, whole)
        if targets is None:
            sources, targets = taken_apart("pairs", sources, "(source, target)", True)
        sources, targets = self._names.places("sources", sources), self._names.places("targets", targets)
        if len(sources) != len(targets):
            raise ValueError(f"{len(sources)} sources and {len(targets)} targets")
        to = self._goes_back(count_of(sources), count_of(targets), timeout)
        ends = (targets, sources) if to else (sources, targets)
        question = self._ask(SortedPairs(kind_of(hops), *ends), timeout, progress, to)
        costs = question.in_order()
        return costs if divisor is None else as_floats(costs, divisor)

    def within(self, source, cost, *, hops=False, to=False, whole=False, timeout=None):
        """The vertices that cost at most `cost` from the source, in rising order, and the cost of each: two arrays.

        The source is solved no further, so a small bound in a large graph takes little. Arrays are as in `distances`;
        vertices with names come as a list of these. With `to=True` the costs are those from the vertices to the source.
        """
        places = [self._names.place("source", source, "within_many")]
        question = self._ask(Near(kind_of(hops), places, self._bound(cost, hops)), timeout, to=to)
        return self._near(question.found[0], self._divisor(hops, None, whole))

    def within_many(self, sources, cost, *, hops=False, to=False, whole=False, timeout=None, progress=None):
        """Gives (source, vertices, costs) for each of the sources in turn, as `within` and by requests as `rows`."""
        divisor, kind, bound = self._divisor(hops, None, whole), kind_of(hops), self._bound(cost, hops)
        _, places = self._names.one_or_several("sources", sources)

        def make(first, last):
            return Near(kind, places[first:last], bound)

        def answers(question):
            for place, found in zip(question.sources, question.found):
                yield (self._names.name(int(place)), *self._near(found, divisor))

        return self._each(kind, Near.form, len(places), make, answers, timeout, progress, to=to)

    def _bound(self, cost, hops):
        return as_bound(cost, None) if hops else as_bound(cost, self._scale, self._rounding)

    def _near(self, found, divisor):
        vertices, labels = found
        costs = labels if divisor is None else as_floats(labels, divisor)
        return self._names.several(vertices), costs
