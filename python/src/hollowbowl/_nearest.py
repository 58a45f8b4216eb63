"""The nearest of several sources, by one run from all of them.

Beside the graph stands another with one vertex more, from which an arc leads to each source, for one question. There
each weight is multiplied by a number larger than any rank of a source, and the arc to a source weighs its rank. So a
least cost tells the least cost from a source, and then the least rank of one that has it.
"""

from ._asked import Asked, kind_of
from ._columns import column, most_of
from ._errors import Ended, GraphChanged, OutOfMemory
from ._kept import Columns
from ._names import Names
from ._numbers import (
    INF,
    MOST_VERTICES,
    MOST_WEIGHT,
    as_cost,
    as_floats,
    as_seconds,
    labels_of,
    numbers_of,
    numpy,
    picked,
)
from ._stand import scaled

# So many sources are solved one by one, and so many ranks there are at least.
_FEW, _RANKS = 4, 64

# A whole row is taken if more of the vertices than one in so many are targets: mostly all of the graph is gone through.
_PART = 50


class Nearest(Asked):
    """A graph as far as the nearest of several vertices is asked for."""

    def nearest(self, targets, sources, *, hops=False, to=False, dtype=None, whole=False, timeout=None):
        """For each of the targets the least cost from one of the sources, and that source: a row, and an array.

        Of several with the least cost it is the one that comes first in the graph. Where no walk leads from any, the
        cost is as in `distances`, and the source -1, or None in a list of names. A single target gives both alone. With
        `to=True` the costs are those from the target to a source.

        It takes little more than a row from one source. The graph that it needs has a program of its own, which is kept
        until the arcs change or another kind of costs is asked for.
        """
        divisor = self._divisor(hops, dtype, whole)
        is_one, targets = self._names.one_or_several("targets", targets)
        sources = sorted(set(self._names.places("sources", sources).tolist()))
        found = self._by_ranks(targets, sources, hops, to, timeout)
        labels, winners = self._one_by_one(targets, sources, hops, to, timeout) if found is None else found
        if is_one:
            return as_cost(int(labels[0]), divisor), self._winner(int(winners[0]))
        if self._names.names is not None:
            winners = [self._winner(place) for place in winners.tolist()]
        return labels if divisor is None else as_floats(labels, divisor), winners

    def _winner(self, place):
        """A source, or what stands for none."""
        if self._names.names is None:
            return place
        return None if place < 0 else self._names.name(place)

    # ---- by one run

    def _by_ranks(self, targets, sources, hops, to, timeout):
        """The labels and the sources; None where it takes less to solve each source, or the graph can't be made."""
        try:
            ranks, other = self._ranked(len(sources), hops, to, timeout)
        except (OutOfMemory, Ended, GraphChanged):
            if self._wire.is_ended():
                raise
            return None
        if other is None:
            return None
        spare = self._names.n
        arcs = [(spare, source, rank) for rank, source in enumerate(sources)]
        with other.changed(add=arcs, directed=True, timeout=timeout):
            if len(targets) > spare // _PART:
                labels = picked(other.distances(spare, timeout=timeout), targets)
            else:
                labels = other.matrix([spare], targets, timeout=timeout)[0]
        return _parted(labels, ranks, sources)

    def _ranked(self, count, hops, to, timeout):
        """How many ranks there are, and the graph that has them; None where there are too few, or it isn't worth it."""
        version, ranks, other = self._others.get("nearest", (None, 0, None))
        if not self._wire.is_kept() or not 1 < count or self._names.n >= MOST_VERTICES:
            return 0, None
        known = version[0] if version is not None and version[1:] == (hops, to) and count <= ranks else None
        if known is None and count <= _FEW:
            return 0, None
        stand = self._standing(timeout, known)
        return (ranks, other) if stand.is_known() else self._make_ranked(stand, count, hops, to, timeout)

    def _make_ranked(self, stand, count, hops, to, timeout):
        tails, heads, weights = stand.columns()
        most = 1 if hops else max(1, most_of(weights))
        if count * most > MOST_WEIGHT:
            return 0, None
        ranks = max(count, min(_RANKS, MOST_WEIGHT // most))
        ends = (heads, tails) if to else (tails, heads)
        kept = Columns(stand.n + 1, *ends, scaled(weights, ranks, hops))
        other = self._like(kept, 1, as_seconds(timeout), Names(stand.n + 1))
        self._others["nearest"] = (stand.version, hops, to), ranks, other
        return ranks, other

    # ---- by a run for each

    def _one_by_one(self, targets, sources, hops, to, timeout):
        """The same by a row from each source in turn."""
        best, winners = labels_of([INF] * len(targets)), numbers_of([-1] * len(targets))

        def take(source, labels):
            if numpy is not None:
                costs = labels[targets]
                is_less = costs < best
                best[is_less], winners[is_less] = costs[is_less], source
                return
            for place, target in enumerate(targets):
                if labels[target] < best[place]:
                    best[place], winners[place] = labels[target], source

        for _ in self._rows(column(sources), kind_of(hops), to, take, timeout, None):
            pass
        return best, winners


def _parted(labels, ranks, sources):
    """Labels as those of costs, and the sources whose ranks they tell."""
    if numpy is None:
        parts = [(INF, -1) if label == INF else divmod(label, ranks) for label in labels]
        winners = [rank if rank < 0 else sources[rank] for _, rank in parts]
        return labels_of([cost for cost, _ in parts]), numbers_of(winners)
    is_far = labels == INF
    places = numpy.where(is_far, 0, labels % numpy.uint64(ranks)).astype(numpy.intp)
    winners = numpy.array(sources, dtype=numpy.int64)[places]
    winners[is_far] = -1
    costs = labels // numpy.uint64(ranks)
    costs[is_far] = INF
    return costs, winners
