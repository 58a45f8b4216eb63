"""Costs as a DataFrame of pandas, by arrays."""

import numpy
import pandas

from ._numbers import INF, as_floats, check_room

# A line takes three numbers, and twice that while its parts are joined.
_NUMBERS = 6


class Lines:
    """The lines of the vertices that walks reach, as they come."""

    def __init__(self):
        self._sources, self._targets, self._costs = [], [], []
        self._count = 0

    def take(self, source, labels):
        """Takes in the labels from a source, if there is room for their lines."""
        reached = numpy.flatnonzero(labels != INF)
        self._count += len(reached)
        check_room(f"sources reach {self._count} vertices and more, whose lines", _NUMBERS * self._count, "rows()")
        self._sources.append(numpy.full(len(reached), source))
        self._targets.append(reached)
        self._costs.append(labels[reached])

    def frame(self, names, divisor, to):
        """The DataFrame; sources and targets change places where costs are those `to` the sources."""
        sources, targets = (_vertices(_joined(each), names) for each in (self._sources, self._targets))
        costs = _joined(self._costs)
        # Costs are less than 2**60.
        costs = costs.astype(numpy.int64) if divisor is None else as_floats(costs.astype(numpy.uint64), divisor)
        ends = (targets, sources) if to else (sources, targets)
        return pandas.DataFrame({"source": ends[0], "target": ends[1], "cost": costs})


def _joined(parts):
    return numpy.concatenate(parts) if parts else numpy.empty(0, dtype=numpy.int64)


def _vertices(places, names):
    """A column of vertices: names as categories, unless a missing one is among them, which can be none."""
    if names is None:
        return places
    index = pandas.Index(names, tupleize_cols=False)
    if index.isna().any() or not index.is_unique:
        found = numpy.empty(len(names), dtype=object)
        for place, name in enumerate(names):
            found[place] = name
        return found[places]
    return pandas.Categorical.from_codes(places, categories=index)
