"""Graphs beside a graph: the reversed one, of its own or kept for questions about costs to a vertex."""

from ._errors import Ended, GraphChanged, OutOfMemory
from ._kept import Columns
from ._making import Making
from ._numbers import as_seconds
from ._stand import Stand

# A reversed graph is made for a matrix whose targets are fewer if it saves so many runs, and these go through so many
# vertices in all: it takes about as long as these.
_RUNS = 32
_VERTICES = 1 << 18


class Beside(Making):
    """A graph as far as others are made of its arcs."""

    def reversed(self, *, timeout=None):
        """The graph of the same vertices whose arcs lead the other way: a graph of its own, as this one is at the call.

        It has options as this one. Of a graph with `keep=False` Python has no arcs, so that is a NotKept.
        """
        return self._turned(self._standing(timeout), as_seconds(timeout), self._programs)

    def _standing(self, timeout, known=None):
        """What the arcs are made of, unless the version is that which is known."""
        stand = Stand(known)
        self._wire.look("stand", stand, as_seconds(timeout))
        return stand

    def _turned(self, stand, seconds, programs):
        tails, heads, weights = stand.columns()
        return self._like(Columns(stand.n, heads, tails, weights), programs, seconds)

    def _like(self, kept, programs, seconds, names=None):
        """Another graph with options as this one, of other arcs; with other vertices its weights are whole."""
        graph = type(self).__new__(type(self))
        graph._scale = self._scale if names is None else None
        graph._rounding, graph._is_directed = self._rounding, self._is_directed
        graph._names = self._names if names is None else names
        graph._begin(kept, self._options, programs, True, seconds)
        return graph

    def _asked(self, to, timeout):
        """The graph that answers, and the version of this one for which it does.

        For costs `to` vertices it is the reversed one, which is made when it is first needed, and anew after a change.
        """
        if not to:
            return self, self._wire.version
        version, graph = self._others.get("reversed", (None, None))
        stand = self._standing(timeout, version)
        if not stand.is_known():
            graph = self._turned(stand, as_seconds(timeout), 1)
            self._others["reversed"] = stand.version, graph
        return graph, stand.version

    def _goes_back(self, sources, targets, timeout):
        """Tells whether the costs from so many sources to so many targets are found sooner from the targets.

        Then the reversed graph is there. If it can't be made, they are found from the sources.
        """
        saved = sources - targets
        if saved <= 0 or not self._wire.is_kept():
            return False
        is_here = self._others.get("reversed", (None,))[0] == self._wire.version
        if not is_here and not (saved > _RUNS and saved * self._names.n > _VERTICES):
            return False
        try:
            self._asked(True, timeout)
            return True
        except (OutOfMemory, Ended, GraphChanged):
            if self._wire.is_ended():
                raise
            return False

    def _drop_others(self):
        """Ends the programs of graphs that are kept beside this one."""
        others, self._others = self._others, {}
        for *_, graph in others.values():
            graph.close()
