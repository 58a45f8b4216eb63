"""The arcs of a graph: what stands between two vertices, and changes, each of which moves `m` and `version`."""

from ._asked import Asked
from ._changed import Changed
from ._changes import Addition, Removal, Setting
from ._columns import ones
from ._edges import taken_apart
from ._errors import NoArc
from ._numbers import as_seconds
from ._owed import Wanted
from ._questions import Between
from ._stand import both_ways


class Arcs(Asked):
    """A graph as far as its arcs are asked for and changed."""

    def edges_between(self, pairs, *, whole=False, timeout=None, progress=None):
        """The edges (tail, head, weight) from the first to the second vertex of each pair in turn: a list."""
        ends = taken_apart("pairs", pairs, "(tail, head)", True)
        question = self._ask(Between(*(self._names.places("pairs", each) for each in ends)), timeout, progress)
        divisor, name = self._divisor(False, None, whole), self._names.name
        return [
            (name(tail), name(head), weight if divisor is None else weight / divisor)
            for tail, head, weight in question.found
        ]

    def has_edge(self, tail, head, *, timeout=None):
        """Tells whether an arc leads from the tail to the head."""
        return bool(self.edges_between([(tail, head)], timeout=timeout))

    def weight(self, tail, head, *, whole=False, timeout=None):
        """The least weight of an arc from the tail to the head; NoArc if there is none."""
        edges = self.edges_between([(tail, head)], whole=whole, timeout=timeout)
        if not edges:
            raise NoArc([(tail, head)])
        return min(weight for _, _, weight in edges)

    # Of an undirected graph each edge that is given stands for itself and the edge the other way; `directed` says
    # otherwise for a call.

    def add(self, tails, heads, weights=None, *, directed=None, timeout=None):
        """Adds arcs between vertices that are there, of weight 1 without weights. If one is refused, none is added.

        With `directed=False` each goes both ways; without it as in the graph. So it is in the other changes. After an
        interrupt all of them are there, or none; of more than 2**20 arcs so many times 2**20.
        """
        tails, heads = self._names.places("tails", tails), self._names.places("heads", heads)
        weights = ones(len(tails), self._scale) if weights is None else self._whole_weights(weights)
        check_lengths(tails, heads, weights)
        self._change(Addition(self._ways(directed, tails, heads, weights)), False, timeout)

    def add_edges(self, edges, *, directed=None, timeout=None):
        """Adds edges (tail, head, weight) between vertices that are there, as `add` does."""
        self._change(Addition(self._arcs("edges", edges, directed)), False, timeout)

    def remove(self, edges, *, missing="raise", directed=None, timeout=None):
        """Removes all arcs between the ends of each edge (tail, head), and gives how many went.

        If some of these have no arc, that is a NoArc and none goes; with `missing="ignore"` the others go.
        """
        is_needed = _is_needed(missing, "ignore")
        return self._change(Removal(self._ends("edges", edges, directed)), is_needed, timeout).gone

    def set_weights(self, edges, *, missing="raise", directed=None, timeout=None):
        """Puts edges (tail, head, weight) in place of all arcs between their ends.

        Several edges between the same ends stand side by side. If some have no arc to replace, that is a NoArc and
        nothing is done; with `missing="add"` they are added.
        """
        is_needed = _is_needed(missing, "add")
        self._change(Setting(self._arcs("edges", edges, directed)), is_needed, timeout)

    def changed(self, *, remove=(), set=(), add=(), directed=None, timeout=None):
        """A context manager that removes edges, sets others and adds others, in this order, and gives the graph.

        At its end the arcs between the ends of all of these are again what they were before, also after an exception
        or an interrupt: then before the next answer. If there is no memory for that, it is a ChangeStays. Meanwhile
        questions and changes of other threads wait.

        >>> from hollowbowl import Graph
        >>> with Graph([0, 0, 1], [1, 2, 2], [7, 20, 6]) as graph:
        ...     with graph.changed(remove=[(0, 1)]):
        ...         graph.distance(0, 2)
        ...     graph.distance(0, 2)
        20
        13
        """
        gone = self._ends("remove", remove, directed)
        others, come = self._arcs("set", set, directed), self._arcs("add", add, directed)
        wanted = Wanted([*_pairs(gone), *_pairs(others)], _pairs(come))
        changes = [
            kind(columns)
            for kind, columns in ((Removal, gone), (Setting, others), (Addition, come))
            if len(columns[0])
        ]
        return Changed(self, wanted, changes, as_seconds(timeout))

    def _ends(self, argument, edges, directed):
        ends = taken_apart(argument, edges, "(tail, head)")
        return self._ways(directed, *(self._names.places(argument, each) for each in ends))

    def _arcs(self, argument, edges, directed):
        *ends, weights = taken_apart(argument, edges, "(tail, head, weight)")
        places = [self._names.places(argument, each) for each in ends]
        return self._ways(directed, *places, self._whole_weights(weights, argument + "[{}] has the weight"))

    def _ways(self, directed, *columns):
        """Columns of arcs, and these the other way too unless they are directed."""
        return list(columns) if (self._is_directed if directed is None else directed) else both_ways(*columns)

    def _change(self, change, is_needed, timeout):
        wanted = Wanted(_pairs(change.columns)) if is_needed else None
        self._have("change", change, wanted, seconds=as_seconds(timeout))
        return change

    def _have(self, work, *words, seconds):
        """Has the thread do some work, whose NoArc names vertices here and places there."""
        try:
            self._wire.ask(work, *words, seconds=seconds)
        except NoArc as fault:
            pairs = [tuple(map(self._names.name, pair)) for pair in fault.pairs]
            raise NoArc(pairs) from None


def _pairs(columns):
    return zip(columns[0].tolist(), columns[1].tolist())


def check_lengths(tails, heads, weights):
    """Goes on if columns are equally long."""
    if not len(tails) == len(heads) == len(weights):
        raise ValueError(f"{len(tails)} tails, {len(heads)} heads and {len(weights)} weights")


def _is_needed(missing, other):
    """Tells whether each edge has to be there."""
    if missing not in ("raise", other):
        raise ValueError(f"missing is {missing!r}, where 'raise' or {other!r} is wanted")
    return missing == "raise"
