"""How a graph is made: of arcs in columns, edges, files, tables, matrices, and graphs of networkx."""

from . import _from
from ._arcs import check_lengths
from ._asked import Asked
from ._columns import Rounding, as_column, most_of, ones
from ._kept import Columns, File
from ._names import Names
from ._numbers import MOST_VERTICES, as_options, as_programs, as_scale, whole
from ._stand import both_ways
from ._wire import Wire


class Making(Asked):
    """A graph as far as it is made."""

    def __init__(
        self, tails, heads, weights=None, n=None, *, directed=True, scale=None, rounded=False, workers=None,
        landmarks=None, hierarchy=None, programs=1, names=None, keep=True
    ):
        """The graph of these arcs among `n` vertices; without `n` up to the greatest that an arc has.

        With `directed=False` each arc leads the other way too, also those of later changes. Without weights each is 1.
        With `names` vertices have these names in turn, as those that `pandas.factorize` gives beside its numbers.
        With `keep=False` Python keeps no arcs, so no other program can begin if this one is killed. With several
        programs near questions don't wait for far ones; each has the graph in memory. Up to `landmarks` vertices, 16 if
        that is None, serve far pairs once there were some; with 0 none do. A hierarchy serves far pairs of a map. It is
        made once they took as long, with `hierarchy="now"` at once, and with "no" never.
        """
        options = as_options(workers, landmarks, hierarchy)
        self._measure(directed, scale, rounded)
        tails = as_column("tails", tails, MOST_VERTICES - 1)
        heads = as_column("heads", heads, MOST_VERTICES - 1)
        weights = ones(len(tails), self._scale) if weights is None else self._whole_weights(weights)
        check_lengths(tails, heads, weights)
        least = max(most_of(tails), most_of(heads)) + 1
        count = least if n is None else whole(n)
        if count is None or not least <= count <= MOST_VERTICES:
            raise ValueError(f"n is {n!r}, where a whole number from {least} to {MOST_VERTICES} is wanted")
        self._names = Names(count, names)
        columns = (tails, heads, weights) if directed else both_ways(tails, heads, weights)
        self._begin(Columns(count, *columns), options, programs, keep)

    @classmethod
    def from_edges(
        cls, edges, *, nodes=(), default=None, directed=True, scale=None, rounded=False, workers=None, landmarks=None,
        hierarchy=None, programs=1, keep=True
    ):
        """The graph of edges `(tail, head, weight)` whose ends are any hashable names, in the order in which they come.

        With a `default` weight there may be edges `(tail, head)` among them, which have that. `nodes` are names that
        come before these, as of vertices without edges.
        """
        tails, heads, weights, names = _from.edges(edges, nodes, default)
        options = dict(
            directed=directed, scale=scale, rounded=rounded, workers=workers, landmarks=landmarks,
            hierarchy=hierarchy, programs=programs, keep=keep
        )
        return cls(tails, heads, weights, len(names), names=names, **options)

    @classmethod
    def from_gr(
        cls, path, *, scale=None, rounded=False, workers=None, landmarks=None, hierarchy=None, programs=1, keep=True
    ):
        """The graph of a file in the `.gr` format, whose vertices count from 1: vertex 0 here is 1 there.

        Each line is an arc, so a road both ways is two. A file that ends with `.gz` is unpacked. What is more than a
        graph, as a job with queries, is a BadGraph. The file is read again where another program has to begin; if it
        has changed by then, that is a GraphChanged.
        `scale` says by what its weights were multiplied, and `rounded` is about arcs that are added.
        """
        graph = cls.__new__(cls)
        graph._measure(True, scale, rounded)
        options = as_options(workers, landmarks, hierarchy)
        graph._begin(File(path), options, programs, keep)
        graph._names = Names(graph._wire.state.session.n)
        return graph

    @classmethod
    def from_columns(
        cls, table, source="source", target="target", weight="weight", *, nodes=(), directed=True, scale=None,
        rounded=False, workers=None, landmarks=None, hierarchy=None, programs=1, keep=True
    ):
        """The graph of a table's rows, by the names of its columns; with `weight=None` each weighs 1.

        Of `nodes` see `from_edges`.
        A table is anything with `table[name]`: a DataFrame of pandas or polars, a table of Arrow, lists by name.
        """
        tails, heads, weights, names = _from.columns(table, source, target, weight, nodes)
        options = dict(
            directed=directed, scale=scale, rounded=rounded, workers=workers, landmarks=landmarks,
            hierarchy=hierarchy, programs=programs, keep=keep
        )
        return cls(tails, heads, weights, len(names), names=names, **options)

    @classmethod
    def from_pandas(
        cls, frame, source="source", target="target", weight="weight", *, nodes=(), directed=True, scale=None,
        rounded=False, workers=None, landmarks=None, hierarchy=None, programs=1, keep=True
    ):
        """The graph of a DataFrame's rows (`from_columns`), as `networkx.from_pandas_edgelist` takes it."""
        options = dict(
            directed=directed, scale=scale, rounded=rounded, workers=workers, landmarks=landmarks,
            hierarchy=hierarchy, programs=programs, keep=keep
        )
        return cls.from_columns(frame, source, target, weight, nodes=nodes, **options)

    @classmethod
    def from_networkx(
        cls, other, weight="weight", *, scale=None, rounded=False, workers=None, landmarks=None, hierarchy=None,
        programs=1, keep=True
    ):
        """The graph of a networkx graph, in which an edge without a weight has 1, and with `weight=None` each.

        Undirected edges go both ways, and so do those of later changes.
        """
        tails, heads, weights, names = _from.networkx(other, weight)
        options = dict(
            directed=other.is_directed(), scale=scale, rounded=rounded, workers=workers, landmarks=landmarks,
            hierarchy=hierarchy, programs=programs, keep=keep
        )
        return cls(tails, heads, weights, len(names), names=names, **options)

    @classmethod
    def from_scipy(
        cls, matrix, *, directed=True, scale=None, rounded=False, workers=None, landmarks=None, hierarchy=None,
        programs=1, keep=True
    ):
        """The graph of a sparse matrix of scipy: an arc for each entry that is stored, from its row to its column.

        A stored zero is an arc of weight 0. Entries of one place are added up first, as scipy means them.
        """
        tails, heads, weights, n = _from.scipy(matrix)
        options = dict(
            directed=directed, scale=scale, rounded=rounded, workers=workers, landmarks=landmarks,
            hierarchy=hierarchy, programs=programs, keep=keep
        )
        return cls(tails, heads, weights, n, **options)

    def _measure(self, directed, scale, rounded):
        """Takes in whether arcs lead one way, what weights are multiplied by, and whether they are rounded then."""
        self._is_directed = bool(directed)
        self._scale, self._rounding = as_scale(scale), Rounding() if rounded else None

    def _begin(self, kept, options, programs, keep, seconds=-1):
        self._options, self._programs = options, programs
        self._others = {}
        try:
            self._wire = Wire(kept, options, keep, as_programs(programs, keep))
        except BaseException:
            kept.close()
            raise
        try:
            self._wire.ask("open", seconds=seconds)
        except BaseException:
            self._wire.close()
            raise
