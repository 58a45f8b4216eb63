"""A directed graph that the program keeps: what it is, and how it ends."""

from ._arcs import Arcs
from ._beside import Beside
from ._costs import Costs
from ._listing import Listing
from ._measures import Measures
from ._nearest import Nearest
from ._numbers import as_seconds
from ._paths import Paths
from ._tree import Tree


class Graph(Beside, Costs, Paths, Measures, Arcs, Listing, Nearest, Tree):
    """A directed graph with whole-number weights from 0 to 2**32 - 1, kept by the program `obim_query`.

    Vertices are numbers from 0, or the names that `from_edges` and its kin were given. Threads may ask at the same
    time; a program answers one question after another. A graph belongs to the process that made it. It is closed by
    `close`, by leaving a `with`, or once nothing refers to it.

    With `scale=100` weights and costs are decimals, of which a hundred make a whole number; costs are floats then, and
    with `whole=True` the whole numbers. Weights between these are refused, but with `rounded=True` they are rounded;
    `rounding` says by how much at most. With `hops=True` the cost of a walk is the number of its arcs.

    A call that takes longer than `timeout` seconds is a Timeout; what was asked goes on. `progress` is a function of
    (done, all), which is called some four times a second.

    >>> with Graph([0, 0, 1], [1, 2, 2], [7, 20, 6]) as graph:
    ...     graph.distance(0, 2), graph.path(0, 2)
    (13, [0, 1, 2])
    """

    # ---- what it is

    @property
    def n(self):
        """The number of vertices."""
        return self._names.n

    @property
    def m(self):
        """The number of arcs by now."""
        return self._wire.m

    @property
    def version(self):
        """A number that grows with each change of the arcs."""
        return self._wire.version

    @property
    def names(self):
        """The names of the vertices, in the order of rows, as a tuple; None where vertices are numbers."""
        return self._names.names

    @property
    def directed(self):
        """False if each arc that the graph is given leads the other way too."""
        return self._is_directed

    @property
    def scale(self):
        """The number by which weights were multiplied; None if they are whole numbers."""
        return self._scale

    @property
    def rounding(self):
        """By how much weights were rounded at most, in their own unit; None without `rounded=True`."""
        return None if self._rounding is None else self._rounding.most

    @property
    def is_closed(self):
        """True once nothing is answered any more: after `close` or an OutOfStep, and if another program can't begin."""
        return self._wire.is_ended()

    def __len__(self):
        return self.n

    def __bool__(self):
        """A graph is true, even without vertices: so `if graph` asks whether there is one."""
        return True

    def __contains__(self, vertex):
        return self._names.has(vertex)

    def __iter__(self):
        """The vertices, in the order of rows: `distances(graph)` has a row for each."""
        return iter(range(self.n) if self.names is None else self.names)

    def __repr__(self):
        return f"<Graph of {self.n} vertices{self._wire.shown()}>"

    # ---- its end

    def restart(self, *, timeout=None):
        """Kills the program, whatever it does, and begins another with the graph as it is now; of several all.

        Whoever waits for an answer of one that is killed has an Ended, and a change that it had not made is lost. With
        `keep=False` that is a NotKept.
        """
        self._drop_others()
        self._wire.restart(as_seconds(timeout))

    def close(self):
        """Ends its programs. Whatever is asked from then on, or waits, is a Closed."""
        self._drop_others()
        self._wire.close()

    def __enter__(self):
        return self

    def __exit__(self, *_):
        self.close()

    def __reduce_ex__(self, _):
        raise TypeError("a Graph is a running program, which can't be copied: make one in each process, of its arcs")
