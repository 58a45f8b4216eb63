"""The arcs of a graph given out: as columns, neighbours and degrees, to scipy and networkx, and as a file."""

import gzip
import os
from array import array

from ._asked import Asked, kind_of
from ._numbers import floats_of, numbers_of, numpy
from ._questions import Between, Near
from ._text import graph_text


class Listing(Asked):
    """A graph as far as its arcs are given out."""

    def edges(self, *, whole=False, timeout=None):
        """All arcs, as they are at the call: tails, heads and weights, in the order in which the arcs came.

        These are three arrays of whole numbers of 8 bytes; names are lists, and weights of a graph with a scale floats.
        Of a file from `from_gr` they are read anew. Of a graph with `keep=False` that is a NotKept.
        """
        tails, heads, weights = self._standing(timeout).columns()
        divisor = self._divisor(False, None, whole)
        ends = [self._names.several(numbers_of(each)) for each in (tails, heads)]
        return (*ends, numbers_of(weights) if divisor is None else _decimals(weights, divisor))

    def neighbors(self, vertex, *, to=False, timeout=None):
        """The vertices to which an arc leads from this one, each once and in the order of rows; as `within` gives them.

        With `to=True` those from which an arc leads to it.
        """
        place = self._names.place("vertex", vertex)
        near = self._ask(Near(kind_of(True), [place], 1), timeout, to=to).found[0]
        has_loop = bool(self._ask(Between([place], [place]), timeout).found)
        # A vertex is no arc away from itself.
        found = [each for each, level in zip(*(each.tolist() for each in near)) if level == 1 or has_loop]
        return self._names.several(numbers_of(found))

    def degrees(self, *, to=False, timeout=None):
        """How many arcs leave each vertex: a row of whole numbers of 8 bytes. With `to=True` how many lead to it."""
        ends = self._standing(timeout).columns()[1 if to else 0]
        if numpy is not None:
            return numpy.bincount(ends, minlength=self._names.n).astype(numpy.int64, copy=False)
        counts = array("q", bytes(8 * self._names.n))
        for end in ends:
            counts[end] += 1
        return counts

    def to_scipy(self, *, whole=False, timeout=None):
        """A sparse array of scipy with the weight of each arc, from its row to its column.

        Of several arcs between the same ends it has the least weight. Rows are in the order of `names`.
        """
        from scipy.sparse import csr_array  # It is no part of the package's own needs.

        tails, heads, weights = map(numbers_of, self._standing(timeout).columns())
        order = numpy.lexsort((weights, heads, tails))
        tails, heads, weights = tails[order], heads[order], weights[order]
        is_first = numpy.ones(len(tails), dtype=bool)
        is_first[1:] = (tails[1:] != tails[:-1]) | (heads[1:] != heads[:-1])
        divisor = self._divisor(False, None, whole)
        weights = weights[is_first] if divisor is None else weights[is_first] / divisor
        return csr_array((weights, (tails[is_first], heads[is_first])), shape=(self._names.n, self._names.n))

    def to_networkx(self, *, whole=False, timeout=None):
        """A DiGraph of networkx whose edges have a `weight`: of several arcs between the same ends the least."""
        from networkx import DiGraph  # It is no part of the package's own needs.

        least = {}
        columns = self.edges(whole=whole, timeout=timeout)
        for tail, head, weight in zip(*(each if isinstance(each, list) else each.tolist() for each in columns)):
            least[tail, head] = min(weight, least.get((tail, head), weight))
        graph = DiGraph()
        graph.add_nodes_from(self)
        graph.add_weighted_edges_from((*ends, weight) for ends, weight in least.items())
        return graph

    def to_gr(self, path, *, timeout=None):
        """Writes a file of the `.gr` format, packed if its name ends with `.gz`; vertex 0 is the file's vertex 1.

        Weights are whole, multiplied by the scale. Names are left out: the vertex of line `a V ..` is `names[V - 1]`.
        A file that is there is replaced once the other is whole.
        """
        path = os.fspath(path)
        stand = self._standing(timeout)
        pieces = graph_text(stand.n, *stand.columns())
        other = os.fsdecode(path) + f".{os.getpid()}.part"
        with open(other, "xb") as file:
            try:
                if os.fsdecode(path).endswith(".gz"):
                    with gzip.GzipFile("", "wb", fileobj=file, mtime=0) as packed:
                        packed.writelines(pieces)
                else:
                    file.writelines(pieces)
                file.flush()
                os.replace(other, path)
            except BaseException:
                os.unlink(other)
                raise


def _decimals(weights, divisor):
    if numpy is None:
        return floats_of([weight / divisor for weight in weights])
    return numpy.asarray(weights) / divisor
