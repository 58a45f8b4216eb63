"""The arcs of graphs given out: as columns, neighbours and degrees, to scipy and networkx, and as files."""

import gzip
import os
import tempfile
import unittest
from unittest import mock

from common import Case, columns, costs_from, drawn, ints, networkx, numpy, optional, scipy, whole

import hollowbowl
from hollowbowl import Closed, Graph, NotKept, NoVertex

sparse = optional("scipy.sparse")
ARCS = [(0, 1, 7), (0, 2, 20), (1, 2, 6), (0, 1, 9), (2, 2, 0)]


def listed(graph, **how):
    """The arcs in their order."""
    return list(zip(*(each if isinstance(each, list) else each.tolist() for each in graph.edges(**how))))


class Listing(Case):
    """Arcs in columns, neighbours and degrees."""

    def test_worked(self):
        with Graph(*columns(ARCS), 4) as graph:
            self.assertEqual(listed(graph), ARCS)
            self.assertEqual([ints(graph.neighbors(each)) for each in range(4)], [[1, 2], [2], [2], []])
            self.assertEqual([ints(graph.neighbors(each, to=True)) for each in range(4)], [[], [0], [0, 1, 2], []])
            self.assertEqual((ints(graph.degrees()), ints(graph.degrees(to=True))), ([3, 1, 1, 0], [0, 2, 3, 0]))
            if numpy is not None:
                found = [*graph.edges(), graph.degrees(), graph.degrees(to=True), graph.neighbors(0)]
                self.assertEqual({each.dtype for each in found}, {numpy.dtype("int64")})
                # What is given out is the caller's own.
                graph.edges()[2][:] = 0
                self.assertEqual(graph.distance(0, 2), 13)
                self.assertEqual(listed(graph), ARCS)
            with self.assertRaises(NoVertex):
                graph.neighbors(4)
        with Graph([], [], n=2) as graph:
            self.assertEqual((listed(graph), ints(graph.degrees()), ints(graph.neighbors(1))), ([], [0, 0], []))
        with Graph([0], [1], keep=False) as graph:
            self.assertEqual(ints(graph.neighbors(0)), [1])
            for ask in (graph.edges, graph.degrees):
                with self.assertRaises(NotKept):
                    ask()
        with self.assertRaises(Closed):
            graph.edges()

    def test_names_and_decimals(self):
        with Graph.from_edges([("a", "b", 0.5), ("b", ("c",), 0.25)], nodes=["z"], scale=4) as graph:
            self.assertEqual(listed(graph), [("a", "b", 0.5), ("b", ("c",), 0.25)])
            self.assertEqual(listed(graph, whole=True), [("a", "b", 2), ("b", ("c",), 1)])
            self.assertEqual((graph.neighbors("b"), graph.neighbors("b", to=True)), ([("c",)], ["a"]))
            self.assertEqual(ints(graph.degrees()), [0, 1, 1, 0])

    def test_changes(self):
        """They are listed as they are by then, after the file of a graph too."""
        for seed in range(6):
            n, arcs = drawn(seed)
            gone, more = arcs[: len(arcs) // 3], [(head % n, tail % n, 5) for tail, head, _ in arcs[::4]]
            with tempfile.TemporaryDirectory() as folder:
                path = os.path.join(folder, "graph.gr.gz")
                with Graph(*columns(arcs), n) as graph:
                    graph.to_gr(path)
                    with Graph.from_gr(path) as other:
                        for each in (graph, other):
                            self.assertEqual(listed(each), arcs)
                            each.remove([arc[:2] for arc in gone], missing="ignore")
                            each.add_edges(more)
                            left = [arc for arc in arcs if arc[:2] not in {arc[:2] for arc in gone}]
                            self.assertEqual(listed(each), left + more)
                            with each.changed(add=[(0, 0, 3)]):
                                self.assertEqual(listed(each), [*left, *more, (0, 0, 3)])
                            self.assertEqual((sorted(listed(each)), each.m), (sorted(left + more), len(left + more)))


class Others(Case):
    """Graphs of other packages, and files."""

    @unittest.skipIf(scipy is None, "no scipy")
    def test_scipy(self):
        with Graph(*columns(ARCS), 4) as graph:
            matrix = graph.to_scipy()
            self.assertEqual((matrix.nnz, matrix.toarray()[0].tolist(), matrix.dtype), (4, [0, 7, 20, 0], "int64"))
            with Graph.from_scipy(matrix) as again:
                self.assertEqual((again.m, whole(again.distances(again))), (4, whole(graph.distances(graph))))
        with Graph([0, 0], [1, 1], [0.5, 0.25], scale=4) as graph:
            self.assertEqual((graph.to_scipy().toarray()[0, 1], graph.to_scipy(whole=True).toarray()[0, 1]), (0.25, 1))
        for seed in range(10):
            n, arcs = drawn(seed)
            arcs = [(tail, head, weight + 1) for tail, head, weight in arcs]
            with Graph(*columns(arcs), n) as graph:
                self.assertTrue((scipy.dijkstra(graph.to_scipy()) == graph.distances(graph, dtype=float)).all())

    @unittest.skipIf(networkx is None, "no networkx")
    def test_networkx(self):
        with Graph.from_edges([("a", "b", 0.5), ("a", "b", 0.25), ("b", "a", 1)], nodes=["z"], scale=4) as graph:
            found = graph.to_networkx()
            self.assertEqual(list(found), ["z", "a", "b"])
            self.assertEqual(list(found.edges(data="weight")), [("a", "b", 0.25), ("b", "a", 1.0)])
            self.assertEqual(graph.to_networkx(whole=True).edges["a", "b"]["weight"], 1)
        for seed in range(5):
            n, arcs = drawn(seed)
            with Graph(*columns(arcs), n) as graph:
                found = networkx.single_source_dijkstra_path_length(graph.to_networkx(), 0)
                self.assertEqual(found, dict(zip(*map(ints, graph.within(0, 2**62)))))

    def test_files(self):
        text = b"p sp 4 5\na 1 2 7\na 1 3 20\na 2 3 6\na 1 2 9\na 3 3 0\n"
        with tempfile.TemporaryDirectory() as folder, Graph(*columns(ARCS), 4) as graph:
            plain, packed = os.path.join(folder, "graph.gr"), os.path.join(folder, "graph.gr.gz")
            graph.to_gr(plain)
            graph.to_gr(packed)
            with open(plain, "rb") as file, gzip.open(packed) as other:
                self.assertEqual((file.read(), other.read()), (text, text))
            with Graph.from_gr(plain) as again:
                again.remove([(0, 1)])
                # It is the file that the graph is read from.
                again.to_gr(plain)
                self.assertEqual(again.distance(0, 2), 20)
            with Graph.from_gr(plain) as again:
                self.assertEqual((again.m, ints(again.distances(0))), (3, costs_from(4, [ARCS[1], ARCS[2], ARCS[4]], 0)))
            with self.assertRaises(FileNotFoundError):
                graph.to_gr(os.path.join(folder, "none", "graph.gr"))
            with mock.patch.object(hollowbowl._listing, "graph_text", lambda *_: (1 / 0 for _ in "x")):
                with self.assertRaises(ZeroDivisionError):
                    graph.to_gr(plain)
            self.assertEqual(sorted(os.listdir(folder)), ["graph.gr", "graph.gr.gz"])


if __name__ == "__main__":
    unittest.main()
