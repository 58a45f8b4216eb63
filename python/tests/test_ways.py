"""Arcs both ways, and costs the other way: undirected graphs, reversed ones, and costs to a vertex."""

import gzip
import os
import tempfile
import unittest
from unittest import mock

from common import Case, children, columns, costs_from, drawn, ints, networkx, numpy, optional, scipy, there, waits_for, whole

import hollowbowl
from hollowbowl import INF, Closed, Graph, GraphChanged, NoArc, NoPath, NotKept

pandas, sparse = optional("pandas"), optional("scipy.sparse")
EDGES = [("a", "b", 7), ("b", "c", 6), ("c", "c", 1), ("a", "c", 20)]


def turned(arcs):
    """The arcs the other way."""
    return [(head, tail, weight) for tail, head, weight in arcs]


def both(arcs):
    """The arcs, and but for loops each the other way."""
    return [*arcs, *(arc for arc in turned(arcs) if arc[0] != arc[1])]


class Undirected(Case):
    """`directed=False` for each call that makes or changes a graph."""

    def test_each_way_to_make_one(self):
        table = dict(zip(("source", "target", "weight"), map(list, zip(*EDGES))))
        makers = [lambda **how: Graph.from_edges(EDGES, **how), lambda **how: Graph.from_columns(table, **how)]
        places = {"a": 0, "b": 1, "c": 2}
        arcs = [(places[tail], places[head], weight) for tail, head, weight in EDGES]
        makers.append(lambda **how: Graph(*columns(arcs), names="abc", **how))
        if pandas is not None and numpy is not None:
            makers.append(lambda **how: Graph.from_pandas(pandas.DataFrame(table), **how))
        for make in makers:
            with make(directed=False) as graph, make() as other:
                self.assertEqual((graph.m, graph.directed, other.m, other.directed), (7, False, 4, True))
                self.assertEqual((graph.path("c", "a"), graph.distance("c", "a")), (["c", "b", "a"], 13))
                self.assertEqual(sorted(graph.edges_between([("c", "c"), ("c", "a")])), [("c", "a", 20), ("c", "c", 1)])
                with self.assertRaises(NoPath):
                    other.path("c", "a")

    def test_beside_a_heap(self):
        for seed in range(10):
            n, arcs = drawn(seed)
            wanted = [costs_from(n, both(arcs), source) for source in range(n)]
            with Graph(*columns(arcs), n, directed=False) as graph:
                self.assertEqual((whole(graph.distances(range(n))), graph.m), (wanted, len(both(arcs))))
                self.assertEqual(there(graph), sorted(both(arcs)))

    @unittest.skipIf(networkx is None, "no networkx")
    def test_networkx(self):
        other = networkx.Graph()
        other.add_weighted_edges_from(EDGES)
        with Graph.from_networkx(other) as graph, Graph.from_networkx(networkx.DiGraph(other)) as directed:
            self.assertEqual((graph.directed, graph.m, graph.distance("c", "a")), (False, 7, 13))
            self.assertEqual((directed.directed, directed.m), (True, 7))
            graph.set_weights([("a", "b", 1)])
            self.assertEqual(graph.distance("c", "a"), 7)

    @unittest.skipIf(scipy is None, "no scipy")
    def test_scipy(self):
        for seed in range(10):
            n, arcs = drawn(seed)
            arcs = [(tail, head, weight + 1) for tail, head, weight in {arc[:2]: arc for arc in arcs}.values()]
            tails, heads, weights = columns(arcs)
            matrix = sparse.csr_matrix((weights, (tails, heads)), shape=(n, n), dtype="f8")
            with Graph.from_scipy(matrix, directed=False) as graph:
                self.assertTrue((graph.distances(graph, dtype=float) == scipy.dijkstra(matrix, directed=False)).all())

    def test_changes(self):
        """Changes go as the graph, but where a call says otherwise."""
        first = [(0, 1, 7), (1, 2, 6)]
        with Graph(*columns(first), directed=False) as graph, Graph(*columns(both(first))) as other:
            for each, how in ((graph, {}), (other, {"directed": False})):
                each.add([0], [2], [3], **how)
                each.add_edges([(2, 2, 5)], **how)
                self.assertEqual(there(each), sorted(both([*first, (0, 2, 3), (2, 2, 5)])))
                each.set_weights([(2, 0, 9)], **how)
                self.assertEqual((each.remove([(0, 1)], **how), each.distance(2, 0)), (2, 9))
                with each.changed(remove=[(0, 2)], set=[(2, 1, 4)], add=[(0, 1, 1)], **how):
                    self.assertEqual(there(each), sorted(both([(1, 2, 4), (2, 2, 5), (0, 1, 1)])))
                self.assertEqual(there(each), sorted(both([(1, 2, 6), (0, 2, 9), (2, 2, 5)])))
                each.remove([(0, 2)], directed=True)
                self.assertEqual((each.has_edge(0, 2), each.has_edge(2, 0)), (False, True))
                with self.assertRaises(NoArc) as caught:
                    each.remove([(0, 2)], **how)
                self.assertEqual(caught.exception.pairs, [(0, 2)])
                self.assertEqual(each.remove([(0, 2)], missing="ignore", **how), 1)


class Reversed(Case):
    """Reversed graphs, and costs to vertices."""

    def test_beside_a_heap(self):
        for seed in range(10):
            n, arcs = drawn(seed)
            wanted = [costs_from(n, turned(arcs), source) for source in range(n)]
            with Graph(*columns(arcs), n) as graph, graph.reversed() as other:
                self.assertEqual(there(other), sorted(turned(arcs)))
                self.assertEqual(whole(other.distances(range(n))), wanted)
                self.assertEqual(whole(graph.distances(range(n), to=True)), wanted)
                self.assertEqual([ints(row) for _, row in graph.rows(range(n), to=True)], wanted)
                self.assertEqual(graph.totals(graph, to=True), other.totals(other))
                self.assertEqual(list(graph.closeness(to=True)), list(other.closeness()))
                self.assertEqual(ints(graph.eccentricity(to=True)), ints(other.eccentricity()))
                self.assertEqual(whole(graph.levels(range(n), to=True)), whole(other.levels(range(n))))
                bound = min(max(wanted[0][0], *wanted[0]), INF - 1) // 2
                self.assertEqual(whole(graph.within(0, bound, to=True)), whole(other.within(0, bound)))
                both_many = ([whole(found[1:]) for found in each.within_many(range(n), bound, **how)] for each, how in ((graph, {"to": True}), (other, {})))
                self.assertEqual(*both_many)

    def test_names_decimals_and_changes(self):
        with Graph.from_edges([("a", "b", 0.5), ("b", "c", 0.25)], scale=4) as graph:
            self.assertEqual(list(graph.distances("c", to=True)), [0.75, 0.25, 0.0])
            programs = set(children())
            graph.set_weights([("b", "c", 1)])
            self.assertEqual(list(graph.distances("c", to=True)), [1.5, 1.0, 0.0])
            with graph.changed(remove=[("a", "b")]):
                self.assertEqual(graph.within("c", 2, to=True)[0], ["b", "c"])
                self.assertEqual(graph.totals("c", to=True).farthest, "b")
            self.assertEqual(graph.eccentricity("c", to=True), 1.5)
            self.assertEqual(len(programs), 2)
            # The program of one that is made anew ends meanwhile.
            self.assertTrue(waits_for(lambda: len(children()) == 2))
            with graph.reversed() as other:
                graph.remove([("a", "b")])
                other.add([("c")], ["a"], [2])
                self.assertEqual((other.path("c", "a"), other.scale, other.names), (["c", "b", "a"], 4, graph.names))
                self.assertEqual(graph.m, 1)
            if pandas is not None and numpy is not None:
                lines = [("b", "c", 1.0), ("c", "c", 0.0)]
                self.assertEqual(list(graph.frame("c", to=True).itertuples(index=False, name=None)), lines)

    def test_files(self):
        text = b"c first\np sp 3 3\n a 1 2 7\r\nc a 9 9 9\na\t2 3 06\n\n  c x\na 3 3 4294967295"
        for name, pack in (("graph.gr", bytes), ("graph.gr.gz", gzip.compress)):
            with tempfile.TemporaryDirectory() as folder, mock.patch.object(hollowbowl._kept, "_READ", 7):
                path = os.path.join(folder, name)
                with open(path, "wb") as file:
                    file.write(pack(text))
                with Graph.from_gr(path) as graph:
                    self.assertEqual(ints(graph.distances(2, to=True)), [13, 6, 0])
                    graph.remove([(1, 2)])
                    graph.add([0], [2], [5])
                    with graph.reversed() as other:
                        self.assertEqual(there(other), [(1, 0, 7), (2, 0, 5), (2, 2, 2**32 - 1)])
                    with open(path, "ab") as file:
                        file.write(b"\nc more\n")
                    with self.assertRaises(GraphChanged):
                        graph.reversed()
                    self.assertEqual(graph.distance(0, 2), 5)

    def test_ends(self):
        with Graph([0], [1], keep=False) as graph:
            for ask in (graph.reversed, lambda: graph.distances(0, to=True)):
                with self.assertRaisesRegex(NotKept, "keep=False"):
                    ask()
        graph = Graph([0, 1], [1, 2], [7, 6])
        graph.distances(2, to=True)
        found = graph.rows([2, 1], to=True)
        self.assertEqual(ints(next(found)[1]), [13, 6, 0])
        graph.add([0], [2], [1])
        with self.assertRaises(GraphChanged):
            next(found)
        self.assertEqual(ints(graph.distances(2, to=True)), [1, 6, 0])
        graph.restart()
        self.assertEqual((len(children()), ints(graph.distances(2, to=True))), (1, [1, 6, 0]))
        other = graph.reversed()
        graph.close()
        with self.assertRaises(Closed):
            graph.distances(2, to=True)
        self.assertEqual(ints(other.distances(2)), [1, 6, 0])
        other.close()


class Sides(Case):
    """Matrices and pairs, from whichever side are fewer, and by whole rows."""

    def test_each_side(self):
        places = (hollowbowl._beside, "_RUNS"), (hollowbowl._beside, "_VERTICES"), (hollowbowl._costs, "_FEW")
        for seed in range(12):
            n, arcs = drawn(seed)
            costs = [costs_from(n, arcs, source) for source in range(n)]
            sources, targets = list(range(n)) * 3, [place * 5 % n for place in range(n)]
            for few in (targets, targets[: n // 6 + 1], targets[:1]):
                wanted = [[costs[source][target] for target in few] for source in sources]
                ends = [(source, few[place % len(few)]) for place, source in enumerate(sources)]
                for size in (0, 1 << 40):
                    patches = [mock.patch.object(*place, size) for place in places]
                    with patches[0], patches[1], patches[2], Graph(*columns(arcs), n) as graph:
                        self.assertEqual(whole(graph.matrix(sources, few)), wanted)
                        self.assertEqual(whole(graph.matrix(few, sources)), [[costs[tail][head] for head in sources] for tail in few])
                        self.assertEqual(ints(graph.pairs(*zip(*ends))), [costs[tail][head] for tail, head in ends])
                        self.assertEqual(len(children()), 1 if size else 2)
                        floats = [[float("inf") if cost == INF else float(cost) for cost in row] for row in wanted]
                        self.assertEqual([list(row) for row in graph.matrix(sources, few, dtype=float)], floats)

    def test_progress(self):
        """It counts pairs, also by whole rows."""
        with Graph(range(99), range(1, 100)) as graph:
            for targets in (range(100), range(3)):
                told = []
                graph.matrix([1, 2], targets, progress=lambda *step: told.append(step))
                self.assertEqual(told[-1], (2 * len(targets), 2 * len(targets)))

    def test_no_room(self):
        with Graph([0], [1]) as graph, mock.patch.object(hollowbowl._numbers, "_FEW_BYTES", 0):
            with mock.patch.object(hollowbowl._numbers, "_bytes_left", lambda: 2 * 8 * 4 - 1):
                with self.assertRaisesRegex(ValueError, r"^matrix has 2 x 2 costs, which take 0 MiB .*rows\(\) take less$"):
                    graph.matrix([0, 1], [0, 1])

    def test_where_none_can_be_made(self):
        """Without a reversed graph the costs are found from the sources."""
        always = [mock.patch.object(hollowbowl._beside, name, 0) for name in ("_RUNS", "_VERTICES")]
        with always[0], always[1]:
            with Graph([0, 1], [1, 2], [7, 6], keep=False) as graph:
                self.assertEqual(whole(graph.matrix([0, 1], [2])), [[13], [6]])
            with tempfile.NamedTemporaryFile(suffix=".gr") as file:
                file.write(b"p sp 3 2\na 1 2 7\na 2 3 6\n")
                file.flush()
                with Graph.from_gr(file.name) as graph:
                    file.write(b"c\n")
                    file.flush()
                    self.assertEqual((whole(graph.matrix([0, 1], [2])), ints(graph.pairs([0, 1], [2, 2]))), ([[13], [6]], [13, 6]))
            with Graph([0, 1], [1, 2], [7, 6]) as graph:
                graph.close()
                with self.assertRaises(Closed):
                    graph.matrix([0, 1], [2])


if __name__ == "__main__":
    unittest.main()
