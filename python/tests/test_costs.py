"""The package beside Dijkstra's algorithm in Python, and beside networkx, scipy, igraph and graph-tool where they are.

Run by `python3 -m unittest discover python/tests`, with `python/src` on PYTHONPATH.
"""

import pickle
import sys
import threading
import unittest
from unittest import mock

from common import (
    Case,
    columns,
    components_of,
    costs_from,
    drawn,
    graph_tool,
    igraph,
    ints,
    levels_from,
    networkx,
    numpy,
    pandas,
    scipy,
    the_program,
    totals_of,
    whole,
)

import hollowbowl
from hollowbowl import INF, Graph, NoPath, NoVertex


class Costs(Case):
    """What is asked of numbered vertices."""

    def test_beside_a_heap(self):
        for seed in range(30):
            n, arcs = drawn(seed)
            wanted = [costs_from(n, arcs, source) for source in range(n)]
            fewest = [levels_from(n, arcs, source) for source in range(n)]
            with Graph(*columns(arcs), n, workers=1 + seed % 3) as graph:
                self.assertEqual((graph.n, graph.m), (n, len(arcs)))
                self.assertEqual(whole(graph.distances(range(n))), wanted)
                self.assertEqual(whole([graph.distances(n - 1)]), wanted[-1:])
                self.assertEqual(whole(graph.levels(range(n))), fewest)
                self.check(graph, n, arcs, wanted)
                self.check(graph, n, [(tail, head, 1) for tail, head, _ in arcs], fewest, hops=True)

    def test_of_nothing(self):
        """Without sources, targets or pairs nothing is found, and the graph answers what is asked next."""
        with Graph([0, 1], [1, 2], [3, 4]) as graph:
            for how in ({}, {"hops": True}, {"dtype": float}):
                self.assertEqual(whole(graph.matrix([], [1], **how)), [])
                self.assertEqual(whole(graph.matrix([0, 2], [], **how)), [[], []])
                self.assertEqual(whole(graph.matrix([], [], **how)), [])
                self.assertEqual(ints(graph.pairs([], [], **how)), [])
                self.assertEqual(whole(graph.distances([], **how)), [])
                self.assertEqual(graph.distance(0, 2), 7)
            self.assertEqual((graph.totals([]), list(graph.rows([]))), ([], []))

    def check(self, graph, n, arcs, wanted, **costs):
        """What is asked in all ways has the costs that are wanted."""
        self.assertEqual(whole(graph.distances(range(n), **costs)), wanted)
        self.assertEqual(graph.totals(range(n), **costs), [totals_of(row) for row in wanted])
        self.assertEqual(whole(graph.matrix(range(n), range(n), **costs)), wanted)
        ends = [((7 * place) % n, place % n) for place in range(70)]
        found = ints(graph.pairs(*zip(*ends), **costs))
        self.assertEqual(found, [wanted[source][target] for source, target in ends])
        self.check_within(graph, wanted, costs)
        self.check_paths(graph, n, arcs, wanted, costs)

    def check_within(self, graph, wanted, how):
        """Within a bound the vertices are those whose costs are, in order."""
        for source, costs in enumerate(wanted):
            for bound in (0, sorted(costs)[len(costs) // 2], INF):
                bound = min(bound, INF - 1)
                near = [vertex for vertex, cost in enumerate(costs) if cost <= bound]
                self.assertEqual(whole(graph.within(source, bound, **how)), [near, [costs[vertex] for vertex in near]])

    def check_paths(self, graph, n, arcs, wanted, how):
        """Each path has the cost, by arcs that are there."""
        least = {}
        for tail, head, weight in arcs:
            least[tail, head] = min(weight, least.get((tail, head), weight))
        for target in range(n):
            if wanted[0][target] == INF:
                with self.assertRaises(NoPath):
                    graph.path(0, target, **how)
                with self.assertRaises(NoPath):
                    graph.distance(0, target, **how)
                continue
            path = graph.path(0, target, **how)
            self.assertEqual((path[0], path[-1]), (0, target))
            self.assertEqual(sum(least[arc] for arc in zip(path, path[1:])), wanted[0][target])
            self.assertEqual(graph.distance(0, target, **how), wanted[0][target])

    def test_components(self):
        for seed in range(30):
            n, arcs = drawn(seed)
            with Graph(*columns(arcs), n) as graph:
                labels = components_of(n, arcs)
                self.assertEqual(ints(graph.components()), labels)
                firsts = sorted(set(labels))
                count, numbers = graph.components(counted=True)
                self.assertEqual((count, ints(numbers)), (len(firsts), [firsts.index(label) for label in labels]))

    def test_added_arcs(self):
        for seed in range(20):
            n, arcs = drawn(seed)
            _, more = drawn(seed + 1000)
            more = [(tail % n, head % n, weight) for tail, head, weight in more]
            with Graph(*columns(arcs), n) as graph:
                number = the_program()
                if seed % 2:
                    graph.levels(0), graph.components()
                graph.add(*columns(more))
                self.assertEqual(graph.m, len(arcs) + len(more))
                costs, fewest = costs_from(n, arcs + more, 0), levels_from(n, arcs + more, 0)
                self.assertEqual((ints(graph.distances(0)), ints(graph.levels(0))), (costs, fewest))
                near = [vertex for vertex, cost in enumerate(costs) if cost <= 9]
                self.assertEqual(whole(graph.within(0, 9)), [near, [costs[vertex] for vertex in near]])
                self.assertEqual(graph.totals(0, hops=True), totals_of(fewest))
                self.assertEqual(ints(graph.components()), components_of(n, arcs + more))
                self.assertEqual(the_program(), number)

    def test_hops(self):
        with Graph(*columns([(0, 1, 7), (1, 2, 6), (0, 2, 20)]), scale=None) as graph:
            self.assertEqual((graph.hops(0, 2), graph.hops(0, 1), graph.hops(1, 1)), (1, 1, 0))
            with self.assertRaises(NoPath):
                graph.hops(2, 0)
        with Graph.from_edges([("a", "b", 0.5), ("b", "c", 0.25)], scale=4) as graph:
            self.assertEqual(graph.hops("a", "c"), 2)

    def test_rows_that_memory_has_no_room_for(self):
        with Graph(*columns([(0, 1, 7)]), n=1000) as graph:
            with mock.patch.object(hollowbowl._numbers, "_FEW_BYTES", 8000):
                with mock.patch.object(hollowbowl._numbers, "_bytes_left", lambda: 2 * 8 * 3000 - 1):
                    self.assertEqual(len(graph.distances([0, 1])), 2)
                    with self.assertRaisesRegex(ValueError, r"^sources has 3 vertices, whose rows take 0 MiB .*rows\(\)"):
                        graph.distances([0, 1, 2])
                    self.assertEqual(sum(1 for _ in graph.rows([0] * 3)), 3)
                with mock.patch.object(hollowbowl._numbers, "_bytes_left", lambda: None):
                    self.assertEqual(len(graph.distances([0, 1, 2])), 3)
        left = hollowbowl._numbers._bytes_left()
        self.assertTrue(left is None or left > 1 << 20)

    def test_worked_row(self):
        with Graph([0, 0, 1], [1, 2, 2], [7, 20, 6]) as graph:
            self.assertEqual((graph.distance(0, 2), graph.path(0, 2)), (13, [0, 1, 2]))
            graph.add([0], [2], [5])
            self.assertEqual((graph.distance(0, 2), graph.path(0, 2)), (5, [0, 2]))

    def test_sum_past_64_bits(self):
        n = 100_000
        with Graph(range(n - 1), range(1, n), [2**32 - 1] * (n - 1)) as graph:
            total = graph.totals(0)
        self.assertEqual(total, (n, (2**32 - 1) * n * (n - 1) // 2, (2**32 - 1) * (n - 1), n - 1))
        self.assertGreater(total.sum, 2**64)

    def test_no_vertices(self):
        with Graph([], [], []) as graph:
            self.assertEqual((graph.n, graph.m, len(graph.components())), (0, 0, 0))

    def test_threads(self):
        n, arcs = drawn(3, 200)
        wanted = [costs_from(n, arcs, source) for source in range(n)]
        wrong = []
        with Graph(*columns(arcs), n) as graph:

            def ask(first):
                for source in range(first, n, 4):
                    if whole([graph.distances(source)])[0] != wanted[source]:
                        wrong.append(source)

            threads = [threading.Thread(target=ask, args=(first,)) for first in range(4)]
            for thread in threads:
                thread.start()
            for thread in threads:
                thread.join()
        self.assertEqual(wrong, [])


class Names(Case):
    """Vertices by name."""

    EDGES = [("a", "b", 7), ("a", "c", 20), ("b", "c", 6), ((1, 2), "a", 1)]

    def test_edges(self):
        with Graph.from_edges(self.EDGES) as graph:
            self.assertEqual((graph.distance("a", "c"), graph.path("a", "c")), (13, ["a", "b", "c"]))
            self.assertEqual(graph.totals("a"), (3, 20, 13, "c"))
            names, costs = graph.within((1, 2), 8)
            self.assertEqual((names, [int(cost) for cost in costs]), (["a", "b", (1, 2)], [1, 8, 0]))
            self.assertEqual(graph.path((1, 2), "b"), [(1, 2), "a", "b"])
            with self.assertRaises(NoPath):
                graph.path("c", "a")
            with self.assertRaises(KeyError):
                graph.distance("a", "z")
            graph.add(["c"], ["a"], [1])
            self.assertEqual(graph.path("c", "b"), ["c", "a", "b"])

    def test_nodes(self):
        with Graph.from_edges(self.EDGES, nodes=["z", "a", "z"]) as graph:
            self.assertEqual(graph.names, ("z", "a", "b", "c", (1, 2)))
            self.assertEqual(ints(graph.distances("a")), [INF, 0, 7, 13, INF])
            self.assertEqual(ints(graph.pairs(["a", "z"], ["c", "z"])), [13, 0])

    @unittest.skipIf(pandas is None, "no pandas")
    def test_pandas(self):
        frame = pandas.DataFrame(self.EDGES[:3], columns=["source", "target", "weight"])
        with Graph.from_pandas(frame) as graph:
            self.assertEqual(graph.path("a", "c"), ["a", "b", "c"])

    @unittest.skipIf(networkx is None, "no networkx")
    def test_edges_without_weight(self):
        other = networkx.DiGraph()
        other.add_edge("a", "b")
        other.add_edge("b", "c", weight=5)
        with Graph.from_networkx(other) as graph:
            self.assertEqual(graph.distance("a", "c"), 6)

    @unittest.skipIf(networkx is None, "no networkx")
    def test_faults_of_networkx(self):
        with Graph.from_networkx(networkx.DiGraph([("a", "b")])) as graph:
            for ask, ours, theirs in (
                (lambda: graph.path("b", "a"), NoPath, networkx.NetworkXNoPath),
                (lambda: graph.distance("b", "a"), NoPath, networkx.NetworkXNoPath),
                (lambda: graph.distance("a", "z"), NoVertex, networkx.NodeNotFound),
            ):
                with self.assertRaises(theirs) as caught:
                    ask()
                fault = pickle.loads(pickle.dumps(caught.exception))
                self.assertIsInstance(fault, ours)
                self.assertIsInstance(fault, theirs)
                self.assertEqual((str(fault), fault.args), (str(caught.exception), caught.exception.args))
        # Without networkx there is nothing of it.
        with mock.patch.dict(sys.modules):
            del sys.modules["networkx"]
            self.assertIs(type(hollowbowl._errors.fault_of(NoPath, "b", "a")), NoPath)

    @unittest.skipIf(networkx is None, "no networkx")
    def test_networkx(self):
        for seed in range(30):
            n, arcs = drawn(seed)
            for kind in (networkx.DiGraph, networkx.MultiDiGraph, networkx.Graph):
                other = kind()
                other.add_nodes_from(f"v{vertex}" for vertex in range(n))
                other.add_weighted_edges_from((f"v{tail}", f"v{head}", weight) for tail, head, weight in arcs)
                wanted = networkx.single_source_dijkstra_path_length(other, "v0")
                with Graph.from_networkx(other) as graph:
                    found = {name: int(cost) for name, cost in zip(other, graph.distances("v0")) if cost != INF}
                    self.assertEqual(found, wanted)
                    cutoff = sorted(wanted.values())[len(wanted) // 2]
                    near, _ = networkx.single_source_dijkstra(other, "v0", cutoff=cutoff)
                    names, costs = graph.within("v0", cutoff)
                    self.assertEqual(dict(zip(names, map(int, costs))), near)


@unittest.skipIf(numpy is None, "no numpy")
class Arrays(Case):
    """Beside libraries that work on arrays."""

    def test_kinds(self):
        tails, heads, weights = numpy.array([0, 1]), numpy.array([1, 2], dtype="int32"), numpy.array([2.0, 3.0])
        with Graph(tails, heads, weights) as graph:
            self.assertEqual(graph.distances([0, 1]).tolist(), [[0, 2, 5], [INF, 0, 3]])
            self.assertEqual((graph.distances(0).dtype, graph.matrix([0], [2]).shape), (numpy.uint64, (1, 1)))
            self.assertEqual(graph.distances(numpy.int64(0)).tolist(), [0, 2, 5])
            vertices, costs = graph.within(numpy.int64(0), numpy.uint64(4))
            self.assertEqual((vertices.tolist(), costs.tolist(), costs.dtype), ([0, 1], [0, 2], numpy.uint64))

    @unittest.skipIf(scipy is None, "no scipy")
    def test_scipy(self):
        from scipy.sparse import coo_matrix

        for seed in range(20):
            n, arcs = drawn(seed)
            least = {}
            for tail, head, weight in arcs:
                least[tail, head] = min(weight + 1, least.get((tail, head), weight + 1))
            tails, heads = [arc[0] for arc in least], [arc[1] for arc in least]
            weights = list(least.values())
            if max(weights, default=0) > 2**31:
                continue
            matrix = coo_matrix((weights, (tails, heads)), shape=(n, n)).tocsr()
            wanted = scipy.dijkstra(matrix)
            with Graph(tails, heads, weights, n) as graph:
                found = graph.distances(range(n)).astype(float)
                found[found == float(INF)] = numpy.inf
                self.assertTrue((found == wanted).all())

    @unittest.skipIf(igraph is None, "no igraph")
    def test_igraph(self):
        for seed in range(20):
            n, arcs = drawn(seed)
            other = igraph.Graph(n, [arc[:2] for arc in arcs], directed=True)
            wanted = other.distances(0, weights=[arc[2] for arc in arcs]) if arcs else None
            with Graph(*columns(arcs), n) as graph:
                if wanted is not None:
                    found = [float("inf") if cost == INF else float(cost) for cost in graph.distances(0)]
                    self.assertEqual(found, wanted[0])

    @unittest.skipIf(graph_tool is None, "no graph-tool")
    def test_graph_tool(self):
        import graph_tool as gt

        for seed in range(20):
            n, arcs = drawn(seed)
            other = gt.Graph()
            other.add_vertex(n)
            weights = other.new_edge_property("int64_t")
            for tail, head, weight in arcs:
                weights[other.add_edge(tail, head)] = weight
            found_there = graph_tool.shortest_distance(other, 0, weights=weights)
            none = numpy.iinfo(numpy.int64).max
            wanted = [INF if cost == none else int(cost) for cost in found_there.a]
            with Graph(*columns(arcs), n) as graph:
                self.assertEqual([int(cost) for cost in graph.distances(0)], wanted)


class Package(unittest.TestCase):
    """What the package says of itself."""

    def test_names(self):
        for name in hollowbowl.__all__:
            self.assertTrue(hasattr(hollowbowl, name))


if __name__ == "__main__":
    unittest.main()
