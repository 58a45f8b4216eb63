"""The nearest of several sources beside its definition: the least cost, and the first source that has it."""

import random
import unittest
from unittest import mock

from common import Case, children, columns, costs_from, drawn, ints, levels_from, numpy, waits_for

import hollowbowl
from hollowbowl import INF, Graph, NoVertex

FAR = float("inf")


def defined(rows, targets, sources):
    """The least cost of each target by rows of costs, and the first source that has it."""
    found = [min(((rows[source][target], source) for source in sources), default=(INF, -1)) for target in targets]
    return [cost for cost, _ in found], [-1 if cost == INF else source for cost, source in found]


class Nearest(Case):
    def test_beside_its_definition(self):
        for seed in range(40):
            draw = random.Random(seed)
            n, arcs = drawn(seed)
            other_way = [(head, tail, weight) for tail, head, weight in arcs]
            with mock.patch.object(hollowbowl._nearest, "_FEW", draw.choice([0, 4])), Graph(*columns(arcs), n) as graph:
                for how, lead, of in (
                    ({}, arcs, costs_from),
                    ({"to": True}, other_way, costs_from),
                    ({"hops": True}, arcs, levels_from),
                ):
                    rows = [of(n, lead, source) for source in range(n)]
                    for _ in range(3):
                        sources = [draw.randrange(n) for _ in range(draw.randrange(n + 1))]
                        targets = [draw.randrange(n) for _ in range(draw.randrange(9))]
                        found = tuple(map(ints, graph.nearest(targets, sources, **how)))
                        self.assertEqual(found, defined(rows, targets, sources), (seed, how, sources))
                self.assertEqual((graph.m, graph.version, graph.n), (len(arcs), 0, n))

    def test_ways(self):
        """One run where it fits, one for each source else; and the same answer."""
        arcs = [(place, place + 1, 1) for place in range(99)]
        rows = [costs_from(100, arcs, source) for source in range(100)]
        some, few = [99, 7, 50, 51, 52, 53], [10, 20]
        for weight, keep, sources, programs in (
            (1, True, some, 2),
            ((2**32 - 1) // 6, True, some, 2),
            ((2**32 - 1) // 6 + 1, True, some, 1),
            (2**32 - 1, True, some, 1),
            (1, False, some, 1),
            (1, True, few, 1),
            (1, True, [10], 1),
            (1, True, [], 1),
        ):
            large = [(*ends, weight) for *ends, _ in arcs]
            with Graph(*columns(large), keep=keep) as graph:
                costs, winners = defined(rows, range(100), sources)
                costs = [cost if cost == INF else cost * weight for cost in costs]
                self.assertEqual(tuple(map(ints, graph.nearest(graph, sources))), (costs, winners))
                self.assertEqual(len(children()), programs)

    def test_kept(self):
        """What stands beside the graph is made anew after a change, and for more sources; an undirected one too."""
        with Graph(*columns([(0, 1, 5), (1, 2, 5), (2, 3, 5)]), 9, directed=False) as graph:
            sources = [0, 3, 4, 5, 6]
            self.assertEqual(tuple(map(ints, graph.nearest([1, 2, 7], sources))), ([5, 5, INF], [0, 3, -1]))
            programs = children()
            self.assertEqual(tuple(map(ints, graph.nearest([1, 2], [3, 0]))), ([5, 5], [0, 3]))
            self.assertEqual(children(), programs)
            graph.set_weights([(0, 1, 11)])
            self.assertEqual(tuple(map(ints, graph.nearest([1, 2, 7], sources))), ([10, 5, INF], [3, 3, -1]))
            with graph.changed(add=[(1, 7, 1)]):
                self.assertEqual(tuple(map(ints, graph.nearest([7], sources))), ([11], [3]))
            with mock.patch.object(hollowbowl._nearest, "_RANKS", 1):
                self.assertEqual(tuple(map(ints, graph.nearest([7], sources))), ([INF], [-1]))
                self.assertEqual(tuple(map(ints, graph.nearest([2, 8], range(9)))), ([0, 0], [2, 8]))
            self.assertTrue(waits_for(lambda: len(children()) == 2))
            self.assertEqual((graph.m, graph.distance(0, 3)), (6, 21))

    def test_names_and_decimals(self):
        with Graph.from_edges([("a", "b", 0.5), ("c", "b", 0.5), ("c", "d", 1)], nodes="z", scale=2) as graph:
            for sources in (["c", "a"], ["c", "a", "z", "d", "b"][:2] * 3):
                costs, winners = graph.nearest(["b", "d", "z"], sources)
                self.assertEqual((list(costs), winners), ([0.5, 1.0, FAR], ["a", "c", None]))
            costs, winners = graph.nearest(["b", "z"], ["c", "a"], whole=True)
            self.assertEqual((ints(costs), winners), ([1, INF], ["a", None]))
            self.assertEqual((graph.nearest("d", ["c", "a"]), graph.nearest("z", ["c"])), ((1.0, "c"), (FAR, None)))
            self.assertEqual(list(graph.nearest(["d"], ["c"], hops=True, dtype=float)[0]), [1.0])
            for ask in (lambda: graph.nearest(["y"], ["c"]), lambda: graph.nearest(["a"], ["y"])):
                with self.assertRaises(NoVertex):
                    ask()
        with Graph([0], [1], n=3) as graph:
            self.assertEqual((graph.nearest(1, [0]), graph.nearest(2, [0])), ((1, 0), (INF, -1)))
            if numpy is not None:
                self.assertEqual([each.dtype for each in graph.nearest([1], [0])], ["uint64", "int64"])


if __name__ == "__main__":
    unittest.main()
