"""The vertex before each on the walks from a source, beside the paths themselves."""

import random
import unittest

from common import Case, children, columns, drawn, numpy

from hollowbowl import Graph, GraphChanged, NoPath, NotKept


def before(graph, source, how):
    """For each vertex the one before it on its path."""
    found = []
    for vertex in graph:
        try:
            path = graph.path(source, vertex, **how)
        except NoPath:
            path = []
        found.append(path[-2] if len(path) > 1 else None)
    return found


class Tree(Case):
    def test_beside_paths(self):
        for seed in range(25):
            n, arcs = drawn(seed)
            draw = random.Random(seed)
            # Many ways cost the same, and arcs of no weight go round.
            arcs = [(tail, head, weight % draw.choice([1, 2, 3, 2**32])) for tail, head, weight in arcs]
            source = draw.randrange(n)
            with Graph(*columns(arcs), n) as graph:
                for how in ({}, {"hops": True}):
                    wanted = [-1 if each is None else each for each in before(graph, source, how)]
                    self.assertEqual(graph.predecessors(source, **how).tolist(), wanted, (seed, how))

    def test_names_decimals_and_changes(self):
        edges = [("a", "b", 0.5), ("b", "c", 0.5), ("a", "c", 1), ("c", "d", 0)]
        with Graph.from_edges(edges, nodes="z", scale=2, directed=False) as graph:
            self.assertEqual(graph.predecessors("a"), [None, None, "a", "a", "c"])
            graph.remove([("a", "c")])
            with graph.changed(add=[("d", "b", 0)]):
                self.assertEqual(graph.predecessors("d"), [None, "b", "d", "d", None])
            self.assertEqual((graph.predecessors("a"), len(children())), ([None, None, "a", "b", "c"], 1))
        with Graph([0], [1], n=3) as graph:
            found = graph.predecessors(0)
            self.assertEqual(found.tolist(), [-1, 0, -1])
            if numpy is not None:
                self.assertEqual(found.dtype, numpy.int64)
        with Graph([0], [1], keep=False) as graph, self.assertRaises(NotKept):
            graph.predecessors(0)

    def test_changed_meanwhile(self):
        """It is tried anew, and given up if the graph never stays the same."""
        with Graph([0, 1], [1, 2], [7, 6]) as graph:
            asked = graph.distances
            for changes, wanted in ((0, [-1, 0, 1]), (2, [-1, 0, 0]), (9, None)):
                left = [changes]

                def distances(*words, **names):
                    found = asked(*words, **names)
                    if left[0]:
                        left[0] -= 1
                        graph.add([0], [2], [1])
                    return found

                graph.distances = distances
                if wanted is None:
                    self.assertRaises(GraphChanged, graph.predecessors, 0)
                else:
                    self.assertEqual(graph.predecessors(0).tolist(), wanted)
            self.assertEqual((graph.m, len(children())), (7, 1))


if __name__ == "__main__":
    unittest.main()
