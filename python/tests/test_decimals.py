"""Decimals: weights and costs of a graph with a scale, beside exact fractions."""

import random
import re
import tempfile
import unittest
from decimal import Decimal
from fractions import Fraction

from common import Case, columns, costs_from, drawn, ints, numpy, whole

from hollowbowl import INF, Graph

FAR = float("inf")

# A weight, the scale, and the whole number that it is then; None if it is none.
WEIGHTS = [
    (0.1, 10, 1),
    (0.3, 10, 3),
    (0.1 + 0.2, 10, None),
    (0.15, 10, None),
    (19.99, 100, 1999),
    (0.07, 100, 7),
    (1.005, 100, None),
    (2.675, 1000, 2675),
    (1 / 3, 100, None),
    (1 / 3, 3, 1),
    (42949672.95, 100, 2**32 - 1),
    (42949672.96, 100, None),
    (-0.0, 100, 0),
    (-0.01, 100, None),
    (1e308, 100, None),
    (float("nan"), 100, None),
    (FAR, 100, None),
    (7, 100, 700),
    (True, 100, 100),
    (42949673, 100, None),
    (2**70, 100, None),
    (Decimal("0.10"), 10, 1),
    (Decimal("0.01"), 10, None),
    (Decimal("NaN"), 10, None),
    (Decimal("Infinity"), 10, None),
    (Fraction(1, 3), 3, 1),
    (Fraction(1, 3), 100, None),
    ("0.1", 10, None),
    (None, 10, None),
    (1j, 10, None),
]


class Weights(unittest.TestCase):
    """The weights that a scale makes whole."""

    def test_table(self):
        from hollowbowl import _columns

        for weight, scale, wanted in WEIGHTS:
            givens = [[weight], (weight,), iter([weight])]
            if numpy is not None and isinstance(weight, (bool, int, float)):
                givens.append(numpy.array([weight]))
            for given in givens:
                with self.subTest(weight=weight, scale=scale):
                    if wanted is None:
                        with self.assertRaisesRegex(ValueError, rf"^weights\[0\] is .*, which times {scale} is no whole number"):
                            _columns.as_weights(given, scale)
                    else:
                        self.assertEqual(ints(_columns.as_weights(given, scale)), [wanted])

    def test_random_decimals(self):
        from hollowbowl import _columns

        draw = random.Random(3)
        for digits in range(1, 7):
            scale = 10**digits
            numbers = [draw.randrange(2**32) for _ in range(3000)]
            for given in ([Decimal(number) / scale for number in numbers], [number / scale for number in numbers]):
                self.assertEqual(ints(_columns.as_weights(given, scale)), numbers)

    @unittest.skipIf(numpy is None, "no numpy")
    def test_arrays(self):
        from hollowbowl import _columns

        halves = [0.5, 2.5, 0.0]
        for code in "efdg":
            self.assertEqual(ints(_columns.as_weights(numpy.array(halves, dtype=code), 2)), [1, 5, 0])
        # A float of 4 bytes or 2 is beside its own kind: 0.1 is the nearest of each to a tenth.
        for code in "ef":
            self.assertEqual(ints(_columns.as_weights(numpy.array([0.5, 0.1, 19.7], dtype=code), 10)), [5, 1, 197])
            with self.assertRaisesRegex(ValueError, r"^weights\[1\] is 0.\d*, which times 2 .*: scale=10 would do$"):
                _columns.as_weights(numpy.array([0.5, 0.1], dtype=code), 2)
        tenth = numpy.longdouble("0.1")
        if tenth != 0.1:
            with self.assertRaisesRegex(ValueError, r"^weights\[0\] is "):
                _columns.as_weights(numpy.array([tenth]), 10)
        for code in "bBhHiIlLqQ":
            self.assertEqual(ints(_columns.as_weights(numpy.array([1, 0], dtype=code), 100)), [100, 0])
        with self.assertRaisesRegex(ValueError, r"^weights\[1\] is 18446744073709551615, which times 2 "):
            _columns.as_weights(numpy.array([1, 2**64 - 1], dtype="Q"), 2)

    def test_a_scale_that_would_do(self):
        for weights, scale, place, hint in (
            ([0.5, 0.125, 0.25], 10, 1, ": scale=1000 would do"),
            ([1, 0.5], None, 1, ": scale=10 would do"),
            ([0.5, 5e7], 100, 1, ": scale=10 would do"),
            ([0.25, Decimal("0.001")], 100, 1, ": scale=1000 would do"),
            ([0.25, 1 / 3], 100, 1, ": Graph(.., rounded=True) rounds it"),
            ([1, 12.345678901234], None, 1, ": Graph(.., scale=1000, rounded=True) rounds it"),
            ([0.1 + 0.2], 10, 0, ": Graph(.., rounded=True) rounds it"),
            ([0.25, 1e-10], 100, 1, ": Graph(.., rounded=True) rounds it"),
            ([0.001, 5e6 + 0.5], 100, 0, ": Graph(.., rounded=True) rounds it"),
            ([0.25, -1.5], 100, 1, ""),
            ([0.25, FAR], 100, 1, ""),
            ([0.25, 5e7], 100, 1, ""),
            ([0.25, "0.1"], 100, 1, ""),
        ):
            hint = re.escape(hint)
            with self.assertRaisesRegex(ValueError, rf"^weights\[{place}\] is .* from 0 to 4294967295{hint}$"):
                Graph([0] * len(weights), [1] * len(weights), weights, scale=scale)
        for scale in (0, -1, 2.5, "100", FAR, 2**32, [1]):
            with self.assertRaisesRegex(ValueError, "^scale is "):
                Graph([0], [1], [1], scale=scale)


class Scaled(Case):
    """The costs of a graph with a scale."""

    ARCS = ([0, 0, 1], [1, 2, 2], [0.07, 0.2, 0.06])

    def test_each_call(self):
        with Graph(*self.ARCS, scale=100) as graph:
            self.assertEqual((graph.scale, graph.n, graph.m), (100, 3, 3))
            self.assertEqual((graph.distance(0, 2), graph.distance(0, 2, whole=True)), (0.13, 13))
            self.assertEqual((graph.distance(0, 2, hops=True), graph.path(0, 2)), (1, [0, 1, 2]))
            self.assertEqual(graph.distance_and_path(0, 2), (0.13, [0, 1, 2]))
            self.assertEqual(graph.distance_and_path(0, 2, whole=True), (13, [0, 1, 2]))
            self.assertEqual([list(row) for row in graph.distances([0, 1])], [[0.0, 0.07, 0.13], [FAR, 0.0, 0.06]])
            self.assertEqual(whole(graph.distances([0, 1], whole=True)), [[0, 7, 13], [INF, 0, 6]])
            self.assertEqual(list(graph.distances(1, whole=True, dtype=float)), [FAR, 0.0, 6.0])
            self.assertEqual(ints(graph.levels(0)), [0, 1, 1])
            self.assertEqual(list(graph.levels(1, dtype=float)), [FAR, 0.0, 1.0])
            self.assertEqual([(vertex, list(row)) for vertex, row in graph.rows([1])], [(1, [FAR, 0.0, 0.06])])
            self.assertEqual([list(row) for row in graph.matrix([0], [2, 1])], [[0.13, 0.07]])
            self.assertEqual(list(graph.pairs([0, 2], [1, 0])), [0.07, FAR])
            self.assertEqual(ints(graph.pairs([0, 2], [1, 0], whole=True)), [7, INF])
            self.assertEqual(graph.totals(0), (3, 0.2, 0.13, 2))
            self.assertEqual(graph.totals(0, whole=True), (3, 20, 13, 2))
            self.assertEqual((graph.eccentricity(0), graph.eccentricity(1)), (0.13, FAR))
            self.assertEqual(graph.closeness(0), 10.0)
            graph.add([0], [2], [0.01])
            self.assertEqual(graph.distance(0, 2), 0.01)
            with self.assertRaisesRegex(ValueError, r"^weights\[0\] is 0.001, which times 100 .*: scale=1000 would do$"):
                graph.add([0], [2], [0.001])

    def test_bounds(self):
        with Graph(*self.ARCS, scale=100) as graph:
            for bound, wanted in ((0.07, ([0, 1], [0.0, 0.07])), (Decimal("0.06"), ([0], [0.0])), (1, ([0, 1, 2], [0.0, 0.07, 0.13]))):
                self.assertEqual(tuple(map(list, graph.within(0, bound))), wanted)
            self.assertEqual(whole(graph.within(0, 0.07, whole=True)), [[0, 1], [0, 7]])
            self.assertEqual(whole(graph.within(0, 1, hops=True)), [[0, 1, 2], [0, 1, 1]])
            self.assertEqual([(vertex, *map(list, near)) for vertex, *near in graph.within_many([1], 0.06)], [(1, [1, 2], [0.0, 0.06])])
            for ask in (graph.within, graph.within_many):
                with self.assertRaisesRegex(ValueError, "^the cost is 0.001, which times 100 is no whole number"):
                    ask(0, 0.001)
                with self.assertRaisesRegex(ValueError, "^the cost is 0.5, which is no whole number"):
                    ask(0, 0.5, hops=True)

    def test_nearest_floats(self):
        with Graph([0], [1], [42949672.95], scale=100) as graph:
            self.assertEqual(graph.distance(0, 1), 42949672.95)
        n = 40
        with Graph(range(n - 1), range(1, n), [Fraction(2**32 - 1 - place, 3) for place in range(n - 1)], scale=3) as graph:
            labels = ints(graph.distances(0, whole=True))
            self.assertEqual(labels[-1], sum(2**32 - 1 - place for place in range(n - 1)))
            self.assertEqual(list(graph.distances(0)), [label / 3 for label in labels])
            self.assertEqual(graph.distance(0, n - 1), labels[-1] / 3)

    def test_beside_fractions(self):
        for seed in range(10):
            n, arcs = drawn(seed)
            wanted = [FAR if cost == INF else cost / 1000 for cost in costs_from(n, arcs, 0)]
            tails, heads, weights = columns(arcs)
            with Graph(tails, heads, [weight / 1000 for weight in weights], n, scale=1000) as graph:
                self.assertEqual(list(graph.distances(0)), wanted)

    def test_each_way_to_make_one(self):
        edges = [("a", "b", 0.07), ("b", "c", 0.06)]
        table = dict(zip(("source", "target", "weight"), map(list, zip(*edges))))
        with Graph.from_edges(edges, scale=100) as one, Graph.from_columns(table, scale=100) as other:
            self.assertEqual((one.distance("a", "c"), other.distance("a", "c")), (0.13, 0.13))
        with tempfile.NamedTemporaryFile(suffix=".gr") as file:
            file.write(b"p sp 2 1\na 1 2 7\n")
            file.flush()
            with Graph.from_gr(file.name, scale=100) as graph:
                self.assertEqual((graph.scale, graph.distance(0, 1), graph.distance(0, 1, whole=True)), (100, 0.07, 7))


# A weight, the scale, and the whole number that it is rounded to and by how much; None and 0 if it is refused.
ROUNDED = [
    (0.1 + 0.2, 10, 3, float(Fraction(0.1 + 0.2) - Fraction(3, 10))),
    (0.15, 10, 2, 0.05),
    (0.25, 10, 2, 0.05),
    (12.345678901234, 1000, 12346, float(Fraction(12346, 1000) - Fraction(12.345678901234))),
    (1 / 3, None, 0, 1 / 3),
    (0.07, 100, 7, 0.0),
    (7, 100, 700, 0.0),
    (Decimal("0.126"), 100, 13, 0.004),
    (Fraction(1, 3), 100, 33, float(Fraction(1, 300))),
    (42949672.954, 100, 2**32 - 1, float(Fraction(42949672.954) - Fraction(2**32 - 1, 100))),
    (42949672.956, 100, None, 0.0),
    (-0.001, 10, None, 0.0),
    (Decimal("-0.001"), 10, None, 0.0),
    (float("nan"), 100, None, 0.0),
    (FAR, 100, None, 0.0),
    ("0.1", 10, None, 0.0),
    (None, 10, None, 0.0),
]


class Rounded(Case):
    """Weights that are rounded, and by how much they are told to be."""

    def test_table(self):
        for weight, scale, wanted, most in ROUNDED:
            for weights in ([weight], (each for each in [weight])):
                with self.subTest(weight=weight, scale=scale):
                    if wanted is None:
                        with self.assertRaisesRegex(ValueError, r"^weights\[0\] is .* from 0 to 4294967295$"):
                            Graph([0], [1], weights, scale=scale, rounded=True)
                        continue
                    with Graph([0], [1], weights, scale=scale, rounded=True) as graph:
                        self.assertEqual((graph.distance(0, 1, whole=True), graph.rounding), (wanted, most))

    @unittest.skipIf(numpy is None, "no numpy")
    def test_floats_of_4_bytes(self):
        with Graph([0, 0], [1, 2], numpy.array([0.1, 2.5], dtype="f"), scale=10, rounded=True) as graph:
            self.assertEqual((list(graph.distances(0)), graph.rounding), ([0.0, 0.1, 2.5], 0.0))
        with Graph([0], [1], numpy.array([0.126], dtype="f"), scale=100, rounded=True) as graph:
            self.assertEqual((graph.distance(0, 1), round(graph.rounding, 6)), (0.13, 0.004))

    def test_each_way_to_give_weights(self):
        third = 1 / 3
        edges = [("a", "b", third), ("b", "c", 0.5)]
        table = dict(zip(("source", "target", "weight"), map(list, zip(*edges))))
        for make in (lambda **how: Graph.from_edges(edges, **how), lambda **how: Graph.from_columns(table, **how)):
            with make(scale=10, rounded=True) as graph:
                self.assertEqual((graph.distance("a", "c"), round(graph.rounding, 9)), (0.8, 0.033333333))
                graph.set_weights([("a", "b", 0.26)])
                graph.add_edges([("a", "c", 0.64)])
                self.assertEqual((graph.distance("a", "c"), round(graph.rounding, 9)), (0.6, 0.04))
                with graph.changed(set=[("a", "c", 0.05)]):
                    self.assertEqual(graph.distance("a", "c"), 0.0)
                self.assertEqual(graph.rounding, 0.05)
        with Graph([0], [1], [3]) as graph:
            self.assertIsNone(graph.rounding)
        with tempfile.NamedTemporaryFile(suffix=".gr") as file:
            file.write(b"p sp 2 1\na 1 2 7\n")
            file.flush()
            with Graph.from_gr(file.name, rounded=True) as graph:
                graph.add([1], [0], [2.75])
                self.assertEqual((graph.rounding, graph.distance(1, 0)), (0.25, 3))

    def test_bounds(self):
        """A bound between two costs takes those below it."""
        with Graph([0, 0, 0], [1, 2, 3], [0.1, 0.3, 0.4], scale=10, rounded=True) as graph:
            for bound, wanted in ((0.1 + 0.2, [0, 1, 2]), (0.3, [0, 1, 2]), (0.35, [0, 1, 2]), (0.29, [0, 1]), (Fraction(1, 3), [0, 1, 2])):
                self.assertEqual(ints(graph.within(0, bound)[0]), wanted)
            for bound in (-0.01, FAR, float("nan"), "1"):
                with self.assertRaisesRegex(ValueError, "^the cost is "):
                    graph.within(0, bound)


class Large(unittest.TestCase):
    """Labels past 2**53 as floats."""

    def test_rows(self):
        from hollowbowl import _numbers

        labels = [0, 7, 2**53 - 1, 2**53, 2**53 + 1, 2**60 + 129, 3 * 2**58 + 1, INF - 1, INF]
        for divisor in (1, 3, 7, 100, 10**9):
            wanted = [label / divisor for label in labels[:-1]] + [FAR]
            self.assertEqual(list(_numbers.as_floats(_numbers.labels_of(labels), divisor)), wanted)


if __name__ == "__main__":
    unittest.main()
