"""Graphs of tables and of sparse matrices."""

import unittest
from array import array
from unittest import mock

from common import Case, columns, components_of, costs_from, drawn, ints, numpy, optional, pandas, scipy

import hollowbowl
from hollowbowl import INF, Graph

sparse, polars, pyarrow = optional("scipy.sparse"), optional("polars"), optional("pyarrow")

TABLE = {"source": ["a", "a", "b"], "target": ["b", "c", "c"], "weight": [7, 20, 6]}


class Tables(Case):
    """Anything with columns by name."""

    def check(self, table, *words, **names):
        """The graph of such a table answers as that of the rows."""
        with Graph.from_columns(table, *words, **names) as graph:
            self.assertEqual((graph.names, graph.m), (("a", "b", "c"), 3))
            self.assertEqual((graph.path("a", "c"), ints(graph.distances("a"))), (["a", "b", "c"], [0, 7, 13]))

    def test_dictionaries(self):
        self.check(TABLE)
        self.check({name: iter(column) for name, column in TABLE.items()})
        self.check({**TABLE, "weight": array("d", TABLE["weight"])})
        self.check(dict(zip("xyz", TABLE.values())), "x", "y", "z")
        self.check(dict(enumerate(TABLE.values())), source=0, target=1, weight=2)
        with Graph.from_columns({**TABLE, "source": [1, 1, 2], "target": [2, 3, 3]}, nodes=[0]) as graph:
            self.assertEqual((graph.names, graph.distance(1, 3)), ((0, 1, 2, 3), 13))
        with Graph.from_columns({name: [] for name in TABLE}) as graph:
            self.assertEqual((graph.n, graph.m), (0, 0))

    def test_columns_of_other_kinds(self):
        class Column:
            """Entries that are no names themselves, as those of Arrow are objects of its own."""

            def __init__(self, entries):
                self.entries = entries

            def __iter__(self):
                raise AssertionError("not these entries")

        arrow = type("Arrow", (Column,), {"to_pylist": lambda self: self.entries})
        polar = type("Polar", (Column,), {"to_list": lambda self: self.entries})
        for kind in (arrow, polar):
            self.check({name: kind(column) for name, column in TABLE.items()})

    def test_without_weights(self):
        with Graph.from_columns({"source": ["a", "a", "b"], "target": ["b", "c", "c"]}, weight=None) as graph:
            self.assertEqual((graph.path("a", "c"), ints(graph.distances("a"))), (["a", "c"], [0, 1, 1]))
        with Graph.from_columns(TABLE, weight=None, scale=10) as graph:
            self.assertEqual((graph.distance("a", "c"), graph.weight("a", "b", whole=True)), (1.0, 10))
        with self.assertRaisesRegex(ValueError, "^1 sources and 2 targets$"):
            Graph.from_columns({"source": ["a"], "target": ["b", "c"]}, weight=None)
        with self.assertRaisesRegex(TypeError, "which has no columns 'source' and 'target'$"):
            Graph.from_columns(None, weight=None)

    @unittest.skipIf(pandas is None, "there is no pandas")
    def test_frames(self):
        with Graph.from_columns(TABLE) as graph:
            frame = graph.frame(["b", "a"])
            self.assertEqual(list(frame.columns), ["source", "target", "cost"])
            lines = [("b", "b", 0), ("b", "c", 6), ("a", "a", 0), ("a", "b", 7), ("a", "c", 13)]
            self.assertEqual(list(frame.itertuples(index=False, name=None)), lines)
            self.assertEqual(list(graph.frame("a", hops=True)["cost"]), [0, 1, 1])
            self.assertEqual(len(graph.frame([])), 0)
        with Graph([0, 1], [1, 2], [0.25, 0.5], scale=4) as graph:
            self.assertEqual(list(graph.frame([0])["cost"]), [0.0, 0.25, 0.75])
            self.assertEqual(list(graph.frame([0], whole=True)["cost"]), [0, 1, 3])
        for seed in range(5):
            n, arcs = drawn(seed)
            wanted = [
                (source, target, cost)
                for source in range(n)
                for target, cost in enumerate(costs_from(n, arcs, source))
                if cost != INF
            ]
            with Graph(*columns(arcs), n) as graph:
                self.assertEqual(list(graph.frame(graph).itertuples(index=False, name=None)), wanted)

    @unittest.skipIf(pandas is None or numpy is None, "no pandas")
    def test_arrays_of_frames(self):
        with Graph.from_columns({**TABLE, "weight": [0.7, 20, 6]}, nodes=["z"], scale=10) as graph:
            for given, costs in ((graph.frame(["a", "b"]), [0.0, 0.7, 6.7, 0.0, 6.0]), (graph.frame(["a", "b"], whole=True), [0, 7, 67, 0, 60])):
                self.assertEqual(list(given["cost"]), costs)
                self.assertEqual(list(given["source"].cat.categories), ["z", "a", "b", "c"])
                self.assertEqual([str(given[name].dtype) for name in ("source", "target")], ["category", "category"])
            self.assertEqual(str(given["cost"].dtype), "int64")
        with Graph([0, 1], [1, 2], [7, 6]) as graph:
            self.assertEqual([str(each) for each in graph.frame([0]).dtypes], ["int64"] * 3)
            with mock.patch.object(hollowbowl._numbers, "_FEW_BYTES", 0):
                for left, is_room in ((2 * 8 * 6 * 5, True), (2 * 8 * 6 * 5 - 1, False)):
                    with mock.patch.object(hollowbowl._numbers, "_bytes_left", lambda left=left: left):
                        if is_room:
                            self.assertEqual(len(graph.frame([0, 1])), 5)
                            continue
                        with self.assertRaisesRegex(ValueError, r"^sources reach 5 vertices and more, .*: rows\(\) take less$"):
                            graph.frame([0, 1])
            self.assertEqual(graph.distance(0, 2), 13)
        # What can be no category.
        for names in ((None, "a"), (float("nan"), "a"), (("a", 1), None)):
            with Graph([0], [1], names=names) as graph:
                self.assertEqual(list(graph.frame([names[0]]).itertuples(index=False, name=None))[1], (names[0], names[1], 1))
        with Graph([0], [1], names=[("a", 1), ("a", 2)]) as graph:
            self.assertEqual(list(graph.frame([("a", 1)])["target"]), [("a", 1), ("a", 2)])

    def test_faults(self):
        for table, kind, words in (
            ({"source": [], "target": []}, KeyError, "weight"),
            ({**TABLE, "weight": [7, 20]}, ValueError, "^3 sources, 3 targets and 2 weights"),
            ({**TABLE, "weight": [7, float("nan"), 6]}, ValueError, r"^weights\[1\] is nan"),
            ({**TABLE, "source": ["a", [], "b"]}, TypeError, r"^edges\[1\] is \(\[\], 'c', 20\)"),
            ([("a", "b", 7)], TypeError, "^table is .*, which has no columns 'source', 'target' and 'weight'"),
            (None, TypeError, "^table is None"),
        ):
            with self.assertRaisesRegex(kind, words):
                Graph.from_columns(table)

    @unittest.skipIf(pandas is None, "no pandas")
    def test_pandas(self):
        frame = pandas.DataFrame(TABLE, index=[5, 3, 9])
        self.check(frame)
        self.check(frame.astype({"source": "category", "weight": "Int64"}))
        with Graph.from_pandas(frame=frame, scale=10) as graph:
            self.assertEqual(graph.distance("a", "c"), 13.0)
        with self.assertRaises(KeyError):
            Graph.from_pandas(frame, weight="cost")
        frame["weight"] = [0.7, None, 0.6]
        with self.assertRaisesRegex(ValueError, r"^weights\[1\] is nan, which times 10 "):
            Graph.from_columns(frame, scale=10)

    @unittest.skipIf(pandas is None or numpy is None, "no pandas")
    def test_pandas_as_others(self):
        """Frames have the names, places and weights that lists of the same have."""
        numbers, words = [30, 7, 30, 5, 7], ["b", "a", "b", "dd", "c"]
        several = [
            pandas.Series(numbers),
            pandas.Series(numbers, dtype="u1"),
            pandas.Series(numbers, dtype="Int64"),
            pandas.Series(numbers, dtype="f4"),
            pandas.Series(words),
            pandas.Series(words, dtype="string"),
            pandas.Series(words, dtype="category"),
            pandas.Series(pandas.to_datetime(["2026-01-02", "2026-01-01", "2026-01-02", "2026-01-03", "2026-01-05"])),
            pandas.Series([("a", 1), "a", ("a", 1), frozenset("a"), 1]),
            pandas.Series([True, False, True, True, False]),
            pandas.Series([1, True, 1.0, "1", 0]),
            pandas.Series(["a", None, "a", "b", None]),
            pandas.Series([1.5, float("inf"), 1.5, -0.0, 0.0]),
        ]
        for source in several:
            for target in several:
                for nodes in ((), ["b", ("q",), 7]):
                    table = {"source": source, "target": target, "weight": pandas.Series([1, 2, 3, 4, 5])}
                    lists = {name: column.tolist() for name, column in table.items()}
                    found, wanted = ([*each] for each in (
                        hollowbowl._from.columns(pandas.DataFrame(table), "source", "target", "weight", nodes),
                        hollowbowl._from.columns(lists, "source", "target", "weight", nodes),
                    ))
                    for each in (found, wanted):
                        each[:] = [list(map(int, column)) for column in each[:3]] + [[*map(repr, each[3])]]
                    self.assertEqual(found, wanted, (source.dtype, target.dtype, nodes))
        self.assertIsNotNone(hollowbowl._from._factorized(several[4:6], []))
        with self.assertRaisesRegex(TypeError, r"^edges\[1\] is \(\['x'\], "):
            Graph.from_pandas(pandas.DataFrame({"source": ["a", ["x"]], "target": ["b", "c"], "weight": [1, 2]}))
        with Graph(*pandas.factorize(pandas.Series(["x", "y", "x"]))[0][[[0, 1], [1, 2]]], names="xy") as graph:
            self.assertEqual(graph.path("x", "y"), ["x", "y"])

    @unittest.skipIf(numpy is None, "no numpy")
    def test_numpy(self):
        self.check({name: numpy.array(column) for name, column in TABLE.items()})
        self.check(numpy.array([*zip(*TABLE.values())], dtype=[("source", "U1"), ("target", "U1"), ("weight", "i8")]))

    @unittest.skipIf(polars is None, "no polars")
    def test_polars(self):
        self.check(polars.DataFrame(TABLE))

    @unittest.skipIf(pyarrow is None, "no pyarrow")
    def test_arrow(self):
        self.check(pyarrow.table(TABLE))


@unittest.skipIf(scipy is None, "no scipy")
class Matrices(Case):
    """Sparse matrices of scipy."""

    def test_kinds(self):
        tails, heads, weights = [0, 0, 1], [1, 2, 2], [7, 20, 6]
        matrix = sparse.coo_matrix((weights, (tails, heads)), shape=(4, 4))
        for form in ("csr", "csc", "coo", "lil", "dok", "bsr", "dia"):
            for kind in ("i4", "u8", "f8"):
                with self.subTest(form=form, kind=kind), Graph.from_scipy(matrix.astype(kind).asformat(form)) as graph:
                    self.assertEqual((graph.n, ints(graph.distances(0))), (4, [0, 7, 13, INF]))
        with Graph.from_scipy(sparse.csr_array(matrix) * 0.01, scale=100) as graph:
            self.assertEqual(graph.distance(0, 2), 0.13)
        with Graph.from_scipy(matrix.astype(bool)) as graph:
            self.assertEqual(ints(graph.distances(0)), [0, 1, 1, INF])
        with Graph.from_scipy(sparse.csr_matrix((3, 3))) as graph:
            self.assertEqual((graph.n, graph.m), (3, 0))

    def test_entries(self):
        # Of one place they are added up, and a stored zero is an arc.
        several = sparse.coo_matrix(([3, 4, 0], ([0, 0, 1], [1, 1, 2])), shape=(3, 3))
        unsorted = sparse.csr_matrix(([4, 0, 3], [1, 2, 1], [0, 3, 3, 3]), shape=(3, 3))
        for matrix, wanted in ((several, [0, 7, 7]), (several.tocsr(), [0, 7, 7]), (unsorted, [0, 7, 0])):
            with Graph.from_scipy(matrix) as graph:
                self.assertEqual((graph.m, ints(graph.distances(0))), (2, wanted))
        self.assertEqual(unsorted.nnz, 3)

    def test_faults(self):
        for matrix, kind, words in (
            (sparse.csr_matrix((2, 3)), ValueError, r"^matrix has the shape \(2, 3\)"),
            (sparse.csr_matrix([[0, 1.5], [0, 0]]), ValueError, r"^weights\[0\] is 1.5, .*: scale=10 would do$"),
            (sparse.csr_matrix([[0, -1], [0, 0]]), ValueError, r"^weights\[0\] is -1, "),
            (sparse.csr_matrix([[0, 1j], [0, 0]]), ValueError, r"^weights\[0\] is 1j, "),
            (numpy.eye(2), TypeError, "^matrix is array(?s:.*), which is no sparse matrix of scipy: scipy.sparse.csr_matrix\(matrix\) is one$"),
            (None, TypeError, "^matrix is None, which is no sparse matrix of scipy$"),
        ):
            with self.assertRaisesRegex(kind, words):
                Graph.from_scipy(matrix)

    def test_beside_scipy(self):
        for seed in range(20):
            n, arcs = drawn(seed)
            arcs = [(tail, head, weight + 1) for tail, head, weight in {arc[:2]: arc for arc in arcs}.values()]
            tails, heads, weights = columns(arcs)
            matrix = sparse.coo_matrix((weights, (tails, heads)), shape=(n, n), dtype="f8")
            wanted = scipy.dijkstra(matrix)
            with Graph.from_scipy(matrix) as graph:
                self.assertTrue((graph.distances(graph, dtype=float) == wanted).all())
                count, labels = scipy.connected_components(matrix, connection="weak")
                self.assertEqual((graph.component_count(), len(set(labels.tolist()))), (count, count))
                self.assertEqual(ints(graph.components()), components_of(n, arcs))


if __name__ == "__main__":
    unittest.main()
