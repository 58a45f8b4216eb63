"""Arguments, and the text of requests and replies, whatever program there is."""

import pickle
import unittest
from array import array
from decimal import Decimal
from fractions import Fraction
from unittest import mock

from common import Case, columns, drawn, ints, numpy, pandas, whole
from fake import fake

import hollowbowl
from hollowbowl import INF, Graph, NoVertex


class Columns(Case):
    """Weights, tails and heads: what is taken, and what is refused with its name and place."""

    def refused(self, weights, place):
        with self.assertRaisesRegex(ValueError, rf"^weights\[{place}\] is "):
            Graph([0] * len(weights), [1] * len(weights), weights)

    def test_numbers(self):
        for weight in (-1, 2**32, 2**64, 1.5, "x", "7", None, float("nan"), float("inf"), 1j, [1], Decimal(2), Fraction(1, 2)):
            with self.subTest(weight=weight):
                self.refused([3, weight, 6], 1)
        for tails, heads, n in (([0], [-1], None), ([0], [3], 3), ([2**28], [0], None)):
            with self.assertRaises(ValueError):
                Graph(tails, heads, [1], n)
        with self.assertRaises(ValueError):
            Graph([0], [1, 2], [1])
        with Graph([0.0, 0], [1, True], [2.0, Fraction(4, 2)]) as graph:
            self.assertEqual(graph.distance(0, 1), 2)

    def test_no_columns(self):
        for weights in ({7}, 7, {0: 7}, b"7", bytearray(b"7"), "7"):
            with self.assertRaisesRegex(ValueError, "^weights is "):
                Graph([0], [1], weights)
        for tails, kind in (({0: 1}, "dict"), (b"\0", "bytes")):
            with self.assertRaisesRegex(ValueError, f"^tails is .*, a {kind} and no list of numbers$"):
                Graph(tails, [1])
            with Graph([0], [1]) as graph, self.assertRaisesRegex(TypeError, "^tails is "):
                graph.add(tails, [1])
        weights = {"a": 7, "b": 6}
        with Graph([0, 1], (head for head in (1, 2)), weights.values()) as graph:
            self.assertEqual(graph.distance(0, 2), 13)
        with Graph(array("I", [0]), range(1, 2), array("Q", [2**32 - 1])) as graph:
            self.assertEqual(graph.distance(0, 1), 2**32 - 1)

    def test_ids_that_are_no_small_numbers(self):
        """The fault names the calls that take other names."""
        for tails in ([10**10], ["a"], [-1], [0.5]):
            with self.assertRaisesRegex(ValueError, r"^tails\[0\] is .* to 268435455: Graph.from_edges and Graph.from_columns take any names$"):
                Graph(tails, [1])
        if numpy is not None:
            with self.assertRaisesRegex(ValueError, r"^heads\[1\] is 10000000000, .* take any names$"):
                Graph([0, 0], numpy.array([1, 10**10]))
            with self.assertRaisesRegex(ValueError, "^tails is an array of bools: numpy.flatnonzero"):
                Graph(numpy.array([False, True]), [0, 1])

    def test_how_many_vertices(self):
        for n in (3.5, "3", None.__class__, -1, 1, 2**28 + 1, float("nan")):
            with self.assertRaisesRegex(ValueError, "^n is "):
                Graph([0], [1], [1], n)
        with Graph([], [], [], True) as graph:
            self.assertEqual(graph.n, 1)
        with Graph([0], [1], [1], 3.0) as graph:
            self.assertEqual((graph.n, len(graph.distances(0))), (3, 3))

    def test_how_many_workers(self):
        for workers in (0, 65, -1, 2.5, "x", "4", [4]):
            with self.assertRaisesRegex(ValueError, "^workers is "):
                Graph([0], [1], [1], workers=workers)
        for workers in (1, 64, 2.0, "auto", None):
            with Graph([0], [1], [1], workers=workers) as graph:
                self.assertEqual(graph.distance(0, 1), 1)

    def test_how_many_landmarks(self):
        for landmarks in (65, -1, 2.5, "auto", [4]):
            with self.assertRaisesRegex(ValueError, "^landmarks is "):
                Graph([0], [1], [1], landmarks=landmarks)
        for landmarks in (0, 64, 2.0, None):
            with Graph([0], [1], [1], landmarks=landmarks) as graph:
                self.assertEqual(graph.distance(0, 1), 1)

    def test_when_a_hierarchy(self):
        for hierarchy in ("yes", True, 1, ["no"]):
            with self.assertRaisesRegex(ValueError, "^hierarchy is "):
                Graph([0], [1], [1], hierarchy=hierarchy)
        for hierarchy in ("auto", "no", "now", None):
            with Graph([0, 1], [1, 2], [1, 5], hierarchy=hierarchy) as graph:
                self.assertEqual(graph.distance(0, 2), 6)

    def test_what_is_no_edge(self):
        for edge in (("a", "b"), ("a", "b", 1, 2), 5, (["a"], "b", 1)):
            with self.assertRaisesRegex((TypeError, ValueError), r"^edges\[1\] is .*, which is no \(tail, head, weight"):
                Graph.from_edges([("a", "b", 1), edge])

    @unittest.skipIf(pandas is None, "no pandas")
    def test_an_index_of_its_own(self):
        for index in ([10, 11, 12], [1, 2, 0], ["a", "b", "c"]):
            for weight in (2.5, -3):
                with self.assertRaisesRegex(ValueError, rf"^weights\[1\] is .*{weight}"):
                    Graph([0, 0, 1], [1, 2, 2], pandas.Series([7, weight, 6], index=index))
        with Graph([0], [1], pandas.Series([7], index=[10])) as graph:
            self.assertEqual(ints(graph.distances(pandas.Series([0], index=[4]))[0]), [0, 7])
        with self.assertRaisesRegex(ValueError, r"^weights\[0\] is "):
            Graph([0], [1], pandas.Series([None], dtype="Int64"))

    @unittest.skipIf(numpy is None, "no numpy")
    def test_types_of_arrays(self):
        for code in "bBhHiIlLqQefdg":
            with self.subTest(code=code), Graph([0], [1], numpy.array([7], dtype=code)) as graph:
                self.assertEqual(graph.distance(0, 1), 7)
        with Graph([0], [1], numpy.array([True])) as graph:
            self.assertEqual(graph.distance(0, 1), 1)
        for weights in ([7, 1j, 6], numpy.array([7, 1j, 6]), numpy.array([1, 2], "m8[s]"), [7, [1], 6], numpy.array(["a"]), numpy.array([7, numpy.nan])):
            with self.subTest(weights=weights):
                self.refused(weights, r"\d")
        with self.assertRaisesRegex(ValueError, "^weights has 2 dimensions"):
            Graph([0], [1], numpy.array([[7]]))
        with Graph([], [], numpy.array([], dtype="U1")) as graph:
            self.assertEqual(graph.m, 0)

    @unittest.skipIf(numpy is None, "no numpy")
    def test_masked(self):
        with self.assertRaisesRegex(ValueError, r"^weights\[1\] is masked"):
            Graph([0, 0, 1], [1, 2, 2], numpy.ma.masked_array([7, 99, 6], mask=[0, 1, 0]))
        with Graph([0], [1], numpy.ma.masked_array([7], mask=[0])) as graph:
            self.assertEqual(graph.distance(0, 1), 7)

    def test_bounds(self):
        with Graph([0, 1], [1, 2], [3, 4]) as graph:
            for bound in (-1, INF, 1.5, "x", None, float("nan")):
                with self.assertRaisesRegex(ValueError, r"^the cost is "):
                    graph.within(0, bound)
            self.assertEqual(whole(graph.within(0, 3.0)), [[0, 1], [0, 3]])
            self.assertEqual(whole(graph.within(0, INF - 1)), [[0, 1, 2], [0, 3, 7]])
            if numpy is not None:
                for bound in (numpy.float32(3), numpy.float64(3), numpy.uint8(3), numpy.array(3)):
                    self.assertEqual(whole(graph.within(0, bound)), [[0, 1], [0, 3]])


class Vertices(Case):
    """What is a vertex, and what is one or several."""

    def each_call(self, graph, vertex):
        """The calls that take a vertex, each with this one."""
        yield lambda: graph.distance(0, vertex)
        yield lambda: graph.distance(vertex, 0)
        yield lambda: graph.path(vertex, 0)
        yield lambda: graph.path(0, vertex)
        yield lambda: graph.distances(vertex)
        yield lambda: graph.distances([0, vertex])
        yield lambda: graph.levels([vertex])
        yield lambda: graph.totals([vertex])
        yield lambda: graph.totals(vertex)
        yield lambda: graph.within(vertex, 3)
        yield lambda: graph.matrix([vertex], [0])
        yield lambda: graph.matrix([0], [vertex])
        yield lambda: graph.pairs([vertex], [0])
        yield lambda: graph.pairs([0], [vertex])
        yield lambda: graph.add([0], [vertex], [1])
        yield lambda: graph.add([vertex], [0], [1])

    def test_none_such(self):
        with Graph([0], [1], [3]) as graph:
            for vertex in (2, -1, 2**70):
                for call in self.each_call(graph, vertex):
                    with self.assertRaises(NoVertex) as caught:
                        call()
                    self.assertIsInstance(caught.exception, IndexError)
                    self.assertEqual(str(caught.exception), f"{vertex} is none of 2 vertices")
            for vertex in (1.0, 0.5, "1", b"1", None):
                for call in self.each_call(graph, vertex):
                    with self.assertRaises(TypeError):
                        call()
            with self.assertRaises(TypeError):
                graph.within([0, 1], 10)
            with self.assertRaisesRegex(TypeError, "^sources is a set"):
                graph.distances({0, 1})
            self.assertEqual((graph.m, graph.distance(0, 1)), (1, 3))

    def test_bool(self):
        with Graph([0], [1], [3]) as graph:
            self.assertEqual((graph.distance(False, True), graph.path(False, True)), (3, [0, 1]))

    def test_masks(self):
        """Several bools are a mask, and no vertices 0 and 1."""
        masks = [[False, True, True]]
        masks += [] if numpy is None else [numpy.array(masks[0]), [numpy.bool_(True)]]
        masks += [] if pandas is None or numpy is None else [pandas.Series(masks[0]), pandas.Series(masks[0], dtype="boolean")]
        with Graph([0, 1], [1, 2], [3, 4]) as graph, Graph([0, 1], [1, 2], names="abc") as named:
            for mask in masks:
                for ask in (graph.distances, graph.totals, lambda mask: graph.matrix([0], mask), lambda mask: graph.pairs(mask, mask), lambda mask: graph.add(mask, mask)):
                    with self.assertRaisesRegex(TypeError, "^(sources|targets|tails) has .*bool"):
                        ask(mask)
            for mask in masks[1:]:
                with self.assertRaisesRegex(TypeError, "^sources has .*bool"):
                    named.distances(mask)
            if numpy is not None:
                for ask in (graph.distances, graph.within, named.distances):
                    with self.assertRaisesRegex(TypeError, "^sources? has True, a bool of numpy and no vertex$"):
                        ask(numpy.bool_(True), *([3] if ask == graph.within else []))
                self.assertEqual(graph.distances(numpy.flatnonzero(masks[1])).shape, (2, 3))
        with Graph.from_edges([(True, False, 1)]) as graph:
            self.assertEqual(graph.distance(True, False), 1)

    def test_several_in_place_of_one(self):
        """The fault names the call that takes several."""
        with Graph([0, 1], [1, 2], [3, 4]) as graph, Graph([0, 1], [1, 2], names="abc") as named:
            for ask, call in (
                (lambda graph, some: graph.within(some, 7), "within_many"),
                (lambda graph, some: graph.distance(some, 0), "pairs"),
                (lambda graph, some: graph.path(some, 0), "paths"),
            ):
                for some in ([0, 1], *([] if numpy is None else [numpy.array([0, 1])])):
                    with self.assertRaisesRegex(TypeError, f"^source has .*: {call} takes several$"):
                        ask(graph, some)
                with self.assertRaisesRegex(TypeError, f"^source has .*: {call} takes several$"):
                    ask(named, ["a", "b"])

    def test_pairs_in_other_forms(self):
        with Graph([0, 1], [1, 2], [3, 4]) as graph:
            self.assertEqual(ints(graph.pairs([(0, 2), (1, 2)])), [7, 4])
            with self.assertRaisesRegex(ValueError, r"^pairs\[1\] is \(1,\), which is no \(source, target\)"):
                graph.pairs([(0, 2), (1,)])
            tables = [] if pandas is None else [pandas.DataFrame({"a": [0, 1], "b": [2, 2]}, index=[7, 3])]
            arrow, polar = (type("Column", (list,), {name: lambda self: list(self)}) for name in ("to_pylist", "to_list"))
            tables.append(type("Arrow", (), {"columns": [arrow([0, 1]), arrow([2, 2])]})())
            tables.append(type("Polar", (), {"columns": ["a", "b"], "get_columns": lambda _: [polar([0, 1]), polar([2, 2])]})())
            for table in tables:
                self.assertEqual(list(graph.paths(table)), [[0, 1, 2], [1, 2]])
                self.assertEqual(ints(graph.pairs(table)), [7, 4])
                self.assertEqual(graph.edges_between(table), [(1, 2, 4)])
                with self.assertRaisesRegex(ValueError, r"^edges is a table of 2 columns, where \(tail, head, weight\) has 3"):
                    graph.add_edges(table)
            if pandas is not None:
                with self.assertRaisesRegex(TypeError, "^sources is a table, where one of its columns is wanted$"):
                    graph.distances(tables[0])
                graph.set_weights(pandas.DataFrame({"a": [0], "b": [1], "c": [1]}))
                self.assertEqual(graph.distance(0, 2), 5)

    @unittest.skipIf(numpy is None, "no numpy")
    def test_numbers_of_numpy(self):
        with Graph([0, 1], [1, 2], [3, 4]) as graph:
            for code in "bBhHiIlLqQ":
                zero, two = numpy.array([0, 2], dtype=code)
                self.assertEqual((graph.distance(zero, two), graph.path(zero, two)), (7, [0, 1, 2]))
                self.assertEqual(graph.distances(zero).tolist(), [0, 3, 7])
                self.assertEqual(graph.distances(numpy.array(0, dtype=code)).tolist(), [0, 3, 7])
                self.assertEqual(graph.totals(numpy.array([0, 1], dtype=code))[1].sum, 4)
                self.assertEqual(graph.matrix([zero], numpy.array([1, 2], dtype=code)).tolist(), [[3, 7]])
            vertices, _ = graph.within(0, 100)
            self.assertEqual(graph.distances(vertices).shape, (3, 3))
            self.assertEqual(graph.path(vertices[0], vertices[2]), [0, 1, 2])
            self.assertEqual(graph.distances(graph.components()).shape, (3, 3))
            graph.add(vertices[:1], vertices[2:], [1])
            self.assertEqual(graph.distance(0, 2), 1)
            for given in (numpy.array([0.0]), numpy.array(0.0), numpy.array([[0]])):
                with self.assertRaises(TypeError):
                    graph.distances(given)
            with self.assertRaisesRegex(NoVertex, "^3 is none of 3"):
                graph.distances(numpy.array([0, 3, 4]))
            with self.assertRaises(NoVertex):
                graph.distances(numpy.array([-1], dtype="b"))

    def test_largest_of_a_type(self):
        if numpy is None:
            self.skipTest("no numpy")
        with Graph([0], [255], [3]) as graph:
            self.assertEqual(graph.distance(0, numpy.uint8(255)), 3)
            self.assertEqual(ints(graph.distances(numpy.array([255], dtype="B"))[0])[255], 0)

    def test_names(self):
        edges = [("Rom", "Ulm", 7), ("Ulm", ("a", "b"), 6), (("a", "b"), 10, 1), (10, frozenset("x"), 2)]
        with Graph.from_edges(edges) as graph:
            self.assertEqual((graph.n, graph.m), (5, 4))
            self.assertEqual(graph.names, ("Rom", "Ulm", ("a", "b"), 10, frozenset("x")))
            self.assertEqual([each.reached for each in graph.totals(graph)], [5, 4, 3, 2, 1])
            self.assertEqual(ints(graph.distances(("a", "b"))), [INF, INF, 0, 1, 3])
            self.assertEqual(len(graph.distances(["Rom", "Ulm"])), 2)
            self.assertEqual(len(graph.distances(("Rom", "Ulm"))), 2)
            self.assertEqual(len(graph.distances(name for name in ("Rom", 10))), 2)
            self.assertEqual(ints(graph.distances(frozenset("x"))), [INF, INF, INF, INF, 0])
            for name in ("Rome", "RomUlm", "R", b"Rom", 30, 1.5, None):
                with self.assertRaises(NoVertex) as caught:
                    graph.distances(name)
                self.assertIsInstance(caught.exception, KeyError)
                self.assertEqual(str(caught.exception), f"{name!r} is none of 5 vertices")
            with self.assertRaises(NoVertex):
                graph.distances(["Rom", "Ulms"])
            with self.assertRaises(TypeError):
                graph.distance(["Rom"], "Ulm")
        with Graph.from_edges([("A", "B", 1)]) as graph, self.assertRaisesRegex(NoVertex, "^'AB' is none"):
            graph.distances("AB")
        with Graph.from_edges([("A", "B", 1)], nodes=["AB"]) as graph:
            self.assertEqual(ints(graph.distances("AB")), [0, INF, INF])
            for ask in (graph.matrix, graph.pairs, lambda *ends: graph.add(*ends, [1, 2])):
                with self.assertRaisesRegex(TypeError, "^(sources|tails) is 'AB', a text"):
                    ask("AB", ["A", "B"])
        with Graph([0], [1], [3]) as graph:
            self.assertIsNone(graph.names)


class Rows(Case):
    """Rows and matrices: their shapes, and their types."""

    def test_matrix_that_is_no_square(self):
        with Graph([0, 1], [1, 2], [7, 6]) as graph:
            rows = [[0, 7, 13], [INF, 0, 6]]
            self.assertEqual(whole(graph.matrix([0, 1], [0, 1, 2])), rows)
            self.assertEqual(whole(graph.matrix([0, 1, 2], [2])), [[13], [6], [0]])
            self.assertEqual(whole(graph.matrix([0, 1], [])), [[], []])
            self.assertEqual(whole(graph.matrix([], [0, 1])), [])
            self.assertEqual(whole(graph.distances([])), [])
            self.assertEqual(ints(graph.pairs([], [])), [])
            with self.assertRaisesRegex(ValueError, "^2 sources and 1 targets"):
                graph.pairs([0, 1], [2])
            self.assertEqual(graph.totals([]), [])
            self.assertEqual((list(graph), whole(graph.distances(graph))), ([0, 1, 2], [*rows, [INF, INF, 0]]))
            graph.add([], [], [])
            self.assertEqual(graph.m, 2)

    def test_floats(self):
        far = float("inf")
        with Graph([0, 1], [1, 2], [2**32 - 1, 6]) as graph:
            for rows in (graph.distances([0, 1], dtype=float), graph.matrix([0, 1], [0, 1, 2], dtype=float)):
                self.assertEqual([list(row) for row in rows], [[0.0, 4294967295.0, 4294967301.0], [far, 0.0, 6.0]])
            self.assertEqual(sum(graph.distances(1, dtype=float)), far)
            self.assertEqual(list(graph.levels(1, dtype=float)), [far, 0.0, 1.0])
            self.assertEqual(list(graph.pairs([1, 1], [0, 2], dtype=float)), [far, 6.0])
            with self.assertRaises(ValueError):
                graph.distances(0, dtype=complex)
            for dtype in ("no type", 5):
                with self.assertRaisesRegex(ValueError, "^dtype is "):
                    graph.matrix([0], [1], dtype=dtype)
            if numpy is not None:
                self.assertEqual(graph.distances(1, dtype=numpy.float64).dtype, float)
                self.assertEqual(graph.distances([0, 1], dtype="float64").shape, (2, 3))

    def test_requests_of_many_sizes(self):
        n, arcs = drawn(4)
        with Graph(*columns(arcs), n) as graph:
            wanted = whole(graph.distances(range(n))), graph.totals(range(n)), whole(graph.matrix(range(n), range(n)))
            for size in (1, 2, 3, 7, 1000):
                with mock.patch.object(hollowbowl._asking.Sizes, "of", lambda self, question: size):
                    found = whole(graph.distances(range(n))), graph.totals(range(n)), whole(graph.matrix(range(n), range(n)))
                self.assertEqual(found, wanted)

    def test_more_than_a_request_takes(self):
        many = 1025
        with Graph([0], [1], [3]) as graph:
            rows = graph.matrix([0] * many, [1] * many)
            self.assertEqual((len(rows), len(rows[0]), set(ints(rows[0])), set(ints(rows[-1]))), (many, many, {3}, {3}))
            count = 2**20 + 1
            graph.add([0] * count, [1] * count, [2] * count)
            self.assertEqual((graph.m, graph.distance(0, 1)), (1 + count, 2))

    def test_more_sources_than_a_request_takes(self):
        count, most = 2001, 1000
        body = (
            f"line = 4\nwhile words := sys.stdin.buffer.readline().split():\n    count = int(words[6])\n    line += count + 1\n    os._exit(9) if count > {most} else read(count)\n"
            "    say(b's 1\\n' + bytes(16) if count else b'', *[b's 1\\n' + bytes(16)] * (count - 1), b'r 2 1 %d\\n' % line)\n"
        )
        with fake(body), Graph([0], [1], [7]) as graph, mock.patch.object(hollowbowl._asking, "MOST_ITEMS", most):
            rows = graph.distances([0] * count)
            self.assertEqual((len(rows), ints(rows[0]), ints(rows[-1])), (count, [0, 0], [0, 0]))


class Text(unittest.TestCase):
    """The functions that make and read text."""

    def test_text_in_pieces(self):
        from hollowbowl import _columns, _text

        for count in (8, 100):
            parts = [_columns.as_column("x", [*range(k, k + count)], 2**32 - 1) for k in (1, 95, 4294967190)]
            wanted = "".join(f"a {k + 2} {k + 96} {k + 4294967190}\n" for k in range(count)).encode()
            for chunk in (3, 65, 1000):
                with mock.patch.object(_text, "_CHUNK", chunk):
                    self.assertEqual(b"".join(_text.lines_text("a", parts, (1, 1, 0))), wanted)

    def test_large_numbers(self):
        from hollowbowl import _text

        body = b"s 1\nd 1 0\nd 2 9007199254740993\nd 3 18446744073709551614\n"
        vertices, costs = next(_text.near_in(body, [0]))
        self.assertEqual((ints(vertices), ints(costs)), ([0, 1, 2], [0, 2**53 + 1, INF - 1]))
        labels = _text.components_in(b"k 1 1\nk 2 16777219\n", 2)
        self.assertEqual(ints(labels), [0, 16777218])

    def test_columns_are_small(self):
        from hollowbowl import _columns

        self.assertEqual(memoryview(_columns.as_column("x", [1, 2], 9)).nbytes, 8)

    def test_faults_can_be_pickled(self):
        made = [
            hollowbowl.Error("x"),
            hollowbowl.NoPath("a", (1, 2)),
            hollowbowl.NoVertex("a", 3),
            hollowbowl.BadGraph("a.gr", 3, "unknown line"),
            hollowbowl.NoArc([("a", 3)]),
            hollowbowl.ChangeStays("x"),
            hollowbowl.GraphChanged("x"),
            hollowbowl.NotKept("x"),
            hollowbowl.Refused("out of range", "s 3"),
            hollowbowl.OutOfMemory("out of memory", 7),
            hollowbowl.Ended(-9, ""),
            hollowbowl.Closed(),
            hollowbowl.OutOfStep("x"),
            hollowbowl.ProgramMissing("x"),
            hollowbowl.ProgramTooOld("x"),
            hollowbowl.Timeout("x"),
            hollowbowl.WrongProcess("x"),
        ]
        for fault in made:
            again = pickle.loads(pickle.dumps(fault))
            self.assertEqual((type(again), str(again), again.__dict__), (type(fault), str(fault), fault.__dict__))
            self.assertIsInstance(fault, hollowbowl.Error)
        self.assertEqual({type(fault).__name__ for fault in made}, {name for name in hollowbowl.__all__ if isinstance(getattr(hollowbowl, name), type) and issubclass(getattr(hollowbowl, name), Exception)})
