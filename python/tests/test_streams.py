"""Rows, paths and bounds that come one after another, and functions that are told how far a call is."""

import unittest
import weakref
from unittest import mock

from common import Case, columns, costs_from, drawn, ints, levels_from, numpy, the_program, threads, waits_for
from fake import fake

import hollowbowl
from hollowbowl import INF, Closed, Graph, GraphChanged, NoPath, NoVertex, OutOfStep, Timeout

WORKED = ([0, 0, 1], [1, 2, 2], [7, 20, 6])


def by_requests_of(size):
    """Has requests of so many items while a `with` lasts."""
    return mock.patch.object(hollowbowl._asking.Sizes, "size", lambda self, kind, form: size)


class Answers(Case):
    """What comes is what calls for one or for all give."""

    def test_worked(self):
        with Graph(*WORKED) as graph:
            self.assertEqual([(vertex, ints(row)) for vertex, row in graph.rows([1, 0])], [(1, [INF, 0, 6]), (0, [0, 7, 13])])
            self.assertEqual([(vertex, ints(row)) for vertex, row in graph.rows(0, hops=True)], [(0, [0, 1, 1])])
            self.assertEqual([list(row) for _, row in graph.rows([1], dtype=float)], [[float("inf"), 0.0, 6.0]])
            self.assertEqual(list(graph.paths([(1, 2), (0, 2), (0, 0)])), [[1, 2], [0, 1, 2], [0]])
            self.assertEqual(list(graph.paths(iter([(0, 2)]), hops=True)), [[0, 2]])
            found = [(vertex, ints(near), ints(costs)) for vertex, near, costs in graph.within_many([0, 1], 7)]
            self.assertEqual(found, [(0, [0, 1], [0, 7]), (1, [1, 2], [0, 6])])
            for call in (graph.rows, graph.paths, lambda each: graph.within_many(each, 3)):
                self.assertEqual(list(call([])), [])

    def test_beside_a_heap(self):
        for seed in range(10):
            n, arcs = drawn(seed)
            pairs = [(place * 7 % n, place % n) for place in range(50)]
            wanted = {False: [costs_from(n, arcs, each) for each in range(n)], True: [levels_from(n, arcs, each) for each in range(n)]}
            with Graph(*columns(arcs), n) as graph:
                for size in (1, 2, 3, 7, 1000):
                    with by_requests_of(size):
                        for hops, rows in wanted.items():
                            self.assertEqual([(vertex, ints(row)) for vertex, row in graph.rows(graph, hops=hops)], [*enumerate(rows)])
                            self.check_paths(graph, pairs, hops)
                            self.check_near(graph, rows, hops)

    def check_paths(self, graph, pairs, hops):
        """Paths of many pairs have the costs of each, and begin and end where they should."""
        for (source, target), path in zip(pairs, graph.paths(pairs, hops=hops, missing=None)):
            if path is None:
                self.assertFalse(graph.has_path(source, target))
            else:
                self.assertEqual((path, path[0], path[-1]), (graph.path(source, target, hops=hops), source, target))

    def check_near(self, graph, rows, hops):
        """Within a bound of many sources lies what does within that of each."""
        bound = max((cost for cost in rows[0] if cost != INF)) // 2
        for source, vertices, costs in graph.within_many(graph, bound, hops=hops):
            near = [vertex for vertex, cost in enumerate(rows[source]) if cost <= bound]
            self.assertEqual((ints(vertices), ints(costs)), (near, [rows[source][vertex] for vertex in near]))

    def test_names(self):
        with Graph.from_edges([("a", "b", 7), ("a", ("c", 1), 20), ("b", ("c", 1), 6)]) as graph:
            self.assertEqual([(name, ints(row)) for name, row in graph.rows("a")], [("a", [0, 7, 13])])
            self.assertEqual([name for name, _ in graph.rows(graph)], ["a", "b", ("c", 1)])
            self.assertEqual(list(graph.paths([("a", ("c", 1)), ("b", "a")], missing=None)), [["a", "b", ("c", 1)], None])
            self.assertEqual([(name, near, ints(costs)) for name, near, costs in graph.within_many(["b"], 6)], [("b", ["b", ("c", 1)], [0, 6])])

    def test_no_path(self):
        with Graph(*WORKED) as graph:
            paths = graph.paths([(0, 1), (2, 0), (0, 2)])
            self.assertEqual(next(paths), [0, 1])
            with self.assertRaises(NoPath) as caught:
                next(paths)
            self.assertEqual((caught.exception.source, caught.exception.target), (2, 0))
            self.assertEqual([*paths], [])
            self.assertEqual(list(graph.paths([(0, 1), (2, 0), (0, 2)], missing=None)), [[0, 1], None, [0, 1, 2]])

    def test_arguments(self):
        with Graph(*WORKED) as graph:
            for pairs, kind, words in (
                ([(0, 1), 5], TypeError, r"^pairs\[1\] is 5, which is no \(source, target\)"),
                ([(0, 1, 2)], ValueError, r"^pairs\[0\] is \(0, 1, 2\), which is no"),
                (["ab"], TypeError, r"^pairs\[0\] is 'ab', which is no .*a text is one vertex"),
                ({(0, 1)}, TypeError, "^pairs is a set"),
                (5, TypeError, "^pairs is 5"),
                ([(0, 1.0)], TypeError, "^targets has 1.0"),
                ([(0, 3)], NoVertex, "^3 is none of 3"),
            ):
                with self.assertRaisesRegex(kind, words):
                    graph.paths(pairs)
            for missing in ("skip", False, 0):
                with self.assertRaisesRegex(ValueError, "^missing is "):
                    graph.paths([(0, 1)], missing=missing)
            for call in (graph.rows, lambda source, **how: graph.within_many(source, 3, **how)):
                for wrong, kind in ((3, NoVertex), ([0, 1.0], TypeError), ({0}, TypeError), ("a", TypeError)):
                    with self.assertRaises(kind):
                        call(wrong)
                with self.assertRaisesRegex(ValueError, "^timeout is "):
                    call(0, timeout=-1)
            with self.assertRaisesRegex(ValueError, "^dtype is "):
                graph.rows(0, dtype=complex)
            with self.assertRaisesRegex(ValueError, "^the cost is "):
                graph.within_many(0, -1)

    @unittest.skipIf(numpy is None, "no numpy")
    def test_arrays(self):
        with Graph(*WORKED) as graph:
            self.assertEqual(list(graph.paths(numpy.array([[0, 2], [1, 2]]))), [[0, 1, 2], [1, 2]])
            (vertex, row), = graph.rows(numpy.array([1], dtype="b"))
            self.assertEqual((type(vertex), row.dtype), (int, numpy.uint64))


class Changes(Case):
    """What comes between two answers."""

    def test_other_questions(self):
        with Graph(*WORKED) as graph, by_requests_of(1):
            rows, paths = graph.rows([0, 1, 2]), graph.paths([(0, 2), (1, 2)])
            self.assertEqual((next(rows)[0], next(paths), graph.distance(0, 2)), (0, [0, 1, 2], 13))
            self.assertEqual((next(rows)[0], next(paths), ints(graph.levels(0))), (1, [1, 2], [0, 1, 1]))
            self.assertEqual((next(rows)[0], [*rows], [*paths]), (2, [], []))

    def test_arcs(self):
        for size in (1, 100):
            for place in range(3):
                with Graph(*WORKED) as graph, by_requests_of(size):
                    calls = graph.rows([0, 1, 2]), graph.paths([(0, 2), (1, 2), (0, 1)]), graph.within_many([0, 1, 2], 9)
                    for call in calls:
                        self.assertEqual(len([next(call) for _ in range(place)]), place)
                    graph.add([], [], [])
                    self.assertEqual(graph.version, 0)
                    graph.add([0], [2], [5])
                    self.assertEqual(graph.version, 1)
                    for call in calls:
                        with self.assertRaisesRegex(GraphChanged, "^the graph's arcs have changed"):
                            next(call)
                        self.assertEqual([*call], [])
                    self.assertEqual([path for path in graph.paths([(0, 2)])], [[0, 2]])

    def test_arcs_after_the_last(self):
        with Graph(*WORKED) as graph:
            for _ in graph.rows([0]):
                graph.add([0], [2], [5])

    def test_dropped(self):
        graph = Graph(*WORKED)
        with by_requests_of(1):
            rows = graph.rows([0] * 100)
            self.assertEqual(next(rows)[0], 0)
            rows.close()
            rows = graph.rows([0, 1])
            del graph
            # Whoever still takes rows holds the graph.
            self.assertEqual([ints(row) for _, row in rows], [[0, 7, 13], [INF, 0, 6]])
        del rows
        self.assertTrue(waits_for(lambda: not threads()))

    def test_left(self):
        # The cost is how many requests of two lines there were, with a row each in parts of one.
        body = (
            "count = 0\nwhile words := sys.stdin.buffer.readline().split():\n    read()\n    count += 1\n"
            "    say(b's 1\\n' + bytes(16) if b'ss' in words else cost(count), b'r 2 1 %d\\n' % (2 * count + 4))\n"
        )
        with fake(body), Graph([0], [1], [7]) as graph, by_requests_of(1000):
            with mock.patch.object(hollowbowl._asking.Sizes, "of", lambda self, question: 1):
                rows = graph.rows([0] * 3000)
                next(rows)
                rows.close()
                self.assertLess(graph.distance(0, 1), 1900)

    def test_closed(self):
        graph = Graph(*WORKED)
        with by_requests_of(1):
            rows = graph.rows([0, 1, 2, 0])
            next(rows)
            graph.close()
            with self.assertRaises(Closed):
                list(rows)
        with self.assertRaises(Closed):
            next(graph.paths([(0, 1)]))

    def test_two_requests_in_memory(self):
        made = []

        class Row(bytearray):
            """Room for a row that can be watched."""

        def labels_for(count):
            row = Row(8 * count)
            made.append(weakref.ref(row))
            return row

        most = 0
        with Graph(*WORKED) as graph, mock.patch.object(hollowbowl._costs, "labels_for", labels_for), by_requests_of(3):
            for _, row in graph.rows([0] * 60):
                del row
                most = max(most, sum(each() is not None for each in made))
        self.assertEqual(len(made), 60)
        self.assertLessEqual(most, 6)

    def test_wrong_replies(self):
        for reply in (b"q 1 2 7\nw 2 7 1 2\nq 1 1 0\nr 2 1 7\n", b"q 1 2 7\nw 2 7 1 2\nr 2 1 7\n", b"q 1 2 7\nw 2 7 1 2\nq 1 2 7\nw 2 8 1 2\nr 2 1 7\n"):
            with fake(f"read(3)\nsay({reply!r})\nrest()"), Graph([0], [1], [7]) as graph, self.assertRaises(OutOfStep):
                list(graph.paths([(0, 1), (0, 1)]))
        for reply in (b"s 1\nd 1 0\nr 2 1 7\n", b"s 1\nd 1 0\ns 1\nd 1 0\nr 2 1 7\n", b"s 1\nd 1 0\ns 2\nd 2\nr 2 1 7\n", b"d 1 0\ns 1\ns 2\nr 2 1 7\n"):
            with fake(f"read(3)\nsay({reply!r})\nrest()"), Graph([0], [1], [7]) as graph, self.assertRaises(OutOfStep):
                list(graph.within_many([0, 1], 0))


class Sizes(unittest.TestCase):
    """How many items a request has."""

    def test_table(self):
        from hollowbowl import _asking, _questions

        walks = _questions.Walks(b"distances", [0] * 10**6, [0] * 10**6)
        for count, seconds, length, wanted in (
            (256, 0.025, 1000, 1024),
            (256, 0.25, 1000, 256),
            (256, 2.5, 1000, 64),
            (256, 0.025, 8 << 20, 128),
            (1, 0.0001, 20, 256),
            (1, 1.0, 20, 1),
        ):
            sizes = _asking.Sizes()
            sizes.learn(walks, count, seconds, length)
            self.assertEqual(sizes.of(walks), wanted, (count, seconds, length))

    def test_where_requests_end(self):
        """A source of several pairs is not cut, since it would be solved again."""
        from hollowbowl import _columns, _questions

        sources = _columns.column([2, 0, 1, 0, 2, 0])
        pairs = _questions.SortedPairs(b"distances", sources, sources)
        matrix = _questions.Matrix(b"distances", sources[:3], sources[:4])
        for question, size, wanted in (
            (pairs, 1, [3, 4, 6]),
            (pairs, 2, [3, 4, 6]),
            (pairs, 3, [3, 6]),
            (pairs, 4, [4, 6]),
            (pairs, 5, [4, 6]),
            (pairs, 6, [6]),
            (matrix, 1, [4, 8, 12]),
            (matrix, 7, [4, 8, 12]),
            (matrix, 8, [8, 12]),
            (matrix, 99, [12]),
        ):
            ends = [0]
            while ends[-1] < question.count:
                ends.append(question.end(ends[-1], size))
            self.assertEqual(ends[1:], wanted, (question, size))

    def test_of_first_requests(self):
        from hollowbowl import _asking

        for n, wanted in ((0, (16, 256, 4096)), (8192, (16, 256, 256)), (2**20, (2, 2, 4096)), (2**28, (1, 1, 4096))):
            sizes = _asking.Sizes()
            sizes.n = n
            forms = ("rows", "walks", "pairs" if n == 8192 else "arcs")
            self.assertEqual(tuple(sizes.size(b"distances", form) for form in forms), wanted)


class Progress(Case):
    """Functions that are told how far a call is."""

    def each_call(self, graph, **how):
        """The calls for many, each for six items."""
        yield lambda: graph.distances([0] * 6, **how)
        yield lambda: graph.levels([0] * 6, **how)
        yield lambda: graph.totals([0] * 6, **how)
        yield lambda: graph.closeness([0] * 6, **how)
        yield lambda: graph.eccentricity([0] * 6, **how)
        yield lambda: graph.matrix([0, 1, 2], [0, 1], **how)
        yield lambda: graph.pairs([0, 1, 2] * 2, [1] * 6, **how)
        yield lambda: list(graph.rows([0] * 6, **how))
        yield lambda: list(graph.paths([(0, 1)] * 6, **how))
        yield lambda: list(graph.within_many([0] * 6, 9, **how))

    def test_counts(self):
        with Graph(*WORKED) as graph:
            for size, wanted in ((1, [1, 2, 3, 4, 5, 6]), (4, [4, 6]), (6, [6]), (100, [6])):
                with by_requests_of(size):
                    told = []
                    for place, call in enumerate(self.each_call(graph, progress=lambda *step: told.append(step))):
                        told.clear()
                        call()
                        # A matrix of two columns is cut at its rows, and pairs at the sources, which have two each.
                        is_cut_so = size == 1 and place in (5, 6)
                        self.assertEqual(told, [(done, 6) for done in ([2, 4, 6] if is_cut_so else wanted)], (size, place))

    def test_what_it_raises(self):
        def fails(done, count):
            raise LookupError(f"{done} of {count}")

        def interrupts(done, count):
            raise KeyboardInterrupt

        with Graph(*WORKED) as graph, by_requests_of(2):
            number = the_program()
            for call in self.each_call(graph, progress=fails):
                with self.assertRaisesRegex(LookupError, "^2 of 6$"):
                    call()
                self.assertEqual(ints(graph.distances(0)), [0, 7, 13])
            for call in self.each_call(graph, progress=interrupts):
                with self.assertRaises(KeyboardInterrupt):
                    call()
                self.assertEqual(graph.path(0, 2), [0, 1, 2])
            self.assertEqual(the_program(), number)

    def test_it_may_ask(self):
        with Graph(*WORKED) as graph, by_requests_of(2):
            told = []
            for call in self.each_call(graph, progress=lambda done, _: told.append((done, graph.distance(0, 2)))):
                told.clear()
                call()
                self.assertEqual(told, [(2, 13), (4, 13), (6, 13)])

    def test_what_is_no_function(self):
        with Graph(*WORKED) as graph:
            for call in self.each_call(graph, progress=5):
                with self.assertRaisesRegex(TypeError, "^progress is 5, which is no function"):
                    call()

    def test_timeout(self):
        with fake("rest()"), Graph([0], [1], [7]) as graph:
            for ask in (graph.distances, graph.totals):
                with self.assertRaisesRegex(Timeout, "within 0.05 s"):
                    ask([0], timeout=0.05, progress=print)


if __name__ == "__main__":
    unittest.main()
