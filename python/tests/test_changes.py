"""Arcs that are removed, set and asked for: worked numbers, faults, what is kept, and wrong replies."""

import os
import random
import signal
import unittest
from decimal import Decimal
from unittest import mock

from common import Case, columns, components_of, costs_from, ints, levels_from, numpy, the_program, there, whole
from fake import fake

import hollowbowl
from hollowbowl import Ended, Graph, GraphChanged, NoArc, NoVertex, NotKept, OutOfMemory, OutOfStep, ProgramTooOld, Timeout

# The last two stand side by side.
ARCS = [(0, 1, 7), (1, 2, 6), (0, 2, 20), (0, 2, 30)]
ALL = [(tail, head) for tail in range(4) for head in range(4)]


def graph_of(arcs, n=4, **names):
    return Graph(*columns(arcs), n, **names)


class Changes(Case):
    """Worked numbers of a graph of four vertices."""

    def test_questions(self):
        with graph_of(ARCS) as graph:
            for pairs, wanted in (
                ([], []),
                ([(0, 1)], [(0, 1, 7)]),
                ([(0, 2), (2, 0), (1, 2)], [(0, 2, 20), (0, 2, 30), (1, 2, 6)]),
                ([(1, 2), (0, 1), (1, 2)], [(1, 2, 6), (0, 1, 7), (1, 2, 6)]),
                ([(0, 2), (0, 2)], [(0, 2, 20), (0, 2, 30)] * 2),
                (iter([[True, 2]]), [(1, 2, 6)]),
            ):
                self.assertEqual(graph.edges_between(pairs), wanted)
            self.assertEqual((graph.has_edge(0, 2), graph.has_edge(2, 0), graph.has_edge(3, 3)), (True, False, False))
            self.assertEqual((graph.weight(0, 2), graph.weight(1, 2), graph.version), (20, 6, 0))
            with self.assertRaisesRegex(NoArc, "^no arc leads from 2 to 0$") as caught:
                graph.weight(2, 0)
            self.assertEqual((caught.exception.pairs, isinstance(caught.exception, KeyError)), ([(2, 0)], True))
            done = []
            with mock.patch.dict(hollowbowl._asking._FIRST, arcs=3):
                found = graph.edges_between(ALL * 3, progress=lambda *words: done.append(words))
            self.assertEqual((sorted(found), done[-1]), (sorted(ARCS * 3), (48, 48)))

    def test_add_edges(self):
        with Graph.from_edges([("a", "b", 7)], nodes=["c"]) as graph:
            graph.add_edges([("b", "c", 6), ("a", "c", 20)])
            self.assertEqual((graph.m, graph.version, graph.path("a", "c")), (3, 1, ["a", "b", "c"]))
            for edges, kind, words in (
                ([("a", "b")], ValueError, r"^edges\[0\] is \('a', 'b'\), which is no \(tail, head, weight\)"),
                ([("a", "b", 1), ("a", "x", 1)], NoVertex, "x"),
                ([("a", "b", -1)], ValueError, r"^edges\[0\] has the weight -1"),
                (7, TypeError, "^edges is 7"),
            ):
                with self.assertRaisesRegex(kind, words):
                    graph.add_edges(edges)
            graph.add_edges([])
            self.assertEqual(graph.m, 3)

    def test_weights_left_out(self):
        for scale, cost in ((None, 2), (100, 2.0)):
            with Graph([0, 1], [1, 2], scale=scale) as graph:
                self.assertEqual((graph.distance(0, 2), graph.weight(0, 1)), (cost, cost / 2))
                graph.add([0], [2])
                self.assertEqual((graph.distance(0, 2), graph.m), (cost / 2, 3))
                with self.assertRaisesRegex(ValueError, "^1 tails, 2 heads and 1 weights"):
                    graph.add([0], [1, 2])
        with self.assertRaisesRegex(ValueError, "^1 tails, 2 heads and 1 weights"):
            Graph([0], [1, 2])
        with Graph([], []) as graph:
            self.assertEqual((graph.n, graph.m), (0, 0))
        with Graph.from_edges([("a", "b"), ("b", "c", 5), ["a", "c"]], default=3) as graph:
            self.assertEqual((graph.distance("a", "b"), graph.distance("b", "c"), graph.distance("a", "c")), (3, 5, 3))
        for edge in (("a",), ("a", "b", 1, 2), 7):
            with self.assertRaisesRegex((TypeError, ValueError), r"^edges\[0\] is"):
                Graph.from_edges([edge], default=1)
        with self.assertRaisesRegex(ValueError, r"^edges\[0\] is \('a', 'b'\)"):
            Graph.from_edges([("a", "b")])

    def test_remove(self):
        for edges, gone, costs in (
            ([(0, 1)], 1, [0, None, 20, None]),
            ([(0, 2)], 2, [0, 7, 13, None]),
            ([(0, 2), (0, 2), (1, 2)], 3, [0, 7, None, None]),
            ({(0, 1), (0, 2)}, 3, [0, None, None, None]),
            ([], 0, [0, 7, 13, None]),
        ):
            with graph_of(ARCS) as graph:
                self.assertEqual((graph.remove(edges), graph.m, graph.version), (gone, 4 - gone, int(gone > 0)))
                self.assertEqual(there(graph), sorted(arc for arc in ARCS if arc[:2] not in edges))
                self.assertEqual([cost if graph.has_path(0, place) else None for place, cost in enumerate(graph.distances(0))], costs)

    def test_missing(self):
        with graph_of(ARCS) as graph:
            for change in (graph.remove, lambda pairs: graph.set_weights([(*pair, 5) for pair in pairs])):
                with self.assertRaisesRegex(NoArc, "^no arc leads from 2 to 0, from 3 to 3$") as caught:
                    change([(0, 1), (2, 0), (3, 3), (2, 0)])
                self.assertEqual((caught.exception.pairs, there(graph), graph.version), ([(2, 0), (3, 3)], sorted(ARCS), 0))
            self.assertEqual((graph.remove([(3, 3)], missing="ignore"), graph.version), (0, 0))
            self.assertEqual((graph.remove([(0, 2), (3, 3)], missing="ignore"), graph.m), (2, 2))
            self.assertIsNone(graph.set_weights([(0, 1, 5), (0, 3, 1), (0, 3, 2)], missing="add"))
            self.assertEqual((there(graph), graph.m), ([(0, 1, 5), (0, 3, 1), (0, 3, 2), (1, 2, 6)], 4))

    def test_set(self):
        with graph_of(ARCS) as graph:
            graph.levels(0), graph.components()
            graph.set_weights([(0, 2, 4)])
            self.assertEqual((ints(graph.distances(0))[:3], graph.m, graph.version), ([0, 7, 4], 3, 1))
            graph.set_weights([(0, 1, 1), (0, 2, 9), (0, 2, 8)])
            self.assertEqual((graph.edges_between([(0, 2)]), graph.distance(0, 2), graph.m), ([(0, 2, 9), (0, 2, 8)], 7, 4))
            graph.set_weights([])
            self.assertEqual(graph.version, 2)
            graph.set_weights(zip([1], [2], [2**32 - 1]))
            self.assertEqual((graph.weight(1, 2), ints(graph.levels(0))[:3], ints(graph.components())), (2**32 - 1, [0, 1, 1], [0, 0, 0, 3]))

    def test_names_and_decimals(self):
        with Graph.from_edges([("a", "b", 0.07), (("c", 1), "b", Decimal("0.1"))], scale=100) as graph:
            self.assertEqual(graph.edges_between([(("c", 1), "b")]), [(("c", 1), "b", 0.1)])
            self.assertEqual((graph.weight("a", "b"), graph.weight("a", "b", whole=True)), (0.07, 7))
            self.assertEqual(graph.edges_between([("a", "b")], whole=True), [("a", "b", 7)])
            graph.set_weights([("a", "b", 1.05)])
            with graph.changed(set=[("a", "b", 2)], add=[("b", "a", Decimal("0.01"))]):
                self.assertEqual((graph.distance("a", "b"), graph.distance("b", "a")), (2.0, 0.01))
            self.assertEqual((graph.distance("a", "b"), graph.remove([(("c", 1), "b")]), graph.m), (1.05, 1, 1))
            for ask, kind, words in (
                (lambda: graph.remove([("a", "b"), ("b", ("c", 1))]), NoArc, r"^no arc leads from 'b' to \('c', 1\)$"),
                (lambda: graph.changed(remove=[("b", "a")]).__enter__(), NoArc, "^no arc leads from 'b' to 'a'$"),
                (lambda: graph.set_weights([("a", "b", 0.5), ("a", "b", 0.125)]), ValueError, r"^edges\[1\] has the weight 0.125, which times 100 .*: scale=1000 would do$"),
                (lambda: graph.remove([("a", "d")]), NoVertex, "^'d' is none of 3 vertices"),
            ):
                with self.assertRaisesRegex(kind, words):
                    ask()

    @unittest.skipIf(numpy is None, "no numpy")
    def test_arrays(self):
        with graph_of(ARCS) as graph:
            self.assertEqual(graph.edges_between(numpy.array([[0, 1], [1, 2]])), [(0, 1, 7), (1, 2, 6)])
            graph.set_weights(numpy.array([[0, 1, 3]], dtype=numpy.uint8))
            self.assertEqual((graph.distance(0, 2), graph.remove(numpy.array([[0, 2]]))), (9, 2))

    def test_arguments(self):
        with graph_of(ARCS) as graph:
            for ask, kind, words in (
                (lambda: graph.remove(3), TypeError, r"^edges is 3, which is no list of \(tail, head\)$"),
                (lambda: graph.remove([(0, 1, 2)]), ValueError, r"^edges\[0\] is \(0, 1, 2\), which is no \(tail, head\): "),
                (lambda: graph.remove([(0, 1), "01"]), TypeError, r"^edges\[1\] is '01', which is no \(tail, head\): "),
                (lambda: graph.remove([(0, 1), None]), TypeError, r"^edges\[1\] is None, "),
                (lambda: graph.remove([(0, 1.0)]), TypeError, "^edges has 1.0, where a vertex is a whole number"),
                (lambda: graph.remove([(0, 4)]), NoVertex, "^4 is none of 4 vertices"),
                (lambda: graph.remove([(0, 1)], missing="add"), ValueError, "^missing is 'add', where 'raise' or 'ignore' "),
                (lambda: graph.set_weights([(0, 1)]), ValueError, r"^edges\[0\] is \(0, 1\), which is no \(tail, head, weight\): "),
                (lambda: graph.set_weights([(0, 1, 2), (0, 1, -1)]), ValueError, r"^edges\[1\] has the weight -1, "),
                (lambda: graph.set_weights([(0, 1, 0.5)]), ValueError, r"^edges\[0\] has the weight 0.5, .*scale=10 would do$"),
                (lambda: graph.set_weights([(0, 1, 2)], missing="ignore"), ValueError, "^missing is 'ignore', where 'raise' or 'add' "),
                (lambda: graph.edges_between({(0, 1)}), TypeError, "^pairs is a set"),
                (lambda: graph.edges_between([(0, "1")]), TypeError, "^pairs has '1'"),
                (lambda: graph.has_edge(0, -1), NoVertex, "^-1 is none"),
                (lambda: graph.weight(0, 1, timeout=-1), ValueError, "^timeout is -1"),
                (lambda: graph.changed(remove=[(0, 1, 2)]), ValueError, r"^remove\[0\] is "),
                (lambda: graph.changed(set=[(0, 1, 2**32)]), ValueError, r"^set\[0\] has the weight 4294967296"),
                (lambda: graph.changed(add=[(0, 9, 1)]), NoVertex, "^9 is none"),
                (lambda: graph.changed(timeout="1"), ValueError, "^timeout is '1'"),
                (lambda: graph.changed([(0, 1)]), TypeError, "positional"),
            ):
                with self.assertRaisesRegex(kind, words):
                    ask()
            self.assertEqual((there(graph), graph.version), (sorted(ARCS), 0))

    def test_streams_end(self):
        with graph_of(ARCS) as graph:
            for change in (lambda: graph.set_weights([(0, 1, 3)]), lambda: graph.remove([(0, 1)])):
                rows = graph.rows([0, 1])
                next(rows)
                change()
                with self.assertRaises(GraphChanged):
                    next(rows)


class Late(Case):
    """What is asked after a change whose time was over."""

    def test_answers_in_turn(self):
        for programs in (1, 2):
            with Graph([0, 1], [1, 2], [7, 6], programs=programs) as graph:
                for count in range(1, 30):
                    try:
                        graph.add([0], [2], [9], timeout=1e-6)
                    except Timeout:
                        pass
                    self.assertEqual([*graph.paths([(0, 2)]), ints(next(graph.rows([0]))[1])], [[0, 2], [0, 7, 9]])
                    self.assertEqual(graph.version, count)


class Kept(Case):
    """What another program begins with, and parts of long changes."""

    def test_restart(self):
        with graph_of(ARCS) as graph:
            graph.add([2, 0], [3, 1], [1, 2])
            graph.remove([(0, 1)])
            graph.set_weights([(0, 2, 3), (3, 0, 8), (0, 2, 5)], missing="add")
            graph.add([0], [1], [9])
            graph.remove([(3, 0)])
            wanted = [(0, 1, 9), (0, 2, 3), (0, 2, 5), (1, 2, 6), (2, 3, 1)]
            for end in (graph.restart, lambda: os.kill(the_program(), signal.SIGKILL)):
                end()
                try:
                    graph.levels(0)
                except Ended:
                    pass
                self.assertEqual((there(graph), graph.m, graph.distance(0, 3)), (wanted, 5, 4))

    def test_not_kept(self):
        with graph_of(ARCS, keep=False) as graph:
            self.assertEqual((graph.remove([(0, 1)]), graph.distance(0, 2)), (1, 20))
            self.assertFalse(graph._wire.state.session.log._gone)
            with self.assertRaises(NotKept):
                graph.restart()

    def test_undone_changes_take_no_more(self):
        with graph_of(ARCS) as graph:
            sizes = set()
            for _ in range(5):
                with graph.changed(remove=[(0, 1)], set=[(0, 2, 1)], add=[(3, 0, 1)]):
                    pass
                log = graph._wire.state.session.log
                sizes.add((len(log.columns[0]), len(log._gone)))
            self.assertEqual(sizes, {(3, 3)})

    def test_parts(self):
        for size in (1, 2, 3, 100):
            with mock.patch.object(hollowbowl._session, "MOST_ITEMS", size), graph_of(ARCS) as graph:
                graph.set_weights([(0, 1, 1), (0, 2, 2), (0, 1, 3), (0, 2, 4), (3, 3, 5)], missing="add")
                wanted = [(0, 1, 1), (0, 1, 3), (0, 2, 2), (0, 2, 4), (1, 2, 6), (3, 3, 5)]
                self.assertEqual((there(graph), graph.m), (wanted, 6))
                graph.restart()
                self.assertEqual((there(graph), graph.remove([(0, 1), (0, 2), (3, 3)]), there(graph)), (wanted, 5, [(1, 2, 6)]))

    def test_random_beside_a_list(self):
        draw = random.Random(11)
        n, arcs = 8, []
        pairs = [(tail, head) for tail in range(n) for head in range(n)]
        with Graph([], [], [], n) as graph:
            for step in range(200):
                edges = [(*draw.choice(pairs), draw.randrange(100)) for _ in range(draw.randrange(5))]
                ends = {edge[:2] for edge in edges}
                others = [arc for arc in arcs if arc[:2] not in ends]
                chance = draw.randrange(5)
                if chance == 0:
                    self.assertEqual(graph.remove(list(ends), missing="ignore"), len(arcs) - len(others))
                    arcs = others
                elif chance == 1:
                    graph.set_weights(edges, missing="add")
                    arcs = others + edges
                elif chance == 2:
                    with graph.changed(set=[edge for edge in edges if graph.has_edge(*edge[:2])], add=edges):
                        source = draw.randrange(n)
                        set_ones = [edge for edge in edges if edge[:2] in {arc[:2] for arc in arcs}]
                        left = [arc for arc in arcs if arc[:2] not in {edge[:2] for edge in set_ones}]
                        self.assertEqual(ints(graph.distances(source)), costs_from(n, left + set_ones + edges, source))
                elif chance == 3 and step % 4 == 0:
                    graph.restart()
                else:
                    graph.add(*columns(edges))
                    arcs = arcs + edges
                self.assertEqual((sorted(graph.edges_between(pairs)), graph.m), (sorted(arcs), len(arcs)))
                self.assertEqual(whole(graph.distances(range(n))), [costs_from(n, arcs, source) for source in range(n)])
                self.assertEqual(ints(graph.levels(0)), levels_from(n, arcs, 0))
                self.assertEqual(ints(graph.components()), components_of(n, arcs))


class Replies(Case):
    """Replies that are none to what was asked, and programs that know no such requests."""

    def test_out_of_step(self):
        remove = lambda graph: graph.remove([(0, 1)], missing="ignore")
        put = lambda graph: graph.set_weights([(0, 1, 5)], missing="add")
        for ask, reply in (
            (remove, b"x 1\nr 2 1 6\n"),
            (remove, b"x 0\nr 2 0 6\n"),
            (remove, b"g 1\nr 2 2 6\n"),
            (remove, b"r 2 1 6\n"),
            (put, b"x 1\ng 2\nr 2 2 6\n"),
            (put, b"x 1\nr 2 0 6\n"),
            (put, b"g 1\nx 1\nr 2 1 6\n"),
            (put, b"x 1\ng 1\nr 2 2 6\n"),
            (lambda graph: graph.has_edge(0, 1), b"a 1 1 7\nr 2 1 6\n"),
            (lambda graph: graph.has_edge(0, 1), b"a 1 2\nr 2 1 6\n"),
            (lambda graph: graph.has_edge(0, 1), b"q 1 2 7\nr 2 1 6\n"),
            (lambda graph: graph.edges_between([(0, 1), (1, 0)]), b"a 2 1 7\na 1 2 7\nr 2 1 7\n"),
        ):
            lines = 3 if reply.startswith(b"a 2") else 2
            with fake(f"read({lines})\nsay({reply!r})\nrest()"), Graph([0], [1], [7]) as graph, self.assertRaises(OutOfStep):
                ask(graph)

    def test_an_older_program(self):
        body = "read(2)\nsay(b'e 5 unknown line\\n')\nread(2)\nsay(cost(7), b'r 2 1 8\\n')\nrest()"
        for ask, form in (
            (lambda graph: graph.remove([(0, 1)], missing="ignore"), "cut"),
            (lambda graph: graph.set_weights([(0, 1, 5)], missing="add"), "set"),
            (lambda graph: graph.remove([(0, 1)]), "arcs"),
            (lambda graph: graph.weight(0, 1), "arcs"),
            (lambda graph: graph.changed(add=[(0, 1, 5)]).__enter__(), "arcs"),
        ):
            with fake(body) as program, Graph([0], [1], [7]) as graph:
                with self.assertRaisesRegex(ProgramTooOld, f"^{program.path} is older than this package: its sessions know no '{form}'$"):
                    ask(graph)
                self.assertEqual((graph.distance(0, 1), graph.m), (7, 1))

    def test_memory(self):
        with fake("read(2)\nsay(b'e 6 out of memory\\n')\nread(2)\nsay(b'x 1\\nr 2 0 8\\n')\nrest()"), Graph([0], [1], [7]) as graph:
            for wanted in (OutOfMemory, None):
                if wanted is None:
                    self.assertEqual((graph.remove([(0, 1)], missing="ignore"), graph.m), (1, 0))
                else:
                    with self.assertRaises(wanted):
                        graph.remove([(0, 1)], missing="ignore")
                    self.assertEqual((graph.m, graph.version), (1, 0))


if __name__ == "__main__":
    unittest.main()
