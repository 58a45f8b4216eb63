"""Numbers of vertices and components, what a graph says of itself, and another program in place of the first."""

import os
import signal
import tempfile
import threading
import time
import unittest
from statistics import fmean

from common import Case, columns, components_of, costs_from, drawn, ints, levels_from, networkx, numpy, the_program, totals_of
from fake import fake

from hollowbowl import INF, Closed, Ended, Graph, GraphChanged, NoPath, NotKept, NoVertex, OutOfStep

WORKED = ([0, 0, 1], [1, 2, 2], [7, 20, 6])


class Measures(Case):
    """Closeness, eccentricity, components, and questions about a pair."""

    def test_worked(self):
        with Graph(*WORKED, 4) as graph:
            self.assertEqual(graph.distance_and_path(0, 2), (13, [0, 1, 2]))
            self.assertEqual(graph.distance_and_path(0, 2, hops=True), (1, [0, 2]))
            self.assertEqual([graph.has_path(*ends) for ends in ((0, 2), (2, 0), (3, 3))], [True, False, True])
            with self.assertRaises(NoPath):
                graph.distance_and_path(2, 0)
            self.assertEqual((graph.closeness(0), graph.closeness(0, hops=True)), (2 / 20, 2 / 2))
            self.assertEqual(list(graph.closeness()), [2 / 20, 1 / 6, 0.0, 0.0])
            self.assertEqual(list(graph.closeness(wf_improved=True)), [2 / 20 * (2 / 3), 1 / 6 * (1 / 3), 0.0, 0.0])
            self.assertEqual((ints(graph.eccentricity()), graph.eccentricity([0], dtype=float)[0]), ([INF] * 4, float("inf")))
            graph.add([2], [3], [1])
            self.assertEqual((ints(graph.eccentricity()), graph.eccentricity(0)), ([14, INF, INF, INF], 14))
            self.assertEqual((graph.eccentricity(0, hops=True), ints(graph.eccentricity([]))), (2, []))

    def test_beside_definitions(self):
        for seed in range(15):
            n, arcs = drawn(seed)
            with Graph(*columns(arcs), n) as graph:
                for hops, costs in ((False, costs_from), (True, levels_from)):
                    rows = [costs(n, arcs, source) for source in range(n)]
                    self.assertEqual(ints(graph.eccentricity(hops=hops)), list(map(max, rows)))
                    for found, row in zip(graph.closeness(hops=hops), rows):
                        reached, total, _, _ = totals_of(row)
                        self.assertAlmostEqual(found, (reached - 1) / total if total else 0)
                label = components_of(n, arcs)
                self.assertEqual(graph.component_count(), len(set(label)))
                for vertex in range(n):
                    same = [other for other in range(n) if label[other] == label[vertex]]
                    self.assertEqual(graph.component_of(vertex), same)

    @unittest.skipIf(networkx is None, "no networkx")
    def test_networkx(self):
        for seed in range(10):
            n, arcs = drawn(seed)
            other = networkx.DiGraph()
            other.add_nodes_from(range(n))
            for tail, head, weight in arcs:
                if not other.has_edge(tail, head) or weight + 1 < other[tail][head]["weight"]:
                    other.add_edge(tail, head, weight=weight + 1)
            with Graph.from_networkx(other) as graph:
                for improved in (False, True):
                    outward = networkx.closeness_centrality(other.reverse(), distance="weight", wf_improved=improved)
                    for found, wanted in zip(graph.closeness(wf_improved=improved), outward.values()):
                        self.assertAlmostEqual(found, wanted)
                self.assertEqual(graph.component_count(), networkx.number_weakly_connected_components(other))

    def test_names(self):
        with Graph.from_edges([("a", "b", 7), ("b", "c", 6)], nodes=["z"]) as graph:
            self.assertEqual((graph.component_of("c"), graph.component_of("z"), graph.component_count()), (["a", "b", "c"], ["z"], 2))
            self.assertEqual(graph.distance_and_path("a", "c"), (13, ["a", "b", "c"]))
            self.assertEqual(fmean(graph.closeness(["a", "z"])), 2 / 20 / 2)
            for ask in (graph.component_of, lambda name: graph.has_path("a", name), lambda name: graph.distance_and_path(name, "a")):
                with self.assertRaises(NoVertex):
                    ask("y")


class Itself(Case):
    """What a graph says of itself, without a question to the program."""

    def test_table(self):
        graph = Graph(*WORKED)
        os.kill(the_program(), signal.SIGSTOP)
        self.assertEqual((len(graph), list(graph), repr(graph)), (3, [0, 1, 2], "<Graph of 3 vertices and 3 arcs>"))
        for vertex, is_there in ((0, True), (2, True), (3, False), (-1, False), (True, True), (1.0, False), ("0", False), (None, False), ([], False)):
            self.assertEqual(vertex in graph, is_there, vertex)
        self.assertEqual((graph.version, graph.scale, graph.is_closed), (0, None, False))
        graph.close()
        self.assertEqual((graph.is_closed, repr(graph), len(graph)), (True, "<Graph of 3 vertices and 3 arcs, closed>", 3))
        if numpy is not None:
            self.assertTrue(numpy.uint8(2) in graph)

    def test_names(self):
        with Graph.from_edges([("a", ("b", 1), 7)]) as graph:
            for name, is_there in (("a", True), (("b", 1), True), ("b", False), (0, False), ([], False), ({}, False)):
                self.assertEqual(name in graph, is_there, name)

    def test_without_vertices(self):
        with Graph([], [], []) as graph:
            self.assertEqual((len(graph), list(graph), bool(graph), 0 in graph), (0, [], True, False))
            self.assertEqual((list(graph.closeness()), ints(graph.eccentricity()), graph.component_count()), ([], [], 0))
            self.assertEqual((list(graph.rows(graph)), list(graph.paths([]))), ([], []))

    def test_version(self):
        with Graph(*WORKED) as graph:
            for version, arcs in ((0, ([], [], [])), (1, ([0], [1], [1])), (2, ([0, 1], [1, 2], [1, 1]))):
                graph.add(*arcs)
                self.assertEqual((graph.version, graph.m), (version, 3 + [0, 1, 3][version]))
            os.kill(the_program(), signal.SIGKILL)
            self.assertEqual((graph.distance(0, 2), graph.version, graph.m), (2, 2, 6))

    def test_ended(self):
        with fake('read(2)\nsay(b"hello\\nr 9 9 6\\n")\nrest()'), Graph([0], [1], [7]) as graph:
            with self.assertRaises(OutOfStep):
                graph.distance(0, 1)
            self.assertTrue(graph.is_closed)
        with Graph(*WORKED, keep=False) as graph:
            os.kill(the_program(), signal.SIGKILL)
            with self.assertRaises(Ended):
                graph.distance(0, 1)
            self.assertEqual((graph.is_closed, repr(graph)), (True, "<Graph of 3 vertices and 3 arcs, closed>"))


class Restart(Case):
    """Another program in place of the first."""

    def test_answers_go_on(self):
        with Graph(*WORKED) as graph:
            graph.add([0], [2], [5])
            for _ in range(3):
                number = the_program()
                graph.restart()
                self.assertNotEqual(the_program(), number)
                self.assertEqual((graph.distance(0, 2), ints(graph.levels(0)), graph.m, graph.version), (5, [0, 1, 1], 4, 1))
            os.kill(the_program(), signal.SIGKILL)
            graph.restart(timeout=10)
            self.assertEqual(graph.distance(0, 2), 5)
            rows = graph.rows([0, 1])
            graph.restart()
            self.assertEqual(len(list(rows)), 2)
            # One that has begun since is left as it is.
            number = the_program()
            graph._wire.state.session.restart(None)
            self.assertEqual(the_program(), number)

    def test_while_a_question_is_under_way(self):
        came = []
        with Graph(*WORKED) as graph:
            for ask in (lambda: graph.distance(0, 2), lambda: graph.add([0], [2], [1]), lambda: list(graph.rows(graph))):

                def asks(ask=ask):
                    try:
                        ask()
                    except Ended as fault:
                        came.append(fault.status)

                os.kill(the_program(), signal.SIGSTOP)
                asker = threading.Thread(target=asks)
                asker.start()
                time.sleep(0.05)
                graph.restart(timeout=10)
                asker.join()
                self.assertEqual((came.pop(), graph.distance(0, 2), graph.m), (-9, 13, 3))

    def test_refused(self):
        with Graph(*WORKED, keep=False) as graph:
            number = the_program()
            with self.assertRaisesRegex(NotKept, "^the graph was made with keep=False"):
                graph.restart()
            self.assertEqual((graph.distance(0, 2), the_program()), (13, number))
            with self.assertRaisesRegex(ValueError, "^timeout is "):
                graph.restart(timeout=-1)
        with self.assertRaises(Closed):
            graph.restart()

    def test_a_file(self):
        with tempfile.NamedTemporaryFile(suffix=".gr") as file:
            file.write(b"p sp 2 1\na 1 2 7\n")
            file.flush()
            with Graph.from_gr(file.name) as graph:
                graph.restart()
                self.assertEqual(graph.distance(0, 1), 7)
                file.write(b"c more\n")
                file.flush()
                number = the_program()
                with self.assertRaisesRegex(GraphChanged, "has changed since"):
                    graph.restart()
                # The program that is there has the graph still.
                self.assertEqual((graph.distance(0, 1), the_program()), (7, number))


if __name__ == "__main__":
    unittest.main()
