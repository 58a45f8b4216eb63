"""Changes that are undone: their end by all ways, other threads meanwhile, and want of memory."""

import gc
import os
import signal
import threading
import time
import unittest

from common import Case, columns, costs_from, ints, the_program, there
from fake import fake

from hollowbowl import ChangeStays, Closed, Ended, Graph, NoArc, NoPath, OutOfMemory, Timeout, WrongProcess

ARCS = [(0, 1, 7), (1, 2, 6), (0, 2, 20), (0, 2, 30)]


class Undone(Case):
    """A graph of four vertices, whose arcs are as before at the end."""

    def setUp(self):
        super().setUp()
        self.graph = Graph(*columns(ARCS), 4)
        self.addCleanup(self.graph.close)

    def as_before(self):
        self.assertEqual((there(self.graph), self.graph.m, ints(self.graph.distances(0))[:3]), (sorted(ARCS), 4, [0, 7, 13]))

    def test_worked(self):
        graph = self.graph
        for change, edges in (
            ({}, ARCS),
            ({"remove": [(0, 1)]}, ARCS[1:]),
            ({"remove": [(0, 2), (0, 1)]}, ARCS[1:2]),
            ({"set": [(0, 2, 1), (0, 2, 2)]}, [*ARCS[:2], (0, 2, 1), (0, 2, 2)]),
            ({"add": [(0, 1, 7), (3, 0, 4)]}, [*ARCS, (0, 1, 7), (3, 0, 4)]),
            ({"remove": [(0, 1)], "set": [(0, 1, 3)], "add": [(0, 1, 4)]}, [*ARCS[1:], (0, 1, 3), (0, 1, 4)]),
            ({"remove": {(0, 1)}, "add": iter([(0, 1, 9)])}, [*ARCS[1:], (0, 1, 9)]),
        ):
            with graph.changed(**change) as given:
                self.assertIs(given, graph)
                self.assertEqual((there(graph), graph.m), (sorted(edges), len(edges)))
                self.assertEqual(ints(graph.distances(0)), costs_from(4, edges, 0))
            self.as_before()
        for change in ({"remove": [(0, 1), (2, 1)]}, {"set": [(2, 1, 5)], "add": [(2, 1, 5)]}):
            version = graph.version
            with self.assertRaisesRegex(NoArc, "^no arc leads from 2 to 1$"), graph.changed(**change):
                self.fail("nothing was changed")
            self.assertEqual(graph.version, version)
        self.as_before()

    def test_within_another(self):
        graph = self.graph
        with graph.changed(set=[(0, 1, 1)], add=[(3, 3, 1)]):
            with graph.changed(remove=[(0, 1), (3, 3)]):
                self.assertEqual((graph.distance(0, 2), graph.m), (20, 3))
                # What comes between other vertices stays.
                graph.add([3, 0], [0, 1], [2, 2])
            self.assertEqual((graph.distance(0, 2), graph.weight(3, 0), graph.m), (7, 2, 6))
        self.assertEqual((graph.remove([(3, 0)]), graph.distance(0, 1)), (1, 7))
        self.as_before()

    def test_ends(self):
        graph = self.graph
        with self.assertRaises(ZeroDivisionError), graph.changed(remove=[(0, 1)]):
            1 / 0
        self.as_before()
        with graph.changed(remove=[(0, 1)]):
            graph.restart()
            self.assertEqual(graph.distance(0, 2), 20)
        self.as_before()
        with self.assertRaises(NoPath), graph.changed(remove=[(0, 1)]):
            os.kill(the_program(), signal.SIGKILL)
            graph.distance(0, 1)
        self.as_before()
        with graph.changed(remove=[(0, 1)]):
            os.kill(the_program(), signal.SIGKILL)
            self.assertEqual(graph.distance(0, 2), 20)
        self.as_before()
        once = graph.changed(remove=[(0, 1)])
        with once:
            try:
                with once:
                    self.fail("it is made already")
            except RuntimeError as fault:
                self.assertIn("call `changed` again", str(fault))
                self.assertEqual(graph.distance(0, 2), 20)
        self.as_before()
        with graph.changed(remove=[(0, 1)]):
            graph.close()
        with self.assertRaises(Closed), graph.changed():
            self.fail("the graph is closed")

    def test_killed_on_leaving(self):
        graph = self.graph
        with self.assertRaises(Ended), graph.changed(remove=[(0, 1)]):
            os.kill(the_program(), signal.SIGKILL)
        self.as_before()
        with Graph(*columns(ARCS), 4, keep=False) as other:
            with self.assertRaises(Ended), other.changed(remove=[(0, 1)]):
                os.kill(other._wire.state.session.process().id, signal.SIGKILL)
                other.distance(0, 1)

    def test_never_left(self):
        """The holder goes, and no end of a `with` was reached."""
        graph = self.graph
        for more in (0, 1):
            holders = [graph.changed(set=[(0, 1, weight)]) for weight in range(1 + more)]
            for holder in holders:
                holder.__enter__()
            self.assertEqual(graph.distance(0, 1), more)
            # Of two the first goes, and the other is undone with it.
            del holder, holders[0]
            gc.collect()
            self.as_before()
        # A change comes after what is undone, too.
        graph.changed(remove=[(0, 1)]).__enter__()
        graph.add([0], [1], [5])
        self.assertEqual(graph.edges_between([(0, 1)]), [(0, 1, 7), (0, 1, 5)])
        graph.set_weights([(0, 1, 7)])
        self.as_before()

    def test_never_left_while_another_waits(self):
        graph, found = self.graph, []
        holder = graph.changed(set=[(0, 1, 1)])
        holder.__enter__()
        other = threading.Thread(target=lambda: found.append(graph.distance(0, 1)))
        other.start()
        time.sleep(0.1)
        self.assertEqual(found, [])
        del holder
        other.join(5)
        self.assertEqual(found, [7])

    def test_other_threads(self):
        graph, found, seen = self.graph, [], []

        def ask():
            for _ in range(20):
                found.append(graph.distance(0, 2))
                with graph.changed(set=[(1, 2, 1)]):
                    found.append(graph.distance(0, 2) + 5)

        askers = [threading.Thread(target=ask) for _ in range(6)]
        for each in askers:
            each.start()
        while any(each.is_alive() for each in askers):
            with graph.changed(remove=[(0, 1)], add=[(0, 2, 19)]):
                seen.append(graph.distance(0, 2))
        self.assertEqual((set(found), len(found), set(seen)), ({13}, 240, {19}))
        self.as_before()

    def test_what_waits(self):
        graph, came = self.graph, []

        def ask(call):
            try:
                came.append(call())
            except (Timeout, Closed) as fault:
                came.append(type(fault))

        def beside(call):
            other = threading.Thread(target=ask, args=(call,))
            other.start()
            return other

        with graph.changed(remove=[(0, 1)]):
            beside(lambda: graph.distance(0, 1, timeout=0.05)).join(5)
            # A restart waits for nobody.
            beside(lambda: graph.restart()).join(5)
            self.assertEqual(came, [Timeout, None])
            others = [beside(lambda: graph.add([3], [0], [1])), beside(lambda: graph.remove([(3, 0)], missing="ignore"))]
            time.sleep(0.1)
            self.assertEqual((graph.m, graph.distance(0, 2)), (3, 20))
        for other in others:
            other.join(5)
        graph.remove([(3, 0)], missing="ignore")
        self.as_before()
        with graph.changed(remove=[(0, 1)]):
            other = beside(lambda: graph.distance(0, 1))
            time.sleep(0.1)
            graph.close()
            other.join(5)
        self.assertEqual(came[-1], Closed)

    def test_in_a_fork(self):
        graph = self.graph
        with graph.changed(remove=[(0, 1)]):
            number = os.fork()
            if number == 0:
                try:
                    with graph.changed():
                        os._exit(1)
                except WrongProcess:
                    os._exit(0)
            self.assertEqual(os.waitpid(number, 0)[1], 0)
            self.assertEqual(graph.distance(0, 2), 20)
        self.as_before()


class Refused(Case):
    """Changes and undoings that the program has no memory for."""

    LOOK = "read(2)\nsay(b'a 1 2 7\\nr 2 1 6\\n')\n"

    def test_undoing(self):
        body = self.LOOK + "read(2)\nsay(b'x 1\\nr 2 0 8\\n')\nread(2)\nsay(b'e 10 out of memory\\n')\nread(2)\nsay(cost(2**64 - 1), b'r 2 0 12\\n')\nrest()"
        with fake(body), Graph([0], [1], [7]) as graph:
            with self.assertRaisesRegex(ChangeStays, "^there is no memory to put the arcs back"), graph.changed(remove=[(0, 1)]):
                self.assertEqual(graph.m, 0)
            self.assertEqual((graph.m, graph.has_path(0, 1)), (0, False))

    def test_undoing_for_nobody(self):
        body = self.LOOK + "read(2)\nsay(b'x 1\\nr 2 0 8\\n')\nread(2)\nsay(b'e 10 out of memory\\n')\nread(2)\nsay(cost(2**64 - 1), b'r 2 0 12\\n')\nrest()"
        with fake(body), Graph([0], [1], [7]) as graph:
            graph.changed(remove=[(0, 1)]).__enter__()
            with self.assertRaises(ChangeStays):
                graph.distance(0, 1)
            self.assertEqual((graph.m, graph.has_path(0, 1)), (0, False))

    def test_a_change(self):
        first = self.LOOK + "read(2)\nsay(b'e 8 out of memory\\n')\nread(2)\nsay(cost(7), b'r 2 1 10\\n')\nrest()"
        second = (
            self.LOOK + "read(2)\nsay(b'x 1\\nr 2 0 8\\n')\nread(2)\nsay(b'e 10 out of memory\\n')\n"
            "read(2)\nsay(b'x 0\\ng 1\\nr 2 1 12\\n')\nread(2)\nsay(cost(7), b'r 2 1 14\\n')\nrest()"
        )
        for body, version in ((first, 0), (second, 2)):
            with fake(body), Graph([0], [1], [7]) as graph:
                with self.assertRaises(OutOfMemory), graph.changed(remove=[(0, 1)], add=[(0, 1, 1)]):
                    self.fail("it was refused")
                self.assertEqual((graph.m, graph.version, graph.distance(0, 1)), (1, version, 7))


if __name__ == "__main__":
    unittest.main()
