"""Near questions beside far ones, of a graph with one program or several, and changes that each program makes."""

import fcntl
import os
import resource
import signal
import struct
import termios
import threading
import unittest
from unittest import mock

from common import Case, children, columns, costs_from, cut_at, drawn, ints, the_program, there, waits_for
from test_wire import freed_at_once, size_of

import hollowbowl
from hollowbowl import Closed, Ended, Graph, Timeout, WrongProcess

ARCS = ([0, 0, 1], [1, 2, 2], [7, 20, 6])


def unread(number):
    """How many bytes a program was sent that it has not read."""
    with open(f"/proc/{number}/fd/0", "rb", buffering=0) as pipe:
        return struct.unpack("i", fcntl.ioctl(pipe, termios.FIONREAD, bytes(4)))[0]


def asked(*asks):
    """What calls give in threads of their own, once they are over; each is an answer or a class of faults."""
    found = [None] * len(asks)

    def ask(place):
        try:
            found[place] = asks[place]()
        except BaseException as fault:
            found[place] = type(fault)

    askers = [threading.Thread(target=ask, args=(place,)) for place in range(len(asks))]
    for asker in askers:
        asker.start()
    return lambda: [asker.join(30) for asker in askers] and found


class One(Case):
    """A graph of one program: near questions come between the requests of a far one."""

    COUNT = 2000

    def test_between(self):
        events = []

        def told(done, _):
            if done == 1:
                # The far one is under way, and these are asked in turn.
                for ask in asks:
                    others.append(asked(ask))
                    self.assertTrue(waits_for(lambda: len(others) == 4 or not graph._wire.state.todo.qsize()))
            events.append(done)

        def near(name):
            cost = graph.distance(0, 2, timeout=30)
            events.append(name)
            return cost

        def change():
            graph.add([0], [2], [5], timeout=30)
            events.append("change")

        with Graph(*ARCS) as graph:
            others, asks = [], [lambda: near("near"), lambda: int(graph.distances(0)[2]), change, lambda: near("later")]
            with mock.patch.object(hollowbowl._asking.Sizes, "of", lambda *_: 1):
                found = graph.totals([0] * self.COUNT, progress=told)
            self.assertEqual(([each.sum for each in found], [each()[0] for each in others]), ([20] * self.COUNT, [13, 13, None, 5]))
            self.assertLess(events.index("near"), events.index(self.COUNT))
            self.assertEqual(graph.distance(0, 2), 5)

    def test_killed_between(self):
        with Graph(*ARCS) as graph:
            number, other = the_program(), []

            def told(done, _):
                if done == 1 and not other:
                    other.append(asked(lambda: graph.distance(0, 2)))
                    os.kill(number, signal.SIGKILL)

            with mock.patch.object(hollowbowl._asking.Sizes, "of", lambda *_: 1), self.assertLogs("hollowbowl"):
                found = graph.totals([0] * self.COUNT, progress=told)
            self.assertEqual([each.sum for each in found], [20] * self.COUNT)
            self.assertEqual(other[0]()[0], 13)


class Programs(Case):
    """A graph of several programs: the first answers near questions alone."""

    def begin(self, programs, columns=ARCS, **options):
        """A graph, and the numbers of its programs, the first first."""
        graph = Graph(*columns, programs=programs, **options)
        self.addCleanup(graph.close)
        return graph, [session.process().id for session in graph._wire.state.sessions()]

    def test_near_beside_far(self):
        graph, (first, *others) = self.begin(3)
        self.assertEqual(len({first, *others}), 3)
        for number in others:
            os.kill(number, signal.SIGSTOP)
        far = asked(*[lambda: int(graph.distances(0)[2])] * 4)
        self.assertEqual([graph.distance(0, 2, timeout=9), graph.path(0, 2, timeout=9)], [13, [0, 1, 2]])
        self.assertEqual(ints(graph.within(0, 9, timeout=9)[1]), [0, 7])
        with self.assertRaises(Timeout):
            graph.totals(0, timeout=0.05)
        graph.add([0], [2], [5], timeout=9)
        self.assertEqual((graph.distance(0, 2, timeout=9), graph.m), (5, 4))
        for number in others:
            os.kill(number, signal.SIGCONT)
        # They were asked before the arc came, or after it by a program that had been asked nothing yet.
        self.assertTrue(set(far()) <= {13, 5})
        self.assertEqual([int(graph.distances(0)[2]) for _ in range(4)], [5] * 4)

    def test_near_by_another(self):
        graph, (first, _) = self.begin(2)
        os.kill(first, signal.SIGSTOP)
        held = asked(lambda: graph.distance(0, 1))
        self.assertTrue(waits_for(lambda: not graph._wire.state.pool._workers[0].is_free))
        self.assertEqual([graph.distance(0, 2, timeout=9), int(graph.distances(0, timeout=9)[2])], [13, 13])
        os.kill(first, signal.SIGCONT)
        self.assertEqual(held(), [7])

    def test_changes(self):
        """After each of some random changes every program answers as a definition does."""
        for seed in range(20):
            n, arcs = drawn(seed)
            with Graph(*columns(arcs), n, programs=3) as graph, Graph(*columns(arcs), n) as one:
                for place, tail in enumerate(range(min(n, 6))):
                    change = [
                        lambda each, tail=tail: each.add([tail], [n - 1], [3]),
                        lambda each, tail=tail: each.remove([(tail, n - 1)], missing="ignore"),
                        lambda each, tail=tail: each.set_weights([(tail, 0, 2), (0, tail, 1)], missing="add"),
                    ][place % 3]
                    change(graph)
                    change(one)
                    left = there(one)
                    wanted = costs_from(n, left, tail)
                    found = asked(*[lambda tail=tail: ints(graph.distances(tail))] * 3, *[lambda: ints(graph.pairs([tail] * n, range(n)))] * 3)()
                    self.assertEqual((found, there(graph), graph.m), ([wanted] * 6, left, len(left)), seed)

    def test_changed(self):
        graph, _ = self.begin(3)
        far = lambda: int(graph.distances(0)[2])
        for _ in range(3):
            with graph.changed(remove=[(0, 1)]):
                self.assertEqual([graph.distance(0, 2), far(), graph.totals(0).sum], [20, 20, 20])
                others = asked(*[far, lambda: graph.distance(0, 2)] * 3)
                with graph.changed(set=[(0, 2, 15)]):
                    self.assertEqual([graph.distance(0, 2), far()], [15, 15])
            self.assertEqual([graph.distance(0, 2), far()], [13, 13])
            self.assertTrue(set(others()) <= {13})

    def test_late_ones(self):
        """A program that lacks more changes than are kept begins anew."""
        graph, (_, late) = self.begin(2)
        os.kill(late, signal.SIGSTOP)
        far = asked(lambda: int(graph.distances(0)[2]))
        self.assertTrue(waits_for(lambda: not graph._wire.state.pool._workers[1].is_free))
        with mock.patch.object(hollowbowl._follow, "_MOST", 3):
            for weight in range(19, 10, -1):
                graph.set_weights([(0, 2, weight)])
        self.assertLess(len(graph._wire.state.session.made._parts), 4)
        os.kill(late, signal.SIGCONT)
        self.assertEqual((far(), int(graph.distances(0)[2])), ([13], 11))
        self.assertNotIn(late, children())

    def test_memory(self):
        """A program that is refused memory for a change begins anew; the change is made."""
        n = 300_000
        with freed_at_once():
            graph, (_, other) = self.begin(2, (range(n - 1), range(1, n), [2] * (n - 1), n))
        far = lambda: int(graph.distances(0)[n - 1])
        self.assertEqual(far(), 2 * (n - 1))
        resource.prlimit(other, resource.RLIMIT_DATA, (size_of(other), resource.RLIM_INFINITY))
        graph.add([0], [n - 1], [5])
        self.assertEqual((graph.distance(0, n - 1), far()), (5, 5))
        self.assertNotIn(other, children())

    def test_killed(self):
        graph, numbers = self.begin(3)
        far = lambda: int(graph.distances(0)[2])
        graph.add([0], [2], [5])
        for place, number in enumerate(numbers):
            os.kill(number, signal.SIGKILL)
            for _ in range(9):
                for ask in (far, lambda: graph.distance(0, 2)):
                    self.assertEqual(ask(), 5, place)
        graph.restart()
        self.assertEqual([far() for _ in range(4)] + [graph.distance(0, 2)], [5] * 5)
        self.assertFalse(set(numbers) & set(children()))

    def test_restart(self):
        graph, numbers = self.begin(3)
        for number in numbers:
            os.kill(number, signal.SIGSTOP)
        held = asked(*[lambda: graph.distances(0)] * 5, *[lambda: graph.distance(0, 2)] * 2)
        self.assertTrue(waits_for(lambda: not any(worker.is_free for worker in graph._wire.state.pool._workers)))
        self.assertTrue(waits_for(lambda: any(map(unread, numbers))))
        # A program that was stopped before it was ready is asked nothing.
        sent = sum(unread(number) > 0 for number in numbers)
        graph.restart()
        self.assertTrue(waits_for(lambda: not set(numbers) & set(children())))
        self.assertEqual((int(graph.distances(0)[2]), graph.distance(0, 2)), (13, 13))
        # Those that no program had been asked are answered by the next.
        self.assertGreaterEqual(sum(each is Ended for each in held()), sent)

    def test_close(self):
        graph, numbers = self.begin(2)
        for number in numbers:
            os.kill(number, signal.SIGSTOP)
        held = asked(*[lambda: graph.distances(0), lambda: graph.distance(0, 2)] * 3, *[lambda: graph.add([0], [2], [1])])
        self.assertTrue(waits_for(lambda: not any(worker.is_free for worker in graph._wire.state.pool._workers)))
        graph.close()
        self.assertEqual(held(), [Closed] * 7)
        self.assertFalse(set(numbers) & set(children()))

    def test_fork(self):
        graph, numbers = self.begin(2)
        number = os.fork()
        if number == 0:
            try:
                graph.distances(0)
            except WrongProcess:
                graph.close()
                os._exit(7)
            os._exit(1)
        self.assertEqual(os.waitstatus_to_exitcode(os.waitpid(number, 0)[1]), 7)
        self.assertEqual((int(graph.distances(0)[2]), graph.distance(0, 2)), (13, 13))
        self.assertTrue(set(numbers) <= set(children()))

    def test_interrupts(self):
        """A call is interrupted at each of its opcodes."""
        graph, _ = self.begin(2)
        for ask in (lambda: graph.distance(0, 2), lambda: graph.distances(0), lambda: graph.add([0], [2], [20])):
            place = 1
            while cut_at(place, ask):
                place += 1
                self.assertEqual((graph.distance(0, 2, timeout=9), int(graph.distances(0, timeout=9)[2])), (13, 13))
            self.assertGreater(place, 100)

    def test_commands(self):
        _, numbers = self.begin(3, workers=2)
        found = children()
        self.assertEqual([found[number][-4:] for number in numbers], [["--session", "--workers", "2", ""]] * 3)

    def test_how_many(self):
        for wrong in (0, -1, 1.5, "2", None, 65):
            with self.assertRaisesRegex(ValueError, "^programs is "):
                Graph(*ARCS, programs=wrong)
        with self.assertRaisesRegex(ValueError, "wants keep=True"):
            Graph(*ARCS, programs=2, keep=False)
        with Graph.from_edges([("a", "b", 3)], programs=2, scale=10) as graph:
            self.assertEqual((graph.distance("a", "b"), float(graph.distances("a", dtype=float)[1])), (3.0, 3.0))
        with Graph([], [], programs=2) as graph:
            self.assertEqual((graph.n, ints(graph.components())), (0, []))


if __name__ == "__main__":
    unittest.main()
