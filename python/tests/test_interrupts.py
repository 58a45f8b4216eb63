"""KeyboardInterrupt at any moment of any call, and times that are over."""

import os
import random
import signal
import threading
import time
import unittest
from unittest import mock

from common import Case, columns, costs_from, cut_at, drawn, every_question, interrupt, ints, is_alive, levels_from, the_program, totals_of, waits_for, whole

import hollowbowl
from hollowbowl import INF, Graph, Timeout


class Interrupts(Case):
    """KeyboardInterrupt at any moment of any call."""

    def stopped(self):
        """Stops the program, so that whatever asks it waits; it goes on at the end."""
        number = the_program()
        os.kill(number, signal.SIGSTOP)

        def go_on():
            if is_alive(number):
                os.kill(number, signal.SIGCONT)

        self.addCleanup(go_on)
        return go_on

    def test_in_a_question(self):
        n, arcs = drawn(7, 60)
        wanted = [costs_from(n, arcs, source) for source in range(n)]
        with Graph(*columns(arcs), n) as graph:
            number = the_program()
            # The last is one that is too long for a pipe, so it is interrupted while it is written.
            many = [0] * 50_000
            with mock.patch.object(hollowbowl._asking, "_FIRST", {"pairs": len(many)}):
                for ask in [*every_question(graph)][:-1] + [lambda: graph.pairs(many, many, hops=True)]:
                    go_on = self.stopped()
                    self.interrupted_after(0.05, ask)
                    go_on()
                    self.assertEqual(whole(graph.distances(range(n))), wanted)
            self.assertEqual(the_program(), number)

    def test_in_an_add(self):
        for is_asked in (False, True):
            with Graph([0, 1], [1, 2], [3, 4], 4) as graph:
                if is_asked:
                    self.all_kinds(graph)
                go_on = self.stopped()
                self.interrupted_after(0.05, lambda: graph.add([2], [3], [1]))
                go_on()
                grown = [0, 3, 7, 8], [0, 1, 2, 3], (4, 18, 8, 3), [0, 0, 0, 0], 3
                self.assertEqual(self.all_kinds(graph), grown)
                os.kill(the_program(), signal.SIGKILL)
                self.assertEqual(self.all_kinds(graph), grown)

    def all_kinds(self, graph):
        """An answer of each kind, and how many arcs there are."""
        return ints(graph.distances(0)), ints(graph.levels(0)), graph.totals(0), ints(graph.components()), graph.m

    def test_timeouts(self):
        with Graph([0], [1], [3]) as graph:
            for place, ask in enumerate([*every_question(graph)]):
                go_on = self.stopped()
                start = time.monotonic()
                with self.assertRaisesRegex(Timeout, "^no answer came within 0.02 s") as caught:
                    ask(timeout=0.02)
                self.assertLess(time.monotonic() - start, 1)
                self.assertIsInstance(caught.exception, TimeoutError)
                with self.assertRaises(Timeout):
                    graph.distance(0, 1, timeout=0)
                go_on()
                self.assertEqual(graph.distance(0, 0, timeout=5), 0, place)
            # The time of the last one, an `add`, was over, and its arc is there.
            self.assertEqual((graph.m, graph.distance(0, 1, timeout=1e300)), (2, 1))
            for wrong in (-1, float("nan"), "1", 1j):
                with self.assertRaisesRegex(ValueError, "^timeout is "):
                    graph.distance(0, 1, timeout=wrong)

    def test_in_streams(self):
        n, arcs = drawn(7, 60)
        wanted = [costs_from(n, arcs, source) for source in range(n)]
        pairs = [(0, target) for target in range(n) if wanted[0][target] < INF] * 9
        with Graph(*columns(arcs), n) as graph, mock.patch.object(hollowbowl._asking.Sizes, "size", lambda *_: 2):
            paths = list(graph.paths(pairs))
            number = the_program()
            for make in (lambda: graph.rows(range(n)), lambda: graph.paths(pairs), lambda: graph.within_many(range(n), 9)):
                for taken in (0, 1, 2, 3, 5):
                    stream = make()
                    for _ in range(taken):
                        next(stream)
                    # The next request may have been answered by then, but not the one after it.
                    go_on = self.stopped()
                    self.interrupted_after(0.05, lambda stream=stream: list(stream))
                    go_on()
                    self.assertEqual(list(stream), [])
                    self.assertEqual((graph.path(*pairs[-1]), ints(graph.distances(0))), (paths[-1], wanted[0]))
            self.assertEqual((the_program(), list(graph.paths(pairs))), (number, paths))

    def test_alarms_in_streams(self):
        n, arcs = drawn(8, 40)
        wanted = [costs_from(n, arcs, source) for source in range(n)]
        pairs = [(source, target) for source in range(0, n, 3) for target in range(n) if wanted[source][target] < INF]
        wrong = []
        with Graph(*columns(arcs), n) as graph, mock.patch.object(hollowbowl._asking.Sizes, "size", lambda *_: 3):
            paths = [graph.path(*ends) for ends in pairs]
            number = the_program()

            def ask(draw):
                first = draw.randrange(n)
                for source, row in graph.rows(range(first, min(first + 8, n)), progress=lambda *_: None):
                    if ints(row) != wanted[source]:
                        wrong.append(source)
                first = draw.randrange(len(pairs))
                if list(graph.paths(pairs[first : first + 8])) != paths[first : first + 8]:
                    wrong.append(first)

            cut, _ = self.alarmed(2, ask)
            self.assertGreater(cut, 10)
            self.assertEqual((wrong, list(graph.paths(pairs)), the_program()), ([], paths, number))

    def test_of_another_thread(self):
        with Graph([0], [1], [3]) as graph:
            go_on = self.stopped()
            found = []
            other = threading.Thread(target=lambda: found.append(graph.distance(0, 1)))
            signal.setitimer(signal.ITIMER_REAL, 0)
            threading.Timer(0.05, other.start).start()
            self.interrupted_after(0.15, lambda: graph.distances(0))
            go_on()
            self.assertTrue(waits_for(lambda: found == [3]))
            other.join()

    def test_leaves_little_work(self):
        n = 3000
        with Graph(range(n - 1), range(1, n), [1] * (n - 1)) as graph:
            graph.distances([0] * 16)
            self.interrupted_after(0.3, lambda: graph.distances([0] * 100000))
            start = time.monotonic()
            self.assertEqual(graph.distance(0, n - 1), n - 1)
            self.assertLess(time.monotonic() - start, 5)

    def alarmed(self, seconds, ask):
        """Asks again and again with an alarm at a random moment; how often it was cut, and how often not."""
        draw = random.Random(5)
        cut = done = 0
        before = signal.signal(signal.SIGALRM, interrupt)
        end = time.monotonic() + seconds
        try:
            while time.monotonic() < end:
                try:
                    signal.setitimer(signal.ITIMER_REAL, draw.random() * 6e-4 + 1e-6)
                    ask(draw)
                    signal.setitimer(signal.ITIMER_REAL, 0)
                    done += 1
                except KeyboardInterrupt:
                    cut += 1
        except KeyboardInterrupt:
            return self.alarmed(max(0.1, end - time.monotonic()), ask)
        finally:
            signal.setitimer(signal.ITIMER_REAL, 0)
            signal.signal(signal.SIGALRM, before)
        return cut, done

    def test_alarms_in_questions(self):
        n, arcs = drawn(8, 40)
        wanted = [costs_from(n, arcs, source) for source in range(n)]
        wrong = []
        with Graph(*columns(arcs), n) as graph:
            number = the_program()

            def ask(draw):
                source = draw.randrange(n)
                if draw.randrange(2):
                    found = ints(graph.distances(source))
                else:
                    found = whole(graph.matrix([source], range(n)))[0]
                if found != wanted[source]:
                    wrong.append(source)

            cut, _ = self.alarmed(2, ask)
            self.assertGreater(cut, 10)
            self.assertEqual((wrong, whole(graph.distances(range(n))), the_program()), ([], wanted, number))

    def test_alarms_in_adds(self):
        n, arcs = drawn(9, 20)
        with Graph(*columns(arcs), n) as graph:
            graph.levels(0)
            added = []

            def ask(draw):
                tail, head, weight = draw.randrange(n), draw.randrange(n), draw.randrange(1000)
                added.append((tail, head, weight))
                graph.add([tail], [head], [weight])

            cut, _ = self.alarmed(1.5, ask)
            self.assertGreater(cut, 5)
            # What is in the graph, and its order, is what the package itself keeps for a program that begins later.
            graph.distance(0, 0)
            there = list(zip(*graph._wire.state.session.log.columns))
            left = iter(added)
            self.assertTrue(all(arc in left for arc in there))
            costs = [costs_from(n, arcs + there, source) for source in range(n)]
            self.assertEqual((graph.m, whole(graph.distances(range(n)))), (len(arcs) + len(there), costs))
            self.assertEqual(ints(graph.levels(0)), levels_from(n, arcs + there, 0))
            self.assertEqual(graph.totals(0), totals_of(costs[0]))

    def test_at_each_opcode(self):
        wanted = [0, 7, 13]
        with Graph([0, 0, 1], [1, 2, 2], [7, 20, 6]) as graph:
            place = 0
            while True:
                place += 1
                if not cut_at(place, lambda: graph.distance(0, 2)):
                    break
                for target, cost in enumerate(wanted):
                    self.assertEqual(graph.distance(0, target), cost, place)
        self.assertGreater(place, 20)


if __name__ == "__main__":
    unittest.main()
