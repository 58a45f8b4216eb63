"""KeyboardInterrupt in changes of arcs, and in those that are undone, at any moment."""

import os
import random
import signal
import unittest
from unittest import mock

from common import Case, alarms, columns, costs_from, cut_at, drawn, ints, the_program, there, whole

import hollowbowl
from hollowbowl import Graph

INTERRUPTED = 500


class Interrupts(Case):
    """KeyboardInterrupt in changes, at any moment."""

    def setUp(self):
        super().setUp()
        self.n, self.arcs = drawn(9, 12)
        self.graph = Graph(*columns(self.arcs), self.n)
        self.addCleanup(self.graph.close)
        self.wanted = [costs_from(self.n, self.arcs, source) for source in range(self.n)]

    def is_wrong(self, draw):
        """Whether some answer is not that of the graph as it was."""
        if draw.randrange(4) == 0:
            return (there(self.graph), self.graph.m) != (sorted(self.arcs), len(self.arcs))
        source = draw.randrange(self.n)
        return ints(self.graph.distances(source)) != self.wanted[source]

    def a_change(self, draw):
        """Some edges to remove, to set and to add."""
        few = [draw.choice(self.arcs)[:2] for _ in range(draw.randrange(3))]
        others = [(*draw.choice(self.arcs)[:2], draw.randrange(9)) for _ in range(draw.randrange(3))]
        more = [(draw.randrange(self.n), draw.randrange(self.n), draw.randrange(9)) for _ in range(draw.randrange(3))]
        return {"remove": few, "set": others, "add": more}

    def test_alarms(self):
        graph, draw, number = self.graph, random.Random(3), the_program()
        wrong, cut = [], 0
        for ring in alarms(draw, 2e-3):
            change = self.a_change(draw)
            try:
                with ring, graph.changed(**change):
                    graph.distances(0)
                    with graph.changed(**{**change, "remove": [], "set": []}):
                        graph.components()
            except KeyboardInterrupt:
                cut += 1
                if draw.randrange(2) and self.is_wrong(draw):
                    wrong.append(change)
            if self.is_wrong(draw):
                wrong.append(change)
            if cut == INTERRUPTED:
                break
        self.assertGreater(cut, INTERRUPTED // 5)
        self.assertEqual((wrong, there(graph), the_program()), ([], sorted(self.arcs), number))

    def test_alarms_in_other_changes(self):
        graph, draw, arcs, cut = self.graph, random.Random(4), self.arcs, 0
        for ring in alarms(draw, 1e-3):
            edge = draw.choice(arcs)
            others = [arc for arc in arcs if arc[:2] != edge[:2]]
            arc = (*edge[:2], draw.randrange(100))
            ask, wanted = draw.choice(
                [
                    (lambda edge=edge: graph.remove([edge[:2]]), others),
                    (lambda arc=arc: graph.set_weights([arc]), [*others, arc]),
                    (lambda arc=arc: graph.add(*columns([arc])), [*arcs, arc]),
                ]
            )
            done = False
            try:
                with ring:
                    ask()
                    done = True
            except KeyboardInterrupt:
                cut += 1
            found = there(graph)
            self.assertIn(found, [sorted(wanted)] if done else [sorted(arcs), sorted(wanted)])
            self.assertEqual(graph.m, len(found))
            arcs = found
            if len(arcs) < 5:
                graph.add(*columns(self.arcs))
                arcs = there(graph)
            if cut == 100:
                break
        self.assertEqual(whole(graph.distances(range(self.n))), [costs_from(self.n, arcs, source) for source in range(self.n)])

    def test_at_each_opcode(self):
        graph, draw = self.graph, random.Random(5)
        edge = self.arcs[0]

        def ask():
            with graph.changed(remove=[edge[:2]], set=[(*self.arcs[1][:2], 1)], add=[(0, 0, 1)]):
                graph.components()

        def look():
            # While a traceback holds the frames of the call.
            try:
                raise ValueError
            except ValueError:
                self.assertFalse(self.is_wrong(draw), place)

        place, is_cut = 0, True
        while is_cut:
            is_cut = cut_at(place := place + 1, ask, look)
            self.assertFalse(self.is_wrong(draw), place)
        self.assertGreater(place, 100)
        self.assertEqual(there(graph), sorted(self.arcs))

    def test_while_it_looks(self):
        """What stands there is asked by several requests, and the caller goes at the first."""
        graph, number = self.graph, the_program()
        pairs = sorted({arc[:2] for arc in self.arcs})
        for ask, left in (
            (lambda: graph.changed(add=[(*pair, 1) for pair in pairs]).__enter__(), self.arcs),
            (lambda: graph.remove(pairs), []),
        ):
            with mock.patch.dict(hollowbowl._asking._FIRST, arcs=1), mock.patch.object(graph._wire.state, "sizes", hollowbowl._asking.Sizes()):
                os.kill(number, signal.SIGSTOP)
                self.interrupted_after(0.05, ask)
                os.kill(number, signal.SIGCONT)
                self.assertEqual((there(graph), graph.m), (sorted(left), len(left)))

    def test_twice(self):
        """What an interrupt has begun to end is interrupted too, while the program stands still."""
        graph, draw, number, count = self.graph, random.Random(6), the_program(), [0]

        def ring(*_):
            count[0] += 1
            if count[0] < 3:
                raise KeyboardInterrupt
            signal.setitimer(signal.ITIMER_REAL, 0)
            os.kill(number, signal.SIGCONT)

        self.addCleanup(signal.signal, signal.SIGALRM, signal.signal(signal.SIGALRM, ring))
        for place in range(20):
            count[0] = 0
            with self.assertRaises(KeyboardInterrupt), graph.changed(remove=[self.arcs[0][:2]]):
                os.kill(number, signal.SIGSTOP)
                signal.setitimer(signal.ITIMER_REAL, 0.02, 0.02)
                graph.distances(0)
            self.assertFalse(self.is_wrong(draw), place)
            self.assertEqual(count, [3])
        self.assertEqual((there(graph), the_program()), (sorted(self.arcs), number))


if __name__ == "__main__":
    unittest.main()
