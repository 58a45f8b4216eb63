"""Processes, threads, kills and interrupts at random, beside definitions in Python.

HOLLOWBOWL_SEED draws what another run drew, as far as threads allow.
"""

import contextlib
import os
import random
import signal
import threading
import time
import traceback
import unittest

from common import Case, children, columns, components_of, costs_from, descriptors, interrupt, ints, levels_from, threads, totals_of, waits_for, whole

import hollowbowl
from hollowbowl import INF, Ended, Graph, GraphChanged, NoPath, NoVertex, WrongProcess

PROCESSES, THREADS, QUESTIONS, VERTICES = 4, 8, 2000, 30


class States:
    """The arcs that the graph may have: those of the last state that was seen, and of each that may have come since."""

    def __init__(self, arcs):
        self.lock = threading.Lock()
        self.all = [arcs]
        self.seen = 0

    def last_seen(self):
        """The place of the last state that was seen."""
        with self.lock:
            return self.seen

    def since(self, place):
        """All that the graph may have had since the state at a place was seen."""
        with self.lock:
            return self.all[place:]

    def may_come(self, arcs):
        """Has a state that comes, or not. Questions that are asked meanwhile may meet either."""
        with self.lock:
            self.all.append(arcs)

    def see(self, arcs):
        """Has a state that the graph is in."""
        with self.lock:
            self.all.append(arcs)
            self.seen = len(self.all) - 1


def question(graph, draw):
    """A question: what it gives, and what a state of the arcs would give."""
    source, target = draw.randrange(VERTICES), draw.randrange(VERTICES)
    few = [draw.randrange(VERTICES) for _ in range(draw.randrange(4))]
    bound = draw.randrange(2000)

    def near(arcs):
        costs = costs_from(VERTICES, arcs, source)
        return [(vertex, cost) for vertex, cost in enumerate(costs) if cost <= bound]

    def distance():
        try:
            return graph.distance(source, target)
        except NoPath:
            return INF

    return draw.choice(
        [
            (lambda: ints(graph.distances(source)), lambda arcs: costs_from(VERTICES, arcs, source)),
            (lambda: whole(graph.distances(few)), lambda arcs: [costs_from(VERTICES, arcs, each) for each in few]),
            (lambda: ints(graph.levels(source)), lambda arcs: levels_from(VERTICES, arcs, source)),
            (lambda: ints(graph.components()), lambda arcs: components_of(VERTICES, arcs)),
            (lambda: tuple(graph.totals(source)), lambda arcs: totals_of(costs_from(VERTICES, arcs, source))),
            (lambda: list(zip(*whole(graph.within(source, bound)))), near),
            (lambda: whole(graph.matrix([source], few)), lambda arcs: [[costs_from(VERTICES, arcs, source)[each] for each in few]]),
            (lambda: tuple(graph.totals(source, hops=True)), lambda arcs: totals_of(levels_from(VERTICES, arcs, source))),
            (lambda: whole(graph.matrix([source], few, hops=True)), lambda arcs: [[levels_from(VERTICES, arcs, source)[each] for each in few]]),
            (distance, lambda arcs: costs_from(VERTICES, arcs, source)[target]),
            (lambda: [ints(row) for _, row in graph.rows(few)], lambda arcs: [costs_from(VERTICES, arcs, each) for each in few]),
            (
                lambda: [path is None for path in graph.paths([(source, each) for each in few], missing=None)],
                lambda arcs: [costs_from(VERTICES, arcs, source)[each] == INF for each in few],
            ),
        ]
    )


class One:
    """The work of one process: threads that ask, and a main thread that adds, kills and is interrupted."""

    def __init__(self, seed, inherited, programs):
        self.programs = programs
        self.draw = random.Random(seed)
        self.inherited = inherited
        self.wrong = []
        self.seen = set()
        self.left = QUESTIONS // PROCESSES
        self.lock = threading.Lock()
        self.arcs = [self.an_arc(self.draw) for _ in range(2 * VERTICES)]
        self.states = States(self.arcs)

    def an_arc(self, draw):
        return draw.randrange(VERTICES), draw.randrange(VERTICES), draw.randrange(1000)

    def next(self):
        with self.lock:
            self.left -= 1
            return self.left >= 0

    def ask(self, graph, seed):
        """A thread's questions."""
        draw = random.Random(seed)
        while self.next():
            ask, define = question(graph, draw)
            before = self.states.last_seen()
            try:
                found = ask()
            except (Ended, GraphChanged) as fault:
                self.seen.add(type(fault).__name__)
                continue
            except BaseException:
                self.wrong.append(traceback.format_exc())
                return
            if not any(found == define(arcs) for arcs in self.states.since(before)):
                self.wrong.append(f"{found} is none of {[define(arcs) for arcs in self.states.since(before)]}")

    def add(self, graph, draw):
        """Adds an arc, perhaps cut by an alarm, and finds out whether it is there."""
        arc, count, now = self.an_arc(draw), graph.m, self.states.all[-1]
        self.states.may_come(now + [arc])
        try:
            self.with_alarm(draw, lambda: graph.add(*columns([arc])))
        except (Ended, KeyboardInterrupt) as fault:
            self.seen.add(type(fault).__name__)
        while True:
            try:
                # Once it is answered, the add before it is over.
                graph.distance(0, 0)
                break
            except (Ended, KeyboardInterrupt):
                continue
        self.states.see(now if graph.m == count else now + [arc])

    def with_alarm(self, draw, ask):
        try:
            signal.setitimer(signal.ITIMER_REAL, draw.random() * 2e-3 + 1e-5)
            ask()
        finally:
            signal.setitimer(signal.ITIMER_REAL, 0)

    def disturb(self, graph, draw):
        """What the main thread does beside the askers."""
        chance = draw.randrange(4)
        if chance == 0:
            numbers = [number for number, words in children().items() if "--session" in words]
            if numbers:
                # It may have ended since it was found.
                with contextlib.suppress(ProcessLookupError):
                    os.kill(draw.choice(numbers), signal.SIGKILL)
        elif chance == 1:
            self.add(graph, draw)
        elif chance == 2:
            try:
                self.with_alarm(draw, lambda: graph.distances(range(VERTICES)))
            except (Ended, KeyboardInterrupt) as fault:
                self.seen.add(type(fault).__name__)
        else:
            for ask, kind in ((lambda: self.inherited.distance(0, 1), WrongProcess), (lambda: graph.distance(0, VERTICES), NoVertex)):
                try:
                    ask()
                    self.wrong.append(f"no {kind.__name__}")
                except kind:
                    pass
        time.sleep(0.005)

    def run(self):
        """All of it; what went wrong."""
        signal.signal(signal.SIGALRM, interrupt)
        count = descriptors()
        graph = Graph(*columns(self.arcs), VERTICES, workers=1, programs=self.programs)
        askers = [threading.Thread(target=self.ask, args=(graph, self.draw.random())) for _ in range(THREADS)]
        for asker in askers:
            asker.start()
        while any(asker.is_alive() for asker in askers):
            try:
                self.disturb(graph, self.draw)
            except KeyboardInterrupt:
                # An alarm may ring once its call is over.
                continue
        graph.close()
        if not waits_for(lambda: not children() and not threads() and descriptors() <= count):
            self.wrong.append(f"left: {children()}, {threads()}, {descriptors()} descriptors in place of {count}")
        return self.wrong


class Stress(Case):
    """Four processes by fork, each with eight threads, and a graph of one program or of three."""

    def test_all_at_once(self):
        seed = int(os.environ.get("HOLLOWBOWL_SEED") or random.randrange(2**32))
        with Graph([0], [1], [3]) as inherited:
            numbers = {}
            for place in range(PROCESSES):
                taken, given = os.pipe()
                number = os.fork()
                if number == 0:
                    os.close(taken)
                    self.in_child(seed + place, inherited, 1 + 2 * (place % 2), given)
                os.close(given)
                numbers[number] = taken
            for number, taken in numbers.items():
                with os.fdopen(taken, "rb") as pipe:
                    said = pipe.read().decode()
                self.assertEqual((said, os.waitpid(number, 0)[1]), ("", 0), f"HOLLOWBOWL_SEED={seed}")
            self.assertEqual(inherited.distance(0, 1), 3)

    def in_child(self, seed, inherited, programs, given):
        said = "no end"
        try:
            said = "\n".join(One(seed, inherited, programs).run()[:3])
        except BaseException:
            said = traceback.format_exc()
        finally:
            os.write(given, said.encode())
            os._exit(0)


if __name__ == "__main__":
    unittest.main()
