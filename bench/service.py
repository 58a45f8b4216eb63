"""Times near pairs beside far questions: bench/service.py ROUNDS GRAPH...

Four threads ask for pairs whose target is among the thousand nearest vertices, each after a pause, and so they do alone,
beside two threads that ask for rows, and beside one that asks for sums of 20 sources. Graphs of one program, two and
four are asked in turn in each round, and so are four graphs in a queue. Of all rounds it prints in how many milliseconds
half of the pairs were answered, and 19 of 20; how many far answers came a second; and the memory of the programs.
"""

import contextlib
import os
import queue
import random
import statistics
import sys
import threading
import time

from hollowbowl import Graph

SECONDS, PAUSE, NEAR, RANK = 2, 0.005, 4, 1000


class Queue:
    """Graphs of one program each, one of which a thread takes for a question."""

    def __init__(self, graphs):
        self._graphs = queue.SimpleQueue()
        for graph in graphs:
            self._graphs.put(graph)

    def __getattr__(self, name):
        def ask(*words):
            graph = self._graphs.get()
            try:
                return getattr(graph, name)(*words)
            finally:
                self._graphs.put(graph)

        return ask


def near_pairs(graph, draw):
    """Pairs of a source and one of the vertices that are nearest to it."""
    n = graph.n
    bound = sorted(graph.distances(n // 2 + 7))[RANK]
    for _ in range(200):
        source = draw.randrange(n)
        vertices, _ = graph.within(source, int(bound))
        yield source, int(draw.choice(vertices))


def load(graph, pairs, far):
    """Asks for some seconds: the milliseconds of each pair, and how many far questions were answered."""
    end, took, answered = time.monotonic() + SECONDS, [], []

    def ask_near(draw):
        while time.monotonic() < end:
            source, target = draw.choice(pairs)
            before = time.perf_counter()
            graph.distance(source, target)
            took.append(1000 * (time.perf_counter() - before))
            time.sleep(PAUSE)

    def ask_far(ask, draw):
        while time.monotonic() < end:
            ask(graph, draw)
            answered.append(1)

    threads = [threading.Thread(target=ask_near, args=(random.Random(place),)) for place in range(NEAR)]
    threads += [threading.Thread(target=ask_far, args=(ask, random.Random(place))) for place, ask in enumerate(far)]
    for thread in threads:
        thread.start()
    for thread in threads:
        thread.join()
    return took, len(answered)


def memory():
    """The bytes of memory of each program that this process has begun."""
    found = []
    for name in filter(str.isdigit, os.listdir("/proc")):
        with contextlib.suppress(OSError), open(f"/proc/{name}/stat", encoding="utf-8") as file:
            fields = file.read().rpartition(")")[2].split()
            if int(fields[1]) == os.getpid():
                found.append(int(fields[21]) * os.sysconf("SC_PAGE_SIZE"))
    return found


def measure(path, rounds):
    """All of one graph."""
    draw = random.Random(1)
    with contextlib.ExitStack() as stack:
        graphs = {}
        for name, programs in (("1 program", 1), ("2 programs", 2), ("4 programs", 4), ("4 graphs in a queue", 0)):
            made = [Graph.from_gr(path, workers=1, programs=programs or 1) for _ in range(1 if programs else 4)]
            for graph in made:
                stack.callback(graph.close)
            graphs[name] = made[0] if programs else Queue(made)
        n = made[0].n
        pairs = list(near_pairs(made[0], draw))
        row = lambda graph, draw: graph.distances(draw.randrange(n))
        sums = lambda graph, draw: graph.totals([draw.randrange(n) for _ in range(20)])
        for words, far in (("alone", []), ("beside rows", [row, row]), ("beside sums of 20 sources", [sums])):
            found = {name: ([], []) for name in graphs}
            for _ in range(rounds):
                for name, graph in graphs.items():
                    took, answered = load(graph, pairs, far)
                    found[name][0].extend(took)
                    found[name][1].append(answered)
            for name, (took, answered) in found.items():
                half, most = statistics.quantiles(took, n=20)[9::9]
                print(f"{n} vertices, {words}, {name}: half within {half:.2f} ms, 19 of 20 within {most:.2f} ms; {sum(answered) / rounds / SECONDS:.1f} far answers a second")
        each = sorted(memory())
        print(f"{n} vertices: {len(each)} programs of {each[0] >> 20} to {each[-1] >> 20} MiB; load {os.getloadavg()[0]:.1f}")


def main():
    """All graphs."""
    rounds, *paths = sys.argv[1:]
    for path in paths:
        measure(path, int(rounds))


if __name__ == "__main__":
    main()
