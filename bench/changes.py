"""Times questions beside changes: bench/changes.py SECONDS GRAPH SMALL.

Eight threads ask one graph: of ten questions eight are pairs whose target is among the thousand nearest vertices, one a
pair anywhere, and one the vertices within a cost. So they do for some seconds, and again while a street closes or opens
each second. Before, pairs anywhere are asked for, as in a service. Then of a small graph a pair is asked for with a street
closed for it, and without. Prints processor milliseconds an answer, and how soon half and 19 of 20 of the near pairs came.
"""

import os
import random
import statistics
import sys
import threading
import time

from hollowbowl import Graph
from service import near_pairs

CLIENTS, WARM, WHAT_IFS = 8, 60, 200


def processor_seconds():
    """The processor seconds of the programs that this process has begun."""
    ticks = 0
    for name in filter(str.isdigit, os.listdir("/proc")):
        try:
            with open(f"/proc/{name}/stat", encoding="utf-8") as file:
                fields = file.read().rpartition(")")[2].split()
        except OSError:
            continue
        if int(fields[1]) == os.getpid():
            ticks += int(fields[11]) + int(fields[12])
    return ticks / os.sysconf("SC_CLK_TCK")


def ask(graph, pairs, draw, took):
    """Asks one question, and notes how long a near one took."""
    kind = draw.randrange(10)
    if kind == 0:
        graph.distance(draw.randrange(graph.n), draw.randrange(graph.n))
        return
    source, target = draw.choice(pairs)
    if kind == 1:
        graph.within(source, 500)
        return
    before = time.perf_counter()
    graph.distance(source, target)
    took.append(1000 * (time.perf_counter() - before))


def change(graph, end, draw):
    """Closes a street each second, and opens it again in the next."""
    closed = None
    while time.monotonic() < end:
        if closed is None:
            tail = draw.randrange(graph.n)
            heads = graph.neighbors(tail)
            if not len(heads):
                continue
            head = int(heads[0])
            closed = (tail, head, graph.weight(tail, head))
            graph.remove([(tail, head)])
        else:
            graph.add_edges([closed])
            closed = None
        time.sleep(1)
    if closed is not None:
        graph.add_edges([closed])


def load(graph, pairs, seconds, changes):
    """Asks for some seconds: the milliseconds of near pairs, the questions, and the processor seconds."""
    end, took, counts = time.monotonic() + seconds, [], []

    def client(draw):
        count = 0
        while time.monotonic() < end:
            ask(graph, pairs, draw, took)
            count += 1
        counts.append(count)

    threads = [threading.Thread(target=client, args=(random.Random(place),)) for place in range(CLIENTS)]
    if changes:
        threads.append(threading.Thread(target=change, args=(graph, end, random.Random(99))))
    before = processor_seconds()
    for thread in threads:
        thread.start()
    for thread in threads:
        thread.join()
    return took, sum(counts), processor_seconds() - before


def serve(path, seconds):
    """A graph that is served with changes and without, in turn."""
    draw = random.Random(1)
    with Graph.from_gr(path, workers=1) as graph:
        pairs = list(near_pairs(graph, draw))
        for _ in range(WARM):
            graph.distance(draw.randrange(graph.n), draw.randrange(graph.n))
        for _ in range(2):
            for words, changes in (("no change", False), ("a change a second", True)):
                took, count, spent = load(graph, pairs, seconds, changes)
                half, most = statistics.quantiles(took, n=20)[9::9]
                print(f"{graph.n} vertices, {words}: {1000 * spent / count:.3f} processor ms an answer, {count / seconds:.0f} a second; near pairs: half within {half:.2f} ms, 19 of 20 within {most:.2f} ms", flush=True)


def what_ifs(path):
    """Pairs with a street closed for each, and without."""
    draw = random.Random(2)
    with Graph.from_gr(path, workers=1) as graph:
        near = list(near_pairs(graph, draw))
        far = [(draw.randrange(graph.n), draw.randrange(graph.n)) for _ in near]
        for source, target in far[:WARM]:
            graph.distance(source, target)
        for words, pairs in (("near", near), ("far", far)):
            alone, closed = [], []
            for source, target in pairs[:WHAT_IFS]:
                before = time.perf_counter()
                graph.distance(source, target)
                alone.append(1000 * (time.perf_counter() - before))
                heads = graph.neighbors(source)
                if len(heads):
                    before = time.perf_counter()
                    with graph.changed(remove=[(source, int(heads[0]))]):
                        graph.distance(source, target)
                    closed.append(1000 * (time.perf_counter() - before))
            print(f"{graph.n} vertices, {words} pairs: {statistics.median(alone):.3f} ms, {statistics.median(closed):.3f} with a street closed for it", flush=True)


def main():
    """Both."""
    seconds, path, small = sys.argv[1:]
    serve(path, int(seconds))
    what_ifs(small)


if __name__ == "__main__":
    main()
