"""Times pairs by rank: bench/near.py PROGRAM GRAPH ROUNDS NAME. The middle of the rounds, in milliseconds.

The graph has been asked for ten pairs anywhere before, as a service's has.
"""

import contextlib
import os
import random
import statistics
import subprocess
import sys
import time

import numpy
from sessions import Session

SHARES = {"next door": 0.0, "0.1 %": 0.001, "1 %": 0.01, "10 %": 0.1, "50 %": 0.5}


def columns_of(path):
    """The number of vertices, and tails, heads and weights, of a file of arcs."""
    with open(path, "rb") as file:
        n = int(file.readline().split()[2])
    rows = numpy.loadtxt(path, dtype=numpy.int64, skiprows=1, usecols=(1, 2, 3))
    return n, rows[:, 0] - 1, rows[:, 1] - 1, rows[:, 2]


def middle(calls):
    """The middle milliseconds of some calls, each made once."""
    times = []
    for call in calls:
        before = time.perf_counter()
        call()
        times.append(1000 * (time.perf_counter() - before))
    return statistics.median(times)


def pairs_of(program, graph, sources):
    """For each share a pair of each source: that share of the vertices it reaches is nearer than the target."""
    text = graph + b"p aux sp ss %d\n" % len(sources) + b"".join(b"s %d\n" % (s + 1) for s in sources)
    answer = subprocess.run([program, "--workers", "4"], input=text, stdout=subprocess.PIPE, check=True).stdout
    pairs = {share: [] for share in SHARES}
    for source, block in zip(sources, answer.split(b"s ")[1:]):
        lines = [line.split() for line in block.splitlines()[1:]]
        order = sorted((int(cost), int(v) - 1) for _, v, cost in lines if cost != b"inf")
        for share, part in SHARES.items():
            place = min(max(1, int(part * len(order))), len(order) - 1)
            pairs[share].append((source, order[place][1], order[place][0]))
    return pairs


def session_asked(session, head, pairs):
    """Asks a session for pairs, one a request."""
    return middle([lambda s=s, t=t: session.ask(b"p aux sp %s 1\nq %d %d\n" % (head, s + 1, t + 1)) for s, t, _ in pairs])


def others(n, tails, heads, weights):
    """The call of each library that is there which gives the cost of a pair, with the graph in memory."""
    try:
        from graph_tool import Graph
        from graph_tool.topology import shortest_distance

        kept = Graph(directed=True)
        kept.add_vertex(n)
        sizes = kept.new_edge_property("int64_t")
        kept.add_edge_list(numpy.column_stack([tails, heads, weights]), eprops=[sizes])
        yield "graph-tool", lambda s, t: shortest_distance(kept, source=kept.vertex(s), target=kept.vertex(t), weights=sizes)
    except ImportError:
        pass
    try:
        import igraph

        roads = igraph.Graph(n=n, edges=numpy.column_stack([tails, heads]), directed=True)
        roads.es["weight"] = weights.tolist()
        yield "igraph", lambda s, t: roads.distances(s, t, weights="weight")
    except ImportError:
        pass


def main():
    """All of it, for one graph."""
    program, path, rounds, name = sys.argv[1:]
    with open(path, "rb") as file:
        graph = file.read()
    n, tails, heads, weights = columns_of(path)
    # Of the vertices that arcs leave.
    sources = random.Random(1).sample(sorted(set(tails[:: max(1, len(tails) // 5000)].tolist())), int(rounds))
    pairs = pairs_of(program, graph, sources)
    os.environ["HOLLOWBOWL"] = program
    from hollowbowl import Graph, NoPath

    draw = random.Random(2)
    anywhere = [(s, draw.randrange(n), 0) for s in sources]
    session = Session(program, 1, graph)
    before = session_asked(session, b"p2p", anywhere[:10])
    print(f"{name}, the first ten anywhere: {before:.3f} ms", flush=True)
    print(f"{name}, anywhere: {session_asked(session, b'p2p', anywhere):.3f} ms", flush=True)
    with Graph(tails, heads, weights, n, workers=1) as kept:
        for s, t, _ in anywhere[:10]:
            with contextlib.suppress(NoPath):
                kept.distance(s, t)
        for share, asked in pairs.items():
            plain, walk = session_asked(session, b"p2p", asked), session_asked(session, b"walk", asked)
            distance = middle([lambda s=s, t=t: kept.distance(s, t) for s, t, _ in asked])
            path_there = middle([lambda s=s, t=t: kept.path(s, t) for s, t, _ in asked])
            print(f"{name}, {share}: {plain:.3f} ms, with its walk {walk:.3f}, from Python {distance:.3f}, its path {path_there:.3f}", flush=True)
        near = pairs["next door"]
        within = middle([lambda s=s, c=c: kept.within(s, c) for s, _, c in near])
        print(f"{name}, within the cost of the next vertex from Python: {within:.3f} ms", flush=True)
    session.close()
    for library, cost in others(n, tails, heads, weights):
        for share, asked in pairs.items():
            few = asked[:5]
            print(f"{name}, {share}, {library}: {middle([lambda s=s, t=t: cost(s, t) for s, t, _ in few]):.3f} ms", flush=True)


if __name__ == "__main__":
    main()
