"""Times pairs anywhere: bench/far.py PROGRAM GRAPH PAIRS NAME. Means of pairs, in milliseconds.

Sessions by landmarks, by a hierarchy and without either are asked in turn, and must answer the same. The hierarchy is made
before the first pair, if the graph has one.
"""

import random
import sys
import time

import numpy
from near import columns_of, others
from sessions import Session

# Pairs of a part of the table, and pairs of the other libraries.
PART, FEW = 50, 5
# The least weight of a street of `generate grid`.
LEAST = 200


def timed(call):
    """What a call returns, and its milliseconds."""
    before = time.perf_counter()
    result = call()
    return result, 1000 * (time.perf_counter() - before)


def astar(n, tails, heads, weights):
    """A call of graph-tool's astar_search on a grid, by the streets that are left at least."""
    from graph_tool import Graph
    from graph_tool.search import AStarVisitor, StopSearch, astar_search

    class Stop(AStarVisitor):
        """Ends a search at its target."""

        def __init__(self, target):
            self.target = target

        def examine_vertex(self, vertex):
            if int(vertex) == self.target:
                raise StopSearch

    kept = Graph(directed=True)
    kept.add_vertex(n)
    sizes = kept.new_edge_property("int64_t")
    kept.add_edge_list(numpy.column_stack([tails, heads, weights]), eprops=[sizes])
    side = int(n**0.5)

    def cost(source, target):
        row, column = divmod(target, side)

        def left(vertex):
            at = int(vertex)
            return LEAST * (abs(at // side - row) + abs(at % side - column))

        labels, _ = astar_search(kept, kept.vertex(source), sizes, Stop(target), heuristic=left)
        return labels[kept.vertex(target)]

    return cost


def main():
    """All of it, for one graph."""
    program, path, count, name = sys.argv[1:]
    with open(path, "rb") as file:
        graph = file.read()
    n, tails, heads, weights = columns_of(path)
    draw = random.Random(3)
    pairs = [(int(tails[draw.randrange(len(tails))]), draw.randrange(n)) for _ in range(int(count))]
    means = {
        "landmarks": ["--hierarchy", "no"],
        "hierarchy": ["--hierarchy", "now"],
        "none": ["--landmarks", "0", "--hierarchy", "no"],
    }
    sessions = {mode: Session(program, 1, graph, *options) for mode, options in means.items()}
    times = {mode: [] for mode in sessions}
    for source, target in pairs:
        request = b"p aux sp p2p 1\nq %d %d\n" % (source + 1, target + 1)
        replies = set()
        for mode, session in sessions.items():
            reply, spent = timed(lambda session=session, request=request: session.ask(request))
            times[mode].append(spent)
            replies.add(reply)
        if len(replies) > 1:
            raise SystemExit(f"{name}: {replies}")
    for mode, spent in times.items():
        parts = ", ".join(f"{sum(spent[at : at + PART]) / len(spent[at : at + PART]):.3f}" for at in range(0, len(spent), PART))
        print(f"{name}, {mode}: {sum(spent):.0f} ms in all; by {PART} pairs {parts}; the longest {max(spent):.0f}", flush=True)
    for session in sessions.values():
        session.close()
    calls = list(others(n, tails, heads, weights))
    if calls and name.startswith("grid"):
        calls.append(("astar_search", astar(n, tails, heads, weights)))
    for library, cost in calls:
        spent = [timed(lambda s=s, t=t, cost=cost: cost(s, t))[1] for s, t in pairs[:FEW]]
        print(f"{name}, {library}: {sum(spent) / len(spent):.1f} ms", flush=True)


if __name__ == "__main__":
    main()
