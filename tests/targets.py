#!/usr/bin/env python3
"""Pairs whose targets are near, far and out of reach, beside Dijkstra's algorithm: tests/targets.py PROGRAM COUNT.

A run for pairs stops as soon as the labels of its targets are least, or with walks those of the vertices on the way.
So each job here asks for few targets, at any distance: of graphs of six kinds, drawn with the numbers from 0 on as
seeds, by 1, 2 and 4 workers, with arcs added and without, and each job without walks and with them. Each line of an
answer is compared with what a heap of vertices gives, and each walk with what its definition gives: the fewest arcs of a
walk of least cost, found by going along all walks of one arc more at a time, and before each vertex the least one that
fits. COUNT jobs are drawn of each kind. It prints the seed and the kind of the first job whose answer is wrong, and the
status is 1 then.
"""

import heapq
import random
import subprocess
import sys


def random_arcs(draw, n):
    """Three arcs a vertex, anywhere."""
    return [(draw.randrange(n), draw.randrange(n), draw.randrange(1000)) for _ in range(3 * n)]


def power_arcs(draw, n):
    """A few vertices have most of the arcs."""
    return [(int(n * draw.random() ** 3), int(n * draw.random() ** 3), draw.randrange(100)) for _ in range(4 * n)]


def grid_arcs(draw, n, weight):
    """Streets both ways between crossings side by side."""
    side = max(int(n**0.5), 1)
    arcs = []
    for here in range(n):
        for there, within in ((here + 1, here % side < side - 1), (here + side, True)):
            if within and there < n:
                arcs += [(here, there, weight(draw)), (there, here, weight(draw))]
    return arcs


def path_arcs(draw, n):
    """One arc from each vertex to the next."""
    return [(v, v + 1, draw.randrange(5)) for v in range(n - 1)]


KINDS = {
    "random": random_arcs,
    "power-law": power_arcs,
    "map": lambda draw, n: grid_arcs(draw, n, lambda it: it.randrange(200, 3200)),
    "grid": lambda draw, n: grid_arcs(draw, n, lambda it: 1),
    "path": path_arcs,
    "weights of 0": lambda draw, n: [(u, v, w // 900) for u, v, w in random_arcs(draw, n)],
}


def costs_from(n, arcs, source):
    """The least cost of each vertex that is reached, by vertex."""
    rows = [[] for _ in range(n)]
    for tail, head, weight in arcs:
        rows[tail].append((head, weight))
    costs, heap = {}, [(0, source)]
    while heap:
        cost, v = heapq.heappop(heap)
        if v not in costs:
            costs[v] = cost
            for head, weight in rows[v]:
                heapq.heappush(heap, (cost + weight, head))
    return costs


def fewest_arcs(arcs, source, costs):
    """The fewest arcs of a walk of least cost to each vertex that is reached, by vertex."""
    fewest, cheapest, count = {}, {source: 0}, 0
    while True:
        fewest.update({v: count for v, cost in cheapest.items() if cost == costs[v] and v not in fewest})
        if len(fewest) == len(costs):
            return fewest
        longer = {}
        for tail, head, weight in arcs:
            if tail in cheapest:
                cost = cheapest[tail] + weight
                longer[head] = min(cost, longer.get(head, cost))
        cheapest, count = longer, count + 1


class Source:
    """What is known of walks from a source."""

    def __init__(self, n, arcs, source):
        self.arcs = arcs
        self.source = source
        self.costs = costs_from(n, arcs, source)
        self.fewest = fewest_arcs(arcs, source, self.costs)

    def before(self, v):
        """The least vertex from which an arc leads to v, along least costs and from one arc nearer."""
        return min(
            tail
            for tail, head, weight in self.arcs
            if head == v
            and tail in self.costs
            and self.costs[tail] + weight == self.costs[v]
            and self.fewest[tail] + 1 == self.fewest[v]
        )

    def lines(self, target, walks):
        """The lines of a pair."""
        line = f"q {self.source + 1} {target + 1} "
        if target not in self.costs:
            return [line + "inf"]
        walk = [target]
        while walks and self.fewest[walk[0]] > 0:
            walk.insert(0, self.before(walk[0]))
        cost = self.costs[target]
        told = " ".join(str(v + 1) for v in walk)
        return [f"{line}{cost}"] + ([f"w {target + 1} {cost} {told}"] if walks else [])


def targets_of(draw, n, costs):
    """A few targets: near ones, far ones, any, and where there is one a vertex that is out of reach."""
    order = sorted(costs, key=costs.get)
    near = order[: max(len(order) // 50, 2)]
    far = order[-max(len(order) // 50, 2) :]
    lost = [v for v in range(n) if v not in costs]
    pools = [near, near, far, range(n)] + ([lost] if lost else [])
    pool = draw.choice(pools)
    return [draw.choice(pool) for _ in range(draw.choice((1, 1, 2, 5)))]


def drawn(kind, seed):
    """A job, and its answers without walks and with them."""
    draw = random.Random(f"{kind} {seed}")
    n = draw.choice((2, 30, 200, 800))
    arcs = KINDS[kind](draw, n)
    added = random_arcs(draw, n)[: draw.randrange(1, 4)] if seed % 5 < 2 else []
    pairs = []
    for _ in range(draw.choice((1, 2, 4))):
        source = draw.randrange(n)
        pairs += [(source, target) for target in targets_of(draw, n, costs_from(n, arcs, source))]
    draw.shuffle(pairs)
    lines = [f"p sp {n} {len(arcs)}"] + [f"a {u + 1} {v + 1} {w}" for u, v, w in arcs]
    lines += [f"p aux sp p2p {len(pairs)}"] + [f"q {s + 1} {t + 1}" for s, t in pairs]
    if added:
        lines += [f"p aux sp add {len(added)}"] + [f"a {u + 1} {v + 1} {w}" for u, v, w in added]
    graphs = [arcs, arcs + added] if added else [arcs]
    known = [{s: Source(n, along, s) for s in sorted({s for s, _ in pairs})} for along in graphs]
    answers = []
    for walks in (False, True):
        answer = []
        for s, t in pairs:
            answer += known[0][s].lines(t, walks)
            if added:
                answer += [f"g {len(added)}"] + known[1][s].lines(t, walks)
        answers.append("\n".join(answer) + "\n")
    return "\n".join(lines) + "\n", answers


def main():
    program, count = sys.argv[1], int(sys.argv[2])
    for kind in KINDS:
        for seed in range(count):
            job, answers = drawn(kind, seed)
            words = [program, "--workers", str((1, 2, 4)[seed % 3]), "--shift", ("auto", "0", "4", "20")[seed % 4]]
            for want, more in zip(answers, ([], ["--walks"])):
                ended = subprocess.run(words + more, input=job, capture_output=True, text=True, check=False)
                if (ended.returncode, ended.stdout) != (0, want):
                    told = " ".join(words[1:] + more)
                    sys.exit(f"{kind}, seed {seed}: {told}: status {ended.returncode}, another answer")


if __name__ == "__main__":
    main()
