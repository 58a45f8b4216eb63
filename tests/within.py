#!/usr/bin/env python3
"""Sources within a bound, beside Dijkstra's algorithm: tests/within.py PROGRAM COUNT.

With --within a run stops once all costs up to the bound are known. So each job here asks for bounds from 0 to past the
farthest vertex, on the graphs of targets.py: by 1, 2 and 4 workers, distances and levels, with walks and without, with
arcs added and without. Each line of an answer is compared with what is worked out there. COUNT jobs are drawn of each
kind of graph. It prints the seed and the kind of the first job whose answer is wrong, and the status is 1 then.
"""

import random
import subprocess
import sys

from targets import KINDS, Source, random_arcs


def block(known, bound, walks):
    """The lines of a source: of each vertex within the bound that of its cost, and with walks that of the walk."""
    lines = [f"s {known.source + 1}"]
    for v in sorted(known.costs):
        if known.costs[v] <= bound:
            told = known.lines(v, walks)
            lines += [f"d {v + 1} {known.costs[v]}"] + told[1:]
    return lines


def bound_of(draw, costs):
    """A bound: none of the others, the source's own, that of some vertex, the one below, or past all."""
    some = draw.choice(sorted(costs.values()))
    return draw.choice((0, some, some, max(some - 1, 0), max(costs.values()) + 1, 18446744073709551614))


def drawn(kind, seed):
    """A job, the words of the command line, and the answer."""
    draw = random.Random(f"{kind} within {seed}")
    n = draw.choice((1, 30, 150))
    arcs = [arc for arc in KINDS[kind](draw, n) if arc[1] < n]
    added = random_arcs(draw, n)[: draw.randrange(1, 4)] if seed % 5 < 2 else []
    sources = [draw.randrange(n) for _ in range(draw.choice((1, 2, 4)))]
    lines = [f"p sp {n} {len(arcs)}"] + [f"a {u + 1} {v + 1} {w}" for u, v, w in arcs]
    lines += [f"p aux sp ss {len(sources)}"] + [f"s {s + 1}" for s in sources]
    if added:
        lines += [f"p aux sp add {len(added)}"] + [f"a {u + 1} {v + 1} {w}" for u, v, w in added]
    levels, walks = draw.random() < 0.3, draw.random() < 0.5
    graphs = [arcs, arcs + added] if added else [arcs]
    if levels:
        graphs = [[(u, v, 1) for u, v, _ in along] for along in graphs]
    known = [{s: Source(n, along, s) for s in set(sources)} for along in graphs]
    bound = bound_of(draw, known[0][sources[0]].costs)
    answer = []
    for s in sources:
        answer += block(known[0][s], bound, walks)
        if added:
            answer += [f"g {len(added)}"] + block(known[1][s], bound, walks)
    words = ["--within", str(bound), "--workers", str((1, 2, 4)[seed % 3])]
    words += ["--shift", ("auto", "0", "4", "20")[seed % 4]]
    words += (["--walks"] if walks else []) + (["--answer", "levels"] if levels else [])
    return "\n".join(lines) + "\n", words, "\n".join(answer) + "\n"


def main():
    program, count = sys.argv[1], int(sys.argv[2])
    for kind in KINDS:
        for seed in range(count):
            job, words, want = drawn(kind, seed)
            ended = subprocess.run([program] + words, input=job, capture_output=True, text=True, check=False)
            if (ended.returncode, ended.stdout) != (0, want):
                sys.exit(f"{kind}, seed {seed}: {' '.join(words)}: status {ended.returncode}, another answer")


if __name__ == "__main__":
    main()
