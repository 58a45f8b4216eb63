#!/usr/bin/env python3
"""Looks at maps that bench/generate.rs draws: towns.py GENERATE, where GENERATE is the built program.

Each map has as many vertices as are asked for, and the same bytes each time but for another seed. It is one part, and
from most vertices a walk leads to most others. Few vertices have many arcs, one street in twenty is one way, and the
numbers of vertices say nothing of where they are. Prints what is not so.
"""

import subprocess
import sys
from collections import Counter


def job(*words):
    return subprocess.run([GENERATE, "towns", *map(str, words)], capture_output=True, check=True).stdout


def read(text):
    """The vertices that a job's problem line counts, and its arcs."""
    first, *lines = text.decode().splitlines()
    words = first.split(" ")
    arcs = [tuple(map(int, line.split(" ")[1:])) for line in lines if line[0] == "a"]
    if words[:2] != ["p", "sp"] or int(words[3]) != len(arcs) or len(lines) != len(arcs) + 1:
        raise AssertionError(f"{first!r} of {len(arcs)} arcs")
    return int(words[2]), arcs


def reached(count, arcs, source=1):
    """The number of vertices that walks from a source reach."""
    heads = [[] for _ in range(count + 1)]
    for tail, head in arcs:
        heads[tail].append(head)
    seen, ahead = {source}, [source]
    for vertex in ahead:  # which grows meanwhile
        more = [head for head in heads[vertex] if head not in seen]
        seen.update(more)
        ahead.extend(dict.fromkeys(more))
    return len(seen)


def faults_of(size, seed):
    """The faults of a map, in words."""
    text = job(size, 0, seed)
    count, arcs = read(text)
    ends = [arc[:2] for arc in arcs]
    both = {*ends, *((head, tail) for tail, head in ends)}
    if count != size or text != job(size, 0, seed):
        yield f"{count} vertices, or other bytes again"
    if any(not (1 <= tail <= size and 1 <= head <= size and 1 <= weight < 2**32) for tail, head, weight in arcs):
        yield "an arc out of bounds"
    if reached(size, both) != size:
        yield "several parts"
    if size >= 2000:
        yield from faults_of_shape(size, ends, both)


def faults_of_shape(size, ends, both):
    turned = [(head, tail) for tail, head in ends]
    if not 2.2 <= len(ends) / size <= 2.5:
        yield f"{len(ends) / size} arcs a vertex"
    # A few sources, since one may lie at the end of a street that is one way.
    if any(max(reached(size, arcs, source) for source in range(1, 6)) < 0.98 * size for arcs in (ends, turned)):
        yield "less than 98 % of the vertices can be reached, or can reach the source"
    if max(Counter(tail for tail, _ in both).values()) > 12:
        yield "a vertex of more than 12 neighbours"
    one_way = 1 - 2 * (len(both) - len(set(ends))) / len(both)
    if not 0.9 < one_way < 0.99:
        yield f"{one_way} of the streets are both ways"
    far = sorted(abs(tail - head) for tail, head in ends if abs(tail - head) >= 64)
    if not (0.1 < len(far) / len(ends) < 0.9 and far[len(far) // 2] > size / 8):
        yield "vertices that are neighbours are near in number"


def main():
    maps = [(size, seed) for size in (1, 2, 99, 100, 2000, 30_001) for seed in (0, 7)]
    faults = [f"{size} vertices, seed {seed}: {fault}" for size, seed in maps for fault in faults_of(size, seed)]
    if job(2000, 0, 0) == job(2000, 0, 1) or job(2000, 0, 0) != job(2000, 0):
        faults.append("seeds 0 and 1 draw the same, or no seed is not 0")
    print("; ".join(faults), end="")


GENERATE = sys.argv[1]
main()
