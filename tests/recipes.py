"""Recipes of docs/COOKBOOK.md for a library of Python, beside what Dijkstra's algorithm here and the library give.

recipes.py LIBRARY, with the program in the variable PROGRAM. It prints what differs.
"""

import heapq
import random
import sys

sys.path.insert(0, "examples")
from by_name import distances


def draw(seed, vertices, arcs):
    """Arcs between vertices 0 to VERTICES - 1, at most one from one to another, that leave vertex 0 too."""
    pick = random.Random(seed)
    weights = {(0, 1): 3}
    for _ in range(arcs):
        tail, head = pick.randrange(vertices), pick.randrange(vertices)
        if tail != head:
            weights[tail, head] = pick.randrange(50)
    return [(tail, head, weight) for (tail, head), weight in weights.items()]


def dijkstra(arcs, source):
    found, waiting = {}, [(0, source)]
    while waiting:
        distance, vertex = heapq.heappop(waiting)
        if vertex not in found:
            found[vertex] = distance
            for tail, head, weight in arcs:
                if tail == vertex:
                    heapq.heappush(waiting, (distance + weight, head))
    return found


def by_networkx(arcs):
    import networkx

    graph = networkx.DiGraph()
    graph.add_weighted_edges_from(arcs)
    yield distances(graph.edges(data="weight"), 0), networkx.single_source_dijkstra_path_length(graph, 0)
    roads = networkx.Graph()
    roads.add_weighted_edges_from(arcs)
    yield distances(roads.to_directed().edges(data="weight"), 0), networkx.single_source_dijkstra_path_length(roads, 0)


def by_igraph(arcs):
    import igraph

    graph = igraph.Graph(n=60, edges=[(tail, head) for tail, head, _ in arcs], directed=True)
    graph.es["weight"] = [weight for _, _, weight in arcs]
    row = graph.distances(0, weights="weight")[0]
    got = distances(((e.source, e.target, e["weight"]) for e in graph.es), 0)
    yield got, {vertex: cost for vertex, cost in enumerate(row) if cost != float("inf")}


def by_pandas(arcs):
    import pandas

    table = pandas.DataFrame(arcs, columns=["from", "to", "weight"])
    yield distances(table[["from", "to", "weight"]].itertuples(index=False), 0), dijkstra(arcs, 0)


recipes = {"networkx": by_networkx, "igraph": by_igraph, "pandas": by_pandas}
for seed in range(20):
    arcs = draw(seed, 60, 150)
    for got, wanted in recipes[sys.argv[1]](arcs):
        if got != wanted:
            print(f"graph {seed}: {got}, wanted {wanted}")
