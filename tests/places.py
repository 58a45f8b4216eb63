#!/usr/bin/env python3
"""Compares routes between places on streets, as examples/streets.py finds them, with a search from arc to arc.

places.py [MANY] draws MANY maps, 100 where none is given, with places around them, and prints the first difference: in
the nearest place on a line, or in the cost of the route between two, with turn restrictions, turning round and prices,
of joined graphs and others.
"""

import os
import random
import sys
import tempfile

sys.dont_write_bytecode = True
import turns  # it says where the examples are
from map_files import Nodes, graph_arcs, inner_places
from nearest import Places
from streets import Streets
from to_gr import Refused

NONE = 1 << 62


class Program:
    """What the program answers of a graph, by a search of its own. Vertices count from 0."""

    INF = NONE

    def __init__(self, written):
        self.written = written

    def matrix(self, sources, targets):
        for source in sources:
            costs = self.written.costs(source + 1)
            yield [costs.get(target + 1, NONE) for target in targets]


def on_line(here, one, other):
    """The share of the nearest place on a line and how far it is, by trying many places of it."""
    ends, least = (0.0, 1.0), None
    for _ in range(6):
        low, high = ends
        tries = [low + (high - low) * i / 20 for i in range(21)]
        at = [tuple(x + (y - x) * share for x, y in zip(one, other)) for share in tries]
        least = min(zip((turns.metres(here, place) for place in at), tries))
        ends = max(least[1] - (high - low) / 20, 0), min(least[1] + (high - low) / 20, 1)
    return least[1], least[0]


class Place:
    """A place on a street of a model: the arcs on its line, each with the share of it, or a node."""

    def __init__(self, model, spot, drawn):
        self.shares = {}
        near = [node for arc in model.arcs for node in arc[2:4] if turns.metres(spot.place, drawn.places[node]) < 0.001]
        self.node = near[0] if near else None
        for i, (_, _, tail, head, _) in enumerate(model.arcs):
            one, other = drawn.places[tail], drawn.places[head]
            axis = 0 if abs(other[0] - one[0]) > abs(other[1] - one[1]) else 1
            share = (spot.place[axis] - one[axis]) / (other[axis] - one[axis])
            there = [x + (y - x) * share for x, y in zip(one, other)]
            if self.node is None and 0 <= share <= 1 and turns.metres(spot.place, there) < 0.001:
                self.shares[i] = share

    def queue(self, model):
        """What a search begins with that leaves the place."""
        if self.node is not None:
            return [(arc[4], i) for i, arc in enumerate(model.arcs) if arc[2] == self.node]
        return [(round(model.arcs[i][4] * (1 - share)), i) for i, share in self.shares.items()]


def wanted_cost(model, successors, start, end):
    """The least cost from a place to another, or None."""
    best = model.search(start.queue(model), successors)
    found = []
    if end.node is not None:
        found = [cost for come, cost in best.items() if model.arcs[come[-1]][3] == end.node]
        found += [0] * (start.node == end.node)
    for i, share in end.shares.items():
        part = round(model.arcs[i][4] * share)
        found += [best[come] + more + part for come in best for j, more in successors(come) if j == i]
        if start.node == model.arcs[i][2]:
            found.append(part)
        if start.shares.get(i, 2) <= share:
            found.append(round(model.arcs[i][4] * (share - start.shares[i])))
    return min(found, default=None)


def check(chance, folder, drawn, price, words):
    """Compares some places and routes, and gives how many of them are in the midst of a line."""
    name = os.path.join(folder, "map.osm")
    with open(name, "w", encoding="utf-8") as out:
        out.write(drawn.text(chance))
    model = turns.Model(drawn, 10 * 3.6 / 30)
    if not model.arcs:
        return 0
    written = turns.Written(name, *words, unit="deciseconds", to=os.path.join(folder, "written"))
    with open(os.path.join(folder, "graph"), "w", encoding="ascii") as out:
        out.writelines(f"a {tail} {head} {weight}\n" for tail, head, weight in written.arcs)
    nodes = Nodes(os.path.join(folder, "written.nodes"), len(written.vertices) - 1)
    inner = inner_places(os.path.join(folder, "written.lines")) if "--join" in words else None
    streets = Streets(graph_arcs(os.path.join(folder, "graph")), nodes, Places(written.places_file), inner)
    successors = model.successors(price, "--turns" not in words)
    spots = []
    for _ in range(6):
        here = (50 + chance.uniform(-0.005, 0.025), 8 + chance.uniform(-0.005, 0.025))
        spots.append(streets.nearest(here, True))
        lines = [(drawn.places[arc[2]], drawn.places[arc[3]]) for arc in model.arcs if arc[2] != arc[3]]
        least = min(on_line(here, *line)[1] for line in lines)
        if abs(spots[-1].metres - least) > 0.01 + least * 1e-4:
            raise AssertionError(f"nearest to {here}: {spots[-1].metres} m, wanted {least}")
    places = [Place(model, spot, drawn) for spot in spots]
    for start, row in zip(places, streets.costs(Program(written), Program, spots, spots)):
        for end, cell in zip(places, row):
            wanted = wanted_cost(model, successors, start, end)
            found = None if cell is None else cell[0]
            # Shares of a line of several pieces are rounded once.
            most = 5 if "--join" in words else 1
            if found != wanted and (None in (found, wanted) or abs(found - wanted) > most):
                raise AssertionError(f"from {start.__dict__} to {end.__dict__}: {found}, wanted {wanted}")
    return sum(place.node is None for place in places)


def main():
    many = int(sys.argv[1]) if len(sys.argv) > 1 else 100
    midst = 0
    with tempfile.TemporaryDirectory() as folder:
        for seed in range(many):
            chance = random.Random(seed)
            drawn = turns.Drawn(chance)
            # No two nodes at one place: then the nearest line is one.
            for place in drawn.places.values():
                place[:] = [x + chance.uniform(0, 1e-3) for x in place]
            # In a joined graph one turns round at vertices alone, at whatever price.
            price = chance.choice([None, None, 0, 50])
            words = ["--turns"] + (["--join"] if price is None else ["--uturns", str(price / 10)])
            words = words if chance.random() < 0.8 else chance.choice([[], ["--join"]])
            try:
                midst += check(chance, folder, drawn, price, words)
            except (AssertionError, Refused) as fault:
                print(f"map {seed}: {fault!r}"[:3000])
                return
    if midst < many:
        print(f"{midst} places in the midst of a street only")


if __name__ == "__main__":
    main()
