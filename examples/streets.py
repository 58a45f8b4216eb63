"""The streets of a map that osm_to_gr.py wrote: the nearest place on one, and routes from such a place to another.

A place on a street lies on the line between two nodes. One leaves it along the arcs of that line, and comes to it along
them, at a share of their weights. So a route between two such places is the cheapest of a few pairs of vertices, each
with both shares. At a node itself a route begins and ends as in the file of places.
"""

import math
from array import array
from collections import namedtuple
from itertools import repeat

from nearest import EARTH, length
from to_gr import Refused

CELL = 0.002  # degrees of a cell of the index
RINGS = 40  # cells around a place at most, before all streets are looked at

# One way to leave a place, or to come to it: by which vertex, at what cost, and along which arc. `share` is where the
# place is on the arc. At a node there is no arc.
Leg = namedtuple("Leg", "vertex cost arc share")
Spot = namedtuple("Spot", "place metres nodes starts ends")
# A part of a route: along which arc, through which places, and what it costs.
Piece = namedtuple("Piece", "arc places cost")
Route = namedtuple("Route", "pieces cost")


def between(one, other, share):
    """The place at a share of the line from one place to another."""
    return tuple(here + (there - here) * share for here, there in zip(one, other))


def share_of(here, one, other):
    """How many metres a line between two places is away from `here`, and where on it the nearest is, from 0 to 1."""
    narrow = math.cos(math.radians(here[0]))
    (y1, x1), (y2, x2) = (
        (math.radians(place[0] - here[0]), math.radians(math.remainder(place[1] - here[1], 360)) * narrow)
        for place in (one, other)
    )
    along, up = x2 - x1, y2 - y1
    size = along * along + up * up
    share = min(max(-(x1 * along + y1 * up) / size, 0), 1) if size else 0
    return math.hypot(x1 + along * share, y1 + up * share) * EARTH, share


def shares(line):
    """Where each place of a line is on it, from 0 to 1 by length."""
    sums = [0.0]
    for one, other in zip(line, line[1:]):
        sums.append(sums[-1] + length(one, other))
    return [each / sums[-1] for each in sums] if sums[-1] else [0.0] * (len(line) - 1) + [1.0]


def cut(line, begin, end):
    """The part of a line from one share of it to another."""
    at = shares(line)
    inner = [place for place, share in zip(line, at) if begin < share < end]
    return [place_at(line, at, begin), *inner, place_at(line, at, end)]


def place_at(line, at, share):
    """The place at a share of a line, whose places are at these shares."""
    if share <= 0 or share >= 1:
        return line[0] if share <= 0 else line[-1]
    number = next(i for i, each in enumerate(at) if each >= share)
    before, after = at[number - 1], at[number]
    return between(line[number - 1], line[number], (share - before) / (after - before))


class Streets:
    """The arcs of a graph by the lines between nodes on which they are."""

    def __init__(self, arcs, nodes, places, inner=None):
        """`arcs` are those of the graph in its order, and `places` the lines of the file of places.

        Of a joined graph `inner` has the places between the ends of each arc.
        """
        self.nodes, self.inner = nodes, {}  # the places within lines, from the tail of their first arc, by pairs
        self.tails, self.heads, self.weights = array("I"), array("I"), array("Q")
        self.lines, self.cells = {}, {}  # arcs by pairs of nodes, and pairs by cells
        self.closed, self.own_weights = frozenset(), None  # lines that are closed for now; weights without factors
        self.ends = {}  # of a node the vertices where routes begin and end, and if it is joined
        for text in places.texts:
            node, _, _, start, end, word = text.split()
            self.ends[int(node)] = int(start), int(end), word == "yes"
        for (tail, head, weight), own in zip(arcs, repeat(()) if inner is None else inner):
            self.add_arc(tail, head, weight, own)
        self.index()

    def add_arc(self, tail, head, weight, inner):
        pair = self.nodes.number(tail), self.nodes.number(head)
        if pair[0] != pair[1]:
            pair = min(pair), max(pair)
            if inner and pair not in self.lines:
                self.inner[pair] = inner
            self.lines.setdefault(pair, array("I")).append(len(self.tails))
        self.tails.append(tail)
        self.heads.append(head)
        self.weights.append(weight)

    def index(self):
        """Puts the arcs that leave each vertex side by side, and each line into the cells that it may touch."""
        self.begins = array("Q", [0]) * (len(self.nodes.numbers) + 2)
        for tail in self.tails:
            self.begins[tail + 1] += 1
        for vertex in range(len(self.nodes.numbers) + 1):
            self.begins[vertex + 1] += self.begins[vertex]
        at, self.row = self.begins[:], array("I", [0]) * len(self.tails)
        for number, tail in enumerate(self.tails):
            self.row[at[tail]] = number
            at[tail] += 1
        for pair, numbers in self.lines.items():
            line = self.line(pair)
            for cell in {cell for places in zip(line, line[1:]) for cell in cells_of(*places)}:
                self.cells.setdefault(cell, []).append(pair)

    def line(self, pair):
        """The places of a line, from the tail of its first arc to the head."""
        first = self.lines[pair][0]
        return [self.nodes.place(self.tails[first]), *self.inner.get(pair, ()), self.nodes.place(self.heads[first])]

    def line_of(self, arc):
        """The places of an arc, from its tail to its head."""
        tail, head = self.nodes.number(self.tails[arc]), self.nodes.number(self.heads[arc])
        pair = min(tail, head), max(tail, head)
        line = self.line(pair)
        return line if self.nodes.number(self.tails[self.lines[pair][0]]) == tail else line[::-1]

    def around(self, places):
        """The lines near some places."""
        (south, north), (west, east) = ((min(each), max(each)) for each in zip(*places))
        high, wide = north - south + 1e-3, east - west + 1e-3
        for pair in self.lines:
            line = self.line(pair)
            if any(south - high < y < north + high and west - wide < x < east + wide for y, x in (line[0], line[-1])):
                yield line

    def arcs_of(self, pair, factor):
        """The arcs on a line as (tail, head, weight), whose vertices count from 0."""
        weights = self.own_weights or self.weights
        for number in self.lines[pair]:
            yield self.tails[number] - 1, self.heads[number] - 1, min(round(weights[number] * factor), 4294967295)

    def change(self, factors):
        """Closes the lines with the factor 0, and multiplies the weights of others."""
        if self.own_weights is None:
            self.own_weights = self.weights[:]
        weights = self.weights[:]
        for pair, factor in factors.items():
            for number, (_, _, weight) in zip(self.lines[pair], self.arcs_of(pair, factor or 1)):
                weights[number] = weight
        closed = {pair for pair, factor in factors.items() if factor == 0}
        # Questions of other threads see the ones or the others.
        self.weights, self.closed = weights, frozenset((self.closed - factors.keys()) | closed)

    def is_joined(self, pair):
        return all(self.ends.get(node, (0, 0, False))[2] for node in pair)

    def near_lines(self, here):
        """The lines around a place, ring of cells by ring, each with the metres that the next are away at least."""
        north, east = cell_of(here)
        metres = math.radians(CELL) * EARTH * max(math.cos(math.radians(here[0])), 0.01)
        for ring in range(RINGS):
            for cell in ring_of(north, east, ring):
                for pair in self.cells.get(cell, ()):
                    yield pair, (ring - 1) * metres
        for pair in self.lines:
            yield pair, 0

    def nearest_line(self, here, is_any, is_closed_too=False):
        """The nearest line that is open, as (metres, pair, share from its first arc's tail); None if there is none."""
        best, seen = None, set() if is_closed_too else set(self.closed)
        for pair, least in self.near_lines(here):
            if best and least > best[0]:
                break
            if pair in seen or not (is_any or self.is_joined(pair)):
                continue
            seen.add(pair)
            line = self.line(pair)
            # On each stretch of the line how far the nearest place is, and where.
            metres, share, number = min(
                (*share_of(here, *places), number) for number, places in enumerate(zip(line, line[1:]))
            )
            if best is None or metres < best[0]:
                at = shares(line) if len(line) > 2 else (0, 1)
                best = metres, pair, at[number] + (at[number + 1] - at[number]) * share
        return best

    def nearest(self, here, is_any=False):
        """The nearest place on a street, of those that are joined if not any will do; None if there is none."""
        found = self.nearest_line(here, is_any)
        if found is None:
            return None
        metres, pair, share = found
        line, first = self.line(pair), self.lines[pair][0]
        place = place_at(line, shares(line), share)
        if share in (0, 1):
            node = self.nodes.number(self.heads[first] if share else self.tails[first])
            start, end, _ = self.ends[node]
            return Spot(place, metres, (node,), [Leg(start, 0, None, 0)], [Leg(end, 0, None, 0)])
        return Spot(place, metres, pair, *self.legs(pair, share))

    def legs(self, pair, share):
        """The ways to leave a place on a line, and to come to it."""
        starts, ends = {}, []
        first = self.nodes.number(self.tails[self.lines[pair][0]])
        for number in self.lines[pair]:
            tail, head, weight = self.tails[number], self.heads[number], self.weights[number]
            part = share if self.nodes.number(tail) == first else 1 - share
            least = min(self.weights[other] for other in self.lines[pair] if self.heads[other] == head)
            # What an arc weighs more than another to the same vertex is the price of a turn before it.
            ends.append(Leg(tail, round(least * part) + weight - least, number, part))
            starts.setdefault(head, Leg(head, round(least * (1 - part)), number, part))
        return list(starts.values()), ends

    def direct(self, start, end):
        """The route between two places that lie on one line in the order of an arc; None if there is none."""
        best = None
        for leave in start.starts:
            for come in end.ends:
                if None in (leave.arc, come.arc) or self.heads[leave.arc] != self.heads[come.arc]:
                    continue
                cost = round(self.weights[leave.arc] * (come.share - leave.share))
                is_along = start.nodes == end.nodes and come.share >= leave.share
                if is_along and (best is None or cost < best.cost):
                    best = Route([Piece(leave.arc, cut(self.line_of(leave.arc), leave.share, come.share), cost)], cost)
        return best

    def costs(self, graph, hollowbowl, starts, ends):
        """The least cost from each of some places to each of others, None if no route leads there, by (row, column)."""
        leave = list(dict.fromkeys(leg.vertex for spot in starts for leg in spot.starts))
        come = list(dict.fromkeys(leg.vertex for spot in ends for leg in spot.ends))
        rows = graph.matrix([vertex - 1 for vertex in leave], [vertex - 1 for vertex in come])
        costs = {}
        for vertex, row in zip(leave, rows):
            for other, cost in zip(come, row):
                costs[vertex, other] = None if cost == hollowbowl.INF else int(cost)
        return [[self.least(costs, start, end) for end in ends] for start in starts]

    def least(self, costs, start, end):
        """The least cost between two places and its legs, by the costs between vertices; None if there is none."""
        best = None
        for leave in start.starts:
            for come in end.ends:
                cost = costs[leave.vertex, come.vertex]
                if cost is not None and (best is None or leave.cost + cost + come.cost < best[0]):
                    best = leave.cost + cost + come.cost, leave, come
        straight = self.direct(start, end)
        if straight and (best is None or straight.cost <= best[0]):
            best = straight.cost, None, None
        return best

    def route(self, graph, hollowbowl, start, end):
        """The cheapest route between two places, or None if there is none."""
        found = self.costs(graph, hollowbowl, [start], [end])[0][0]
        return found and self.route_by(graph, hollowbowl, (start, end), found)

    def route_by(self, graph, hollowbowl, ends, found):
        """The route between two places whose least cost and legs were found; None if a road was closed meanwhile."""
        cost, leave, come = found
        if leave is None:
            return self.direct(*ends)
        try:
            path = graph.path(leave.vertex - 1, come.vertex - 1)
        except hollowbowl.NoPath:
            return None
        arcs = [self.cheapest(tail + 1, head + 1) for tail, head in zip(path, path[1:])]
        # Arcs of no way join the vertices of one node.
        pieces = [Piece(arc, self.line_of(arc), self.weights[arc]) for arc in arcs if not self.is_inside(arc)]
        if leave.arc is not None:
            pieces.insert(0, Piece(leave.arc, cut(self.line_of(leave.arc), leave.share, 1), leave.cost))
        if come.arc is not None:
            pieces.append(Piece(come.arc, cut(self.line_of(come.arc), 0, come.share), come.cost))
        return Route(pieces, cost)

    def is_inside(self, number):
        return self.nodes.number(self.tails[number]) == self.nodes.number(self.heads[number])

    def cheapest(self, tail, head):
        """The cheapest arc between two vertices."""
        row = self.row[self.begins[tail] : self.begins[tail + 1]]
        return min((each for each in row if self.heads[each] == head), key=lambda each: self.weights[each])

    def within(self, graph, spot, limit):
        """The costs of the vertices that are reached from a place within a limit."""
        found = {}
        for leg in spot.starts:
            if leg.cost > limit:
                continue
            vertices, costs = graph.within(leg.vertex - 1, limit - leg.cost)
            for vertex, cost in zip(vertices, costs):
                vertex, cost = int(vertex) + 1, int(cost) + leg.cost
                found[vertex] = min(cost, found.get(vertex, cost))
        return found


def cells_of(one, other):
    """The cells along the line between two places."""
    steps = 1 + int(max(abs(here - there) for here, there in zip(one, other)) / CELL * 2)
    return {cell_of(between(one, other, step / steps)) for step in range(steps + 1)}


def cell_of(place):
    return math.floor(place[0] / CELL), math.floor(place[1] / CELL)


def ring_of(north, east, ring):
    """The cells that are so many away from one."""
    if ring == 0:
        return [(north, east)]
    sides = range(-ring, ring + 1)
    flat = [(north + up, east + along) for up in (-ring, ring) for along in sides]
    return flat + [(north + up, east + along) for along in (-ring, ring) for up in sides[1:-1]]


def read_streets(graph, nodes, places, arcs, inner=None):
    """The streets of a graph; Refused if a line of it joins no place that the file of places has."""
    found = Streets(arcs, nodes, places, inner)
    for pair in found.lines:
        for node in pair:
            if node not in found.ends:
                raise Refused(f"the file of places has no node {node}, which {graph} joins to others")
    return found
