"""The graph of the roads of a map, for osm_to_gr.py: its vertices, its arcs, and the lines of the files beside it."""

import math
from array import array
from bisect import bisect_left
from collections import namedtuple
from itertools import accumulate, chain, count, repeat
from math import asin, cos, radians, sin, sqrt
from operator import and_, mul

from osm_arcs import RoadArcs
from osm_parts import largest_part
from osm_turns import Rules, Turns
from processes import in_shares, in_turn

UNITS = {"metres": (1, False), "decimetres": (10, False), "seconds": (1, True), "deciseconds": (10, True)}
EARTH = 6371008.8  # the mean radius, in metres
ROADS, LINES = 4096, 1 << 16  # in a share of the work

# The text of a file: `make` gives the lines of some of so many things, and `rest` comes behind them.
Text = namedtuple("Text", "many make rest")


def encoded(texts):
    """The bytes of these texts, each piece by piece. They are begun at once, and have to be gone through in order."""

    def job(text):
        return text.many, lambda first, last: text.make(first, last).encode("utf-8", "surrogateescape"), LINES

    pieces = in_turn([job(text) for text in texts])
    return [chain(own, [text.rest.encode("utf-8", "surrogateescape")]) for own, text in zip(pieces, texts)]


def length(one, other):
    """The length of the great circle between two places, in metres (the haversine formula)."""
    (lat1, lon1), (lat2, lon2) = ([math.radians(x) for x in place] for place in (one, other))
    h = math.sin((lat2 - lat1) / 2) ** 2 + math.cos(lat1) * math.cos(lat2) * math.sin((lon2 - lon1) / 2) ** 2
    return 2 * EARTH * math.asin(math.sqrt(min(h, 1)))


class Spots:
    """The places of nodes, by their numbers, for the formula of `length`."""

    def __init__(self, latitudes, longitudes):
        self.latitudes, self.longitudes = latitudes, longitudes

    def lengths(self, nodes):
        """The metres from each of these nodes to the next one, nan if one of both is not known."""
        latitudes = [*map(radians, map(self.latitudes.__getitem__, nodes))]
        places = [*zip(latitudes, map(radians, map(self.longitudes.__getitem__, nodes)), map(cos, latitudes))]
        return [
            2 * EARTH * asin(sqrt(1 if h > 1 else h))
            for (lat1, lon1, cos1), (lat2, lon2, cos2) in zip(places, places[1:])
            for h in (sin((lat2 - lat1) / 2) ** 2 + cos1 * cos2 * sin((lon2 - lon1) / 2) ** 2,)
        ]


def alternate(ones, others):
    """The first of each list, the second of each, and so on."""
    return chain.from_iterable(zip(ones, others))


class Arcs:
    """Arcs of roads, one after the other."""

    def __init__(self):
        # Of each arc the road by its place, the nodes by their numbers, and the weight.
        self.roads, self.tails, self.heads, self.weights = array("I"), array("I"), array("I"), array("Q")
        # Of a joined graph the nodes between the ends of each arc, and how many these are.
        self.inner, self.inner_counts = array("I"), array("I")
        self.counts = array("I")  # of each road the number of its arcs

    def add(self, number, road, one, other, weight, inner):
        """Adds the arcs of a road between two nodes, with the nodes between."""
        for is_open, tail, head, step in ((road.forward, one, other, 1), (road.back, other, one, -1)):
            if is_open:
                self.roads.append(number)
                self.tails.append(tail)
                self.heads.append(head)
                self.weights.append(weight)
                self.inner.extend(inner[::step])
                self.inner_counts.append(len(inner))

    def add_pieces(self, number, road, ones, others, weights):
        """Adds the arcs of a road between neighbours."""
        if road.forward and road.back:
            weights = list(alternate(weights, weights))
            ones, others = list(alternate(ones, others)), alternate(others, ones)
        elif road.back:
            ones, others = others, ones
        self.tails.extend(ones)
        self.heads.extend(others)
        self.weights.extend(weights)
        self.roads.extend(repeat(number, len(weights)))

    def take(self, others):
        for name, column in vars(others).items():
            getattr(self, name).extend(column)


def kept_nodes(found, latitudes):
    """Of each node if it is a vertex of a joined graph, as bytes.

    These are the ends of roads, nodes that roads name twice or barriers close, and nodes beside one that is not known.
    Of a line that leads back to its beginning two more are, and of lines with the same ends one of each.
    """
    kept, is_named, refs = bytearray(len(latitudes)), bytearray(len(latitudes)), found.refs
    for node in refs:
        if is_named[node]:
            kept[node] = 1
        is_named[node] = 1
    for node in found.closed_nodes():
        kept[node] = 1
    at = 0
    for road in found.roads:
        own = refs[at : at + road.size]
        for node in own[:1] + own[-1:]:
            kept[node] = 1
        for one, other in zip(own, own[1:]):
            if math.isnan(latitudes[one]) or math.isnan(latitudes[other]):
                kept[one] = kept[other] = 1
        at += road.size
    keep_apart(found, kept)
    return kept


def keep_apart(found, kept):
    """Keeps nodes within lines that lead back to their beginning, and within those that have the same ends."""
    lines, at = {}, 0
    for road in found.roads:
        begin = at
        for i in range(at + 1, at + road.size):
            if kept[found.refs[i]]:
                ends = found.refs[begin], found.refs[i]
                lines.setdefault((min(ends), max(ends)), []).append((begin, i))
                begin = i
        at += road.size
    for (one, other), places in lines.items():
        for begin, end in places:
            inner = end - begin - 1
            if inner and one == other:
                kept[found.refs[begin + 1 + inner // 3]] = kept[found.refs[begin + 1 + 2 * inner // 3]] = 1
            elif inner and len(places) > 1:
                kept[found.refs[begin + 1 + inner // 2]] = 1


class Graph:
    """The graph of a map. Its vertices are the nodes that arcs join, and then those that keep turns and barriers."""

    def __init__(self, found, unit, price=None, is_joined=False):
        """`price` is what turning round costs, in seconds, or None if it is left out where the way on is open.

        If the graph is joined, nodes at which a road only goes on are no vertices.
        """
        self.found, self.unit = found, unit
        self.latitudes, self.longitudes = found.places()
        self.lacking = sum(map(math.isnan, self.latitudes))
        self.settle_durations()
        # Where the nodes of each road begin in their list; the last number is behind the last.
        self.begins = array("Q", accumulate((road.size for road in found.roads), initial=0))
        self.kept = kept_nodes(found, self.latitudes) if is_joined else None
        self.arcs = Arcs()
        road_arcs = RoadArcs(self)
        shares = self.arc_shares()
        if found.restrictions or found.closed:
            road_arcs.find_stands()  # as other processes make the arcs
        for arcs in shares:
            self.arcs.take(arcs)
        # So too the arcs of each road, and the inner nodes of each arc.
        self.arcs_at = array("Q", accumulate(self.arcs.counts, initial=0))
        self.inner_at = array("Q", accumulate(self.arcs.inner_counts, initial=0))
        has_arcs = bytearray(len(self.latitudes))
        for node in chain(self.arcs.tails, self.arcs.heads):
            has_arcs[node] = 1
        # By the numbers of nodes; 0 where no arc joins one.
        self.vertices = array("I", map(mul, accumulate(has_arcs), has_arcs))
        self.own_count = sum(has_arcs)
        self.added_at = len(self.vertices) - self.own_count - 1  # what `all_ends` adds to added vertices
        self.turns = Turns(self.vertices, self.own_count)
        self.turns.settle(self.rules(price), found, road_arcs)
        self.many = len(self.arcs.tails) + self.turns.many()
        self.split = sorted(self.turns.tails)  # the arcs that stand in the graph more than once
        self.bent = sorted(self.turns.heads)  # those that end beside the vertex of their node

    def rules(self, price):
        """What turns cost, in weights."""
        scale, _ = UNITS[self.unit]
        costs = self.found.profile.turn_costs if self.found.restrictions else []
        by_angle = [(cost.least, cost.most, round(cost.seconds * scale)) for cost in costs]
        return Rules(self.place, None if price is None else round(price * scale), by_angle)

    def place(self, node):
        return self.latitudes[node], self.longitudes[node]

    def settle_durations(self):
        """Gives roads that say how long they take the speed for it, if all of their nodes are known."""
        at, refs = 0, self.found.refs
        for number, road in enumerate(self.found.roads):
            if road.seconds:
                places = [self.place(node) for node in refs[at : at + road.size]]
                metres = sum(map(length, places, places[1:]))
                if metres > 0:  # and no nan
                    self.found.roads[number] = road._replace(speed=metres / road.seconds * 3.6)
            at += road.size

    def arc_shares(self):
        """The arcs of all roads from node to node whose places are known, in shares."""
        spots, begins = Spots(self.latitudes, self.longitudes), self.begins

        def arcs_of(first, last):
            found, own = Arcs(), self.found.refs[begins[first] : begins[last]]
            # Between roads, too, which is left out.
            lengths, at = spots.lengths(own), 0
            for number in range(first, last):
                end = at + self.found.roads[number].size
                pieces = zip(lengths[at:end], own[at:end], own[at + 1 : end])
                self.add_road(found, number, [each for each in pieces if each[1] != each[2] and each[0] == each[0]])
                at = end
            return found

        return in_shares(len(self.found.roads), arcs_of, ROADS)

    def add_road(self, arcs, number, pieces):
        """Adds the arcs of a road to others, of pieces between neighbours that differ, as (metres, node, node)."""
        road = self.found.roads[number]
        scale, is_time = UNITS[self.unit]
        pace = road.speed / 3.6 if is_time else 1
        weights = [
            round(exact * scale * road.factor / pace) or int(self.place(one) != self.place(other))
            for exact, one, other in pieces
        ]
        many = len(arcs.tails)
        if self.kept:
            self.add_joined(arcs, number, pieces, weights)
        else:
            arcs.add_pieces(number, road, [one for _, one, _ in pieces], [other for _, _, other in pieces], weights)
        arcs.counts.append(len(arcs.tails) - many)

    def add_joined(self, arcs, number, pieces, weights):
        """Adds the arcs of a road between nodes that are kept."""
        begin, inner, cost = None, [], 0
        for (_, one, other), weight in zip(pieces, weights):
            begin, cost = one if begin is None else begin, cost + weight
            if not self.kept[other]:
                inner.append(other)
                continue
            arcs.add(number, self.found.roads[number], begin, other, cost, inner)
            begin, inner, cost = None, [], 0

    def arc_ends(self, first, last):
        """Where arcs begin, at the vertices that their nodes have anyway, and where they end, in order."""
        nodes = self.arcs.tails[first:last], self.arcs.heads[first:last]
        begins, ends = (array("I", map(self.vertices.__getitem__, each)) for each in nodes)
        for number in self.bent[bisect_left(self.bent, first) : bisect_left(self.bent, last)]:
            ends[number - first] = self.turns.heads[number]
        return begins, ends

    def arc_text(self, lines_of, more, rest):
        """The text of all arcs of roads, and behind an arc that of the arcs made of it.

        `lines_of` gives the lines of the arcs from a first to one behind the last, and `more` those behind an arc, by
        its number and its line.
        """

        def text(first, last):
            lines = lines_of(first, last)
            for number in self.split[bisect_left(self.split, first) : bisect_left(self.split, last)]:
                lines[number - first] += more(number, lines[number - first])
            return "".join(lines)

        return Text(len(self.arcs.tails), text, rest)

    def line_text(self):
        """Of each arc the latitudes and longitudes of the nodes between its ends."""

        def lines_of(first, last):
            lines = []
            for begin, end in zip(self.inner_at[first:last], self.inner_at[first + 1 : last + 1]):
                inner = self.arcs.inner[begin:end]
                lines.append(" ".join([f"{self.latitudes[i]} {self.longitudes[i]}" for i in inner]) + "\n")
            return lines

        return self.arc_text(lines_of, self.again, "\n" * len(self.turns.closing))

    def again(self, number, line):
        """The line of an arc, for each arc made of it."""
        return line * len(self.turns.tails[number])

    def text(self):
        weights, turns = self.arcs.weights, self.turns

        def lines_of(first, last):
            columns = zip(*self.arc_ends(first, last), weights[first:last])
            return [f"a {tail} {head} {weight}\n" for tail, head, weight in columns]

        def more(number, _):
            return "".join(f"a {tail} {end} {weights[number] + cost}\n" for tail, cost, end in turns.tails[number])

        return self.arc_text(lines_of, more, "".join(f"a {tail} {head} 0\n" for tail, head in turns.closing))

    def way_text(self):
        texts, roads = [f"{road.way}\t{road.name}\n" for road in self.found.roads], self.arcs.roads

        def lines_of(first, last):
            return [*map(texts.__getitem__, roads[first:last])]

        return self.arc_text(lines_of, self.again, "0\t\n" * len(self.turns.closing))

    def node_columns(self):
        """The numbers of all nodes in the map, their latitudes and longitudes, and their vertices."""
        return array("q", self.found.numbers), self.latitudes, self.longitudes, self.vertices

    def node_text(self):
        nodes, latitudes, longitudes, _ = columns = self.node_columns()

        def text(first, last):
            parts = zip(*(column[first:last] for column in columns))
            return "".join([f"{node} {north} {east}\n" for node, north, east, vertex in parts if vertex])

        rest = [f"{nodes[i]} {latitudes[i]} {longitudes[i]}\n" for i in self.turns.nodes]
        return Text(len(nodes), text, "".join(rest))

    def all_ends(self):
        """Where all arcs of the graph begin and end, by the numbers of nodes, behind which added vertices follow."""
        turns, tails, heads, vertices = self.turns, self.arcs.tails[:], self.arcs.heads[:], self.vertices
        for number, head in turns.heads.items():
            heads[number] = head + self.added_at
        for number, more in turns.tails.items():
            node = self.arcs.heads[number]
            tails.extend([begin + self.added_at for begin, _, _ in more])
            heads.extend([node if end == vertices[node] else end + self.added_at for _, _, end in more])
        for begin, end in turns.closing:
            node = turns.nodes[end - self.own_count - 1]
            tails.append(node if begin == vertices[node] else begin + self.added_at)
            heads.append(end + self.added_at)
        return tails, heads

    def joined(self):
        """Of each node, by its number, whether a route leads from it to the largest part, and one back."""
        count = len(self.vertices)
        leads_there, is_reached = largest_part(count + len(self.turns.nodes), self.all_ends)
        found = bytearray(map(and_, leads_there[:count], is_reached[:count]))
        for node, end in self.turns.ends.items():
            found[node] = leads_there[node] & is_reached[end + self.added_at]
        return found

    def place_text(self, joined):
        columns, ends = self.node_columns(), self.turns.ends

        def text(first, last):
            parts = [column[first:last] for column in columns]
            return "".join([
                f"{node} {latitude} {longitude} {start} {ends.get(i, start)} {'yes' if joined[i] else 'no'}\n"
                for i, node, latitude, longitude, start in zip(count(first), *parts)
                if start
            ])

        return Text(len(self.vertices), text, "")
