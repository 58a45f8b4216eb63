#!/usr/bin/env python3
"""Compares graphs that osm_to_gr.py makes of random maps, with --turns and without, with what the maps mean.

turns.py [MANY] draws MANY maps, 200 where none is given, with turn restrictions right and wrong, and prints the first
difference. The least cost of each pair of nodes is compared with that of a search from arc to arc of the map: without
--turns, with it, and with a price of turning round. So are each arc's way and name, which places are joined, how many
restrictions are kept, and the nearest places.
"""

import contextlib
import functools
import heapq
import io
import itertools
import math
import os
import random
import sys
import tempfile
from xml.sax.saxutils import quoteattr

sys.dont_write_bytecode = True
sys.path.insert(0, os.path.join(os.path.dirname(os.path.abspath(__file__)), "..", "examples"))
import nearest
import osm_to_gr
import to_gr

NAMES = ["", "Elm Street", "大阪通り", "A\tB", " Mill\nLane ", "C\rD", '"&<'] + ["Main Street"] * 3
KINDS = ["no_left_turn", "no_right_turn", "no_straight_on", "no_u_turn", "only_straight_on", "only_left_turn"] * 3
KINDS += ["no_entry", "no_exit", "give_way"]
# Tags beside the value that make a restriction another one, or none of a car.
BESIDE = [{}] * 12 + [
    {"except": "bus; motorcar"}, {"except": "psv"}, {"day_on": "Monday"}, {"restriction:motorcar": "none"},
    {"restriction:motor_vehicle": "only_right_turn"}, {"restriction:hgv": "no_u_turn"},
]
INSTEAD = [{"restriction:conditional": "no_u_turn @ (Mo-Fr)"}, {"restriction:hgv": "no_u_turn"}]


class Drawn:
    """A random map of a few nodes: `places` by node, `ways` as (way, name, nodes, oneway), and restrictions."""

    def __init__(self, chance):
        # Few digits, so that places can be the same.
        digits = chance.choice([2, 3])
        nodes = chance.sample(range(1, 1000), chance.randrange(3, 9))
        self.places = {node: [first + round(chance.random() / 50, digits) for first in (50, 8)] for node in nodes}
        numbers = chance.sample(range(1, 1000), len(nodes) + chance.choice([0, 1, 2, 4, 8]))
        bend = chance.choice([0, 0.3, 0.5])
        self.ways = [self.draw_way(chance, number, nodes, at, bend) for at, number in enumerate(numbers)]
        if chance.random() < 0.2:
            self.places.pop(chance.choice(nodes))
        # Most stand at two nodes, so that several meet.
        nodes = chance.sample(nodes, 2) * 3 + nodes
        self.relations = [self.draw_restriction(chance, nodes) for _ in range(chance.randrange(1, 20))]

    def draw_way(self, chance, number, nodes, at, bend):
        """A way between neighbours of a list, so that routes have several arcs; a node can come twice.

        `bend` is the chance of a node of its own between two of them, so that streets have nodes of two arms.
        """
        at = [at % len(nodes)]
        for _ in range(chance.choice([1, 1, 1, 1, 1, 3])):
            at.append((at[-1] + chance.choice([1, 1, 1, 1, 1, 2, 2, -1, 0])) % len(nodes))
        refs = [nodes[at[0]]]
        for i in at[1:]:
            while chance.random() < bend and self.places.get(nodes[i]):
                refs.append(1000 + len(self.places))
                self.places[refs[-1]] = [x + round(chance.random() / 500, 3) for x in self.places[nodes[i]]]
            refs.append(nodes[i])
        highway = "footway" if chance.random() < 0.1 else "residential"
        return number, chance.choice(NAMES), refs, chance.choice(["no", "no", "yes", "-1"]), highway

    def draw_long(self, chance):
        """The tags and the members of a restriction with one way as via or two, mostly between ways at its ends."""
        ends = {way[0]: (way[2][0], way[2][-1]) for way in self.ways if way[4] != "footway"} or {1: (1, 2)}
        ways = [chance.choice([*ends])]
        one, other = ends[ways[0]] if chance.random() < 0.5 else ends[ways[0]][::-1]
        on = [way for way, own in ends.items() if other in own and way not in ways]
        if on and chance.random() < 0.4:
            ways.append(chance.choice(on))
            other = ends[ways[1]][ends[ways[1]][0] == other]
        near = [[way for way, own in ends.items() if end in own and way not in ways] or [*ends] for end in (one, other)]
        members = [("way", chance.choice(near[0]), "from"), ("way", chance.choice(near[1]), "to")]
        members += [("way", way, "via") for way in (ways if chance.random() < 0.7 else ways[::-1])]
        kind = chance.choice(["no_left_turn", "no_u_turn", "only_straight_on", "no_entry", "no_exit"])
        if kind in ("no_entry", "no_exit"):
            members.append(("way", chance.choice(near[kind == "no_exit"]), "from" if kind == "no_entry" else "to"))
        if chance.random() < 0.05:
            members.append(("node", one, "via"))
        chance.shuffle(members)
        return {"restriction": kind}, members

    def draw_restriction(self, chance, nodes):
        """The tags and the members of one, mostly at an end that two ways share."""
        if chance.random() < 0.4:
            return self.draw_long(chance)
        via = chance.choice(nodes)
        near = [way[0] for way in self.ways if via in (way[2][0], way[2][-1]) and way[4] != "footway"]
        if not near or chance.random() < 0.1:
            near = [way[0] for way in self.ways]
        tags = {"restriction": chance.choice(KINDS), **chance.choice(BESIDE)}
        if chance.random() < 0.05:
            tags = chance.choice(INSTEAD)
        members = [("way", chance.choice(near), "from"), ("node", via, "via"), ("way", chance.choice(near), "to")]
        if tags.get("restriction") in ("no_entry", "no_exit") or chance.random() < 0.05:
            members.append(("way", chance.choice(near), chance.choice(["from", "to"])))
        if chance.random() < 0.1:
            other = chance.choice([("way", near[0], "via"), ("node", via, "to"), ("way", 1000, "from")])
            members[chance.randrange(3)] = other
        return tags, members

    def text(self, chance):
        """The map as XML, its elements in any order."""
        elements = [f'<node id="{node}" lat="{place[0]}" lon="{place[1]}"/>' for node, place in self.places.items()]
        chance.shuffle(elements)
        ways, rest = [], []
        for number, name, refs, oneway, highway in self.ways:
            tags = {"highway": highway, "name": name, "oneway": oneway}
            body = "".join(f'<nd ref="{node}"/>' for node in refs)
            ways.append(f'<way id="{number}">{body}{tags_text(tags)}</way>')
        for number, (tags, members) in enumerate(self.relations, 1):
            body = "".join(f'<member type="{kind}" ref="{ref}" role="{role}"/>' for kind, ref, role in members)
            rest.append(f'<relation id="{number}">{body}{tags_text({"type": "restriction", **tags})}</relation>')
        parts = [elements, ways, rest]
        chance.shuffle(parts)
        return "\n".join(["<osm>", *parts[0], *parts[1], *parts[2], "</osm>"])


def tags_text(tags):
    escapes = {"\t": "&#9;", "\n": "&#10;", "\r": "&#13;"}
    return "".join(f"<tag k={quoteattr(key)} v={quoteattr(value, escapes)}/>" for key, value in tags.items())


def metres(one, other):
    """The length of the great circle, by the chord."""
    points = []
    for place in (one, other):
        lat, lon = map(math.radians, place)
        points.append((math.cos(lat) * math.cos(lon), math.cos(lat) * math.sin(lon), math.sin(lat)))
    return 2 * 6371008.8 * math.asin(min(1, math.dist(*points) / 2))


class Model:
    """What a map means: `arcs` as (way, name, tail, head, weight), and which may follow which."""

    vehicles = ("motorcar", "motor_vehicle", "vehicle")

    def __init__(self, drawn, scale=10):
        """`scale` is what a metre weighs."""
        self.arcs, self.scale = [], scale
        for number, name, refs, oneway, highway in drawn.ways:
            if highway == "residential":
                self.add_road(number, name, refs, oneway, drawn.places)
        self.roads = {way[0]: way[2] for way in drawn.ways if way[4] == "residential"}
        self.settle_bans(drawn)

    def settle_bans(self, drawn):
        self.known = drawn.places.keys()
        self.bans = [ban for ban in (self.ban(*relation) for relation in drawn.relations) if ban]
        # The arcs of each restriction with ways as via, behind the ways from which one comes.
        self.long_bans = [(sources, path) for _, sources, path, _ in self.bans if isinstance(path[0], tuple)]

    def add_road(self, number, name, refs, oneway, places):
        name = "".join(" " if letter in "\t\n\r" else letter for letter in name.strip())
        for tail, head in zip(refs, refs[1:]):
            if tail == head or tail not in places or head not in places:
                continue
            weight = max(round(self.scale * metres(places[tail], places[head])), int(places[tail] != places[head]))
            if oneway != "-1":
                self.arcs.append((number, name, tail, head, weight))
            if oneway != "yes":
                self.arcs.append((number, name, head, tail, weight))

    def ban(self, tags, members):
        """The ways from, the node and the ways to of a restriction for a car, and whether it commands; else None."""
        keys = [f"restriction:{vehicle}" for vehicle in self.vehicles] + ["restriction"]
        value = next((tags[key] for key in keys if key in tags), "")
        is_exempt = any(vehicle in tags.get("except", "") for vehicle in self.vehicles)
        if is_exempt or "day_on" in tags or value in ("none", "give_way", ""):
            return None
        sources = {ref for kind, ref, role in members if (kind, role) == ("way", "from")}
        vias = {ref for kind, ref, role in members if (kind, role) == ("node", "via")}
        targets = {ref for kind, ref, role in members if (kind, role) == ("way", "to")}
        between = [ref for kind, ref, role in members if (kind, role) == ("way", "via")]
        if not sources or not targets or len(vias) + bool(between) != 1:
            return None
        if len(sources) > 1 and value != "no_entry" or len(targets) > 1 and value != "no_exit":
            return None
        sources, targets = sources & self.roads.keys(), targets & self.roads.keys()
        if between:
            return self.long_ban(value.startswith("only"), sources, between, targets)
        return self.ban_of_roads(value.startswith("only"), sources, vias.pop(), targets)

    def long_ban(self, commands, sources, between, targets):
        """A restriction with ways as via, by each order and direction of these, if one alone fits."""
        if not sources or not targets or not self.roads.keys() >= {*between} or len({*between}) < len(between):
            return None
        if (sources | targets) & {*between}:
            return None
        fits = set()
        for ways in itertools.permutations(between):
            for turned in itertools.product((1, -1), repeat=len(ways)):
                lines = [self.roads[way][::step] for way, step in zip(ways, turned)]
                meets = all(line[-1] == after[0] for line, after in zip(lines, lines[1:]))
                begins = all(lines[0][0] in (self.roads[way][0], self.roads[way][-1]) for way in sources)
                ends = all(lines[-1][-1] in (self.roads[way][0], self.roads[way][-1]) for way in targets)
                if meets and begins and ends and all(line[0] != line[-1] for line in lines):
                    fits.add((ways, tuple(map(tuple, lines))))
        path = self.path(*fits.pop()) if len(fits) == 1 else None
        if not path or commands and not any(arc[0] in targets and arc[2] == path[-1][3] for arc in self.arcs):
            return None
        return commands, sources, path, targets

    def path(self, ways, lines):
        """The arcs along ways, or None if one can't go so, or comes to a node twice."""
        steps = [(way, *pair) for way, line in zip(ways, lines) for pair in zip(line, line[1:]) if pair[0] != pair[1]]
        steps = [step for step in steps if step[1] in self.known and step[2] in self.known]
        arcs = [next((arc for arc in self.arcs if (arc[0], *arc[2:4]) == step), None) for step in steps]
        nodes = [lines[0][0], *(step[2] for step in steps)]
        is_whole = [step[1] for step in steps] == nodes[:-1] and nodes[-1] == lines[-1][-1]
        return arcs if is_whole and None not in arcs and len({*nodes}) == len(nodes) else None

    def ban_of_roads(self, commands, sources, via, targets):
        ends = [(self.roads[way][0], self.roads[way][-1]) for way in sources | targets]
        if not sources or not targets or not all(via in each for each in ends):
            return None
        if commands and not any(arc[0] in targets and arc[2] == via for arc in self.arcs):
            return None
        # Without arcs between.
        return commands, sources, [via], targets

    def may_follow(self, come, other):
        """Tells if no restriction stands between the arcs by which one has come and one that goes on."""
        return not any(self.is_banned(come, other, *ban) for ban in self.bans)

    def is_banned(self, come, other, commands, sources, path, targets):
        if not isinstance(path[0], tuple):
            return come[-1][0] in sources and come[-1][3] == path[0] and (other[0] in targets) != commands
        for many in range(min(len(come), len(path) + 1)):
            if self.is_begun(come[-many - 1 :], sources, path):
                if (other[0] in targets) != commands if many == len(path) else commands and other != path[many]:
                    return True
        return False

    def is_begun(self, come, sources, path):
        """Tells if arcs are one from which one comes, and then the first ones of a path."""
        return come[0][0] in sources and come[0][3] == path[0][2] and come[1:] == path[: len(come) - 1]

    def last_of(self, come):
        """The last arcs, by their numbers, that can matter to a restriction."""
        for at in range(len(come) - 1):
            arcs = [self.arcs[i] for i in come[at:]]
            if any(len(arcs) <= len(path) + 1 and self.is_begun(arcs, ways, path) for ways, path in self.long_bans):
                return come[at:]
        return come[-1:]

    def arms(self, node):
        """How many other nodes a road joins to a node."""
        return len({arc[3] for arc in self.arcs if arc[2] == node} | {arc[2] for arc in self.arcs if arc[3] == node})

    def turn(self, come, other, price):
        """What it costs that an arc follows those by which one has come to where it begins, or None if it may not."""
        one = come[-1]
        if not self.may_follow(come, other):
            return None
        if other[3] != one[2]:
            return 0
        if price is not None:
            return price
        others = (arc for arc in self.arcs if arc[2] == one[3] and arc[3] != one[2])
        is_open = any(self.may_follow(come, arc) for arc in others)
        return None if is_open and self.arms(one[3]) == 2 else 0

    def free_turn(self, come, other):
        """What a turn costs without --turns."""
        return 0

    def successors(self, price, is_free):
        """A function from the numbers of arcs by which one has come to the arcs that may follow, with their costs."""

        @functools.lru_cache(maxsize=None)
        def after(come):
            arcs = [self.arcs[i] for i in come]
            follow = [(k, other) for k, other in enumerate(self.arcs) if other[2] == arcs[-1][3]]
            costs = [self.free_turn(arcs, other) if is_free else self.turn(arcs, other, price) for _, other in follow]
            return [(k, cost) for (k, _), cost in zip(follow, costs) if cost is not None]

        return after

    def costs(self, source, successors):
        """The least cost of each node that a route from a node reaches."""
        costs = {source: 0}
        queue = [(arc[4], i) for i, arc in enumerate(self.arcs) if arc[2] == source]
        for come, cost in self.search(queue, successors).items():
            head = self.arcs[come[-1]][3]
            costs[head] = min(cost, costs.get(head, cost))
        return costs

    def search(self, queue, successors):
        """The least cost by the last arcs of which one has come, from (cost, arc) of those that come first."""
        best = {}
        queue = [(cost, (i,)) for cost, i in queue]
        heapq.heapify(queue)
        while queue:
            cost, come = heapq.heappop(queue)
            if come in best:
                continue
            best[come] = cost
            for k, more in successors(come):
                after = self.last_of((*come, k))
                if after not in best:
                    heapq.heappush(queue, (cost + more + self.arcs[k][4], after))
        return best

    def all_costs(self, price=None, is_free=False):
        """The least costs from each node that an arc joins, by that node."""
        successors = self.successors(price, is_free)
        return {node: self.costs(node, successors) for arc in self.arcs for node in arc[2:4]}


class Written:
    """What the script wrote of a map, and what it said."""

    def __init__(self, name, *arguments, unit="decimetres", to=None):
        """`to` is where the files beside the graph begin."""
        names = [f"{to or name + ''.join(arguments)}.{each}" for each in ("nodes", "places", "ways", "lines")]
        beside = ["--nodes", names[0], "--places", names[1], "--ways", names[2]]
        if "--join" in arguments:
            beside += ["--lines", names[3]]
        sys.argv = ["osm_to_gr.py", name, *arguments, *beside, "--weight", unit]
        out, error = io.TextIOWrapper(io.BytesIO(), encoding="utf-8"), io.StringIO()
        with contextlib.redirect_stdout(out), contextlib.redirect_stderr(error):
            osm_to_gr.convert()
        nodes, places, ways = map(lines_of, names[:3])
        self.lines = lines_of(names[3]) if "--join" in arguments else None
        self.said, self.places_file = error.getvalue(), names[1]
        self.vertices = [None] + [int(line.split(" ")[0]) for line in nodes]
        self.places = [line.split(" ") for line in places]
        self.ways = [line.split("\t") for line in ways]
        out.flush()
        first, *lines = out.buffer.getvalue().decode().splitlines()
        if "--join" in arguments and lines.pop(0) != "c joined":
            raise AssertionError("the graph does not say that it is joined")
        head, *lines = lines
        self.arcs = [tuple(map(int, line.split(" ")[1:])) for line in lines]
        is_right = (first, head) == (f"c unit {unit}", f"p sp {len(nodes)} {len(lines)}")
        if not is_right or len(ways) != len(lines):
            raise AssertionError(f"{first!r} and {head!r} of {len(nodes)} nodes, {len(lines)} arcs and {len(ways)} ways")

    def costs(self, source):
        """The least costs of the vertices that walks from one reach."""
        costs, queue = {}, [(0, source)]
        while queue:
            cost, vertex = heapq.heappop(queue)
            if vertex in costs:
                continue
            costs[vertex] = cost
            for tail, head, weight in self.arcs:
                if tail == vertex:
                    heapq.heappush(queue, (cost + weight, head))
        return costs


def lines_of(name):
    """The lines of a file, which each end with a line feed."""
    with open(name, encoding="utf-8", newline="\n") as lines:
        return lines.read().split("\n")[:-1]


def check_arcs(model, written, price):
    """Each arc of a way stands in the graph, with the price of turning or not; the others join vertices of one node."""
    wanted, found = set(model.arcs), set()
    for (tail, head, weight), (way, name) in zip(written.arcs, written.ways):
        arc = (int(way), name, written.vertices[tail], written.vertices[head], weight)
        if arc[0]:
            found.add(arc if arc in wanted else (*arc[:4], weight - price))
        elif (name, weight) != ("", 0) or arc[2] != arc[3]:
            raise AssertionError(f"arc {tail} {head} {weight} of no way")
    if found != wanted:
        raise AssertionError(f"arcs {found ^ wanted} are not on both sides")


def check_costs(model, written, all_costs):
    """The least costs of all pairs, and which places are joined."""
    starts, ends = ({int(place[0]): int(place[at]) for place in written.places} for at in (3, 4))
    nodes = {node for arc in model.arcs for node in arc[2:4]}
    if set(starts) != nodes and not (written.lines and set(starts) < nodes):
        raise AssertionError(f"places {sorted(starts)}")
    costs = {vertex: written.costs(vertex) for vertex in range(1, len(written.vertices))}
    for source, start in starts.items():
        if written.vertices[start] != source or written.vertices[ends[source]] != source:
            raise AssertionError(f"place {source} is at other vertices")
        wanted = {target: cost for target, cost in all_costs[source].items() if target in starts}
        found = {target: costs[start][end] for target, end in ends.items() if end in costs[start]}
        if found != wanted:
            raise AssertionError(f"from node {source}: {found}, wanted {wanted}")
    parts = {vertex: {other for other in own if vertex in costs[other]} for vertex, own in costs.items()}
    largest = max(parts.values(), key=lambda part: (len(part), -min(part)))
    for node, _, _, start, end, word in written.places:
        is_joined = any(vertex in costs[int(start)] and int(end) in costs[vertex] for vertex in largest)
        if word != ("yes" if is_joined else "no"):
            raise AssertionError(f"place {node} is joined: {word}")


def check_lines(model, written):
    """Each arc of a joined graph weighs what the pieces of its line do, and no two that bend join the same nodes."""
    places = {int(place[0]): (float(place[1]), float(place[2])) for place in written.places}
    shapes = {}
    if len(written.lines) != len(written.arcs):
        raise AssertionError(f"{len(written.lines)} lines of {len(written.arcs)} arcs")
    for (tail, head, weight), line in zip(written.arcs, written.lines):
        numbers = list(map(float, line.split()))
        inner = list(zip(numbers[::2], numbers[1::2]))
        along = [places[written.vertices[tail]], *inner, places[written.vertices[head]]]
        pieces = [max(round(model.scale * metres(*pair)), int(pair[0] != pair[1])) for pair in zip(along, along[1:])]
        if sum(pieces) != weight:
            raise AssertionError(f"arc {tail} {head} {weight} along {along}: {pieces}")
        if inner:
            ends = written.vertices[tail], written.vertices[head]
            shapes.setdefault(frozenset(ends), set()).add(min(tuple(inner), tuple(inner[::-1])))
    if any(len(lines) > 1 or len(ends) == 1 for ends, lines in shapes.items()):
        raise AssertionError(f"lines {shapes}")


def check_nearest(chance, written):
    """The nearest places, and of those that are joined, from here and there."""
    places = nearest.Places(written.places_file)
    for _ in range(3):
        here = (50 + chance.uniform(-0.01, 0.03), chance.choice([8, -172]) + chance.uniform(-0.01, 0.03))
        away = [metres(here, (float(place[1]), float(place[2]))) for place in written.places]
        for is_any in (True, False):
            least = min(length for length, place in zip(away, written.places) if is_any or place[5] == "yes")
            line, said = places.answer(here, is_any)
            start, end, node, length = line.split()
            at = next(i for i, place in enumerate(written.places) if place[3] == start)
            place = written.places[at]
            is_right = (place[0], place[4]) == (node, end) and (is_any or place[5] == "yes")
            is_near = abs(away[at] - least) < 0.01 and abs(int(length) - least) < 0.6
            is_said = bool(said) == (least > min(away)) or 0 < least - min(away) < 0.01
            if not (is_right and is_near and is_said):
                raise AssertionError(f"nearest to {here}: {line}{said}, wanted {least} m")


def check(chance, name, drawn):
    """Compares the graphs of a map with it, and gives if restrictions change a cost, and if turning round does."""
    model, timed = Model(drawn), Model(drawn, 10 * 3.6 / 30)
    price = chance.choice([0, 3, 50, 1000])
    with open(name, "w", encoding="utf-8") as out:
        out.write(drawn.text(chance))
    try:
        free, bound = Written(name), Written(name, "--turns")
        priced = Written(name, "--turns", "--uturns", str(price / 10), unit="deciseconds")
    except to_gr.Refused as fault:
        if model.arcs or "no road of profile car" not in str(fault):
            raise
        return False, False
    unbound, turned, paid = model.all_costs(is_free=True), model.all_costs(), timed.all_costs(price)
    joined = Written(name, "--turns", "--join")
    check_lines(model, joined)
    check_costs(model, joined, turned)
    for written, own, costs in ((free, model, unbound), (bound, model, turned), (priced, timed, paid)):
        check_arcs(own, written, price)
        check_costs(own, written, costs)
        check_nearest(chance, written)
    others = len(drawn.relations) - len(model.bans)
    if f" turn restrictions: {len(model.bans)} kept, {others} left out" not in bound.said:
        raise AssertionError(f"{len(model.bans)} restrictions are to be kept: {bound.said}")
    blanks = sum(has_blank(way) for way in drawn.ways)
    if f"became a blank: {blanks}\n" not in f"{bound.said}became a blank: 0\n":
        raise AssertionError(f"names with a blank: {bound.said}")
    return unbound != turned, turned != model.all_costs(0)


def has_blank(way):
    return way[4] == "residential" and not {"\t", "\n", "\r"}.isdisjoint(way[1].strip())


def main():
    many = int(sys.argv[1]) if len(sys.argv) > 1 else 200
    changed, turned = 0, 0
    with tempfile.TemporaryDirectory() as folder:
        for seed in range(many):
            chance = random.Random(seed)
            drawn = Drawn(chance)
            try:
                by_restrictions, by_turning = check(chance, os.path.join(folder, "map.osm"), drawn)
            except (AssertionError, to_gr.Refused, ValueError) as fault:
                print(f"map {seed}: {fault!r}"[:3000])
                return
            changed += by_restrictions
            turned += by_turning
    if changed < many // 8 or turned < many // 40:
        print(f"restrictions changed costs in {changed} maps only, and turning round in {turned}")


if __name__ == "__main__":
    main()
