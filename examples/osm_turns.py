"""Keeps the turn restrictions of a map, its barriers, and the rules of turning round, for osm_to_gr.py.

A restriction says of two ways that meet at a node whether the one may be followed by the other there. A barrier lets
nobody go on but back. Where an arc may not be followed by all arcs that leave its node, or not at no cost, the node
gets more vertices. The arc then ends at one that only the arcs leave which may follow it. Arcs that the same ones may
follow at the same costs share a vertex. Each of these, and the vertex that the node has anyway, has an arc of no cost
to the last vertex of the node, which no arc leaves. So a route begins at the first vertex of its node, and ends at the
last.

Turning round at a node of two arms is left out if the way on is open. A cheapest route does so only to come back to a
node of several vertices. So only the streets that lead to such nodes get more vertices for it, up to their next node
of more than two arms.
"""

import math
from collections import Counter, namedtuple

from osm_arcs import Crossing
from osm_via_ways import Trail, Trails, chain_of, path_of

NO = {"no_left_turn", "no_right_turn", "no_straight_on", "no_u_turn", "no_entry", "no_exit"}
ONLY = {"only_left_turn", "only_right_turn", "only_straight_on", "only_u_turn"}
TIMES = {"day_on", "day_off", "hour_on", "hour_off"}
ROLES = {"from", "via", "to"}
OTHERS = "not for this vehicle"

# The via is a node, or there are ways in its place.
Restriction = namedtuple("Restriction", "is_only sources via targets ways", defaults=((),))


class NotKept(Exception):
    """Why a restriction is not kept."""


def value_of(tags, vehicles):
    """The value of NO or ONLY that a relation has for one of some vehicles. The first that a tag names decides."""
    keys = [*(f"restriction:{vehicle}" for vehicle in vehicles), "restriction"]
    exempt = {vehicle.strip() for vehicle in tags.get("except", "").split(";")}
    key = next((key for key in keys if key in tags), None)
    if key is None:
        if any(f"{key}:conditional" in tags for key in keys):
            raise NotKept("at times")
        raise NotKept(OTHERS if any(key.startswith("restriction:") for key in tags) else "no restriction")
    if tags[key] == "none" or not exempt.isdisjoint(vehicles):
        raise NotKept(OTHERS)
    if not TIMES.isdisjoint(tags):
        raise NotKept("at times")
    if tags[key] not in NO | ONLY:
        raise NotKept(f"{key}={tags[key]}")
    return tags[key]


def restriction_of(value, members):
    """The restriction of a value, by the members (type, number, role) of its relation."""
    wanted = {"from": "way", "via": "node", "to": "way"}
    sources, vias, targets = (
        {number for kind, number, role in members if role == each and kind == wanted[each]} for each in wanted
    )
    ways = tuple(number for kind, number, role in members if (kind, role) == ("way", "via"))
    if not sources or not targets or len(vias) != (not ways):
        raise NotKept("from, via or to missing")
    if (len(sources) > 1 and value != "no_entry") or (len(targets) > 1 and value != "no_exit"):
        raise NotKept("several from or to")
    return Restriction(value in ONLY, sources, None if ways else vias.pop(), targets, ways)


class Restrictions:
    """The restrictions of a map for one of some vehicles, and counts of those that are not kept."""

    def __init__(self, vehicles):
        self.vehicles, self.kept, self.left_out = vehicles, [], Counter()

    def add(self, tags, members):
        try:
            self.kept.append(restriction_of(value_of(tags, self.vehicles), members))
        except NotKept as reason:
            self.left_out[str(reason)] += 1

    def take(self, others):
        """Takes those of another piece of the map."""
        self.kept += others.kept
        self.left_out.update(others.left_out)

    def keep(self, find):
        """Replaces each restriction by what `find` gives of it, or counts why that is none."""
        kept, self.kept = self.kept, []
        for each in kept:
            try:
                self.kept.append(find(each))
            except NotKept as reason:
                self.left_out[str(reason)] += 1

    def by_node(self):
        """Those with a node as via."""
        found = {}
        for each in self.kept:
            if isinstance(each, Restriction):
                found.setdefault(each.via, []).append(each)
        return found

    def trails(self):
        """Those with ways as via."""
        return Trails(each for each in self.kept if isinstance(each, Trail))


def ends_of(roads, refs, ways):
    """The first and the last nodes of these ways, and the places of these among the roads."""
    at, ends, places = 0, {}, {}
    for place, road in enumerate(roads):
        if road.way in ways and road.size:
            ends.setdefault(road.way, set()).update((refs[at], refs[at + road.size - 1]))
            places[road.way] = place
        at += road.size
    return ends, places


def settle_ways(restrictions, found, road_arcs):
    """Keeps the restrictions whose ways are roads of the map and begin or end at the via, which becomes its number."""
    ways = set().union(*(each.sources | each.targets | set(each.ways) for each in restrictions.kept))
    ends, places = ends_of(found.roads, found.refs, ways)

    def on_roads(each):
        via = found.numbers.get(each.via)
        sources, targets = (ways & ends.keys() for ways in (each.sources, each.targets))
        if not sources or not targets or (via is None if not each.ways else not ends.keys() >= set(each.ways)):
            raise NotKept("no road as member")
        if each.ways:
            return along_ways(each, sources, targets)
        if any(via not in ends[way] for way in sources | targets):
            raise NotKept("via at no end of a way")
        return Restriction(each.is_only, sources, via, targets)

    def along_ways(each, sources, targets):
        chain = chain_of(sources, each.ways, targets, ends)
        path = chain and path_of(chain, road_arcs, places)
        if not path:
            raise NotKept("no one way along the via")
        return Trail(each.is_only, sources, chain[0][1], path, targets)

    restrictions.keep(on_roads)


class Rules:
    """What turns at nodes cost beside restrictions, in weights."""

    def __init__(self, place, price, costs):
        """`place` gives where a node is, `price` is that of turning round or None, and `costs` those by angle."""
        self.place, self.price, self.costs = place, price, costs
        self.are_free = not price and not costs

    def angle(self, tail, node, head):
        """The angle of a turn in degrees, from -180 to 180: to the right it is above 0."""
        (lat1, lon1), (lat2, lon2), (lat3, lon3) = map(self.place, (tail, node, head))
        narrow = math.cos(math.radians(lat2))
        before, after = math.atan2((lon2 - lon1) * narrow, lat2 - lat1), math.atan2((lon3 - lon2) * narrow, lat3 - lat2)
        return math.remainder(math.degrees(after - before), 360)

    def cost(self, before, node, after, is_of_two):
        """What it costs to go on at a node from an arm to another."""
        if before.node == after.node:
            return self.price or 0
        if is_of_two or not self.costs:
            return 0
        angle = self.angle(before.near, node, after.near)
        return sum(cost for least, most, cost in self.costs if least <= angle < most)


def allowed(way, restrictions, leaving):
    """The arcs that may follow an arc of a way at a node, by its restrictions."""
    own = [each for each in restrictions if way in each.sources]
    return [arm for arm in leaving if all((arm.way in each.targets) == each.is_only for each in own)]


class Turns:
    """The vertices and arcs that keep the turns of a map."""

    def __init__(self, vertices, count):
        self.vertices, self.count = vertices, count
        self.nodes = []  # of the vertices that are added, in their order
        self.heads = {}  # by the number of an arc, where it ends in place of a node
        # By the number of an arc, where it begins beside a node, what it costs more from there, and where it ends then.
        self.tails = {}
        self.ends = {}  # by a node, where routes end
        self.closing = []  # the arcs of no cost, as (tail, head)
        self.rules, self.closed, self.has_restrictions = None, frozenset(), False
        self.trails, self.watched = Trails(), {}  # by a node, the arcs by which one comes there on a trail, and states
        self.watched_heads = {}  # by the number of an arc and a state, where it ends

    def add_vertex(self, node):
        self.count += 1
        self.nodes.append(node)
        return self.count

    def following(self, arm, node, restrictions, crossing, state):
        """Gives what may follow an arc that arrives at a node in a state.

        These are the numbers of arcs, each with what the turn costs, and the state if it isn't that of who is on no
        trail before.
        """
        found = allowed(arm.way, restrictions, crossing.leaving) if restrictions else crossing.leaving
        found = [each for each in found if self.trails.allow(state, each)] if state else found
        is_of_two = self.has_restrictions and crossing.is_of_two
        if node in self.closed:
            found = [each for each in found if each.node == arm.node]
        elif is_of_two and self.rules.price is None:
            # Nobody turns round where the way on is open.
            found = [each for each in found if each.node != arm.node] or found
        if not state and self.rules.are_free:
            return tuple((each.number, 0, None) for each in found)
        costs = (self.rules.cost(arm, node, each, is_of_two) for each in found)
        return tuple((each.number, cost, self.next(state, each)) for each, cost in zip(found, costs))

    def next(self, state, arm):
        """The state after an arc, or None if it is that of who is on no trail before."""
        if not state:
            return None
        after = self.trails.after(state, arm)
        return after if after != self.trails.begun(arm.way, arm.node) else None

    def watch(self, restrictions, crossings):
        """Finds the arcs of trails by which one comes to nodes, and in which states; by node its `Crossing`."""
        ahead = [
            (node, arm, self.trails.begun(arm.way, node)) for node, own in crossings.items() for arm in own.arriving
        ]
        while ahead:
            node, arm, state = ahead.pop()
            following = self.following(arm, node, restrictions.get(node, ()), crossings[node], state) if state else ()
            arms = {each.number: each for each in crossings[node].leaving}
            for number, _, after in following:
                own = self.watched.setdefault(arms[number].node, {})
                if after is not None and (number, after) not in own:
                    own[number, after] = True
                    arriving = crossings[arms[number].node].arriving
                    come = next(each for each in arriving if each.number == number)
                    ahead.append((arms[number].node, come, after))

    def add_node(self, node, restrictions, crossing):
        """Adds what keeps the turns at a node."""
        free = tuple((arm.number, 0, None) for arm in crossing.leaving)
        arms = {arm.number: arm for arm in crossing.arriving}
        come = [(arm.number, self.trails.begun(arm.way, node), self.heads, arm.number) for arm in crossing.arriving]
        come += [(*key, self.watched_heads, key) for key in self.watched.get(node, ())]
        turns = [
            (self.following(arms[number], node, restrictions, crossing, state), heads, key)
            for number, state, heads, key in come
        ]
        turns = [turn for turn in turns if turn[0] != free]
        if not turns:
            return
        kinds = dict.fromkeys(own for own, *_ in turns)
        copies = {following: self.add_vertex(node) for following in kinds if following}
        end = self.ends[node] = self.add_vertex(node)
        for following, copy in copies.items():
            for number, cost, state in following:
                self.tails.setdefault(number, []).append((copy, cost, state))
        for following, heads, key in turns:
            heads[key] = copies.get(following, end)
        self.closing.extend((vertex, end) for vertex in (self.vertices[node], *copies.values()))

    def add_nodes(self, nodes, restrictions, road_arcs):
        """Adds what keeps the turns at some nodes, if it isn't there. Gives the neighbours of those that need it."""
        beside = {}
        for node in nodes:
            if node in self.ends or not self.vertices[node]:
                continue
            crossing = Crossing(road_arcs, node)
            self.add_node(node, restrictions.get(node, ()), crossing)
            if node in self.ends and node not in self.closed:
                beside.update(dict.fromkeys(arm.node for arm in crossing.arms()))
        return beside

    def many(self):
        """How many arcs are added."""
        return sum(map(len, self.tails.values())) + len(self.closing)

    def settle(self, rules, found, road_arcs):
        """Adds what keeps the turns and barriers of a map. `road_arcs` are its arcs (`osm_graph.RoadArcs`)."""
        self.rules, self.closed = rules, found.closed_nodes()
        by_node, self.has_restrictions = {}, bool(found.restrictions)
        if found.restrictions:
            by_node = settled_restrictions(found.restrictions, found, road_arcs)
            self.trails = found.restrictions.trails()
        along = self.trails.nodes(road_arcs.heads)
        if along:
            self.watch(by_node, {node: Crossing(road_arcs, node) for node in along})
        beside = self.add_nodes(dict.fromkeys((*by_node, *along, *sorted(self.closed))), by_node, road_arcs)
        if found.restrictions:
            self.add_others(beside, by_node, road_arcs)
        self.settle_heads(road_arcs)

    def settle_heads(self, road_arcs):
        """Says of each arc that begins beside a node where it ends."""
        for number, more in self.tails.items():
            head = self.vertices[road_arcs.heads[number]]
            own = self.heads.get(number, head)
            ends = [own if state is None else self.watched_heads.get((number, state), head) for _, _, state in more]
            self.tails[number] = [(tail, cost, end) for (tail, cost, _), end in zip(more, ends)]

    def add_others(self, beside, by_node, road_arcs):
        """Adds what keeps the rules of turning round, beside nodes that have more vertices, and prices of turns."""
        rules = self.rules
        if rules.price or rules.costs:
            others = (node for node in range(len(self.vertices)) if rules.price or road_arcs.is_crossing(node))
            beside.update(self.add_nodes(others, by_node, road_arcs))
        if rules.price is None:
            self.add_nodes(road_arcs.streets(beside, self.closed), by_node, road_arcs)


def settled_restrictions(restrictions, found, road_arcs):
    """The restrictions of a map by node, once those are left out that its roads can't have."""
    settle_ways(restrictions, found, road_arcs)
    lasts = {each.path[-1]: road_arcs.heads[each.path[-1]] for each in restrictions.kept if isinstance(each, Trail)}

    def on_arcs(each):
        last = lasts[each.path[-1]] if isinstance(each, Trail) else each.via
        if each.is_only and not any(arm.way in each.targets for arm in Crossing(road_arcs, last).leaving):
            raise NotKept("only to a way that cannot be entered")
        return each

    restrictions.keep(on_arcs)
    return restrictions.by_node()
