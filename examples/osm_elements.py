"""Collects what a graph needs of the elements of a map, for osm_to_gr.py: nodes, roads, restrictions and counts."""

from array import array
from collections import Counter, namedtuple

from osm_profiles import LeftOut
from osm_turns import Restrictions

BLANKS = str.maketrans("\t\n\r", "   ")  # what a line of --ways cannot have
MANY = 1 << 17  # nodes, and nodes of roads, after which a collector hands over what it has

# A way of the map as a road: how many nodes it has, the factor of its weights, and its seconds if it says them.
Road = namedtuple("Road", "way name speed forward back size factor seconds", defaults=(1, None))
# What is collected: by which profile, and if names and restrictions are wanted.
Wanted = namedtuple("Wanted", "profile has_names has_turns")


class Elements:
    """The elements of a piece of a map, in their order. Of ways that are no roads only counts are kept."""

    def __init__(self, restrictions):
        self.nodes, self.latitudes, self.longitudes = array("q"), array("d"), array("d")
        self.closed = array("q")  # nodes whose barriers close roads
        self.roads, self.refs = [], array("q")  # the nodes of the roads one after the other
        self.mended = 0  # names with a tab or a line break
        self.left_out, self.ferries, self.ferries_left_out = Counter(), 0, Counter()
        self.restrictions, self.restriction_count = restrictions, 0
        self.speeds_not_read, self.others_not_read = Counter(), Counter()
        self.lines = 0  # of the piece

    def __getstate__(self):
        # Plain tuples go to another process in less time.
        return {**vars(self), "roads": list(map(tuple, self.roads))}

    def __setstate__(self, state):
        vars(self).update(state)
        self.roads = list(map(Road._make, self.roads))


class Collector:
    """Takes elements one by one, and hands them over piece by piece."""

    def __init__(self, wanted, take=None):
        """`take` gets the elements of each piece; without it there is one piece."""
        self.wanted, self.profile, self.take = wanted, wanted.profile, take
        self.node_keys = self.profile.node_keys()
        self.begin()

    def begin(self):
        restrictions = Restrictions(self.profile.vehicles) if self.wanted.has_turns else None
        self.elements = own = Elements(restrictions)
        self.profile.speeds_not_read, self.profile.others_not_read = own.speeds_not_read, own.others_not_read

    def hand_over(self):
        self.take(self.elements)
        self.begin()

    def add_node(self, node, latitude, longitude):
        if not (abs(latitude) <= 90 and abs(longitude) <= 180):
            raise ValueError(f"node {node} is not on the earth")
        own = self.elements
        own.nodes.append(node)
        own.latitudes.append(latitude)
        own.longitudes.append(longitude)
        if self.take and len(own.nodes) >= MANY:
            self.hand_over()

    def add_nodes(self, nodes, latitudes, longitudes):
        """Takes many nodes at once, as arrays."""
        for numbers, most in ((latitudes, 90), (longitudes, 180)):
            if numbers and not -most <= min(numbers) <= max(numbers) <= most:
                raise ValueError("a node is not on the earth")
        own = self.elements
        own.nodes.extend(nodes)
        own.latitudes.extend(latitudes)
        own.longitudes.extend(longitudes)

    def add_barrier(self, node, tags):
        """Takes the tags of a node that may close a road, of those that count."""
        if "barrier" in tags and self.profile.closes(tags):
            self.elements.closed.append(node)

    def add_way(self, way, refs, tags):
        own = self.elements
        if "highway" in tags:
            self.add_road(way, refs, tags, own.left_out)
        elif tags.get("route") == "ferry" and self.profile.ferry:
            own.ferries += 1
            self.add_road(way, refs, tags, own.ferries_left_out)
        if self.take and len(own.refs) >= MANY:
            self.hand_over()

    def add_road(self, way, refs, tags, left_out):
        try:
            speed, forward, back, *others = self.profile.road(tags)
        except LeftOut as reason:
            left_out[str(reason)] += 1
            return
        self.elements.refs.extend(refs)
        self.elements.roads.append(Road(way, self.name(tags), speed, forward, back, len(refs), *others))

    def name(self, tags):
        """The name of a road by its tags, or None where no names are wanted."""
        if not self.wanted.has_names:
            return None
        name = tags.get("name") or tags.get("ref", "")
        mended = name.translate(BLANKS)
        self.elements.mended += mended != name
        return mended

    def add_relation(self, tags, members):
        """Takes a relation of these members (type, number, role)."""
        if tags.get("type") == "restriction":
            self.elements.restriction_count += 1
            if self.elements.restrictions:
                self.elements.restrictions.add(tags, members)
