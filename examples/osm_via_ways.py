"""Keeps turn restrictions whose via are ways, for osm_turns.py.

Such a restriction says of a way that one comes from, of the ways in between and of a way that one goes to, if the last
may be gone to. So who comes from the first way is watched up to the end of the ways between. A trail is what the
restriction becomes: the arcs of these ways one after another. A state says on which trails somebody is who has come by
an arc, and how far; most are on none.
"""

from collections import namedtuple

# The arcs from a node on by their numbers, and the ways from which one comes to that node and goes at the end.
Trail = namedtuple("Trail", "is_only sources via path targets")
NOWHERE = frozenset()


def chains(node, ways, ends):
    """The orders in which all of these ways can be followed from a node, each as (way, node, node) and so on.

    `ends` has the first and the last node of each way.
    """
    if not ways:
        yield ()
    for way in ways:
        if node in ends[way] and len(ends[way]) == 2:
            (other,) = ends[way] - {node}
            for rest in chains(other, [each for each in ways if each != way], ends):
                yield ((way, node, other), *rest)


def chain_of(sources, ways, targets, ends):
    """The one chain of ways that leads from the end of each source to the end of each target, or None."""
    if len(set(ways)) != len(ways) or not (sources | targets).isdisjoint(ways):
        return None
    begins = set.intersection(*(ends[way] for way in sources))
    found = [chain for node in sorted(begins) for chain in chains(node, ways, ends)]
    found = [chain for chain in found if all(chain[-1][2] in ends[way] for way in targets)]
    return found[0] if len(found) == 1 else None


def path_of(chain, road_arcs, roads):
    """The numbers of the arcs along a chain, or None if one can't go along it or comes to a node twice.

    `roads` has the place of each way among the roads.
    """
    path, nodes = [], [chain[0][1]]
    for way, node, other in chain:
        arcs = road_arcs.along(roads[way], node)
        for number in arcs:
            if road_arcs.tails[number] != nodes[-1]:
                return None
            nodes.append(road_arcs.heads[number])
        if nodes[-1] != other:
            return None
        path += arcs
    return path if len(set(nodes)) == len(nodes) else None


class Trails:
    """The restrictions of a map whose via are ways."""

    def __init__(self, trails=()):
        self.trails, self.begins = list(trails), {}
        for place, trail in enumerate(self.trails):
            self.begins.setdefault(trail.via, []).append(place)

    def nodes(self, heads):
        """The nodes of all trails, by the nodes at which arcs end."""
        return dict.fromkeys(node for trail in self.trails for node in (trail.via, *(heads[arc] for arc in trail.path)))

    def begun(self, way, node):
        """The state of who comes to a node by a way and was on no trail."""
        own = self.begins.get(node)
        return frozenset((place, 0) for place in own if way in self.trails[place].sources) if own else NOWHERE

    def after(self, state, arm):
        """The state of who goes on by an arc to the node at its other end."""
        going = {(place, at + 1) for place, at in state if self.is_along(place, at, arm)}
        return self.begun(arm.way, arm.node) | going

    def is_along(self, place, at, arm):
        path = self.trails[place].path
        return at < len(path) and path[at] == arm.number

    def allow(self, state, arm):
        """Tells if somebody in a state may go on by an arc."""
        return all(self.allows(place, at, arm) for place, at in state)

    def allows(self, place, at, arm):
        trail = self.trails[place]
        if at < len(trail.path):
            return not trail.is_only or arm.number == trail.path[at]
        return (arm.way in trail.targets) == trail.is_only
