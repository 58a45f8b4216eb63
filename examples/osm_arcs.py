"""Arcs of roads as they are found by the nodes that they join, for osm_to_gr.py."""

from array import array
from bisect import bisect_right
from collections import namedtuple

COMES, GOES = 1, 2  # parts of a mask: one comes from a neighbour, or goes there

# An arc at a node: its number among those of the roads, its way, the node at its other end, and the next one on it.
Arm = namedtuple("Arm", "number way node near")


class Crossing:
    """The arcs that arrive at a node and those that leave it, in order."""

    def __init__(self, arcs, node):
        self.arriving, self.leaving = [], []
        for number in arcs.at(node):
            way, tail, head, after, before = arcs.arc(number)
            if tail == node:
                self.leaving.append(Arm(number, way, head, after))
            else:
                self.arriving.append(Arm(number, way, tail, before))
        self.is_of_two = len({arm.node for arm in self.arms()}) == 2

    def arms(self):
        return *self.arriving, *self.leaving


class RoadArcs:
    """The arcs of the roads of a graph, for what keeps its turns."""

    def __init__(self, graph):
        self.graph, self.tails, self.heads = graph, graph.arcs.tails, graph.arcs.heads
        self.roads, self.numbers, self.refs = graph.found.roads, graph.arcs.roads, graph.found.refs
        # Where each node stands first among those of the roads, and for each of these places where its node stands
        # next. They count from 1, and 0 is none.
        self.first, self.following = array("I"), array("I")

    def find_stands(self):
        """Finds where nodes stand, which needs no arcs."""
        self.first = first = array("I", [0]) * len(self.graph.latitudes)
        self.following = following = array("I", [0]) * (len(self.refs) + 1)
        at = len(self.refs)
        for node in reversed(self.refs):
            following[at] = first[node]
            first[node] = at
            at -= 1

    def own(self, road):
        """The numbers of the arcs of a road."""
        return range(self.graph.arcs_at[road], self.graph.arcs_at[road + 1])

    def at(self, node):
        """The numbers of the arcs that begin or end at a node, in order."""
        at, found = self.first[node], []
        while at:
            found += self.at_stand(at - 1, node)
            at = self.following[at]
        return found

    def at_stand(self, at, node):
        """The numbers of the arcs at a node by a place where it stands among the nodes of the roads."""
        begins = self.graph.begins
        number = bisect_right(begins, at) - 1
        road, own, place = self.roads[number], self.own(number), at - begins[number]
        many = road.forward + road.back
        if len(own) == many * (road.size - 1):  # so there are arcs from each node to the next
            return own[(place - 1) * many if place else 0 : (place + 1) * many]
        if node in self.refs[begins[number] : at]:
            return ()  # which were found where it stands before
        return [each for each in own if node in (self.tails[each], self.heads[each])]

    def arc(self, number):
        """The way of an arc, its nodes, and the nodes that are next to these on it."""
        graph, tail, head = self.graph, self.tails[number], self.heads[number]
        after, before = head, tail
        first, last = graph.inner_at[number : number + 2] if graph.kept else (0, 0)
        if first < last:
            after, before = graph.arcs.inner[first], graph.arcs.inner[last - 1]
        return self.roads[self.numbers[number]].way, tail, head, after, before

    def along(self, road, node):
        """The numbers of the arcs of a road from one of its ends to the other, in order; none if nobody may go so."""
        own, arcs = self.roads[road], self.own(road)
        if own.forward and own.back:
            return arcs[::2] if arcs and self.tails[arcs[0]] == node else arcs[1::2][::-1]
        return arcs if own.forward else arcs[::-1]

    def road_within(self, node):
        """The number of the road in which a node stands once and at no end, and where; None if it is no such node."""
        at, begins = self.first[node], self.graph.begins
        if at and not self.following[at]:
            road = bisect_right(begins, at - 1) - 1
            if begins[road] < at - 1 and at < begins[road + 1]:
                return road, at - 1
        return None

    def neighbours(self, node):
        """The neighbours of a node in the order of the arcs between, each with its mask."""
        within = self.road_within(node)
        if within:
            road, at = self.roads[within[0]], within[1]
            before, after = self.refs[at - 1], self.refs[at + 1]
            if before != after and len(self.own(within[0])) == (road.forward + road.back) * (road.size - 1):
                return {before: road.forward * COMES | road.back * GOES, after: road.forward * GOES | road.back * COMES}
        found = {}
        for number in self.at(node):
            if self.tails[number] == node:
                found[self.heads[number]] = found.get(self.heads[number], 0) | GOES
            else:
                found[self.tails[number]] = found.get(self.tails[number], 0) | COMES
        return found

    def is_crossing(self, node):
        """Tells if a node has other arms than two. One within a road has no more."""
        return not self.road_within(node) and len(self.neighbours(node)) != 2

    def streets(self, nodes, closed):
        """The nodes of two arms at which somebody can turn back, along the streets that begin with some nodes."""
        found, ahead = {}, list(nodes)
        while ahead:
            node = ahead.pop()
            if node in found or node in closed:
                continue
            neighbours = self.neighbours(node)
            masks = [*neighbours.values()]
            # Who comes can turn, and the way on is open.
            if len(masks) != 2 or not masks[0] & masks[1] & GOES or not (masks[0] | masks[1]) & COMES:
                continue
            found[node] = True
            # Along a street that is one way nobody comes back.
            if masks[0] & masks[1] & COMES:
                ahead += neighbours
        return found
