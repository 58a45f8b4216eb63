#!/usr/bin/env python3
"""Finds the streets that are reached within some minutes: isochrone.py MAP.gr LATITUDE LONGITUDE 5 10 >reached.geojson

MAP.gr and the files beside it are what osm_to_gr.py writes with --places places.txt. What comes is GeoJSON: for each
number of minutes the streets that it adds to those before, each cut off where the time is up, and the place. The last
number comes first, so that a viewer draws what is near on top. If weights are lengths, the numbers are metres.

    --weight UNIT     what weights are if the graph does not say it, as osm_to_gr.py was called with (decimetres)
    --nodes FILE      in place of nodes.txt
    --places FILE     in place of places.txt
    --lines FILE      in place of lines.txt, which a graph of --join has
    --any             begins at a place, too, that is not joined to the largest part of the map
    --picture FILE    draws these streets on those around them, as FILE.png, FILE.svg or FILE.pdf. Needs matplotlib

Needs the Python package hollowbowl (docs/PYTHON.md), the program, and the scripts beside it. One begins at the nearest
place on a street. Between two nodes time goes by as the way does. Of a street that is reached from both ends, each
piece counts from the end that is reached earlier.

A file that is not understood is refused, with its line, and so are files of another map, and a --weight that is not
that of the graph. Then the status is 2, and nothing is written.
"""

import sys
from collections import namedtuple

sys.dont_write_bytecode = True
import map_files
from map_files import Refused, feature, is_time, point
from osm_to_gr import UNITS
from streets import cut
from to_gr import run

# A street from node to node: its places, what it costs to its beginning, and by it.
Street = namedtuple("Street", "places cost weight")


def limit_of(word, unit):
    """What a number of minutes or metres is in weights."""
    try:
        number = float(word)
    except ValueError:
        number = 0
    if not 0 < number < 1e9:
        raise Refused(f"the command line: {word!r} is no number of {'minutes' if is_time(unit) else 'metres'}")
    return round(number * UNITS[unit][0] * (60 if is_time(unit) else 1))


def earliest(streets, pair, street):
    """Keeps a street from one node to another if it is the one that is reached earliest."""
    if pair not in streets or (street.cost, street.weight) < (streets[pair].cost, streets[pair].weight):
        streets[pair] = street


def reached_streets(streets, nodes, costs, spot):
    """The streets that leave a vertex of those that are reached: from one node to another the one that is earliest."""
    found = {}
    for arc, (tail, head, weight) in enumerate(zip(streets.tails, streets.heads, streets.weights)):
        pair = nodes.number(tail), nodes.number(head)
        is_own = len(spot.nodes) == 2 and (min(pair), max(pair)) == spot.nodes
        if tail in costs and pair[0] != pair[1] and not is_own:
            earliest(found, pair, Street(streets.line_of(arc), costs[tail], weight))
    # The street on which one begins is two: each from the place to a node, and perhaps back to it.
    for leg in spot.starts:
        if leg.arc is not None:
            node = nodes.number(leg.vertex)
            earliest(found, (None, node), Street(cut(streets.line_of(leg.arc), leg.share, 1), 0, leg.cost))
    for leg in spot.ends:
        if leg.arc is not None and leg.vertex in costs:
            node = nodes.number(leg.vertex)
            line = cut(streets.line_of(leg.arc), 0, leg.share)
            earliest(found, (node, None), Street(line, costs[leg.vertex], leg.cost))
    return found


def pieces(streets, limits):
    """For each limit the pieces of streets between it and the one before, as lines of places."""
    found = [[] for _ in limits]
    for (one, other), street in streets.items():
        back = streets.get((other, one))
        end = street.cost + street.weight
        if back:
            # Both directions meet where they are reached at the same time.
            meeting = (back.cost + back.weight - street.cost) / (street.weight + back.weight or 1)
            end = street.cost + street.weight * min(max(meeting, 0), 1)
        begin = street.cost
        for number, limit in enumerate(limits):
            until = min(end, limit)
            if begin < until:
                found[number].append(part(street, begin, until))
                begin = until
    return found


def part(street, begin, until):
    """The part of a street that is reached from one cost to another."""
    return cut(street.places, *((cost - street.cost) / street.weight for cost in (begin, until)))


def features(found, words, start, unit):
    """The features of the pieces, the last limit first, and the place where they begin."""
    key = "minutes" if is_time(unit) else "metres"
    for lines, word in reversed(list(zip(found, words))):
        yield feature("MultiLineString", [[point(place) for place in line] for line in lines], **{key: float(word)})
    yield feature("Point", point(start.place), **map_files.spot_properties("start", start))


def draw(options, streets, found, start):
    """The bytes of a picture of the pieces, in a colour for each limit; none where none is wanted."""
    if not options.picture:
        return b""
    import map_picture

    around = [place for lines in found for line in lines for place in line] or [start.place]
    axes = map_picture.begin(list(streets.around(around)), around)
    unit = "min" if is_time(options.weight) else "m"
    for number, (lines, word) in enumerate(zip(found, options.limits)):
        map_picture.lines(axes, lines, map_picture.shade(number, len(found)), 2, f"up to {word} {unit}")
    map_picture.dot(axes, start.place, "black", "start")
    title = f"Streets within {', '.join(options.limits)} {unit}"
    return map_picture.drawn(axes, map_files.form_of(options.picture), title, has_legend=True)


def parse():
    parser = map_files.arguments(__doc__)
    parser.add_argument("latitude")
    parser.add_argument("longitude")
    parser.add_argument("limits", nargs="+")
    options = map_files.parsed(parser)
    numbers = [limit_of(word, options.weight) for word in options.limits]
    if any(one >= other for one, other in zip(numbers, numbers[1:])):
        raise Refused("the command line: the numbers have to rise")
    return options, numbers


def main():
    options, limits = parse()
    here = map_files.asked_place((options.latitude, options.longitude))
    with map_files.kept(options.graph) as graph:
        nodes = map_files.Nodes(options.nodes, graph.n)
        streets = map_files.streets_of(options, nodes, graph.m)
        start = map_files.nearest_spot(streets, "isochrone.py", here, options.any)
        costs = streets.within(graph, start, limits[-1])
    found = pieces(reached_streets(streets, nodes, costs, start), limits)
    picture = draw(options, streets, found, start)
    shown = features(found, options.limits, start, options.weight)
    map_files.write_features(shown, options.picture, picture)
    print(f"isochrone.py: {len(costs)} of {len(nodes.numbers)} vertices", file=sys.stderr)


if __name__ == "__main__":
    run("isochrone.py", main, status=2)
