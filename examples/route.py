#!/usr/bin/env python3
"""Finds the cheapest route between two places: route.py MAP.gr LATITUDE LONGITUDE LATITUDE LONGITUDE >route.geojson

MAP.gr and the files beside it are what osm_to_gr.py writes with --places places.txt --ways ways.txt. What comes is
GeoJSON: a line for each street of the route with its name, the numbers of its ways and how long it is, and the two
places. If weights are times a street has seconds, and `after` says how many seconds come before it; if they are
lengths it says how many metres do. Standard error has the sum.

    --weight UNIT     what weights are if the graph does not say it, as osm_to_gr.py was called with (decimetres)
    --nodes FILE      in place of nodes.txt
    --ways FILE       in place of ways.txt
    --places FILE     in place of places.txt
    --lines FILE      in place of lines.txt, which a graph of --join has
    --any             begins and ends at places, too, that are not joined to the largest part of the map
    --picture FILE    draws the route on the streets around it, as FILE.png, FILE.svg or FILE.pdf. Needs matplotlib

Needs the Python package hollowbowl (docs/PYTHON.md), the program, and the scripts beside it. A route begins and ends at
the nearest places on streets. Of the arcs there it has a share, of their length and of their weight.

A file that is not understood is refused, with its line, and so are files of another map, a --weight that is not that
of the graph, and places between which no route leads. Then the status is 2, and nothing is written.
"""

import sys
from collections import namedtuple

sys.dont_write_bytecode = True
import map_files
from map_files import Refused, as_unit, feature, is_time, point
from nearest import length
from to_gr import run

Step = namedtuple("Step", "name ways places metres cost")


def cheapest(graph, streets, spots):
    """The cheapest route between two places on streets."""
    found = streets.route(graph, map_files.package(), spots["start"], spots["end"])
    if found is None:
        start, end = (" to ".join(map(str, spots[kind].nodes)) for kind in ("start", "end"))
        raise Refused(f"no route leads from node {start} to node {end}")
    return found


def arcs_by_number(graph, ways, count, pieces):
    """The arcs along which the pieces of a route go, with their ways, by number."""
    wanted = {piece.arc for piece in pieces}
    return {number: arc for number, arc in enumerate(map_files.arcs(graph, ways, count)) if number in wanted}


def steps(pieces, arcs):
    """The route, street by street."""
    found = []
    for piece in pieces:
        arc, places = arcs[piece.arc], piece.places
        metres = sum(map(length, places, places[1:]))
        if not found or found[-1].name != arc.name:
            found.append(Step(arc.name, [arc.way], places, metres, piece.cost))
            continue
        last = found[-1]
        ways = last.ways if last.ways[-1] == arc.way else [*last.ways, arc.way]
        found[-1] = Step(arc.name, ways, [*last.places, *places[1:]], last.metres + metres, last.cost + piece.cost)
    return found


def features(found, ends, unit):
    """The features of a route: its streets in order, and the places where it begins and ends."""
    after = 0
    for number, step in enumerate(found, 1):
        measures = {"metres": round(step.metres, 1)}
        if is_time(unit):
            measures["seconds"] = as_unit(step.cost, unit)
        line = [point(place) for place in step.places]
        yield feature(
            "LineString", line, step=number, name=step.name, ways=step.ways, **measures, after=as_unit(after, unit)
        )
        after += step.cost
    for kind, spot in ends.items():
        yield feature("Point", point(spot.place), **map_files.spot_properties(kind, spot))


def summary(found, cost, unit):
    """How long the route is, in words."""
    metres = sum(step.metres for step in found)
    seconds = f" in {as_unit(cost, unit):.0f} s" if is_time(unit) else ""
    return f"{metres:.0f} m{seconds}, streets: {len(found)}"


def draw(options, streets, found, ends, title):
    """The bytes of a picture of a route on the streets around it; none where none is wanted."""
    if not options.picture:
        return b""
    import map_picture

    around = [place for step in found for place in step.places] or [ends["start"].place]
    axes = map_picture.begin(list(streets.around(around)), around)
    for step in found:
        map_picture.line(axes, step.places, "tab:red", 2.5)
    map_picture.labels(axes, [(step.name, step.places) for step in found])
    for kind, spot in ends.items():
        map_picture.dot(axes, spot.place, "tab:green" if kind == "start" else "tab:red", kind)
    return map_picture.drawn(axes, map_files.form_of(options.picture), title)


def parse():
    parser = map_files.arguments(__doc__)
    for word in ("latitude", "longitude", "end_latitude", "end_longitude"):
        parser.add_argument(word)
    parser.add_argument("--ways", default="ways.txt")
    return map_files.parsed(parser)


def main():
    options = parse()
    here = {
        "start": map_files.asked_place((options.latitude, options.longitude)),
        "end": map_files.asked_place((options.end_latitude, options.end_longitude)),
    }
    with map_files.kept(options.graph) as graph:
        nodes = map_files.Nodes(options.nodes, graph.n)
        streets = map_files.streets_of(options, nodes, graph.m)
        ends = {kind: map_files.nearest_spot(streets, "route.py", place, options.any) for kind, place in here.items()}
        route = cheapest(graph, streets, ends)
        found = steps(route.pieces, arcs_by_number(options.graph, options.ways, graph.m, route.pieces))
    title = summary(found, route.cost, options.weight)
    picture = draw(options, streets, found, ends, title)
    map_files.write_features(features(found, ends, options.weight), options.picture, picture)
    print(f"route.py: {title}", file=sys.stderr)


if __name__ == "__main__":
    run("route.py", main, status=2)
