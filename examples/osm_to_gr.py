#!/usr/bin/env python3
"""Writes a graph in the .gr format from a map of OpenStreetMap: osm_to_gr.py MAP.osm >map.gr

A map is XML as the website, Overpass or osmium write it, also packed by gzip, bzip2 or xz, or PBF if Python has
pyosmium; without MAP.osm it comes on standard input. The roads of a profile become arcs between their nodes, and
nodes.txt says in line 3 which node vertex 3 is, and its latitude and longitude. As many processes share the work as
there are processors. Needs to_gr.py, processes.py, the files osm_*.py and the folder profiles beside it.

    --profile NAME       whose roads: car, lorry, bicycle or foot, or a file with a slash in its name (car)
    --weight UNIT        lengths in metres or decimetres, times in seconds or deciseconds (decimetres). The first line
                         of the graph says which, as `c unit metres`
    --nodes FILE         in place of nodes.txt
    --ways FILE          a line for each arc, in the order of the graph: the number of its way, a tab, and the name of
                         the way, or its ref if it has no name
    --places FILE        a line for each node that arcs join: NODE LATITUDE LONGITUDE START END JOINED. Routes from the
                         node begin at vertex START, and routes to it end at END; JOINED is yes if one can come from
                         the largest part of the map and go there, and else no. nearest.py reads it
    --join               nodes at which a road only goes on are no vertices. Their places are in lines.txt, a line for
                         each arc: LATITUDE LONGITUDE of each node between its ends
    --lines FILE         in place of lines.txt
    --turns              keeps turn restrictions, and writes places.txt if no --places names another file. Nobody turns
                         round in the middle of a street. A node then can have several vertices, and START and END
                         differ
    --uturns SECONDS     with --turns: one may turn round anywhere, at this price

Weights are rounded to the nearest whole number, and to 1 if that would be 0 between two places. The files of profiles
say which roads there are and how fast; docs/MAPS.md has them in words. What was left out and why is counted on
standard error. Nodes and ways may stand in any order: nodes wait in a temporary file, 24 bytes each, and memory grows
with the nodes of roads alone, and with --places with the arcs too.

A tab or a line break in a name is written as a blank, and such names are counted. Arcs of no cost that end at END have
way 0 and no name. A node with a barrier that closes the road has several vertices, too.

A map that is no such XML, was cut off, or has no road is refused, with its line if it has one, and so is a profile
with a line that is not understood. Then the status is 1, and no file is written.
"""

import argparse
import gc
import lzma
import math
import os
import re
import shlex
import struct
import sys
import tempfile
from array import array
from collections import Counter, defaultdict
from itertools import count
from xml.parsers import expat

sys.dont_write_bytecode = True
from osm_blocks import DAMAGED, Reading
from osm_elements import Collector, Wanted
from osm_graph import UNITS, Graph, encoded
from osm_profiles import read_profile
from osm_turns import Restrictions
from osm_xml import Handler
from to_gr import Arguments, Refused, run, unpacked, write_graph

class Map:
    """The roads of a map. Of other ways only counts are kept, and nodes wait in a temporary file."""

    def __init__(self, options):
        self.wanted = Wanted(options.profile, bool(options.ways), options.turns)
        self.profile, self.roads = options.profile, []
        self.refs = array("I")  # the nodes of the roads one after the other, by their numbers
        self.numbers = defaultdict(count().__next__)  # of nodes that roads name, from 0
        self.closed, self.mended = set(), 0
        self.left_out, self.ferries, self.ferries_left_out = Counter(), 0, Counter()
        self.speeds_not_read, self.others_not_read = Counter(), Counter()
        self.nodes = tempfile.TemporaryFile()
        self.restrictions = Restrictions(self.profile.vehicles) if options.turns else None
        self.restriction_count = 0

    def take(self, elements):
        """Takes the elements of the next piece of the map."""
        self.roads += elements.roads
        self.refs.extend(map(self.numbers.__getitem__, elements.refs))
        self.closed.update(elements.closed)
        for name in ("left_out", "ferries_left_out", "speeds_not_read", "others_not_read"):
            getattr(self, name).update(getattr(elements, name))
        for name in ("mended", "ferries", "restriction_count"):
            setattr(self, name, getattr(self, name) + getattr(elements, name))
        if self.restrictions:
            self.restrictions.take(elements.restrictions)
        if elements.nodes:
            self.nodes.write(struct.pack("=Q", len(elements.nodes)))
            for numbers in (elements.nodes, elements.latitudes, elements.longitudes):
                self.nodes.write(numbers)

    def closed_nodes(self):
        """The numbers of the nodes whose barriers close roads."""
        return {self.numbers[node] for node in self.closed if node in self.numbers}

    def places(self):
        """The latitudes and longitudes of the nodes by their numbers, nan where the map lacks one."""
        latitudes = array("d", [math.nan]) * len(self.numbers)
        longitudes = array("d", latitudes)
        self.nodes.seek(0)
        while head := self.nodes.read(8):
            (many,) = struct.unpack("=Q", head)
            columns = [array(kind) for kind in "qdd"]
            for column in columns:
                column.frombytes(self.nodes.read(8 * many))
            for number, latitude, longitude in zip(map(self.numbers.get, columns[0]), *columns[1:]):
                if number is not None:
                    latitudes[number], longitudes[number] = latitude, longitude
        return latitudes, longitudes


def is_pbf(stream, name):
    """Whether a map is in the format PBF, by its first bytes or by its name."""
    return name.lower().endswith(".pbf") or b"OSMHeader" in stream.peek(32)[:32]


def read_pbf(name, found, is_file):
    """Reads a map in the format PBF, if Python has pyosmium."""
    try:
        if not is_file:
            raise ImportError
        import osm_pbf
    except ImportError:
        source = name if name.lower().endswith(".pbf") else "MAP.osm.pbf"
        target = re.sub(r"(\.osm)?\.pbf$", ".osm", source, flags=re.IGNORECASE)
        cure = f"osmium cat {shlex.quote(source)} -o {shlex.quote(target)}"
        more = ", or install pyosmium (Debian: python3-pyosmium)" if is_file else ""
        raise Refused(f"{name}: this is PBF, and not XML: {cure}{more}") from None
    try:
        collector = Collector(found.wanted, found.take)
        osm_pbf.read(Handler(collector), name)
        collector.hand_over()
    except RuntimeError as fault:
        raise Refused(f"{name}: {fault}") from None
    return found


def unpacked_map(stream, name):
    """The bytes of a map, unpacked if its first bytes say that it is packed."""
    first = stream.peek(32)
    if first.startswith(b"\x28\xb5\x2f\xfd"):
        raise Refused(f"{name}: this is packed by zstd: zstd -dc MAP.osm.zst | osm_to_gr.py")
    return lzma.open(stream) if first.startswith(b"\xfd7zXZ\0") else unpacked(stream)


def read_map(stream, name, options):
    found = Map(options)
    if is_pbf(stream, name):
        return read_pbf(name, found, bool(options.map))
    reading = Reading(unpacked_map(stream, name), found.wanted, found.take)
    try:
        reading.read()
    except expat.ExpatError as fault:
        line = reading.lines + fault.lineno
        raise Refused(f"{name}:{line}: not well-formed XML: {expat.ErrorString(fault.code)}") from None
    except KeyError as fault:
        raise Refused(f"{name}:{reading.line}: an element without {fault.args[0]}") from None
    except (ValueError, OverflowError, struct.error) as fault:
        raise Refused(f"{name}:{reading.line}: {fault}") from None
    except DAMAGED as fault:
        if getattr(fault, "errno", None) is not None:
            raise
        raise Refused(f"{name}: the packed file is damaged: {fault}") from None
    return found


def say(text):
    print(f"osm_to_gr.py: {text}", file=sys.stderr)


def most(counter):
    """The greatest counts in words."""
    words = [f"{many} {what}" for what, many in counter.most_common(12)]
    if len(counter) > 12:
        words.append(f"{sum(counter.values()) - sum(many for _, many in counter.most_common(12))} others")
    return ", ".join(words)


def reasons(counter):
    return f": {most(counter)}" if counter else ""


def report(found, lacking):
    others, ferries_left_out = (sum(each.values()) for each in (found.left_out, found.ferries_left_out))
    ferries = found.ferries - ferries_left_out
    roads = len(found.roads) - ferries
    say(f"{roads + others} ways with highway: {roads} roads, {others} left out{reasons(found.left_out)}")
    if found.ferries:
        left_out = f"{ferries_left_out} left out{reasons(found.ferries_left_out)}"
        say(f"{found.ferries} ferries: {ferries} roads, {left_out}")
    if closed := len(found.closed_nodes()):
        say(f"nodes of roads that barriers close: {closed}")
    for what, counter in (("maxspeed", found.speeds_not_read), ("other tags", found.others_not_read)):
        if counter:
            say(f"{sum(counter.values())} {what} not read: {most(counter)}")
    if found.mended:
        say(f"names with a tab or a line break, which became a blank: {found.mended}")
    if found.restrictions:
        kept, left_out = len(found.restrictions.kept), found.restrictions.left_out
        others = sum(left_out.values())
        say(f"{found.restriction_count} turn restrictions: {kept} kept, {others} left out{reasons(left_out)}")
    elif found.restriction_count and found.profile.vehicles:
        say(f"{found.restriction_count} turn restrictions not kept (see --turns)")
    if lacking:
        say(f"nodes of roads that the map lacks: {lacking} of {len(found.numbers)}")


def check_files(parser, options):
    """Refuses to write a file over the map, or two over one another."""
    taken = {os.path.realpath(options.map): "map"} if options.map else {}
    for option in ("nodes", "ways", "places", "lines"):
        name = getattr(options, option)
        if not name or name.startswith("/dev/"):
            continue
        if taken.setdefault(os.path.realpath(name), option) != option:
            parser.error(f"--{option} would write over {name}")


def seconds(word):
    """The seconds of a word of the command line."""
    if not re.fullmatch(r"[0-9]{1,4}(\.[0-9]+)?", word):
        raise argparse.ArgumentTypeError(f"{word!r} is no number of seconds")
    return float(word)


def check_turns(parser, options):
    """Refuses prices of turns that the graph can't have."""
    is_time = UNITS[options.weight][1]
    if options.uturns is not None and not options.turns:
        parser.error("--uturns says what --turns does: call with both")
    if options.uturns and not is_time:
        parser.error("--uturns is in seconds: call with --weight seconds or deciseconds")
    if options.turns and options.profile.turn_costs and not is_time:
        parser.error("the profile's turns are in seconds: call with --weight seconds or deciseconds")


def parse():
    parser = Arguments(__doc__)
    parser.add_argument("map", nargs="?")
    parser.add_argument("--profile", default="car")
    parser.add_argument("--weight", choices=UNITS, default="decimetres")
    parser.add_argument("--nodes", default="nodes.txt")
    parser.add_argument("--ways")
    parser.add_argument("--places")
    parser.add_argument("--join", action="store_true")
    parser.add_argument("--lines")
    parser.add_argument("--turns", action="store_true")
    parser.add_argument("--uturns", type=seconds, metavar="SECONDS")
    options = parser.parse_args()
    options.profile = read_profile(options.profile)
    if options.turns and not options.profile.vehicles:
        parser.error(f"--turns keeps what holds for vehicles, and not for {options.profile.name}: leave it out")
    check_turns(parser, options)
    if options.lines and not options.join:
        parser.error("--lines says where --join writes: call with both")
    if options.join and not options.lines:
        options.lines = "lines.txt"
    if options.turns and not options.places:
        options.places = "places.txt"
    check_files(parser, options)
    return options


def convert():
    options = parse()
    name = options.map or "standard input"
    with open(options.map or 0, "rb") as stream:
        found = read_map(stream, name, options)
    graph = Graph(found, options.weight, options.uturns, options.join)
    report(found, graph.lacking)
    if not graph.many:
        cure = ": in Overpass ask for (._;>;)" if graph.lacking else ""
        raise Refused(f"{name}: no road of profile {options.profile.name} whose nodes are in the map{cure}")
    write(graph, options)


def write(graph, options):
    """Writes a graph and the files beside it."""
    beside, comments = [(options.nodes, graph.node_text())], [f"unit {options.weight}"]
    if options.ways:
        beside.append((options.ways, graph.way_text()))
    if options.join:
        beside.append((options.lines, graph.line_text()))
        comments.append("joined")
    names, texts = zip(*beside)
    *others, arcs = encoded([*texts, graph.text()])
    beside = [*zip(names, others)]
    if options.places:
        # The other texts are made meanwhile.
        joined = graph.joined()
        say(f"places that are joined to the largest part: {sum(joined)} of {sum(map(bool, graph.vertices))}")
        beside += zip([options.places], encoded([graph.place_text(joined)]))
    write_graph(graph.turns.count, graph.many, arcs, beside, comments, None)


if __name__ == "__main__":
    gc.disable()  # looking for cycles takes time, and there are none to speak of
    run("osm_to_gr.py", convert)
