"""What osm_to_gr.py writes of a map, read beside its graph, and GeoJSON: what route.py and isochrone.py share."""

import argparse
import contextlib
import importlib.util
import json
import os
import re
import shutil
import sys
import zlib
from array import array
from collections import namedtuple

from nearest import Places, degrees
from streets import read_streets
from osm_to_gr import UNITS
from to_gr import Arguments, Refused, finished_only, unpacked

NODE = re.compile(r"(-?[0-9]+) (\S+) (\S+)")
WAY = re.compile(r"([0-9]+)\t([^\t]*)")

Arc = namedtuple("Arc", "tail head weight way name")


def arguments(text):
    """A parser of the words that both scripts take."""
    parser = Arguments(text)
    parser.add_argument("graph")
    parser.add_argument("--weight", choices=UNITS)
    parser.add_argument("--nodes", default="nodes.txt")
    parser.add_argument("--places", default="places.txt")
    parser.add_argument("--lines", default="lines.txt")
    parser.add_argument("--any", action="store_true")
    parser.add_argument("--picture", type=picture_name)
    return parser


def parsed(parser):
    """The words of the command line, with the unit of weights: that of the graph if it says one."""
    options = parser.parse_intermixed_args()
    written = written_unit(options.graph)
    if written and options.weight not in (None, written):
        cure = f"leave --weight out, or write the graph anew by osm_to_gr.py --weight {options.weight}"
        raise Refused(f"{options.graph}: weights are {written}, and not {options.weight}: {cure}")
    options.weight = written or options.weight or "decimetres"
    return options


def comments(name):
    """The comments of a graph before its arcs, as (line, words)."""
    try:
        with open(name, "rb") as stream:
            for line, text in enumerate(unpacked(stream), 1):
                words = text.split()
                if words[:1] == [b"a"]:
                    break
                if words[:1] == [b"c"]:
                    yield line, words[1:]
    except (EOFError, zlib.error, OSError) as fault:
        if getattr(fault, "errno", None) is not None:
            raise
        # What is wrong with a damaged file the program says.


def written_unit(name):
    """The unit that a comment of a graph says, as `c unit metres`; None if none does."""
    for line, words in comments(name):
        if words[:1] == [b"unit"] and len(words) == 2:
            return known_unit(words[1], f"{name}:{line}")
    return None


def is_joined(name):
    """Whether a comment of a graph says `c joined`, so that its arcs have lines."""
    return any(words == [b"joined"] for _, words in comments(name))


def known_unit(word, where):
    unit = word.decode("utf-8", "replace")
    if unit not in UNITS:
        raise Refused(f"{where}: the unit {unit!r} is none of {', '.join(UNITS)}: change that line")
    return unit


def number_from(least, most):
    """What takes a word of the command line as a whole number within bounds."""

    def number(word):
        if not (word.isascii() and word.isdigit() and least <= int(word) <= most):
            raise argparse.ArgumentTypeError(f"{word!r} is no whole number from {least} to {most}")
        return int(word)

    return number


def form_of(name):
    """The form of a picture by the end of its name."""
    return name.rpartition(".")[2].lower()


def picture_name(name):
    """The name of a picture, if one can be drawn."""
    if form_of(name) not in ("png", "svg", "pdf"):
        raise Refused(f"{name}: a picture ends with .png, .svg or .pdf")
    try:
        import matplotlib  # noqa: F401
    except ImportError:
        raise Refused("there is no matplotlib (Debian: python3-matplotlib): leave --picture out") from None
    return name


def package():
    """The package hollowbowl: the one that is installed, else that of the clone in which this file stands.

    If Python finds neither, the one that ./install put beside the program on the path is taken. If no program is on
    the path, that of the working folder is taken.
    """
    program = shutil.which("obim_query")
    if importlib.util.find_spec("hollowbowl") is None:
        sys.path.append(os.path.join(os.path.dirname(os.path.realpath(__file__)), "../python/src"))
        if program:
            sys.path.append(os.path.join(os.path.dirname(os.path.realpath(program)), "../share/hollowbowl/python"))
    try:
        import hollowbowl
    except ImportError:
        raise Refused("Python finds no package hollowbowl (docs/PYTHON.md says how to install it)") from None
    if not os.environ.get("HOLLOWBOWL") and not program and os.access("obim_query", os.X_OK):
        os.environ["HOLLOWBOWL"] = os.path.abspath("obim_query")
    return hollowbowl


@contextlib.contextmanager
def kept(name, programs=1):
    """The graph of a file, which one program or several keep as long as a `with` lasts."""
    hollowbowl = package()
    try:
        with hollowbowl.Graph.from_gr(name, programs=programs) as graph:
            yield graph
    except FileNotFoundError as fault:
        if fault.filename:
            raise
        raise Refused(fault) from None
    except (hollowbowl.Error, ValueError) as fault:
        raise Refused(fault) from None


def matched(form, text, where, words):
    found = form.fullmatch(text)
    if not found:
        raise Refused(f"{where}: not {words}")
    return found


def text_lines(name):
    """The lines of a text of osm_to_gr.py, with their numbers."""
    with open(name, encoding="utf-8", errors="surrogateescape", newline="\n") as lines:
        for line, text in enumerate(lines, 1):
            yield line, text.rstrip("\n")


class Nodes:
    """The node of each vertex, and where it is. Vertices count from 1, as in the graph."""

    def __init__(self, name, count):
        self.numbers, self.latitudes, self.longitudes = array("q"), array("d"), array("d")
        for line, text in text_lines(name):
            found = matched(NODE, text, f"{name}:{line}", "NODE LATITUDE LONGITUDE, as osm_to_gr.py --nodes writes")
            try:
                latitude, longitude = degrees(found[2], found[3])
            except ValueError as fault:
                raise Refused(f"{name}:{line}: {fault}") from None
            self.numbers.append(int(found[1]))
            self.latitudes.append(latitude)
            self.longitudes.append(longitude)
        if len(self.numbers) != count:
            raise Refused(f"{name}: {len(self.numbers)} nodes, where the graph has {count} vertices")

    def number(self, vertex):
        return self.numbers[vertex - 1]

    def place(self, vertex):
        """Latitude and longitude."""
        return self.latitudes[vertex - 1], self.longitudes[vertex - 1]


def graph_arcs(name):
    """The arcs of a graph, of which the program has taken the text, as (tail, head, weight)."""
    with open(name, "rb") as stream:
        for text in unpacked(stream):
            words = text.split()
            if words and words[0] == b"a":
                yield int(words[1]), int(words[2]), int(words[3])


def arcs(graph, ways, count):
    """Each arc of a graph with its way. Ways that are those of another graph are refused."""
    lines = text_lines(ways)
    found = 0
    for (tail, head, weight), (line, text) in zip(graph_arcs(graph), lines):
        words = matched(WAY, text, f"{ways}:{line}", "WAY, a tab and NAME, as osm_to_gr.py --ways writes")
        found = line
        yield Arc(tail, head, weight, int(words[1]), words[2])
    if found != count or next(lines, None):
        raise Refused(f"{ways}: not the ways of {graph}, which has {count} arcs")


def asked_place(words):
    """The latitude and longitude of two words of the command line."""
    try:
        return degrees(*words)
    except ValueError as fault:
        raise Refused(f"the command line: {fault}") from None


def nearest_spot(streets, name, here, is_any):
    """The nearest place on a street. Standard error has one that is nearer and left out."""
    found = streets.nearest(here, is_any)
    if found is None:
        raise Refused("the graph has no street" + ("" if is_any else " that is joined to others"))
    other = found if is_any else streets.nearest(here, True)
    if other.metres < found.metres - 0.5:
        nodes = " to ".join(map(str, other.nodes))
        said = f"left out the street at node {nodes}, {other.metres:.0f} m away, not joined to the largest part"
        print(f"{name}: {here[0]} {here[1]}: {said} (--any takes it)", file=sys.stderr)
    return found


def spot_properties(kind, spot):
    """What GeoJSON says of a place on a street: its node, or the two nodes between which it is."""
    where = {"node": spot.nodes[0]} if len(spot.nodes) == 1 else {"between": list(spot.nodes)}
    return {"kind": kind, **where, "metres_away": round(spot.metres)}


def streets_of(options, nodes, count):
    """The streets of a graph of so many arcs, by the files beside it."""
    inner = inner_places(options.lines) if is_joined(options.graph) else None
    found = read_streets(options.graph, nodes, read_places(options), graph_arcs(options.graph), inner)
    if inner and (len(found.tails) != count or next(inner, None) is not None):
        raise Refused(f"{options.lines}: not the lines of {options.graph}, which has {count} arcs")
    return found


def inner_places(name):
    """Of each arc of a joined graph the places between its ends."""
    for line, text in text_lines(name):
        words = text.split()
        try:
            if len(words) % 2:
                raise ValueError("not LATITUDE LONGITUDE for each place, as osm_to_gr.py --join writes")
            yield [degrees(*pair) for pair in zip(words[::2], words[1::2])]
        except ValueError as fault:
            raise Refused(f"{name}:{line}: {fault}") from None


def read_places(options):
    places = Places(options.places)
    if not (len(places.joined) if options.any else any(places.joined)):
        raise Refused(f"{options.places}: no place{'' if options.any else ' that is joined to others'}")
    return places


def feature(shape, coordinates, **properties):
    """A feature of GeoJSON, whose coordinates are longitude and latitude."""
    geometry = {"type": shape, "coordinates": coordinates}
    return {"type": "Feature", "properties": properties, "geometry": geometry}


def point(place):
    """A place of GeoJSON: longitude and latitude, to seven decimals, which is about a centimetre."""
    return [round(place[1], 7), round(place[0], 7)]


def write_features(features, picture_name=None, picture=b""):
    """Writes a collection of features, a line for each, and a picture, which is there once the features are."""
    if sys.stdout is None:
        raise Refused("standard output is closed")
    lines = ",\n".join(json.dumps(each, ensure_ascii=False) for each in features)
    text = f'{{"type": "FeatureCollection", "features": [\n{lines}\n]}}\n'
    with contextlib.ExitStack() as files:
        if picture_name:
            files.enter_context(finished_only(picture_name, None)).write(picture)
        sys.stdout.buffer.write(text.encode("utf-8", "surrogateescape"))
        sys.stdout.flush()


def as_unit(cost, unit):
    """A sum of weights in metres or seconds."""
    return cost / UNITS[unit][0]


def is_time(unit):
    return UNITS[unit][1]
