#!/usr/bin/env python3
"""Finds the nearest node of a map to a latitude and longitude: nearest.py PLACES.txt LATITUDE LONGITUDE

PLACES.txt is what osm_to_gr.py --places writes. What comes is START END NODE METRES: the vertices where routes from
there begin and routes to there end, the node of the map, and how far it is, to a metre. Without LATITUDE and LONGITUDE
standard input has both in each line, and each line has its answer. Needs to_gr.py beside it.

    --any   takes a node that is not joined to the largest part of the map, too

From such a node most others cannot be reached, or it cannot be reached from them, as in a car park that the map joins
to nothing. It is left out, and standard error says so if it is the nearest one. The nearest node is not the nearest
point on a road.

A line that is not understood is refused, with its number, and so is a map of which no node is joined. Then the status
is 1, and nothing is written.
"""

import math
import re
import sys
from array import array
from bisect import bisect_left
from collections import namedtuple

sys.dont_write_bytecode = True
from to_gr import Arguments, Refused, run

EARTH = 6371008.8  # the mean radius, in metres
NUMBER = re.compile(r"[+-]?(?:[0-9]+\.?[0-9]*|\.[0-9]+)(?:[eE][+-]?[0-9]+)?")
FORM = "NODE LATITUDE LONGITUDE START END yes|no"
PLACE = re.compile(r"-?[0-9]+ (\S+) (\S+) [1-9][0-9]* [1-9][0-9]* (yes|no)")

Place = namedtuple("Place", "number is_joined metres")


def degrees(latitude, longitude):
    """The numbers of a place on the earth. ValueError says why there is none."""
    for word, most in ((latitude, 90), (longitude, 180)):
        if not NUMBER.fullmatch(word):
            raise ValueError(f"{word!r} is no decimal number")
        if not abs(float(word)) <= most:
            raise ValueError(f"{latitude} {longitude} is not on the earth")
    return float(latitude), float(longitude)


def length(one, other):
    """The length of the great circle between two places, in metres (the haversine formula)."""
    (lat1, lon1), (lat2, lon2) = ([math.radians(x) for x in place] for place in (one, other))
    h = math.sin((lat2 - lat1) / 2) ** 2 + math.cos(lat1) * math.cos(lat2) * math.sin((lon2 - lon1) / 2) ** 2
    return 2 * EARTH * math.asin(math.sqrt(min(h, 1)))


class Places:
    """The lines of a file of places, from south to north."""

    def __init__(self, name):
        self.texts, found = [], []
        with open(name, encoding="ascii", errors="surrogateescape", newline="\n") as lines:
            for line, text in enumerate(lines, 1):
                try:
                    parts = PLACE.fullmatch(text.rstrip("\n"))
                    if not parts:
                        raise ValueError(f"not {FORM}, as osm_to_gr.py --places writes")
                    found.append((*degrees(parts[1], parts[2]), len(found), parts[3] == "yes"))
                except ValueError as fault:
                    raise Refused(f"{name}:{line}: {fault}") from None
                self.texts.append(text.rstrip("\n"))
        found.sort()
        latitudes, longitudes, numbers, joined = zip(*found) if found else ((), (), (), ())
        self.latitudes, self.longitudes = array("d", latitudes), array("d", longitudes)
        self.numbers, self.joined = array("Q", numbers), bytes(joined)

    def outwards(self, here):
        """Each place as (metres that it is away at least, its place in the order), the least metres first."""
        north = bisect_left(self.latitudes, here[0])
        south = north - 1
        while south >= 0 or north < len(self.latitudes):
            above = self.latitudes[north] - here[0] if north < len(self.latitudes) else math.inf
            below = here[0] - self.latitudes[south] if south >= 0 else math.inf
            if above < below:
                yield math.radians(above) * EARTH, north
                north += 1
            else:
                yield math.radians(below) * EARTH, south
                south -= 1

    def nearest(self, here, is_any):
        """The nearest place, of those that are joined if not any will do; None if there is none."""
        best = None
        for least, i in self.outwards(here):
            if best and least > best.metres * 1.000001:
                break
            if not is_any and not self.joined[i]:
                continue
            place = Place(self.numbers[i], self.joined[i], length(here, (self.latitudes[i], self.longitudes[i])))
            if not best or (place.metres, place.number) < (best.metres, best.number):
                best = place
        return best

    def answer(self, here, is_any):
        """The line of the nearest place, and what is said of a nearer one that is left out, or None."""
        best, said = self.nearest(here, is_any), None
        near = best if is_any else self.nearest(here, True)
        if near.metres < best.metres:
            node = self.texts[near.number].split()[0]
            said = f"{here[0]} {here[1]}: left out node {node} at {near.metres:.0f} m, not joined to the largest part"
        node, _, _, start, end, _ = self.texts[best.number].split()
        return f"{start} {end} {node} {best.metres:.0f}\n", said


def asked(options):
    """The places that are asked for."""
    if options.latitude is not None:
        if options.longitude is None:
            raise Refused("a latitude without a longitude (see --help)")
        yield "the command line", f"{options.latitude} {options.longitude}"
        return
    with open(0, encoding="ascii", errors="surrogateescape", closefd=False) as lines:
        for line, text in enumerate(lines, 1):
            yield f"standard input:{line}", text


def main():
    parser = Arguments(__doc__)
    parser.add_argument("places")
    parser.add_argument("latitude", nargs="?")
    parser.add_argument("longitude", nargs="?")
    parser.add_argument("--any", action="store_true")
    options = parser.parse_intermixed_args()
    places = Places(options.places)
    if not (len(places.joined) if options.any else any(places.joined)):
        raise Refused(f"{options.places}: no place{'' if options.any else ' that is joined to others'}")
    lines, said = [], []
    for where, text in asked(options):
        words = text.split()
        try:
            if len(words) != 2:
                raise ValueError("not LATITUDE LONGITUDE")
            line, more = places.answer(degrees(*words), options.any)
        except ValueError as fault:
            raise Refused(f"{where}: {fault}") from None
        lines.append(line)
        said.extend([more] if more else [])
    for each in said:
        print(f"nearest.py: {each} (--any takes it)", file=sys.stderr)
    if sys.stdout is None:
        raise Refused("standard output is closed")
    sys.stdout.writelines(lines)
    sys.stdout.flush()


if __name__ == "__main__":
    run("nearest.py", main)
