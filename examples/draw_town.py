#!/usr/bin/env python3
"""Draws a town as a map of OpenStreetMap, to try what reads maps if no extract is at hand: draw_town.py >drawn.osm

It has 24 by 18 crossings some 120 m apart, and a river with two bridges. An avenue on either bank and one across each
bridge are faster than the streets, of which some are one way. Every run writes the same bytes.
"""

import math
import sys

COLUMNS, ROWS = 24, 18
RIVER = 9  # the row that is the first one north of it
BRIDGES = (5, 17)
ALONG = """Station Road, Mill Lane, Church Street, Elm Road, Baker Street, School Lane, Orchard Road, Low Street,
South Avenue, North Avenue, Castle Street, Park Road, Garden Lane, Chapel Street, Hill Road, Abbey Road, Quarry Road,
Forest Road""".replace("\n", " ").split(", ")
ACROSS = """Ash, Birch, Cedar, Dean, Elder, West Bridge, Fern, Gold, Hazel, Iris, Juniper, King, Lime, Maple, Nutmeg,
Oak, Pine, East Bridge, Quince, Rose, Sorrel, Thorn, Vine, Willow""".replace("\n", " ").split(", ")


def node(column, row):
    return 1000 + row * COLUMNS + column


def place(column, row):
    """The latitude and longitude of a crossing: streets bend a little, and the banks are farther apart."""
    north = row * 0.00108 + 0.0004 * math.sin(column / 4) + (0.0012 if row >= RIVER else 0)
    east = column * 0.00168 + 0.0003 * math.sin(row / 3 + column / 5)
    return 50 + north, 8 + east


def ways():
    """Each way as its nodes, its name, its kind, and whether it goes one way alone."""
    for row, name in enumerate(ALONG):
        is_avenue = row in (RIVER - 1, RIVER)
        yield [node(column, row) for column in range(COLUMNS)], name, is_avenue, not is_avenue and row % 4 == 1
    for column, name in enumerate(ACROSS):
        if column in BRIDGES:
            yield [node(column, row) for row in range(ROWS)], f"{name} Avenue", True, False
            continue
        for rows, part in ((range(RIVER), "South"), (range(RIVER, ROWS), "North")):
            yield [node(column, row) for row in rows], f"{name} Street {part}", False, column % 6 == 2


def lines():
    yield '<?xml version="1.0" encoding="UTF-8"?>\n<osm version="0.6">\n'
    for row in range(ROWS):
        for column in range(COLUMNS):
            latitude, longitude = place(column, row)
            yield f'<node id="{node(column, row)}" lat="{latitude:.5f}" lon="{longitude:.5f}"/>\n'
    for number, (nodes, name, is_avenue, is_one_way) in enumerate(ways(), 1):
        yield f'<way id="{number}">\n' + "".join(f'<nd ref="{each}"/>\n' for each in nodes)
        kind = "primary" if is_avenue else "residential"
        yield f'<tag k="highway" v="{kind}"/>\n<tag k="name" v="{name}"/>\n'
        yield '<tag k="oneway" v="yes"/>\n' * is_one_way + "</way>\n"
    yield "</osm>\n"


if __name__ == "__main__":
    if len(sys.argv) > 1:
        sys.exit(__doc__)
    sys.stdout.writelines(lines())
