"""A route in the form of OSRM's HTTP API: its line, its streets with the turns between them, and its stretches."""

import math
from itertools import groupby

from map_files import as_unit, point
from nearest import length
from street_questions import kinds_of

DIGITS = {"polyline": 5, "polyline6": 6}
# What OSRM calls a turn to the right or left, by how many degrees it is at most.
TURNS = ((20, "straight"), (40, "slight "), (120, ""), (179, "sharp "))


def polyline(places, digits):
    """A line as text, as Google's encoded polylines."""
    text, last = [], (0, 0)
    for place in places:
        now = tuple(round(each * 10**digits) for each in place)
        for step in (now[0] - last[0], now[1] - last[1]):
            bits = ~(step << 1) if step < 0 else step << 1
            while bits >= 0x20:
                text.append(chr((bits & 0x1F | 0x20) + 63))
                bits >>= 5
            text.append(chr(bits + 63))
        last = now
    return "".join(text)


def geometry(places, form):
    if form == "geojson":
        return {"type": "LineString", "coordinates": [point(place) for place in places]}
    return polyline(places, DIGITS[form])


def line_of(pieces):
    """The places through which pieces lead."""
    return pieces[0].places[:1] + [place for piece in pieces for place in piece.places[1:]] if pieces else []


def stretches(pieces):
    """The straight parts of pieces, as (metres, cost)."""
    for piece in pieces:
        parts = [length(*ends) for ends in zip(piece.places, piece.places[1:])]
        whole = sum(parts)
        for metres in parts:
            yield metres, piece.cost * metres / whole if whole else 0


def metres_of(pieces):
    return sum(metres for metres, _ in stretches(pieces))


def bearing(one, other):
    """The direction from one place to another, in degrees from north to the east."""
    along = math.remainder(other[1] - one[1], 360) * math.cos(math.radians((one[0] + other[0]) / 2))
    return math.degrees(math.atan2(along, other[0] - one[0])) % 360


def bearings_of(line):
    """The directions in which a line begins and ends; north if it leads nowhere."""
    found = [bearing(*ends) for ends in zip(line, line[1:]) if ends[0] != ends[1]] or [0]
    return found[0], found[-1]


def turn_of(before, after):
    """What OSRM calls the turn from one direction to another."""
    right = (after - before + 180) % 360 - 180
    side = "right" if right > 0 else "left"
    for most, word in TURNS:
        if abs(right) <= most:
            return word if word == "straight" else word + side
    return "uturn"


def crossing(place, before, after):
    """The place where a step begins, with the roads of the route there; of the first and the last step there is one."""
    back = None if before is None else (round(before) + 180) % 360
    roads = [each for each in (back, None if after is None else round(after) % 360) if each is not None]
    entry = [len(roads) == 1 or each is not back for each in roads]
    found = {"location": point(place), "bearings": roads, "entry": entry}
    if before is not None:
        found["in"] = 0
    if after is not None:
        found["out"] = len(roads) - 1
    return found


def maneuver(place, before, after):
    """What is to be done where a step begins; it has no direction before the first, and none after the last."""
    found = {"location": point(place), "bearing_before": 0, "bearing_after": 0}
    found.update({"bearing_before": round(before) % 360} if before is not None else {})
    found.update({"bearing_after": round(after) % 360} if after is not None else {})
    if before is None or after is None:
        return {"type": "arrive" if after is None else "depart", **found}
    turn = turn_of(before, after)
    return {"type": "new name" if turn == "straight" else "turn", "modifier": turn, **found}


class RouteForm:
    """How routes are written: by the names of arcs, and the unit of weights."""

    def __init__(self, names, unit):
        self.names, self.unit = names, unit

    def seconds(self, cost):
        return round(as_unit(cost, self.unit), 1)

    def measures(self, pieces, cost):
        return {"distance": round(metres_of(pieces), 1), **self.times(cost)}

    def times(self, cost):
        seconds = self.seconds(cost)
        return {"duration": seconds, "weight": seconds}

    def answer(self, routes, spots, options):
        """The routes between the places in turn, as one with so many legs."""
        form = options.get("geometries", "polyline")
        legs = [self.leg(route, spot, options, form) for route, spot in zip(routes, spots[1:])]
        whole = {key: round(sum(leg[key] for leg in legs), 1) for key in ("distance", "duration", "weight")}
        answer = {**whole, "weight_name": "duration", "legs": legs}
        if options.get("overview") != "false":
            line = [place for route in routes for place in line_of(route.pieces)]
            answer["geometry"] = geometry(line or [spots[0].place, spots[-1].place], form)
        return answer

    def leg(self, route, end, options, form):
        names = list(dict.fromkeys(self.names[piece.arc] for piece in route.pieces if self.names[piece.arc]))
        steps = list(self.steps(route.pieces, end, form)) if options.get("steps") == "true" else []
        found = {**self.measures(route.pieces, route.cost), "summary": ", ".join(names[:2]), "steps": steps}
        kinds = kinds_of(options)
        if kinds:
            found["annotation"] = self.annotation(route.pieces, kinds)
        return found

    def annotation(self, pieces, kinds):
        """What is said of each straight part of a leg."""
        found = {kind: [] for kind in kinds}
        for metres, cost in stretches(pieces):
            seconds = as_unit(cost, self.unit)
            speed = metres / seconds if seconds else 0
            said = {"duration": seconds, "distance": metres, "weight": seconds, "speed": speed}
            for kind in kinds:
                found[kind].append(round(said[kind], 3))
        return found

    def steps(self, pieces, end, form):
        """The streets of a leg in order, and its end."""
        before, name = None, ""
        for name, own in groupby(pieces, key=lambda piece: self.names[piece.arc]):
            own = list(own)
            line = line_of(own)
            after, next_before = bearings_of(line)
            cost = sum(piece.cost for piece in own)
            yield self.step(line, name, (before, after), self.measures(own, cost), form)
            before = next_before
        place = pieces[-1].places[-1] if pieces else end.place
        if not pieces:
            yield self.step([place, place], name, (None, 0), self.measures([], 0), form)
        yield self.step([place, place], name, (before or 0, None), self.measures([], 0), form)

    def step(self, line, name, bearings, measures, form):
        """A step along a line, with the directions before and after its beginning."""
        return {
            **measures, "name": name, "mode": "driving", "geometry": geometry(line, form),
            "maneuver": maneuver(line[0], *bearings), "intersections": [crossing(line[0], *bearings)],
        }
