#!/usr/bin/env python3
"""Compares graphs that osm_to_gr.py makes of random maps, by each profile, with what docs/MAPS.md says of them.

profiles.py [MANY] draws MANY maps, 40 where none is given, with tags of access, speed and size, ferries, barriers and
turn restrictions, and prints the first difference. Speeds, tags of access and kinds of barriers are those of the tables
of docs/MAPS.md. The least cost of each pair of nodes is compared with that of a search from arc to arc.
"""

import math
import os
import random
import re
import sys
import tempfile

sys.dont_write_bytecode = True
import turns  # it says where to_gr.py is
from turns import Written, check_costs, metres, tags_text
from to_gr import Refused

ROOT = os.path.join(os.path.dirname(os.path.abspath(__file__)), "..")
PROFILES = ["car", "lorry", "bicycle", "foot"]
RESTRICTED = {
    "car": ("motorcar", "motor_vehicle", "vehicle"), "lorry": ("hgv", "motor_vehicle", "vehicle"),
    "bicycle": ("bicycle", "vehicle"),
}
ALLOWED = ["yes", "designated", "permissive", "official", "public", "destination", "customers", "unknown"]
SIZES = {"maxheight": 4, "maxwidth": 2.55, "maxlength": 16.5, "maxweight": 40, "maxaxleload": 11.5}
SPEEDS = {"30": 30, "12.5 mph": 20.1168, "none": 130, "walk": 7, "DE:urban": 50, "XY:rural": 90, "DE:rural": 100}
LORRY_SPEEDS = {**SPEEDS, "none": 80, "XY:rural": 60, "DE:rural": 60}
TURNS = [(20, 180, 30), (-180, -20, 70)]  # in tenths of a second


def rows_below(lines, head):
    """The cells of the table of a document that begins with a head, without its marks of code."""
    at = next(number for number, line in enumerate(lines) if line.startswith(head)) + 2
    while lines[at].startswith("|"):
        yield [cell.strip() for cell in lines[at].strip("|\n").split("|")]
        at += 1


class Tables:
    """The tables of docs/MAPS.md: speeds by profile and highway as (km/h, whether with leave), access and barriers."""

    def __init__(self):
        with open(os.path.join(ROOT, "docs/MAPS.md"), encoding="utf-8") as text:
            lines = text.readlines()
        self.speeds = {profile: {} for profile in PROFILES}
        for highway, *cells in rows_below(lines, "| `highway` | car"):
            for profile, cell in zip(PROFILES, cells):
                if cell:
                    self.speeds[profile][highway.strip("`")] = (int(cell.split()[0]), "leave" in cell)
        self.access = self.words(lines, "| profile | tags of access")
        self.closed = self.words(lines, "| profile | closed")

    def words(self, lines, head):
        return {
            profile: re.findall("`([^`]+)`", cells)
            for names, cells in rows_below(lines, head) for profile in names.split(", ")
        }


TABLES = Tables()


def some_tags(chance):
    """Tags of a way."""
    kinds = [*TABLES.speeds["car"], *TABLES.speeds["foot"], "proposed"] + ["residential"] * 30
    tags = {"highway": chance.choice(kinds)}
    if chance.random() < 0.1:
        tags = {"route": "ferry"}
        if chance.random() < 0.5:
            tags["duration"] = chance.choice(["5", "0:05", "PT5M"])
    values = [*ALLOWED, "no", "private", "delivery", "forestry"] + ["destination", "customers", "yes"] * 2
    for profile in PROFILES:
        for key in TABLES.access[profile]:
            if chance.random() < 0.05:
                tags[key] = chance.choice(values)
    for key in ("maxspeed", "maxspeed:hgv"):
        if chance.random() < 0.2:
            tags[key] = chance.choice([*SPEEDS, "fast"])
    for key, most in SIZES.items():
        if chance.random() < 0.05:
            unit = "t" if key in ("maxweight", "maxaxleload") else "m"
            tags[key] = chance.choice([f"{most}", f"{most - 0.5} {unit}", "none", "?"])
    for key in ("oneway", "oneway:bicycle", "oneway:motor_vehicle", "oneway:foot"):
        if chance.random() < (0.2 if key == "oneway" else 0.04):
            tags[key] = chance.choice(["yes", "-1", "no", "reversible", "yes"])
    for key, value in (("cycleway", "opposite"), ("area", "yes"), ("motorroad", "yes"), ("junction", "roundabout")):
        if chance.random() < 0.06:
            tags[key] = value
    return tags


class Drawn:
    """A random map: `places` and `barriers` by node, `ways` as (way, nodes, tags), and turn restrictions."""

    def __init__(self, chance):
        count = chance.randrange(4, 10)
        self.places = {node: [50 + chance.random() / 50, 8 + chance.random() / 50] for node in range(1, count + 1)}
        kinds = [*TABLES.closed["car"], "gate", "lift_gate", "bollard", "bollard", "?"]
        self.barriers = {}
        for node in self.places:
            if chance.random() < 0.25:
                self.barriers[node] = {"barrier": chance.choice(kinds)}
                if chance.random() < 0.3:
                    keys = [key for profile in PROFILES for key in TABLES.access[profile]]
                    self.barriers[node][chance.choice([*keys, "maxheight"])] = chance.choice(["yes", "no", "2"])
        self.ways = []
        for number in range(1, count + chance.randrange(6)):
            nodes = [chance.randrange(1, count + 1)]
            for _ in range(chance.choice([1, 1, 2, 3])):
                nodes.append((nodes[-1] + chance.choice([0, 0, 1, count - 2])) % count + 1)
            self.ways.append((number, nodes, some_tags(chance)))
        self.relations = []
        for _ in range(chance.randrange(8)):
            via = chance.choice(list(self.places))
            near = [way[0] for way in self.ways if via in (way[1][0], way[1][-1])] or [1]
            key = "restriction" + chance.choice(["", "", ":hgv", ":vehicle", ":bicycle"])
            tags = {key: chance.choice(["no_left_turn", "no_u_turn", "only_straight_on"])}
            if chance.random() < 0.2:
                tags["except"] = chance.choice(["bicycle", "hgv", "motorcar;psv"])
            members = [("way", chance.choice(near), "from"), ("node", via, "via"), ("way", chance.choice(near), "to")]
            self.relations.append((tags, members))

    def text(self):
        parts = ["<osm>"]
        for node, (latitude, longitude) in self.places.items():
            tags = tags_text(self.barriers.get(node, {}))
            parts.append(f'<node id="{node}" lat="{latitude}" lon="{longitude}">{tags}</node>')
        for number, nodes, tags in self.ways:
            body = "".join(f'<nd ref="{node}"/>' for node in nodes)
            parts.append(f'<way id="{number}">{body}{tags_text(tags)}</way>')
        for number, (tags, members) in enumerate(self.relations, 1):
            body = "".join(f'<member type="{kind}" ref="{ref}" role="{role}"/>' for kind, ref, role in members)
            parts.append(f'<relation id="{number}">{body}{tags_text({"type": "restriction", **tags})}</relation>')
        return "\n".join([*parts, "</osm>"])


class Roads(turns.Model):
    """What a map means to a profile; weights are tenths of a second."""

    def __init__(self, drawn, profile, by_angle=()):
        self.profile, self.places, self.by_angle = profile, drawn.places, by_angle
        self.vehicles = RESTRICTED.get(profile, ())
        self.arcs, self.roads = [], {}
        for number, nodes, tags in drawn.ways:
            road = self.road(tags)
            if road:
                self.roads[number] = nodes
                self.add_arcs(number, nodes, *road, tags)
        self.settle_bans(drawn)
        self.closed = {node for node, tags in drawn.barriers.items() if self.is_closed(tags)}

    def access(self, tags):
        """The tag that says who may go there, and if they may."""
        key = next((key for key in TABLES.access[self.profile] if key in tags), None)
        allowed = [*ALLOWED, "delivery"] if self.profile == "lorry" else ALLOWED
        return key, key is None or tags[key] in allowed

    def is_too_large(self, tags):
        if self.profile != "lorry":
            return False
        numbers = ((most, re.match("[0-9.]+", tags.get(key, ""))) for key, most in SIZES.items())
        return any(found and float(found[0]) < most for most, found in numbers)

    def road(self, tags):
        """The speed, the directions and the factor of a way, or None."""
        key, is_allowed = self.access(tags)
        is_motor = self.profile in ("car", "lorry")
        if not is_allowed or (tags.get("area") == "yes" and self.profile != "foot") or self.is_too_large(tags):
            return None
        if self.profile == "bicycle" and "motorroad" in tags:
            return None
        if "highway" in tags:
            speed, with_leave = TABLES.speeds[self.profile].get(tags["highway"], (0, False))
            has_leave = key not in (None, "access") and tags[key] in ALLOWED[:4]
            if not speed or with_leave and not has_leave:
                return None
        elif is_motor and key is None:
            return None
        else:
            speed = 10
        directions = self.directions(tags)
        if directions is None:
            return None
        through = ["destination", "customers"] + ["delivery"] * (self.profile == "lorry")
        return self.signed(tags, speed), directions, 10 if is_motor and tags.get(key) in through else 1

    def signed(self, tags, speed):
        if "highway" not in tags or self.profile not in ("car", "lorry"):
            return speed
        if self.profile == "car":
            return SPEEDS.get(tags.get("maxspeed"), speed)
        text = tags.get("maxspeed:hgv", tags.get("maxspeed"))
        return LORRY_SPEEDS.get(text, speed)

    def directions(self, tags):
        if self.profile == "bicycle" and tags.get("cycleway") == "opposite":
            return "both"
        keys = {
            "car": ["oneway:motorcar", "oneway:motor_vehicle", "oneway"], "foot": ["oneway:foot"],
            "lorry": ["oneway:hgv", "oneway:motor_vehicle", "oneway"], "bicycle": ["oneway:bicycle", "oneway"],
        }[self.profile]
        value = next((tags[key] for key in keys if key in tags), None)
        if value is None:
            is_motorway = tags.get("highway") == "motorway" and self.profile != "bicycle"
            return "yes" if self.profile != "foot" and (is_motorway or "junction" in tags) else "both"
        return {"yes": "yes", "-1": "-1", "no": "both"}.get(value)

    def add_arcs(self, number, nodes, speed, directions, factor, tags):
        pairs = [(one, other) for one, other in zip(nodes, nodes[1:]) if one != other]
        whole = sum(metres(self.places[one], self.places[other]) for one, other in pairs)
        if "duration" in tags and whole:
            speed = whole / 300 * 3.6
        for one, other in pairs:
            weight = round(10 * factor * metres(self.places[one], self.places[other]) / (speed / 3.6))
            if directions != "-1":
                self.arcs.append((number, "", one, other, weight))
            if directions != "yes":
                self.arcs.append((number, "", other, one, weight))

    def is_closed(self, tags):
        key, is_allowed = self.access(tags)
        if self.is_too_large(tags) or key:
            return self.is_too_large(tags) or not is_allowed
        return tags["barrier"] in TABLES.closed[self.profile]

    def free_turn(self, come, other):
        return None if come[-1][3] in self.closed and other[3] != come[-1][2] else 0

    def turn(self, come, other, price):
        one = come[-1]
        if one[3] in self.closed:
            return (price or 0) if other[3] == one[2] and self.may_follow(come, other) else None
        cost = super().turn(come, other, price)
        if cost is None or other[3] == one[2] or self.arms(one[3]) < 3:
            return cost
        return cost + sum(more for least, most, more in self.by_angle if least <= self.angle(one, other) < most)

    def angle(self, one, other):
        """By how many degrees to the right one turns."""
        (north, east), (north2, east2) = (
            [there - here for here, there in zip(self.places[arc[2]], self.places[arc[3]])] for arc in (one, other)
        )
        narrow = math.cos(math.radians(self.places[one[3]][0]))
        east, east2 = east * narrow, east2 * narrow
        return math.degrees(math.atan2(north * east2 - east * north2, north * north2 + east * east2))


def check(chance, folder, drawn, profile):
    """Compares the graphs of a map for a profile with it, and gives whether its barriers and turns change costs."""
    name, own = os.path.join(folder, "map.osm"), os.path.join(folder, "own")
    with open(name, "w", encoding="utf-8") as out:
        out.write(drawn.text())
    with open(os.path.join(ROOT, "examples/profiles", profile), encoding="utf-8") as lines, open(own, "w") as out:
        out.write(lines.read() + "".join(f"turn {least} {most} {more / 10}\n" for least, most, more in TURNS))
    model, by_angle, price = Roads(drawn, profile), Roads(drawn, profile, TURNS), chance.choice([0, 50, 1000])
    trials = [(model, ["--profile", profile], {"is_free": True})]
    if profile != "foot":
        trials.append((model, ["--profile", profile, "--turns"], {}))
        trials.append((by_angle, ["--profile", own, "--turns"], {}))
        trials.append((by_angle, ["--profile", own, "--turns", "--join"], {}))
        trials.append((by_angle, ["--profile", own, "--turns", "--uturns", str(price / 10)], {"price": price}))
    costs = []
    for roads, words, rule in trials:
        try:
            written = Written(name, *words, unit="deciseconds", to=os.path.join(folder, "written"))
        except Refused as fault:
            if roads.arcs or f"no road of profile {os.path.basename(words[1])} whose" not in str(fault):
                raise
            return [False] * 5
        costs.append(roads.all_costs(**rule))
        check_costs(roads, written, costs[-1])
    closed = [model.arcs and costs[0] != Roads(without_barriers(drawn), profile).all_costs(is_free=True)]
    return closed + [one != other for one, other in zip(costs, costs[1:])] + [False] * (5 - len(costs))


def without_barriers(drawn):
    found = Drawn.__new__(Drawn)
    found.places, found.ways, found.relations, found.barriers = drawn.places, drawn.ways, drawn.relations, {}
    return found


def main():
    many = int(sys.argv[1]) if len(sys.argv) > 1 else 40
    changed = [0] * 5
    with tempfile.TemporaryDirectory() as folder:
        for seed in range(many):
            chance = random.Random(seed)
            drawn = Drawn(chance)
            for profile in PROFILES:
                try:
                    found = check(chance, folder, drawn, profile)
                except (AssertionError, Refused, ValueError) as fault:
                    print(f"map {seed}, {profile}: {fault!r}"[:3000])
                    return
                changed = [count + bool(more) for count, more in zip(changed, found)]
    if min(changed[:3]) < many // 8:
        print(f"costs are changed by barriers, turns and angles in {changed} graphs only")


if __name__ == "__main__":
    main()
