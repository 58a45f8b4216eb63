"""Reads the profiles of examples/profiles, for osm_to_gr.py --profile: which roads of a map are whose, and how fast.

A line of a profile is a key and its words; what comes after # is a comment. docs/MAPS.md says what each key means.
A line that is not understood is refused, with its number.
"""

import os
import re
from collections import Counter, namedtuple
from functools import cached_property
from itertools import chain

from to_gr import Refused

FOLDER = os.path.join(os.path.dirname(os.path.realpath(__file__)), "profiles")
FORWARD, BACK, BOTH = (True, False), (False, True), (True, True)
ONEWAY = {
    "yes": FORWARD, "true": FORWARD, "1": FORWARD, "-1": BACK, "reverse": BACK,
    "no": BOTH, "false": BOTH, "0": BOTH, "alternating": BOTH,
}
MAXSPEED = re.compile(r"([0-9]{1,3}(?:\.[0-9]+)?) ?(km/h|kmh|mph|knots|)")
KMH = {"": 1, "km/h": 1, "kmh": 1, "mph": 1.609344, "knots": 1.852}
SIZE = re.compile(r"([0-9]{1,4}(?:[.,][0-9]+)?) ?(m|cm|t|kg|ft|lbs|)")
IN_UNITS = {"": 1, "m": 1, "cm": 0.01, "t": 1, "kg": 0.001, "ft": 0.3048, "lbs": 0.00045359237}
FEET = re.compile(r"([0-9]{1,3})' ?(?:([0-9]{1,2})(?:\"|''))?")
NO_LIMIT = {"none", "no", "default", "unsigned", "below_default"}
MINUTES = re.compile(r"([0-9]{1,4})")
CLOCK = re.compile(r"([0-9]{1,3}):([0-5][0-9])(?::([0-5][0-9]))?")
ISO_DURATION = re.compile(r"PT(?:([0-9]+)H)?(?:([0-9]+)M)?(?:([0-9]+)S)?")

# A way as a road: its speed in km/h, its directions, the factor of its weights, and its seconds, if it says these.
Kind = namedtuple("Kind", "speed forward back factor seconds")
TurnCost = namedtuple("TurnCost", "least most seconds")


class LeftOut(Exception):
    """Why a way is no road of the profile."""


def number(word, least, most):
    """The number of a word within bounds, whole where it can be."""
    value = float(word) if re.fullmatch(r"-?[0-9]+(\.[0-9]+)?", word) else None
    if value is None or not least <= value <= most:
        raise ValueError(f"{word!r} is no number from {least} to {most}")
    return int(value) if value == int(value) else value


def pair(word):
    key, equals, value = word.partition("=")
    if not (key and equals and value):
        raise ValueError(f"{word!r} is not KEY=VALUE")
    return key, value


def expect(words, form):
    """Refuses words that are more or fewer than a form has; one that ends with .. takes any number."""
    wanted = form.split()
    if len(words) < len(wanted) or (len(words) > len(wanted) and not form.endswith("..")):
        raise ValueError(f"not {form}")


def seconds_of(text):
    """The seconds of a `duration`, or None if it is not understood."""
    if found := MINUTES.fullmatch(text):
        parts = 0, found[1], 0
    elif found := CLOCK.fullmatch(text):
        parts = found.groups("0")
    elif text != "PT" and (found := ISO_DURATION.fullmatch(text)):
        parts = found.groups("0")
    else:
        return None
    hours, minutes, seconds = map(int, parts)
    return hours * 3600 + minutes * 60 + seconds or None


def size_of(text):
    """The metres or tonnes that a sign allows, infinity for none, or None if it is not understood."""
    if text in NO_LIMIT:
        return float("inf")
    if found := FEET.fullmatch(text):
        return int(found[1]) * 0.3048 + int(found[2] or 0) * 0.0254
    found = SIZE.fullmatch(text)
    return float(found[1].replace(",", ".")) * IN_UNITS[found[2]] if found else None


class Profile:
    """The tables of a profile."""

    def __init__(self, name):
        self.name = name
        self.speeds, self.with_leave, self.refused = {}, {}, []
        self.access, self.allowed, self.permits = [], set(), set()
        self.factor, self.destinations = 1, set()
        self.oneway, self.implied, self.against = [], [], []
        self.speed_keys, self.fastest, self.limits = [], 200, {}
        self.sizes, self.closed, self.opened = {}, set(), set()
        self.ferry, self.ferry_wants_leave = None, False
        self.vehicles, self.turn_costs = [], []
        self.kinds = {}  # of roads, by the tags that count
        # What is not understood of a map.
        self.speeds_not_read, self.others_not_read, self.is_read = Counter(), Counter(), True

    # Lines of the file.

    def read(self, lines, name):
        for line, text in enumerate(lines, 1):
            key, *words = text.partition("#")[0].split() or [None]
            if key is None:
                continue
            try:
                if key not in LINES:
                    raise ValueError(f"{key!r} is none of {', '.join(LINES)}")
                form, take = LINES[key]
                expect(words, form)
                take(self, *words)
            except ValueError as fault:
                raise Refused(f"{name}:{line}: {fault}") from None
        for key, is_there in (("speed", self.speeds), ("access", self.access), ("allow", self.allowed)):
            if not is_there:
                raise Refused(f"{name}: no line {key}")

    def take_speed(self, highway, kmh):
        self.speeds[highway] = number(kmh, 1, 200)

    def take_leave(self, highway, kmh):
        self.with_leave[highway] = number(kmh, 1, 200)

    def take_ferry(self, *words):
        self.ferry_wants_leave = words[0] == "leave"
        expect(words[self.ferry_wants_leave :], "KMH")  # behind the word `leave`
        self.ferry = number(words[-1], 1, 200)

    def take_through(self, factor, *values):
        self.factor = number(factor, 1, 1000)
        self.destinations.update(values)

    def take_limit(self, word, kmh):
        self.limits[word] = number(kmh, 1, 200)

    def take_size(self, key, most):
        self.sizes[key] = number(most, 0, 1000)

    def take_fastest(self, kmh):
        self.fastest = number(kmh, 1, 200)

    def take_turn(self, least, most, seconds):
        cost = TurnCost(number(least, -180, 180), number(most, -180, 180), number(seconds, 0, 3600))
        if cost.least >= cost.most:
            raise ValueError(f"{least} is not below {most}")
        self.turn_costs.append(cost)

    # Ways and nodes of a map.

    def deciding_key(self, tags):
        """The tag that says who may go there, or None."""
        return next((key for key in self.access if key in tags), None)

    def check_sizes(self, tags):
        for key, own in self.sizes.items():
            if key in tags:
                most = size_of(tags[key])
                if most is None:
                    self.count(self.others_not_read, f"{key}={tags[key]}")
                elif most < own:
                    raise LeftOut(f"{key}={tags[key]}")

    def road(self, tags):
        """What a way is as a road; LeftOut says why it is none."""
        own = tuple(map(tags.get, self.road_keys))
        kind = self.kinds.get(own)
        if not kind:
            self.is_read = True
            kind = self.kind(tags)
            # Ways with the same tags are roads of the same kind. What is not read is counted each time.
            if self.is_read:
                self.kinds[own] = kind
        return kind

    @cached_property
    def road_keys(self):
        """The tags of a way that count."""
        pairs = chain(self.refused, self.implied, self.against)
        single = ("highway", "route", "duration", *self.access, *self.sizes, *self.oneway, *self.speed_keys)
        return [*dict.fromkeys((*single, *(key for key, _ in pairs)))]

    def count(self, not_read, what):
        """Counts what is not understood."""
        not_read[what] += 1
        self.is_read = False

    def kind(self, tags):
        key = self.deciding_key(tags)
        if key and tags[key] not in self.allowed:
            raise LeftOut(f"{key}={tags[key]}")
        has_leave = key not in (None, "access") and tags[key] in self.permits
        is_ferry = "highway" not in tags
        if is_ferry:
            speed = self.ferry if not self.ferry_wants_leave or key else None
        else:
            highway = tags["highway"]
            speed = self.speeds.get(highway) or (has_leave and self.with_leave.get(highway))
        if not speed:
            raise LeftOut("route=ferry" if is_ferry else highway)
        for word, value in self.refused:
            if tags.get(word) == value:
                raise LeftOut(f"{word}={value}")
        forward, back = self.directions(tags)
        self.check_sizes(tags)
        factor = self.factor if key and tags[key] in self.destinations else 1
        seconds = self.duration(tags) if is_ferry else None
        return Kind(speed if is_ferry else self.signed(tags, speed), forward, back, factor, seconds)

    def duration(self, tags):
        seconds = seconds_of(tags["duration"]) if "duration" in tags else None
        if "duration" in tags and not seconds:
            self.count(self.others_not_read, f"duration={tags['duration']}")
        return seconds

    def directions(self, tags):
        """Whether a way goes forward, and back."""
        if any(tags.get(key) == value for key, value in self.against):
            return BOTH
        for key in self.oneway:
            if key in tags:
                if tags[key] not in ONEWAY:
                    raise LeftOut(f"{key}={tags[key]}")
                return ONEWAY[tags[key]]
        return FORWARD if any(tags.get(key) == value for key, value in self.implied) else BOTH

    def signed(self, tags, speed):
        """The speed that a sign says, or else this one."""
        key = next((key for key in self.speed_keys if key in tags), None)
        if key is None:
            return speed
        text = tags[key]
        found = MAXSPEED.fullmatch(text)
        limit = float(found[1]) * KMH[found[2]] if found else self.limit_of(text)
        if not 1 <= limit <= 200:
            self.count(self.speeds_not_read, text)
            return speed
        return min(limit, self.fastest)

    def limit_of(self, text):
        """The limit that a word says, that of its country before that of any, or 0."""
        _, colon, kind = text.partition(":")
        is_country = re.match("[A-Z]{2}:", text) is not None
        return self.limits.get(text) or (is_country and colon and self.limits.get(f"*:{kind}")) or 0

    def closes(self, tags):
        """Whether the barrier at a node closes the road there."""
        try:
            self.check_sizes(tags)
        except LeftOut:
            return True
        key = self.deciding_key(tags)
        if key:
            return tags[key] not in self.allowed
        kind = tags["barrier"]
        if kind not in self.closed and kind not in self.opened:
            self.count(self.others_not_read, f"barrier={kind}")
        return kind in self.closed

    def node_keys(self):
        """The tags of a node that count."""
        return {"barrier", *self.access, *self.sizes}


# Of each key of a profile what comes behind it, and what takes it.
LINES = {
    "speed": ("HIGHWAY KMH", Profile.take_speed),
    "leave": ("HIGHWAY KMH", Profile.take_leave),
    "ferry": ("KMH..", Profile.take_ferry),
    "refuse": ("KEY=VALUE..", lambda profile, *words: profile.refused.extend(map(pair, words))),
    "size": ("KEY NUMBER", Profile.take_size),
    "access": ("KEY..", lambda profile, *words: profile.access.extend(words)),
    "allow": ("VALUE..", lambda profile, *words: profile.allowed.update(words)),
    "permit": ("VALUE..", lambda profile, *words: profile.permits.update(words)),
    "through": ("FACTOR VALUE..", Profile.take_through),
    "oneway": ("KEY..", lambda profile, *words: profile.oneway.extend(words)),
    "imply": ("KEY=VALUE..", lambda profile, *words: profile.implied.extend(map(pair, words))),
    "against": ("KEY=VALUE..", lambda profile, *words: profile.against.extend(map(pair, words))),
    "maxspeed": ("KEY..", lambda profile, *words: profile.speed_keys.extend(words)),
    "fastest": ("KMH", Profile.take_fastest),
    "limit": ("WORD KMH", Profile.take_limit),
    "closed": ("VALUE..", lambda profile, *words: profile.closed.update(words)),
    "open": ("VALUE..", lambda profile, *words: profile.opened.update(words)),
    "restrictions": ("VEHICLE..", lambda profile, *words: profile.vehicles.extend(words)),
    "turn": ("FROM TO SECONDS", Profile.take_turn),
}


def names():
    """The profiles that lie beside the scripts."""
    return sorted(os.listdir(FOLDER)) if os.path.isdir(FOLDER) else []


def read_profile(word):
    """The profile of a name, or of a file if the word has a slash."""
    path = word if "/" in word else os.path.join(FOLDER, word)
    if "/" not in word and word not in names():
        raise Refused(f"--profile {word}: there are {', '.join(names())}, or a file's name with a slash")
    profile = Profile(os.path.basename(word))
    with open(path, encoding="utf-8", errors="replace") as lines:
        profile.read(lines, path if "/" in word else f"profiles/{word}")
    return profile
