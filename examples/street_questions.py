"""Questions by coordinates, as serve.py --streets takes them: those of OSRM's HTTP API, version 1, and two of its own.

Coordinates are LONGITUDE,LATITUDE, and more than one have a semicolon between. An option that would change an answer
and is not kept is refused.
"""

import re
from urllib.parse import parse_qsl, unquote

from nearest import degrees

NUMBER = r"[0-9]+(\.[0-9]+)?"
CHOICE = "all|[0-9]{1,9}(;[0-9]{1,9})*"
KINDS = ("duration", "distance", "weight", "speed")  # of annotations
PAGE = re.compile(r"/(route|table|nearest|isochrone|close)/v1/([^/]+)/([^/]+?)(?:\.json)?")


def list_of(form, mark=","):
    """The pattern of a list of words."""
    return f"({form})({mark}({form}))*"


def each_place(form):
    """The pattern of a list with a word or none for each place."""
    return list_of(f"|{form}", ";")


# What a question may say beside its places: of each option a pattern of what is kept. Any bearing is within 180 degrees
# of each, and a hint would only save a search.
OF_PLACES = {
    "bearings": each_place("[0-9]{1,3},180"), "radiuses": each_place(f"unlimited|{NUMBER}"),
    "hints": each_place("[^;]*"), "approaches": each_place("unrestricted"),
}
COMMON = {
    **OF_PLACES, "generate_hints": "true|false", "skip_waypoints": "true|false", "format": "json",
    "snapping": "default",
}
OPTIONS = {
    "route": {
        **COMMON, "overview": "full|simplified|false", "geometries": "geojson|polyline6?", "steps": "true|false",
        "alternatives": "false|true|[0-9]", "annotations": f"true|false|{list_of('|'.join(KINDS))}",
        "continue_straight": "default|true|false",
    },
    "table": {**COMMON, "sources": CHOICE, "destinations": CHOICE, "annotations": list_of("duration|distance")},
    "nearest": {**COMMON, "number": "1"},
    "isochrone": {"minutes": list_of(NUMBER)},
    "close": {"factor": NUMBER},
}


class BadQuestion(Exception):
    """What is wrong with a question: a code of OSRM, and words."""


def asked_places(text):
    """The places of a question, as (latitude, longitude)."""
    found = []
    for number, words in enumerate(unquote(text).split(";")):
        try:
            longitude, latitude = words.split(",")
            found.append(degrees(latitude, longitude))
        except ValueError:
            raise BadQuestion("InvalidQuery", f"place {number} is not LONGITUDE,LATITUDE: {words}") from None
    return found


def asked_options(page, query, count):
    """The options of a question about so many places."""
    found = {}
    for key, value in parse_qsl(query, keep_blank_values=True):
        if key not in OPTIONS[page]:
            raise BadQuestion("InvalidOptions", f"{key} is none of {', '.join(OPTIONS[page])}")
        if not re.fullmatch(OPTIONS[page][key], value):
            raise BadQuestion("InvalidValue", f"{key}={value} is not kept: {OPTIONS[page][key]}")
        if key in OF_PLACES and value and len(value.split(";")) != count:
            raise BadQuestion("InvalidOptions", f"{key} has {len(value.split(';'))} values for {count} places")
        found[key] = value
    return found


def radius_of(options, number):
    """How many metres a street may be away from a place; None if any number will do."""
    words = options.get("radiuses") or ""
    word = words.split(";")[number] if words else ""
    return None if word in ("", "unlimited") else float(word)


def kinds_of(options):
    """The annotations that a question about a route asks for."""
    text = options.get("annotations", "false")
    if text in ("true", "false"):
        return KINDS if text == "true" else ()
    return text.split(",")
