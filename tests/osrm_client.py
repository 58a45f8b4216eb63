"""The web service, asked by Qt Location's client of OSRM: osrm_client.py PROGRAM prints what differs from route.py.

Qt draws no window, and asks this machine alone. Lengths, times, lines and streets of its routes are compared with those
of `route.py`, and the turns that it puts into words with the angles between these streets.
"""

import json
import os
import re
import subprocess
import sys
import tempfile

from service import begin, expect, script, town

# Latitude and longitude of each place: routes through two, and through three.
ROUTES = [
    "50.001 8.002 50.018 8.036",
    "50.018 8.036 50.001 8.002",
    "50.001 8.002 50.001 8.004",
    "50.0171 8.0043 50.0033 8.0301",
    "50.001 8.002 50.018 8.036 50.02 8.02",
]


def asked_by_qt(port, words, folder):
    """A route as Qt has read it."""
    settings = {"QT_QPA_PLATFORM": "offscreen", "QT_QUICK_BACKEND": "software"}
    settings.update({"HOME": folder, "XDG_RUNTIME_DIR": folder})
    command = ["qml", "tests/osrm_client.qml", "--", f"http://127.0.0.1:{port}", *words]
    environment = {**os.environ, **settings}
    said = subprocess.run(command, env=environment, capture_output=True, text=True, timeout=60, check=False)
    found = re.search(r"^qml: ({.*})$", said.stderr, re.M)
    return json.loads(found[1]) if found else {"error": said.stderr}


def streets_of(folder, files, words):
    """The streets of a route between two places, as route.py says them."""
    text = script("route.py", *files, f"{folder}/map.gr", *words).stdout
    return [each for each in json.loads(text)["features"] if each["geometry"]["type"] == "LineString"]


def side_of(one, other):
    """The side to which one turns from a street into another: positive is left."""
    (x1, y1), (x2, y2) = one["geometry"]["coordinates"][-2:]
    (x3, y3), (x4, y4) = other["geometry"]["coordinates"][:2]
    return (x2 - x1) * (y4 - y3) - (y2 - y1) * (x4 - x3)


def differences(found, legs):
    """What of a route differs from its legs, as lists of streets."""
    if "error" in found:
        yield found["error"]
        return
    streets = [street for leg in legs for street in leg]
    metres, seconds = (sum(each["properties"][key] for each in streets) for key in ("metres", "seconds"))
    if abs(found["metres"] - metres) > 0.1 * len(streets) or not -1 < found["seconds"] - seconds <= 0.5:
        yield f"{found['metres']} m in {found['seconds']} s, wanted {metres:.1f} and {seconds:.1f}"
    line = [place for street in streets for place in street["geometry"]["coordinates"]]
    ways = [place for number, place in enumerate(found["path"]) if is_new(found["path"], number)]
    wanted = [place for number, place in enumerate(line) if is_new(line, number)]
    if len(ways) != len(wanted) or not all(map(is_near, ways, wanted)):
        yield f"the line {ways}, wanted {wanted}"
    yield from wrong_texts(found["steps"], legs)


def is_near(one, other):
    return all(abs(here - there) < 2e-6 for here, there in zip(one, other))


def is_new(line, number):
    return number == 0 or not is_near(line[number], line[number - 1])


def wrong_texts(texts, legs):
    """Texts of steps that do not say the streets of the legs, or another side."""
    texts = iter(texts)
    for leg in legs:
        for before, street in zip([None, *leg], leg):
            text = next(texts, "")
            if street["properties"]["name"] not in text:
                yield f"{text!r} does not name {street['properties']['name']}"
            side = re.search(r"left|right", text)
            if before and side and (side[0] == "left") != (side_of(before, street) > 0):
                yield f"{text!r} is the wrong side"
            if before and not side and "straight" not in text and "ontinue" not in text:
                yield f"{text!r} says no turn"
        text = next(texts, "")
        if "arrived" not in text:
            yield f"{text!r} is no end"


def main():
    os.environ["HOLLOWBOWL"] = sys.argv[1]
    with tempfile.TemporaryDirectory() as folder:
        files = town(folder)
        server = begin(f"{folder}/map.gr", "--streets", *files)
        port = re.search(r":(\d+), 2 processes", server.stderr.readline())[1]
        try:
            for route in ROUTES:
                words = route.split()
                places = [words[at : at + 2] for at in range(0, len(words), 2)]
                legs = [streets_of(folder, files, [*one, *other]) for one, other in zip(places, places[1:])]
                for text in differences(asked_by_qt(port, words, folder), legs):
                    print(f"{route}: {text}")
        finally:
            server.terminate()
            _, said = server.communicate(timeout=30)
    expect(f"said {said!r}", not said)


main()
