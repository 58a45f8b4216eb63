"""The page of a map: what its server answers, beside a search of the test's own, and what it refuses."""

import contextlib
import http.client
import json
import math
import os
import random
import re
import subprocess
import sys
import tempfile
import unittest
from pathlib import Path

from common import Case, costs_from

EXAMPLES = Path(__file__).resolve().parents[2] / "examples"
sys.path.append(str(EXAMPLES))
import draw_town  # noqa: E402

SPEEDS = {True: 65, False: 30}  # of avenues and streets, in km/h


def begun(*words):
    """The server of a page."""
    command = [sys.executable, "-B", "-m", "hollowbowl.web", *map(str, words)]
    return subprocess.Popen(command, stderr=subprocess.PIPE, text=True, encoding="utf-8")


@contextlib.contextmanager
def served(name):
    """The port of the page of a map, as long as a `with` lasts."""
    server = begun("--port", 0, name)
    try:
        addresses = (re.search(r"127\.0\.0\.1:(\d+)$", line) for line in server.stderr)
        yield next(int(found[1]) for found in addresses if found)
    finally:
        server.terminate()
        server.communicate(timeout=30)


def asked(port, path, method="GET", **headers):
    """The status of a request, and what JSON it answers."""
    connection = http.client.HTTPConnection("127.0.0.1", port, timeout=30)
    with contextlib.closing(connection):
        connection.request(method, path, headers=headers)
        reply = connection.getresponse()
        text = reply.read()
        is_json = reply.getheader("Content-Type") == "application/json"
        return reply.status, json.loads(text) if is_json and text else text


def place(number):
    """The latitude and longitude of a crossing by its place in the drawn town, as the map has them."""
    return tuple(round(each, 5) for each in draw_town.place(number % draw_town.COLUMNS, number // draw_town.COLUMNS))


def metres(one, other):
    """The length of the great circle, by the chord."""
    points = []
    for each in (one, other):
        lat, lon = map(math.radians, each)
        points.append((math.cos(lat) * math.cos(lon), math.cos(lat) * math.sin(lon), math.sin(lat)))
    return 2 * 6371008.8 * math.asin(math.dist(*points) / 2)


def town_arcs():
    """The arcs of the drawn town between its crossings, in tenths of a second."""
    for nodes, _, is_avenue, is_one_way in draw_town.ways():
        for tail, head in zip(nodes, nodes[1:]):
            ends = tail - draw_town.node(0, 0), head - draw_town.node(0, 0)
            weight = round(metres(*map(place, ends)) * 36 / SPEEDS[is_avenue])
            yield (*ends, weight)
            if not is_one_way:
                yield (*ends[::-1], weight)


def text(*numbers):
    return ";".join(f"{longitude:.5f},{latitude:.5f}" for latitude, longitude in map(place, numbers))


class Web(Case):
    def test_routes_and_closings(self):
        draw, arcs, n = random.Random(7), list(town_arcs()), draw_town.COLUMNS * draw_town.ROWS
        with tempfile.TemporaryDirectory() as folder:
            Path(folder, "town.osm").write_text("".join(draw_town.lines()), encoding="utf-8")
            with served(f"{folder}/town.osm") as port:
                streets = asked(port, "/streets")[1]["streets"]
                self.assertEqual(len(streets), len({frozenset(arc[:2]) for arc in arcs}))
                closed = set()
                for _ in range(4):
                    self.compare(port, n, [arc for arc in arcs if frozenset(arc[:2]) not in closed], draw)
                    tail, head, _ = draw.choice(arcs)
                    closed ^= {frozenset((tail, head))}
                    middle = [sum(pair) / 2 for pair in zip(place(tail), place(head))]
                    _, said = asked(port, f"/toggle/{middle[1]},{middle[0]}", "POST")
                    self.assertEqual((200, said), asked(port, "/closed"))
                    ends = {frozenset(place(number) for number in pair) for pair in closed}
                    lines = [(each["line"][0], each["line"][-1]) for each in said["closed"]]
                    self.assertEqual({frozenset((y, x) for x, y in line) for line in lines}, ends)

    def compare(self, port, n, arcs, draw):
        """Compares routes and an isochrone with a search from a crossing."""
        source = draw.randrange(n)
        costs = costs_from(n, arcs, source)
        for target in draw.sample(range(n), 6):
            status, found = asked(port, f"/route/v1/car/{text(source, target)}?steps=true&geometries=geojson")
            self.assertEqual((status, found["routes"][0]["duration"]), (200, costs[target] / 10), (source, target))
        _, found = asked(port, f"/isochrone/v1/car/{text(source)}?minutes=2")
        line = [tuple(each) for part in found["features"][0]["geometry"]["coordinates"] for each in part]
        reached = {number for number in range(n) if costs[number] < 1200}
        self.assertEqual({number for number in range(n) if place(number)[::-1] in line} | {source}, reached)

    def test_refusals(self):
        with served(EXAMPLES / "town.osm") as port:
            self.assertIn(b"<canvas", asked(port, "/")[1])
            for status, path, method, headers in [
                (404, "/none", "GET", {}), (404, "/close/v1/car/8,50", "POST", {}), (404, "/../web.py", "GET", {}),
                (405, "/", "POST", {}), (405, "/", "PUT", {}), (405, "/streets", "DELETE", {}), (405, "/", "HEAD", {}),
                (405, "/toggle/8,50", "GET", {}), (405, "/route/v1/car/8,50;8,50", "POST", {}),
                (400, "/toggle/8,91", "POST", {}), (400, "/route/v1/car/8,50", "GET", {}),
                (403, "/", "GET", {"Host": "maps.example.org"}), (403, "/", "GET", {"Host": f"[::1]:{port}"}),
                (403, "/toggle/8,50", "POST", {"Origin": "http://maps.example.org"}),
                (200, "/", "GET", {"Host": f"localhost:{port}"}),
                (200, "/closed", "GET", {"Origin": f"http://127.0.0.1:{port}"}),
            ]:
                self.assertEqual(asked(port, path, method, **headers)[0], status, (path, method, headers))

            for words, wanted in [
                (["--port", port, EXAMPLES / "town.osm"], f"port {port}: "),
                (["--port", "x", "x"], "'x' is no whole number"), (["/none.osm"], "/none.osm can't be read"),
                ([EXAMPLES / "six.gr"], "not well-formed XML"),
                ([EXAMPLES / "town.osm", "--profile", "plane"], "--profile plane: there are"), ([], "required: map"),
            ]:
                server = begun(*words)
                _, said = server.communicate(timeout=30)
                self.assertEqual(server.returncode, 2, (words, said))
                self.assertIn(wanted, said)


if __name__ == "__main__":
    unittest.main()
