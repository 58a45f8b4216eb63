"""Shows a map on a page that this machine alone can open: python3 -m hollowbowl.web MAP.osm

The page draws the streets, and the cheapest route between two pins that can be dragged, with its streets and its time.
A slider shows what is reached within some minutes. A click on a street closes it, and another opens it again. MAP.osm
is a map of OpenStreetMap, as osm_to_gr.py takes it. Nothing is fetched from elsewhere.

    --profile NAME   for whom: car, lorry, bicycle or foot, or a file with a slash in its name (car)
    --port NUMBER    in place of 8080; 0 takes a free one

Standard error has the address, and Ctrl-C ends it. Closed streets are forgotten then. A map that is not understood, a
profile or a port that is none, and a missing program are refused with the status 2.
"""

import functools
import json
import os
import re
import signal
import subprocess
import sys
import tempfile
import threading
from http.server import ThreadingHTTPServer
from pathlib import Path
from types import SimpleNamespace
from urllib.parse import unquote, urlsplit

HERE = Path(__file__).resolve().parent
# The scripts of the folder examples, which read maps and answer by coordinates. They import one another by these names.
# What is installed has them inside, and a clone in its own folder.
SCRIPTS = next((folder for folder in (HERE / "_scripts", HERE.parents[2] / "examples") if folder.is_dir()), None)
if SCRIPTS is None:
    print("hollowbowl.web: the scripts of the page are missing; the wheel and ./install have them", file=sys.stderr)
    sys.exit(2)
sys.path.insert(0, str(SCRIPTS))

import map_files  # noqa: E402
from nearest import degrees  # noqa: E402
from osm_profiles import read_profile  # noqa: E402
from serve import Handler  # noqa: E402
from street_pages import Closings, StreetPages  # noqa: E402
from to_gr import Arguments, Refused, run  # noqa: E402

NAME = "hollowbowl.web"
# The pages of serve.py that are here too, which GET asks.
STREET_PAGE = re.compile(r"/(route|table|nearest|isochrone)/v1/.*")
TOGGLE = re.compile(r"/toggle/([^/,]+),([^/,]+)")


def converted(name, profile, folder):
    """Writes the graph of a map and the files beside it into a folder, and gives their names."""
    names = {kind: f"{folder}/{kind}.txt" for kind in ("nodes", "places", "ways", "lines")}
    words = [word for kind, file in names.items() for word in (f"--{kind}", file)]
    words += ["--turns"] if read_profile(profile).vehicles else []
    command = [sys.executable, "-B", str(SCRIPTS / "osm_to_gr.py"), "--profile", profile, "--weight", "deciseconds"]
    graph = f"{folder}/map.gr"
    with open(graph, "wb") as out:
        done = subprocess.run([*command, "--join", *words, "--", name], stdout=out, check=False)
    if done.returncode:
        # What is wrong was said.
        raise SystemExit(2)
    return SimpleNamespace(graph=graph, any=False, closed=None, **names)


class Page:
    """A map that is shown: its streets, those that are closed, and what is asked about them."""

    def __init__(self, graph, files):
        hollowbowl = map_files.package()
        self.graph, self.pages = graph, StreetPages(graph, hollowbowl, files)
        self.streets, self.errors = self.pages.streets, (hollowbowl.Error, OSError)
        # Streets are closed for as long as the page is there, and no file says so.
        self.closings, self.lock = Closings(None), threading.Lock()

    def shape(self, pair):
        """A street between two nodes: its name, and its places."""
        places = [map_files.point(place) for place in self.streets.line(pair)]
        return {"name": self.pages.names[self.streets.lines[pair][0]], "line": places}

    @functools.cached_property
    def map(self):
        """All streets, as the bytes of JSON."""
        return json.dumps({"streets": [self.shape(pair) for pair in self.streets.lines]}).encode()

    def closed(self):
        return {"closed": [self.shape(pair) for pair in self.closings.applied]}

    def toggle(self, latitude, longitude):
        """Closes the street that is nearest to a place, or opens it."""
        with self.lock:
            _, pair, _ = self.streets.nearest_line(degrees(latitude, longitude), True, is_closed_too=True)
            wanted = {**self.closings.applied, pair: 0}
            if pair in self.closings.applied:
                del wanted[pair]
            self.closings.apply(self.graph, self.streets, wanted)
            return self.closed()

    def ask(self, work, *words):
        """The status and the answer of some work, once more if the program had ended."""
        for is_last in (False, True):
            try:
                return work(*words)
            except ValueError as fault:
                return 400, {"error": str(fault)}
            except self.errors as fault:
                if is_last:
                    return 503, {"error": str(fault)}


class PageHandler(Handler):
    """Answers requests that come from this machine's own page, and refuses others."""

    def __getattr__(self, name):
        """Takes each method, of which `answer` refuses others than GET and POST."""
        if name.startswith("do_"):
            return self.answer
        raise AttributeError(name)

    def do_GET(self):
        self.answer()

    do_POST = do_DELETE = do_GET

    def answer(self):
        path = unquote(urlsplit(self.path).path)
        asked = STREET_PAGE.fullmatch(path), TOGGLE.fullmatch(path)
        if not self.is_local():
            self.send_json(403, {"error": "only the page at the address that was printed may ask"})
        elif path not in ("/", "/streets", "/closed") and not any(asked):
            self.send_json(404, {"error": f"no page {path}"})
        elif self.command != ("POST" if asked[1] else "GET"):
            self.send_json(405, {"error": f"not {self.command}"}, {"Allow": "POST" if asked[1] else "GET"})
        else:
            self.show(path, *asked)

    def is_local(self):
        """Tells if a browser was sent to this machine by its name, and by no page of another website."""
        hosts = [f"{name}:{self.server.server_port}" for name in ("127.0.0.1", "localhost")]
        origin = self.headers.get("Origin")
        return self.headers.get("Host") in hosts and origin in (None, *(f"http://{host}" for host in hosts))

    def show(self, path, is_street_page, toggled):
        page = self.server.page
        if path == "/":
            self.send(200, "text/html; charset=utf-8", (HERE / "_page.html").read_bytes())
        elif path == "/streets":
            self.send(200, "application/json", page.map)
        elif is_street_page:
            self.send_json(*page.ask(page.pages.answer, "GET", path, urlsplit(self.path).query))
        elif toggled:
            longitude, latitude = toggled.groups()
            self.send_json(*page.ask(lambda: (200, page.toggle(latitude, longitude))))
        else:
            self.send_json(200, page.closed())


def parse():
    parser = Arguments(__doc__)
    parser.add_argument("map")
    parser.add_argument("--profile", default="car")
    parser.add_argument("--port", type=map_files.number_from(0, 65535), default=8080)
    options = parser.parse_args()
    if not os.access(options.map, os.R_OK) or os.path.isdir(options.map):
        raise Refused(f"{options.map} can't be read")
    return options


def main():
    options = parse()
    signal.signal(signal.SIGTERM, lambda *_: sys.exit(0))
    try:
        server = ThreadingHTTPServer(("127.0.0.1", options.port), PageHandler)
    except OSError as fault:
        raise Refused(f"port {options.port}: {fault.strerror}") from None
    with server, tempfile.TemporaryDirectory() as folder:
        files = converted(options.map, options.profile, folder)
        with map_files.kept(files.graph) as graph:
            server.daemon_threads, server.origin, server.page = True, None, Page(graph, files)
            print(f"{NAME}: http://127.0.0.1:{server.server_port}", file=sys.stderr, flush=True)
            server.serve_forever()


if __name__ == "__main__":
    run(NAME, main, status=2)
