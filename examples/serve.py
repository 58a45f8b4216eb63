#!/usr/bin/env python3
"""Answers questions about a graph over HTTP, by several processes: serve.py MAP.gr

    GET /distance?from=1&to=6       {"distance": 15}, or null if no walk leads there
    GET /path?from=1&to=6           {"distance": 15, "path": [1, 3, 5, 2, 4, 6]}
    GET /within?from=1&cost=10      {"vertices": [1, 2, 3, 5], "costs": [0, 10, 10, 10]}
    GET /health                     {"process": 4711, "vertices": 6, "arcs": 8}

With --streets it is asked by coordinates too, as OSRM is (docs/COOKBOOK.md), of a map that osm_to_gr.py wrote with
--weight deciseconds, --places and --ways:

    GET /route/v1/car/8.001,50.002;8.03,50.01?geometries=geojson
    GET /table/v1/car/8.001,50.002;8.03,50.01;8.02,50.01?sources=0
    GET /nearest/v1/car/8.001,50.002
    GET /isochrone/v1/car/8.001,50.002?minutes=5,10
    POST /close/v1/car/8.001,50.002      closes the nearest street; with ?factor=3 it is slower. DELETE opens it

    --nodes FILE, --places FILE, --ways FILE, --lines FILE
                         in place of nodes.txt, places.txt, ways.txt and lines.txt
    --closed FILE        streets that are closed, LATITUDE LONGITUDE a line, or slower with a FACTOR behind. The file is
                         looked at before each question, and /close writes it
    --any                takes streets, too, that are not joined to the largest part of the map
    --programs COUNT     how many programs a process has (1). With several near questions don't wait for far ones

    --port NUMBER        in place of 8080; 0 takes a free one
    --address ADDRESS    in place of 127.0.0.1, which this machine alone can ask
    --origin ORIGIN      lets pages of a website read answers, as https://maps.example.org, and close streets; with *
                         those of any read answers, and close nothing
    --processes COUNT    how many processes answer (2). Each has programs of its own, and so a graph in memory

Vertices count from 1, as in the file. A question that is none has the status 400, a vertex that is not there 404, and
503 a question for which memory lacks or whose program ended twice. /health asks the program: 200 says that it answers.
POST and DELETE have 403 if a browser sends them for a page of another website, or to a name that is neither localhost,
nor the address, nor that of --origin.

If a program ends, another one begins at the next question, and that is asked again. If a process ends, another takes
its place; if it can't begin, as with a graph that is refused, all end with status 2. SIGTERM and Ctrl-C end all.

Needs the Python package hollowbowl (docs/PYTHON.md), the program, and the scripts beside it.
"""

import argparse
import json
import os
import re
import signal
import socket
import sys
import time
from http.server import BaseHTTPRequestHandler, ThreadingHTTPServer
from urllib.parse import parse_qs, urlsplit

sys.dont_write_bytecode = True
import map_files
from to_gr import Arguments, Refused, run

QUIET = 1  # second for which a process has to live, or the next one waits as long


class BadQuestion(Exception):
    """What is wrong with a question, in words."""


class Answers:
    """A graph, and what each page answers."""

    def __init__(self, graph, hollowbowl, streets=None):
        self.graph, self.hollowbowl, self.streets = graph, hollowbowl, streets
        self.pages = {
            "/distance": (self.distance, ["from", "to"]),
            "/path": (self.path, ["from", "to"]),
            "/within": (self.within, ["from", "cost"]),
            "/health": (self.health, []),
        }

    def answer(self, method, target):
        """The status and the answer to a request."""
        url = urlsplit(target)
        try:
            found = self.streets and self.ask(self.streets.answer, (method, url.path, url.query))
            if found:
                return found
            if url.path not in self.pages or method != "GET":
                return 404, {"error": f"no page {url.path}: there are {', '.join(self.pages)}"}
            page, keys = self.pages[url.path]
            return 200, self.ask(page, numbers_of(url.query, keys))
        except BadQuestion as fault:
            return 400, {"error": str(fault)}
        except self.hollowbowl.NoVertex as fault:
            return 404, {"error": f"no vertex {fault.vertex + 1}"}
        except ValueError as fault:
            return 400, {"error": str(fault)}
        except (self.hollowbowl.Error, OSError) as fault:
            return 503, {"error": str(fault)}

    def ask(self, page, words):
        """What a page answers. If the program has ended meanwhile, another one begins at the second try."""
        try:
            return page(*words)
        except self.hollowbowl.Closed:
            raise
        except self.hollowbowl.Ended:
            return page(*words)

    def distance(self, source, target):
        try:
            return {"distance": self.graph.distance(source - 1, target - 1)}
        except self.hollowbowl.NoPath:
            return {"distance": None}

    def path(self, source, target):
        found = self.distance(source, target)
        path = [] if found["distance"] is None else self.graph.path(source - 1, target - 1)
        return {**found, "path": [vertex + 1 for vertex in path] or None}

    def within(self, source, cost):
        vertices, costs = self.graph.within(source - 1, cost)
        return {"vertices": [int(vertex) + 1 for vertex in vertices], "costs": [int(cost) for cost in costs]}

    def health(self):
        if self.graph.n:
            self.graph.within(0, 0)
        return {"process": os.getpid(), "vertices": self.graph.n, "arcs": self.graph.m}


def numbers_of(query, keys):
    """The whole numbers of a query by its keys, each once and no others."""
    given = parse_qs(query, keep_blank_values=True)
    if sorted(given) != sorted(keys) or any(len(words) > 1 for words in given.values()):
        raise BadQuestion(f"wanted: {' and '.join(keys) or 'nothing'}, each once")
    for key in keys:
        if not (given[key][0].isascii() and given[key][0].isdigit() and len(given[key][0]) <= 20):
            raise BadQuestion(f"{key} is no whole number")
    return [int(given[key][0]) for key in keys]


class Handler(BaseHTTPRequestHandler):
    def do_GET(self):
        self.reply("GET")

    def do_POST(self):
        self.reply("POST")

    def do_DELETE(self):
        self.reply("DELETE")

    def reply(self, method):
        origin = self.server.origin
        if method != "GET" and not self.is_own():
            message = "pages of another address close nothing here: --origin names one that may"
            self.send_json(403, {"code": "Forbidden", "message": message})
            return
        headers = {"Access-Control-Allow-Origin": origin} if origin else {}
        self.send_json(*self.server.answers.answer(method, self.path), headers)

    def is_own(self):
        """Tells if a request comes from no page of another website, by the two headers that a browser sends.

        `Host` is looked at, too, as a website can have its own name lead to this machine.
        """
        host, origin, named = self.headers.get("Host", ""), self.headers.get("Origin"), self.server.origin
        names = {"localhost", self.connection.getsockname()[0]}
        origins = {None, f"http://{host}", f"https://{host}"}
        if named and named != "*":
            names.add(urlsplit(named).hostname)
            origins.add(named)
        return re.sub(":[0-9]*$", "", host).lower() in names and origin in origins

    def send_json(self, status, answer, headers=None):
        self.send(status, "application/json", json.dumps(answer).encode() + b"\n", headers)

    def send(self, status, kind, body, headers=None):
        self.send_response(status)
        for name, value in {"Content-Type": kind, "Content-Length": str(len(body)), **(headers or {})}.items():
            self.send_header(name, value)
        self.end_headers()
        if self.command != "HEAD":
            self.wfile.write(body)

    def log_message(self, *_):
        """Says nothing: what stands before a service logs its requests."""


class Server(ThreadingHTTPServer):
    """One process: it takes requests from a socket that all share, a thread for each, and ends with its parent."""

    def __init__(self, shared, answers, origin):
        super().__init__(shared.getsockname(), Handler, bind_and_activate=False)
        self.socket.close()
        self.socket, self.answers, self.origin, self.parent = shared, answers, origin, os.getppid()

    def get_request(self):
        try:
            return super().get_request()
        except BlockingIOError:
            # Another process was quicker.
            raise OSError("taken") from None

    def service_actions(self):
        if os.getppid() != self.parent:
            raise SystemExit(0)


def child(shared, options):
    """What one process does until it is ended."""
    signal.signal(signal.SIGTERM, lambda *_: sys.exit(0))
    with map_files.kept(options.graph, options.programs) as graph:
        hollowbowl, streets = map_files.package(), None
        if options.streets:
            from street_pages import StreetPages

            streets = StreetPages(graph, hollowbowl, options)
        Server(shared, Answers(graph, hollowbowl, streets), options.origin).serve_forever()


def begin(shared, options):
    """Begins a process, and gives its number."""
    number = os.fork()
    if number:
        return number
    try:
        run("serve.py", lambda: child(shared, options), status=2)
    except SystemExit as end:
        os._exit(end.code if isinstance(end.code, int) else 0)
    except BaseException as fault:
        print(f"serve.py: process {os.getpid()}: {fault!r}", file=sys.stderr)
    os._exit(1)


def keep(shared, options):
    """Keeps so many processes, until a signal comes or one can't begin."""
    born = {}
    try:
        for _ in range(options.processes):
            born[begin(shared, options)] = time.monotonic()
        while True:
            number, status = os.wait()
            age = time.monotonic() - born.pop(number)
            if os.waitstatus_to_exitcode(status) == 2:
                raise SystemExit(2)
            print(f"serve.py: process {number} has ended; another begins", file=sys.stderr)
            time.sleep(max(0, QUIET - age))
            born[begin(shared, options)] = time.monotonic()
    finally:
        for number in born:
            os.kill(number, signal.SIGTERM)
        for number in born:
            os.waitpid(number, 0)


def origin_of(word):
    if not re.fullmatch(r"\*|https?://[A-Za-z0-9.:\[\]-]+", word):
        raise argparse.ArgumentTypeError(f"{word!r} is no origin, as https://maps.example.org")
    return word


def parse():
    parser = Arguments(__doc__)
    parser.add_argument("graph")
    parser.add_argument("--streets", action="store_true")
    for name in ("nodes", "places", "ways", "lines"):
        parser.add_argument(f"--{name}", default=f"{name}.txt")
    parser.add_argument("--closed")
    parser.add_argument("--any", action="store_true")
    parser.add_argument("--programs", type=map_files.number_from(1, 64), default=1)
    parser.add_argument("--port", type=map_files.number_from(0, 65535), default=8080)
    parser.add_argument("--address", default="127.0.0.1")
    parser.add_argument("--origin", type=origin_of)
    parser.add_argument("--processes", type=map_files.number_from(1, 64), default=2)
    options = parser.parse_args()
    if options.closed and not options.streets:
        parser.error("--closed is of --streets: call with both")
    return options


def main():
    options = parse()
    if not os.access(options.graph, os.R_OK):
        raise Refused(f"{options.graph} can't be read")
    signal.signal(signal.SIGTERM, lambda *_: sys.exit(0))
    try:
        shared = socket.create_server((options.address, options.port), backlog=128)
    except OSError as fault:
        raise Refused(f"{options.address}:{options.port}: {fault.strerror or fault}") from None
    with shared:
        shared.setblocking(False)
        address, port = shared.getsockname()
        print(f"serve.py: http://{address}:{port}, {options.processes} processes", file=sys.stderr, flush=True)
        keep(shared, options)


if __name__ == "__main__":
    run("serve.py", main, status=2)
