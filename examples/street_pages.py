"""Pages of serve.py --streets, which are asked by coordinates: routes, tables, nearest places, isochrones and closings.

Requests and answers of /route, /table and /nearest are those of OSRM's HTTP API, version 1: what is not kept of it is
refused. Coordinates are LONGITUDE,LATITUDE, and more than one have a semicolon between.
"""

import fcntl
import os
import sys
import threading

import isochrone
import map_files
from map_files import Refused, as_unit, point
from nearest import degrees
from street_questions import PAGE, BadQuestion, asked_options, asked_places, radius_of
from street_routes import RouteForm, metres_of

MOST_CELLS = 4_000_000  # of a table
MOST_ROUTES = 10_000  # of a table with distances, which wants the route of each cell


def factor_of(words):
    """The factor that a line of closings says, 0 if it closes the street."""
    if len(words) not in (2, 3):
        raise ValueError("not LATITUDE LONGITUDE or with a FACTOR")
    if len(words) == 2:
        return 0
    if not 0.01 <= float(words[2]) <= 1000:
        raise ValueError(f"{words[2]} is no factor from 0.01 to 1000")
    return float(words[2])


class Closings:
    """A file of streets that are closed or slower, which is looked at before each question.

    A line is LATITUDE LONGITUDE, which closes the nearest street between two nodes in both directions, or LATITUDE
    LONGITUDE FACTOR, by which its weights are multiplied. What follows # is a comment. A line that is not understood is
    left out, and standard error names it, so that all processes, and those to come, close the same streets.
    """

    def __init__(self, name):
        self.name, self.seen, self.faults, self.applied = name, None, [], {}
        self.lock = threading.Lock()

    def lines(self):
        """The places and factors of the file, 0 for a closed street, and what is wrong with other lines."""
        found, faults = [], []
        with open(self.name, encoding="utf-8", errors="replace") as lines:
            for line, text in enumerate(lines, 1):
                words = text.partition("#")[0].split()
                try:
                    if words:
                        factor = factor_of(words)
                        found.append((degrees(*words[:2]), factor))
                except ValueError as fault:
                    faults.append(f"{self.name}:{line}: {fault}: the line is left out")
        return found, faults

    def look(self, graph, streets):
        """Changes the graph if the file has changed."""
        with self.lock:
            try:
                status = os.stat(self.name)
                now = status.st_mtime_ns, status.st_size, status.st_ino
                if now == self.seen:
                    return
                lines, faults = self.lines()
            except OSError as fault:
                # Without a file nothing is closed; if it goes away nothing opens.
                lines, faults = None, []
                if self.applied or not isinstance(fault, FileNotFoundError):
                    faults = [f"{self.name}: {fault.strerror}: closings stay as they were"]
            if faults != self.faults:
                for fault in faults:
                    print(f"serve.py: {fault}", file=sys.stderr, flush=True)
            self.faults = faults
            if lines is not None:
                self.apply(graph, streets, self.wanted(streets, lines))
                self.seen = now

    def wanted(self, streets, lines):
        """The factors of streets, by the nodes between which they are."""
        found = {}
        for here, factor in lines:
            line = streets.nearest_line(here, True, is_closed_too=True)
            if line:
                found[line[1]] = factor
        return found

    def apply(self, graph, streets, wanted):
        changed = [pair for pair in {**self.applied, **wanted} if self.applied.get(pair, 1) != wanted.get(pair, 1)]
        closed = [pair for pair in changed if wanted.get(pair, 1) == 0]
        others = [pair for pair in changed if wanted.get(pair, 1) != 0]
        if others:
            graph.set_weights(
                [arc for pair in others for arc in streets.arcs_of(pair, wanted.get(pair, 1))], missing="add"
            )
        if closed:
            graph.remove([arc[:2] for pair in closed for arc in streets.arcs_of(pair, 1)], missing="ignore")
        streets.change({pair: wanted.get(pair, 1) for pair in changed})
        self.applied = wanted

    def write(self, here, factor):
        """Adds a line to the file, or takes those out that are of this place. One process does so at a time."""
        with self.lock, open(f"{self.name}.lock", "w", encoding="utf-8") as held:
            fcntl.flock(held, fcntl.LOCK_EX)
            own = f"{here[0]} {here[1]}"
            lines = []
            if os.path.exists(self.name):
                with open(self.name, encoding="utf-8", errors="surrogateescape") as old:
                    lines = [text for text in old if " ".join(text.split()[:2]) != own]
            if factor != 1:
                lines.append(own + (f" {factor:g}\n" if factor else "\n"))
            fresh = f"{self.name}.{os.getpid()}"
            with open(fresh, "w", encoding="utf-8", errors="surrogateescape") as new:
                new.writelines(lines)
            os.replace(fresh, self.name)


class StreetPages:
    """What each page answers of a graph and its streets."""

    def __init__(self, graph, hollowbowl, options):
        self.graph, self.hollowbowl, self.is_any = graph, hollowbowl, options.any
        self.unit = map_files.written_unit(options.graph)
        if not self.unit or not map_files.is_time(self.unit):
            raise Refused(f"{options.graph}: --streets wants times: write it by osm_to_gr.py --weight deciseconds")
        self.nodes = map_files.Nodes(options.nodes, graph.n)
        self.streets = map_files.streets_of(options, self.nodes, graph.m)
        self.names = []
        names = {}
        for arc in map_files.arcs(options.graph, options.ways, graph.m):
            self.names.append(names.setdefault(arc.name, arc.name))
        self.form = RouteForm(self.names, self.unit)
        self.closings = Closings(options.closed) if options.closed else None

    def answer(self, method, path, query):
        """The status and the answer, or None if it is no page of these."""
        found = PAGE.fullmatch(path)
        if not found:
            return None
        page, _, places = found.groups()
        try:
            places = asked_places(places)
            options = asked_options(page, query, len(places))
            if self.closings:
                self.closings.look(self.graph, self.streets)
            if page == "close":
                return 200, self.close(method, places, options)
            if method != "GET":
                return 405, {"code": "InvalidUrl", "message": f"{page} takes GET alone"}
            return 200, getattr(self, page)(places, options)
        except BadQuestion as fault:
            code, words = fault.args
            return 400, {"code": code, "message": words}

    def spot(self, here, options, number=0):
        """The place on a street that stands for one that was asked."""
        found = self.streets.nearest(here, self.is_any)
        radius = radius_of(options, number)
        if found is None or (radius is not None and found.metres > radius):
            raise BadQuestion("NoSegment", f"no street is near place {number}")
        return found

    def waypoints(self, options, **spots):
        """What is said of the places of a question, by the names of their lists; nothing if the question says so."""
        if options.get("skip_waypoints") == "true":
            return {}
        return {key: [self.waypoint(spot) for spot in own] for key, own in spots.items()}

    def waypoint(self, spot, **more):
        arc = next((leg.arc for leg in spot.ends if leg.arc is not None), None)
        name = "" if arc is None else self.names[arc]
        return {"name": name, "location": point(spot.place), "distance": round(spot.metres, 1), **more}

    def route(self, places, options):
        if len(places) < 2:
            raise BadQuestion("InvalidQuery", "a route wants two places or more")
        spots = [self.spot(here, options, number) for number, here in enumerate(places)]
        routes = [self.leg(start, end) for start, end in zip(spots, spots[1:])]
        return {
            "code": "Ok", "routes": [self.form.answer(routes, spots, options)],
            **self.waypoints(options, waypoints=spots),
        }

    def leg(self, start, end):
        found = self.streets.route(self.graph, self.hollowbowl, start, end)
        if found is None:
            raise BadQuestion("NoRoute", "no route leads from a place to the next")
        return found

    def table(self, places, options):
        sources, targets = (self.chosen(options.get(key, "all"), places, key) for key in ("sources", "destinations"))
        kinds = options.get("annotations", "duration").split(",")
        most = MOST_ROUTES if "distance" in kinds else MOST_CELLS
        if len(sources) * len(targets) > most:
            raise BadQuestion("TooBig", f"a table has at most {most} cells, of {' and '.join(kinds)}")
        spots = {number: self.spot(places[number], options, number) for number in {*sources, *targets}}
        starts, ends = ([spots[number] for number in own] for own in (sources, targets))
        costs = self.streets.costs(self.graph, self.hollowbowl, starts, ends)
        found = self.waypoints(options, sources=starts, destinations=ends)
        return {"code": "Ok", **self.cells(kinds, costs, starts, ends), **found}

    def cells(self, kinds, costs, starts, ends):
        """The durations of a table, and the distances along the same routes."""
        found = {}
        if "duration" in kinds:
            found["durations"] = [[cell and self.form.seconds(cell[0]) for cell in row] for row in costs]
        if "distance" in kinds:
            found["distances"] = [
                [cell and self.metres((start, end), cell) for end, cell in zip(ends, row)]
                for start, row in zip(starts, costs)
            ]
        return found

    def metres(self, ends, cell):
        """The length of the route of a cell; None if a road of it was closed meanwhile."""
        found = self.streets.route_by(self.graph, self.hollowbowl, ends, cell)
        return found and round(metres_of(found.pieces), 1)

    def chosen(self, text, places, key):
        """The numbers of the places that an option names."""
        numbers = list(range(len(places))) if text == "all" else list(map(int, text.split(";")))
        if max(numbers) >= len(places):
            raise BadQuestion("InvalidOptions", f"{key}: there are {len(places)} places, which count from 0")
        return numbers

    def nearest(self, places, options):
        if len(places) != 1:
            raise BadQuestion("InvalidQuery", "nearest wants one place")
        spot = self.spot(places[0], options)
        nodes = [spot.nodes[0], spot.nodes[-1]]
        waypoints = [] if options.get("skip_waypoints") == "true" else [self.waypoint(spot, nodes=nodes)]
        return {"code": "Ok", "waypoints": waypoints}

    def isochrone(self, places, options):
        words = options.get("minutes", "").split(",")
        limits = [round(float(word or 0) * 60 * as_cost(self.unit)) for word in words]
        if len(places) != 1 or not limits[0] or limits != sorted(set(limits)) or limits[-1] >= 1 << 60:
            raise BadQuestion("InvalidQuery", "wanted: one place, and minutes that rise, as minutes=5,10")
        spot = self.spot(places[0], options)
        costs = self.streets.within(self.graph, spot, limits[-1])
        found = isochrone.pieces(isochrone.reached_streets(self.streets, self.nodes, costs, spot), limits)
        shown = isochrone.features(found, words, spot, self.unit)
        return {"code": "Ok", "type": "FeatureCollection", "features": list(shown)}

    def close(self, method, places, options):
        """Closes the nearest street by POST, or makes it slower by a factor, and opens it by DELETE."""
        if not self.closings:
            raise BadQuestion("InvalidUrl", "there is no file of closings: begin serve.py with --closed FILE")
        if method == "GET" or len(places) != 1:
            raise BadQuestion("InvalidQuery", "close takes one place, by POST or DELETE")
        factor = 1 if method == "DELETE" else float(options.get("factor", 0))
        if factor and not 0.01 <= factor <= 1000:
            raise BadQuestion("InvalidValue", "a factor is from 0.01 to 1000")
        self.closings.write(places[0], factor)
        self.closings.look(self.graph, self.streets)
        return {"code": "Ok", "closings": len(self.closings.applied)}


def as_cost(unit):
    """What a second weighs."""
    return round(1 / as_unit(1, unit))
