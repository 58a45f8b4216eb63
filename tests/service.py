"""The web service of examples/serve.py: service.py PROGRAM prints what differs from what is written here.

It asks each page, kills a program and a process, asks again, and looks at the end that nothing is left. Then it asks by
coordinates, of the town that draw_town.py draws, and closes a street.
"""

import json
import os
import re
import signal
import subprocess
import sys
import tempfile
import time
import urllib.error
import urllib.request

PAGES = [
    ("/distance?from=1&to=6", 200, {"distance": 15}),
    ("/distance?from=6&to=1", 200, {"distance": None}),
    ("/path?from=1&to=6", 200, {"distance": 15, "path": [1, 3, 5, 2, 4, 6]}),
    ("/path?to=1&from=6", 200, {"distance": None, "path": None}),
    ("/within?from=1&cost=10", 200, {"vertices": [1, 2, 3, 5], "costs": [0, 10, 10, 10]}),
    ("/distance?from=1&to=7", 404, {"error": "no vertex 7"}),
    ("/distance?from=0&to=1", 404, {"error": "no vertex 0"}),
    ("/distance?from=1", 400, {"error": "wanted: from and to, each once"}),
    ("/distance?from=1&to=2&to=3", 400, {"error": "wanted: from and to, each once"}),
    ("/distance?from=1&to=-2", 400, {"error": "to is no whole number"}),
    ("/other", 404, {"error": "no page /other: there are /distance, /path, /within, /health"}),
]

REFUSED = [
    (["examples/six.gr", "--streets"], "examples/six.gr: --streets wants times"),
    (["examples/six.gr", "--closed", "x"], "--closed is of --streets: call with both"),
    (["examples/roads.csv"], "examples/roads.csv: line 1: "),
    (["examples/none.gr"], "examples/none.gr can't be read"),
    (["examples/six.gr", "--processes", "0"], "argument --processes: '0' is no whole number from 1 to 64"),
    (["examples/six.gr", "--port", "65536"], "argument --port: '65536' is no whole number from 0 to 65535"),
    (["examples/six.gr", "--address", "256.0.0.1"], "256.0.0.1:0: "),
    (["examples/six.gr", "--origin", "example.org"], "argument --origin: 'example.org' is no origin, as https://"),
]


# Coordinates: of each page the code, and what stands at some places of the answer.
A, B, C = "8.002,50.001", "8.02,50.01", "8.036,50.018"
STREETS = [
    (f"/route/v1/car/{A};{C}?overview=false", {"code": "Ok", "routes 0 duration": 311.7, "routes 0 distance": 4414.3}),
    (f"/route/v1/car/{A};{B};{C}.json?geometries=geojson", {
        "code": "Ok", "routes 0 legs 0 duration": 169.6, "routes 0 legs 1 duration": 142.6,
        "routes 0 geometry coordinates 0": [8.0018155, 50.0010064], "waypoints 1 name": "North Avenue",
    }),
    (f"/route/v1/car/{A};8.004,50.001?steps=true&overview=simplified", {
        "routes 0 legs 0 steps 1 name": "Mill Lane",
        "routes 0 legs 0 steps 1 maneuver modifier": "right",
        "routes 0 legs 0 steps 1 intersections 0 bearings": [183, 85],
        "routes 0 legs 0 steps 2 maneuver type": "arrive",
    }),
    (f"/route/v1/car/{A};8.004,50.001?annotations=duration,speed&overview=false", {
        "routes 0 legs 0 annotation": {"duration": [2.3, 14.9, 3.5], "speed": [8.407, 8.326, 8.343]},
    }),
    (f"/table/v1/driving/{A};{B};{C}", {"durations 0": [0, 169.6, 311.7], "durations 1": [176.6, 0, 142.6]}),
    (f"/table/v1/driving/{A};{B};{C}?sources=1&destinations=2;0", {"durations": [[142.6, 176.6]]}),
    (f"/table/v1/car/{A};{C}?annotations=distance,duration&radiuses=20;unlimited&bearings=0,180;&hints=x;y", {
        "durations 0": [0, 311.7], "distances 0": [0, 4414.3], "destinations 1 name": "Quarry Road",
    }),
    (f"/table/v1/car/{A};{C}?annotations=distance&skip_waypoints=true", {"distances 0 1": 4414.3, "sources": None}),
    (f"/nearest/v1/car/{A}", {"waypoints 0 distance": 13.2, "waypoints 0 nodes": [1001, 1025]}),
    (f"/isochrone/v1/car/{A}?minutes=0.2,1", {"code": "Ok", "features 1 properties": {"minutes": 0.2}}),
    (f"/route/v1/car/{A}", {"code": "InvalidQuery", "message": "a route wants two places or more"}),
    (f"/route/v1/car/{A};9", {"code": "InvalidQuery", "message": "place 1 is not LONGITUDE,LATITUDE: 9"}),
    (f"/route/v1/car/{A};181,5", {"code": "InvalidQuery"}),
    (f"/route/v1/car/{A};{B}?exclude=toll", {"code": "InvalidOptions"}),
    (f"/route/v1/car/{A};{B}?bearings=90,20;90,20", {"code": "InvalidValue"}),
    (f"/route/v1/car/{A};{B}?radiuses=5", {"code": "InvalidOptions", "message": "radiuses has 1 values for 2 places"}),
    (f"/route/v1/car/{A};{B}?radiuses=13;", {"code": "NoSegment", "message": "no street is near place 0"}),
    (f"/route/v1/car/{A};{B}?annotations=nodes", {"code": "InvalidValue"}),
    (f"/table/v1/car/{A};{B}?annotations=speed", {"code": "InvalidValue"}),
    (f"/table/v1/car/{A};{B}?sources=2", {"code": "InvalidOptions"}),
    (f"/isochrone/v1/car/{A}?minutes=5,4", {"code": "InvalidQuery"}),
    (f"/close/v1/car/{A}", {"code": "InvalidQuery"}),
]


# Who closes a street, by the name to which a browser sends the request and the address of its page, and the status. @ is
# the service's own address.
CLOSERS = [
    ({}, 200), ({"Origin": "http://@"}, 200), ({"Host": "localhost:9"}, 200), ({"Host": "LOCALHOST"}, 200),
    ({"Host": "localhost:9", "Origin": "http://localhost:9"}, 200), ({"Origin": "https://maps.example.org"}, 200),
    ({"Host": "maps.example.org", "Origin": "https://maps.example.org"}, 200), ({"Host": "maps.example.org"}, 200),
    ({"Origin": "http://127.0.0.1:9"}, 403), ({"Origin": "null"}, 403), ({"Origin": "https://example.net"}, 403),
    ({"Origin": "https://maps.example.org.example.net"}, 403), ({"Host": "example.net"}, 403), ({"Host": "[::1"}, 403),
    ({"Host": "example.net", "Origin": "http://example.net"}, 403), ({"Host": "127.0.0.1.example.net"}, 403),
    ({"Host": "example.net", "Origin": "https://maps.example.org"}, 403), ({"Host": ""}, 403),
]


def begin(graph, *words):
    command = [sys.executable, "-B", "examples/serve.py", "--port", "0", *words, graph]
    return subprocess.Popen(command, stderr=subprocess.PIPE, text=True)


def ask(port, page, method="GET", headers=None):
    """The status and the answer of a page."""
    request = urllib.request.Request(f"http://127.0.0.1:{port}{page}", method=method, headers=headers or {})
    try:
        with urllib.request.urlopen(request, timeout=20) as reply:
            return reply.status, json.load(reply)
    except urllib.error.HTTPError as reply:
        return reply.code, json.load(reply)


def children(parent):
    """The numbers of the children of a process."""
    found = []
    for name in filter(str.isdigit, os.listdir("/proc")):
        try:
            with open(f"/proc/{name}/stat", encoding="utf-8") as file:
                if int(file.read().rpartition(")")[2].split()[1]) == parent:
                    found.append(int(name))
        except OSError:
            continue
    return found


def within_seconds(is_so, seconds=15):
    end = time.monotonic() + seconds
    while not is_so():
        if time.monotonic() > end:
            return False
        time.sleep(0.05)
    return True


def answering(port):
    """The numbers of the processes that answer, as 40 questions find them."""
    return {ask(port, "/health")[1]["process"] for _ in range(40)}


def expect(what, is_so):
    if not is_so:
        print(what)


def check(server, port):
    for page, *wanted in PAGES:
        found = list(ask(port, page))
        expect(f"{page}: {found}, wanted {wanted}", found == wanted)
    processes = children(server.pid)
    expect(f"{len(processes)} processes", len(processes) == 2)
    expect("not both answer", within_seconds(lambda: answering(port) == set(processes)))

    programs = [program for process in processes for program in children(process)]
    expect(f"{len(programs)} programs", len(programs) == 2)
    for program in programs:
        os.kill(program, signal.SIGKILL)
    answers = [ask(port, "/distance?from=1&to=6") for _ in range(20)]
    expect(f"after the end of programs: {answers}", answers == [(200, {"distance": 15})] * 20)

    os.kill(processes[0], signal.SIGKILL)
    others = lambda: len(set(children(server.pid)) - {processes[0]})
    expect("no other process begins", within_seconds(lambda: others() == 2))
    expect("the other process does not answer", within_seconds(lambda: answering(port) == set(children(server.pid))))


def part_of(answer, path):
    """What stands in an answer at some keys and numbers."""
    for key in path.split():
        answer = answer[int(key)] if isinstance(answer, list) else answer.get(key)
    return answer


def script(name, *words):
    command = [sys.executable, "-B", f"examples/{name}", *words]
    return subprocess.run(command, stdout=subprocess.PIPE, stderr=subprocess.PIPE, text=True, check=True)


def write(name, text, mode="w"):
    with open(name, mode, encoding="utf-8") as out:
        out.write(text)


def town(folder):
    """The words by which the town's files are named."""
    write(f"{folder}/map.osm", script("draw_town.py").stdout)
    words = [word for name in ("nodes", "places", "ways") for word in (f"--{name}", f"{folder}/{name}.txt")]
    graph = script("osm_to_gr.py", "--weight", "deciseconds", *words, f"{folder}/map.osm").stdout
    write(f"{folder}/map.gr", graph)
    return words


def seconds_without(folder, words, node, other):
    """The seconds of the route from A to C without the arcs between two nodes, as route.py says them."""
    numbers = {line.split()[0]: at for at, line in enumerate(open(f"{folder}/nodes.txt", encoding="utf-8"), 1)}
    gone = {numbers[node], numbers[other]}
    arcs = [line.split()[1:3] for line in open(f"{folder}/map.gr", encoding="utf-8") if line.startswith("a")]
    is_kept = [{*map(int, arc)} != gone for arc in arcs]
    write(f"{folder}/changes", "".join(" ".join(arc) + "\n" for arc, kept in zip(arcs, is_kept) if not kept))
    write(f"{folder}/changed.gr", script("close_roads.py", f"{folder}/changes", f"{folder}/map.gr").stdout)
    ways = open(f"{folder}/ways.txt", encoding="utf-8").readlines()
    write(f"{folder}/ways.txt", "".join(way for way, kept in zip(ways, is_kept) if kept))
    here = [word for place in (A, C) for word in reversed(place.split(","))]
    said = script("route.py", *words, f"{folder}/changed.gr", *here).stderr
    return int(re.search(r" in (\d+) s,", said)[1])


def check_closings(port, folder, words):
    """Closes a street of the route, and opens it again."""
    street = "/close/v1/car/8.0045,50.0013"  # Mill Lane between the nodes 1026 and 1027

    def seconds():
        return {ask(port, f"/route/v1/car/{A};{C}?overview=false")[1]["routes"][0]["duration"] for _ in range(10)}

    expect("no street is closed", ask(port, street, "POST") == (200, {"code": "Ok", "closings": 1}))
    closed = seconds()
    wanted = seconds_without(folder, words, "1026", "1027")
    expect(f"closed: {closed}, wanted {wanted}", len(closed) == 1 and round(max(closed)) == wanted != 312)
    write(f"{folder}/closed", "x 8\n50 8 0 0\n", "a")
    now = seconds()
    expect(f"lines that are not understood change what is closed: {now}, {closed}", now == closed)
    write(f"{folder}/closed", "50.0013 8.0045 1.2 # slower\n")
    slower = seconds()
    expect(f"a slower street: {slower}, closed {closed}", len(slower) == 1 and 311.7 < max(slower) < max(closed))
    expect("not opened", ask(port, street, "DELETE") == (200, {"code": "Ok", "closings": 0}) and seconds() == {311.7})


def check_closers(port):
    """Pages of other websites change nothing, and read what they did."""
    street = "/close/v1/car/8.0045,50.0013"
    for headers, wanted in CLOSERS:
        headers = {name: text.replace("@", f"127.0.0.1:{port}") for name, text in headers.items()}
        status, answer = ask(port, street, "POST", headers)
        expect(f"{headers}: {status} {answer}", status == wanted and (answer["code"] == "Ok") == (wanted == 200))
        wanted_left = {"code": "Ok", "closings": 0}
        if wanted == 403:
            expect(f"{headers} opens", ask(port, street, "DELETE", headers)[0] == 403)
            expect(f"{headers} reads nothing", ask(port, f"/nearest/v1/car/{A}", headers=headers)[0] == 200)
        expect(f"{headers}: left", ask(port, street, "DELETE") == (200, wanted_left))


def check_polyline():
    """The example of Google's page on encoded polylines."""
    sys.path.insert(0, "examples")
    from street_routes import polyline

    text = polyline([(38.5, -120.2), (40.7, -120.95), (43.252, -126.453)], 5)
    expect(f"a line as text: {text}", text == "_p~iF~ps|U_ulLnnqC_mqNvxq`@")


def check_streets():
    check_polyline()
    with tempfile.TemporaryDirectory() as folder:
        words = town(folder)
        words_of_server = [*words, "--closed", f"{folder}/closed", "--programs", "2"]
        server = begin(f"{folder}/map.gr", "--streets", *words_of_server, "--origin", "https://maps.example.org")
        port = re.search(r":(\d+), 2 processes", server.stderr.readline())[1]
        try:
            # Files are written over below, so both processes have to have read them.
            expect("one process alone answers", within_seconds(lambda: len(answering(port)) == 2))
            for page, wanted in STREETS:
                status, answer = ask(port, page)
                found = {path: part_of(answer, path) for path in wanted}
                is_ok = status == (200 if answer["code"] == "Ok" else 400)
                expect(f"{page}: {status} {found}, wanted {wanted}", is_ok and found == wanted)
            check_closings(port, folder, words)
            check_closers(port)
        finally:
            server.terminate()
            _, said = server.communicate(timeout=30)
        lines = set(said.splitlines())
        wanted = {
            f"serve.py: {folder}/closed:2: 'x' is no decimal number: the line is left out",
            f"serve.py: {folder}/closed:3: not LATITUDE LONGITUDE or with a FACTOR: the line is left out",
        }
        expect(f"said {lines}", lines == wanted)


def main():
    os.environ["HOLLOWBOWL"] = sys.argv[1]
    check_streets()
    server = begin("examples/six.gr", "--processes", "2")
    port = re.search(r":(\d+), 2 processes", server.stderr.readline())[1]
    left = []
    try:
        check(server, port)
        left = children(server.pid) + [each for process in children(server.pid) for each in children(process)]
    finally:
        server.terminate()
        _, said = server.communicate(timeout=30)
    expect(f"status {server.returncode}", server.returncode == 0)
    again = r"a program with 8 arcs was begun again: the program was killed \(signal 9\), perhaps for want of memory\n"
    ended = r"serve.py: process \d+ has ended; another begins\n"
    expect(f"said {said!r}", re.fullmatch(f"({again})+{ended}", said))
    expect("left behind", within_seconds(lambda: not any(os.path.exists(f"/proc/{number}") for number in left)))

    for words, wanted in REFUSED:
        server = begin(*words)
        _, said = server.communicate(timeout=30)
        expect(f"{words}: status {server.returncode}", server.returncode == 2)
        expect(f"{words}: said {said!r}", wanted in said)


if __name__ == "__main__":
    main()
