"""Times requests: bench/sessions.py PROGRAM GRAPH ROUNDS SOURCE NEAR FAR. The best of the rounds, in milliseconds."""

import os
import random
import subprocess
import sys
import time


class Session:
    """The program with its two pipes."""

    def __init__(self, program, workers, graph, *options):
        command = [program, "--session", "--workers", str(workers), *options]
        self.process = subprocess.Popen(command, stdin=subprocess.PIPE, stdout=subprocess.PIPE, bufsize=0)
        self.ask(graph)

    def ask(self, request):
        """Writes a request whole and reads its reply whole: its bytes."""
        rest = memoryview(request)
        while rest:
            rest = rest[self.process.stdin.write(rest) :]
        pieces, last = [], b""
        while True:
            piece = self.process.stdout.read(1 << 20)
            if not piece:
                raise SystemExit("the session ended")
            pieces.append(piece)
            last = (last + piece)[-256:]
            if last.endswith(b"\n") and last[last.rfind(b"\n", 0, -1) + 1 :][:1] in b"re":
                return b"".join(pieces)

    def resident(self):
        """Bytes of memory."""
        with open(f"/proc/{self.process.pid}/statm", encoding="ascii") as file:
            return int(file.read().split()[1]) * os.sysconf("SC_PAGE_SIZE")

    def close(self):
        """Ends it."""
        self.process.stdin.close()
        self.process.wait()


def best(rounds, call):
    """The least milliseconds of some calls."""
    least = float("inf")
    for _ in range(rounds):
        before = time.perf_counter()
        call()
        least = min(least, time.perf_counter() - before)
    return 1000 * least


def job(program, workers, text):
    """A whole job."""
    subprocess.run([program, "--workers", str(workers)], input=text, stdout=subprocess.PIPE, check=True)


def large(program, graph, rounds, source, near, far):
    """Requests to a large map."""
    n = int(graph[: graph.index(b"\n")].split()[2])
    draw = random.Random(1)
    some = [draw.randrange(1, n + 1) for _ in range(100)]
    roads = [line for line in graph.split(b"\n") if line.startswith(b"a ")][: 1_000_000 : 1000]
    ends = b"".join(b"q %s %s\n" % tuple(road.split()[1:3]) for road in roads)
    requests = {
        "one source": b"p aux sp ss 1\ns %d\n" % source,
        "a pair next door": b"p aux sp p2p 1\nq %d %d\n" % (source, near),
        "the same, with its walk": b"p aux sp walk 1\nq %d %d\n" % (source, near),
        "a pair far away": b"p aux sp p2p 1\nq %d %d\n" % (source, far),
        "100 pairs of one source": b"p aux sp p2p 100\n" + b"".join(b"q %d %d\n" % (source, v) for v in some),
        "ten sources": b"p aux sp ss 10\n" + b"".join(b"s %d\n" % v for v in some[:10]),
        "an arc added": b"p aux sp add 1\na %d %d 100000000\n" % (source, far),
        "1,000 roads listed": b"p aux sp arcs %d\n" % len(roads) + ends,
        "1,000 roads replaced": b"p aux sp set %d\n" % len(roads) + b"\n".join(roads) + b"\n",
        "1,000 roads removed": b"p aux sp cut %d\n" % len(roads) + ends,
    }
    for workers in (1, 4):
        before = time.perf_counter()
        session = Session(program, workers, graph)
        print(f"{workers} workers: load {1000 * (time.perf_counter() - before):.0f} ms")
        for name, request in requests.items():
            whole = request.replace(b"walk", b"p2p") if b"walk" in request else request
            asked = best(rounds, lambda: session.ask(request))
            alone = best(rounds, lambda: job(program, workers, graph + whole)) if not any(form in request for form in (b" add ", b" arcs ", b" set ", b" cut ")) else None
            beside = f", as a job {alone:.0f} ms, ratio {asked / alone:.2f}" if alone else ""
            print(f"{workers} workers: {name} {asked:.1f} ms{beside}")
        session.close()


def small(program, rounds):
    """Requests a second on small graphs, and memory."""
    for n in (4, 1024, 10_000):
        draw = random.Random(n)
        arcs = b"".join(b"a %d %d %d\n" % (draw.randrange(1, n + 1), draw.randrange(1, n + 1), draw.randrange(100)) for _ in range(3 * n))
        for workers in (1, 2, 4):
            session = Session(program, workers, b"p sp %d %d\n" % (n, 3 * n) + arcs)
            request = b"p aux sp p2p 1\nq 1 %d\n" % n
            session.ask(request)
            count = 1000
            took = best(rounds, lambda: [session.ask(request) for _ in range(count)])
            print(f"{n} vertices, {workers} workers: {1000 * count / took:.0f} pairs a second")
            if (n, workers) == (1024, 2):
                first = session.resident()
                for _ in range(10_000):
                    session.ask(request)
                print(f"memory after {count * rounds} requests {first >> 10} KiB, after 10,000 more {session.resident() >> 10} KiB")
            session.close()


def from_python(program, graph, rounds, source, near):
    """The same from the package, as arrays."""
    os.environ["HOLLOWBOWL"] = program
    from hollowbowl import Graph

    with open("/dev/shm/sessions.gr", "wb") as file:
        file.write(graph)
    for workers in (1, 4):
        with Graph.from_gr("/dev/shm/sessions.gr", workers=workers) as kept:
            print(f"Python, {workers} workers: a row of distances {best(rounds, lambda: kept.distances(source - 1)):.0f} ms")
            print(f"Python, {workers} workers: a path next door {best(rounds, lambda: kept.path(source - 1, near - 1)):.1f} ms")
    os.remove("/dev/shm/sessions.gr")


def crossings(side, seed):
    """Tails, heads and weights of streets both ways between crossings in a square."""
    import numpy

    here = numpy.arange(side * side).reshape(side, side)
    along = numpy.concatenate([here[:, :-1].ravel(), here[:-1].ravel()])
    across = numpy.concatenate([here[:, 1:].ravel(), here[1:].ravel()])
    tails, heads = numpy.concatenate([along, across]), numpy.concatenate([across, along])
    return tails, heads, numpy.random.default_rng(seed).integers(200, 3200, len(tails))


def others(n, tails, heads, weights):
    """For each library that is there a call that gives the costs from a source, with the graph in memory."""
    try:
        from graph_tool import Graph
        from graph_tool.topology import shortest_distance

        kept = Graph(directed=True)
        kept.add_vertex(n)
        sizes = kept.new_edge_property("int64_t")
        kept.add_edge_list(zip(tails, heads, weights), eprops=[sizes])
        yield "graph-tool", lambda s: shortest_distance(kept, source=kept.vertex(s), weights=sizes).a
    except ImportError:
        pass
    try:
        from scipy.sparse import csr_matrix
        from scipy.sparse.csgraph import dijkstra

        matrix = csr_matrix((weights, (tails, heads)), shape=(n, n))
        yield "scipy", lambda s: dijkstra(matrix, indices=s)
    except ImportError:
        pass
    try:
        import igraph

        roads = igraph.Graph(n=n, edges=list(zip(tails.tolist(), heads.tolist())), directed=True)
        roads.es["weight"] = weights.tolist()
        yield "igraph", lambda s: roads.distances(s, weights="weight")[0]
    except ImportError:
        pass
    try:
        import networkx

        names = networkx.DiGraph()
        names.add_weighted_edges_from(zip(tails.tolist(), heads.tolist(), weights.tolist()))
        yield "networkx", lambda s: networkx.single_source_dijkstra_path_length(names, s)
    except ImportError:
        pass


def beside(program, rounds):
    """Rows of one source, and what 1,000 sources come to, beside libraries."""
    os.environ["HOLLOWBOWL"] = program
    from hollowbowl import Graph

    side, count = 200, 1000
    columns = crossings(side, 1)
    n = side * side
    sources = [random.Random(2).randrange(n) for _ in range(count)]
    for workers in (1, 4):
        with Graph(*columns, n, workers=workers) as kept:
            row, sums = best(rounds, lambda: kept.distances(7)), best(1, lambda: kept.totals(sources))
            print(f"{n} vertices, {workers} workers: a row {row:.1f} ms, totals of {count} sources {sums:.0f} ms")
    for name, costs in others(n, *columns):
        some = sources[: 10 if name == "networkx" else 100]
        took = best(1, lambda: [costs(s) for s in some]) * count / len(some)
        print(f"{n} vertices, {name}: a row {best(rounds, lambda: costs(7)):.1f} ms, rows of {count} sources {took:.0f} ms (of {len(some)})")


def main():
    """All of it."""
    program, path, rounds, *vertices = sys.argv[1:]
    with open(path, "rb") as file:
        graph = file.read()
    source, near, far = map(int, vertices)
    large(program, graph, int(rounds), source, near, far)
    small(program, int(rounds))
    from_python(program, graph, int(rounds), source, near)
    beside(program, int(rounds))


if __name__ == "__main__":
    main()
