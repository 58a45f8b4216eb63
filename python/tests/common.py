"""What the tests share: libraries that may be there, graphs, definitions of answers, and what a test may leave behind.

HOLLOWBOWL names the program. With HOLLOWBOWL_NUMPY=no the package finds no numpy, as if it were not installed.
"""

import faulthandler
import gc
import heapq
import os
import random
import signal
import sys
import threading
import time
import unittest
from functools import partial

if os.environ.get("HOLLOWBOWL_NUMPY") == "no":
    sys.modules["numpy"] = None

import hollowbowl
from hollowbowl import INF

# After so many seconds a test hangs: it says where each thread is.
_LIMIT = 60


def optional(name):
    """A module, or None if it isn't there."""
    try:
        return __import__(name, fromlist=["*"])
    except ImportError:
        return None


networkx, scipy, igraph = optional("networkx"), optional("scipy.sparse.csgraph"), optional("igraph")
graph_tool, pandas, numpy = optional("graph_tool.topology"), optional("pandas"), optional("numpy")


def costs_from(n, arcs, source):
    """The least costs by a heap of vertices."""
    rows = [[] for _ in range(n)]
    for tail, head, weight in arcs:
        rows[tail].append((head, weight))
    costs, heap = [INF] * n, [(0, source)]
    while heap:
        cost, tail = heapq.heappop(heap)
        if costs[tail] == INF:
            costs[tail] = cost
            for head, weight in rows[tail]:
                heapq.heappush(heap, (cost + weight, head))
    return costs


def levels_from(n, arcs, source):
    """The fewest arcs."""
    return costs_from(n, [(tail, head, 1) for tail, head, _ in arcs], source)


def components_of(n, arcs):
    """The least vertex that arcs join to each."""
    label = list(range(n))
    changed = True
    while changed:
        changed = False
        for tail, head, _ in arcs:
            least = min(label[tail], label[head])
            changed = changed or label[tail] != label[head]
            label[tail] = label[head] = least
    return label


def totals_of(costs):
    """How many are reached, the sum of their costs, the greatest, and the first vertex that has it."""
    reached = [cost for cost in costs if cost != INF]
    return len(reached), sum(reached), max(reached), costs.index(max(reached))


def drawn(seed, most=30):
    """A random graph: how many vertices, and arcs."""
    draw = random.Random(seed)
    n = draw.randrange(1, most)
    weights = draw.choice([1, 9, 1000, 2**32])
    return n, [(draw.randrange(n), draw.randrange(n), draw.randrange(weights)) for _ in range(draw.randrange(4 * n))]


def columns(arcs):
    """Tails, heads and weights."""
    return [list(column) for column in zip(*arcs)] if arcs else [[], [], []]


def ints(row):
    """A row of labels as a list of numbers."""
    return [int(label) for label in row]


def whole(rows):
    """Rows of labels as lists of numbers."""
    return [ints(row) for row in rows]


def children():
    """The processes that this one began and that have not been waited for: a number, and the words of its command."""
    found = {}
    for name in filter(str.isdigit, os.listdir("/proc")):
        try:
            with open(f"/proc/{name}/stat", encoding="utf-8") as file:
                parent = int(file.read().rpartition(")")[2].split()[1])
            if parent == os.getpid():
                with open(f"/proc/{name}/cmdline", encoding="utf-8") as file:
                    found[int(name)] = file.read().split("\0")
        except OSError:
            continue
    return found


def the_program():
    """The number of the one program that this process has begun."""
    found = [number for number, words in children().items() if "--session" in words]
    assert len(found) == 1, found
    return found[0]


def descriptors():
    """How many descriptors are open."""
    return len(os.listdir("/proc/self/fd"))


def threads():
    """The threads of graphs that are there."""
    return [thread for thread in threading.enumerate() if thread.name.startswith("hollowbowl")]


def waits_for(is_so, seconds=5):
    """Whether something is so within some seconds."""
    end = time.monotonic() + seconds
    while not is_so():
        if time.monotonic() > end:
            return False
        time.sleep(0.01)
    return True


def is_alive(number):
    """Whether a process runs; one that has ended and that nobody waits for doesn't."""
    try:
        with open(f"/proc/{number}/stat", encoding="utf-8") as file:
            return file.read().rpartition(")")[2].split()[0] != "Z"
    except OSError:
        return False


def interrupt(*_):
    """Interrupts the main thread, as a handler of signals."""
    raise KeyboardInterrupt


def each_of(call, *words, **names):
    """All that a call gives one after another."""
    return list(call(*words, **names))


def there(graph):
    """The arcs of a graph, sorted."""
    return sorted(graph.edges_between([(tail, head) for tail in graph for head in graph]))


def within_changed(graph, **names):
    """Nothing, while there is one arc more."""
    with graph.changed(add=[(0, 1, 1)], **names):
        pass


def every_question(graph):
    """Each kind of question and change; each takes a time to wait. Only the last, an `add`, leaves other arcs."""
    for costs in ({}, {"hops": True}):
        yield partial(graph.distance, 0, 1, **costs)
        yield partial(graph.distances, 0, **costs)
        yield partial(graph.distances, [0], **costs)
        yield partial(graph.distances, [], **costs)
        yield partial(graph.totals, 0, **costs)
        yield partial(graph.within, 0, 9, **costs)
        yield partial(graph.matrix, [0], [1], **costs)
        yield partial(graph.pairs, [0], [1], **costs)
        yield partial(graph.path, 0, 1, **costs)
        yield partial(graph.distance_and_path, 0, 1, **costs)
        yield partial(graph.closeness, 0, **costs)
        yield partial(graph.eccentricity, **costs)
        yield partial(each_of, graph.rows, [0], **costs)
        yield partial(each_of, graph.paths, [(0, 1)], **costs)
        yield partial(each_of, graph.within_many, [0], 9, **costs)
    yield partial(graph.has_path, 0, 1)
    yield partial(graph.levels, 0)
    yield graph.components
    yield graph.component_count
    yield partial(graph.component_of, 0)
    yield partial(graph.edges_between, [(0, 1)])
    yield partial(graph.has_edge, 0, 1)
    yield partial(graph.remove, [(1, 0)], missing="ignore")
    yield partial(graph.set_weights, [], missing="add")
    yield partial(within_changed, graph)
    yield partial(graph.add, [0], [1], [1])


class _Ring:
    """An alarm that interrupts within a `with`, some seconds after it begins."""

    def __init__(self, seconds):
        self._seconds = seconds

    def __enter__(self):
        signal.setitimer(signal.ITIMER_REAL, self._seconds)

    def __exit__(self, *_):
        signal.setitimer(signal.ITIMER_REAL, 0)


def alarms(draw, most, seconds=30):
    """Alarms at random moments, as long as some seconds last."""
    before = signal.signal(signal.SIGALRM, interrupt)
    end = time.monotonic() + seconds
    try:
        while time.monotonic() < end:
            yield _Ring(draw.random() * most + 1e-6)
    finally:
        signal.signal(signal.SIGALRM, before)


def cut_at(place, ask, then=lambda: None):
    """Whether a call of the package has so many opcodes, or lines; there it is interrupted, in the thread that calls.

    What is to be done then is done while the interrupt is handled.
    """
    left = [place]
    # Python 3.12 tells of lines alone in some frames; before, an exception at a line and its opcode would be two.
    events = ("opcode",) if sys.version_info < (3, 12) else ("opcode", "line")

    def inner(frame, event, _):
        frame.f_trace_opcodes = True
        if event in events:
            left[0] -= 1
            if left[0] == 0:
                raise KeyboardInterrupt
        return inner

    def outer(frame, *_):
        if not frame.f_code.co_filename.startswith(os.path.dirname(hollowbowl.__file__)):
            return None
        frame.f_trace_opcodes = True
        return inner

    before = sys.gettrace()
    sys.settrace(outer)
    try:
        ask()
    except KeyboardInterrupt:
        sys.settrace(before)
        then()
    finally:
        sys.settrace(before)
    return left[0] <= 0


class Case(unittest.TestCase):
    """A test that may not hang, and leaves no program, no thread of a graph and no descriptor."""

    def setUp(self):
        faulthandler.dump_traceback_later(_LIMIT, exit=True)
        gc.collect()
        self._before = set(children()), descriptors()
        self.addCleanup(self._look)

    def _look(self):
        gc.collect()
        programs, count = self._before
        faulthandler.cancel_dump_traceback_later()
        self.assertTrue(waits_for(lambda: set(children()) <= programs), f"left: {children()}")
        self.assertTrue(waits_for(lambda: not threads()), f"left: {threads()}")
        self.assertTrue(waits_for(lambda: descriptors() <= count), f"{descriptors()} descriptors, {count} before")

    def interrupted_after(self, seconds, ask):
        """Interrupts a call after some seconds; it has to be under way then."""
        before = signal.signal(signal.SIGALRM, interrupt)
        try:
            signal.setitimer(signal.ITIMER_REAL, seconds)
            with self.assertRaises(KeyboardInterrupt):
                ask()
        finally:
            signal.setitimer(signal.ITIMER_REAL, 0)
            signal.signal(signal.SIGALRM, before)
