"""The stub of the package beside what it has: names, the parameters of functions, and what exceptions derive from."""

import ast
import importlib.util
import inspect
import os
import subprocess
import sys
import tempfile
import unittest

from common import numpy

import hollowbowl

STUB = os.path.join(os.path.dirname(hollowbowl.__file__), "__init__.pyi")


def parameters(function):
    """The names of the parameters of a function of the stub, and which of them have a default."""
    found = function.args
    positional = [each.arg for each in found.args]
    defaults = set(positional[len(positional) - len(found.defaults) :])
    defaults.update(each.arg for each, value in zip(found.kwonlyargs, found.kw_defaults) if value is not None)
    return positional + [each.arg for each in found.kwonlyargs], defaults


class Stub(unittest.TestCase):
    def setUp(self):
        with open(STUB, encoding="utf-8") as file:
            body = ast.parse(file.read()).body
        self.classes = {each.name: each for each in body if isinstance(each, ast.ClassDef)}
        self.values = {each.target.id for each in body if isinstance(each, ast.AnnAssign)}

    def test_names(self):
        public = set(hollowbowl.__all__) | {"__version__", "__commit__"}
        self.assertEqual(set(self.classes) | self.values, public)

    def test_classes(self):
        for name, stub in self.classes.items():
            real = getattr(hollowbowl, name)
            bases = ["tuple" if base.id == "NamedTuple" else base.id for base in stub.bases]
            # What a graph is made of is no part of what the package has.
            public = [base for base in real.__bases__ if base is not object and base.__name__ not in ("Beside", "Costs", "Paths", "Measures", "Arcs", "Listing", "Nearest", "Tree")]
            self.assertEqual(bases, [base.__name__ for base in public])

    def test_functions(self):
        stubs = {}
        for each in self.classes["Graph"].body:
            if isinstance(each, ast.FunctionDef):
                stubs.setdefault(each.name, []).append(each)
        public = {name for name in dir(hollowbowl.Graph) if not name.startswith("_")}
        self.assertEqual({name for name in stubs if not name.startswith("_")}, public)
        for name in ["__init__", *public]:
            real = inspect.getattr_static(hollowbowl.Graph, name)
            if isinstance(real, property):
                continue
            real = inspect.signature(getattr(real, "__func__", real)).parameters
            found = [parameters(stub) for stub in stubs[name]]
            for names, _ in found:
                self.assertEqual(names, list(real), name)
            defaults = {each for each, of in real.items() if of.default is not of.empty}
            self.assertEqual(set().union(*(have for _, have in found)), defaults, name)


RIGHT = """
import numpy
from numpy.typing import NDArray
from fractions import Fraction
from hollowbowl import INF, Graph, NoPath, NotKept, Totals
graph = Graph([0], [1], [Fraction(1, 2)], scale=10, rounded=True, names=("a", "b"))
most: float | None = graph.rounding
cost: float = graph.distance("a", "b")
label: int = graph.distance("a", "b", whole=True)
both: tuple[float, list[str]] = graph.distance_and_path("a", "b")
for vertex, row in graph.rows(graph, progress=lambda done, count: None):
    print(vertex, row)
for walk in graph.paths([("a", "b")]):
    print(len(walk))
for other in graph.paths([("a", "b")], missing=None):
    print(other is None)
is_there: bool = "a" in graph and graph.has_path("a", "b")
count: int = len(graph) + graph.version + graph.component_count()
totals: Totals = graph.totals("a")
gone: int = graph.remove([("a", "b")], missing="ignore") + graph.remove([("a", "b")])
graph.set_weights([("a", "b", 0.5)], missing="add")
with graph.changed(remove=[("a", "b")], add=[("b", "a", Fraction(1, 2))]) as given:
    is_edge: bool = given.has_edge("a", "b") or graph.weight("a", "b", whole=True) > 3
edges: list[tuple[str, str, float]] = graph.edges_between([("a", "b")])
graph.restart(timeout=1.0)
graph.to_gr("graph.gr")
print(graph.edges(), graph.neighbors("a"), graph.degrees(to=True), graph.to_scipy(), graph.to_networkx(whole=True))
print(graph.nearest(graph, ["a"], to=True), graph.predecessors("a"))
one_way: bool = Graph([0], [1], directed=False, workers="auto").directed
back: Graph = graph.reversed()
sums: float = graph.distances("a").sum() + graph.matrix(["a"], ["b"], dtype=float)[0, 0] + graph.pairs(["a"], ["b"]).max()
fewest: NDArray[numpy.uint64] = graph.levels("a")
levels: int = graph.distance("a", "b", hops=True) + graph.distance_and_path("a", "b", whole=True)[0]
each: list[Totals] = graph.totals(["a", "b"])
near: float = graph.closeness("a") + graph.eccentricity("a") + graph.closeness()[0] + graph.eccentricity(["a"])[0]
labels: NDArray[numpy.int64] = graph.components(counted=True)[1]
class Sub(Graph):
    pass
sub: Sub = Sub.from_gr("graph.gr")
with Sub([0], [1]) as entered, entered.changed() as still:
    other_sub: Sub = still
print(graph.distances("b", to=True), graph.within("b", 0.5, to=True))
graph.add(["a"], ["b"], directed=False)
"""
WRONG = (
    "graph.distance('a')",
    "graph.paths([('a', 'b')], missing='skip')",
    "graph.rows(graph, progress=5)",
    "Graph([0], [1], ['7'])",
    "graph.version = 3",
    "path: str = graph.path('a', 'b')",
    "graph.remove([('a', 'b', 3)])",
    "graph.set_weights([('a', 'b', 3)], missing='ignore')",
    "Graph([0], [1], workers='many')",
    "several: Totals = graph.totals(['a'])",
    "one: list[Totals] = graph.totals('a')",
    "graph.degrees().append(3)",
)


@unittest.skipIf(importlib.util.find_spec("mypy") is None or numpy is None, "no mypy, or no numpy")
class Checker(unittest.TestCase):
    """The stub as a type checker takes it."""

    def faults(self, text):
        """The numbers of the lines that have a fault."""
        folder = os.path.dirname(os.path.dirname(STUB))
        with tempfile.TemporaryDirectory() as work:
            path = os.path.join(work, "typed.py")
            with open(path, "w", encoding="utf-8") as file:
                file.write(text)
            command = [sys.executable, "-m", "mypy", "--strict", "--no-error-summary", "--cache-dir", work, path]
            done = subprocess.run(command, env={**os.environ, "MYPYPATH": folder}, capture_output=True, timeout=120, text=True)
        self.assertEqual(done.stderr, "")
        return sorted({int(line.split(":")[1]) for line in done.stdout.splitlines()})

    def test_right_and_wrong_lines(self):
        first = RIGHT.count("\n") + 1
        self.assertEqual(self.faults(RIGHT + "\n".join(WRONG)), list(range(first, first + len(WRONG))))


if __name__ == "__main__":
    unittest.main()
