"""Graphs of files: what is one, what is more than one, and files that change."""

import gc
import gzip
import os
import signal
import tempfile
import time
import unittest
import warnings

from common import Case, ints, the_program
from fake import Fake

from hollowbowl import BadGraph, Graph, GraphChanged, ProgramTooOld

SIX = """c a graph
p sp 6 8
a 1 2 10
a 1 3 10
a 2 4 5
a 3 4 2
a 1 5 10
a 4 6 3
a 5 6 20
a 2 6 9
"""
FIRST_ROW = [0, 10, 10, 12, 10, 15]
CHAIN = "p sp 3 2\na 1 2 7\na 2 3 6\n"


class Files(Case):
    """A file in a folder of its own."""

    def setUp(self):
        folder = tempfile.TemporaryDirectory()
        self.addCleanup(folder.cleanup)
        self.path = os.path.join(folder.name, "graph.gr")
        super().setUp()

    def write(self, text):
        """Writes the file anew, in place, at another time than before."""
        with open(self.path, "w", encoding="ascii", newline="") as file:
            file.write(text)
        self.time = getattr(self, "time", 10**18) + 10**7
        os.utime(self.path, ns=(self.time, self.time))

    def test_graphs(self):
        plain = [SIX, SIX.rstrip("\n"), SIX + "c x\n\n \nc p aux sp ss 1\n", SIX.replace("\n", "\r\n"), SIX.replace(" ", "\t\t"), "c\n" * 2**20 + SIX]
        for text in plain:
            self.write(text)
            for workers in (1, 3):
                with Graph.from_gr(self.path, workers=workers) as graph:
                    self.assertEqual((graph.n, graph.m, ints(graph.distances(0))), (6, 8, FIRST_ROW))
                    self.assertEqual((ints(graph.levels(0)), ints(graph.components())), ([0, 1, 1, 2, 1, 2], [0] * 6))
                    self.assertEqual(graph.totals(0), (6, 57, 15, 5))
        self.write("p sp 0 0\n")
        with Graph.from_gr(self.path) as graph:
            self.assertEqual((graph.n, graph.m, len(graph.components())), (0, 0, 0))

    def test_closed_if_no_program_begins(self):
        self.write(SIX)
        with warnings.catch_warnings(record=True) as told:
            warnings.simplefilter("always", ResourceWarning)
            with self.assertRaises(ValueError):
                Graph.from_gr(self.path, workers=0)
            gc.collect()
        self.assertEqual(told, [])

    def refused(self, text, line, words):
        self.write(text)
        for workers in (1, 4):
            start = time.monotonic()
            with self.assertRaises(BadGraph) as caught:
                Graph.from_gr(self.path, workers=workers)
            self.assertLess(time.monotonic() - start, 10)
            fault = caught.exception
            self.assertEqual((fault.path, fault.line), (self.path, line), text[:200])
            self.assertIn(words, fault.words)
            self.assertIn(self.path, str(fault))
            self.assertIsInstance(fault, ValueError)

    def test_an_older_program(self):
        self.write(CHAIN)
        with Fake('read(3)\nsay(b"r 3 2\\n")\nrest()') as program, self.assertRaisesRegex(ProgramTooOld, f"^{program.path} is older"):
            Graph.from_gr(self.path)

    def test_replies_that_name_another_line(self):
        self.write(CHAIN)
        for first, second in ((7, 4), (3, 3), (3, 5)):
            with Fake(f'read(6)\nsay(b"r 3 2 {first}\\nr 3 2 {second}\\ne 5 not a number\\ne 6 not a number\\n")\nrest()'):
                with self.assertRaises(BadGraph):
                    Graph.from_gr(self.path)

    def test_more_than_a_graph(self):
        more = (
            "p aux sp ss 1\ns 1\n",
            "p aux sp ss 0\n",
            "p aux sp ss 1\n",
            "p aux sp p2p 2\nq 1 6\nq 6 1\n",
            "p aux sp walk 1\nq 1 6\n",
            "p aux sp within 3 1\ns 1\n",
            "p aux sp add 1\na 1 6 4\n",
            " p  aux sp ss 1\ns 1\n",
            "p aux sp ss x\n",
            "p aux sp ss x\np aux sp ss x\np aux sp ss x\n",
            "p aux sp ss 0\np aux sp ss x\np aux sp ss x\n",
            "a 1 2 3\n",
            "s 7\n",
            "junk\n",
            "p sp 6 8\n",
        )
        for text in more:
            self.refused(SIX + text, 11, "goes on after its graph")
            self.refused(SIX + "c x\n" + text.rstrip("\n"), 12, "goes on after its graph")
        self.refused("p sp 30000 1\na 1 2 3\np aux sp ss 200\n" + "s 1\n" * 200, 3, "goes on after its graph")

    def test_less_than_a_graph(self):
        ends = "ends before its graph is whole"
        for text in ("", "c x\n", "p sp 3 2\na 1 2 7\n", "p sp 3 2\na 1 2 7\na 1 3", "p sp 3 2", "p sp 3 2\na 1 2 7\nc x\n\n"):
            self.refused(text, None if text[-1:] != "3" else 3, ends if text[-1:] != "3" else "number of fields")
        self.refused("p sp 3 900000\n" + "a 1 2 7\n" * 100_000, None, ends)
        self.refused("p sp 3 3\na 1 2 7\np aux sp ss 1\ns 1\n", 3, "too few lines")

    def test_no_graph(self):
        for text, line, words in (("hello\n", 1, "unknown line"), ("p sp 2 1\na 1 3 7\n", 2, "out of range"), ("p sp 2 1\na 1 2 1.5\n", 2, "not a number"), ("\0\1\2\n", 1, "unknown line")):
            self.refused(text, line, words)

    def test_no_file(self):
        with self.assertRaises(FileNotFoundError):
            Graph.from_gr(self.path)
        with self.assertRaises(IsADirectoryError):
            Graph.from_gr(os.path.dirname(self.path))
        with self.assertRaises(TypeError):
            Graph.from_gr(3)
        os.mkfifo(self.path)
        with self.assertRaisesRegex(ValueError, "no regular file"):
            Graph.from_gr(self.path)

    def test_packed(self):
        self.path += ".gz"
        with gzip.open(self.path, "wt") as file:
            file.write(SIX)
        with Graph.from_gr(self.path) as graph:
            self.assertEqual((ints(graph.distances(0)), ints(graph.levels(0))[3]), (FIRST_ROW, 2))
        with open(self.path, "rb+") as file:
            file.truncate(os.path.getsize(self.path) - 12)
        with self.assertRaisesRegex(BadGraph, "no whole file of gzip"):
            Graph.from_gr(self.path)
        with gzip.open(self.path, "wt") as file:
            file.write(SIX + "p aux sp ss 0\n")
        with self.assertRaisesRegex(BadGraph, "line 11: "):
            Graph.from_gr(self.path)

    def test_first_answer(self):
        """The reply to a query of the file was taken for that to the first question, now and then."""
        self.write(CHAIN + "p aux sp p2p 1\nq 1 2\n")
        for _ in range(20):
            with self.assertRaises(BadGraph):
                Graph.from_gr(self.path)

    def changed(self, text):
        """A file that is written anew is no part of the graph that was made of it."""
        self.write(CHAIN)
        with Graph.from_gr(self.path) as graph:
            self.write(text)
            self.assertEqual((ints(graph.levels(0)), ints(graph.components())), ([0, 1, 2], [0, 0, 0]))
            self.assertEqual((graph.totals(0), ints(graph.distances(0))), ((3, 20, 13, 2), [0, 7, 13]))
            os.kill(the_program(), signal.SIGKILL)
            for _ in range(2):
                with self.assertRaises(GraphChanged):
                    graph.distances(0)

    def test_changed(self):
        for text in (CHAIN.replace("7", "8"), SIX, "", "p sp 3 2\n", CHAIN + "p aux sp ss 0\n"):
            self.changed(text)

    def test_changed_unseen(self):
        self.write(CHAIN)
        times = self.time
        with Graph.from_gr(self.path) as graph:
            os.kill(the_program(), signal.SIGKILL)
            for text in ("p sp 3 1\na 1 2 7\nc 2 3 6\n", "p sp 3 2\na 1 2 7\na 2 9 6\n", "p sp 3 3\na 1 2 7\na 2 3 6\n", CHAIN):
                self.write(text)
                os.utime(self.path, ns=(times, times))
                self.assertEqual(len(text), len(CHAIN))
                if text != CHAIN:
                    with self.assertRaises(GraphChanged):
                        graph.levels(0)
            self.assertEqual(ints(graph.levels(0)), [0, 1, 2])

    def test_moved(self):
        self.write(CHAIN)
        folder = os.getcwd()
        os.chdir(os.path.dirname(self.path))
        try:
            graph = Graph.from_gr("graph.gr")
        finally:
            os.chdir(folder)
        with graph:
            graph.add([0], [2], [5])
            os.rename(self.path, self.path + ".old")
            self.assertEqual(ints(graph.levels(0)), [0, 1, 1])
            os.remove(self.path + ".old")
            self.write(SIX)
            self.assertEqual((graph.totals(0), graph.m), ((3, 12, 7, 1), 3))
            os.kill(the_program(), signal.SIGKILL)
            self.assertEqual(graph.distance(0, 2), 5)


if __name__ == "__main__":
    unittest.main()
