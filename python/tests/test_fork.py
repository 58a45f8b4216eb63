"""Graphs and processes: children by fork, pools, and what can't be copied."""

import copy
import gc
import multiprocessing
import os
import pickle
import signal
import socket
import subprocess
import sys
import tempfile
import threading
import time
import unittest
from multiprocessing.reduction import ForkingPickler

from common import Case, children, optional, the_program, waits_for

from hollowbowl import Closed, Graph, WrongProcess

N = 300
CHAIN = (range(N - 1), range(1, N), [1] * (N - 1))
graph = None


def ask_of_parent(vertex):
    """What a process of a pool gets from the graph of its parent."""
    try:
        return int(graph.distances(vertex)[-1]), graph.distance(0, vertex)
    except WrongProcess:
        return "WrongProcess"


class Forks(Case):
    """A child of a fork has no part in the graphs of its parent."""

    def setUp(self):
        global graph
        # What multiprocessing keeps from its first use on is no matter of a graph.
        with multiprocessing.get_context("fork").Pool(1) as pool:
            pool.map(int, [1])
        super().setUp()
        graph = Graph(*CHAIN)
        self.addCleanup(self._close)

    def _close(self):
        global graph
        graph.close()
        graph = None

    def in_child(self, work):
        """Runs a function in a child; what it returned, as text."""
        taken, given = os.pipe()
        number = os.fork()
        if number == 0:
            said = "nothing"
            try:
                said = str(work())
            except BaseException as fault:
                said = f"{type(fault).__name__}: {fault}"
            finally:
                os.write(given, said.encode())
                os._exit(0)
        os.close(given)
        with os.fdopen(taken, "rb") as pipe:
            said = pipe.read().decode()
        os.waitpid(number, 0)
        return said

    def test_pool(self):
        wrong, stop = [], []

        def ask():
            while not stop:
                if graph.distance(0, 9) != 9:
                    wrong.append(9)

        asker = threading.Thread(target=ask)
        asker.start()
        with multiprocessing.get_context("fork").Pool(4) as pool:
            found = pool.map(ask_of_parent, range(200))
        stop.append(True)
        asker.join()
        self.assertEqual((set(found), wrong), ({"WrongProcess"}, []))
        self.assertEqual(graph.distance(0, N - 1), N - 1)

    def test_each_call(self):
        calls = {
            "distance": lambda: graph.distance(0, 1),
            "levels": lambda: graph.levels(0),
            "add": lambda: graph.add([0], [1], [1]),
            "m": lambda: graph.m,
            "components": lambda: graph.components(),
            "rows": lambda: graph.rows([0]),
            "restart": lambda: graph.restart(),
            "is_closed": lambda: graph.is_closed,
        }
        for name, call in calls.items():
            self.assertIn("WrongProcess: the graph is that of process", self.in_child(call), name)
        self.assertEqual(self.in_child(lambda: (graph.n, graph.close())), f"({N}, None)")
        self.assertEqual(self.in_child(lambda: (graph, len(graph), 5 in graph)), f"(<Graph of {N} vertices, of process {os.getpid()}>, {N}, True)")
        paths = graph.paths([(0, 5)] * 9)
        self.assertEqual(next(paths)[-1], 5)
        self.assertIn("WrongProcess", self.in_child(lambda: next(paths)))
        self.assertEqual((graph.distance(0, 5), graph.m), (5, N - 1))

    def test_while_another_thread_asks(self):
        number = the_program()
        os.kill(number, signal.SIGSTOP)
        asker = threading.Thread(target=lambda: graph.distances([0] * 100))
        asker.start()
        time.sleep(0.05)
        start = time.monotonic()
        self.assertIn("WrongProcess", self.in_child(lambda: graph.distance(0, 1)))
        self.assertLess(time.monotonic() - start, 2)
        os.kill(number, signal.SIGCONT)
        asker.join()
        self.assertEqual(graph.distance(0, 1), 1)

    def test_end_of_a_child(self):
        def drop():
            global graph
            graph = None
            return gc.collect() >= 0

        self.assertEqual(self.in_child(drop), "True")
        self.assertEqual(graph.distance(0, 5), 5)
        text = (
            "import os, sys\nfrom hollowbowl import Graph\ngraph = Graph([0], [1], [3])\nnumber = os.fork()\nif number == 0:\n"
            "    sys.exit(7)\nprint(os.waitpid(number, 0)[1] >> 8, graph.distance(0, 1))\n"
        )
        done = subprocess.run([sys.executable, "-W", "error", "-c", text], capture_output=True, timeout=30, text=True)
        self.assertEqual((done.stdout, done.stderr, done.returncode), ("7 3\n", "", 0))

    def test_a_graph_of_its_own(self):
        def make():
            with Graph([0], [1], [3]) as own:
                before = own.distance(0, 1)
                try:
                    graph.distance(0, 1)
                except WrongProcess:
                    return before, own.distance(0, 1), len(children())

        self.assertEqual(self.in_child(make), "(3, 3, 1)")
        self.assertEqual(graph.distance(0, 5), 5)

    def test_close_while_a_child_lives(self):
        number = os.fork()
        if number == 0:
            time.sleep(30)
            os._exit(0)
        start = time.monotonic()
        graph.close()
        took = time.monotonic() - start
        os.kill(number, signal.SIGKILL)
        os.waitpid(number, 0)
        self.assertLess(took, 1)
        with self.assertRaises(Closed):
            graph.distance(0, 1)

    def test_forks_while_programs_begin(self):
        stop = []

        def make():
            while not stop:
                with Graph([0], [1], [3]) as own:
                    own.levels(0)

        maker = threading.Thread(target=make)
        maker.start()
        living = []
        for _ in range(30):
            number = os.fork()
            if number == 0:
                time.sleep(20)
                os._exit(0)
            living.append(number)
            time.sleep(0.01)
        stop.append(True)
        maker.join(10)
        is_over = not maker.is_alive()
        for number in living:
            os.kill(number, signal.SIGKILL)
            os.waitpid(number, 0)
        maker.join()
        self.assertTrue(is_over)

    def test_copies(self):
        for make in (pickle.dumps, copy.copy, copy.deepcopy):
            with self.assertRaisesRegex(TypeError, "make one in each process"):
                make(graph)
        # So a pool hands it to a process that it did not fork.
        with self.assertRaisesRegex(TypeError, "make one in each process"):
            ForkingPickler.dumps(graph)

    @unittest.skipIf(optional("flask") is None or optional("gunicorn") is None, "no flask or no gunicorn")
    def test_preloaded(self):
        text = (
            "from flask import Flask\nfrom hollowbowl import Graph, WrongProcess\n"
            f"graph, app = Graph(range({N - 1}), range(1, {N}), [1] * {N - 1}), Flask('app')\n"
            "@app.route('/<int:vertex>')\ndef cost(vertex):\n    try:\n        return str(graph.distance(0, vertex))\n"
            "    except WrongProcess:\n        return 'WrongProcess'\n"
        )
        with tempfile.TemporaryDirectory() as folder:
            with open(os.path.join(folder, "app.py"), "w", encoding="utf-8") as file:
                file.write(text)
            for options, wanted in (["--preload"], "WrongProcess"), ([], None):
                self.serve(folder, options, wanted)

    def serve(self, folder, options, wanted):
        """Asks a service of two processes, each of which has to answer right or as wanted."""
        path = os.path.join(folder, f"socket{len(options)}")
        command = [sys.executable, "-m", "gunicorn", "-w", "2", "--chdir", folder, "-b", f"unix:{path}", "--log-level", "critical", *options, "app:app"]
        with subprocess.Popen(command) as service:
            try:
                self.assertTrue(waits_for(lambda: is_up(path), 20))
                for vertex in range(40):
                    self.assertEqual(get(path, f"/{vertex}"), wanted or str(vertex))
            finally:
                service.terminate()


def is_up(path):
    """Whether a service listens at a socket of this machine."""
    with socket.socket(socket.AF_UNIX) as one:
        return one.connect_ex(path) == 0


def get(path, page):
    """A page of such a service."""
    with socket.socket(socket.AF_UNIX) as one:
        one.settimeout(20)
        one.connect(path)
        one.sendall(f"GET {page} HTTP/1.0\r\n\r\n".encode())
        with one.makefile("rb") as reply:
            return reply.read().rpartition(b"\r\n\r\n")[2].decode()


if __name__ == "__main__":
    unittest.main()
