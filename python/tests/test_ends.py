"""Programs that die, graphs that are closed or dropped, and the end of Python."""

import gc
import os
import signal
import subprocess
import sys
import tempfile
import threading
import time
import unittest
from unittest import mock

from common import Case, children, every_question, ints, is_alive, the_program, threads, waits_for
from fake import Fake, fake

import hollowbowl
from hollowbowl import INF, Closed, Ended, Graph, GraphChanged, ProgramMissing, Refused

ARC = ([0], [1], [7])

# A program that has answered two sources when it is killed; if a file is there that it makes then, it answers on.
KILLED = """
read(2)
say(b"r 2 1 2\\n")
read(2)
say(b"r 2 1 3\\nr 2 1 4\\n")
line = 4
while True:
    read(3)
    line += 3
    if line > 7 and not os.path.isfile({here!r}):
        if {here!r} != os.devnull:
            open({here!r}, "w").close()
        os.kill(os.getpid(), 9)
    say(b"t 1 2 7 7 2\\n" * 2 + b"r 2 1 %d\\n" % line)
"""


class Ends(Case):
    """Programs that die, graphs that are closed, and graphs that nothing refers to."""

    def test_killed(self):
        with Graph([0, 1], [1, 2], [3, 4]) as graph:
            graph.add([0], [2], [5])
            for ask, wanted in (
                (lambda: ints(graph.distances(0)), [0, 3, 5]),
                (lambda: ints(graph.levels(0)), [0, 1, 1]),
                (lambda: ints(graph.components()), [0, 0, 0]),
                (lambda: graph.totals(0), (3, 8, 5, 2)),
            ):
                self.assertEqual(ask(), wanted)
                os.kill(the_program(), signal.SIGKILL)
                with self.assertLogs("hollowbowl", "WARNING") as told:
                    self.assertEqual((ask(), ask(), graph.m), (wanted, wanted, 3))
                words = "a program with 3 arcs was begun again: the program was killed (signal 9), perhaps for want of memory"
                self.assertEqual([record.getMessage() for record in told.records], [words])

    def test_killed_again(self):
        """A question is asked again once."""
        with Fake(KILLED.format(here=os.devnull)), self.assertLogs("hollowbowl") as told:
            with Graph([0], [1], [7]) as graph, self.assertRaises(Ended) as caught:
                with mock.patch.object(hollowbowl._asking.Sizes, "of", lambda *_: 2):
                    graph.totals([0, 0, 0, 0])
            self.assertEqual((caught.exception.status, len(told.records)), (-9, 1))
        with tempfile.TemporaryDirectory() as folder:
            mark = os.path.join(folder, "mark")
            with Fake(KILLED.format(here=mark)), Graph([0], [1], [7]) as graph, self.assertLogs("hollowbowl"):
                # Before it was killed it had answered two of four.
                with mock.patch.object(hollowbowl._asking.Sizes, "of", lambda *_: 2):
                    self.assertEqual([each.sum for each in graph.totals([0, 0, 0, 0])], [7] * 4)
                self.assertTrue(os.path.exists(mark))

    def test_killed_while_it_answers(self):
        n, left = 3000, []

        def kill(_done, _all):
            if left:
                os.kill(left.pop(), signal.SIGKILL)

        with Graph(range(n - 1), range(1, n), [1] * (n - 1)) as graph:
            left.append(the_program())
            with self.assertLogs("hollowbowl"):
                rows = graph.distances([0] * 400, progress=kill)
            self.assertEqual(left, [])
            self.assertTrue(all(ints(row) == list(range(n)) for row in rows))

    def test_killed_before_an_add(self):
        with Graph([0], [1], [3], 3) as graph:
            self.assertEqual((ints(graph.levels(0)), ints(graph.components())), ([0, 1, INF], [0, 0, 2]))
            graph.add([1], [2], [4])
            self.assertEqual((ints(graph.levels(0)), ints(graph.components()), graph.m), ([0, 1, 2], [0, 0, 0], 2))
            os.kill(the_program(), signal.SIGKILL)
            with self.assertRaises(Ended):
                graph.add([0], [2], [1])
            self.assertEqual((graph.m, ints(graph.levels(0)), ints(graph.distances(0))), (2, [0, 1, 2], [0, 3, 7]))

    def test_all_kinds_grow(self):
        with Graph([0], [1], [3], 3) as graph:
            graph.levels(0), graph.components(), graph.totals(0)
            graph.add([1], [2], [4])
            self.assertEqual((ints(graph.levels(0)), ints(graph.components())), ([0, 1, 2], [0, 0, 0]))
            self.assertEqual((graph.totals(0), ints(graph.distances(0))), ((3, 10, 7, 2), [0, 3, 7]))

    def test_nothing_kept(self):
        for path in (None, "chain.gr"):
            with Graph([0, 1], [1, 2], [3, 4], keep=False) if path is None else self.chain(path) as graph:
                graph.add([0], [2], [5])
                self.assertEqual((ints(graph.distances(0)), ints(graph.levels(0)), graph.m), ([0, 3, 5], [0, 1, 1], 3))
                session = graph._wire.state.session
                self.assertEqual(len(session.log.columns[0]), 0)
                self.assertIsNone(getattr(session.kept, "_columns", None))
                os.kill(the_program(), signal.SIGKILL)
                for ask in every_question(graph):
                    with self.assertRaisesRegex(Ended, "signal 9"):
                        ask()

    def chain(self, name):
        """Such a graph of a file that is gone by now."""
        with tempfile.TemporaryDirectory() as folder:
            path = os.path.join(folder, name)
            with open(path, "w", encoding="ascii") as file:
                file.write("p sp 3 2\na 1 2 3\na 2 3 4\n")
            return Graph.from_gr(path, keep=False)

    def test_closed(self):
        graph = Graph([0], [1], [3])
        graph.levels(0)
        begun = set(children())
        graph.close()
        self.assertTrue(graph._wire.state.is_over)
        self.assertFalse(begun & set(children()))
        graph.close()
        for ask in every_question(graph):
            with self.assertRaisesRegex(Closed, "^the graph is closed$"):
                ask()
        self.assertEqual((graph.n, graph.m), (2, 1))
        self.assertFalse(begun & set(children()) or threads())
        self.assertTrue(issubclass(Closed, Ended))

    def test_closed_while_any_kind_is_asked(self):
        for place in range(4):
            graph = Graph([0], [1], [3])
            questions = [graph.levels, graph.totals, lambda _, graph=graph: graph.components(), graph.distances]
            os.kill(the_program(), signal.SIGSTOP)
            came = []

            def ask(ask=questions[place], came=came):
                try:
                    ask(0)
                except Closed as fault:
                    came.append(fault)

            asker = threading.Thread(target=ask)
            asker.start()
            time.sleep(0.05)
            graph.close()
            asker.join(5)
            self.assertEqual(len(came), 1, place)

    def test_closed_while_threads_ask(self):
        n = 3000
        graph = Graph(range(n - 1), range(1, n), [1] * (n - 1))
        came = []

        def ask():
            try:
                while True:
                    graph.distances([0] * 1000)
            except Closed as fault:
                came.append(fault)

        askers = [threading.Thread(target=ask) for _ in range(8)]
        for each in askers:
            each.start()
        time.sleep(0.2)
        start = time.monotonic()
        graph.close()
        self.assertLess(time.monotonic() - start, 2)
        for each in askers:
            each.join(5)
        self.assertEqual((len(came), len(set(map(id, came)))), (8, 8))

    def test_dropped(self):
        before = set(children())
        for _ in range(200):
            graph = Graph([0], [1], [3])
            self.assertEqual(graph.distance(0, 1), 3)
        del graph
        self.assertTrue(waits_for(lambda: set(children()) <= before and not threads()))
        ring = [Graph([0], [1], [3])]
        ring.append(ring)
        del ring
        gc.collect()
        self.assertTrue(waits_for(lambda: set(children()) <= before))

    def test_dropped_after_a_fault(self):
        graph = Graph([0], [1], [3])
        graph._names.n = 10
        gc.disable()
        try:
            graph.distance(0, 8)
        except Refused:
            pass
        finally:
            del graph
            self.assertTrue(waits_for(lambda: not threads()))
            gc.enable()

    def test_constructor_that_fails(self):
        with Fake("os._exit(1)"), self.assertRaises(Ended):
            Graph([0], [1], [3])

    def test_one_program(self):
        with Graph([0], [1], [3]) as graph:
            number = the_program()
            barrier = threading.Barrier(8)

            def ask():
                barrier.wait()
                for question in every_question(graph):
                    try:
                        question()
                    except GraphChanged:
                        # Another thread has added an arc.
                        continue

            askers = [threading.Thread(target=ask) for _ in range(8)]
            for each in askers:
                each.start()
            for each in askers:
                each.join()
            self.assertEqual((the_program(), graph.m), (number, 9))

    def test_options(self):
        with fake("rest()"), Graph(*ARC, workers=3):
            words = children()[the_program()]
        self.assertEqual(words[words.index("--session") :], ["--session", "--workers", "3", ""])

    def test_a_relative_path(self):
        named, folder = os.path.abspath(os.environ["HOLLOWBOWL"]), os.getcwd()
        try:
            os.chdir(os.path.dirname(named))
            os.environ["HOLLOWBOWL"] = os.path.join(".", os.path.basename(named))
            with Graph([0], [1], [3]) as graph:
                os.chdir("/")
                self.assertEqual(ints(graph.levels(0)), [0, 1])
        finally:
            os.chdir(folder)
            os.environ["HOLLOWBOWL"] = named

    def test_no_program(self):
        named = os.environ.pop("HOLLOWBOWL", None)
        path, os.environ["PATH"] = os.environ["PATH"], ""
        try:
            with self.assertRaisesRegex(ProgramMissing, "HOLLOWBOWL") as caught:
                Graph([], [], [])
            self.assertIsInstance(caught.exception, FileNotFoundError)
            os.environ["HOLLOWBOWL"] = "/nowhere/obim_query"
            with self.assertRaisesRegex(ProgramMissing, "^there is no program /nowhere/obim_query"):
                Graph([], [], [])
        finally:
            os.environ.pop("HOLLOWBOWL", None)
            os.environ["PATH"] = path
            if named is not None:
                os.environ["HOLLOWBOWL"] = named

    def test_no_program_for_a_command(self):
        for name, words in (("/nowhere/obim_query", "No such file or directory"), ("/etc/passwd", "Permission denied")):
            for option in ("--version", "--walks"):
                done = subprocess.run(
                    [sys.executable, "-m", "hollowbowl", option],
                    env={**os.environ, "HOLLOWBOWL": name},
                    stdin=subprocess.DEVNULL,
                    capture_output=True,
                    timeout=30,
                    text=True,
                )
                self.assertEqual((done.returncode, done.stderr), (1, f"hollowbowl: {name} can't be run: {words}\n"))

    def run_python(self, text):
        """Runs a text by another Python, and gives its status and what it printed."""
        done = subprocess.run([sys.executable, "-c", text], capture_output=True, timeout=30, text=True)
        return done.returncode, done.stdout, done.stderr

    def test_end_of_python(self):
        begin = "import atexit, os, sys, threading, time, signal\nfrom hollowbowl import Graph, Closed\n"
        busy = "threading.Thread(target=lambda: g.distances([0] * 3000), daemon=True).start()\ntime.sleep(0.1)\n"
        chain = "g = Graph(range(2999), range(1, 3000), [1] * 2999)\nprint(g._wire.state.session.process().id, flush=True)\n"
        for end, status in (("", 0), ("sys.exit(3)", 3), ("os.kill(os.getpid(), 9)", -9)):
            got, out, err = self.run_python(begin + chain + busy + end)
            self.assertEqual((got, err), (status, ""))
            self.assertTrue(waits_for(lambda: not is_alive(int(out))))
        late = "def late():\n    try:\n        print(g.distance(0, 5))\n    except Closed:\n        print('closed')\natexit.register(late)\n"
        got, out, err = self.run_python(begin + chain + late)
        self.assertEqual((got, err), (0, ""))
        self.assertIn(out.split()[1], ("5", "closed"))

    def test_ctrl_c_while_idle(self):
        text = (
            "import os, signal, time\nfrom hollowbowl import Graph\nos.setsid()\ng = Graph([0], [1], [3])\ng.levels(0)\n"
            "try:\n    os.killpg(0, signal.SIGINT)\n    time.sleep(5)\nexcept KeyboardInterrupt:\n    pass\n"
            "time.sleep(0.1)\nprint(g.distance(0, 1), g.distance(0, 1), list(g.levels(0))[1])\n"
        )
        self.assertEqual(self.run_python(text), (0, "3 3 1\n", ""))


if __name__ == "__main__":
    unittest.main()
