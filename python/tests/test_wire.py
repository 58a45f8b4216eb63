"""Replies in pieces, replies that are none to what was asked, and refusals."""

import itertools
import os
import resource
import signal
import unittest
from unittest import mock

from common import Case, every_question, ints, the_program
from fake import Fake, fake

import hollowbowl
from hollowbowl import Ended, Graph, OutOfMemory, OutOfStep, ProgramTooOld, Refused

ARC = ([0], [1], [7])


class Replies(Case):
    """Replies in pieces, and replies that are none to what was asked."""

    def test_byte_by_byte(self):
        with fake('for line in (6, 8):\n    read(2)\n    say(*[bytes([each]) for each in cost(7) + b"r 2 1 %d\\n" % line])', 0.005):
            with Graph(*ARC) as graph:
                self.assertEqual([graph.distance(0, 1), graph.distance(0, 1)], [7, 7])

    def test_rows_in_pieces(self):
        body = 'read(2)\nsay(b"s", b" 1\\n", bytes(3), bytes(5) + b"\\7\\0\\0", b"\\0\\0\\0\\0\\0r", b" 2 1 6\\n")\nrest()'
        with fake(body, 0.02), Graph(*ARC) as graph:
            self.assertEqual(ints(graph.distances(0)), [0, 7])

    def test_a_last_line_in_two_pieces(self):
        whole = b"q 1 2 7\nw 2 7 1 2\nr 2 1 6\n"
        for at in range(whole.index(b"r"), len(whole)):
            with fake(f"read(2)\nsay({whole[:at]!r}, {whole[at:]!r})\nrest()", 0.02), Graph(*ARC) as graph:
                self.assertEqual(ints(graph.path(0, 1)), [0, 1])

    def test_rows_cut_short(self):
        for pieces in ("bytes(12)", "bytes(16)", 'bytes(16), b"r 2"'):
            with fake(f'read(2)\nsay(b"s 1\\n", {pieces})\nos._exit(9)'), Graph(*ARC) as graph:
                with self.assertRaises(Ended) as caught:
                    graph.distances(0)
                self.assertEqual(caught.exception.status, 9)

    def test_a_line_cut_short(self):
        for (status, kind), piece in itertools.product(((3, OutOfMemory), (7, Ended)), ("cost(7)[:5]", 'cost(7), b"r 2"')):
            with fake(f'read(2)\nsay({piece})\nos._exit({status})'), Graph(*ARC) as graph, self.assertRaises(kind):
                graph.distance(0, 1)

    def out_of_step(self, reply, ask, lines=2):
        """A reply at which the graph ends for good."""
        with fake(f"read({lines})\nsay({reply!r})\nrest()"), Graph(*ARC) as graph:
            with self.assertRaises(OutOfStep):
                ask(graph)
            for question in every_question(graph):
                with self.assertRaises(OutOfStep):
                    question()

    def test_a_reply_to_something_else(self):
        far = bytes(8) + b"\7" + bytes(7)
        cost = b"\7" + bytes(7)
        for reply in (cost + b"r 3 1 6\n", cost + b"r 2 2 6\n", b"q 1 2 inf\nr 2 1 6\n", b"x" * 300, cost + b"r 2 1 6\nr 2 1 6\n", b"e 4 out of range\n", b"e 7 out of range\n", b"e is none\n", cost + cost + b"r 2 1 6\n", cost + b"r 2 1 5\n", cost + b"r 2 1 7\n", cost + b"r 2 1\n"):
            self.out_of_step(reply, lambda graph: graph.distance(0, 1))
        for reply in (b"s 2\n" + far + b"r 2 1 6\n", b"s 1\n" + far + b"r 2 2 6\n", b"s 1\n" + far + b"s 1\n", b"r 2 1 6\n", b"s 1\n" + far + b"r 2 1 6\nq 1 2 7\n", b"x" * 300):
            self.out_of_step(reply, lambda graph: graph.distances(0))
        for reply in (b"t 2 2 7 7 2\nr 2 1 6\n", b"t 1 2 7 7\nr 2 1 6\n", b"q 1 2 7\nr 2 1 6\n"):
            self.out_of_step(reply, lambda graph: graph.totals(0))
        for reply in (b"s 2\nd 1 0\nr 2 1 6\n", b"s 1\nd 1\nr 2 1 6\n"):
            self.out_of_step(reply, lambda graph: graph.within(0, 9))
        for reply in (b"q 1 2 7\nw 2 7 1 1\nr 2 1 6\n", b"q 1 2 7\nw 2 8 1 2\nr 2 1 6\n", b"q 1 2 7\nr 2 1 6\n", b"q 1 2 inf\nw 2 7 1 2\nr 2 1 6\n"):
            self.out_of_step(reply, lambda graph: graph.path(0, 1))
        for reply in (b"k 1 1\nr 2 1 5\n", b"k 1 1\nk 1 1\nr 2 1 5\n", b"s 1\nr 2 1 5\n"):
            self.out_of_step(reply, lambda graph: graph.components(), 1)
        for reply in (b"g 1\nr 2 1 6\n", b"g 2\nr 2 2 6\n", b"r 2 2 6\n"):
            self.out_of_step(reply, lambda graph: graph.add([0], [1], [1]))

    def test_no_session(self):
        for body in ('say(b"hello\\nr 2 1 2\\n")\nrest()', 'read(2)\nsay(b"r 1 1 2\\n")\nrest()', 'read(2)\nsay(b"r 2 1 1\\n")\nrest()', 'read(2)\nsay(b"e 2 x\\n")\nrest()', 'say(b"x" * 300)\nrest()'):
            with Fake(body), self.assertRaises((OutOfStep, Ended)):
                Graph(*ARC)
        with Fake('sys.stderr.write("no such option")\nos._exit(1)'), self.assertRaisesRegex(Ended, "status 1: no such option"):
            Graph(*ARC)
        with Fake("os._exit(3)"), self.assertRaises(OutOfMemory):
            Graph(*ARC)

    def test_an_older_program(self):
        """Its replies name no line, or it refuses a line with words that it doesn't know, and passes by the next."""
        with Fake('read(2)\nsay(b"r 2 1\\n")\nrest()') as program, self.assertRaisesRegex(ProgramTooOld, f"^{program.path} is older"):
            Graph(*ARC)
        body = 'read(2)\nsay(b"r 2 1 2\\n")\nread(2)\nsay({!r})\nrest()'
        with Fake(body.format(b"e 3 unknown line\n")) as program, self.assertRaisesRegex(ProgramTooOld, f"^{program.path} is older"):
            Graph(*ARC)
        for reply in (b"r 2 1 3\nr 2 2 4\n", b"r 2 2 3\nr 2 2 4\n", b"r 2 1 3\nr 2 1 4\nr 2 1 4\n", b"r 2 1 4\nr 2 1 4\n", b"e 3 out of range\n" * 2):
            with Fake(body.format(reply)), self.assertRaises(OutOfStep):
                Graph(*ARC)

    def test_long_standard_error(self):
        body = 'read(2)\nfor _ in range(200):\n    os.write(2, b"x" * 50000)\nos.write(2, b"the end")\nos._exit(5)'
        with fake(body), Graph(*ARC) as graph, self.assertRaises(Ended) as caught:
            graph.distance(0, 1)
        self.assertEqual((len(caught.exception.text), caught.exception.text[-7:]), (4096, "the end"))


class Refusals(Case):
    """What the program refuses: the package asks for nothing of the kind, so its own look at vertices is misled."""

    def test_words_and_record(self):
        with Graph([0], [1], [3]) as graph:
            graph._names.n = 10
            for _ in range(2):
                with self.assertRaises(Refused) as caught:
                    graph.matrix([0], [0, 8])
                self.assertEqual((caught.exception.words, caught.exception.record), ("out of range", "q 1 9"))
                self.assertEqual(str(caught.exception), "out of range: 'q 1 9'")
                self.assertEqual(graph.distance(0, 1), 3)

    def test_rows(self):
        with Graph([0], [1], [3]) as graph:
            graph._names.n = 10
            with self.assertRaises(Refused):
                graph.distances([0, 9])
            graph._names.n = 2
            self.assertEqual(ints(graph.distances(0)), [0, 3])

    def test_in_any_request(self):
        sources = [0, 1, 0, 9, 0, 1]
        with Graph([0], [1], [3]) as graph:
            for size in (1, 2, 3, 4, 100):
                with mock.patch.object(hollowbowl._asking.Sizes, "of", lambda self, question, size=size: size):
                    for ask in (graph.totals, lambda ends: graph.pairs(ends, ends)):
                        graph._names.n = 10
                        with self.assertRaises(Refused):
                            ask(sources)
                        graph._names.n = 2
                        self.assertEqual((ints(graph.distances(0)), graph.totals(1).sum), ([0, 3], 0))

    def test_refused_arcs_are_nowhere(self):
        with Graph([0], [1], [3]) as graph:
            graph.levels(0)
            graph._names.n = 10
            with self.assertRaises(Refused):
                graph.add([0, 0], [1, 9], [1, 1])
            graph._names.n = 2
            self.assertEqual((ints(graph.levels(0)), ints(graph.distances(0)), graph.m), ([0, 1], [0, 3], 1))
            os.kill(the_program(), signal.SIGKILL)
            self.assertEqual((ints(graph.distances(0)), ints(graph.components()), graph.m), ([0, 3], [0, 0], 1))

    def test_memory(self):
        with fake('read(2)\nsay(b"e 6 out of memory\\n")\nread(2)\nsay(cost(7), b"r 2 1 8\\n")\nrest()'), Graph(*ARC) as graph:
            with self.assertRaises(OutOfMemory) as caught:
                graph.distance(0, 1)
            self.assertIsInstance(caught.exception, MemoryError)
            self.assertEqual(graph.distance(0, 1), 7)

    def test_memory_within_an_add(self):
        body = (
            'for count in (1, 2):\n    read(11)\n    say(b"g 10\\nr 2 %d %d\\n" % (10 * count + 1, 11 * count + 4))\n'
            'read(2)\nsay(b"e 28 out of memory\\n")\nread(2)\nsay(cost(7), b"r 2 21 30\\n")\nrest()'
        )
        with fake(body), Graph(*ARC) as graph, mock.patch.object(hollowbowl._session, "MOST_ITEMS", 10):
            with self.assertRaises(OutOfMemory) as caught:
                graph.add([0] * 21, [1] * 21, [1] * 21)
            self.assertEqual((caught.exception.added, graph.m, graph.distance(0, 1)), (20, 21, 7))


class Memory(Case):
    """A program that is refused memory: it answers what takes less, and all again once there is more."""

    def test_kinds(self):
        n = 300_000
        with freed_at_once(), Graph(range(n - 1), range(1, n), [2] * (n - 1), n) as graph:
            self.assertEqual(graph.distance(0, 9), 18)
            number = the_program()
            limits = resource.prlimit(number, resource.RLIMIT_DATA)
            resource.prlimit(number, resource.RLIMIT_DATA, (size_of(number), limits[1]))
            for ask in (graph.levels, graph.components):
                with self.assertRaises(OutOfMemory):
                    ask(*[0] * (ask == graph.levels))
                self.assertEqual(graph.distance(0, 9), 18)
            resource.prlimit(number, resource.RLIMIT_DATA, limits)
            self.assertEqual((int(graph.levels(0)[-1]), int(graph.components()[-1]), the_program()), (n - 1, 0, number))


def freed_at_once():
    """Lets programs that begin within it give freed lists back to the system at once, so that none is left for later."""
    return mock.patch.dict(os.environ, MALLOC_MMAP_THRESHOLD_="65536", MALLOC_TRIM_THRESHOLD_="65536")


def size_of(number):
    """How many bytes of memory a process may write. Room that the C library holds for later isn't among them."""
    with open(f"/proc/{number}/status", encoding="ascii") as file:
        return next(1024 * int(line.split()[1]) for line in file if line.startswith("VmData:"))


if __name__ == "__main__":
    unittest.main()
