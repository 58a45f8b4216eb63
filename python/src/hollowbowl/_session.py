"""The program of a graph: how it begins, is told arcs, and ends."""

import logging
import re
import threading

from ._errors import BadGraph, Ended, Error, GraphChanged, NotKept, OutOfMemory, OutOfStep, ProgramTooOld, Refused
from ._kept import File
from ._log import Log
from ._marked import GOES_ON, MarkedText
from ._process import Process, bad_graph, program
from ._text import MOST_ITEMS

logger = logging.getLogger("hollowbowl")

# How long a program that closed its pipes may take to end by itself, and so to have a status of its own.
_MOMENT = 1

# An older program refuses the first line, whose words it doesn't know, and passes by the second. Nothing is worked out
# for either, where a kind would have arcs with other costs made.
_PROBE = b"p aux sp raw p2p 0\np aux sp ss 0\n"

_FAULT = re.compile(rb"e ([0-9]+) (.+)\n")


class Session:
    """The program that is there, and what another one begins with: what the graph was made of, and its changes."""

    def __init__(self, kept, options, is_kept, why):
        """None yet. `why` gives the fault of a graph that has ended, and None before."""
        self.n, self.m = getattr(kept, "n", None), getattr(kept, "m", None)
        #: The number of changes that were made.
        self.version = 0
        #: What was changed.
        self.log = Log()
        #: What other programs of the graph follow, if there are some; and a lock for who looks at that and at the log.
        self.made = None
        self.lock = threading.Lock()
        #: What the graph was made of.
        self.kept = kept
        self.is_kept = is_kept
        self.options = options
        self._command = [program(), "--session", *options]
        self._why = why
        self._process = None
        # The status and the words of a program after which no other begins.
        self._last = None
        #: The fault of a program that was killed by others, until another has begun.
        self.lost = None

    # ---- for any thread

    def kill(self):
        """Kills the program, if there is one, and gives it."""
        process = self._process
        if process is not None:
            process.is_given_up = True
            process.kill()
        return process

    def has_ended(self):
        """Tells whether the program has ended and no other begins."""
        return self._last is not None

    def has_none(self):
        """Tells whether no program is there."""
        return self._process is None

    def check_kept(self):
        """Goes on if another program can begin."""
        if not self.is_kept:
            raise NotKept("the graph was made with keep=False, so no other program can begin with it")
        self.kept.check()

    def let_go(self):
        """Closes this process's ends of the pipes, and the file."""
        process = self._process
        if process is not None:
            process.let_go()
        self.kept.close()

    # ---- for the thread

    def process(self):
        """The program, begun if there is none."""
        if self._process is None:
            if self._last is not None:
                raise Ended(*self._last)
            self._process = Process(self._command)
            # Who ends a graph kills the program that is there; one that comes later is killed here.
            if self._why() is not None:
                self.kill()
            try:
                self.in_step(self._begin)
            except Error:
                self._drop()
                raise
            if not self.is_kept:
                self.kept.close()
            if self.lost is not None:
                logger.warning("a program with %d arcs was begun again: %s", self.m, self.lost)
                self.lost = None
        return self._process

    def restart(self, process):
        """Begins another program in place of this one, if it is the one that is there."""
        if self._process is process:
            self._drop()
        self.process()

    def end(self):
        """Ends the program, and closes the file."""
        self._drop()
        self.kept.close()

    def again(self, work, *words):
        """Does some work; once more if the program was killed by others meanwhile, or before."""
        try:
            return work(*words)
        except Ended:
            if self.lost is None:
                raise
        return work(*words)

    def in_step(self, work, *words):
        """Does some work with the program. It goes on after a refusal; after all else a reply may be left of it."""
        try:
            return work(self._process, *words)
        except (Refused, OutOfMemory, ProgramTooOld):
            raise
        except (EOFError, BrokenPipeError):
            raise self._early_end() from None
        except BaseException:
            self._drop()
            raise

    def _drop(self, patience=0):
        process, self._process = self._process, None
        if process is None:
            return None, ""
        end = process.end(patience)
        if not self.is_kept:
            self._last = end
        return end

    def _early_end(self, lines=None):
        """The fault of a program that has ended; of one that reads a file, so many lines of it were written."""
        is_ours = self._process.is_given_up
        status, text = self._drop(_MOMENT)
        if self._why() is not None:
            return self._why()
        if status < 0 and self.is_kept and not is_ours:
            self.lost = Ended(status, text)
        if status == 2 and lines is not None:
            return bad_graph(self.kept.path, text, lines)
        return OutOfMemory() if status == 3 else Ended(status, text)

    # ---- its beginning

    def _begin(self, process):
        """Gives a new program the graph, and makes its changes."""
        if isinstance(self.kept, File):
            self._load(process)
        else:
            for piece in self.kept.pieces():
                process.write(piece)
            line = process.line()
            if line == b"r %d %d\n" % (self.n, self.kept.m):
                raise self._too_old("replies name no line")
            self.end_of(process, line, m=self.kept.m)
        self._probe(process)
        m = self.kept.m
        for change in self._changes_before():
            for part in change.parts(MOST_ITEMS):
                gone, come = self._make(process, part, m)
                m += come - gone
        if m != self.m:
            raise OutOfStep(f"{m} arcs are there, where {self.m} were")

    def _changes_before(self):
        """The changes that a new program makes."""
        return self.log.changes()

    def _probe(self, process):
        process.write(_PROBE)
        line = process.line()
        if line.startswith(b"e ") and line.endswith(b" unknown line\n"):
            raise self._too_old("sessions know no 'raw p2p'")
        if line != b"r %d %d %d\n" % (self.n, self.kept.m, process.lines - 1):
            raise OutOfStep("a reply to nothing is none")
        self.end_of(process, process.line(), m=self.kept.m)

    def _load(self, process):
        text = MarkedText(self.kept.path, self.kept.pieces())
        try:
            size = process.load(text)
            if size is None:
                raise self._too_old("replies name no line")
            if self.n is None:
                self.n, self.m = self.kept.n, self.kept.m = size
            if size == (self.kept.n, self.kept.m):
                return
            fault = None
        except EOFError:
            fault = self._early_end(text.file_lines)
        except BadGraph as wrong:
            fault = self._with_line(wrong)
        if self.n is not None and (fault is None or isinstance(fault, BadGraph)):
            fault = GraphChanged(f"{self.kept.path} is another graph than at first")
        raise fault

    def _with_line(self, wrong):
        """The fault of a file, which names the first line behind the graph if the program's reply didn't."""
        if wrong.words != GOES_ON:
            return wrong
        lines = [line for line in (wrong.line, self.kept.section_line()) if line is not None]
        return BadGraph(wrong.path, min(lines, default=None), GOES_ON)

    # ---- changes

    def change(self, change):
        """Makes a change, a request at a time. Only here `m` and `version` move, once the program has answered."""
        for part in change.parts(MOST_ITEMS):
            self.process()
            try:
                gone, come = self.in_step(self._make, part, self.m)
            except OutOfMemory:
                raise OutOfMemory(added=change.come) from None
            with self.lock:
                self._take_in(part, gone, come)
            change.gone, change.come = change.gone + gone, change.come + come

    def _take_in(self, part, gone, come):
        """Goes on with the graph after a change by which so many arcs went and came."""
        if self.is_kept:
            part.keep(self.log)
        if gone or come:
            self.m, self.version = self.m + come - gone, self.version + 1
            if self.made is not None:
                self.made.append(part, self.version, self.m)

    def _make(self, process, change, m):
        """Makes a change of a graph with m arcs, and gives how many went and came."""
        request = change.request()
        process.write(request)
        body, line = process.text()
        if line.startswith(b"e"):
            raise self._fault_of(process, line, request)
        gone, come = change.counts(body)
        self.end_of(process, line, request, m + come - gone)
        return gone, come

    # ---- the ends of replies

    def end_of(self, process, line, request=b"", m=None):
        """Goes on if the last line of a reply is the one that is due, which names the last line that was written."""
        if line != b"r %d %d %d\n" % (self.n, self.m if m is None else m, process.lines):
            raise self._fault_of(process, line, request)
        if not process.is_silent():
            raise OutOfStep("more came than a reply")

    def _fault_of(self, process, line, request):
        found = _FAULT.fullmatch(line)
        records = request.split(b"\n")[:-1]
        place = int(found[1]) - 1 - (process.lines - len(records)) if found else -1
        if not 0 <= place < len(records) or not process.is_silent():
            return OutOfStep(f"a reply ends with {line[:60]!r}")
        words = found[2].decode("ascii", "replace")
        if words == "unknown line" and place == 0:
            form = records[0].split()[3].decode("ascii")
            return self._too_old(f"sessions know no {form!r}")
        return OutOfMemory() if words == "out of memory" else Refused(words, records[place].decode("ascii"))

    def _too_old(self, why):
        return ProgramTooOld(f"{self._command[0]} is older than this package: its {why}")
