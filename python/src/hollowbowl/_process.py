"""One run of the program: its pipes, its end, and what its replies are read by."""

import os
import select
import shutil
import signal
import subprocess
import tempfile
import threading

from ._errors import BadGraph, OutOfStep, ProgramMissing

_READ = 1 << 16

# The last lines of a reply, and what stands before the bytes of a row, are short.
_LINE = 256

# How much of the end of standard error is read.
_TOLD = 4096

# After how many milliseconds without a byte a file may lack so many arcs that the program waits for more bytes.
_PAUSE = 50

# A program is begun while no fork is made: the child would keep ends of its pipes that nobody knows of.
beginning = threading.Lock()


# Where a wheel has the program.
_OWN = os.path.join(os.path.dirname(os.path.abspath(__file__)), "_program", "bin", "obim_query")


def program():
    """The command that is run: that of the variable HOLLOWBOWL, that of the package, or `obim_query` on the path."""
    named = os.environ.get("HOLLOWBOWL")
    if named:
        return os.path.abspath(named) if os.sep in named else named
    if os.access(_OWN, os.X_OK):
        return _OWN
    found = shutil.which("obim_query")
    if found is None:
        raise ProgramMissing("obim_query is not on the path; set HOLLOWBOWL to the program")
    return os.path.abspath(found)


class Process:
    """The program as a co-process. One thread uses it; `kill` is for any."""

    def __init__(self, command):
        """Begins the program, in a session of its own: Ctrl-C at a terminal doesn't reach it."""
        self._faults = tempfile.TemporaryFile()
        try:
            with beginning:
                self._popen = subprocess.Popen(
                    command,
                    stdin=subprocess.PIPE,
                    stdout=subprocess.PIPE,
                    stderr=self._faults,
                    bufsize=0,
                    start_new_session=True,
                )
        except FileNotFoundError as fault:
            self._faults.close()
            raise ProgramMissing(f"there is no program {command[0]}: {fault.strerror}") from None
        except BaseException:
            self._faults.close()
            raise
        self.id = self._popen.pid
        self._is_over = False
        self._end = None
        self._data, self._at = b"", 0
        #: Whether it is killed on purpose.
        self.is_given_up = False
        #: How many lines were written.
        self.lines = 0

    def kill(self):
        """Kills the program, if it was not waited for yet. It takes no lock, so an interrupt leaves none held."""
        if not self._is_over:
            try:
                os.kill(self.id, signal.SIGKILL)
            except ProcessLookupError:
                pass

    def end(self, patience=0):
        """Waits so many seconds for the program to end, kills it, and gives its status and its standard error's end."""
        if self._end is None:
            self._is_over = True
            status = self._status(patience)
            self.let_go()
            size = self._faults.seek(0, os.SEEK_END)
            self._faults.seek(max(0, size - _TOLD))
            self._end = status, self._faults.read().decode("utf-8", "replace").strip()
            self._faults.close()
        return self._end

    def _status(self, patience):
        try:
            return self._popen.wait(patience)
        except subprocess.TimeoutExpired:
            # It was not waited for, so the number is still its own.
            os.kill(self.id, signal.SIGKILL)
            return self._popen.wait()

    def let_go(self):
        """Closes this process's ends of the pipes, by their objects: a number may soon be another file's."""
        self._popen.stdin.close()
        self._popen.stdout.close()

    # ---- requests

    def write(self, piece):
        """Writes text of a request, all of it."""
        self.lines += piece.count(b"\n")
        self._write(memoryview(piece))

    def _write(self, rest):
        while rest:
            rest = rest[self._popen.stdin.write(rest) :]

    # ---- replies

    def is_silent(self):
        """Whether nothing was read that is still to be looked at."""
        return self._at == len(self._data)

    def _more(self):
        piece = self._popen.stdout.read(_READ)
        if not piece:
            raise EOFError
        return piece

    def text(self):
        """A reply of text: its body, and its last line, which begins with `r` or `e` as no other does."""
        pieces, end = [], b""
        while True:
            piece = self._more()
            pieces.append(piece)
            # The last line may have come in several pieces.
            end = (end + piece)[-_LINE:]
            if end.endswith(b"\n"):
                last = end[end.rfind(b"\n", 0, len(end) - 1) + 1 :]
                if last[:1] in b"re":
                    return b"".join(pieces)[: -len(last)], last

    def line(self):
        """A line of a reply whose other bytes may look like any line."""
        end = self._data.find(b"\n", self._at)
        while end < 0:
            if len(self._data) - self._at > _LINE:
                raise OutOfStep("a line of a reply has no end")
            self._data, self._at = self._data[self._at :] + self._more(), 0
            end = self._data.find(b"\n")
        line = self._data[self._at : end + 1]
        self._at = end + 1
        return line

    def line_before_labels(self):
        """The line that came in place of labels, or None. The eighth byte of a label is less than 16, or 255."""
        while len(self._data) - self._at < 8:
            self._data, self._at = self._data[self._at :] + self._more(), 0
        return self.line() if 16 <= self._data[self._at + 7] < 255 else None

    def fill(self, row):
        """Fills a row with the bytes that come, straight from the pipe but for those that are here."""
        room = memoryview(row).cast("B") if len(row) else memoryview(bytearray())
        here = self._data[self._at : self._at + len(room)]
        room[: len(here)] = here
        self._at += len(here)
        rest = room[len(here) :]
        while rest:
            count = self._popen.stdout.readinto(rest)
            if not count:
                raise EOFError
            rest = rest[count:]

    # ---- a file that should be a graph

    def load(self, text):
        """Writes a marked text (`_marked`) and reads what comes meanwhile, which may be long.

        Gives N and M, or None of a program whose replies name no line.
        """
        given, taken = self._popen.stdin.fileno(), self._popen.stdout.fileno()
        poll = select.poll()
        poll.register(given, select.POLLOUT)
        poll.register(taken, select.POLLIN)
        os.set_blocking(given, False)
        while not text.is_told:
            events = poll.poll(_PAUSE)
            if not events and text.pause():
                poll.register(given, select.POLLOUT)
            for number, _ in events:
                if number == taken:
                    text.take(self._more())
                elif not self._feed(text):
                    poll.unregister(given)
        os.set_blocking(given, True)
        if text.size is not None:
            # Comments may be at hand that were written in part.
            self._write(text.rest)
            self.lines += text.lines
        return text.size

    def _feed(self, text):
        """Writes some of a text; whether more is to come."""
        if not text.rest and not text.advance():
            return False
        try:
            text.rest = text.rest[self._popen.stdin.write(text.rest) or 0 :]
        except BrokenPipeError:
            # Why it has ended stands in the other pipe, and on standard error.
            return False
        return True


def bad_graph(path, text, lines):
    """The fault of a file of so many lines, as the program told it on standard error."""
    where, _, words = text.rpartition("line ")[2].partition(": ")
    if not where.isdigit():
        return BadGraph(path, None, text or "no graph")
    if int(where) > lines:
        return BadGraph(path, None, "the file ends before its graph is whole")
    return BadGraph(path, int(where), words)
