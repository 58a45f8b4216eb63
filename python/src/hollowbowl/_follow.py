"""Programs that follow the changes of a graph's first one, so that each answers for the same graph.

What a `with` will undo is followed once it is undone: so they answer for the graph before the `with`, or after it.
"""

from collections import deque

from ._errors import Error, OutOfStep
from ._session import Session

# So many edges of changes are kept for programs that are late. One that is later than that begins anew.
_MOST = 1 << 20


class Unsettled(Exception):
    """No program can begin now, since some changes will be undone."""


class Made:
    """The changes that the first program has made, for those that follow it."""

    def __init__(self, lock):
        """None yet. The lock is that of the first program's session."""
        self._lock = lock
        self.followers = []
        #: The last version that stays.
        self.settled = 0
        # Each change with the version and the number of arcs that it has led to, and how many edges all have.
        self._parts = deque()
        self._size = 0

    def append(self, part, version, m):
        """Takes in a change. The lock is held."""
        self._parts.append((version, m, part))
        self._size += len(part.columns[0])
        versions = [each.version for each in self.followers if each.version is not None]
        made_by_all = min(versions, default=version) if self._size <= _MOST else version
        while self._parts and self._parts[0][0] <= made_by_all:
            self._size -= len(self._parts.popleft()[2].columns[0])

    def since(self, version):
        """What has come after a version and stays; None if it isn't all here."""
        with self._lock:
            parts = [each for each in self._parts if version < each[0] <= self.settled]
            return parts if len(parts) == self.settled - version else None


class Follower(Session):
    """A program that makes the changes of the first. Its version is None while it isn't there."""

    def __init__(self, first):
        super().__init__(first.kept, first.options, True, first._why)
        self.version = None
        #: One that was killed so that another begins.
        self.killed = None
        self._first = first
        self._changes = []
        first.made.followers.append(self)

    def is_behind(self):
        """Tells whether there is something to do before the next question."""
        return self.version is not None and (self.version < self._first.made.settled or self._process is self.killed)

    def process(self):
        """The program, once it has made what the first one has made; begun if there is none."""
        if self._process is not None and self._process is self.killed:
            self._drop()
        parts = None if self._process is None else self._first.made.since(self.version)
        if parts is None:
            self._drop()
            self._start()
        process = super().process()
        self._changes = []
        for part in parts or ():
            self._follow(*part)
        return process

    def _start(self):
        """Takes what a program begins with."""
        first = self._first
        with first.lock:
            if first.made.settled != first.version:
                raise Unsettled
            self.n, self.m, self.version = first.n, first.m, first.version
            self._changes = list(first.log.changes())

    def _follow(self, version, m, part):
        try:
            gone, come = self.in_step(self._make, part, self.m)
        except Error:
            # It lacks a change, so nothing is asked of it.
            self._drop()
            raise
        self.version, self.m = version, self.m + come - gone
        if self.m != m:
            raise OutOfStep(f"one program has {self.m} arcs, where another has {m}")

    def _changes_before(self):
        return self._changes

    def _drop(self, patience=0):
        self.version = None
        return super()._drop(patience)

    def end(self):
        """Ends the program. What the graph was made of is left to the first."""
        self._drop()
