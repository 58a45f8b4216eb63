"""An exchange: what a caller hands to the thread of a program, and how the caller waits for it."""

import queue
import threading
import time

from ._errors import Timeout


class Exchange:
    """Work that is to be done by the thread, a function of its state, and what came of it."""

    __slots__ = ("work", "fault", "is_left", "is_near", "caller", "_done", "_steps")

    def __init__(self, work, has_steps=False, is_near=None):
        self.work = work
        self.fault = None
        #: Whether it is a question that takes little; None if it is no question.
        self.is_near = is_near
        #: Whether its caller has gone.
        self.is_left = False
        #: The thread that waits for it.
        self.caller = threading.get_ident()
        self._done = threading.Lock()
        self._done.acquire()
        # How much of the work is done, and at last None.
        self._steps = queue.SimpleQueue() if has_steps else None

    # ---- for the thread

    def step(self, done, count):
        """Tells the caller that so many of the items are done."""
        if self._steps is not None:
            self._steps.put((done, count))

    def finish(self):
        """Tells the caller that all is done, or that a fault came of it."""
        self._done.release()
        if self._steps is not None:
            self._steps.put(None)

    # ---- for the caller

    def wait(self, seconds, progress=None):
        """Waits so many seconds until all is done; meanwhile `progress` is called with how much is, and of how much."""
        if progress is not None:
            self._follow(seconds, progress)
        elif not self._done.acquire(timeout=seconds):
            raise _late(seconds)
        if self.fault is not None:
            try:
                raise self.fault
            finally:
                # The fault's traceback has this frame.
                self = None

    def _follow(self, seconds, progress):
        end = None if seconds < 0 else time.monotonic() + seconds
        while True:
            try:
                step = self._steps.get(timeout=None if end is None else max(0, end - time.monotonic()))
            except queue.Empty:
                raise _late(seconds) from None
            if step is None:
                return
            progress(*step)


def _late(seconds):
    return Timeout(f"no answer came within {seconds:g} s")
