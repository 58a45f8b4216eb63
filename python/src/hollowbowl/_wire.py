"""A graph's way to the thread that talks to its program.

A caller puts an exchange into a queue and waits. So nothing that happens to a caller, as Ctrl-C or the end of its time,
parts requests and replies.
"""

import os
import threading
import weakref
from functools import partial

from ._changed import leave_cut_ones
from ._errors import Closed, WrongProcess
from ._exchange import Exchange
from ._process import beginning
from ._state import State

# How long `close` waits for the thread. It ends at once, but where foreign code has kept an end of a pipe.
_PATIENCE = 10


class Wire:
    """A graph's way to its state."""

    def __init__(self, kept, options, is_kept, programs):
        self._pid = os.getpid()
        self.state = State(kept, options, is_kept, programs)
        self.finalizer = weakref.finalize(self, self.state.end, Closed)
        _wires.add(self)
        threading.Thread(target=self.state.serve, name=f"hollowbowl-{self._pid}", daemon=True).start()

    def check(self):
        """Goes on in the process that made the graph."""
        if os.getpid() != self._pid:
            raise WrongProcess(f"the graph is that of process {self._pid}: make one in each process")
        if self.state.owed.loans:
            leave_cut_ones()

    @property
    def m(self):
        """The number of arcs."""
        self.check()
        return self.state.session.m

    @property
    def version(self):
        """The number of changes that were made."""
        self.check()
        return self.state.session.version

    def is_kept(self):
        """Tells whether Python keeps what the graph was made of."""
        return self.state.session.is_kept

    def is_ended(self):
        """Tells whether nothing is answered any more."""
        self.check()
        return self.state.ended is not None or self.state.session.has_ended()

    def shown(self):
        """The number of arcs in words, and whose they are; in the child of a fork too."""
        if os.getpid() != self._pid:
            return f", of process {self._pid}"
        return f" and {self.m} arcs" + (", closed" if self.is_ended() else "")

    def send(self, exchange):
        """Has the thread do an exchange, which is to be waited for."""
        self.check()
        self.state.put(exchange)

    def ask(self, work, *words, seconds=-1, progress=None, is_put_off=True, is_near=None):
        """Has the thread do some work, and waits for it. A caller that goes away leaves the rest undone.

        It is put off while a change of another thread is to be undone, if `is_put_off` says so. Of a question
        `is_near` says whether it takes little.
        """
        self.check()
        exchange = Exchange(lambda by, exchange: getattr(by, work)(*words, exchange), progress is not None, is_near)
        if not is_put_off:
            exchange.caller = None
        try:
            self.state.put(exchange)
            exchange.wait(seconds, progress)
        except BaseException:
            exchange.is_left = True
            # The fault's traceback has this frame.
            exchange = None
            raise

    def look(self, work, found, seconds):
        """Has the thread take something in for which no program is asked, once the changes before are made."""
        # So one that alone uses a program may do it between the requests of a far question.
        self.ask(work, found, seconds=seconds, is_near=True if self.state.pool is None else None)

    def moment(self, seconds):
        """The number of changes, those among them that are under way."""
        found = []
        self.look("moment", found, seconds)
        return found[0]

    def restart(self, seconds):
        """Kills the program, whatever it does, and begins another."""
        self.check()
        fault = self.state.why()
        if fault is not None:
            raise fault
        self.state.session.check_kept()
        self.ask("restart", self.state.kill(), seconds=seconds, is_put_off=False)

    def waker(self):
        """Gives a function that has the thread look who waits; nothing interrupts it, since it is none of Python."""
        return partial(self.state.todo.put, None)

    def settle(self, seconds):
        """Has undone what is owed to nobody any more, where that can be asked, and waits for it."""
        if os.getpid() == self._pid and not self.is_ended():
            self.ask("settle", seconds=seconds)

    def close(self):
        """Ends the program and waits for that; nothing in the child of a fork."""
        state = self.state
        if os.getpid() == self._pid:
            state.end(Closed)
            is_own = threading.get_ident() in state.threads
            if not state.is_over and not is_own and state.over.acquire(timeout=_PATIENCE):
                state.over.release()


_wires = weakref.WeakSet()


def _in_child():
    beginning.release()
    for wire in list(_wires):
        wire.finalizer.detach()
        for session in wire.state.sessions():
            session.let_go()


os.register_at_fork(before=beginning.acquire, after_in_parent=beginning.release, after_in_child=_in_child)
