"""The one thread that talks to a graph's program, and what it shares with those that ask.

It makes one exchange after another, and reads each reply to its end whether or not anybody still waits. Of a graph with
several programs it hands questions on to those of a pool. Neither the threads nor the finalizer hold the graph.
"""

import copy
import os
import queue
import threading
from collections import deque

from ._asking import Sizes, ask
from ._errors import Closed, Error, OutOfStep
from ._exchange import Exchange
from ._owed import Owed
from ._pool import Pool
from ._session import Session


class State:
    """What the thread and the finalizer share."""

    def __init__(self, kept, options, is_kept, programs):
        self.session = Session(kept, options, is_kept, self.why)
        self.todo = queue.SimpleQueue()
        #: Why nothing is answered: a class of faults, and what it is made with.
        self.ended = None
        self.is_over = False
        self.over = threading.Lock()
        self.over.acquire()
        #: The numbers of the threads.
        self.threads = set()
        self._pid = os.getpid()
        self.sizes = Sizes()
        self.owed = Owed()
        # What came while a far question was under way, and is done after it.
        self._aside = deque()
        # Whether a near question is asked between requests of another.
        self._is_between = False
        #: Held while something is asked of the first program.
        self.lock = threading.Lock()
        #: Who answers questions, if there are several programs.
        self.pool = None if programs == 1 else Pool(self, programs)

    # ---- for any thread

    def put(self, exchange):
        """Has the thread do an exchange. It says itself that it has ended, to those that come too late."""
        self.todo.put(exchange)
        if self.ended is not None:
            raise self.why()

    def why(self):
        """A new fault that says why nothing is answered; None where all is."""
        if self.ended is None:
            return None
        kind, *words = self.ended
        return kind(*words)

    def end(self, *why):
        """Kills the program. The thread closes what is open, and tells those that wait."""
        if os.getpid() != self._pid:
            return
        if self.ended is None:
            self.ended = why
        self.todo.put(None)
        self.kill()

    def kill(self):
        """Kills the programs, and gives the first if there is one."""
        for follower in self.sessions()[1:]:
            follower.killed = follower.kill()
        return self.session.kill()

    def sessions(self):
        """The sessions of all programs."""
        return [self.session] if self.pool is None else [self.session, *self.pool.followers]

    # ---- for the thread

    def serve(self):
        """Does exchanges until the end."""
        self.threads.add(threading.get_ident())
        try:
            while self.ended is None:
                exchange = self.owed.next() or self._next()
                if exchange is not None and not self.owed.puts_off(exchange) and not self._hands_on(exchange):
                    with self.lock:
                        self.do(exchange, self)
                    self._settled()
                    exchange.finish()
                # What was asked and answered shall not live on until the next question.
                del exchange
        finally:
            self._sweep()

    def _next(self):
        return self._aside.popleft() if self._aside else self.todo.get()

    def _hands_on(self, exchange):
        """Has the pool answer what is a question for the graph as it stays; whether it is one."""
        if self.pool is None or exchange.is_near is None or self.owed.loans:
            return False
        self.pool.put(exchange)
        return True

    def _settled(self):
        """Has the pool follow what stays."""
        if self.pool is not None and not self.owed.loans:
            self.pool.settle()

    def do(self, exchange, by):
        """Does an exchange, by this thread or a worker of the pool. Gives True if it was put off."""
        try:
            return exchange.work(by, exchange)
        except OutOfStep as fault:
            self.end(OutOfStep, *fault.args)
            exchange.fault = fault.with_traceback(None)
        except Error as fault:
            exchange.fault = fault.with_traceback(None)
        except BaseException as fault:
            exchange.fault = fault
        return False

    def _sweep(self):
        self.ended = self.ended or (Closed,)
        left = []
        try:
            self.kill()
            left += [] if self.pool is None else self.pool.end()
            self.session.end()
        finally:
            self.is_over = True
            self.over.release()
            self._tell_all(left)

    def _tell_all(self, left):
        for exchange in left:
            self._tell(exchange)
        while True:
            try:
                self._tell(self.owed.any() or (self._aside.popleft() if self._aside else self.todo.get_nowait()))
            except queue.Empty:
                return

    def _tell(self, exchange):
        if exchange is not None:
            exchange.fault = self.why()
            exchange.finish()

    # ---- exchanges

    def open(self, exchange):
        """Begins the programs."""
        self.session.process()
        self.sizes.n = self.session.n
        if self.pool is not None:
            self.pool.begin()

    def ask(self, question, exchange):
        """Asks a question, unless its caller has gone before. Near ones may come between the requests of a far one."""
        if exchange.is_left:
            return
        words = question, exchange, self._ask_near_ones
        if self._is_between:
            self._ask(*words)
        else:
            self.session.again(self._ask, *words)

    def _ask(self, question, exchange, between=lambda: None):
        self.session.process()
        self.owed.settle(self.session)
        self.session.in_step(ask, self.session, question, self.sizes, exchange, between)

    def _ask_near_ones(self):
        """Answers near questions that wait, but for those behind a change. What else waits keeps its order."""
        # What comes meanwhile waits for the next time.
        for _ in range(self.todo.qsize()):
            if self.owed.loans or any(each.is_near is None for each in self._aside):
                return
            exchange = self.todo.get()
            if exchange is not None and not exchange.is_near:
                self._aside.append(exchange)
            elif exchange is not None:
                self._ask_near_one(exchange)

    def _ask_near_one(self, exchange):
        self._is_between = True
        try:
            self.do(exchange, self)
        finally:
            self._is_between = False
        if self.session.lost is not None:
            # Both are asked again, the far one first.
            fault, exchange.fault = exchange.fault, None
            self.todo.put(exchange)
            raise fault
        exchange.finish()
        if self.session.has_none():
            # The far one has ended with it.
            raise copy.copy(exchange.fault)

    def change(self, change, wanted, exchange):
        """Makes a change, whether or not its caller waits. It may want arcs that have to be there."""
        self.owed.settle(self.session)
        if wanted is not None:
            # It is asked to its end, as a caller who waits has it.
            self._ask(wanted.question, Exchange(None))
            wanted.check()
        self.session.change(change)

    def lend(self, loan, exchange):
        """Makes changes that are owed back, unless their caller has gone before."""
        if not exchange.is_left:
            self._ask(loan.wanted.question, Exchange(None))
            self.owed.lend(self.session, loan, exchange.caller)

    def moment(self, found, exchange):
        """Says how many changes were made, once all is undone that is owed to nobody any more."""
        self.owed.settle(self.session)
        found.append(self.session.version)

    def stand(self, stand, exchange):
        """Says what the arcs are made of, once all is undone that is owed to nobody any more."""
        self.owed.settle(self.session)
        stand.take(self.session)

    def settle(self, exchange):
        """Undoes what is owed to nobody any more."""
        self.owed.settle(self.session)

    def restart(self, process, exchange):
        """Begins another program in place of one that was killed."""
        self.session.restart(process)
