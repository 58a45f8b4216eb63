"""The programs of a graph that has several, and which of them answers what.

The thread of the graph takes what is asked in turn. It makes changes itself, by the first program, and hands on
questions to threads, one for each program. Far questions go to the others alone: so the first is left for near ones and
changes, however many far ones there are.
"""

import os
import queue
import threading
from collections import deque

from ._asking import ask
from ._exchange import Exchange
from ._follow import Follower, Made, Unsettled


class Pool:
    """The threads that ask, and what waits for them. The graph's own thread uses it, but for `followers`."""

    def __init__(self, state, count):
        self._first = state.session
        self._made = state.session.made = Made(state.session.lock)
        #: The programs but for the first.
        self.followers = [Follower(state.session) for _ in range(count - 1)]
        # This lock is held for no longer than a look. No caller takes it, so an interrupt leaves it free.
        self._lock = threading.Lock()
        self._near, self._far = deque(), deque()
        self._is_over = False
        self._workers = [_First(state, self, state.session, [self._near])]
        self._workers += [_Other(state, self, each, [self._far, self._near]) for each in self.followers]

    def begin(self):
        """Begins the other programs, side by side."""
        begun = [Exchange(_Other.make_ready) for _ in self.followers]
        for worker in self._workers:
            worker.start()
        for worker, exchange in zip(self._workers[1:], begun):
            worker.todo.put(exchange)
        for exchange in begun:
            exchange.wait(-1)

    def put(self, exchange):
        """Has a question answered by a program that is free, or by the first that will be."""
        with self._lock:
            for worker in self._workers[0 if exchange.is_near else 1 :]:
                if worker.is_free:
                    worker.give(exchange)
                    return
            (self._near if exchange.is_near else self._far).append(exchange)

    def settle(self):
        """Has the others make what the first one has made up to now."""
        self._made.settled = self._first.version
        with self._lock:
            for worker in self._workers[1:]:
                if worker.is_free and worker.is_behind():
                    worker.give(Exchange(_Other.make_ready))

    def next(self, worker):
        """What a worker does next; None at the end."""
        with self._lock:
            if not self._is_over:
                for waiting in worker.takes:
                    if waiting:
                        return waiting.popleft()
                if worker.is_behind():
                    return Exchange(_Other.make_ready)
                worker.is_free = True
        return worker.todo.get()

    def end(self):
        """Ends the threads and the other programs, which were killed; gives the questions that nobody has answered."""
        with self._lock:
            self._is_over = True
        for worker in self._workers:
            worker.end()
        return [*self._near, *self._far]


class _Worker:
    """A thread that asks one program."""

    def __init__(self, state, pool, session, takes):
        self._state, self._pool, self._session = state, pool, session
        #: The questions that wait for such as this; those in the first come first.
        self.takes = takes
        #: Whether it does nothing.
        self.is_free = False
        self.todo = queue.SimpleQueue()
        self._thread = threading.Thread(target=self._serve, name=f"hollowbowl-{os.getpid()}", daemon=True)

    def start(self):
        """Begins the thread."""
        self._thread.start()
        self._state.threads.add(self._thread.ident)

    def give(self, exchange):
        """Has it do an exchange. It is free."""
        self.is_free = False
        self.todo.put(exchange)

    def _serve(self):
        exchange = self._pool.next(self)
        while exchange is not None:
            if not self._do(exchange):
                exchange.finish()
            # What was asked and answered shall not live on until the next question.
            del exchange
            exchange = self._pool.next(self)

    def end(self):
        """Ends the thread, if it was begun, once it is done with what it does."""
        self.todo.put(None)
        if self._thread.ident is not None:
            self._thread.join()


class _First(_Worker):
    """The thread that asks the first program, which the graph's own thread uses too."""

    def is_behind(self):
        """Tells that there is nothing to follow."""
        return False

    def _do(self, exchange):
        with self._state.lock:
            return self._state.do(exchange, self)

    def ask(self, question, exchange):
        """Asks a question, unless its caller has gone before. Gives True if that is put off."""
        if self._state.owed.loans:
            # The program has changes that will be undone.
            self._state.todo.put(exchange)
            return True
        self._state.ask(question, exchange)
        return False


class _Other(_Worker):
    """The thread that asks another program."""

    def is_behind(self):
        """Tells whether there is something to do before a question."""
        return self._session.is_behind()

    def _do(self, exchange):
        return self._state.do(exchange, self)

    def make_ready(self, _):
        """Has a program there that has made all that it can."""
        self._session.process()

    def ask(self, question, exchange):
        """Asks a question, unless its caller has gone before. Gives True if that is put off."""
        return not exchange.is_left and self._session.again(self._try, question, exchange)

    def _try(self, question, exchange):
        try:
            self._session.process()
        except Unsettled:
            # The first program has changes that will be undone.
            self._state.todo.put(exchange)
            return True
        self._session.in_step(ask, self._session, question, self._state.sizes, exchange)
        return False

    def end(self):
        super().end()
        self._session.end()
