"""Shares work among as many processes as there are processors to run on, for osm_to_gr.py.

Results come in order, so nothing depends on how many processes there are. One that can't begin or ends too early, as
for want of memory, is done without.
"""

import multiprocessing
import os
import queue
import signal
import threading
from collections import deque
from itertools import islice

SHARES = multiprocessing.get_context("fork")  # so that a process has all that was there before
AHEAD = 8  # results that wait in a process while it goes on


def processor_count():
    return len(os.sched_getaffinity(0))


def begin(target, *arguments):
    """A process that is called with one end of a connection, and the other end, which is closed if none can begin."""
    here, there = SHARES.Pipe()
    process = SHARES.Process(target=work, args=(target, here, there, *arguments), daemon=True)
    try:
        process.start()
    except OSError:
        here.close()
        process = None
    there.close()
    return process, here


def work(target, here, there, *arguments):
    # Who interrupts the script ends it, and then the connection.
    signal.signal(signal.SIGINT, signal.SIG_IGN)
    here.close()
    try:
        target(there, *arguments)
    except (EOFError, BrokenPipeError, MemoryError):
        pass


def end(processes):
    for process, connection in processes:
        connection.close()
        if process:
            process.terminate()
            process.join()


def answer(connection, ask):
    while True:
        connection.send(ask(connection.recv_bytes()))


class Crew:
    """Processes that each answer questions of bytes, one at a time. With one processor there are none."""

    def __init__(self, ask, count=None):
        """Has so many processes call `ask`."""
        self.ask, self.waiting, self.count = ask, deque(), count or processor_count()
        self.processes = [begin(answer, ask) for _ in range(self.count)] if self.count > 1 else []
        self.free = deque(self.processes)

    def give(self, question):
        """Gives a question to a process that is free, of which there has to be one."""
        process = self.free.popleft() if self.processes else None
        if process:
            try:
                process[1].send_bytes(question)
            except OSError:  # `take` finds that it has ended
                pass
        self.waiting.append((process, question))

    def take(self):
        """The answer to the question that was given first, and the question."""
        process, question = self.waiting.popleft()
        if not process:
            return self.ask(question), question
        self.free.append(process)
        try:
            return process[1].recv(), question
        except (EOFError, OSError):
            return self.ask(question), question

    def __enter__(self):
        return self

    def __exit__(self, *_):
        end(self.processes)


def in_turn(jobs):
    """The results of several jobs by the same processes, each an iterator. They have to be gone through in order.

    A job is what `in_shares` takes.
    """
    shares = [(make, first, min(many, first + size)) for many, make, size in jobs for first in range(0, many, size)]
    found = in_shares(len(shares), lambda at, _: shares[at][0](*shares[at][1:]), 1)
    return [islice(found, -(-many // size)) for many, _, size in jobs]


def send_shares(connection, make, shares):
    """Sends results in order, and makes the next ones meanwhile."""
    made = queue.Queue(AHEAD)
    sender = threading.Thread(target=send_made, args=(connection, made), daemon=True)
    sender.start()
    for share in shares:
        made.put(make(*share))
    made.put(None)
    sender.join()


def send_made(connection, made):
    try:
        while (result := made.get()) is not None:
            connection.send(result)
    except OSError:  # nobody takes it
        os._exit(1)


def in_shares(many, make, size):
    """The results of `make(first, last)` for shares of so many things, in order. `size` is that of a share.

    The processes begin at once.
    """
    shares = [(first, min(many, first + size)) for first in range(0, many, size)]
    count = min(processor_count(), len(shares))
    if count < 2:
        return (make(*share) for share in shares)
    return results([begin(send_shares, make, shares[at::count]) for at in range(count)], make, shares)


def results(processes, make, shares):
    """The results of shares that processes send in turn."""
    try:
        for at, share in enumerate(shares):
            try:
                yield processes[at % len(processes)][1].recv()
            except (EOFError, OSError):
                yield make(*share)
    finally:
        end(processes)
