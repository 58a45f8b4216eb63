"""Signals that end a build: they are noted as they come, and looked for where the build can end in order."""

import signal

SIGNALS = (signal.SIGHUP, signal.SIGINT, signal.SIGQUIT, signal.SIGTERM)
seen = []


class Ended(BaseException):
    """A signal that ends this process."""


def note_signals():
    """Notes signals from now on, in place of ending at once. Those that are ignored, as by `nohup`, stay so."""
    for each in SIGNALS:
        if signal.getsignal(each) is not signal.SIG_IGN:
            signal.signal(each, lambda number, _: seen.append(number))


def check():
    """Raises the first signal that was noted, if any."""
    if seen:
        raise Ended(seen[0])
