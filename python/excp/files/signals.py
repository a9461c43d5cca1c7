"""Signals that end a program, held back while a file is half written.

They stay pending: after the block each has the effect that it always has. So no handler is needed.
"""

from __future__ import annotations

import contextlib
import signal
from typing import AbstractSet, Iterator

# Ctrl-C, the end of a terminal, and the usual request to end.
_ENDING = (signal.SIGINT, signal.SIGHUP, signal.SIGTERM)


class EndAsked(BaseException):
    """A signal that ends the program is held back."""


def ending() -> AbstractSet[int]:
    """The signals that end this process: one that is ignored, as by nohup, ends nothing."""
    return {it for it in _ENDING if signal.getsignal(it) is not signal.SIG_IGN}


@contextlib.contextmanager
def held_back() -> Iterator[AbstractSet[int]]:
    """Holds back the signals that end a program until the block ends. Gives the mask of signals
    before."""
    before = signal.pthread_sigmask(signal.SIG_BLOCK, ending())
    try:
        yield before
    finally:
        # a signal that was held back comes now: Ctrl-C as KeyboardInterrupt
        signal.pthread_sigmask(signal.SIG_SETMASK, before)


def end_if_asked() -> None:
    """Raises EndAsked if a signal is held back: the block is to clean up and end."""
    if signal.sigpending() & ending():
        raise EndAsked
