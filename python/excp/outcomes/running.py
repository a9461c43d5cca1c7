"""A search that runs as a child of this process, which ends it."""

from __future__ import annotations

import contextlib
import os
import signal
import subprocess
from typing import Iterator, Sequence

from ..programs.children import begin_child
from .search import Search


@contextlib.contextmanager
def running(words: Sequence[str], files: Sequence[int]) -> Iterator[Search]:
    """The search that a program with these words carries out, which has these files. It ends with
    this process. Raises OSError if it cannot be run."""
    parent, mask = os.getpid(), signal.pthread_sigmask(signal.SIG_BLOCK, ())
    child = subprocess.Popen(
        words,
        stdin=subprocess.PIPE,
        stdout=subprocess.PIPE,
        pass_fds=files,
        restore_signals=False,
        preexec_fn=lambda: begin_child(parent, mask),
    )
    search = Search(child)
    try:
        yield search
    finally:
        search.end()
