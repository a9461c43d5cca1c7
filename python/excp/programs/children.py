"""Programs that end with this process: they get each signal that ends it, and SIGTERM if it is
killed."""

from __future__ import annotations

import ctypes
import os
import signal
import subprocess
import threading
from typing import IO, AbstractSet, Callable, Optional, Protocol, Sequence, Tuple, Union

from ..files.signals import ending

# Of prctl: the signal that a process gets when its parent ends.
_PR_SET_PDEATHSIG = 1

File = Union[int, IO[bytes], None]


class Reader(Protocol):
    """What reads the standard output of a program, in a thread of its own."""

    @property
    def is_over(self) -> bool:
        """Whether it reads and does nothing more."""

    def begin(self, output: IO[bytes], wake: Callable[[], None]) -> None:
        """Begins to read. When it is over, it closes the output and then calls `wake`."""

    def program_ended(self, status: int) -> None:
        """The program has ended, with this status, negative after a signal."""


def ended(
    words: Sequence[str],
    stdin: File = None,
    stderr: File = None,
    *,
    stdout: File = None,
    files: Sequence[int] = (),
    mask: Optional[AbstractSet[int]] = None,
    reader: Optional[Reader] = None,
) -> int:
    """The exit status of a program, once it has ended and its reader, if it has one, is over. After
    a signal that ends this process, ends the program, and then this process by that signal. The
    program has these files, and this mask of signals, by default that of its caller."""
    awaited = ending()
    # one whose parent ignores it would not be sent
    signal.signal(signal.SIGCHLD, signal.SIG_DFL)
    before = signal.pthread_sigmask(signal.SIG_BLOCK, {*awaited, signal.SIGCHLD})
    try:
        standard = (stdin, stdout if reader is None else subprocess.PIPE, stderr)
        child = _started(words, standard, files, before if mask is None else mask)
        asked = _end_of(child, awaited, reader)
    finally:
        signal.pthread_sigmask(signal.SIG_SETMASK, before)
    if asked is not None:
        signal.signal(asked, signal.SIG_DFL)
        os.kill(os.getpid(), asked)
    return child.returncode if child.returncode >= 0 else 128 - child.returncode


def _started(
    words: Sequence[str],
    standard: Tuple[File, File, File],
    files: Sequence[int],
    mask: AbstractSet[int],
) -> subprocess.Popen[bytes]:
    parent = os.getpid()
    stdin, stdout, stderr = standard
    # a reader that is gone, or a file that gets too large, is an error for it and no signal
    return subprocess.Popen(
        words,
        stdin=stdin,
        stdout=stdout,
        stderr=stderr,
        pass_fds=files,
        restore_signals=False,
        preexec_fn=lambda: begin_child(parent, mask),
    )


def _end_of(
    child: subprocess.Popen[bytes], awaited: AbstractSet[int], reader: Optional[Reader]
) -> Optional[int]:
    """Waits until a program ends and its reader is over. Returns the signal that has ended it
    before, if one has: then nothing waits for the reader, which may be blocked. All these signals
    are blocked, so that none comes between two steps."""
    asked = None
    if reader is not None and child.stdout is not None:
        reader.begin(child.stdout, _waker())
    while child.poll() is None:
        number = signal.sigwait({*awaited, signal.SIGCHLD})
        if number != signal.SIGCHLD:
            asked = number
            child.terminate()
    if reader is None:
        return asked
    reader.program_ended(child.returncode)
    while asked is None and not reader.is_over:
        number = signal.sigwait({*awaited, signal.SIGCHLD})
        asked = None if number == signal.SIGCHLD else number
    return asked


def _waker() -> Callable[[], None]:
    """What ends a wait of the thread that calls this for a signal: it sends the signal that the end
    of a program sends too."""
    waiting = threading.get_ident()
    return lambda: signal.pthread_kill(waiting, signal.SIGCHLD)


def begin_child(parent: int, mask: AbstractSet[int]) -> None:
    """In the new process: it gets a signal when its parent ends, and takes signals again."""
    ctypes.CDLL(None).prctl(_PR_SET_PDEATHSIG, signal.SIGTERM)
    if os.getppid() != parent:
        os.kill(os.getpid(), signal.SIGTERM)
    signal.pthread_sigmask(signal.SIG_SETMASK, mask)
