"""What the command prints on standard error, if that can be written. It decides nothing."""

from __future__ import annotations

import contextlib
import sys


def note(text: str) -> None:
    """Prints a text of this command."""
    tell(f"excp: {text}\n")


def tell(text: str) -> None:
    """Prints a text. Nothing stays in a buffer, to fail later."""
    if sys.stderr is None:
        # it was closed before this process began
        return
    data = text.encode("utf-8", "surrogateescape")
    with contextlib.suppress(OSError):
        with open(sys.stderr.fileno(), "wb", closefd=False) as errors:
            errors.write(data)
