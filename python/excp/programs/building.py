"""Builds of the programs and the library, by tools of the repository."""

from __future__ import annotations

import shutil
import subprocess
import sys

from .children import ended
from .home import Home
from .telling import note

# The exit status if no program could be built, or none is proved.
NO_PROGRAM = 4


class NotBuilt(Exception):
    """No program could be built, or none is proved: a text for standard error, if none was printed
    yet, and the exit status."""

    def __init__(self, text: str = "", status: int = NO_PROGRAM) -> None:
        super().__init__(text)
        self.text, self.status = text, status


def build(home: Home, tool: str, *words: str, says: str = "") -> None:
    """Calls a file of tools/ with these words, after this text on it. It prints how far it is.
    Raises NotBuilt."""
    if home.top is None:
        raise NotBuilt("an installed excp has no sources to build")
    if shutil.which("rt") is None:
        raise NotBuilt("rt, the command of the Rattle kit, is not on the path")
    if says:
        note(says)
    file = str(home.top / "tools" / tool)
    status = ended([sys.executable, file, *words], subprocess.DEVNULL)
    if status:
        raise NotBuilt(status=status)
