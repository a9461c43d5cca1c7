"""New files that a program fills. All of them, or none, take the places of their targets.

That holds up to the renames: all are synced before the first takes its place, and what can be
tested of them is tested before the run.
"""

from __future__ import annotations

from typing import Callable, List, Tuple

from .refusals import refusals_of
from .replacement import Replacement
from .targets import Output, Targets


class NewFiles:
    """New files beside their targets. Its caller holds back signals while they are there.

    Each method but `abandon` raises Unwritten.
    """

    def __init__(self, targets: Targets) -> None:
        self._targets = targets
        self._files: List[Tuple[Output, Replacement]] = []

    def begin(self, output: Output) -> Replacement:
        """Makes the new file of an output, if that may be written."""
        replacement = self._targets.begin(output)
        self._files.append((output, replacement))
        return replacement

    def finish(self, known: Callable[[Output], Output]) -> None:
        """Puts all new files in the places of their targets, up to the first that cannot be; or
        none, if one may no longer be. `known` is an output with what it was not known to be before.
        """
        for output, replacement in self._files:
            self._targets.confirm(known(output), replacement)
        while self._files:
            output, replacement = self._files[0]
            with refusals_of(output.name):
                replacement.finish()
            del self._files[0]

    def abandon(self) -> None:
        """Removes the new files that are left."""
        for _, replacement in self._files:
            replacement.abandon()
        self._files.clear()
