"""A folder of scenarios, each of which is a file that is replaced whole."""

from __future__ import annotations

import contextlib
import os
from typing import IO, Iterator, Optional, Tuple

from .refusals import Refused, refusals_of
from .replacement import BESIDE
from .targets import TEXT, Output, Targets

_Written = Tuple[str, Optional[str]]

_ENDING = ".scenario"
_BEGINNINGS = ("post-", "output-")

# A name that any search may write.
_FIRST = f"post-0-0-1-1{_ENDING}"


class ScenarioFolder:
    """A folder, and the rules for what is in it. Each method but `remove_new` raises Unwritten."""

    def __init__(self, name: str, targets: Targets) -> None:
        self._name, self._targets = name, targets
        self._is_new = False

    def prepare(self) -> Iterator[_Written]:
        """Makes the folder, if it is not there, and tests that each scenario in it may be replaced.

        Gives the name of each, and that of a new file that a killed run left, if one was removed.
        """
        with refusals_of(self._name):
            self._make()
            names = [os.fsencode(it).decode("utf-8", "replace") for it in os.listdir(self._name)]
        for name in (_FIRST, *filter(_is_scenario, (it.removesuffix(BESIDE) for it in names))):
            output = self._output(name)
            yield output.name, self._targets.check(output)

    def _make(self) -> None:
        try:
            os.mkdir(self._name)
            self._is_new = True
        except FileExistsError:
            if not os.path.isdir(self._name):
                raise Refused("it is not a directory") from None

    def _output(self, name: str) -> Output:
        return Output(f"{self._name}/{name}", TEXT)

    def write_all(self, scenarios: IO[bytes]) -> Iterator[_Written]:
        """Writes scenarios, each of which comes after a line `NAME BYTES`. Gives as `prepare`."""
        while head := scenarios.readline().split():
            text = scenarios.read(int(head[1]))
            output = self._output(head[0].decode())
            yield output.name, self._targets.write(output, [text])

    def remove_new(self) -> None:
        """Removes the folder if it was made here and nothing is in it."""
        if self._is_new:
            with contextlib.suppress(OSError):
                os.rmdir(self._name)


def _is_scenario(name: str) -> bool:
    return name.startswith(_BEGINNINGS) and name.endswith(_ENDING)
