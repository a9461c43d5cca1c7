"""The scenarios of outcomes, each in a file of its own."""

from __future__ import annotations

import contextlib
import tempfile
from typing import IO, Iterator, Optional

from ..files.folder import ScenarioFolder
from ..files.refusals import Unwritten
from ..outcomes.telling import Keeper
from .streams import of_file, say_removed
from .tools import Order


class _Scenarios:
    """A file of scenarios, each after a line `NAME BYTES`."""

    def __init__(self, file: IO[bytes]) -> None:
        self._file = file

    def keep(self, name: str, scenario: bytes) -> None:
        self._file.write(f"{name} {len(scenario)}\n".encode() + scenario)


@contextlib.contextmanager
def scenario_folder(order: Order) -> Iterator[Optional[Keeper]]:
    """What takes scenarios, if they are wanted. They go into their folder once all are found.
    Raises Ended."""
    if order.folder is None:
        yield None
        return
    folder = ScenarioFolder(order.folder, order.targets())
    try:
        for removed in folder.prepare():
            say_removed(*removed)
        with tempfile.TemporaryFile() as file:
            yield _Scenarios(file)
            file.seek(0)
            for removed in folder.write_all(file):
                say_removed(*removed)
    except Unwritten as error:
        raise of_file(error.name, error.sentence) from None
    finally:
        folder.remove_new()
