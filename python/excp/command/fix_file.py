"""The file of a changed job, which `outcomes --fix` writes."""

from __future__ import annotations

from typing import Optional

from ..files.refusals import Unwritten
from ..files.targets import TEXT, Output
from .streams import of_file, say_removed
from .tools import Order


class FixFile:
    """A file that a changed job is written to. Each method raises Ended."""

    def __init__(self, order: Order, name: str) -> None:
        """Tests that it may be written."""
        self._output = Output(name, TEXT)
        try:
            self._targets = order.targets()
            say_removed(name, self._targets.check(self._output))
        except Unwritten as error:
            raise of_file(error.name, error.sentence) from None

    def write(self, text: bytes) -> None:
        try:
            say_removed(self._output.name, self._targets.write(self._output, [text]))
        except Unwritten as error:
            raise of_file(error.name, error.sentence) from None


def fix_file(order: Order, name: Optional[str]) -> Optional[FixFile]:
    """The file of this name, if one is named."""
    return None if name is None else FixFile(order, name)
