"""Scripts and scenarios that are read whole, for a program that takes plain ones."""

from __future__ import annotations

from dataclasses import dataclass
from typing import BinaryIO, Callable, Mapping, Optional, Sequence

from ..checking import check_scenario, check_script
from ..checking.loaded import Images
from ..findings import FaultName, Finding
from ..symbols import Assembled
from .run import in_memory
from .script_file import read_plain, worth_printing
from .streams import ERRORS, name_of
from .unit_files import load_images
from .units import UnitKind, units_of

# The faults of units, which are found together after all lines of the set-up.
OF_UNITS = (FaultName.MEDIUM, FaultName.EXTENT)

Check = Callable[[Assembled, Images], Sequence[Finding]]


@dataclass(frozen=True)
class WholeScript:
    """A script: the name of its file, None for standard input; its assembled text; and what finds
    its faults."""

    file: Optional[str]
    script: Assembled
    check: Check

    def units(self) -> Optional[Sequence[UnitKind]]:
        """The units that it declares."""
        return units_of(self.script.script)

    def opened(self) -> BinaryIO:
        """A file with the plain script."""
        return in_memory(self.script.script)

    def findings(self, images: Images) -> Sequence[Finding]:
        """What is printed of it if a program has rejected it."""
        return worth_printing(self.check(self.script, images), self.script.script)


def read_job(file: Optional[str], loads: Mapping[int, str]) -> WholeScript:
    """The script in a file. Raises Ended, and Rejected after the mistakes in its symbols were
    printed."""
    return WholeScript(file, _read(file, loads), check_script)


def read_scenario(file: str, loads: Mapping[int, str]) -> WholeScript:
    """The scenario in a file. Raises as `read_job`."""
    return WholeScript(
        file,
        _read(file, loads),
        lambda script, images: ending_faults(check_scenario(script.script, images)),
    )


def ending_faults(findings: Sequence[Finding]) -> Sequence[Finding]:
    """The fault that ends a scenario: the first one of a line, or all of its units, which are found
    together."""
    faults = [it for it in findings if it.is_fault]
    if faults[:1] and faults[0].name in OF_UNITS:
        return [it for it in faults if it.name in OF_UNITS]
    return faults[:1]


def _read(file: Optional[str], loads: Mapping[int, str]) -> Assembled:
    return read_plain(file, lambda: load_images(name_of(file), loads), ERRORS)
