"""What is wrong with a unit: its medium, its DCBs, doubles of records, and requests that are sure
to fail."""

from __future__ import annotations

from itertools import groupby
from typing import AbstractSet, Iterator, Optional, Sequence

from ..device_commands import DISK
from ..findings import FaultName, Finding
from ..images.measured import MeasuredImage
from ..script.grammar import Area, Excp
from ..script.media import extent_faults, has_sizes, medium_faults
from ..script.set_up import Unit
from ..symbols import Assembled
from .loaded import Images, loading_faults
from .programs import keeps_lengths, sure_failure
from .records import Records, records_of
from .walk import Failure


def unit_faults(
    unit: Unit, image: Optional[MeasuredImage] = None, assumed: AbstractSet[int] = frozenset()
) -> list[Finding]:
    """Why a unit, whose medium is from this image if there is one, cannot be mounted, and why its
    DCBs cannot be opened, but for those of assumed lines. If its sizes are wrong, its DCBs are not
    looked at."""
    reasons = medium_faults(unit) if image is None else loading_faults(unit, image)
    found = [Finding(line, text, FaultName.MEDIUM) for line, text in reasons]
    if image is not None or has_sizes(unit):
        found += opening_faults(unit, assumed)
    return found


def opening_faults(unit: Unit, assumed: AbstractSet[int] = frozenset()) -> list[Finding]:
    """Why DCBs of a unit cannot be opened, but for those of assumed lines."""
    reasons = extent_faults(unit, assumed)
    return [Finding(line, text, FaultName.EXTENT) for line, text in reasons]


class UnitCheck:
    """A check of all units of a script: which requests it has on which areas, and where a job in
    symbols has their bytes."""

    def __init__(
        self,
        script: Assembled,
        areas: Sequence[Area],
        requests: Sequence[Excp],
        assumed: AbstractSet[int],
        images: Images,
    ) -> None:
        self._script, self._areas, self._images = script, areas, images
        self._requests, self._assumed = requests, assumed
        self._used = {excp.area for excp in requests}

    def findings(self, units: Sequence[Unit]) -> Iterator[Finding]:
        """What is wrong with each unit that is not only assumed."""
        for number, unit in enumerate(units):
            if unit.says.line in self._assumed:
                continue
            image = self._images.get(number)
            faults = unit_faults(unit, image, self._assumed)
            yield from faults
            if not any(fault.name is FaultName.MEDIUM for fault in faults):
                yield from _doubles(unit)
                records = records_of(unit, image)
                yield from self._sure_failures(number, unit, records)

    def _sure_failures(self, number: int, unit: Unit, records: Records) -> Iterator[Finding]:
        """Why requests to a unit are sure to fail, but for those of a DCB that is only assumed.
        Equal requests fail alike."""
        areas, device = self._areas, unit.device
        # whether no request changes the length of a record
        is_kept = all(keeps_lengths(device, areas[area]) for area in self._used)
        failures: dict[tuple[int, int, int], Optional[Failure]] = {}
        for excp in self._requests:
            if excp.unit != number:
                continue
            opening = unit.openings[excp.dcb - 1]
            if opening.line in self._assumed:
                continue
            request = excp.dcb, excp.area, excp.iob
            if request not in failures:
                area = areas[excp.area]
                failures[request] = sure_failure(unit, records, opening, excp, area, is_kept)
            failure = failures[request]
            if failure is not None:
                yield at_word(self._script, excp, failure.at, failure.sentence)


def at_word(
    script: Assembled, excp: Excp, at: int, sentence: str, name: Optional[FaultName] = None
) -> Finding:
    """A finding of a request, at the word of a job in symbols that has set the byte at an address
    of its area, or else at the line of the request."""
    word = script.place(excp.area, at)
    if word is None:
        return Finding(excp.line, sentence, name)
    return Finding(word.line, f"{sentence} (excp in line {excp.line})", name, word.column)


def _doubles(unit: Unit) -> Iterator[Finding]:
    """Each record of a disk whose track has a record of the same number by an earlier line."""
    if unit.device == DISK:
        records = sorted(unit.records, key=lambda record: record.identifier)
        for _, same in groupby(records, key=lambda record: record.identifier):
            first = next(same)
            for record in same:
                track = f"track {record.cylinder} {record.head}"
                double = f"{track} has a record {record.number} already, by line {first.line}"
                yield Finding(record.line, double)
                first = record
