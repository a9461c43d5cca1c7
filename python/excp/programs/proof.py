"""The record of a program's proof, `PROGRAM.proof` beside it: of which sources it was proved, and
which file it is. `tools/prove.py` writes it. An installed program that is not proved has
`PROGRAM.unproved` in its place.

A plain run compares sizes and times, because the sums take half a second. `--version`, `--proved`
and `--install` compare the sums.
"""

from __future__ import annotations

import hashlib
import os
from pathlib import Path
from typing import Dict, Iterable, Iterator, Optional

from .home import Home

PROOF, UNPROVED = ".proof", ".unproved"

_PARTS = ("src", "specs", "proofs")


def record_of(home: Home, program: str, kind: str = PROOF) -> Dict[str, str]:
    """The fields of the record of a program; none if there is no record of this kind."""
    try:
        text = (home.programs / f"{program}{kind}").read_text(encoding="utf-8")
    except (OSError, UnicodeDecodeError):
        return {}
    return dict(line.split(" ", 1) for line in text.splitlines() if " " in line)


def why_not(home: Home, program: str, by_sums: bool = False) -> Optional[str]:
    """Why a program is not proved, as far as sizes and times tell; or also by sums of the program
    and of the sources as they are. None if it is proved."""
    record, file = record_of(home, program), home.programs / program
    if not record or not os.access(file, os.X_OK):
        return f"{program} has not been proved"
    if _size_and_time(file) != record.get("file"):
        return f"{program} is not the program that was proved"
    if by_sums and hashlib.sha256(file.read_bytes()).hexdigest() != record.get("sha256"):
        return f"{program} is not the program that was proved"
    if by_sums and home.top:
        if sum_of_sources(home.top, record.get("crates", "").split()) != record.get("sources"):
            return f"the sources are not those of which {program} was proved"
    return None


def newer_source(home: Home, file: Path, crates: str) -> Optional[str]:
    """A source of these crates that is newer than a file; None for an installed program."""
    if home.top is None:
        return None
    time = file.stat().st_mtime_ns
    for source in _sources(home.top, crates.split()):
        if (home.top / source).stat().st_mtime_ns > time:
            return source
    return None


def is_current(home: Home, file: Path) -> bool:
    """Whether no source is newer than a build with nothing proved, whose crates are in
    `FILE.crates`."""
    crates = file.with_name(f"{file.name}.crates")
    return crates.is_file() and newer_source(home, crates, crates.read_text("utf-8")) is None


def _size_and_time(file: Path) -> str:
    """The size of a file, and the nanoseconds of its last change."""
    found = file.stat()
    return f"{found.st_size} {found.st_mtime_ns}"


def sum_of_sources(top: Path, crates: Iterable[str]) -> str:
    """The SHA-256 of all that a proof of these crates reads: of a line for each file, with its own
    sum, as `sha256sum` prints it, in the order of the bytes of their names."""
    lines = hashlib.sha256()
    for source in sorted(map(os.fsencode, _sources(top, crates))):
        content = (top / os.fsdecode(source)).read_bytes()
        lines.update(hashlib.sha256(content).hexdigest().encode() + b"  " + source + b"\n")
    return lines.hexdigest()


def _sources(top: Path, crates: Iterable[str]) -> Iterator[str]:
    """The files that a proof of these crates reads, by their names in the repository."""
    yield from (it for it in ("crates.txt", "HANDLES") if (top / it).exists())
    for crate in crates:
        for part in _PARTS:
            for folder, _, names in os.walk(top / "crates" / crate / part):
                yield from (os.path.relpath(os.path.join(folder, it), top) for it in names)
