"""What `--version` prints: of each program its version, whether it is proved, and of what."""

from __future__ import annotations

import re
import subprocess
from pathlib import Path
from typing import Dict, Iterator, NamedTuple

from .home import PROGRAMS, Home, home
from .proof import PROOF, UNPROVED, record_of, why_not
from .telling import note

_OF_RECORD = ("commit", "kit", "sha256")
_UNKNOWN = "unknown"
_VERSION = re.compile(r'^pub const VERSION: &str = "(.*)";$', re.MULTILINE)


class Build(NamedTuple):
    """A build of a program: its version, and whether it is proved."""

    version: str
    is_proved: bool


def build_of(file: Path) -> Build:
    """The build of a program in a file, by sizes and times."""
    here = Home(home().top, file.parent)
    is_proved = why_not(here, file.name) is None
    record = record_of(here, file.name, PROOF if is_proved else UNPROVED)
    if "version" not in record and here.top is not None:
        return Build(_version_of_sources(here.top), is_proved)
    return Build(record.get("version", _UNKNOWN), is_proved)


def library_build() -> Build:
    """What the library is that is loaded."""
    from .. import library

    return Build(library.version(), library.is_proved())


def versions(home: Home) -> Iterator[str]:
    """The lines on all programs. Says of each why it is not proved, if it is not."""
    for program in PROGRAMS:
        if home.top is None and not home.is_installed(program):
            yield f"{program} (not installed)"
            continue
        why = why_not(home, program, by_sums=True)
        if why is None:
            yield from _lines(program, record_of(home, program), "proved")
            continue
        top = home.top
        record = record_of(home, program, UNPROVED) if top is None else unproved_record(top)
        yield from _lines(program, record, "not proved")
        note(why)


def _lines(program: str, record: Dict[str, str], state: str) -> Iterator[str]:
    yield " ".join([program, *record.get("version", "").split(), f"({state})"])
    yield from (f"{name} {record[name]}" for name in _OF_RECORD if name in record)


def unproved_record(top: Path) -> Dict[str, str]:
    """The record of a program that is built of the sources of a repository, and not proved."""
    commit = _printed("git", "-C", str(top), "rev-parse", "--short=12", "HEAD")
    return {
        "version": _version_of_sources(top),
        "commit": commit or _UNKNOWN,
        "kit": _printed("rt", "version") or "none",
    }


def _version_of_sources(top: Path) -> str:
    found = _VERSION.search((top / "crates/run_options/src/lib.rt").read_text(encoding="utf-8"))
    return found[1] if found else _UNKNOWN


def _printed(*words: str) -> str:
    """What a command prints; nothing if it fails."""
    try:
        ran = subprocess.run(words, stdout=subprocess.PIPE, stderr=subprocess.DEVNULL, check=True)
    except (OSError, subprocess.CalledProcessError):
        return ""
    return ran.stdout.decode(errors="replace").strip()
