"""Which build of a program runs: the proved one if there is one, else one with nothing proved,
which is built if need be. A result in a minute comes before a proof in half an hour.

A proved program stays in use until the next one is whole, also if a source is newer: one line says
so.
"""

from __future__ import annotations

import enum
import os
from pathlib import Path
from typing import Callable, Optional

from .building import NotBuilt, build
from .home import LIBRARY, Home
from .library_choice import choose_library
from .proof import PROOF, UNPROVED, is_current, newer_source, record_of, why_not
from .telling import note

NEWER = (
    "{} is newer than the proved program, which runs: ./excp --build proves it anew, "
    "./excp --try runs the sources as they are"
)
BUILDS = (
    "{}: builds it unproved and not optimized, in one to three minutes; "
    "./excp --build proves it, in half an hour to an hour"
)


class Mode(enum.Enum):
    """What the first word asks for: the best build there is, the proved one alone, or the sources
    as they are."""

    ANY = ""
    PROVED = "--proved"
    TRIED = "--try"


# What to do if no program is installed beside the package, as pip installs it.
_MISSING = (
    "no {} is installed with this command: ./excp --install PREFIX of the repository installs both"
)


def choose(
    home: Home, program: str, mode: Mode, before_build: Callable[[], None] = lambda: None
) -> Path:
    """The file of the build of a program that runs, or of the library. Calls `before_build` before
    it builds a program, if need be, which may raise what ends that. Raises NotBuilt."""
    if program == LIBRARY:
        return choose_library(home, needs_proof=mode is Mode.PROVED)
    if home.top is None and not home.is_installed(program):
        raise NotBuilt(_MISSING.format(program))
    if mode is Mode.TRIED:
        note("runs the unproved build")
        return _unproved(home, program, "try", None, before_build)
    why = why_not(home, program, by_sums=mode is Mode.PROVED)
    if why is None:
        if mode is Mode.ANY:
            _note_newer(home, program)
        return home.programs / program
    if mode is Mode.PROVED:
        raise NotBuilt(why if home.top is None else f"{why}: ./excp --build proves it")
    if home.top is None and record_of(home, program, UNPROVED):
        return home.programs / program
    return unproved(home, program, why, before_build)


def unproved(
    home: Home, program: str, why: str, before_build: Callable[[], None] = lambda: None
) -> Path:
    """The quick build of a program, which is not proved for this reason. Raises NotBuilt."""
    return _unproved(home, program, "quick", BUILDS.format(why), before_build)


def _note_newer(home: Home, program: str) -> None:
    record = record_of(home, program)
    source = newer_source(home, home.programs / f"{program}{PROOF}", record.get("crates", ""))
    if source is not None:
        note(NEWER.format(source))


def _unproved(
    home: Home, program: str, way: str, why: Optional[str], before_build: Callable[[], None]
) -> Path:
    """A build with nothing proved, which is made if there is none of the sources as they are. The
    first one is announced."""
    if home.top is None:
        if why is not None:
            note(why)
        raise NotBuilt("an installed excp has no sources to build")
    file = home.top / "out" / {"quick": "quick", "try": "tried"}[way] / program
    is_built = os.access(file, os.X_OK)
    if not is_built or not is_current(home, file):
        before_build()
        if why is not None and not is_built:
            note(why)
        build(home, "prove.py", way, program)
    return file
