"""Which library carries out scenarios and schedules: the one that is named, the one that is
installed, or that of the repository, which is built with nothing proved if need be."""

from __future__ import annotations

import os
from pathlib import Path
from typing import Optional

from .building import NotBuilt, build
from .home import LIBRARY, Home
from .proof import is_current

# The name in the environment of the file that has the library, if that is named.
PLACE = "EXCP_LIBRARY"

_BUILDS = (
    "there is no library of these sources: builds it unproved, in two minutes or so; "
    "tools/library.py proves it"
)
_MISSING = (
    f"no {LIBRARY} is installed with this command: build it by tools/library.py of the repository, "
    f"before ./excp --install PREFIX, or let {PLACE} name it"
)
_NOT_PROVED = "the library has not been proved of these sources: tools/library.py proves it"

# The folder of the package.
_PACKAGE = Path(__file__).resolve().parents[1]

# What else the library is built of, beside crates.
_IN_C = "excp.c", "excp.h"


def choose_library(home: Home, needs_proof: bool) -> Path:
    """The file of the library. Raises NotBuilt."""
    named = os.environ.get(PLACE)
    if named:
        return Path(named)
    if home.top is None:
        return _installed(home)
    file = library_of(home.top)
    is_right = _is_current(home, file)
    if needs_proof and not (is_right and _is_proved(file)):
        raise NotBuilt(_NOT_PROVED)
    if not is_right:
        build(home, "library.py", "--unproved", "--quiet", says=_BUILDS)
    return file


def _installed(home: Home) -> Path:
    """The library beside the programs of an installed command, or in a package of pip."""
    for folder in home.programs, _PACKAGE:
        if (folder / LIBRARY).is_file():
            return folder / LIBRARY
    raise NotBuilt(_MISSING)


def built_library(home: Home, takes_unproved: bool) -> Optional[Path]:
    """The library of the repository if it was built of the sources as they are, and is proved,
    unless it need not be."""
    if home.top is None:
        return None
    file = library_of(home.top)
    is_right = _is_current(home, file) and (takes_unproved or _is_proved(file))
    return file if is_right else None


def library_of(top: Path) -> Path:
    """The library that is built in a repository."""
    return top / "out" / "library" / LIBRARY


def _is_current(home: Home, file: Path) -> bool:
    """Whether no source is newer than the library."""
    if home.top is None or not file.is_file() or not is_current(home, file):
        return False
    time = file.with_name(f"{LIBRARY}.crates").stat().st_mtime_ns
    return all((home.top / "c" / it).stat().st_mtime_ns <= time for it in _IN_C)


def _is_proved(file: Path) -> bool:
    return file.with_name(f"{LIBRARY}.proved").is_file()
