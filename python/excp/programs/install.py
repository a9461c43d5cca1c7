"""`--install PREFIX`: copies the command, its programs, the manual page and the samples."""

from __future__ import annotations

import os
import shutil
import stat
from pathlib import Path
from typing import Dict

from .building import NotBuilt
from .choice import unproved
from .home import LIBRARY, PROGRAMS, Home
from .library_choice import built_library
from .proof import PROOF, UNPROVED, why_not
from .telling import note
from .version import unproved_record


def install(home: Home, prefix: Path, takes_unproved: bool = False) -> None:
    """Copies what an installed command needs into PREFIX. A program that is not proved is installed
    only if that is asked for, and is built if need be. Raises NotBuilt, and OSError."""
    if home.top is None:
        raise NotBuilt("run --install of the repository, not of an installed excp")
    programs = {it: _program(home, it, takes_unproved) for it in PROGRAMS}
    places = {it: prefix / it for it in ("bin", "lib/excp", "share/man/man1", "share/excp/samples")}
    for place in places.values():
        place.mkdir(parents=True, exist_ok=True)
    for program, file in programs.items():
        record = {} if file.parent == home.programs else unproved_record(home.top)
        _install_program(program, file, places["lib/excp"], record)
        _link(f"../lib/excp/{program}", places["bin"] / program)
    _install_library(home, places["lib/excp"], takes_unproved)
    _install_package(home.top, places["bin"], places["lib/excp"])
    _copy(home.top / "docs/excp_job.1", places["share/man/man1"])
    _link("excp_job.1", places["share/man/man1"] / "excp.1")
    for sample in (home.top / "samples").iterdir():
        if sample.is_file() and not sample.stat().st_mode & stat.S_IXUSR:
            _copy(sample, places["share/excp/samples"])
    note(f"installed in {prefix}")


def _program(home: Home, program: str, takes_unproved: bool) -> Path:
    """The file of a program to install."""
    why = why_not(home, program, by_sums=True)
    if why is None:
        return home.programs / program
    if takes_unproved:
        return unproved(home, program, why)
    instead = "./excp --build proves it, --install PREFIX --unproved installs it as it is"
    raise NotBuilt(f"{why}: nothing is installed; {instead}")


def _install_program(program: str, file: Path, own: Path, record: Dict[str, str]) -> None:
    """Copies a program with the record of its proof; or with this one, which says that it has no
    proof."""
    # the time of its last change is in the record of its proof
    shutil.copy2(file, own)
    for kind in (PROOF, UNPROVED):
        (own / f"{program}{kind}").unlink(missing_ok=True)
    if record:
        lines = "".join(f"{name} {text}\n" for name, text in record.items())
        (own / f"{program}{UNPROVED}").write_text(lines, encoding="utf-8")
    else:
        _copy(file.with_name(f"{program}{PROOF}"), own)


def _install_library(home: Home, own: Path, takes_unproved: bool) -> None:
    """Copies the library, if it is built."""
    (own / LIBRARY).unlink(missing_ok=True)
    library = built_library(home, takes_unproved)
    if library is not None:
        shutil.copy(library, own)


def _install_package(top: Path, commands: Path, own: Path) -> None:
    shutil.copy(top / "excp", commands)
    package = own / "python" / "excp"
    shutil.rmtree(package, ignore_errors=True)
    shutil.copytree(top / "python/excp", package, ignore=shutil.ignore_patterns("__pycache__"))


def _copy(file: Path, folder: Path) -> None:
    shutil.copy(file, folder)
    os.chmod(folder / file.name, 0o644)


def _link(to: str, file: Path) -> None:
    if file.is_symlink() or file.exists():
        file.unlink()
    file.symlink_to(to)
