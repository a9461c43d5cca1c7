"""Where this command is: in a repository, or installed, with programs or without."""

from __future__ import annotations

from dataclasses import dataclass
from pathlib import Path
from typing import Optional

# The folder that has `python/excp`: the repository, or PREFIX/lib/excp. For a package of pip it is
# a folder without programs.
_FOLDER = Path(__file__).resolve().parents[3]

PROGRAMS = ("excp_job", "excp_tools")
LIBRARY = "libexcp.so"


@dataclass(frozen=True)
class Home:
    """The folders of this command: the repository, or None if the command is installed; and that
    of the programs that it runs, unless it builds them."""

    top: Optional[Path]
    programs: Path

    def is_installed(self, program: str) -> bool:
        """Whether an installed command has a program."""
        return self.top is None and (self.programs / program).is_file()


def home() -> Home:
    """The folders of the command that runs."""
    if (_FOLDER / "crates.txt").is_file():
        return Home(_FOLDER, _FOLDER / "out" / "proved")
    return Home(None, _FOLDER)
