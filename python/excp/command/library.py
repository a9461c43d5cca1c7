"""The library that carries out scenarios and schedules."""

from __future__ import annotations

import os
from pathlib import Path
from typing import Callable

from .. import library
from ..errors import LibraryNotFound
from ..programs.home import LIBRARY
from ..programs.library_choice import PLACE
from .streams import FAILED, Ended


def use_library(program_of: Callable[[str], Path]) -> None:
    """Loads the library, which is built if need be. Raises Ended, and NotBuilt."""
    os.environ[PLACE] = str(program_of(LIBRARY))
    try:
        library.library()
    except LibraryNotFound as error:
        raise Ended(str(error), FAILED) from None
