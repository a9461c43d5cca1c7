"""The options `--load U=FILE` and `--save U=FILE`: files of the media of units."""

from __future__ import annotations

import argparse
from typing import Mapping

from ..checking.loaded import NO_IMAGES, Images
from .options import unit_file
from .streams import of_file


def add_load(parser: argparse.ArgumentParser) -> None:
    """Adds the option, which may come several times."""
    _add(parser, "--load", "loads the medium of unit U from an image")


def add_save(parser: argparse.ArgumentParser) -> None:
    """Adds the option, which may come several times, and the one that lifts its rules."""
    _add(parser, "--save", "saves the medium of unit U at the end")
    add_force(parser)


def add_force(parser: argparse.ArgumentParser) -> None:
    parser.add_argument("--force", action="store_true", help="replaces a file whatever it holds")


def _add(parser: argparse.ArgumentParser, option: str, says: str) -> None:
    parser.add_argument(
        option, action="append", default=[], type=unit_file, metavar="U=FILE", help=says
    )


def load_images(script: str, files: Mapping[int, str]) -> Images:
    """The images in the files of units, for a script of this name. Raises Ended."""
    return _read(script, files) if files else NO_IMAGES


def _read(script: str, files: Mapping[int, str]) -> Images:
    # most scripts name no image, and need not wait for the modules that read one
    from ..files.refusals import Unwritten
    from ..files.targets import Targets, UnitFile
    from ..images.measured import measured
    from ..images.reading import Unreadable

    try:
        # no two units have one image
        Targets(script, loads=[UnitFile(unit, name) for unit, name in files.items()])
        return {unit: measured(name) for unit, name in files.items()}
    except (Unreadable, Unwritten) as error:
        raise of_file(error.name, error.sentence) from None
