"""The word `describe`: prints what images of tapes and disks hold."""

from __future__ import annotations

import argparse

from ..findings import printable_name
from ..images.describe import described
from ..images.reading import Unreadable
from ..programs.telling import note
from .streams import REJECTED, check_image_name, write_output


def add_arguments(parser: argparse.ArgumentParser) -> None:
    """Adds the files of images."""
    parser.add_argument("files", nargs="+", metavar="IMAGE")


def run(given: argparse.Namespace) -> int:
    """Describes each image. The exit status is 1 if one of them cannot be read."""
    for name in given.files:
        check_image_name(name)
    return max([_describe(name) for name in given.files])


def _describe(name: str) -> int:
    title = printable_name(name)
    try:
        first, *others = described(name)
    except Unreadable as error:
        note(f"{title}: {error.sentence}")
        return REJECTED
    lines = (f"{title}: {first}\n", *(f"  {line}\n" for line in others))
    write_output([line.encode("utf-8", "surrogateescape") for line in lines])
    return 0
