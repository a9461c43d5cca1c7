"""The word `convert`: prints an image as the lines of a script, or makes an image of such lines."""

from __future__ import annotations

import argparse
import os
from typing import Callable, Iterable, Iterator, Mapping, NamedTuple, Optional

from ..device_commands import DISK, TAPE
from ..files import targets
from ..files.refusals import Unwritten
from ..files.targets import Content, Output, Targets
from ..images.aws import aws_image, het_image
from ..images.ckd import ckd_image, model_of, on_no_model
from ..images.lines import disk_of, lines_of_image, tape_items
from ..images.reading import Unreadable
from ..script.set_up import Unit
from .script_unit import unit_of_script
from .streams import OUTPUT, Ended, check_image_name, of_file, say_removed, write_output

# The name of an image that is standard output, or of a script that is standard input.
_STREAM = "-"


class _NoImage(Exception):
    """A medium has no image of a format. The text is the sentence for it."""


def _ckd_image(unit: Unit) -> Iterator[bytes]:
    disk = disk_of(unit)
    heads, track_bytes = disk.size.heads, disk.size.track_bytes
    model = model_of(heads, track_bytes)
    if model is None:
        raise _NoImage(on_no_model(heads, track_bytes))
    return ckd_image(disk, model)


class _Format(NamedTuple):
    """A format of images: the device whose medium it has, what the rules for files have of it, and
    the bytes of the image of a unit."""

    device: str
    content: Content
    image: Callable[[Unit], Iterator[bytes]]


_FORMATS: Mapping[str, _Format] = {
    "aws": _Format(TAPE, targets.TAPE, lambda unit: aws_image(tape_items(unit))),
    "het": _Format(TAPE, targets.PACKED_TAPE, lambda unit: het_image(tape_items(unit))),
    "ckd": _Format(DISK, targets.DISK, _ckd_image),
}


def add_arguments(parser: argparse.ArgumentParser) -> None:
    """Adds the options, and the file."""
    parser.add_argument("--to", choices=list(_FORMATS), help="makes an image in this format")
    parser.add_argument("-o", "--output", metavar="OUT", help="the file of the image; - is output")
    parser.add_argument("--force", action="store_true", help="replaces a file whatever it holds")
    parser.add_argument("script", metavar="FILE")


def run(given: argparse.Namespace) -> int:
    """Prints the lines of an image, or makes one."""
    if (given.to is None) != (given.output is None):
        given.usage_error("--to FORMAT and --output OUT go together")
    if given.force and given.to is None:
        given.usage_error("--force needs --to FORMAT and --output OUT, which make a file")
    if given.to is None:
        _print_lines(given.script)
    else:
        _make_image(_FORMATS[given.to], given.script, given.output, given.force)
    return 0


def _print_lines(name: str) -> None:
    check_image_name(name)
    try:
        lines = lines_of_image(name)
    except Unreadable as error:
        raise of_file(name, error.sentence) from None
    write_output(f"{line}\n".encode("ascii") for line in lines)


def _make_image(form: _Format, name: str, output: str, force: bool) -> None:
    """Makes an image of the one unit of a script. `force` replaces a file whatever it holds."""
    script = None if name == _STREAM else name
    if output == _STREAM:
        if os.isatty(OUTPUT):
            raise Ended("standard output is a terminal: send the image to a file, by > or --output")
        write_output(_image_of(form, script, "standard output"))
        return
    files = Targets(script, force)
    target = Output(output, form.content)
    try:
        say_removed(output, files.check(target))
        say_removed(output, files.write(target, _image_of(form, script, output)))
    except Unwritten as error:
        raise of_file(error.name, error.sentence) from None


def _image_of(form: _Format, script: Optional[str], output: str) -> Iterable[bytes]:
    """The bytes of an image of the medium that a script declares."""
    unit = unit_of_script(script, lambda it: _why_no_image(form, it))
    try:
        return form.image(unit)
    except _NoImage as error:
        raise of_file(output, str(error)) from None


def _why_no_image(form: _Format, unit: Unit) -> Optional[str]:
    """Why a unit has no image of a format, if it has none."""
    if unit.device == form.device:
        return None
    title = next(name for name, it in _FORMATS.items() if it is form).upper()
    return f"its unit is no {form.device}, so it makes no {title} image"
