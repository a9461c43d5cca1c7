"""The files and streams of the command: what it reads, where it prints, and why it ends early.

The standard files are used by their numbers: Python has no object for one that is closed.
"""

from __future__ import annotations

import os
from typing import BinaryIO, Iterable, Optional

from ..files.opening import why_unopened
from ..findings import Finding, printable_name, printed
from ..programs.telling import note, tell
from ..script.limits import MOST_SCRIPT_BYTES

INPUT, OUTPUT, ERRORS = 0, 1, 2

# Who says a text on standard error.
COMMAND = "excp"

# The name of a script that is standard input.
STANDARD_INPUT = "<stdin>"

# Exit statuses: what was read is rejected; the command line is wrong; memory ran out, or this
# program is at fault.
REJECTED, USAGE, OUT_OF_MEMORY = 1, 2, 3
FAILED = OUT_OF_MEMORY

# Each image has a zero byte among its first ones.
_FIRST_BYTES = 512


class Ended(Exception):
    """Why the command ends early: a text for standard error, and the exit status."""

    def __init__(self, text: str, status: int = REJECTED) -> None:
        super().__init__(text)
        self.text = text
        self.status = status


class NotWritten(Ended):
    """Standard output cannot be written."""

    def __init__(self) -> None:
        super().__init__("output not written")


class Rejected(Exception):
    """What was read is rejected, and the findings in it are printed."""


class ReaderGone(Exception):
    """Nothing reads the output any more. No text is printed, and the status is 0, but of `check` 1,
    because it prints only findings."""


def name_of(file: Optional[str]) -> str:
    """The name of a script's file as findings have it; None is standard input."""
    return STANDARD_INPUT if file is None else file


def read_script(file: Optional[str]) -> bytes:
    """The text of a script, from a file, or from standard input if it is None. Raises Ended."""
    try:
        with opened_script(file) as script:
            return text_of(file, script)
    except OSError:
        raise Ended("script unreadable") from None


def text_of(file: Optional[str], script: BinaryIO) -> bytes:
    """The text of a script that is open. Raises Ended if it is too long or an image, and
    OSError."""
    text = script.read(MOST_SCRIPT_BYTES + 1)
    image = _image_in(file, text)
    if image is not None:
        raise Ended(image)
    if len(text) > MOST_SCRIPT_BYTES:
        raise of_file(name_of(file), f"the script has more than {MOST_SCRIPT_BYTES:,} bytes")
    return text


def _image_in(file: Optional[str], text: bytes) -> Optional[str]:
    """The sentence on the text of a script that is an image, if it is one."""
    if b"\0" not in text[:_FIRST_BYTES]:
        return None
    # no script needs to wait for the modules that read images
    from ..images.kinds import image_kind

    kind = image_kind(text)
    if kind is None:
        return None
    name = printable_name(name_of(file))
    instead = f"'describe {'FILE' if file is None else name}' prints what it holds"
    return f"{name}: this is {kind}, not a script: {instead}"


def check_image_name(name: str) -> None:
    """Raises Ended for an image of standard input, in which nothing can be looked up."""
    if name == "-":
        instead = "name a file, as ./- if that is its name"
        raise of_file(name, f"an image is not read from standard input; {instead}")


def opened_script(file: Optional[str]) -> BinaryIO:
    """The open file of a script, standard input if it is None. Raises Ended, whose cause is the
    error of opening it, and OSError for standard input that is closed."""
    if file is None:
        return open(INPUT, "rb", closefd=False)
    try:
        return open(file, "rb")
    except (OSError, ValueError) as error:
        raise of_file(file, why_unopened(error)) from error


def of_file(name: str, sentence: str) -> Ended:
    """Why the command ends early: what is wrong with a file."""
    return Ended(f"{printable_name(name)}: {sentence}")


def error_of_program(what: str) -> Ended:
    """Why the command ends if this program is at fault."""
    return Ended(f"error of this program: {what}; please report it with the script", FAILED)


def is_open(stream: int) -> bool:
    """Whether a stream is open. The number of one that is closed may become that of a file."""
    try:
        os.fstat(stream)
    except OSError:
        return False
    return True


def write_output(parts: Iterable[bytes]) -> None:
    """Writes to standard output. Raises Ended, and ReaderGone if nothing reads it."""
    try:
        with open(OUTPUT, "wb", closefd=False) as output:
            output.writelines(parts)
    except BrokenPipeError:
        raise ReaderGone from None
    except OSError:
        raise NotWritten from None


def write_at_once(data: bytes) -> None:
    """Writes all of some bytes to standard output now. Raises as `write_output`."""
    try:
        while data:
            data = data[os.write(OUTPUT, data) :]
    except BrokenPipeError:
        raise ReaderGone from None
    except OSError:
        raise NotWritten from None


def print_findings(findings: Iterable[Finding], file: Optional[str], stream: int) -> None:
    """Prints findings on standard output or standard error, with colours on a terminal."""
    # all of them or none, if memory runs out
    text = "".join(printed(findings, name_of(file), takes_colour(stream)))
    if stream == OUTPUT:
        write_output([text.encode("utf-8", "surrogateescape")])
    else:
        tell(text)


def takes_colour(stream: int) -> bool:
    """Whether a stream is a terminal, and `NO_COLOR` is unset or empty (no-color.org)."""
    return os.isatty(stream) and not os.environ.get("NO_COLOR")


def say_removed(file: str, removed: Optional[str]) -> None:
    """Says that a new file of this name was removed beside a file, if one was."""
    if removed is not None:
        left = f"{printable_name(removed)}, which a run that was killed left"
        note(f"{printable_name(file)}: {left}, was removed")
