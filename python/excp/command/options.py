"""What several words have of their options: numbers in a range, files of units, and options that
exclude each other."""

from __future__ import annotations

import argparse
import re
from typing import Any, Callable, Dict, Mapping, Sequence, Tuple

# The highest number that a program takes.
MOST = 18_446_744_073_709_551_615

# The options that give numbers of workers, with the most of each and what they are.
_WORKERS = ("channels", 16, "channel workers"), ("handlers", 8, "handlers of interruptions")

_DIGITS = re.compile(r"0*([0-9]{1,20})")

_CODES = re.compile(r"[0-9A-F]{2}(,[0-9A-F]{2})*")
_UNIT_FILE = re.compile(r"0*([0-9]|[1-5][0-9]|6[0-3])=(.+)", re.DOTALL)

# Of an option, the others that may not come with it.
Exclusions = Mapping[str, Sequence[str]]


def number(least: int, most: int) -> Callable[[str], int]:
    """The type of an option that takes a number in a range."""

    def read(word: str) -> int:
        found = _DIGITS.fullmatch(word)
        value = int(found[1]) if found else -1
        if not least <= value <= most:
            expected = f"expected a number from {least} to {most}"
            raise argparse.ArgumentTypeError(f"'{word}': {expected}")
        return value

    return read


def codes(word: str) -> Sequence[str]:
    """The type of an option that takes completion codes."""
    if not _CODES.fullmatch(word):
        expected = "expected completion codes with commas between them, such as 7F,48"
        raise argparse.ArgumentTypeError(f"'{word}': {expected}")
    return word.split(",")


def add_workers(parser: argparse.ArgumentParser) -> None:
    """Adds the options that give numbers of workers."""
    for name, most, says in _WORKERS:
        parser.add_argument(f"--{name}", type=number(1, most), metavar="N", help=says)


def unit_file(word: str) -> Tuple[int, str]:
    """The type of an option that takes `U=FILE`: the unit, and the name of the file."""
    found = _UNIT_FILE.fullmatch(word)
    if found is None:
        form = "expected U=FILE, a unit from 0 to 63 and the name of a file"
        raise argparse.ArgumentTypeError(f"'{word}': {form}")
    return int(found[1]), found[2]


def unit_files(given: argparse.Namespace, name: str) -> Dict[int, str]:
    """The files that the values of an option name, by their units."""
    values: Sequence[Tuple[int, str]] = getattr(given, name)
    files = dict(values)
    if len(files) < len(values):
        given.usage_error(f"--{name} names each unit once")
    return files


def check_exclusions(given: argparse.Namespace, exclusions: Exclusions) -> None:
    """Ends the command if two options are given that exclude each other."""
    for option, others in exclusions.items():
        for other in others:
            if is_given(given, option) and is_given(given, other):
                given.usage_error(f"argument --{other}: not allowed with argument --{option}")


def is_given(given: argparse.Namespace, option: str) -> bool:
    """Whether an option is on the command line."""
    value = getattr(given, option.replace("-", "_"))
    return value is not None and value is not False and value != []


def words_of(**values: Any) -> Sequence[str]:
    """The words `NAME=VALUE` for a program, of those values that there are; of a flag its name."""
    return [
        name if value is True else f"{name}={value}"
        for name, value in values.items()
        if value is not None and value is not False
    ]
