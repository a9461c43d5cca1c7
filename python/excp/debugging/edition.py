"""The job that is debugged: its text, which a session may change, and its run."""

from __future__ import annotations

import os
import re
from pathlib import Path
from typing import Callable, Container, List, NamedTuple, Optional

from ..files.refusals import Unwritten
from ..files.targets import TEXT, Output, Targets
from ..findings import printable_name
from ..symbols.statements import is_operation
from ..symbols.words import before_comment
from .places import Unknown
from .walk import Walk

# Runs a text of the job. Raises Unknown with the sentence on its first fault.
Run = Callable[[bytes], Walk]

# A line of a statement with a label: what comes before its operands.
_STATEMENT = re.compile(r"[ \t]*(?P<label>[^\s:;]+):[ \t]*(?P<operation>\S+)[ \t]*")


class ChangedLine(NamedTuple):
    """A line of the job, by its number from 1, before and after a change."""

    number: int
    before: str
    after: str


class Edition:
    """The text of a job in a file, as it is debugged."""

    def __init__(self, file: str, text: bytes, run: Run) -> None:
        self.file, self._read, self._run = file, text, run
        self.text = text

    def walk(self) -> Walk:
        """A run of the text. Raises Unknown."""
        return self._run(self.text)

    def read_again(self) -> Walk:
        """A run of the file as it is now. Raises Unknown; then nothing changes."""
        try:
            text = Path(self.file).read_bytes()
        except OSError as error:
            raise Unknown(f"{printable_name(self.file)}: {error.strerror}") from None
        walk = self._run(text)
        self.text = self._read = text
        return walk

    def set_line(self, number: int, line: str) -> ChangedLine:
        """Changes a line of the text. Raises Unknown if there is none."""
        lines = self._lines()
        if not 1 <= number <= len(lines):
            raise Unknown(f"line {number}: the job has lines 1 to {len(lines)}")
        changed = ChangedLine(number, lines[number - 1], line)
        lines[number - 1] = line
        self.text = "\n".join(lines).encode("utf-8", "surrogateescape")
        return changed

    def set_operands(self, number: int, operands: str, labels: Container[str]) -> ChangedLine:
        """Changes the operands of the statement of a line, whose comment stays. They begin with no
        operation, unless that is one of these labels too. Raises Unknown."""
        line = self._lines()[number - 1]
        statement = before_comment(line)
        found = _STATEMENT.match(statement)
        if found is None:
            raise Unknown(f"line {number} has no operands: set {number} TEXT changes all of it")
        word = operands.split()[0]
        if is_operation(word) and word not in labels:
            raise Unknown(_with_operation(number, found, operands))
        end = statement[len(statement.rstrip()) :] + line[len(statement) :]
        return self.set_line(number, f"{found[0]}{operands}{end}")

    def has_label(self, number: int, label: str) -> bool:
        """Whether the statement of a line has this label."""
        found = _STATEMENT.match(self._lines()[number - 1])
        return found is not None and found["label"] == label

    def take_back(self, text: bytes) -> None:
        """Takes a text that it had."""
        self.text = text

    def _lines(self) -> List[str]:
        return self.text.decode("utf-8", "surrogateescape").split("\n")

    @property
    def is_saved(self) -> bool:
        """Whether the text is that of the file as it was read or saved."""
        return self.text == self._read

    def save(self, name: Optional[str]) -> str:
        """Writes the text to the file of the job, if that is as it was read, or to a new file.
        Returns its name. Raises Unknown."""
        file = self.file if name is None else name
        if name is None:
            self._check_unchanged()
        elif os.path.lexists(file):
            raise Unknown(f"{printable_name(file)}: it is there: name a new file")
        try:
            Targets(None, force=name is None).write(Output(file, TEXT), [self.text])
        except Unwritten as error:
            raise Unknown(f"{printable_name(error.name)}: {error.sentence}") from None
        if name is None:
            self._read = self.text
        return file

    def _check_unchanged(self) -> None:
        """Raises Unknown if the file of the job is not as it was read."""
        try:
            now = Path(self.file).read_bytes()
        except OSError:
            return
        if now != self._read:
            other = "another program has written it since it was read"
            raise Unknown(f"{printable_name(self.file)}: {other}; save FILE writes another file")


def _with_operation(number: int, found: re.Match[str], text: str) -> str:
    """The text on operands that begin with an operation, with the words to type instead."""
    operation, *operands = text.split(maxsplit=1)
    label = found["label"]
    right = f"set {number} {label}: {text}"
    if operands and operation == found["operation"]:
        right = f"set {label} {operands[0]}"
    return f"{operation} is an operation, and only operands come after a label: {right}"
