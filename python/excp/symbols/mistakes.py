"""Mistakes in jobs: how they are raised, and the finding that each becomes."""

from __future__ import annotations

import re
from typing import NamedTuple, Optional

from ..findings import FaultName, Finding
from ..script.reading import shown
from .words import Word


# What is wrong with a word that begins a comment of another language.
_COMMENT = "comments begin with ;"

# How a text on a wrong word begins that serves for a missing one too.
_NOT = re.compile(r"^not ((?:an?|the) [^:]+)")


class Mistake(Exception):
    """A mistake: the name of its fault, what would be right, the word at fault, and the word that
    was meant.

    Without a word, or with an empty one, it is a mistake of the line as a whole. `is_address` says
    that the word is where an address is, so that * is no comment.
    """

    def __init__(
        self,
        name: FaultName,
        text: str,
        word: Optional[Word] = None,
        meant: Optional[str] = None,
        is_address: bool = False,
    ) -> None:
        super().__init__(text)
        self.name = name
        self._is_address = is_address
        self.text = text if meant is None else f"{text}; did you mean '{meant}'?"
        self.word = word if word is not None and word.text else None
        if self.word is not None and self._is_of_comment(self.word.text):
            self.text = _COMMENT

    def _is_of_comment(self, text: str) -> bool:
        """Whether a word at fault begins a comment of another language. A label may begin with #,
        and is meant as one if it is only unknown. An address may be *."""
        if text == "*":
            return not self._is_address
        return text == "#" or (text.startswith("#") and self.name is not FaultName.NAME)

    def at(self, line: int) -> Finding:
        """The finding of this mistake in a line."""
        if self.word is None:
            return Finding(line, _NOT.sub(r"\1 is missing", self.text), self.name)
        return Finding(line, f"{shown(self.word.text)}: {self.text}", self.name, self.word.column)


class Located(NamedTuple):
    """A mistake, and its line."""

    line: int
    mistake: Mistake
