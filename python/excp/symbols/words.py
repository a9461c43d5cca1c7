"""The parts of a line, with their places.

Lines are strings with one character for each byte (Latin-1). Blanks are the blank and the tab: a
tab is a mistake, but its line is read all the same.
"""

from __future__ import annotations

import re
from collections import deque
from typing import NamedTuple, Optional

BLANKS = " \t"

# An apostrophe begins a text, except in L'LABEL: an L before it begins an operand, or the value of
# one.
_TEXT = re.compile(r"(?<![^ \t,=])L'|'[^']*'?")

_FIRST_WORD = re.compile(r"[ \t]*([^ \t]*)")
_WORD = re.compile(r"[^ \t]+")
_OPERAND = re.compile(r"[^ \t,]+")
_LONE_COMMA = re.compile(r"^[ \t]*,|,[ \t]*(,|$)")


class Word(NamedTuple):
    """A part of a line, with the line and the column of its first character, from 1."""

    text: str
    line: int
    column: int

    def part(self, start: int, end: Optional[int] = None) -> Word:
        return Word(self.text[start:end], self.line, self.column + start)


def masked(line: str) -> str:
    """A line with other characters in place of its texts, which may have separators and
    semicolons."""
    return _TEXT.sub(lambda it: "_" * len(it[0]), line)


def before_comment(line: str) -> str:
    """A line without its comment: from a semicolon that is not in a text, or from # if that is its
    first character."""
    start = len(line) - len(line.lstrip(BLANKS))
    if line.startswith("#", start):
        return line[:start]
    end = masked(line).find(";")
    return line if end < 0 else line[:end]


def first_word(line: Word) -> tuple[Word, Word]:
    """The first word of a line, and the rest of the line."""
    found = _FIRST_WORD.match(line.text)
    # the pattern takes any line
    assert found is not None
    start, end = found.span(1)
    return line.part(start, end), line.part(end)


def blank_separated(line: Word) -> list[Word]:
    """The words of a line, separated by blanks alone."""
    return [line.part(*it.span()) for it in _WORD.finditer(line.text)]


class Operands:
    """The operands of a statement, separated by blanks and commas, taken one after the other."""

    def __init__(self, text: Word) -> None:
        bare = masked(text.text)
        self._words = deque(text.part(*it.span()) for it in _OPERAND.finditer(bare))
        self._none = text.part(len(bare))
        # The text after the last operand that was taken.
        self.left = text
        # Whether a comma has no operand before it or after it.
        self.lacks_one = _LONE_COMMA.search(bare) is not None

    def peek(self) -> Word:
        """The next operand; after the last one a word without characters."""
        return self._words[0] if self._words else self._none

    def take(self) -> Word:
        """Takes the next operand; after the last one a word without characters."""
        word = self._words.popleft() if self._words else self._none
        self.left = self.left.part(word.column + len(word.text) - self.left.column)
        return word

    def take_all(self) -> list[Word]:
        """Takes all operands that are left."""
        words = list(self._words)
        self._words.clear()
        return words
