"""How lines of plain scripts and scenarios are read, and what is wrong with their words."""

from __future__ import annotations

import re
from typing import Any, Callable, Iterable, Optional

from ..findings import FaultName
from .forms import Form, listed
from .grammar import (
    COMMAND_WORDS, EVENT_LINES, EVENT_WORDS, SCRIPT_LINES, SCRIPT_WORDS, SIZES_BY_ROW, Line,
    Room, Wait,
)
from .suggestions import nearest
from .word_forms import WORD_FORMS

# The most characters of a word that a message shows.
_MOST_SHOWN = 64

# A byte order mark, each byte as one character.
BYTE_ORDER_MARK = b"\xef\xbb\xbf".decode("latin-1")

_UNPRINTABLE = re.compile(r"[^ -~]")
_SYMBOLIC = re.compile(r".*:|;.*|[A-Z][A-Z0-9]*", re.DOTALL)


class Refused(Exception):
    """A line is rejected: the name of its fault, and what is wrong and what would be right."""

    def __init__(self, name: FaultName, sentence: str) -> None:
        super().__init__(sentence)
        self.name = name
        self.sentence = sentence


class Text:
    """A line as it is written, without its line feed, each byte as one character; its words."""

    def __init__(self, line: str) -> None:
        self.line = line
        self.words = [word for word in line.split(" ") if word]
        self.first = self.words[0] if self.words else ""
        self.unprintable = _UNPRINTABLE.search(line)

    def word(self, place: int) -> str:
        """The word at a place, from 0. After the last word it is empty."""
        return self.words[place] if place < len(self.words) else ""

    def says_nothing(self) -> bool:
        return not self.words or self.first.startswith("#")


def lines_of(text: bytes) -> list[str]:
    """The lines of a text, each byte as one character. A last line feed ends with an empty line."""
    return text.decode("latin-1").split("\n")


def shown(word: str) -> str:
    """A word, or how a long one begins."""
    return word if len(word) <= _MOST_SHOWN else f"{word[:_MOST_SHOWN]}.."


def count_of(count: int, noun: str) -> str:
    """`1 byte`, `2 bytes`."""
    return f"{count} {noun}{'' if count == 1 else 's'}"


def read_script_line(number: int, text: Text) -> Optional[Line]:
    """What a line of a script says; None if it is empty or a comment. Raises Refused."""
    if text.says_nothing():
        return None
    if text.unprintable:
        raise Refused(FaultName.WORDS, on_unprintable(text.line, text.unprintable))
    kind = SCRIPT_LINES.get(text.first)
    if kind is None:
        raise Refused(FaultName.WORDS, _on_unknown(text.first, SCRIPT_WORDS))
    return _read(number, text, kind)


def read_scenario_line(number: int, text: Text) -> Optional[Line]:
    """What a line of a scenario says; None if it is empty or a comment. Raises Refused."""
    if text.unprintable or text.says_nothing() or text.first in SCRIPT_LINES:
        line = read_script_line(number, text)
    elif text.first in EVENT_LINES:
        line = _read(number, text, EVENT_LINES[text.first])
    else:
        room, *events = EVENT_WORDS
        commands = (word for word in COMMAND_WORDS if word != "wait")
        expected = "a set-up line", room, *commands, *events
        raise Refused(FaultName.WORDS, _on_unknown(text.first, expected))
    if isinstance(line, Wait):
        why = "since its events happen in the order of its lines"
        instead = f"use 'collect {line.task}' to collect a post"
        raise Refused(FaultName.WORDS, f"a scenario has no wait, {why}: {instead}")
    return line


def _read(number: int, text: Text, kind: type[Line]) -> Line:
    forms, each = WORD_FORMS[kind]
    count, wanted = len(text.words), len(forms) + 1
    if count < wanted or (count > wanted and each is None):
        raise Refused(FaultName.WORDS, _on_count(text, kind, wanted, each is not None))
    values = [_read_word(text, place, form) for place, form in enumerate(forms, 1)]
    if each is not None:
        rest = range(wanted, count)
        values.append(each.join(_read_word(text, place, each.form) for place in rest))
    # a kind has as many fields as it has forms
    make: Callable[..., Line] = kind
    line = make(number, *values)
    return _read(number, text, SIZES_BY_ROW[line.row]) if isinstance(line, Room) else line


def _on_count(text: Text, kind: type[Line], wanted: int, has_more: bool) -> str:
    """The sentence on a line with another number of words than its kind has."""
    words = f"{wanted} words{' or more' if has_more else ''}"
    counts = f"a line '{text.first}' has {words}, and this one has {len(text.words)}"
    return f"{counts}: expected {text.first} {kind.form}".rstrip()


def _read_word(text: Text, place: int, form: Form[Any]) -> Any:
    word = text.words[place]
    value = form.read(word)
    if value is None:
        wrong = f"word {place + 1}, '{shown(word)}': expected {form.expected}"
        raise Refused(FaultName.NUMBER, wrong)
    return value


def on_unprintable(line: str, found: re.Match[str]) -> str:
    """The sentence on a line that is not all printable ASCII characters."""
    place, byte = found.start() + 1, found[0]
    if line.startswith(BYTE_ORDER_MARK):
        return "the line begins with a byte order mark (X'EFBBBF'): save the file without one"
    if byte == "\r":
        return f"byte {place} is a carriage return (X'0D'): end lines with a line feed alone"
    if byte == "\t":
        return f"byte {place} is a tab (X'09'): separate words with blanks"
    return f"byte {place}, X'{ord(byte):02X}', is not a printable ASCII character"


def _on_unknown(word: str, expected: Iterable[str]) -> str:
    if is_symbolic(word):
        around = "expected a line 'area A' before it, and 'endarea' after it"
        return f"'{shown(word)}' begins a line of a symbolic area: {around}"
    return f"no line begins with '{shown(word)}': expected {listed(expected)}"


def is_symbolic(word: str) -> bool:
    """Whether only a line of a symbolic area begins with a word: a label with its colon, a
    semicolon, a name in capitals."""
    return _SYMBOLIC.fullmatch(word) is not None


def meant_of(word: str, known: Iterable[str]) -> Optional[str]:
    """The known first word nearest to an unknown one. A name in capitals belongs to a symbolic
    area, unless it is a known word in capitals."""
    small = word.lower()
    found = nearest(small, known)
    return None if is_symbolic(word) and found != small else found


def meant(text: Text, known: tuple[str, ...]) -> Optional[str]:
    """The known first word that the first word of a line may mean, if it is an unknown one."""
    word = text.first
    if text.unprintable or word in SCRIPT_LINES or word in EVENT_LINES:
        return None
    return meant_of(word, known)
