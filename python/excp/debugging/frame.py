"""What a terminal shows of a session: the program on the left, storage and medium on the right, and
below them the last answer. Each line is text with a style."""

from __future__ import annotations

import enum
from typing import List, NamedTuple, Sequence

from .session import Session

# The columns from which a terminal has the addresses of statements and rows of 16 bytes.
_WIDE = 120
_ROW, _SHORT_ROW = 16, 8

# The columns of the program, and the columns below which it has them all.
_LEFT, _SHORT_LEFT, _NARROW = 44, 34, 72

# The lines beside panes and answer, and the least lines of both.
_OTHERS, _FEWEST, _FEWEST_ANSWER = 3, 4, 6


class Style(enum.Enum):
    """How a line looks."""

    PLAIN = "plain"
    TITLE = "title"
    STRONG = "strong"


class Part(NamedTuple):
    """A text at a line and a column, both from 0."""

    line: int
    column: int
    text: str
    style: Style = Style.PLAIN


class Size(NamedTuple):
    """The lines and the columns of a terminal."""

    lines: int
    columns: int


def frame(session: Session, answer: List[str], size: Size) -> List[Part]:
    """All that a terminal of this size shows but the line that is typed, which is its last one."""
    width = size.columns - 1
    position = session.views.position(session.walk)
    # the line below has it
    answer = answer[:-1] if answer[-1:] == [position] else answer
    wanted = max(_FEWEST_ANSWER, len(answer))
    answers = max(0, min(wanted, size.lines - _OTHERS - _FEWEST))
    panes = max(0, size.lines - _OTHERS - answers)
    title = f" excp debug {session.edition.file}   Right: step  Left: back  help  quit"
    parts = [Part(0, 0, f"{title:{width}}"[:width], Style.TITLE)]
    parts += _panes(session, panes, width)
    shown = answer[-answers:] if answers else []
    parts += [Part(1 + panes + at, 0, it[:width]) for at, it in enumerate(shown)]
    parts.append(Part(size.lines - 2, 0, f"{position:{width}}"[:width], Style.TITLE))
    return [it for it in parts if 0 <= it.line < size.lines]


def _panes(session: Session, lines: int, width: int) -> List[Part]:
    """The panes of program, storage and medium, one below the other if there are few columns."""
    if width < _NARROW:
        third = lines // 3
        return [
            *_placed(_program(session, third, False), 1, 0, width),
            *_placed(_storage(session, lines - 2 * third, _SHORT_ROW), 1 + third, 0, width),
            *_placed(_medium(session, third), 1 + lines - third, 0, width),
        ]
    is_wide = width >= _WIDE - 1
    left = _LEFT if is_wide else _SHORT_LEFT
    half = lines // 2
    right = width - left - 1
    storage = _storage(session, lines - half, _ROW if is_wide else _SHORT_ROW)
    return [
        *_placed(_program(session, lines, is_wide), 1, 0, left),
        *_placed(storage, 1, left + 1, right),
        *_placed(_medium(session, half), 1 + lines - half, left + 1, right),
    ]


def _placed(rows: Sequence[str], line: int, column: int, width: int) -> List[Part]:
    """Rows of a pane from a place on. Those with a sign at their start are strong."""
    return [
        Part(line + at, column, it[:width], Style.STRONG if it[:1] in (">", "*") else Style.PLAIN)
        for at, it in enumerate(rows)
    ]


def _program(session: Session, lines: int, has_addresses: bool) -> Sequence[str]:
    rows = session.views.program(session.walk, has_addresses)
    return _window(rows, lines, next((at for at, it in enumerate(rows) if it[0] == ">"), 0))


def _storage(session: Session, lines: int, row: int) -> Sequence[str]:
    """The rows of the area around the last change, and a line above them."""
    walk = session.walk
    storage = walk.storage
    rows = list(session.views.storage(walk, storage.base, storage.end - storage.base, row))
    changed = walk.changed()
    address = f"{changed[0].address:06X}" if changed else ""
    at = sum(it[1:7] <= address for it in rows if it[1:2] != ".") if address else 0
    return ["- storage, * is changed", *_window(rows, lines - 1, at)][: max(lines, 0)]


def _medium(session: Session, lines: int) -> Sequence[str]:
    rows = session.views.medium(session.walk)
    at = next((at for at, it in enumerate(rows[2:], 2) if ">" in it[:3]), 0)
    head = [f"- {session.walk.device} {session.walk.request.unit}: {rows[0]}"]
    return [*head, *_window(rows[1:], lines - 1, at)][: max(lines, 0)]


def _window(rows: Sequence[str], lines: int, at: int) -> Sequence[str]:
    """At most `lines` of the rows, with row `at` among them."""
    first = max(0, min(at - lines // 2, len(rows) - lines))
    return rows[first : first + max(lines, 0)]
