"""Pieces of JSON (RFC 8259) as a report has them: texts, truth, and the elements of lists."""

from __future__ import annotations

from typing import Iterable, Iterator

# What a text of JSON cannot have as it is: quotes, backslashes and control characters.
_ESCAPES = {
    **{code: f"\\u{code:04X}" for code in (*range(0x20), *range(0x7F, 0xA0))},
    ord('"'): '\\"',
    ord("\\"): "\\\\",
}


def quoted(text: str) -> str:
    """A text with its quotes."""
    return f'"{text.translate(_ESCAPES)}"'


def truth(value: bool) -> str:
    """True or false."""
    return "true" if value else "false"


def joined(elements: Iterable[str]) -> Iterator[str]:
    """The elements of a list, with commas between them."""
    comma = ""
    for element in elements:
        yield f"{comma}{element}"
        comma = ","
