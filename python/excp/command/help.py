"""The pages of help, which are files of the package."""

from __future__ import annotations

from pathlib import Path
from typing import Optional

_PAGES = Path(__file__).resolve().parents[1] / "help"


def page_of(word: str) -> Optional[str]:
    """The page of a word, `excp` for that of the whole command; None if there is none."""
    try:
        return (_PAGES / f"{word}.txt").read_text(encoding="utf-8")
    except (OSError, UnicodeDecodeError):
        return None
