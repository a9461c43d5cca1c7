"""The debugger on a terminal: the frame of a session, and the line that is typed, by curses."""

from __future__ import annotations

import curses
import locale
from typing import Mapping, Union

from .dialog import PROMPT
from .frame import Size, Style, frame
from .session import Session, start_lines

# What keys do when nothing is typed.
_KEYS: Mapping[int, str] = {
    curses.KEY_RIGHT: "step", curses.KEY_DOWN: "step", curses.KEY_LEFT: "back",
    curses.KEY_UP: "back", curses.KEY_HOME: "request", curses.KEY_END: "post",
    curses.KEY_F1: "help",
}

# The characters that end or change what is typed: Ctrl-C and Ctrl-D, Escape, and those of deletion.
_ENDS, _CLEARS, _DELETES = "\x03\x04", "\x1b\x15", "\x08\x7f"

_STYLES: Mapping[Style, int] = {
    Style.PLAIN: curses.A_NORMAL, Style.TITLE: curses.A_REVERSE, Style.STRONG: curses.A_BOLD,
}

# The most characters of a line that is typed.
_MOST_TYPED = 500


class NoScreen(Exception):
    """The terminal cannot be used by lines and columns."""


def show(session: Session) -> None:
    """Shows a session until it is over. Raises NoScreen."""
    locale.setlocale(locale.LC_ALL, "")
    try:
        curses.setupterm()
    except curses.error:
        raise NoScreen from None
    curses.wrapper(lambda window: _Screen(session, window).run())


class _Screen:
    def __init__(self, session: Session, window: curses.window) -> None:
        self._session, self._window = session, window
        self._answer = start_lines(session)
        self._typed, self._last, self._is_over = "", "step", False
        self._encoding = locale.getpreferredencoding(False)

    def run(self) -> None:
        """Draws, and takes keys, until the session is over."""
        # Ctrl-C is a key, so the terminal is always left as it was
        curses.raw()
        while not self._is_over:
            self._draw()
            try:
                key = self._window.get_wch()
            except curses.error:
                # the size has changed, or the terminal is gone
                continue
            self._take(key)

    def _take(self, key: Union[int, str]) -> None:
        if isinstance(key, int):
            self._take_special(key)
        elif key in "\r\n":
            self._carry_out(self._typed.strip() or self._last)
        elif key in _ENDS:
            self._carry_out("quit")
        elif key in _CLEARS:
            self._typed = ""
        elif key in _DELETES:
            self._typed = self._typed[:-1]
        elif key.isprintable() and len(self._typed) < _MOST_TYPED:
            self._typed += key

    def _take_special(self, key: int) -> None:
        if key == curses.KEY_BACKSPACE:
            self._typed = self._typed[:-1]
        elif key == curses.KEY_ENTER:
            self._carry_out(self._typed.strip() or self._last)
        elif key in _KEYS:
            self._carry_out(_KEYS[key])

    def _carry_out(self, line: str) -> None:
        answer = self._session.answer(line)
        self._typed, self._is_over = "", answer.is_over
        self._answer = answer.lines
        if answer.is_right and line.split()[:1] != ["quit"]:
            self._last = line

    def _draw(self) -> None:
        lines, columns = self._window.getmaxyx()
        self._window.erase()
        for part in frame(self._session, self._answer, Size(lines, columns)):
            self._write(part.line, part.column, part.text, _STYLES[part.style])
        typed = f"{PROMPT}{self._typed}"
        shown = typed[-(columns - 1) :]
        self._write(lines - 1, 0, shown, curses.A_NORMAL)
        self._window.refresh()

    def _write(self, line: int, column: int, text: str, style: int) -> None:
        """Writes a text, with a sign for what the terminal cannot show."""
        printable = "".join(it if it.isprintable() else "." for it in text)
        printable = printable.encode(self._encoding, "replace").decode(self._encoding)
        try:
            self._window.addstr(line, column, printable, style)
        except curses.error:
            # the terminal has become smaller
            return
