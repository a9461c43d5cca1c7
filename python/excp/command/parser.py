"""The parser of the command line, with the pages of help and errors in one voice."""

from __future__ import annotations

import argparse
from typing import Any, List, NoReturn, Optional, Sequence

from ..script.suggestions import nearest
from .help import page_of
from .streams import COMMAND, USAGE, Ended, write_output


class WordParser(argparse.ArgumentParser):
    """The parser of a word, or of the whole command if its name is `excp`."""

    def __init__(self, word: str, **how: Any) -> None:
        prog = COMMAND if word == COMMAND else f"{COMMAND} {word}"
        super().__init__(prog=prog, allow_abbrev=False, **how)
        self.word = word

    def format_help(self) -> str:
        return page_of(self.word) or super().format_help()

    def print_help(self, file: Optional[Any] = None) -> None:
        write_output([self.format_help().encode()])

    def read(self, words: Sequence[str]) -> argparse.Namespace:
        """What is given by these words. Files may come before and after options. Raises Ended."""
        given, rest = self.parse_known_args(words)
        files = self._many(given)
        if rest and (files is None or any(it.startswith("-") for it in rest)):
            self._reject(rest)
        if files is not None:
            files += rest
        return given

    def _reject(self, words: Sequence[str]) -> NoReturn:
        """Raises Ended for unknown words, with the option that the first of them may mean."""
        text = f"unrecognized arguments: {' '.join(words)}"
        first = next((it[2:].partition("=")[0] for it in words if it.startswith("--")), "")
        known = [it[2:] for it in self._option_string_actions if it.startswith("--")]
        near = nearest(first, known) if first else None
        if near is not None:
            raise Ended(f"{self._where()}{text}; did you mean '--{near}'?", USAGE)
        self.error(text)

    def _many(self, given: argparse.Namespace) -> Optional[List[str]]:
        """The files that were read so far, if the word takes many."""
        action = next((it for it in self._get_positional_actions() if it.nargs == "+"), None)
        files: Optional[List[str]] = getattr(given, action.dest) if action is not None else None
        return files

    def error(self, message: str) -> NoReturn:
        raise Ended(f"{self._where()}{message}; {self.prog} --help lists the options", USAGE)

    def _where(self) -> str:
        return "" if self.word == COMMAND else f"{self.word}: "
