"""The table of the words of the command, each with its module and one line on it.

A module is imported when its word is typed: no word costs the time of another one.
"""

from __future__ import annotations

import argparse
from importlib import import_module
from typing import Mapping, NamedTuple, Protocol, cast


class WordModule(Protocol):
    """What the module of a word has."""

    def add_arguments(self, parser: argparse.ArgumentParser) -> None:
        """Adds the options and arguments of the word."""

    def run(self, given: argparse.Namespace) -> int:
        """Carries out the word, and returns the exit status."""


class Word(NamedTuple):
    """A word: the name of its module, and what it does, in one line."""

    module: str
    says: str

    def load(self) -> WordModule:
        return cast(WordModule, import_module(f"{__package__}.{self.module}"))


WORDS: Mapping[str, Word] = {
    "assemble": Word("assemble", "Prints the plain script of one with symbolic areas"),
    "check": Word("check", "Prints every fault of a script, and warnings; runs nothing"),
    "convert": Word("convert", "Prints an image as lines of a script, or makes one of such lines"),
    "debug": Word("debug", "Steps through the channel programs of a job, forward and back"),
    "describe": Word("describe", "Prints what images of tapes and disks hold"),
    "outcomes": Word("outcomes", "Prints the posts that each request can have, over all orders"),
    "report": Word("report", "Prints the posts of a script, and what the run left behind"),
    "step": Word("step", "Carries out a scenario event by event"),
    "test": Word("test", "Runs jobs and scenarios, and compares them with what is expected"),
}
