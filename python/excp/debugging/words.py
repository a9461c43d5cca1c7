"""The words of the debugger: the one table of them, and what is wrong with a line."""

from __future__ import annotations

from typing import List, Mapping, NamedTuple, Optional, Sequence

from ..script.suggestions import nearest
from .places import FORM, Unknown


class Word(NamedTuple):
    """A command: its word and its short form, its operands, and what it does."""

    name: str
    short: str
    operands: str
    says: str


WORDS: Sequence[Word] = (
    Word("step", "s", "[N]", "does the next command, or N of them"),
    Word("back", "b", "[N]", "undoes the last command, or N of them"),
    Word("run", "r", "[PLACE]", "goes on to the CCW at a label or address, or to the end"),
    Word("error", "e", "", "goes on to the next command or post that is an error"),
    Word("post", "p", "", "goes on to the next post"),
    Word("request", "q", "[T.N U | N]", "goes to the start of a request, or of this one"),
    Word("requests", "qs", "", "lists the requests in the order of their posts"),
    Word("watch", "w", "[PLACE[,LENGTH]]", "stops when these bytes change, or lists such bytes"),
    Word("unwatch", "u", "N", "forgets what has this number"),
    Word("show", "x", "WHAT", "storage [PLACE[,LENGTH]], medium [CYL HEAD], or status"),
    Word("list", "l", "", "lists the program, with a sign at the next CCW"),
    Word("set", "", "LABEL OPERANDS", "changes a statement, or LINE TEXT a line; runs again"),
    Word("save", "", "[FILE]", "writes the job as it is changed"),
    Word("again", "", "", "reads the job's file again, and runs it"),
    Word("help", "h", "", "lists these words"),
    Word("quit", "", "", "ends the session"),
)
BY_NAME: Mapping[str, str] = {
    name: word.name for word in WORDS for name in (word.name, word.short) if name
}


def help_lines() -> List[str]:
    """The words of the debugger."""
    lines = []
    for it in WORDS:
        words = f"{it.name} {it.operands}".strip()
        lines.append(f"  {words:24} {it.short:3} {it.says}")
    return [*lines, f"  PLACE is {FORM}; area is the start of the area."]


def meant(typed: str, known: Sequence[str]) -> Optional[str]:
    """The word that one may mean which is misspelt, or cut."""
    return nearest(typed, known) or next((it for it in known if it.startswith(typed)), None)


def no_word(typed: str) -> str:
    near = meant(typed, [it.name for it in WORDS])
    return f"{typed}: no such word; {f'did you mean {near!r}?' if near else 'help lists them'}"


def no_operand(rest: str) -> None:
    if rest:
        raise Unknown(f"'{rest}': this word has no operand")


def number_of_steps(rest: str) -> int:
    """How many steps are asked for; one if that is not said. Raises Unknown."""
    if not rest:
        return 1
    if not rest.isdecimal() or not 1 <= int(rest) <= 1_000_000:
        raise Unknown(f"'{rest}': expected a number of steps, 1 to 1000000")
    return int(rest)
