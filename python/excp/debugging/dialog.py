"""The plain dialog of the debugger: lines of standard input, and after each its answer."""

from __future__ import annotations

from typing import Callable, Iterable

from .session import Session, start_lines

Write = Callable[[str], None]

PROMPT = "debug> "


def converse(session: Session, lines: Iterable[str], write: Write, is_typed: bool) -> bool:
    """Answers each line until one ends the session or no more come. Lines that nobody has typed
    are written before their answers. Returns whether all lines were right."""
    write("".join(f"{line}\n" for line in start_lines(session)))
    are_right = True
    if is_typed:
        write(PROMPT)
    for line in lines:
        if not is_typed and line.strip():
            write(f"{PROMPT}{line.strip()}\n")
        answer = session.answer(line)
        are_right = are_right and answer.is_right
        write("".join(f"{it}\n" for it in answer.lines))
        if answer.is_over:
            return are_right
        if is_typed:
            write(PROMPT)
    if is_typed:
        write("\n")
    if not session.edition.is_saved:
        write("the job is changed and not saved: no change was kept\n")
    return are_right
