"""How tests ended, and how that is printed."""

from __future__ import annotations

from dataclasses import dataclass
from enum import Enum
from typing import Sequence

from ..findings import PLAIN, RED, printable_name


class Verdict(Enum):
    """How a test ended: as its line begins."""

    PASSED = "ok"
    FAILED = "FAILED"
    WRITTEN = "wrote"
    NO_EXPECTATION = "skipped"


@dataclass(frozen=True)
class Result:
    """The end of a test: its file, how it ended, in how many seconds, a sentence for why, or the
    file that was written, and lines with all that is wrong."""

    name: str
    verdict: Verdict
    seconds: float = 0.0
    why: str = ""
    details: Sequence[str] = ()


def lines_of(result: Result, is_coloured: bool) -> str:
    """The lines on a test. What is wrong with it comes after its name, indented."""
    lines = [_first_line(result, is_coloured), *(f"  {it}" for it in result.details)]
    return "".join(f"{it}\n" for it in lines)


def _first_line(result: Result, is_coloured: bool) -> str:
    word, name, why = result.verdict.value, *map(printable_name, (result.name, result.why))
    if result.verdict is Verdict.FAILED:
        return f"{RED}{word}{PLAIN} {name}" if is_coloured else f"{word} {name}"
    if result.verdict is Verdict.WRITTEN:
        return f"{word} {why}"
    return f"{word} {name}: {why}" if why else f"{word} {name}"


def summary(results: Sequence[Result]) -> str:
    """The last line."""
    counts = {verdict: sum(it.verdict is verdict for it in results) for verdict in Verdict}
    parts = [f"{counts[Verdict.PASSED]} passed", f"{counts[Verdict.FAILED]} failed"]
    if counts[Verdict.WRITTEN]:
        parts.append(f"{counts[Verdict.WRITTEN]} written")
    if counts[Verdict.NO_EXPECTATION]:
        parts.append(f"{counts[Verdict.NO_EXPECTATION]} without an expectation")
    return f"{', '.join(parts)}\n"


def has_failed(results: Sequence[Result]) -> bool:
    """Whether a test failed, or none has an expectation."""
    verdicts = {it.verdict for it in results}
    return Verdict.FAILED in verdicts or verdicts <= {Verdict.NO_EXPECTATION}
