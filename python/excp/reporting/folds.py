"""Steps in a row, in which equal rows of one to four steps are folded into one. A channel program
that searches a track repeats its commands, and a report of them stays short in this way."""

from __future__ import annotations

from typing import Iterator, NamedTuple, Sequence

from .step import Step

# The most steps of a row that is folded.
_LONGEST = 4


class Fold(NamedTuple):
    """Steps that repeat `times` times in a row: the first round, and the last. They differ only
    in their places."""

    first: Sequence[Step]
    last: Sequence[Step]
    times: int


def folded(steps: Sequence[Step]) -> Iterator[Fold]:
    """The steps in their order, each row that repeats as one fold."""
    texts = [step.text for step in steps]
    at = 0
    while at < len(steps):
        period, times = _repeated(texts, at)
        end = at + period * times
        yield Fold(steps[at : at + period], steps[end - period : end], times)
        at = end


def _repeated(texts: Sequence[str], at: int) -> tuple[int, int]:
    """How many steps the shortest row has with which the steps from a place on begin more than
    once, and how often it comes; one step, once, if there is none."""
    for period in range(1, _LONGEST + 1):
        row, times = texts[at : at + period], 1
        while texts[at + period * times : at + period * (times + 1)] == row:
            times += 1
        if times > 1:
            return period, times
    return 1, 1
