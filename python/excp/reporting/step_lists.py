"""The lists of steps of a run as JSON. Each different one is kept once, and has a number."""

from __future__ import annotations

import re
from array import array
from functools import lru_cache
from itertools import count
from typing import Dict, Iterator, Tuple

from .folds import Fold, folded
from .json_texts import quoted
from .kept import KeptText
from .step import Step, ccw_names

# What the line of a step has before the members of its JSON.
_WHAT = '{"what":"step",'

_CCW = re.compile(r'\{"at":"[0-9A-F]{6}","image":"([0-9A-F]{16})"\}')


# How many lists of steps are at hand that came last.
_RECENT = 16


class StepLists:
    """The different lists of steps so far. Its methods raise NotKept."""

    def __init__(self) -> None:
        self._texts = KeptText()
        # of each list where it is among the texts, and by its hash its number
        self._starts = array("Q")
        self._numbers: Dict[int, int] = {}
        # equal programs have equal lists
        self.number_of = lru_cache(maxsize=_RECENT)(self._number_of)

    def _number_of(self, device: str, steps: Tuple[Step, ...]) -> int:
        """The number of a list of steps of a kind of device, from 0."""
        text = f"\n[{','.join(_fold_json(device, it) for it in folded(steps))}]"
        number = self._numbers.get(hash(text))
        if number is not None and self._texts.has_at(self._starts[number], text):
            return number
        number = self._numbers[hash(text)] = len(self._starts)
        self._texts.add("," if number else "")
        self._starts.append(self._texts.bytes)
        self._texts.add(text)
        return number

    def texts(self) -> Iterator[str]:
        """The lists in the order of their numbers, in pieces."""
        return self._texts.blocks()


def _fold_json(device: str, fold: Fold) -> str:
    steps = ",".join(
        _step_json(device, first, last.place) for first, last in zip(fold.first, fold.last)
    )
    return steps if fold.times == 1 else f'\n{{"loop":[{steps}],"times":{fold.times}}}'


def _step_json(device: str, step: Step, last_place: str) -> str:
    """A step as it came first, and its place when it came last, if that is another."""
    place = f',"place":{step.place}' if step.place else ""
    last = f',"last_place":{last_place}' if last_place != step.place else ""
    return f"{_without_place(device, step.text)}{place}{last}}}"


# a loop has the same steps again and again, at other places
@lru_cache(maxsize=1024)
def _without_place(device: str, text: str) -> str:
    """A step without the place and the last brace; each CCW has its names."""
    places = count()
    named = _CCW.sub(lambda it: _ccw_json(device, it, next(places)), text[len(_WHAT) :])
    return f"\n{{{named}"


def _ccw_json(device: str, ccw: re.Match[str], place: int) -> str:
    """A CCW, which is at this place of its chain, with its names."""
    names = ccw_names(device, ccw[1], place > 0)
    mnemonic = "null" if names.mnemonic is None else quoted(names.mnemonic)
    flags = ",".join(map(quoted, names.flags))
    return f'{ccw[0][:-1]},"name":{quoted(names.words)},"mnemonic":{mnemonic},"flags":[{flags}]}}'
