"""The choice among steps that a seed makes, the same on every machine and in every version
(docs/SPECIFICATION.md). A seed repeats a run without the file of a schedule."""

from __future__ import annotations

from typing import Callable, Sequence, TypeVar

Item = TypeVar("Item")

_MASK = 2**64 - 1

# The factor of the generator, and the increment of the one that makes its first state.
_FACTOR = 6_364_136_223_846_793_005
_INCREMENT = 11_634_580_027_462_260_723


class Pcg32:
    """The generator PCG-XSH-RR (pcg-random.org), whose state is made of a seed as `rand_core` makes
    it."""

    def __init__(self, seed: int) -> None:
        words = []
        for _ in range(4):
            seed = (seed * _FACTOR + _INCREMENT) & _MASK
            words.append(_output(seed))
        self._increment = words[2] | words[3] << 32 | 1
        self._state = (words[0] | words[1] << 32) + self._increment
        self.next()

    def next(self) -> int:
        """The next number of 32 bits."""
        state = self._state & _MASK
        self._state = (state * _FACTOR + self._increment) & _MASK
        return _output(state)


def _output(state: int) -> int:
    word, turn = ((state >> 18 ^ state) >> 27) & 0xFFFFFFFF, state >> 59
    return (word >> turn | word << (-turn & 31)) & 0xFFFFFFFF


class Chooser:
    """Chooses among steps. One seed in three favours nobody, one the commands of tasks and one all
    other steps: what is not favoured is drawn again, at most twice."""

    def __init__(self, seed: int) -> None:
        self._favour, self._generator = seed % 3, Pcg32(seed)

    def choose(self, steps: Sequence[Item], is_command: Callable[[Item], bool]) -> Item:
        """One of these steps, at least one of which is given."""
        for _ in range(2):
            step = self._draw(steps)
            if self._favour == 0 or (self._favour == 1) == is_command(step):
                return step
        return self._draw(steps)

    def _draw(self, steps: Sequence[Item]) -> Item:
        return steps[self._generator.next() % len(steps)]
