"""The media that units have at the end of a job, told by what differs, with the steps to each."""

from __future__ import annotations

from dataclasses import dataclass
from typing import Callable, Dict, List, Mapping, Optional, Sequence

from .bench import Bench
from .media import Medium, differences
from .scenarios import steps_as_comments
from .search import Found, Search

# The most media of a unit that are told, unless all are asked for.
_MOST = 100


@dataclass(frozen=True)
class _Reached:
    """A medium, and the steps to it."""

    medium: Medium
    steps: Sequence[str]


class MediaTeller:
    """Tells the media of units, as long as there is time."""

    def __init__(
        self,
        search: Search,
        found: Found,
        bench: Bench,
        tells_all: bool,
        has_time: Callable[[], bool],
        write: Callable[[str], None],
    ) -> None:
        self._search, self._found, self._bench = search, found, bench
        self._tells_all, self._has_time, self._write = tells_all, has_time, write
        # of each unit with several media the number of each, by its place
        self._numbers: Dict[int, Mapping[int, int]] = {}
        # as those of Teller
        self.has_lost, self.is_cut = False, False

    @property
    def units(self) -> int:
        """How many units have more than one medium."""
        return len(self._numbers)

    def tell_all(self) -> None:
        """Tells the media of each unit that has several."""
        for unit, count in enumerate(self._found.media):
            if count > 1:
                self._tell(unit, count)

    def told_of_output(self, media: Sequence[int]) -> str:
        """Which of its media each unit has that has several, by their places."""
        named = ((unit, of_unit.get(media[unit])) for unit, of_unit in self._numbers.items())
        return "".join(f"# medium {number} of unit {unit}\n" for unit, number in named if number)

    def _tell(self, unit: int, count: int) -> None:
        """Tells the media of a unit: what differs, and the steps to each."""
        reached: List[_Reached] = []
        numbers: Dict[int, int] = {}
        for place in range(count if self._tells_all else min(count, _MOST)):
            if not self._has_time():
                self.is_cut = True
                break
            found = self._reach(unit, place)
            if found is None:
                self.has_lost = True
                continue
            same = (it for it, other in enumerate(reached) if other.medium == found.medium)
            numbers[place] = next(same, len(reached)) + 1
            if numbers[place] > len(reached):
                reached.append(found)
        if len(reached) > 1:
            self._numbers[unit] = numbers
            self._tell_reached(unit, reached)
            self._tell_more(unit, count - len(numbers))

    def _tell_more(self, unit: int, more: int) -> None:
        if more:
            what = "medium" if more == 1 else "media"
            self._write(f"# and {more} more {what} of unit {unit}\n")

    def _reach(self, unit: int, place: int) -> Optional[_Reached]:
        """A medium of a unit, and the steps to it. `None` if the search is wrong about it."""
        steps = self._search.steps_to_medium(unit, place)
        found = None if steps is None else self._bench.medium(steps, unit)
        return None if found is None else _Reached(found[1], found[0].steps)

    def _tell_reached(self, unit: int, reached: Sequence[_Reached]) -> None:
        told = differences([it.medium for it in reached])
        for number, (it, lines) in enumerate(zip(reached, told), 1):
            steps = steps_as_comments(self._bench.job, it.steps, None)
            self._write(f"medium {unit} {number}\n{lines}{steps}")
