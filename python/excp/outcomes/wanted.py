"""What is asked of the outcomes of a job."""

from __future__ import annotations

from dataclasses import dataclass
from typing import Optional, Sequence

from ..stepping.schedule import TURN
from .looks import Limits
from .summary import Counts

# How many runs by seeds a search is compared with, unless said otherwise: so many, but no more than
# make so many requests; one at least.
_SEEDS, _MOST_RUN = 20, 8_000


@dataclass(frozen=True)
class Wanted:
    """What is asked of the outcomes, as its options say it."""

    limits: Limits
    seeds: Optional[int]
    often: Optional[int]
    has_wholes: bool
    has_media: bool
    is_reduced: bool
    tells_all: bool
    outcome: Optional[Sequence[int]]
    allow: Optional[Sequence[str]]
    fix: Optional[str]
    has_page: bool
    title: str

    @property
    def counts(self) -> Counts:
        """What the last line says of the search."""
        return Counts(self.has_wholes, self.is_reduced)

    def seeds_for(self, requests: int) -> int:
        """How many runs by seeds a search of a job with so many requests is compared with."""
        if self.seeds is not None:
            return self.seeds
        return min(_SEEDS, max(1, _MOST_RUN // max(1, requests)))

    @property
    def turn_of_seeds(self) -> int:
        """The most commands of a turn in runs by seeds, as `report --seed` has it."""
        return self.limits.turn or TURN
