"""Runs that were carried out, and the outcomes that they came to."""

from __future__ import annotations

from dataclasses import dataclass
from typing import Callable, Dict, Iterable, Iterator, List, Optional, Sequence, Tuple

from ..stepping.schedule import Schedule, Step
from .bench import COLLECT, Bench
from .job import NumberedJob, Request
from .search import Found

# The most bytes that lines of other posts than those of runs by seeds take, about; and what a line
# takes beside its own, about.
_MOST_BYTES = 32 << 20
_LINE_BYTES = 160


@dataclass
class Seen:
    """An outcome that runs came to: how many, the seed of the first one, and the line of its
    post."""

    runs: int
    seed: int
    line: str


class Tally:
    """What runs came to."""

    def __init__(self, job: NumberedJob) -> None:
        self._job = job
        # by the place of the request and what its post says
        self._seen: Dict[Tuple[int, str], Seen] = {}
        self._bytes = 0

    def run_seeds(self, bench: Bench, seeds: int, turn: int, has_time: Callable[[], bool]) -> None:
        """Adds the posts of the runs by the seeds from 1 on, as long as there is time."""
        for seed in range(1, seeds + 1):
            if not has_time():
                return
            run = _Seeded(bench, seed, turn)
            run.run()
            run.stage.site.close()
            for post in run.lines:
                self._add(post, seed)

    def add(self, posts: Iterable[str]) -> None:
        """Adds posts of another run, as long as there is room."""
        for post in posts:
            if self._bytes < _MOST_BYTES:
                self._add(post, 0)

    def _add(self, post: str, seed: int) -> None:
        _, task, unit, number, text = post.split(" ", 4)
        key = self._job.by_name[f"{task} {unit} {number}"].place, text
        if key in self._seen:
            self._seen[key].runs += 1
            return
        self._seen[key] = Seen(1, seed, post)
        self._bytes += 2 * len(post) + _LINE_BYTES

    def line_of(self, request: Request, text: str) -> Optional[str]:
        """The line of a post of a request that says this, if a run came to it."""
        seen = self._seen.get((request.place, text))
        return None if seen is None else seen.line

    def missed(self, found: Found) -> Optional[Tuple[int, Request]]:
        """The seed of a run, and a request whose outcome there a search did not find, though it has
        come to its end. The search is wrong then."""
        texts = [{it.text for it in outcomes} for outcomes in found.outcomes]
        for (place, text), seen in self._seen.items():
            if text not in texts[place]:
                return seen.seed, self._job.requests[place]
        return None

    def has_several(self) -> bool:
        """Whether a request came to more than one outcome. In each run, each comes to one."""
        return len(self._seen) > len(self._job.requests)

    def in_order(self) -> Iterator[Seen]:
        """The outcomes in the order in which a run prints their posts."""
        ranks = {it.place: rank for rank, it in enumerate(self._job.in_order)}
        return (
            self._seen[key] for key in sorted(self._seen, key=lambda it: (ranks[it[0]], it[1]))
        )


class _Seeded(Schedule):
    """A run by a seed, and the lines of its posts."""

    def __init__(self, bench: Bench, seed: int, turn: int) -> None:
        super().__init__(bench.job.steps, seed, bench.images, keeps_lines=False, turn=turn)
        self.lines: List[str] = []

    def _answer(self, step: Step) -> str:
        answer = super()._answer(step)
        if step.verb == COLLECT:
            self.lines.append(answer)
        return answer


def shares(tally: Tally, seeds: int) -> Sequence[str]:
    """How often runs by seeds came to each outcome."""
    lines = []
    for it in tally.in_order():
        lines.append(f"# in {it.runs} of {seeds} runs, first by seed {it.seed}\n{it.line}\n")
    lines.append(f"{seeds} runs by seeds; the shares are no probabilities of threads\n")
    return lines
