"""The outcomes of each request, told, and the whole outputs."""

from __future__ import annotations

from dataclasses import dataclass
from typing import Callable, List, Optional, Protocol, Sequence

from .bench import Bench, Witness
from .changes import Trials, measures
from .hints import hint
from .job import Request
from .page import Pictured, Pictures
from .scenarios import scenario_of, scenario_of_all, steps_as_comments
from .search import Found, Outcome, Search
from .tally import Tally

# From this number of outcomes of a request on, only the first of each completion code is printed,
# unless all are asked for.
_GROUPED = 8

# The most outcomes of a request whose scenarios are handed over, and the most whole outputs, unless
# all are asked for.
_MOST = 100

# The most steps of a witness that are printed, and that it is made short for, unless all are asked
# for.
_MOST_STEPS = 500

_NO_TIME = ", for which --most-seconds left no time"
_NO_HINT_TIME = "# --most-seconds left no time for its changes\n"


class Keeper(Protocol):
    """Takes the scenarios of outcomes, each with the name of its file."""

    def keep(self, name: str, scenario: bytes) -> None:
        """Takes one."""


@dataclass(frozen=True)
class Asked:
    """What is asked for: whether all outcomes are printed, however many there are; and what takes
    scenarios and outcomes for a page, if they are wanted."""

    tells_all: bool
    keeper: Optional[Keeper]
    pictures: Optional[Pictures]


@dataclass(frozen=True)
class Time:
    """Whether there is time left for more outcomes, and for the hint of a request, which comes
    first to its end."""

    is_left: Callable[[], bool]
    is_left_for_hints: Callable[[], bool]


class Teller:
    """Tells what a search found, as long as there is time."""

    def __init__(
        self,
        search: Search,
        found: Found,
        bench: Bench,
        tally: Tally,
        asked: Asked,
        time: Time,
        write: Callable[[str], None],
    ) -> None:
        self._search, self._found, self._bench, self._job = search, found, bench, bench.job
        self._tally, self._asked, self._write = tally, asked, write
        self._has_time, self._has_time_for_hints = time.is_left, time.is_left_for_hints
        self._trials, self._base = Trials(search, bench.job), measures(bench.job, found)
        # whether the search is wrong about some outcome, which is not told; and whether there was
        # no time for some
        self.has_lost, self.is_cut = False, False

    def tell_all(self) -> None:
        """Tells the outcomes of each request, in the order in which a run prints their posts."""
        requests = self._job.in_order
        if requests:
            self._look_ahead(requests[-1])
        for before, request in enumerate(requests):
            if not self._has_time():
                self.is_cut = True
                return self._tell_more(len(requests) - before, "request", _NO_TIME)
            self._tell(request)

    def _outcomes(self, request: Request) -> Sequence[Outcome]:
        return self._found.outcomes[request.place]

    def _look_ahead(self, request: Request) -> None:
        """Carries out long witnesses of the last request, whose steps nobody reads: they come to
        outcomes of many others too."""
        for outcome in self._outcomes(request)[:_GROUPED]:
            if self._is_long(outcome) and self._has_time():
                self._line_of(request, outcome)

    def _tell(self, request: Request) -> None:
        """Tells the outcomes of a request in order: each, or else the first of each completion
        code."""
        outcomes = self._outcomes(request)
        for place in range(len(outcomes)):
            if not self._has_time():
                self.is_cut = True
                return self._tell_more(len(outcomes) - place, "outcome", _NO_TIME)
            self._tell_at(request, outcomes, place)
        if self._asked.keeper is not None and len(outcomes) > 1:
            self._tell_more(self._left_out(outcomes), "outcome", " without a scenario")
        if len(outcomes) > 1 and self._found.is_complete:
            self._tell_hint(request)

    def _tell_hint(self, request: Request) -> None:
        if self._has_time_for_hints():
            self._write(hint(self._trials, self._job, self._base, request))
        else:
            self._write(_NO_HINT_TIME)

    def _tell_at(self, request: Request, outcomes: Sequence[Outcome], place: int) -> None:
        outcome, is_printed = outcomes[place], self._is_printed(outcomes, place)
        if len(outcomes) == 1:
            self._tell_single(request, outcome)
        elif is_printed:
            head = f"# outcome {place + 1} of {len(outcomes)}\n"
            self._tell_with_steps(request, outcome, place + 1, head)
            self._tell_alike(outcomes, place)
        elif place < _MOST and self._asked.keeper is not None:
            self._witness(request, outcome, place + 1)

    def _is_printed(self, outcomes: Sequence[Outcome], place: int) -> bool:
        """Whether the outcome at a place of those of a request is printed. Those with one code
        follow one another."""
        if self._asked.tells_all or len(outcomes) < _GROUPED or place == 0:
            return True
        return outcomes[place].code != outcomes[place - 1].code

    def _left_out(self, outcomes: Sequence[Outcome]) -> int:
        """How many outcomes have no scenario."""
        places = range(_MOST, len(outcomes))
        return sum(not self._is_printed(outcomes, it) for it in places)

    def _is_long(self, outcome: Outcome) -> bool:
        """Whether the steps to an outcome are too many to be printed."""
        wants_all = self._asked.tells_all or self._asked.keeper is not None
        return outcome.length > _MOST_STEPS and not wants_all

    def _tell_single(self, request: Request, outcome: Outcome) -> None:
        if self._asked.keeper is None:
            return self._write(self._line_of(request, outcome))
        witness = self._witness(request, outcome, 1)
        if witness is not None:
            self._write(f"{witness.posts[-1]}\n")

    def _tell_with_steps(
        self, request: Request, outcome: Outcome, number: int, head: str
    ) -> None:
        """Tells an outcome, with its number among those of its request, and its steps after this
        text; or how to print them, if they are many."""
        if self._is_long(outcome):
            how = f"--outcome {request.name} {number}"
            more = f"#   more than {_MOST_STEPS} steps, which {how} prints\n"
            line = self._line_of(request, outcome)
            self._picture(request, number, line, "")
            return self._write(f"{head}{line}{more}")
        witness = self._witness(request, outcome, number)
        if witness is not None:
            steps = steps_as_comments(self._job, witness.steps, request)
            self._picture(request, number, witness.posts[-1], steps)
            self._write(f"{head}{witness.posts[-1]}\n{steps}")

    def _picture(self, request: Request, number: int, post: str, steps: str) -> None:
        """Hands an outcome over that a page may show."""
        if self._asked.pictures is not None and post:
            lines = [line[4:] for line in steps.splitlines()]
            self._asked.pictures.add(request, Pictured(number, post, lines))

    def _witness(self, request: Request, outcome: Outcome, number: int) -> Optional[Witness]:
        """The witness of an outcome, made short, whose scenario is handed over if it is wanted.
        `None` if the search is wrong about it."""
        steps = self._search.short_steps_to(request.place, outcome)
        witness = None if steps is None else self._bench.witness(steps, request, outcome)
        if witness is None:
            self.has_lost = True
        elif self._asked.keeper is not None:
            name = f"post-{request.name.replace(' ', '-')}-{number}.scenario"
            self._asked.keeper.keep(name, scenario_of(self._job, witness))
        return witness

    def _line_of(self, request: Request, outcome: Outcome) -> str:
        """The line of an outcome: that of a run that came to it, or else of its witness. It is
        empty if the search is wrong about it."""
        line = self._tally.line_of(request, outcome.text)
        if line is None:
            steps = self._search.steps_to(request.place, outcome)
            if steps is not None:
                witness = self._bench.witness(steps, request, outcome)
                if witness is not None:
                    line = witness.posts[-1]
                    self._tally.add(witness.posts[:-1])
        self.has_lost |= line is None
        return "" if line is None else f"{line}\n"

    def _tell_alike(self, outcomes: Sequence[Outcome], place: int) -> None:
        """Tells how many of the outcomes after one have its completion code, and are not
        printed."""
        more = 0
        for later in range(place + 1, len(outcomes)):
            if self._is_printed(outcomes, later):
                break
            more += 1
        self._tell_more(more, "outcome", f" with code {outcomes[place].code}")

    def _tell_more(self, more: int, what: str, rest: str) -> None:
        """Tells how many more there are of something, if there are any."""
        if more:
            self._write(f"# and {more} more {what}{'' if more == 1 else 's'}{rest}\n")

    def tell_outputs(self, told_media: Callable[[Sequence[int]], str]) -> None:
        """Tells the whole outputs in the order of their posts: all, or the first ones. `told_media`
        gives the media of one."""
        order = [it.place for it in self._job.in_order]
        wholes = self._found.wholes
        places = sorted(range(len(wholes)), key=lambda it: [wholes[it].texts[at] for at in order])
        most = len(places) if self._asked.tells_all else _MOST
        for before, place in enumerate(places[:most]):
            if not self._has_time():
                self.is_cut = True
                return self._tell_more(len(places) - before, "whole output", _NO_TIME)
            self._tell_output(place, before + 1, told_media(wholes[place].media))
        self._tell_more(max(0, len(places) - most), "whole output", "")

    def _tell_output(self, place: int, number: int, media: str) -> None:
        """Tells a whole output. If the run to it has other posts, the search is wrong about it."""
        steps = self._search.steps_to_whole(place)
        run = None if steps is None else self._bench.whole(steps)
        posts = None if run is None else self._posts_of(run, self._found.wholes[place].texts)
        if run is None or posts is None:
            self.has_lost = True
            return
        has_steps = len(self._found.wholes) > 1
        steps_told = steps_as_comments(self._job, run.steps, None) if has_steps else ""
        self._write(f"output {number}\n{''.join(posts)}{media}{steps_told}")
        if self._asked.keeper is not None:
            scenario = scenario_of_all(self._job, run)
            self._asked.keeper.keep(f"output-{number}.scenario", scenario)

    def _posts_of(self, run: Witness, texts: Sequence[str]) -> Optional[List[str]]:
        """The lines of the posts of a run in their order, if they say this, by their requests."""
        by_name = {" ".join(it.split(" ", 4)[1:4]): it for it in run.posts}
        lines = [by_name.get(it.name, "") for it in self._job.in_order]
        said = [f"post {it.name} {texts[it.place]}" for it in self._job.in_order]
        return [f"{line}\n" for line in lines] if lines == said else None
