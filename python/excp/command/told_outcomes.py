"""Searches for the outcomes of a job, and prints them."""

from __future__ import annotations

import contextlib
import os
import time
from dataclasses import dataclass
from typing import Iterator, List, Optional, Sequence

from ..checking.loaded import with_sizes
from ..outcomes.bench import Bench
from ..outcomes.fixing import fixed
from ..outcomes.job import NumberedJob, Request
from ..outcomes.looks import Look, first_look, look_in_place
from ..outcomes.page import Pictures, page_of
from ..outcomes.running import running
from ..outcomes.scenarios import scenario_of
from ..outcomes.search import Found, Search, SearchEnded
from ..outcomes.summary import Told, Verdict, told_units, told_verdict, verdict_of
from ..outcomes.tally import Tally, shares
from ..outcomes.telling import Asked, Keeper, Teller, Time
from ..outcomes.told_media import MediaTeller
from ..outcomes.wanted import Wanted
from ..programs.telling import note
from .fix_file import FixFile, fix_file
from .handing import handed, name_in_texts
from .options import words_of
from .scenario_files import scenario_folder
from .seeded import is_rejected
from .site_files import SiteFiles, site_files
from .streams import FAILED, REJECTED, Ended, ReaderGone, write_at_once
from .tool_run import said
from .tools import PROGRAM, Order
from .whole_script import WholeScript


def carry_out(order: Order, source: WholeScript, wanted: Wanted) -> int:
    """Prints the outcomes of a job. Returns the exit status. Raises Ended, NotBuilt and
    ReaderGone."""
    with site_files(order, source.units) as files:
        if wanted.often is not None:
            return _often(order, source, files, wanted, wanted.often)
        try:
            fix = fix_file(order, wanted.fix)
            with scenario_folder(order) as keeper:
                return _status(order, source, files, wanted, Kept(keeper, fix))
        except SearchEnded as ended:
            return said(order, source, ended.status)
        except OSError as error:
            raise Ended(f"{PROGRAM} cannot be run: {error.strerror}") from None


def _bench(source: WholeScript, files: SiteFiles) -> Bench:
    text = with_sizes(source.script.script, files.measured())
    return Bench(NumberedJob(text), files.contents())


def _often(
    order: Order, source: WholeScript, files: SiteFiles, wanted: Wanted, often: int
) -> int:
    """Prints how often runs by seeds come to each outcome."""
    if is_rejected(order, source, files.measured()):
        return REJECTED
    bench = _bench(source, files)
    tally = Tally(bench.job)
    tally.run_seeds(bench, often, wanted.turn_of_seeds, lambda: True)
    with contextlib.suppress(ReaderGone):
        _print("".join(shares(tally, often)))
    return Verdict.SEVERAL if tally.has_several() else Verdict.DETERMINISTIC


@dataclass(frozen=True)
class Kept:
    """What takes scenarios and a changed job, if they are wanted."""

    keeper: Optional[Keeper]
    fix: Optional[FixFile]

    def has_any(self) -> bool:
        return self.keeper is not None or self.fix is not None


class _Output:
    """Standard output. If nothing reads it any more, `print` raises ReaderGone, or prints nothing
    from then on."""

    def __init__(self, goes_on: bool) -> None:
        self._goes_on, self._is_read = goes_on, True

    def print(self, text: str) -> None:
        if not self._is_read:
            return
        try:
            _print(text)
        except ReaderGone:
            self._is_read = False
            if not self._goes_on:
                raise


def _status(
    order: Order, source: WholeScript, files: SiteFiles, wanted: Wanted, kept: Kept
) -> int:
    """Searches until all is found, or as long as may be. Prints what that search has found, and
    returns the exit status."""
    look, begun = first_look(wanted.limits), time.monotonic()
    while True:
        with _search(order, files, look) as search:
            found = search.of_job(source.script.script)
            bench = _bench(source, files)
            if found.is_complete or not look.is_first:
                run = _Run(source, wanted, look, search, found, bench, begun)
                return run.status(kept)
            seconds = int(time.monotonic() - begun)
            look = look_in_place(wanted.limits, bench.job.has_halt, seconds)


@contextlib.contextmanager
def _search(order: Order, files: SiteFiles, look: Look) -> Iterator[Search]:
    """A search of an order, which has the files of its images."""
    with contextlib.ExitStack() as stack:
        words: List[str] = [str(order.program_of(PROGRAM)), *order.words]
        words += words_of(turn=look.turn, states=look.states, seconds=look.seconds)
        numbers: List[int] = []
        for unit, file in files.opened().items():
            numbers.append(handed(file.fileno()))
            stack.callback(os.close, numbers[-1])
            words.append(f"load={unit}={numbers[-1]}={name_in_texts(order.loads[unit])}")
        yield stack.enter_context(running(words, numbers))


class _Run:
    """What a search has found, and what is printed of it."""

    def __init__(
        self,
        source: WholeScript,
        wanted: Wanted,
        look: Look,
        search: Search,
        found: Found,
        bench: Bench,
        begun: float,
    ) -> None:
        self._source, self._wanted, self._look, self._search = source, wanted, look, search
        self._found, self._bench, self._begun = found, bench, begun
        self._pictures = Pictures() if wanted.has_page else None
        self._output = _Output(goes_on=False)

    def _write(self, text: str) -> None:
        """Prints a text, or keeps it for a page."""
        if self._pictures is None:
            self._output.print(text)
        else:
            self._pictures.texts.append(text)

    def _has_time(self) -> bool:
        """Whether there is time left. The printing may take as long as the search."""
        return self._is_within(2.0)

    def _has_time_for_hints(self) -> bool:
        """Whether there is time left for hints: half of that for printing, since posts come
        first."""
        return self._is_within(1.5)

    def _is_within(self, times: float) -> bool:
        """Whether so many times the seconds of the search have not passed."""
        most = self._wanted.limits.seconds
        return most is None or time.monotonic() - self._begun < times * most

    def status(self, kept: Kept) -> int:
        """Prints, and returns the exit status."""
        if self._wanted.outcome is not None:
            return self._print_one(self._wanted.outcome)
        return self._print_all(kept)

    def _print_one(self, outcome: Sequence[int]) -> int:
        """Prints the scenario of one outcome."""
        if not self._found.is_complete:
            note("the search ended early: in a longer one this outcome may have another number")
        scenario = self._scenario(outcome)
        if scenario is None:
            task, unit, request, number = outcome
            which = f"outcome {number} of request {request} of task {task} to unit {unit}"
            note(f"no {which} was found")
            return REJECTED
        write_at_once(scenario)
        return 0 if self._found.is_complete else Verdict.NOT_ALL

    def _scenario(self, outcome: Sequence[int]) -> Optional[bytes]:
        (*name, number), bench = outcome, self._bench
        request = bench.job.by_name.get(" ".join(map(str, name)))
        outcomes = [] if request is None else self._found.outcomes[request.place]
        if request is None or not 1 <= number <= len(outcomes):
            return None
        steps = self._search.short_steps_to(request.place, outcomes[number - 1])
        if steps is None:
            return None
        witness = bench.witness(steps, request, outcomes[number - 1])
        return None if witness is None else scenario_of(bench.job, witness)

    def _fix(self, file: FixFile, units: int) -> None:
        """Writes the job with the changes of hints, and tells them; and of units with several media
        that changes are not for them."""
        script, job = self._source.script, self._bench.job
        text = script.script if script.job is None else script.job
        found = fixed(self._search, job, text, self._found, self._has_time)
        if found.text is not None:
            file.write(found.text)
        self._write(found.told)
        if units:
            self._write(f"# --fix looks at posts only, and {told_units(units)}\n")

    def _print_all(self, kept: Kept) -> int:
        """Prints all that was found, and returns the exit status, which is the same if nothing
        reads the output."""
        found, wanted, tally = self._found, self._wanted, self._tally_of_seeds()
        missed = tally.missed(found)
        self._output = _Output(goes_on=kept.has_any() or wanted.has_media)
        try:
            told = self._tell(tally, kept)
        except ReaderGone:
            told = Told(has_lost=False, is_cut=False, units=None)
        verdict = verdict_of(found, told)
        last = told_verdict(found, verdict, told, self._look, wanted.counts)
        with contextlib.suppress(ReaderGone):
            self._write(last)
            if self._pictures is not None:
                _print_page(self._pictures, wanted.title, last)
        if missed is not None:
            _note_missed(*missed)
            return FAILED
        if wanted.allow is None:
            return verdict
        return _judged(found, told, self._bench.job, wanted.allow)

    def _tally_of_seeds(self) -> Tally:
        """What runs by seeds come to, if all was found."""
        wanted, bench, tally = self._wanted, self._bench, Tally(self._bench.job)
        seeds = wanted.seeds_for(len(bench.job.requests)) if self._found.is_complete else 0
        tally.run_seeds(bench, seeds, wanted.turn_of_seeds, self._has_time)
        return tally

    def _tell(self, tally: Tally, kept: Kept) -> Told:
        """Prints what was found, but the last line."""
        search, found, bench, wanted = self._search, self._found, self._bench, self._wanted
        run = search.steps_of_run()
        whole = None if run is None else bench.whole(run)
        tally.add([] if whole is None else whole.posts)
        asked = Asked(wanted.tells_all, kept.keeper, self._pictures)
        times = Time(self._has_time, self._has_time_for_hints)
        teller = Teller(search, found, bench, tally, asked, times, self._write)
        media = MediaTeller(search, found, bench, wanted.tells_all, self._has_time, self._write)
        teller.tell_all()
        media.tell_all()
        teller.tell_outputs(media.told_of_output)
        if kept.fix is not None:
            self._fix(kept.fix, media.units)
        return Told(
            has_lost=teller.has_lost or media.has_lost,
            is_cut=teller.is_cut or media.is_cut,
            units=media.units if wanted.has_media else None,
        )


def _note_missed(seed: int, request: Request) -> None:
    """Says that a run by a seed came to an outcome that the search did not find."""
    which = f"request {request.number} of task {request.task} to unit {request.unit}"
    again = f"the run by seed {seed} posts another outcome of {which}"
    note(f"error of this program: {again}; please report it with the script")


def _judged(found: Found, told: Told, job: NumberedJob, allow: Sequence[str]) -> int:
    """The exit status if outcomes with these codes are no error: the first one with another code is
    named. If not all were found, more may come. Units may not have several media."""
    for request in job.in_order:
        for number, outcome in enumerate(found.outcomes[request.place], 1):
            if outcome.code not in allow:
                which = f"outcome {number} of request {request.number} of task {request.task}"
                note(f"{which} to unit {request.unit} has code {outcome.code}: line {request.line}")
                return Verdict.SEVERAL
    if verdict_of(found, told) == Verdict.NOT_ALL:
        return Verdict.NOT_ALL
    if told.units:
        note(f"--media: {told_units(told.units)}")
        return Verdict.SEVERAL
    return Verdict.DETERMINISTIC


def _print(text: str) -> None:
    write_at_once(text.encode("latin-1"))


def _print_page(pictures: Pictures, title: str, last: str) -> None:
    for piece in page_of(pictures, title, last):
        write_at_once(piece.encode())
