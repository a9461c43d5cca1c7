"""`test`: runs jobs and scenarios, and compares what they print with what is expected of them."""

from __future__ import annotations

import argparse
import contextlib
import time
from datetime import datetime
from typing import Iterator, List, Optional, Sequence, Set

from ..files.opening import why_unopened
from ..files.refusals import Unwritten
from ..files.targets import JUNIT, POSTS, Output, Targets
from ..findings import printable_name
from ..script.suggestions import nearest
from ..testing.found import NotFound, TestFile, names_without_ending, selected, tests_at
from ..testing.results import Result, Verdict, has_failed, lines_of, summary
from .streams import (
    OUTPUT, REJECTED, USAGE, Ended, ReaderGone, of_file, say_removed, takes_colour, write_output,
)
from .test_run import Judge, differing, failed
from .unit_files import add_force

_NONE_EXPECTED = "no test has an expectation: test --accept writes those of jobs"


def add_arguments(parser: argparse.ArgumentParser) -> None:
    parser.add_argument("-k", action="append", default=[], metavar="WORD", dest="words")
    parser.add_argument("--accept", action="store_true", help="writes what each job prints")
    parser.add_argument("--junit", metavar="FILE", help="writes the results as JUnit XML")
    parser.add_argument("-q", "--quiet", action="store_true", help="only what failed, and the sum")
    add_force(parser)
    parser.add_argument("paths", nargs="+", metavar="PATH")


def run(given: argparse.Namespace) -> int:
    if given.force and not given.accept and given.junit is None:
        given.usage_error("--force needs --accept or --junit FILE, which write files")
    tests = _selected(given.paths, given.words)
    jobs = [it.name for it in tests]
    report = _Report(given.junit, Targets(None, given.force, reads=[*jobs, *_expectations(tests)]))
    acceptance = _Acceptance(Targets(None, given.force, reads=jobs)) if given.accept else None
    judge = Judge(given.program_of, acceptance.written if acceptance is not None else None)
    results, printer = [], _Printer(given.quiet)
    for test in tests:
        results.append(judge.result(test))
        printer.say(results[-1])
    printer.print(summary(results))
    report.write(results)
    if all(it.verdict is Verdict.NO_EXPECTATION for it in results):
        raise Ended(_NONE_EXPECTED)
    return REJECTED if has_failed(results) else 0


def _selected(paths: Sequence[str], words: Sequence[str]) -> Sequence[TestFile]:
    """The tests that are asked for. Raises Ended."""
    try:
        found = tests_at(paths)
    except NotFound as error:
        raise Ended(f"{printable_name(error.path)}: {error.sentence}", USAGE) from None
    except OSError as error:
        raise of_file(str(error.filename), why_unopened(error)) from None
    tests = selected(found, words)
    if not tests:
        raise Ended(_no_name(words, found), USAGE)
    return tests


def _no_name(words: Sequence[str], tests: Sequence[TestFile]) -> str:
    """The text if no test has one of these words in its name."""
    known = names_without_ending(tests)
    near = next(filter(None, (nearest(it, known) for it in words)), None)
    instead = f"; did you mean '{near}'?" if near else ""
    named = " or ".join(f"'{printable_name(it)}'" for it in words)
    return f"test: no test has {named} in its name{instead}"


def _expectations(tests: Sequence[TestFile]) -> List[str]:
    return [name for test in tests for name in test.expectations]


class _Acceptance:
    """Writes what jobs print as their expectations."""

    def __init__(self, targets: Targets) -> None:
        self._targets = targets
        self._written: Set[str] = set()

    def written(self, test: TestFile, posts: bytes) -> Result:
        """The result of writing the posts of a job. Two jobs may have one file, with one text."""
        if test.posts in self._written:
            with open(test.posts, "rb") as file:
                return differing(test, test.posts, file.read(), posts)
        try:
            say_removed(test.posts, self._targets.write(Output(test.posts, POSTS), [posts]))
        except Unwritten as error:
            return failed(test.name, f"{printable_name(error.name)}: {error.sentence}")
        self._written.add(test.posts)
        return Result(test.name, Verdict.WRITTEN, why=test.posts)


class _Report:
    """The report in a file, if one is asked for. That it can be written is tested before a run."""

    def __init__(self, file: Optional[str], targets: Targets) -> None:
        self._file, self._targets = file, targets
        self._begun, self._moment = datetime.now(), time.monotonic()
        if file is not None:
            with _unwritten():
                say_removed(file, targets.check(Output(file, JUNIT)))

    def write(self, results: Sequence[Result]) -> None:
        """Writes the report. Raises Ended."""
        if self._file is None:
            return
        from ..testing.junit import junit

        text = junit(results, time.monotonic() - self._moment, self._begun)
        with _unwritten():
            say_removed(self._file, self._targets.write(Output(self._file, JUNIT), [text]))


@contextlib.contextmanager
def _unwritten() -> Iterator[None]:
    """That a file is not written inside ends the command."""
    try:
        yield
    except Unwritten as error:
        raise of_file(error.name, error.sentence) from None


class _Printer:
    """Prints results as they come. That nothing reads them any more changes no status."""

    def __init__(self, is_quiet: bool) -> None:
        self._is_quiet = is_quiet
        self._is_read = True

    def say(self, result: Result) -> None:
        """Prints the lines on a test."""
        if not self._is_quiet or result.verdict in (Verdict.FAILED, Verdict.WRITTEN):
            self.print(lines_of(result, takes_colour(OUTPUT)))

    def print(self, text: str) -> None:
        if not self._is_read:
            return
        try:
            write_output([text.encode("utf-8", "surrogateescape")])
        except ReaderGone:
            self._is_read = False
