"""Runs the job or the scenario of a test, and compares what it prints with its expectation."""

from __future__ import annotations

import os
import stat
import time
from dataclasses import dataclass, replace
from pathlib import Path
from typing import BinaryIO, Callable, Optional, Sequence, Tuple

from ..checking import check_script
from ..checking.loaded import NO_IMAGES
from ..checking.races import OUTCOMES
from ..checking.scenario import ScenarioCheck
from ..files.opening import why_unopened
from ..findings import Finding, printable_name, printed
from ..programs.children import ended
from ..script.reading import Text, lines_of
from ..stepping.scenario import Scenario, Wanted, on_missed
from ..symbols import Assembled, assemble, has_symbols
from ..testing.differences import difference
from ..testing.found import TestFile
from ..testing.results import Result, Verdict
from .library import use_library
from .run import in_memory
from .script_file import worth_printing
from .streams import REJECTED, Ended, read_script
from .whole_script import ending_faults

_EXPECT = "expect"

# Writes what a job prints as its expectation. Returns the result of that.
Accept = Callable[[TestFile, bytes], Result]


class _Fails(Exception):
    """A test fails for this reason, with these lines on it."""

    def __init__(self, why: str, details: Sequence[str] = ()) -> None:
        super().__init__(why)
        self.why, self.details = why, details or [why]


@dataclass(frozen=True)
class Judge:
    """Runs tests by the builds of the programs that `program_of` gives. Takes what a job prints as
    right if there is an `accept`. Raises NotBuilt."""

    program_of: Callable[[str], Path]
    accept: Optional[Accept]

    def result(self, test: TestFile) -> Result:
        """How a test ends."""
        begun = time.monotonic()
        try:
            result = self._of_scenario(test) if test.is_scenario else self._of_job(test)
        except _Fails as error:
            result = failed(test.name, error.why, error.details)
        return replace(result, seconds=time.monotonic() - begun)

    def _of_job(self, test: TestFile) -> Result:
        expectations = test.expectations
        if not expectations and self.accept is None:
            return Result(test.name, Verdict.NO_EXPECTATION, why=f"there is no {test.posts}")
        script = _read(test.name)
        posts = self._posts_of(test.name, script)
        expected = [_content(name) for name in expectations]
        if any(it.splitlines() == posts.splitlines() for it in expected):
            return Result(test.name, Verdict.PASSED)
        if self.accept is not None:
            return _with_races(self.accept(test, posts), script)
        return differing(test, expectations[0], expected[0], posts)

    def _posts_of(self, name: str, script: Assembled) -> bytes:
        """What a run of a job prints. Raises _Fails."""
        status, posts, errors = self._run("excp_job", ["run"], script)
        if status == 0:
            return posts
        faults = check_script(script, NO_IMAGES) if status == REJECTED else []
        raise _of_faults(name, script, faults) or _of_program("excp_job", status, errors)

    def _of_scenario(self, test: TestFile) -> Result:
        script = _read(test.name)
        lines = lines_of(script.script)
        if not any(Text(line).first == _EXPECT for line in lines):
            return Result(test.name, Verdict.NO_EXPECTATION, why=f"it has no line '{_EXPECT}'")
        use_library(self.program_of)
        missed = _carried_out(test.name, script)
        if missed:
            raise _Fails("an expectation is not met", missed)
        return Result(test.name, Verdict.PASSED)

    def _run(
        self, program: str, words: Sequence[str], script: Assembled
    ) -> Tuple[int, bytes, bytes]:
        """The exit status of a program on a plain script, and what it printed."""
        command = [str(self.program_of(program)), *words]
        with in_memory(script.script) as plain, in_memory() as output, in_memory() as errors:
            try:
                status = ended(command, plain, errors, stdout=output)
            except OSError as error:
                raise _Fails(f"{program} cannot be run: {error.strerror}") from None
            return status, _whole(output), _whole(errors)


def _carried_out(name: str, script: Assembled) -> Sequence[str]:
    """Carries out a scenario. Returns a line for each expectation that is not met. Raises _Fails
    for a fault."""
    check, missed = ScenarioCheck(NO_IMAGES), []
    scenario = Scenario(check, Wanted(), lambda _: None, dict)
    for number, line in enumerate(script.script.removesuffix(b"\n").split(b"\n"), 1):
        scenario.read(number, Text(line.decode("latin-1")))
        if scenario.missed is not None:
            missed.append(on_missed(f"{printable_name(name)}:{number}:", scenario.missed))
        if check.findings:
            break
    else:
        scenario.end()
    fails = _of_faults(name, script, ending_faults(check.findings))
    if fails is not None:
        raise fails
    return missed


def _with_races(result: Result, script: Assembled) -> Result:
    """The result of writing the posts of a job, with a note if the next run may have others."""
    if result.verdict is not Verdict.WRITTEN:
        return result
    races = any(it.sentence == OUTCOMES for it in check_script(script, NO_IMAGES))
    return replace(result, details=[f"note: {OUTCOMES}"] if races else [])


def failed(name: str, why: str, details: Sequence[str] = ()) -> Result:
    """That a test fails for a reason."""
    return Result(name, Verdict.FAILED, why=why, details=details or [why])


def differing(test: TestFile, file: str, expected: bytes, posts: bytes) -> Result:
    """That a job prints other posts than a file expects."""
    old = f"expected {printable_name(file)}", _lines(expected)
    new = f"got {printable_name(test.name)}", _lines(posts)
    return failed(test.name, "other posts than expected", difference(old, new))


def _read(name: str) -> Assembled:
    """The plain script in a file. Raises _Fails."""
    try:
        text = read_script(name)
    except Ended as error:
        raise _Fails(error.text) from None
    script = assemble(text) if has_symbols(text) else Assembled(text)
    fails = _of_faults(name, Assembled(text), script.findings)
    if fails is not None:
        raise fails
    return script


def _of_faults(name: str, script: Assembled, findings: Sequence[Finding]) -> Optional[_Fails]:
    """That a script has faults, as `check` prints them, if it has any."""
    faults = [it for it in worth_printing(findings, script.script) if it.is_fault]
    lines = [it.rstrip("\n") for it in printed(faults, name)]
    return _Fails(lines[0], lines) if lines else None


def _of_program(program: str, status: int, errors: bytes) -> _Fails:
    return _Fails(f"{program} has ended with status {status}", _lines(errors))


def _content(name: str) -> bytes:
    """The bytes of a file with posts. Raises _Fails."""
    try:
        if stat.S_ISFIFO(os.stat(name).st_mode):
            raise _Fails(f"{printable_name(name)}: it is a pipe")
        return Path(name).read_bytes()
    except (OSError, ValueError) as error:
        raise _Fails(f"{printable_name(name)}: {why_unopened(error)}") from None


def _whole(file: BinaryIO) -> bytes:
    file.seek(0)
    return file.read()


def _lines(text: bytes) -> Sequence[str]:
    """The lines of a text, for a terminal."""
    return [printable_name(it.decode("utf-8", "backslashreplace")) for it in text.splitlines()]
