"""The files that a call writes, and what they may replace. Each is tested before the call does its
work, and once more before the new file takes the place of the old one.

- A file that the same call reads or prints to is never replaced, whatever name or link leads to it.
  Only the image that a unit was loaded from is, by that of the same unit.
- An image replaces an empty file or an image of its format, posts replace posts, a JUnit report one
  of this command, and other text an empty file. `--force` lifts that.
"""

from __future__ import annotations

import contextlib
import errno
import os
import stat
from dataclasses import dataclass
from typing import FrozenSet, Iterable, List, Optional, Tuple

from .held import Held, held_by
from .refusals import Refused, Unwritten, refusals_of
from .replacement import BESIDE, Replacement, identity_of, target_of
from .signals import held_back

# Standard input, output and error lead to the files that they are.
STREAMS = ("/dev/stdin", "/dev/stdout", "/dev/stderr")

TAKEN = "this command reads or saves it: name another file"
READ_ONLY = "this user may not write it: only --force replaces it"
CHANGED = "another program has written it since it was read: only --force replaces it"
MOVED = "its name leads to another file than before the run"
OF_TWO_UNITS = "it is named for two units"


@dataclass(frozen=True)
class Content:
    """What is written, as an error has it, and what it replaces."""

    text: str
    replaces: FrozenSet[Held]


TAPE = Content("a tape image", frozenset({Held.TAPE}))
PACKED_TAPE = Content("a compressed tape image", frozenset({Held.TAPE, Held.PACKED_TAPE}))
DISK = Content("a disk image", frozenset({Held.DISK}))
# What a unit may be loaded from, and is not saved as.
PACKED = frozenset({Held.PACKED_TAPE, Held.OTHER_DISK})
TEXT = Content("new text", frozenset())
POSTS = Content("the posts of a job", frozenset({Held.POSTS}))
JUNIT = Content("a JUnit report", frozenset({Held.JUNIT}))


@dataclass(frozen=True)
class Output:
    """A file to write: its name, what is written, if that is known, and the unit whose medium that
    is."""

    name: str
    content: Optional[Content]
    unit: Optional[int] = None


@dataclass(frozen=True)
class UnitFile:
    """A unit, and the file that its medium is loaded from or saved to."""

    unit: int
    name: str


@dataclass(frozen=True)
class _Source:
    """A file that the call reads or prints to, as it was then, and the unit whose image it is."""

    found: os.stat_result
    unit: Optional[int]

    def was_written(self, now: os.stat_result) -> bool:
        return (self.found.st_size, self.found.st_mtime_ns) != (now.st_size, now.st_mtime_ns)


class Targets:
    """The rules for a call that reads a script and other files, loads and saves these media, and
    writes this text.

    `force` lifts the rules for what a file holds. Each method raises Unwritten.
    """

    def __init__(
        self,
        script: Optional[str],
        force: bool = False,
        loads: Iterable[UnitFile] = (),
        saves: Iterable[UnitFile] = (),
        text: Optional[str] = None,
        reads: Iterable[str] = (),
    ) -> None:
        self._force = force
        self._sources: List[_Source] = []
        # the files that the command line names, with their units, as they were before the run
        self._named: List[Tuple[Optional[int], str]] = []
        images = list(loads)
        for file in images:
            self._name(file.unit, file.name, "")
        for file in saves:
            self._name_both(file.unit, file.name)
        if text is not None:
            self._name_both(None, text)
        for name in (script, *reads, *STREAMS):
            if name is not None:
                self._note(name, None)
        for file in images:
            self._note(file.name, file.unit)

    def _name_both(self, unit: Optional[int], name: str) -> None:
        """Notes a file that is written, and the new one beside it."""
        self._name(unit, name, "")
        self._name(unit, name, BESIDE)

    def _name(self, unit: Optional[int], name: str, ending: str) -> None:
        """Notes a file of a unit, with this after its name, unless it is noted for another unit."""
        with refusals_of(name):
            target = target_of(name) + ending
        if any(other == target and of != unit for of, other in self._named):
            raise Unwritten(name, TAKEN if unit is None else OF_TWO_UNITS)
        self._named.append((unit, target))

    def _note(self, name: str, unit: Optional[int]) -> None:
        """Notes a file that the call reads or prints to. Nothing replaces what is no regular
        file."""
        with contextlib.suppress(OSError, ValueError):
            found = os.stat(name)
            if stat.S_ISREG(found.st_mode):
                self._sources.append(_Source(found, unit))

    def check(self, output: Output) -> Optional[str]:
        """Tests before a run that a file may be written, and can be: a new file beside it is made
        and removed.

        Returns the name of a new file that a killed run left, if one was removed.
        """
        with held_back():
            replacement = self.begin(output)
            replacement.abandon()
        return replacement.removed

    def begin(self, output: Output) -> Replacement:
        """A new file beside one that may be written. Its caller holds back signals."""
        with refusals_of(output.name):
            self._judge(output)
            self._spare_sources(output)
            return Replacement(output.name)

    def _spare_sources(self, output: Output) -> None:
        """Raises Refused if the call reads or prints to a file with the name of the new one."""
        with contextlib.suppress(FileNotFoundError):
            beside = identity_of(os.stat(target_of(output.name) + BESIDE))
            if any(identity_of(it.found) == beside for it in self._sources):
                raise Refused(TAKEN)

    def write(self, output: Output, parts: Iterable[bytes]) -> Optional[str]:
        """Replaces a file by one of these bytes, or makes it, if that may still be done. Returns as
        `check`."""
        with refusals_of(output.name), held_back():
            replacement = Replacement(output.name)
            try:
                replacement.fill(parts)
                self.confirm(output, replacement)
                replacement.finish()
            except BaseException:
                replacement.abandon()
                raise
        return replacement.removed

    def confirm(self, output: Output, replacement: Replacement) -> None:
        """Tests after a run that a new file may still replace its target, which is the same as
        before."""
        with refusals_of(output.name):
            self._judge(output)
            target = target_of(output.name)
            named = [other for unit, other in self._named if unit == output.unit]
            if target != replacement.target or (named and target not in named):
                raise Refused(MOVED)

    def _judge(self, output: Output) -> None:
        """Raises Refused unless a file may be written, which may be there or not."""
        try:
            old = os.stat(output.name)
        except FileNotFoundError:
            return
        is_own = self._is_own(old, output.unit)
        if self._force or not stat.S_ISREG(old.st_mode):
            return
        if not old.st_mode & 0o222 or _is_closed(output.name):
            raise Refused(READ_ONLY)
        content = output.content
        if old.st_size == 0 or content is None:
            return
        held = held_by(output.name)
        if held not in content.replaces and not (is_own and held not in PACKED):
            what = f"it holds {held.value}, which {content.text}"
            raise Refused(f"{what} replaces only with --force")

    def _is_own(self, old: os.stat_result, unit: Optional[int]) -> bool:
        """Whether a file is the image that this unit was loaded from.

        Raises Refused if the call reads it otherwise, or if it is no longer as it was read.
        """
        sources = [it for it in self._sources if identity_of(it.found) == identity_of(old)]
        for source in sources:
            if source.unit is None or source.unit != unit:
                raise Refused(TAKEN)
            if not self._force and source.was_written(old):
                raise Refused(CHANGED)
        return bool(sources)


def _is_closed(name: str) -> bool:
    """Whether this user may not write a file."""
    try:
        os.close(os.open(name, os.O_WRONLY | os.O_CLOEXEC))
    except OSError as error:
        return error.errno in (errno.EACCES, errno.EPERM)
    return False
