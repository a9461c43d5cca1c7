"""The search of a job, which the program excp_tools carries out: what it finds, and the steps that
lead there. Its questions and answers are in crates/excp_tools/src/outcomes.rt and answers.rt."""

from __future__ import annotations

import json
import subprocess
from dataclasses import dataclass
from typing import Any, Iterator, List, Mapping, Optional, Sequence

WHOLE, STATES, MEMORY, WATCH = "whole", "states", "memory", "watch"


@dataclass(frozen=True)
class Outcome:
    """An outcome of a request: its place among those that were found, what its post says after its
    name, and how many steps lead to it, about."""

    place: int
    text: str
    length: int

    @property
    def code(self) -> str:
        """The completion code."""
        return self.text[:2]


@dataclass(frozen=True)
class Whole:
    """A whole output: a text for each request, and of each unit the place of its medium, if media
    are sought."""

    texts: Sequence[str]
    media: Sequence[int]


@dataclass(frozen=True)
class Found:
    """What a search found: why it ended, how many states, about how many bytes they take, the
    outcomes of each request in the order of their texts, how many media each unit has, if they are
    sought, and the whole outputs."""

    ended: str
    states: int
    bytes: int
    outcomes: Sequence[Sequence[Outcome]]
    media: Sequence[int]
    wholes: Sequence[Whole]

    @property
    def is_complete(self) -> bool:
        return self.ended == WHOLE


class SearchEnded(Exception):
    """The program has ended, with this exit status."""

    def __init__(self, status: int) -> None:
        super().__init__(status)
        self.status = status


class Search:
    """A search. Each method raises SearchEnded if the program ends."""

    def __init__(self, child: subprocess.Popen[bytes]) -> None:
        """`child` is the program, with pipes to it."""
        self._child = child

    def of_job(self, text: bytes) -> Found:
        """Searches the job whose text this is. It comes first."""
        return _found(self._answer(f"job {len(text)}", text))

    def of_changed(self, text: bytes, most_states: int) -> Optional[Found]:
        """Searches a changed job, up to so many states. `None` if memory ran out."""
        found = _found(self._answer(f"try {most_states} {len(text)}", text))
        return None if found.ended == MEMORY and not found.outcomes else found

    def short_steps_to(self, request: int, outcome: Outcome) -> Optional[Sequence[str]]:
        """As `steps_to`, without steps that the outcome does not need."""
        return self._steps(f"short {request} {outcome.place}")

    def steps_to(self, request: int, outcome: Outcome) -> Optional[Sequence[str]]:
        """The steps that lead to an outcome of a request."""
        return self._steps(f"steps {request} {outcome.place}")

    def steps_to_whole(self, place: int) -> Optional[Sequence[str]]:
        """The steps that lead to a whole output."""
        return self._steps(f"whole {place}")

    def steps_to_medium(self, unit: int, place: int) -> Optional[Sequence[str]]:
        """The steps of a whole run after which a unit has one of its media."""
        return self._steps(f"media {unit} {place}")

    def steps_of_run(self) -> Optional[Sequence[str]]:
        """The steps of a whole run, if one was found."""
        return self._steps("run")

    def _steps(self, question: str) -> Optional[Sequence[str]]:
        steps: Optional[Sequence[str]] = next(self._answer(question))["steps"]
        return steps

    def _answer(self, question: str, text: bytes = b"") -> Iterator[Mapping[str, Any]]:
        """The lines of an answer."""
        try:
            assert self._child.stdin is not None
            self._child.stdin.write(f"{question}\n".encode() + text)
            self._child.stdin.flush()
        except BrokenPipeError:
            raise self._ended() from None
        return self._lines()

    def _lines(self) -> Iterator[Mapping[str, Any]]:
        assert self._child.stdout is not None
        while True:
            line = self._child.stdout.readline()
            if not line:
                raise self._ended()
            members = json.loads(line)
            yield members
            if members.get("last"):
                return

    def _ended(self) -> SearchEnded:
        status = self._child.wait()
        return SearchEnded(status if status >= 0 else 128 - status)

    def end(self) -> None:
        """Ends the program, if it has not ended."""
        self._child.kill()
        self._child.communicate()


def _found(lines: Iterator[Mapping[str, Any]]) -> Found:
    head = next(lines)
    texts: dict[int, str] = {}
    outcomes: List[Sequence[Outcome]] = []
    media: List[Sequence[int]] = []
    wholes: List[Whole] = []
    for line in lines:
        if "outcomes" in line:
            for number, key, _ in line["outcomes"]:
                texts[number] = _text(key)
            of_request = [
                Outcome(place, texts[number], length)
                for place, (number, _, length) in enumerate(line["outcomes"])
            ]
            outcomes.append(sorted(of_request, key=lambda it: it.text))
        elif "whole" in line:
            places = [it.index(number) for it, number in zip(media, line.get("media", ()))]
            wholes.append(Whole([texts[number] for number in line["whole"]], places))
        elif "media" in line:
            media.append([number for number, _ in line["media"]])
    count_of_media = [len(it) for it in media]
    return Found(head["ended"], head["states"], head["bytes"], outcomes, count_of_media, wholes)


def _text(key: str) -> str:
    """What a post says after its name: the code, the CSW without its first byte, the sense, and the
    bytes shown."""
    fields = key[:2], key[4:10], key[10:14], key[14:18], key[18:22], key[22:] or "-"
    return " ".join(fields)
