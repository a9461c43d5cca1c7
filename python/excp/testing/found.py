"""Which files are tests, and the files of their expectations."""

from __future__ import annotations

import os
from dataclasses import dataclass
from typing import Iterator, List, NoReturn, Sequence, Tuple

from ..script.suggestions import nearest

POSTS = ".posts"

# A second result, of a job that races itself.
_OTHER_POSTS = f".or{POSTS}"

_SCENARIO = ".scenario"
_ENDINGS = (".script", ".symbolic", _SCENARIO)

# The most characters of a file's name that is compared with others.
_MOST_COMPARED = 64


@dataclass(frozen=True)
class TestFile:
    """A file with a job or a scenario."""

    name: str

    @property
    def is_scenario(self) -> bool:
        return self.name.endswith(_SCENARIO)

    @property
    def posts(self) -> str:
        """The file with what the job prints."""
        return f"{self._stem}{POSTS}"

    @property
    def expectations(self) -> Sequence[str]:
        """The files that are there with what the job may print."""
        names = (self.posts, f"{self._stem}{_OTHER_POSTS}")
        return [it for it in names if os.path.lexists(it)]

    @property
    def _stem(self) -> str:
        return os.path.splitext(self.name)[0]


class NotFound(Exception):
    """A path leads to no test. The text is the sentence for it."""

    def __init__(self, path: str, sentence: str) -> None:
        super().__init__(sentence)
        self.path, self.sentence = path, sentence


def tests_at(paths: Sequence[str]) -> Sequence[TestFile]:
    """The tests that paths of files and folders lead to, each once, in the order of the paths; of a
    folder in the order of their names. Raises NotFound, and OSError for a folder."""
    found = (test for path in paths for test in _tests_at(path))
    return list(dict.fromkeys(found))


def selected(tests: Sequence[TestFile], words: Sequence[str]) -> Sequence[TestFile]:
    """The tests with one of these words in their names, or all if there is no word."""
    return [it for it in tests if not words or any(word in it.name for word in words)]


def _tests_at(path: str) -> Sequence[TestFile]:
    if os.path.isdir(path):
        tests = [TestFile(os.path.normpath(name)) for name in _files_below(path)]
        if not tests:
            raise NotFound(path, f"the folder has no file {', '.join(_ENDINGS)}")
        return sorted(tests, key=lambda it: it.name.split(os.sep))
    if not os.path.lexists(path):
        _is_missing(path)
    if path.endswith(POSTS):
        raise NotFound(path, "it has what a job prints: name the file of the job")
    return [TestFile(path)]


def _files_below(folder: str) -> Iterator[str]:
    """The files of tests in a folder and in those below it, but for hidden ones."""
    for at, folders, files in os.walk(folder, onerror=_raise):
        folders[:] = [it for it in folders if not it.startswith(".")]
        for file in files:
            name = os.path.join(at, file)
            if not file.startswith(".") and _is_test(name) and not _is_special(name):
                yield name


def _is_test(name: str) -> bool:
    """Whether a file has the ending of a test, or none and its posts beside it."""
    if "." in os.path.basename(name):
        return name.endswith(_ENDINGS)
    return os.path.lexists(f"{name}{POSTS}")


def _is_special(name: str) -> bool:
    """Whether a name leads to a pipe or a device, which nobody may fill."""
    return os.path.exists(name) and not os.path.isfile(name)


def _raise(error: OSError) -> NoReturn:
    raise error


def _is_missing(path: str) -> NoReturn:
    """Raises NotFound, with the file or folder that may be meant."""
    folder, name = os.path.split(path)
    near = nearest(name, _names_in(folder or "."), _MOST_COMPARED)
    instead = f"; did you mean '{os.path.join(folder, near)}'?" if near else ""
    raise NotFound(path, f"there is no such file or folder{instead}")


def _names_in(folder: str) -> List[str]:
    try:
        return sorted(os.listdir(folder))
    except (OSError, ValueError):
        return []


def names_without_ending(tests: Sequence[TestFile]) -> Tuple[str, ...]:
    """The last parts of the names of tests, for a word that none of them has."""
    return tuple(os.path.splitext(os.path.basename(it.name))[0] for it in tests)
