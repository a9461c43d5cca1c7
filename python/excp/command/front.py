"""The command `excp` as it is typed: options of its own, a word, or a script to run."""

from __future__ import annotations

import sys
from functools import lru_cache
from pathlib import Path
from typing import List, Sequence, Tuple

from ..programs.building import NotBuilt, build
from ..programs.choice import Mode, choose
from ..programs.home import Home, home
from ..programs.telling import note, tell
from .help import page_of
from .main import end_of, main
from .streams import USAGE, Ended, of_file, write_output
from .words import WORDS

# The options that ask for a page of help.
_HELP = ("-h", "--help")

_NO_OPTION = (
    "{}: there is no such option, or no script is named; excp --help lists the options"
)


def front(argv: Sequence[str]) -> int:
    """Carries out a command line, the program's name left out. Returns the exit status. Prints why
    it fails, and never raises."""
    try:
        return end_of(lambda: _carried_out(home(), list(argv)))
    except NotBuilt as error:
        if error.text:
            note(error.text)
        return error.status


def _carried_out(here: Home, words: List[str]) -> int:
    mode, words = _mode_of(words)
    if mode is Mode.ANY and words[:1] and words[0] in _OWN:
        return _OWN[words[0]](here, words)
    if not words:
        tell(_page("excp"))
        return USAGE
    if words[0] in (*_HELP, "help"):
        return _print_page("excp" if len(words) == 1 else words[1])
    if words[0] == "run":
        return _run(here, mode, words[1:])
    if words[0] in WORDS:
        return _word(here, mode, words)
    # the script is the first word, or the last one after options
    return _script(here, mode, words, may_be_word=True)


def _mode_of(words: List[str]) -> Tuple[Mode, List[str]]:
    """What the first word asks for, and the words after it."""
    for mode in (Mode.PROVED, Mode.TRIED):
        if words[:1] == [mode.value]:
            return mode, words[1:]
    return Mode.ANY, words


def _build(here: Home, words: List[str]) -> int:
    if words[1:] not in ([], ["run"]):
        raise Ended("--build: no more words, or run", USAGE)
    build(here, "prove.py", "build", *words[1:])
    return 0


def _install(here: Home, words: List[str]) -> int:
    from ..programs.install import install

    takes_unproved = words[2:] == ["--unproved"]
    if len(words) != 2 + takes_unproved or words[1][:1] in ("", "-"):
        raise Ended("--install: name one folder to install in, as --install ~/.local", USAGE)
    try:
        install(here, Path(words[1]), takes_unproved)
    except OSError as error:
        raise of_file(*_not_installed(words[1], error)) from None
    return 0


def _not_installed(prefix: str, error: OSError) -> Tuple[str, str]:
    """The file that could not be installed, and the sentence for it."""
    from ..files.refusals import WHY_UNWRITTEN

    name = str(error.filename2 or error.filename or prefix)
    if isinstance(error, (FileExistsError, IsADirectoryError)):
        return name, "a file or a directory is in the way"
    return name, WHY_UNWRITTEN.get(error.errno or 0, "the file cannot be written")


def _version(here: Home, words: List[str]) -> int:
    from ..programs.version import versions

    write_output(f"{line}\n".encode() for line in versions(here))
    return 0


_OWN = {"--build": _build, "--install": _install, "--version": _version, "-V": _version}


def _page(word: str) -> str:
    page = page_of("excp" if word == "run" else word)
    if page is None:
        raise Ended(f"{word}: there is no such subcommand; excp --help lists them", USAGE)
    return page


def _print_page(word: str) -> int:
    write_output([_page(word).encode()])
    return 0


def _run(here: Home, mode: Mode, words: List[str]) -> int:
    if len(words) == 1 and words[0] in _HELP:
        return _print_page("excp")
    if not words and not sys.stdin.isatty():
        words = ["-"]
    if not words:
        tell(_page("excp"))
        return USAGE
    return _script(here, mode, words, may_be_word=False)


def _word(here: Home, mode: Mode, words: List[str]) -> int:
    if len(words) == 2 and words[1] in _HELP:
        return _print_page(words[0])
    # a word may ask for a program again, and its build is reported once
    return main(words, lru_cache(maxsize=None)(lambda program: choose(here, program, mode)))


def _script(here: Home, mode: Mode, words: List[str], may_be_word: bool) -> int:
    """Runs a script, which is the first word, or the last one after options."""
    from .run import Run, run_script

    is_last = _is_option(words[0])
    script, options = (words[-1], words[:-1]) if is_last else (words[0], words[1:])
    if is_last and options[-1:] == ["--"]:
        # the name of a file, however it begins
        options = options[:-1]
    elif _is_option(script):
        raise Ended(_NO_OPTION.format(script), USAGE)
    try:
        return run_script(Run(here, mode, options), script)
    except Ended as error:
        is_missing = isinstance(error.__cause__, (FileNotFoundError, NotADirectoryError))
        if not may_be_word or not is_missing:
            raise
        raise Ended(f"{error.text}{_no_word(script)}") from None


def _is_option(word: str) -> bool:
    return word[:1] == "-" != word


def _no_word(word: str) -> str:
    """What is added to the text on a file that is missing: it may be a word that is misspelt."""
    from ..script.suggestions import nearest

    near = nearest(word, list(WORDS))
    instead = f"did you mean '{near}'?" if near else "excp --help lists them"
    return f", and no such subcommand; {instead}"
