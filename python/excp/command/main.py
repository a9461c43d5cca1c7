"""The words: reads the options of one, and carries it out."""

from __future__ import annotations

from pathlib import Path
from typing import Callable, Sequence

from ..files.signals import EndAsked
from ..programs.telling import note
from .streams import OUT_OF_MEMORY, REJECTED, Ended, ReaderGone, Rejected
from .words import WORDS

# The exit status after Ctrl-C, as shells have it: 128 and the number of SIGINT.
INTERRUPTED = 130


def main(argv: Sequence[str], program_of: Callable[[str], Path]) -> int:
    """Carries out a word of WORDS, with its options. `program_of` gives the build of a program that
    runs, and may raise NotBuilt. Returns the exit status. Prints why it fails."""
    return end_of(lambda: _carried_out(argv, program_of))


def end_of(work: Callable[[], int]) -> int:
    """The exit status of some work. Prints why it ends early, if it does."""
    try:
        return work()
    except Ended as ended:
        note(ended.text)
        return ended.status
    except Rejected:
        return REJECTED
    except SystemExit:
        # after the page of help
        return 0
    except ReaderGone:
        return 0
    except (KeyboardInterrupt, EndAsked):
        return INTERRUPTED
    except MemoryError:
        note("out of memory")
        return OUT_OF_MEMORY


def _carried_out(argv: Sequence[str], program_of: Callable[[str], Path]) -> int:
    # a run of a script has no use for it
    from .parser import WordParser

    parser = WordParser(argv[0])
    word = WORDS[argv[0]].load()
    word.add_arguments(parser)
    parser.set_defaults(usage_error=parser.error, program_of=program_of)
    return word.run(parser.read(argv[1:]))
