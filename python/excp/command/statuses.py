"""The exit statuses of the command, in words. docs/MANUAL.md has them, by `tools/reference.py`."""

from __future__ import annotations

from typing import Mapping

from ..outcomes.summary import Verdict
from ..programs.building import NO_PROGRAM
from .main import INTERRUPTED
from .streams import OUT_OF_MEMORY, REJECTED, USAGE

STATUSES: Mapping[int, str] = {
    0: "done; each request of a run has its post, whatever its code",
    REJECTED: "a fault of the script or of a file, a test or an expectation that failed, output "
    "that was not written",
    USAGE: "a fault of the command line, or a path of `test` without a test",
    OUT_OF_MEMORY: "out of memory or threads, or an error of this program",
    NO_PROGRAM: "no program could be built, or none is proved",
    int(Verdict.SEVERAL): "of `outcomes`: a request has more than one outcome, or one that "
    "`--allow` lacks; else the kit cannot build an unproved program",
    int(Verdict.NOT_ALL): "of `outcomes`: not all was searched; else the build of an unproved "
    "program was killed",
    INTERRUPTED: "ended by Ctrl-C",
}
