"""The results of tests as JUnit XML, in the elements and attributes that Jenkins, GitLab and GitHub
read."""

from __future__ import annotations

import os
import re
from datetime import datetime
from typing import Match, Sequence
from xml.etree import ElementTree

from .results import Result, Verdict

_SUITE = "excp test"

# What XML 1.0 has no form for: most control characters, and halves of pairs.
_ILLEGAL = re.compile("[^\t\n\r\x20-\ud7ff\ue000-\ufffd\U00010000-\U0010ffff]")

_NAMES = {Verdict.FAILED: "failure", Verdict.NO_EXPECTATION: "skipped"}


def junit(results: Sequence[Result], seconds: float, begun: datetime) -> bytes:
    """The document with the results of all tests, and the seconds that they took."""
    counts = {
        "name": _SUITE,
        "tests": str(len(results)),
        "failures": str(sum(it.verdict is Verdict.FAILED for it in results)),
        "errors": "0",
        "time": _time(seconds),
    }
    top = ElementTree.Element("testsuites", counts)
    skipped = str(sum(it.verdict is Verdict.NO_EXPECTATION for it in results))
    at = begun.strftime("%Y-%m-%dT%H:%M:%S")
    of_suite = {**counts, "skipped": skipped, "timestamp": at}
    suite = ElementTree.SubElement(top, "testsuite", of_suite)
    for result in results:
        _add(suite, result)
    text: bytes = ElementTree.tostring(top, encoding="utf-8", xml_declaration=True)
    return text + b"\n"


def _add(suite: ElementTree.Element, result: Result) -> None:
    """Adds a test: its folder as the class, and its file as the name."""
    folder, name = os.path.split(result.name)
    names = {"classname": _legal(folder or "."), "name": _legal(name)}
    case = ElementTree.SubElement(suite, "testcase", {**names, "time": _time(result.seconds)})
    kind = _NAMES.get(result.verdict)
    if kind is not None:
        said = ElementTree.SubElement(case, kind, {"message": _legal(result.why)})
        said.text = _legal("\n".join(result.details)) or None


def _legal(text: str) -> str:
    """A text without what XML has no form for."""
    return _ILLEGAL.sub(_escaped, text)


def _escaped(found: Match[str]) -> str:
    """A character in hexadecimal, or a byte that is none, which is half of a pair in text."""
    number = ord(found[0])
    return f"\\x{number - 0xdc00 if 0xdc80 <= number <= 0xdcff else number:02x}"


def _time(seconds: float) -> str:
    return f"{seconds:.3f}"
