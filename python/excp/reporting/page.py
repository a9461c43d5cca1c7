"""A run as one HTML page: its title, its posts as text, its JSON, and the viewer that draws it.

The scripts of the viewer are one script, in the order below, without comments and indentation. The
page is ASCII but for its title and its JSON. Its content security policy allows its own style and
script by their hashes, and nothing else. It is drawn in the browser: no contract says what a page
shows, and tests compare it with its JSON.
"""

from __future__ import annotations

import base64
import hashlib
import html
import re
import unicodedata
from dataclasses import dataclass
from itertools import chain
from pathlib import Path
from typing import Callable, Iterable, Iterator, List, Mapping

from .record import Record
from .run_json import RunJson

_VIEWER = Path(__file__).resolve().parents[1] / "viewer"

STYLES = "page lanes programs panel media paper".split()
SCRIPTS = (
    "names dom model job waits layout compact signs legend density overview bars drawing lanes "
    "moving panel attempts steps places states programs pane media changes disk tape paper ends "
    "list units posts filter print page"
).split()

# A part of the page that every run has.
_PART = re.compile(r"\{([a-z-]+)\}")

# Comments of styles and scripts have lines of their own.
_COMMENT = re.compile(r"^[ \t]*/\*.*?\*/[ \t]*\n", re.M | re.S)


@dataclass(frozen=True)
class About:
    """What a page says beside the record of its run: its title, what is at its foot, and the JSON
    of the script and of the states of requests in pieces. All but the title are asked for after the
    run."""

    title: str
    foot: Callable[[], str]
    job: Callable[[], Iterable[str]]
    states: Callable[[], Iterable[str]]


def page_report(record: Record, about: About, most: int) -> Iterator[str]:
    """The page of a run in pieces, with at most `most` commands of each unit. Raises NotKept."""
    if record.what is None:
        return
    run = RunJson(record, about.title, most)
    # the posts and the steps come after the script, so that a browser draws the lanes before it
    # reads them
    parts: Mapping[str, Callable[[], Iterable[str]]] = {
        "title": lambda: [escaped(about.title)],
        "front": lambda: map(_without_tags, chain(run.front(), [run.further_r0()])),
        "posts": run.posts,
        "rest": lambda: map(_without_tags, run.back()),
        "job": lambda: map(_without_tags, about.job()),
        "states": lambda: map(_without_tags, about.states()),
        "foot": lambda: [escaped(about.foot())],
    }
    for number, piece in enumerate(_template()):
        if number % 2:
            yield from parts[piece]()
        else:
            yield piece


def escaped(text: str, keeps: str = "") -> str:
    """A text as that of an element, with a sign for each control character but those it keeps."""
    is_sign = (unicodedata.category(it) == "Cc" and it not in keeps for it in text)
    visible = ("\ufffd" if sign else it for it, sign in zip(text, is_sign))
    return html.escape("".join(visible), quote=False)


def _without_tags(text: str) -> str:
    """JSON in which nothing can end the element of a script (HTML, "Restrictions for contents of
    script elements"): it has `<` in texts alone."""
    return text.replace("<", "\\u003c")


def _template() -> List[str]:
    """The pieces of a page, and between them the names of the parts that a run puts in."""
    style = style_of(STYLES)
    script = _ascii(f'\n"use strict";\n{{\n{_stripped(_files(SCRIPTS, "js"))}\n}}\n')
    hashes = {"style-hash": hash_of(style), "script-hash": hash_of(script)}
    parts = {"style": style, "script": script, **hashes}
    pieces = re.split(r"\{\{([a-z]+)\}\}", _read("page.html"))
    pieces[::2] = (_PART.sub(lambda it: parts[it[1]], piece) for piece in pieces[::2])
    return pieces


def style_of(names: Iterable[str]) -> str:
    """The styles with these names, as text of an element."""
    return f"\n{_stripped(_files(names, 'css'))}\n"


def _files(names: Iterable[str], kind: str) -> str:
    return "\n".join(_read(f"{name}.{kind}") for name in names)


def _read(name: str) -> str:
    return (_VIEWER / name).read_text(encoding="utf-8")


def _stripped(text: str) -> str:
    """A text without its comments, indentation and empty lines."""
    lines = (line.strip() for line in _COMMENT.sub("", text).split("\n"))
    return "\n".join(line for line in lines if line and not line.startswith("//"))


def _ascii(script: str) -> str:
    """A script in ASCII: it has other characters in texts alone."""
    return re.sub(r"[^\x00-\x7f]", lambda it: f"\\u{ord(it[0]):04x}", script)


def hash_of(text: str) -> str:
    """What a content security policy says of the text of a style or a script."""
    digest = base64.b64encode(hashlib.sha256(text.encode("ascii")).digest())
    return f"sha256-{digest.decode()}"
