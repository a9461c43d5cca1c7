"""Outcomes as one HTML page: of each request that has several, each outcome beside the usual one,
step by step, with what differs marked. It has no script, and its content security policy allows its
own style alone."""

from __future__ import annotations

from dataclasses import dataclass, field
from difflib import SequenceMatcher
from typing import Dict, Iterator, List, Sequence, Tuple

from ..reporting.page import escaped, hash_of, style_of
from .job import Request

# What is said of steps that are too many.
_MANY = "too many steps to be printed"

# The code of a request that ended without error, beside which the others are put.
_USUAL = "7F"

STYLES = "page", "outcomes"

_POLICY = "default-src 'none'; base-uri 'none'; form-action 'none'"

_HEAD = """<!DOCTYPE html>
<html lang="en">
<head>
<meta charset="utf-8">
<meta name="viewport" content="width=device-width, initial-scale=1">
<meta http-equiv="Content-Security-Policy" content="{policy}; style-src '{hash}'">
<title>{title}: outcomes</title>
<style>{style}</style>
</head>
<body>
<header><h1>{title}</h1><p>{last}</p></header>
<main>
"""

_FOOT = """<section id="posts"><h2>As text</h2><pre tabindex="0">{text}</pre></section>
</main>
<footer class="dim">{title}: what <code>excp outcomes</code> printed. One file, no network.</footer>
</body>
</html>
"""


@dataclass(frozen=True)
class Pictured:
    """An outcome: its number among those of its request, its post, and the lines of its steps, or
    none if they are too many."""

    number: int
    post: str
    steps: Sequence[str]

    @property
    def code(self) -> str:
        """The completion code."""
        return self.post.split()[4]


@dataclass
class Pictures:
    """The outcomes that were told with steps, by their requests; and all that was told, as text."""

    outcomes: Dict[Request, List[Pictured]] = field(default_factory=dict)
    texts: List[str] = field(default_factory=list)

    def add(self, request: Request, outcome: Pictured) -> None:
        """Adds an outcome of a request."""
        self.outcomes.setdefault(request, []).append(outcome)


def page_of(pictures: Pictures, title: str, last: str) -> Iterator[str]:
    """The page of outcomes in pieces. `last` is the last line of the text."""
    style = style_of(STYLES)
    told = escaped(title)
    says = {"policy": _POLICY, "hash": hash_of(style), "style": style}
    yield _HEAD.format(title=told, last=escaped(last.strip()), **says)
    for request, outcomes in pictures.outcomes.items():
        yield from _section(request, outcomes)
    yield _FOOT.format(title=told, text=escaped("".join(pictures.texts), keeps="\n"))


def _section(request: Request, outcomes: Sequence[Pictured]) -> Iterator[str]:
    """A request: its usual outcome, and each other one beside it."""
    usual = next((it for it in outcomes if it.code == _USUAL), outcomes[0])
    which = f"Request {request.number} of task {request.task} to unit {request.unit}"
    yield f"<section>\n<h2>{which} <small>line {request.line}</small></h2>\n"
    for other in outcomes:
        if other is not usual:
            yield from _beside(usual, other)
    yield "</section>\n"


def _beside(usual: Pictured, other: Pictured) -> Iterator[str]:
    """Two outcomes side by side, with a mark where they part."""
    heads = "".join(f"<th>{_chip(it.code)} outcome {it.number}</th>" for it in (usual, other))
    yield f'<table class="beside">\n<thead><tr>{heads}</tr></thead>\n<tbody>\n'
    has_parted = False
    for is_equal, left, right in _aligned(usual.steps, other.steps):
        kind = "same" if is_equal else "differs" if has_parted else "differs parts"
        has_parted |= not is_equal
        yield f'<tr class="{kind}"><td>{escaped(left)}</td><td>{escaped(right)}</td></tr>\n'
    posts = usual.post.split(), other.post.split()
    cells = "".join(f"<td>{_marked(*it)}</td>" for it in (posts, posts[::-1]))
    yield f'<tr class="post">{cells}</tr>\n</tbody>\n</table>\n'


def _aligned(left: Sequence[str], right: Sequence[str]) -> Iterator[Tuple[bool, str, str]]:
    """The steps of two outcomes, line by line: whether they are equal, and both."""
    if not left or not right:
        yield False, "" if left else _MANY, "" if right else _MANY
        return
    matcher = SequenceMatcher(None, left, right, autojunk=False)
    for tag, first, end, from_, to in matcher.get_opcodes():
        for at in range(max(end - first, to - from_)):
            a = left[first + at] if first + at < end else ""
            b = right[from_ + at] if from_ + at < to else ""
            yield tag == "equal", a, b


def _marked(post: Sequence[str], other: Sequence[str]) -> str:
    """A post whose words are marked that another one has otherwise."""
    pairs = zip(post, [*other, *[""] * len(post)])
    return " ".join(word if word == its else f"<mark>{word}</mark>" for word, its in pairs)


def _chip(code: str) -> str:
    return f'<span class="chip c{code}">{code}</span>'
