"""The posts of a run as text: a line of each, as `excp_job run` prints them, and their count."""

from __future__ import annotations

from typing import Iterator

from .look import Look
from .record import Members, Record, members
from .texts import shown


def post_line(post: Members) -> str:
    """The line of a post."""
    request = f"{post['task']} {post['unit']} {post['request']}"
    csw = f"{post['address']} {post['status']} {post['residual']}"
    return f"post {request} {post['code']} {csw} {post['sense']} {shown(post['shown'])}\n"


def count_line(count: int) -> str:
    """The line after all posts."""
    return f"end {count}\n"


def post_lines(record: Record, look: Look) -> Iterator[str]:
    """The lines of the posts with which a record begins; none of an empty one."""
    if record.what is None:
        return
    record.take()
    count = 0
    for line in record.all_of("post"):
        post = members(line)
        yield look.posted(post_line(post), post)
        count += 1
    yield count_line(count)
