"""Fixtures for pytest, which finds them once the package is installed:

    def test_record_is_read(site, run):
        disk = site.disk(cylinders=1, heads=1, track_bytes=64, records=[...])
        dcb = disk.open(extents=[...])
        assert run(dcb, area).code == Code.ENDED
"""

from __future__ import annotations

from importlib import import_module
from typing import Any, Callable, Iterator

from .area import Area
from .blocks import Address
from .posts import Post
from .site import Site
from .unit import Dcb

# What carries an area out: the fixture `run`.
Run = Callable[..., Post]

# pytest may be missing where types are checked
_pytest: Any = import_module("pytest")


def opened_site() -> Iterator[Site]:
    """A site with one task, which is freed after the test."""
    with Site() as site:
        yield site


def runner(site: Site) -> Run:
    """A call `run(dcb, area, iob="IOB")`. It issues the area for task 0, serves the unit of the DCB
    and returns the post of this request. It collects those before it, and drops them."""

    def run(dcb: Dcb, area: Area, iob: Address = "IOB") -> Post:
        name = site.issue(0, dcb, area, iob)
        while True:
            dcb.unit.serve()
            post = site.post(0)
            if post.name == name:
                return post

    return run


site: Any = _pytest.fixture(name="site")(opened_site)
run: Any = _pytest.fixture(name="run")(runner)
