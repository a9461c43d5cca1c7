"""A site with its tasks and units, their requests and posts (docs/CLIENT.md, "From Python")."""

from __future__ import annotations

import ctypes
from typing import Any, Dict, Iterable, List, Optional, Tuple, Union

from . import library
from .area import MOST_BYTES, Area
from .blocks import Address, Csw, address_of, code_of
from .calls import Calls
from .errors import NoPost, Status
from .posts import Post
from .unit import Dcb, Unit
from .values import Answer, Fault, Mode, Name, Record, TapeMark

# How many requests may be in flight to a unit and held by it, and how many posts may be on their
# way to a task, unless said otherwise; and the most of them.
ROOM = 256
_MOST_ROOM = 2**32 - 1


class Site:
    """A site of the supervisor, with `tasks` tasks, numbered from 0. Use it as a context manager,
    or call `close`.

    Its calls may come from several threads: a lock lets one in at a time. Calls on different sites
    run side by side."""

    def __init__(self, tasks: int = 1, post_room: int = ROOM) -> None:
        """`post_room` is how many posts may be on their way back to a task."""
        self.tasks = tasks
        self.units: List[Unit] = []
        self.calls = Calls(tasks, post_room)
        # of each request that was not collected, the labels of its area, and its bytes
        self._areas: Dict[Name, Tuple[Dict[str, int], Optional[bytes]]] = {}
        # what the storage of a post is copied to
        self._storage = ctypes.create_string_buffer(MOST_BYTES)

    def __enter__(self) -> Site:
        return self

    def __exit__(self, *_: Any) -> None:
        self.close()

    def close(self) -> None:
        """Frees the site. Later calls raise `NoSite`."""
        self.calls.free()

    # --- units

    def disk(
        self,
        *,
        cylinders: int,
        heads: int,
        track_bytes: int,
        records: Iterable[Record] = (),
        faults: Iterable[Fault] = (),
        in_flight: int = ROOM,
        held: int = ROOM,
    ) -> Unit:
        """Adds a disk with these records. `in_flight` is how many requests may be in flight to the
        unit, and `held` how many it holds at a time."""
        size = cylinders, heads, track_bytes
        return self._mount("mount_disk", size, records, faults, (in_flight, held))

    def tape(
        self,
        *,
        items: Iterable[Union[bytes, TapeMark]] = (),
        length: Optional[int] = None,
        faults: Iterable[Fault] = (),
        in_flight: int = ROOM,
        held: int = ROOM,
    ) -> Unit:
        """Adds a tape of `length` bytes with these blocks and tape marks. Without a length it has
        room for these alone."""
        items = list(items)
        if length is None:
            length = max(4, sum(4 if isinstance(it, TapeMark) else 4 + len(it) for it in items))
        return self._mount("mount_tape", (length,), items, faults, (in_flight, held))

    def printer(
        self,
        *,
        lines: int,
        pages: int,
        faults: Iterable[Fault] = (),
        in_flight: int = ROOM,
        held: int = ROOM,
    ) -> Unit:
        """Adds a printer for `lines` lines, on paper of `pages` pages."""
        return self._mount("mount_printer", (lines, pages), (), faults, (in_flight, held))

    def disk_from(
        self,
        image: bytes,
        *,
        faults: Iterable[Fault] = (),
        in_flight: int = ROOM,
        held: int = ROOM,
    ) -> Unit:
        """Adds a disk with the volume of a CKD_P370 image (docs/FORMATS.md). Raises `BadImage`."""
        return self._mount("mount_ckd", (image,), (), faults, (in_flight, held))

    def tape_from(
        self,
        image: bytes,
        *,
        length: Optional[int] = None,
        faults: Iterable[Fault] = (),
        in_flight: int = ROOM,
        held: int = ROOM,
    ) -> Unit:
        """Adds a tape of `length` bytes with the items of an AWSTAPE image. Without a length it has
        as many bytes as the image. Raises `BadImage`."""
        values = image, len(image) if length is None else length
        return self._mount("mount_aws", values, (), faults, (in_flight, held))

    def _mount(
        self,
        name: str,
        values: Tuple[Any, ...],
        items: Iterable[Any],
        faults: Iterable[Fault],
        room: Tuple[int, int],
    ) -> Unit:
        unit, calls = ctypes.c_uint16(), self.calls
        rooms = library.Room(*(library.number(it, _MOST_ROOM) for it in room))
        with calls.lock:
            try:
                for it in items:
                    self._put(it)
                for fault in faults:
                    status = fault.unit_status, fault.channel_status, fault.sense
                    calls.call("put_fault", fault.command, *status)
                calls.call_with_reason(name, *values, rooms, unit)
            except BaseException:
                calls.call("clear_medium")
                raise
            self.units.append(Unit(self, unit.value))
            return self.units[-1]

    def _put(self, item: Union[Record, bytes, TapeMark]) -> None:
        if isinstance(item, Record):
            place = item.cylinder, item.head, item.number
            self.calls.call("put_record", *place, item.key, item.data)
        elif isinstance(item, TapeMark):
            self.calls.call("put_tape_mark")
        else:
            self.calls.call("put_block", item)

    # --- requests and posts

    def issue(self, task: int, dcb: Dcb, area: Area, iob: Address = "IOB") -> Name:
        """Issues a request on a copy of the storage of an area, with the IOB at this address or
        label. The answer is its name. Raises ValueError for a DCB of another site, and for a label
        that the area does not have."""
        unit = dcb.unit
        if unit.site is not self:
            raise ValueError(f"{dcb!r} is one of another site")
        labels, found = area.labels, ctypes.c_uint64()
        at, storage = address_of(iob, labels), (area.base, bytes(area))
        with self.calls.lock:
            self.calls.call_with_reason("issue", task, unit.number, dcb.number, at, *storage, found)
            name = Name(task, unit.number, found.value)
            self._areas[name] = labels, storage[1]
        return name

    def next_post(self, task: int) -> Optional[Post]:
        """Collects the next post of a task. `None`: none is there that it has not collected."""
        post, calls = library.Post(), self.calls
        with calls.lock:
            if not calls.finds("next_post", Status.NO_POST, task, post, self._storage):
                return None
            storage = ctypes.string_at(self._storage, post.length)
            name = Name(post.task, post.unit, post.number)
            labels, issued = self._areas.pop(name, ({}, None))
        return Post(
            name=name,
            dcb=post.dcb,
            code=code_of(post.code),
            csw=Csw(post.address, post.unit_status, post.channel_status, post.residual),
            sense=post.sense,
            base=post.base,
            storage=storage,
            labels=labels,
            issued=issued,
        )

    def post(self, task: int) -> Post:
        """Collects the next post of a task. Raises `NoPost` if none is there that it has not
        collected."""
        found = self.next_post(task)
        if found is None:
            raise NoPost(Status.NO_POST, library.message(Status.NO_POST))
        return found

    def posts(self, task: int) -> List[Post]:
        """Collects all posts of a task that were delivered."""
        return list(iter(lambda: self.next_post(task), None))

    def serve(self) -> None:
        """Serves all units until nothing is left to do, or tasks have to collect posts first."""
        for unit in self.units:
            unit.serve()

    def purge_task(self, task: int, mode: Mode = Mode.QUIESCE) -> List[Answer]:
        """Purges the requests of a task at every unit, in order of units."""
        return [unit.purge_task(task, mode) for unit in self.units]
