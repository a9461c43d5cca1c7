"""The I/O supervisor as a library: sites with tasks and units, channel programs and their posts.

    with Site() as site:
        tape = site.tape(items=[b"\\xC1\\xC2", TAPE_MARK])
        dcb = tape.open(Method.INPUT)
        ...

docs/CLIENT.md, "From Python", is a tutorial. `python3 -m excp` is the command: it needs no library,
so a name of the library loads its module when it is first used.
"""

from importlib import import_module
from typing import TYPE_CHECKING

if TYPE_CHECKING:
    from .area import Area
    from .blocks import Ccw, Code, Csw, Extent, Flag, Iob, Op, Seek
    from .channels import Channel, ChannelRun, ChannelStatus
    from .errors import (
        BadExtent, BadImage, BadMedium, BadNumber, BadRequest, ExcpError, Full, InError,
        LibraryNotFound, NoDcb, NoImage, NoMemory, NoNumber, NoPost, NoSite, NothingThere, NotIdle,
        Status,
    )
    from .judging import LoggedEvent, Verdict, judge
    from .library import is_proved, message, version
    from .posts import Change, Post
    from .site import Site
    from .unit import Dcb, Unit
    from .values import (
        TAPE_MARK, Active, ActiveRequest, Answer, DcbPhase, DcbState, Device, Entry, EntryKind,
        Fault, Kind, Line, Method, Mode, Name, Place, Record, Served, ServedEnd, UnitState,
    )

# The version of this package. That of the library is `version()`.
__version__ = "1.1"

# The public names of each module.
_NAMES = {
    "area": "Area",
    "blocks": "Ccw Code Csw Extent Flag Iob Op Seek",
    "channels": "Channel ChannelRun ChannelStatus",
    "errors": "BadExtent BadImage BadMedium BadNumber BadRequest ExcpError Full InError "
    "LibraryNotFound NoDcb NoImage NoMemory NoNumber NoPost NoSite NothingThere NotIdle Status",
    "judging": "LoggedEvent Verdict judge",
    "library": "is_proved message version",
    "posts": "Change Post",
    "site": "Site",
    "unit": "Dcb Unit",
    "values": "TAPE_MARK Active ActiveRequest Answer DcbPhase DcbState Device Entry EntryKind "
    "Fault Kind Line Method Mode Name Place Record Served ServedEnd UnitState",
}

_MODULES = {name: module for module, names in _NAMES.items() for name in names.split()}

__all__ = [
    "TAPE_MARK", "Active", "ActiveRequest", "Answer", "Area", "BadExtent", "BadImage", "BadMedium",
    "BadNumber", "BadRequest", "Ccw", "Change", "Channel", "ChannelRun", "ChannelStatus", "Code",
    "Csw", "Dcb", "DcbPhase", "DcbState", "Device", "Entry", "EntryKind", "ExcpError", "Extent",
    "Fault", "Flag", "Full", "InError", "Iob", "Kind", "LibraryNotFound", "Line", "LoggedEvent",
    "Method", "Mode", "Name", "NoDcb", "NoImage", "NoMemory", "NoNumber", "NoPost", "NoSite",
    "NothingThere", "NotIdle", "Op", "Place", "Post", "Record", "Seek", "Served", "ServedEnd",
    "Site", "Status", "Unit", "UnitState", "Verdict", "is_proved", "judge", "message", "version",
]


def __getattr__(name: str) -> object:
    """A public name, from its module, which is imported now."""
    if name not in _MODULES:
        raise AttributeError(f"module {__name__!r} has no attribute {name!r}")
    value: object = getattr(import_module(f".{_MODULES[name]}", __name__), name)
    globals()[name] = value
    return value


def __dir__() -> "list[str]":
    return sorted({*globals(), *__all__})
