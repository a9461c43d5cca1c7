"""How a request ended, with its storage."""

from __future__ import annotations

import re
from dataclasses import dataclass, field
from typing import List, Mapping, NamedTuple, Optional

from .area import Area, piece_of
from .blocks import Address, Csw, address_of, code_text
from .device_status import SENSE_BITS, with_names
from .values import Name


class Change(NamedTuple):
    """Bytes of a storage that a request changed, from an address on."""

    address: int
    data: bytes


@dataclass(frozen=True)
class Post:
    """How a request ended, and its storage as its channel program left it, with the labels and the
    bytes of the area that was issued. `code` is a `Code`. As text it is the line of a run, without
    the bytes that a script shows."""

    name: Name
    dcb: int
    code: int
    csw: Csw
    sense: int
    base: int
    storage: bytes
    labels: Mapping[str, int] = field(default_factory=dict, compare=False)
    issued: Optional[bytes] = field(default=None, compare=False)

    def at(self, address: Address, length: int) -> bytes:
        """Bytes of the storage, at an address or a label."""
        return piece_of(self.storage, self.base, address_of(address, self.labels), length)

    def area(self) -> Area:
        """The storage as an area that can be issued again. Clear its ECB first, as a program under
        MVS does."""
        return Area(self.base, self.storage, self.labels)

    def changes(self) -> List[Change]:
        """What differs from the storage as issued, in order of addresses: what an emulator copies
        back into its memory. Raises ValueError if the post does not have the storage as issued."""
        if self.issued is None:
            raise ValueError(f"{self!r} does not have its storage as issued")
        one, other = (int.from_bytes(it, "big") for it in (self.issued, self.storage))
        unlike = (one ^ other).to_bytes(len(self.storage), "big")
        return [
            Change(self.base + it.start(), self.storage[it.start() : it.end()])
            for it in re.finditer(rb"[^\0]+", unlike)
        ]

    def __str__(self) -> str:
        return f"post {self.name} {self.code:02X} {self.csw} {self.sense:04X}"

    def __repr__(self) -> str:
        ended = f"{code_text(self.code)}, {self.csw!r}, sense {with_names(self.sense, SENSE_BITS)}"
        return f"<Post {self.name} {ended}, {len(self.storage)} bytes at {self.base:06X}>"
