"""The storage of a request, laid out piece by piece, with labels for addresses."""

from __future__ import annotations

import contextlib
from typing import Dict, Iterator, List, Mapping, Optional, SupportsIndex, Tuple, Union

from .blocks import Address, Ccw, Iob, Seek, address_of

# The most bytes that a request has.
MOST_BYTES = 8192

# The most labels and the most lines that the text of an area has, and the bytes of a line.
_SHOWN = 8
_LINES = 4
_LINE = 32


class Area:
    """The storage of a request, laid out piece by piece from `base` on, which is a multiple of 8.

    Each piece gets a label. A piece may name a label that comes later, as in

        area = Area(0x1000)
        area.iob(dcb=dcb, seek=Seek(cylinder=0, head=0))
        area.ecb()
        search = Ccw(Op.SIDE, "ID", Flag.CC, 5), Ccw(Op.TIC, "CP")
        area.program(*search, Ccw(Op.RD, "BUFFER", count=4))
        area.data("ID", bytes([0, 0, 0, 0, 1]))
        area.space("BUFFER", 4)

    `bytes(area)` is the storage, and `area["BUFFER"]` the address of a label.
    """

    def __init__(
        self, base: int = 0x1000, storage: bytes = b"", labels: Optional[Mapping[str, int]] = None
    ) -> None:
        """An area that begins with these bytes, in which these labels have addresses."""
        self.base = base
        self._storage = bytearray(storage)
        self._labels: Dict[str, int] = dict(labels or {})
        self._pieces: List[Tuple[int, Union[Ccw, Iob]]] = []

    def iob(
        self,
        label: str = "IOB",
        *,
        ecb: Address = "ECB",
        start: Address = "CP",
        dcb: SupportsIndex = 1,
        related: bool = False,
        seek: Seek = Seek(),
    ) -> int:
        """Lays out an IOB of a request that is unrelated, or related."""
        flags = Iob.COMMAND_CHAINING | (0 if related else Iob.UNRELATED)
        return self._lay(label, 4, Iob(ecb, start, dcb, seek, flags))

    def ecb(self, label: str = "ECB") -> int:
        """Lays out an ECB that was not posted."""
        return self.data(label, bytes(4), 4)

    def program(self, *ccws: Ccw, label: str = "CP") -> int:
        """Lays out a channel program."""
        if not ccws:
            raise ValueError("a channel program has at least one CCW")
        at = self._lay(label, 8, ccws[0])
        for ccw in ccws[1:]:
            self._lay("", 8, ccw)
        return at

    def data(self, label: str, content: bytes, boundary: int = 1) -> int:
        """Lays out these bytes, on a multiple of `boundary`."""
        at = self._begin(label, boundary)
        self._storage += content
        return at

    def space(self, label: str, length: int, boundary: int = 1) -> int:
        """Lays out `length` zeros."""
        return self.data(label, bytes(length), boundary)

    def store(self, at: Address, content: bytes) -> None:
        """Replaces bytes. All labels that pieces name have to be laid out."""
        start, storage = self._resolved(at) - self.base, bytearray(bytes(self))
        if not 0 <= start <= start + len(content) <= len(storage):
            raise ValueError(f"{len(content)} bytes at {at!r} are not in the area")
        storage[start : start + len(content)] = content
        self._storage = storage

    def at(self, at: Address, length: int) -> bytes:
        """Bytes of the storage."""
        return piece_of(bytes(self), self.base, self._resolved(at), length)

    @property
    def labels(self) -> Dict[str, int]:
        """The addresses of the labels, as they are now."""
        return dict(self._labels)

    def __getitem__(self, label: str) -> int:
        """The address of a label. Raises ValueError if it is not laid out."""
        return self._resolved(label)

    def __repr__(self) -> str:
        """The labels and the first bytes. A piece whose labels are not laid out shows as zeros."""
        labels = [f", {name} {at:06X}" for name, at in self._labels.items()]
        more = ", .." if len(labels) > _SHOWN else ""
        first = f"<Area of {len(self)} bytes at {self.base:06X}{''.join(labels[:_SHOWN])}{more}"
        return "\n".join([first, *_dump(self._image(), self.base)]) + ">"

    def __len__(self) -> int:
        return len(self._storage)

    def __bytes__(self) -> bytes:
        for place, piece in self._pieces:
            image = piece.to_bytes(self._labels)
            self._storage[place : place + len(image)] = image
        # labels keep their addresses, so what is laid out stays
        self._pieces = []
        return bytes(self._storage)

    def _image(self) -> bytes:
        """The storage, without pieces that cannot be laid out. Changes nothing."""
        storage = bytearray(self._storage)
        for place, piece in self._pieces:
            with contextlib.suppress(ValueError):
                image = piece.to_bytes(self._labels)
                storage[place : place + len(image)] = image
        return bytes(storage)

    def _begin(self, label: str, boundary: int) -> int:
        at = self.base + len(self._storage)
        gap = -at % boundary
        if label in self._labels:
            raise ValueError(f"the label {label!r} is there twice")
        if label:
            self._labels[label] = at + gap
        self._storage += bytes(gap)
        return at + gap

    def _lay(self, label: str, boundary: int, piece: Union[Ccw, Iob]) -> int:
        at = self._begin(label, boundary)
        self._pieces.append((at - self.base, piece))
        self._storage += bytes(8 if isinstance(piece, Ccw) else 40)
        return at

    def _resolved(self, at: Address) -> int:
        return address_of(at, self._labels)


def piece_of(storage: bytes, base: int, at: int, length: int) -> bytes:
    """Bytes of a storage that lies at `base`."""
    if not base <= at <= at + length <= base + len(storage):
        whole = f"the {len(storage)} bytes at {base:06X}"
        raise ValueError(f"{length} bytes at {at:06X} are not in {whole}")
    return storage[at - base : at - base + length]


def _dump(storage: bytes, base: int) -> Iterator[str]:
    """The first bytes of a storage that lies at `base`, in words of 4, with their addresses."""
    for place in range(0, len(storage), _LINE)[:_LINES]:
        yield f"  {base + place:06X} {storage[place : place + _LINE].hex(' ', -4).upper()}"
    if len(storage) > _LINE * _LINES:
        yield f"  .. {len(storage) - _LINE * _LINES} bytes more"
