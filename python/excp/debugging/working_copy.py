"""The working copy of an area that a request has: its storage at a step."""

from __future__ import annotations


class WorkingCopy:
    """The bytes of an area from its first address on, and those that it had at first."""

    def __init__(self, base: int, image: bytes) -> None:
        self.base, self.end = base, base + len(image)
        self._first, self._bytes = image, bytearray(image)

    def has(self, address: int, count: int) -> bool:
        """Whether all these bytes are in the area."""
        return self.base <= address and address + count <= self.end

    def bytes_at(self, address: int, count: int) -> bytes:
        """Bytes from an address on, which are in the area."""
        start = address - self.base
        return bytes(self._bytes[start : start + count])

    def first_at(self, address: int, count: int) -> bytes:
        """Those that were there before the request."""
        start = address - self.base
        return self._first[start : start + count]

    def put(self, address: int, data: bytes) -> bytes:
        """Puts bytes at an address. Returns those that were there."""
        before = self.bytes_at(address, len(data))
        start = address - self.base
        self._bytes[start : start + len(data)] = data
        return before
