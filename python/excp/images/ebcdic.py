"""Labels in EBCDIC as text: code page 037."""

from __future__ import annotations

# The required space, the soft hyphen, and the control characters: none of them can be seen.
_UNSEEN = {0x41, 0xCA, 0xFF, *range(0x40)}

# The characters of code page 037 are those of Latin-1.
_SEEN = "".join(
    "." if byte in _UNSEEN else bytes([byte]).decode("cp037") for byte in range(256)
).encode("latin-1")

BLANK = b"\x40"


def seen(data: bytes) -> str:
    """EBCDIC as text, with a dot for each byte that cannot be seen."""
    return data.translate(_SEEN).decode("latin-1")


def without_blanks(data: bytes) -> str:
    """As `seen`, without the blanks at its end."""
    return seen(data.rstrip(BLANK))
