"""Why a file is not opened to be read: the sentences for it."""

from __future__ import annotations


def why_unopened(error: Exception) -> str:
    """The sentence for a file that cannot be opened to be read."""
    if isinstance(error, IsADirectoryError):
        return "it is a directory"
    if isinstance(error, (FileNotFoundError, NotADirectoryError)):
        return "there is no such file"
    if isinstance(error, PermissionError):
        return "this user has no permission to read it"
    return "the file cannot be opened"
