"""Which known word a misspelt one may mean."""

from __future__ import annotations

from functools import lru_cache
from typing import Iterable, Optional

# The most characters of a word that is compared with known ones.
_MOST_COMPARED = 16


def nearest(
    word: str, known: Iterable[str], most_compared: int = _MOST_COMPARED
) -> Optional[str]:
    """The first known word with the fewest edits from a word: at most one edit, or one for three
    characters of the word. A word of too many characters is compared with none."""
    if len(word) > most_compared:
        return None
    found, most = None, max(len(word) // 3, 1)
    for candidate in known:
        if abs(len(candidate) - len(word)) <= most:
            edits = edits_between(word, candidate, most)
            if edits < most or (found is None and edits == most):
                found, most = candidate, edits
    return found


@lru_cache(maxsize=4096)
def edits_between(first: str, second: str, most: int) -> int:
    """How many characters to insert, drop, change or exchange with a neighbour (optimal string
    alignment); of more than `most`, any larger number."""
    before: list[int] = []
    row = list(range(len(second) + 1))
    for i, a in enumerate(first, 1):
        before, above, row = row, before, [i]
        for j, b in enumerate(second, 1):
            edits = min(row[j - 1] + 1, before[j] + 1, before[j - 1] + (a != b))
            if i > 1 and j > 1 and a == second[j - 2] and b == first[i - 2]:
                edits = min(edits, above[j - 2] + 1)
            row.append(edits)
        if min(row) > most and min(before) > most:
            break
    return row[-1]
