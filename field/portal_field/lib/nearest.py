"""Which word somebody may have meant who mistyped one."""

from __future__ import annotations

import difflib
from collections.abc import Iterable


def with_nearest(word: str, words: Iterable[str]) -> str:
    """A word, and which of these it may be, where one is like it."""
    found = difflib.get_close_matches(word, list(words), 1)
    return f"{word} (did you mean {found[0]}?)" if found else word


def unknown(given: Iterable[str], words: Iterable[str]) -> str:
    """What is said of names that are none of these words; nothing where there is none."""
    known = list(words)
    strange = [with_nearest(word, known) for word in given if word not in known]
    return f"unknown: {', '.join(strange)}" if strange else ""
