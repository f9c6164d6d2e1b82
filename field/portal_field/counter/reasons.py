"""Pages that ask for a reason, and the rule of what a clerk types there: the journal keeps it, so it has no
code and no password."""

from __future__ import annotations

import re
from collections.abc import Iterator
from dataclasses import dataclass, field

from portal_field.counter.clerk import Counter
from portal_field.counter.scans import kind_of
from portal_field.lib.desk_client import Refused
from portal_field.lib.typed_codes import WHOLE

MOST_SIGNS = 120
LONGEST_PLAIN = 16      # signs of a code without breaks
WIFI_TEXT = re.compile(r"wifi:[a-z]:", re.I)


@dataclass(frozen=True)
class Question:
    """A page that asks for a reason. `button`: empty where nothing can be done, for the `reasons`."""
    heading: str
    facts: list[tuple[str, str]]
    button: str = ""
    hidden: dict[str, str] = field(default_factory=dict)
    reasons: tuple[str, ...] = ()
    action: str = "replace"


def likely_codes(text: str) -> Iterator[str]:
    """What may be a code in a text, however it is typed: whole words too, so the server is asked of each."""
    parts = re.findall("[0-9A-Za-z]+", text)
    for first in range(len(parts)):
        plain = ""
        for part in parts[first:]:
            plain += part.upper()
            if WHOLE.fullmatch(plain):
                yield plain
            if len(plain) >= LONGEST_PLAIN:
                break


def is_code(counter: Counter, plain: str) -> bool:
    """Whether the signs of a code fit together, whether or not it was issued here."""
    try:
        counter.voucher_of(plain)
    except Refused as fault:
        return fault.word != "bad_code"
    return True


def fault_of(counter: Counter, text: str) -> tuple[str, ...]:
    """Why a text is no reason, as a clerk reads it; empty where it is one."""
    say = counter.say
    if not text:
        return (say("Type the reason. Nothing was done."),)
    if len(text) > MOST_SIGNS or not text.isprintable():
        return (say("A reason is one line of %(count)s signs at most. Nothing was done.", count=MOST_SIGNS),)
    if has_scan(counter, text):
        return say("This was scanned, and is no reason. Nothing was done."), say("Type the reason.")
    return ()


def has_scan(counter: Counter, text: str) -> bool:
    """Whether a code, or the Wi-Fi's picture, was scanned into a text. It is shown nowhere then."""
    return bool(kind_of(text) or WIFI_TEXT.search(text)) or any(
        is_code(counter, plain) for plain in likely_codes(text))
