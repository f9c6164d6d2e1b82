"""What a session has left, as its page says it: the amounts, when it ends, whether that is soon, and when the
page looks again."""

from __future__ import annotations

import time
from dataclasses import dataclass
from typing import Any

from portal_field.lib.languages import Language

SOON = 300              # seconds, below which the end is near
LITTLE = 20             # so is it below one part of so many of the data
DAY, HOUR, MINUTE = 86_400, 3_600, 60
LEAST_WAIT = 30         # seconds until a page renews itself, at least
DATA_WAIT = 60          # and where the data is limited: nobody knows when it changes


@dataclass(frozen=True)
class Amount:
    """One limit of a session: its name, what is left of it, and until when."""
    name: str
    left: str
    until: str = ""


@dataclass(frozen=True)
class Left:
    """What is left. `soon`: that the end is near, or nothing; `extends`: whether another code adds to it;
    `next_code`: that it does, or from when it can be typed; `wait`: seconds until the page renews itself."""
    amounts: tuple[Amount, ...]
    soon: str
    extends: bool
    next_code: str
    wait: int


def change_of(seconds: int) -> int:
    """Seconds until the words of a span of time change (`Language.span`)."""
    unit = HOUR if seconds >= DAY else MINUTE if seconds >= MINUTE else 1
    return seconds % unit + 1


def left_of(answer: dict[str, Any], used: int, language: Language) -> Left:
    """What the page says of the server's answer about a device that is online, and has used so many bytes."""
    say, amounts, waits, soon = language.say, list[Amount](), list[int](), ""
    seconds, count = answer.get("seconds-remaining"), answer.get("bytes-remaining")
    end = "" if seconds is None else language.until(time.time() + seconds)
    if seconds is not None:
        amounts.append(Amount(say("Time left"), language.span(seconds), say("until %(time)s", time=end)))
        waits.append(change_of(seconds))
        soon = say("Your time ends at %(time)s.", time=end) if seconds < SOON else ""
    if count is not None:
        amounts.append(Amount(say("Data left"), language.volume(count)))
        waits.append(DATA_WAIT)
        soon = soon or (say("Little of your data is left.") if count * LITTLE < count + used else "")
    wait = max(LEAST_WAIT, min(waits, default=DAY))
    return Left(tuple(amounts), soon, answer["can-extend-session"], next_code(answer, end, language), wait)


def next_code(answer: dict[str, Any], end: str, language: Language) -> str:
    """Whether another code adds to what is left, or from when it can be typed."""
    if answer["can-extend-session"]:
        return language.say("Another code adds to what is left.")
    if end:
        return language.say("Another code can be used from %(time)s on.", time=end)
    return language.say("Another code can be used when this one has ended.")
