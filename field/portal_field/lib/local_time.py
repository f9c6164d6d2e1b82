"""Local times: the venue's. A process of one venue takes that venue's zone for all; in a process of several
each request takes the zone of its own."""

from __future__ import annotations

import contextlib
import contextvars
import datetime
import functools
import io
import os
import time
import zoneinfo
from collections.abc import Iterator

ZONE: contextvars.ContextVar[datetime.tzinfo | None] = contextvars.ContextVar("ZONE", default=None)
# A time zone's file (RFC 8536 section 3) up to its footer: one type of local time, no change of it
EMPTY_BLOCK = b"TZif2" + bytes(15) + b"".join(count.to_bytes(4, "big") for count in (0, 0, 0, 0, 1, 4))
EMPTY_BLOCK += bytes(6) + b"UTC\0"


def use_zone(rule: str) -> None:
    """Makes local times those of the desk's zone from now on, wherever the machine thinks it is."""
    os.environ["TZ"] = rule
    time.tzset()


@functools.lru_cache(256)
def zone_of(rule: str) -> datetime.tzinfo:
    """The time zone of a POSIX rule, such as CET-1CEST,M3.5.0,M10.5.0/3. ValueError: it is no rule."""
    file = io.BytesIO(EMPTY_BLOCK + EMPTY_BLOCK + f"\n{rule}\n".encode())
    return zoneinfo.ZoneInfo.from_file(file, key=rule)


@contextlib.contextmanager
def in_zone(zone: datetime.tzinfo) -> Iterator[None]:
    """Makes local times those of this zone inside, in this thread alone."""
    token = ZONE.set(zone)
    try:
        yield
    finally:
        ZONE.reset(token)


def local(moment: float | None = None) -> datetime.datetime:
    """The local time of a moment (seconds since 1970), or of now."""
    return datetime.datetime.fromtimestamp(time.time() if moment is None else moment, ZONE.get())


def today() -> datetime.date:
    """The local day."""
    return local().date()


def begin_of(day: datetime.date) -> int:
    """The first moment of a local day, in seconds since 1970."""
    begin = datetime.datetime(day.year, day.month, day.day, tzinfo=ZONE.get())
    return int(begin.timestamp())


def clock(moment: float) -> str:
    """The text of a local time, to the minute."""
    return f"{local(moment):%Y-%m-%d %H:%M}"
