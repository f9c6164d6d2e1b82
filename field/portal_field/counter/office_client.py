"""Asks portal-office@.service what the view of all venues has."""

from __future__ import annotations

import datetime
from dataclasses import dataclass
from typing import Any

from portal_field.counter.parts_client import ask


@dataclass(frozen=True)
class Venue:
    """A venue of the view."""
    name: str
    house: str
    currency: str
    machine: str
    is_open: bool       # it is not retired
    is_silent: bool


@dataclass(frozen=True)
class Takings:
    """The takings of a venue on a day, in hundredths. `from_copy`: its server was silent."""
    venue: str
    house: str
    currency: str
    day: datetime.date
    sold: int
    sales: int
    refunded: int
    refunds: int
    net: int
    from_copy: bool


@dataclass(frozen=True)
class Week:
    """What the view has of two weeks, and what is wrong now. Moments are seconds since 1970. `silent`: venue,
    machine, when it answered last or nothing, and why. `certificates`: machine and end. `changed`: venue,
    day, when the collector found that, net of before and of now. `older`: venue, when the collector found
    that, and the last entries of before and of then."""
    venues: list[Venue]
    takings: list[Takings]
    silent: list[tuple[str, str, int | None, str]]
    certificates: list[tuple[str, int]]
    changed: list[tuple[str, datetime.date, int, int, int]]
    older: list[tuple[str, int, int, int]]


def takings_in(answer: dict[str, Any]) -> list[Takings]:
    """The takings of an answer."""
    return [Takings(venue, house, currency, datetime.date.fromisoformat(day), *sums)
            for venue, house, currency, day, *sums in answer["takings"]]


def week(path: str, monday: datetime.date) -> Week:
    """The week from a Monday on, and the one before. NoPart: it cannot be read."""
    answer = ask(path, {"ask": "week", "monday": str(monday)})
    return Week([Venue(*row) for row in answer["venues"]], takings_in(answer),
                [(venue, machine, seen, why) for venue, machine, seen, why in answer["silent"]],
                [(machine, ends) for machine, ends in answer["certificates"]],
                [(venue, datetime.date.fromisoformat(day), seen, was, net)
                 for venue, day, seen, was, net in answer["changed"]],
                [(venue, seen, was, as_of) for venue, seen, was, as_of in answer["older"]])


def takings(path: str, first: datetime.date, last: datetime.date) -> list[Takings]:
    """The takings of each venue and day. NoPart: they cannot be read."""
    return takings_in(ask(path, {"ask": "takings", "from": str(first), "to": str(last)}))
