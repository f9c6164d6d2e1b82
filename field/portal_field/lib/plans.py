"""The venue's two files of plans: plans.toml, which goes to the server, and offers.toml, which does not.

offers.toml says by a plan's id whether the counter offers it: a table [hour] with `offered = false`. A plan
that is not in it is offered. A line `goodwill = "ID"` above the tables names the plan of price 0 of which the
vouchers are that replace one that could not be used. A line `tax = 19` in a table is the rate in percent of
the tax that is in the plan's price; above the tables it is that of all plans that name none. In a table
`name` is what people read in place of the id, `names` the same by language, `place` its place among the
plans, and `replaces` the id of the plan that had the price or the terms of before. """

from __future__ import annotations

import re
import tomllib
from dataclasses import dataclass
from typing import Any

LIMITS = {"price": (0, 100_000_000), "uses": (1, 100_000), "seconds": (0, 31_622_400), "bytes": (0, 10**15),
          "shelf_days": (1, 3_660)}
KEYS = {"id", *LIMITS, "extend"}
ID = re.compile(r"[a-z0-9-]{1,32}")
MOST = 500
GOODWILL, TAX = "goodwill", "tax"
OFFER_KEYS = {"offered", TAX, "name", "names", "place", "replaces"}     # of a table of offers.toml
MOST_NAME, MOST_PLACE = 60, 999
LANGUAGE = re.compile(r"[a-z]{2,3}(-[A-Za-z]{2,8})?")
NEW_ID = "a loaded plan never changes: give it a new id"
RESTART = "`systemctl restart portal-counter`"
Plan = dict[str, Any]
Plans = dict[str, Plan]     # by id


class BadFile(Exception):
    """What is wrong with a file, in words."""


@dataclass(frozen=True)
class Difference:
    """A key of a plan that the database has with another value than the file."""
    plan: str
    key: str
    in_file: Any
    in_database: Any

    def __str__(self) -> str:
        return (f"plan {self.plan!r}: {self.key} = {toml_value(self.in_file)} in the file, and loaded with "
                f"{toml_value(self.in_database)}")


def advice(word: str) -> str:
    """What to do about a plans file that the server refused with this word."""
    what = NEW_ID if word == "plan_differs" else "correct the file"
    return f"{what}, then {RESTART}"


def toml_value(value: Any) -> str:
    """A value of TOML as a plans file writes it."""
    return str(value).lower() if isinstance(value, bool) else repr(value)


def parse(data: bytes) -> dict[str, Any]:
    """The tables of a plans file. BadFile: it is no TOML."""
    try:
        return tomllib.loads(data.decode())
    except UnicodeDecodeError as fault:
        raise BadFile("it is not UTF-8") from fault
    except tomllib.TOMLDecodeError as fault:
        raise BadFile(f"it is not TOML: {fault}") from fault


def plans_in(data: bytes) -> Plans:
    """The plans of a file that the server accepted; of another file those that can be read."""
    try:
        tables = parse(data).get("plan")
    except BadFile:
        return {}
    rows = tables if isinstance(tables, list) else []
    return {row["id"]: row for row in rows if isinstance(row, dict) and isinstance(row.get("id"), str)}


def check_plans(data: bytes) -> None:
    """BadFile: the first fault for which the server refuses a plans file as `bad_plans`."""
    values, ids = parse(data), set()
    if values.keys() - {"plan"}:
        raise BadFile(f"unknown: {', '.join(sorted(values.keys() - {'plan'}))}")
    rows: Any = values.get("plan")
    is_list = isinstance(rows, list) and all(isinstance(row, dict) for row in rows)
    if not (is_list and 1 <= len(rows) <= MOST):
        raise BadFile(f"it has 1 to {MOST} tables [[plan]], and no other")
    for number, row in enumerate(rows, 1):
        fault = fault_of(row) or ("this id is there twice" if row["id"] in ids else "")
        if fault:
            raise BadFile(f"plan {row.get('id', number)!r}: {fault}")
        ids.add(row["id"])


def fault_of(row: Plan) -> str:
    """What is wrong with one plan, or nothing."""
    for what, keys in (("missing", KEYS - row.keys()), ("unknown", row.keys() - KEYS)):
        if keys:
            return f"{what}: {', '.join(sorted(keys))}"
    if not (isinstance(row["id"], str) and ID.fullmatch(row["id"])):
        return "id: 1 to 32 lower-case letters, digits and hyphens"
    for key, (least, most) in LIMITS.items():
        if type(row[key]) is not int or not least <= row[key] <= most:
            return f"{key} is a number from {least} to {most}, without a point or quotes"
    if not isinstance(row["extend"], bool):
        return "extend is true or false"
    return "" if row["seconds"] or row["bytes"] else "seconds and bytes are both 0"


def compare(file: Plans, database: Plans) -> list[Difference]:
    """In which values the plans that both have differ. Of a plan of the database not every key needs to be
    known."""
    return [Difference(name, key, row[key], database[name][key])
            for name, row in file.items() if name in database
            for key in row if key in database[name] and row[key] != database[name][key]]


def read_offers(data: bytes) -> dict[str, bool]:
    """Whether each plan in offers.toml is offered. BadFile: a line is not what it must be."""
    offers = {}
    for name, row in parse(data).items():
        if name == GOODWILL and not isinstance(row, dict):
            if not (isinstance(row, str) and ID.fullmatch(row)):
                raise BadFile('goodwill is the id of a plan in quotes, as goodwill = "sorry"')
            continue
        if name == TAX and not isinstance(row, dict):
            hundredths_of_percent(row)
            continue
        if isinstance(row, dict) and GOODWILL in row:
            raise BadFile(f"the line goodwill stands above all tables, and not below [{name}]")
        if not (isinstance(row, dict) and row.keys() and not row.keys() - OFFER_KEYS
                and isinstance(row.get("offered", True), bool)):
            raise BadFile(f"[{name}] has the lines offered = true or offered = false, tax = its rate in "
                          "percent, name, names, place, replaces, or one of them, and no other")
        if fault := fault_of_offer(row):
            raise BadFile(f"[{name}] {fault}")
        if TAX in row:
            hundredths_of_percent(row[TAX])
        if "offered" in row:
            offers[name] = row["offered"]
    return offers


def is_name(text: Any) -> bool:
    """Whether a text can be the name of a plan."""
    return (isinstance(text, str) and text.isprintable() and text == text.strip()
            and 0 < len(text) <= MOST_NAME)


def fault_of_offer(row: dict[str, Any]) -> str:
    """What is wrong with the name, the place or the plan of before in a table of offers.toml, or nothing."""
    names, place = row.get("names", {}), row.get("place", 0)
    if not (is_name(row.get("name", "x")) and isinstance(names, dict) and all(map(is_name, names.values()))):
        return f"name, and each of names, is one line of at most {MOST_NAME} signs"
    if not all(map(LANGUAGE.fullmatch, names)):
        return 'names has languages, as names = { de = "Eine Stunde" }'
    if type(place) is not int or not 0 <= place <= MOST_PLACE:
        return f"place is a number from 0 to {MOST_PLACE}"
    before = row.get("replaces", "x")
    is_id = isinstance(before, str) and ID.fullmatch(before)
    return "" if is_id else "replaces is the id of a plan in quotes"


def hundredths_of_percent(rate: Any) -> int:
    """A rate of tax in hundredths of a percent. BadFile: it is none."""
    is_number = isinstance(rate, (int, float)) and not isinstance(rate, bool) and 0 <= rate <= 100
    if not is_number or abs(rate * 100 - round(rate * 100)) > 1e-6:
        raise BadFile("tax is a rate in percent from 0 to 100, with two digits after the point at most, as "
                      "tax = 19 or tax = 8.1")
    return int(round(rate * 100))


def read_taxes(data: bytes) -> dict[str, int]:
    """The rate of tax of each plan that names one, in hundredths of a percent; of all others that by the
    empty name, where it is there. BadFile: one is none."""
    rows = parse(data)
    found = {name: hundredths_of_percent(row[TAX]) for name, row in rows.items()
             if isinstance(row, dict) and TAX in row}
    if TAX in rows and not isinstance(rows[TAX], dict):
        found[""] = hundredths_of_percent(rows[TAX])
    return found


def read_goodwill(data: bytes) -> str:
    """The id of the plan that offers.toml names as goodwill; empty where it names none."""
    name = parse(data).get(GOODWILL, "")
    return name if isinstance(name, str) else ""
