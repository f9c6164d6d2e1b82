"""offers.toml as it is read and written anew: what it says of each plan, and above its tables."""

from __future__ import annotations

import json
from dataclasses import dataclass, field
from typing import Any

from portal_field.lib.plans import GOODWILL, ID, TAX, parse, read_offers

HEAD = """\
# What the counter offers, beside plans.toml: by the id of a plan its name, its place, its tax, and whether it
# is offered. A manager writes this file anew on the counter's page: comments are not kept.
"""


@dataclass(frozen=True)
class Offer:
    """What the file says of a plan. `place`: among the plans, 0: none; `replaces`: the plan that had the
    price or the terms of before."""
    name: str = ""
    names: dict[str, str] = field(default_factory=dict)
    place: int = 0
    replaces: str = ""
    offered: bool | None = None
    tax: int | float | None = None

    def name_in(self, tag: str) -> str:
        """The name in a language, or else in the language that it is a kind of, or else the one for all."""
        return self.names.get(tag) or self.names.get(tag.partition("-")[0]) or self.name

    @property
    def lines(self) -> str:
        """The lines of its table; none where nothing is said."""
        values = {key: getattr(self, key) for key in ("offered", "name", "place", "replaces", TAX)}
        lines = [f"{key} = {toml(value)}\n" for key, value in values.items() if value not in (None, "")
                 and (key != "place" or value)]
        if self.names:
            pairs = ", ".join(f"{toml(tag)} = {toml(name)}" for tag, name in sorted(self.names.items()))
            lines.append(f"names = {{ {pairs} }}\n")
        return "".join(lines)


@dataclass(frozen=True)
class OffersFile:
    """The whole file."""
    rows: dict[str, Offer] = field(default_factory=dict)
    goodwill: str = ""
    tax: int | float | None = None

    @classmethod
    def read(cls, data: bytes) -> OffersFile:
        """What a file says. BadFile: it is not what it must be."""
        read_offers(data)
        values = parse(data)
        rows = {name: Offer(**row) for name, row in values.items() if isinstance(row, dict)}
        tops: dict[str, Any] = {key: value for key, value in values.items() if not isinstance(value, dict)}
        return cls(rows, tops.get(GOODWILL, ""), tops.get(TAX))

    def of(self, plan: str) -> Offer:
        """What it says of a plan."""
        return self.rows.get(plan, Offer())

    @property
    def text(self) -> str:
        """The file that says so."""
        tops = {GOODWILL: self.goodwill or None, TAX: self.tax}
        head = "".join(f"{key} = {toml(value)}\n" for key, value in tops.items() if value is not None)
        tables = (f"\n[{name if ID.fullmatch(name) else toml(name)}]\n{row.lines}"
                  for name, row in self.rows.items() if row.lines)
        return HEAD + head + "".join(tables)


def toml(value: Any) -> str:
    """A text, a number, or true or false, as TOML has it."""
    return json.dumps(value, ensure_ascii=False).replace("\x7f", "\\u007f")
