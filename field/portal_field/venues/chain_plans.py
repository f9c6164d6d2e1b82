"""portal-venues plans: the plans of a chain, with their offers, for all its venues or some.

A loaded plan never changes, so that a push can be repeated: the server takes the same file once. A venue
keeps the plans of its own that the chain has not. One that has a plan of the chain with other terms gets
nothing of the file, and each difference is named.

As a program it is portal-venues-plans.service: it brings what another machine put into the table to the
venues of this one.
"""

from __future__ import annotations

import contextlib
import datetime
import pathlib
import sys
from collections.abc import Iterator, Sequence
from dataclasses import dataclass, field, replace
from typing import Any

from portal_field import KIT
from portal_field.counter.offers import ACCEPTED, key_of
from portal_field.counter.plan_changes import table_of
from portal_field.lib import plans
from portal_field.lib.desk_client import Desk, NoAnswer, Refused, Routes
from portal_field.lib.offers_file import OffersFile
from portal_field.lib.plans import BadFile, Plans, check_plans, plans_in
from portal_field.settings.venue import Field
from portal_field.venues import table, view
from portal_field.venues.files import Files
from portal_field.venues.places import BadVenue, Machine, Places, machine_of
from portal_field.venues.units import COUNTER, UnitFault, Units
from portal_field.venues.venue_settings import all_venues

ALL = "*"       # in portal.plan_file: every venue that has no row of its own
LEFT, NOT_FETCHED = 3, 4    # statuses of the timer's run: a venue has not got them; nothing was fetched
KEEP = """
INSERT INTO portal.plan_file (venue, plans, offers) VALUES (%s, %s, %s) ON CONFLICT (venue) DO UPDATE SET
    plans = excluded.plans, offers = excluded.offers, written = now()
WHERE (plan_file.plans, plan_file.offers) IS DISTINCT FROM (excluded.plans, excluded.offers)"""
NOTE = """
INSERT INTO portal.plan_push (venue, pushed, fault) VALUES (%s, %s, %s) ON CONFLICT (venue)
DO UPDATE SET pushed = excluded.pushed, fault = excluded.fault"""
BEHIND = """
SELECT venue.name, venue.machine, push.fault, push.pushed IS DISTINCT FROM file.written
FROM portal.venue AS venue
    JOIN portal.plan_file AS file ON file.venue = coalesce(
        (SELECT own.venue FROM portal.plan_file AS own WHERE own.venue = venue.name), '*')
    LEFT JOIN portal.plan_push AS push ON push.venue = venue.name
WHERE venue.retired IS NULL AND (push.pushed IS DISTINCT FROM file.written OR push.fault <> '')
ORDER BY venue.name"""


@dataclass(frozen=True)
class ChainPlans:
    """Both files of plans: plans.toml, and offers.toml or nothing. `written`: when they were put into the
    table."""
    plans: str
    offers: str = ""
    written: datetime.datetime | None = field(default=None, compare=False)

    def check(self) -> None:
        """BadVenue: one of the files is not what it must be."""
        try:
            check_plans(self.plans.encode())
            OffersFile.read(self.offers.encode())
        except BadFile as fault:
            raise BadVenue(f"the plans of the chain: {fault}") from fault

    def beside(self, own: ChainPlans) -> ChainPlans:
        """The files of a venue: the chain's plans and then those of its own, and what the chain says of its
        plans before what the venue says. The venue's own text stays where it says so already. BadFile: the
        venue's offers.toml has a mistake."""
        chain, before = plans_in(self.plans.encode()), plans_in(own.plans.encode())
        rest = [table_of(name, terms) for name, terms in before.items() if name not in chain]
        text = self.plans.rstrip("\n") + "\n" + "".join(rest)
        said, was = OffersFile.read(self.offers.encode()), OffersFile.read(own.offers.encode())
        offers = replace(was, rows=was.rows | said.rows, goodwill=said.goodwill or was.goodwill,
                         tax=was.tax if said.tax is None else said.tax)
        return ChainPlans(own.plans if plans_in(text.encode()) == before else text,
                          own.offers if offers == was else offers.text)


def read_files(path: pathlib.Path, offers: pathlib.Path | None) -> ChainPlans:
    """The files of the chain. BadVenue: one is not what it must be; OSError: it cannot be read."""
    try:
        chain = ChainPlans(path.read_text(encoding="utf-8"), offers.read_text("utf-8") if offers else "")
    except ValueError as fault:
        raise BadVenue(f"a file of plans is not UTF-8: {fault}") from fault
    chain.check()
    return chain


@contextlib.contextmanager
def opened(machine: Machine) -> Iterator[Any]:
    """A connection in one transaction, with the tables of the chain's plans made."""
    with view.opened(machine) as link:
        if link.execute("SELECT to_regclass('portal.plan_file')").fetchone() == (None,):
            link.execute((KIT / "venues/plans.sql").read_bytes())
        yield link


def keep(machine: Machine, chain: ChainPlans, names: Sequence[str]) -> None:
    """Puts the files into the table: for these venues, or for all, which then have none of their own there.
    BadVenue: there is no venue of such a name."""
    with opened(machine) as link:
        known = {name for name, in link.execute("SELECT name FROM portal.venue WHERE retired IS NULL")}
        if unknown := sorted(set(names) - known):
            raise BadVenue(f"there is no venue {', '.join(unknown)}")
        if not names:
            link.execute("DELETE FROM portal.plan_file WHERE venue <> %s", (ALL,))
        for name in names or (ALL,):
            link.execute(KEEP, (name, chain.plans, chain.offers))


def kept(machine: Machine) -> dict[str, ChainPlans]:
    """The files in the table, by the venue, or ALL."""
    with opened(machine) as link:
        rows = list(link.execute("SELECT venue, plans, offers, written FROM portal.plan_file"))
    return {name: ChainPlans(*files) for name, *files in rows}


def behind(machine: Machine) -> list[str]:
    """The venues of all machines that have not got the chain's plans, and why, in words."""
    with opened(machine) as link:
        rows = list(link.execute(BEHIND))
    return [f"{name} has not got the plans of the chain yet: {machine_name} fetches them each quarter of an "
            f"hour, or at once by portal-venues plans" if is_old
            else f"{name} has not got the plans of the chain: {fault}"
            for name, machine_name, fault, is_old in rows]


def behind_here(machine: Machine) -> list[str]:
    """The venues of this machine that have not got the chain's plans. While no machine has put plans into
    the table there are none, and no table of plans is made."""
    with table.opened(machine) as link:
        if link.execute("SELECT to_regclass('portal.plan_push')").fetchone() == (None,):
            return []
        return [name for name, place, *_ in link.execute(BEHIND) if place == machine.own_name]


def of_venue(wanted: dict[str, ChainPlans], name: str) -> ChainPlans:
    """The files of a venue: those of its own, or those of all venues. KeyError: there are none for it."""
    return wanted.get(name) or wanted[ALL]


class Push:
    """Brings the chain's plans to the venues of a machine. `looks`: nothing is changed, and what would be is
    said."""

    def __init__(self, machine: Machine, root: pathlib.Path, units: Units, looks: bool = False) -> None:
        self.machine, self.root, self.units, self.looks = machine, root, units, looks
        self.is_new = False

    def loaded(self, places: Places) -> Plans:
        """The plans that a venue has loaded, as far as that is known: by the file that its server accepted
        last, and by the view."""
        found: Plans = {}
        with contextlib.suppress(OSError):
            found = plans_in((places.counter_state / ACCEPTED).read_bytes())
        if self.machine.database:
            with view.opened(self.machine) as link:
                for name, *terms in link.execute(
                        "SELECT plan, price, uses, seconds, bytes, shelf_days, extend FROM portal_view.plan "
                        "WHERE venue = %s", (places.name,)):
                    found[name] = {"id": name, **dict(zip((*plans.LIMITS, "extend"), terms))}
        return found

    def send(self, places: Places, settings: Field, text: str) -> str:
        """Sends plans to the server of a venue; why it does not take them, or nothing."""
        desk = Desk(settings.desk_port, places.desk_token.read_text().strip())
        try:
            desk.request_json(Routes.PLANS, body=text.encode(), number=key_of(text.encode()))
        except NoAnswer as fault:
            return f"it is silent: {fault}"
        except Refused as fault:
            why = "a plan of this id is loaded there with other terms" if fault.word == "plan_differs" else ""
            return f"its server says {fault.word}{': ' if why else ''}{why}"
        return ""

    def venue(self, places: Places, settings: Field, chain: ChainPlans) -> tuple[str, str]:
        """Brings the plans to one venue: what was done, or why it was not. OSError: a file cannot be read or
        written."""
        paths = places.settings / "plans.toml", places.settings / "offers.toml"
        texts = [path.read_text(encoding="utf-8") if path.exists() else "" for path in paths]
        own = ChainPlans(texts[0], texts[1])
        differences = plans.compare(plans_in(chain.plans.encode()), self.loaded(places))
        if differences:
            return "", "; ".join(map(str, differences))
        try:
            made = chain.beside(own)
            check_plans(made.plans.encode())
        except BadFile as fault:
            return "", f"its own files: {fault}"
        changed = [name for name, is_new in (("plans", made.plans != own.plans),
                                             ("offers", made.offers != own.offers)) if is_new]
        if self.looks:
            return f"would get new {' and '.join(changed)}" if changed else "has them", ""
        if refusal := self.send(places, settings, made.plans):
            return "", refusal
        writer = Files(settings, self.root, "")
        for path, before, text in zip(paths, (own.plans, own.offers), (made.plans, made.offers)):
            if text != before:
                if before:
                    writer.write(path.with_name(f"{path.name}.before"), before)
                writer.write(path, text)
        accepted = places.counter_state / ACCEPTED
        is_known = accepted.exists() and accepted.read_bytes() == made.plans.encode()
        self.is_new = self.is_new or bool(changed) or not is_known
        return f"has them: new {' and '.join(changed)}" if changed else "has them", ""

    def note(self, faults: dict[str, str], wanted: dict[str, ChainPlans]) -> None:
        """Notes in the table which files each venue has got, or why it has not."""
        with opened(self.machine) as link:
            for name, fault in faults.items():
                link.execute(NOTE, (name, of_venue(wanted, name).written, fault))

    def run(self, wanted: dict[str, ChainPlans]) -> int:
        """Brings the plans to the venues of this machine that are wanted, and says what came of each; 0 where
        each has them. Then the counters take them, and it is noted."""
        fields, unread = all_venues(self.root)
        faults: dict[str, str] = {}
        for name in sorted({*fields, *unread}):
            if name not in wanted and ALL not in wanted:
                continue
            done, fault = "", unread.get(name, "")
            if name in fields:
                try:
                    done, fault = self.venue(Places(name, self.root), fields[name], of_venue(wanted, name))
                except (OSError, ValueError) as caught:
                    fault = str(caught)
            faults[name] = fault
            print(f"{name}: {done or f'it has not got them: {fault}'}", flush=True,
                  file=sys.stderr if fault else sys.stdout)
        if self.is_new:
            self.units.ctl("try-restart", COUNTER)
        if self.machine.database and not self.looks:
            self.note(faults, wanted)
        return int(any(faults.values()))


def push(machine: Machine, root: pathlib.Path, units: Units, chain: ChainPlans | None, names: Sequence[str],
         looks: bool = False) -> int:
    """Puts the chain's plans into the table, where PostgreSQL has one, and brings them to the venues of this
    machine; without files those of the table. BadVenue: there are none, or no venue of such a name;
    table.Away, UnitFault: what is away."""
    here = {*all_venues(root)[0], *all_venues(root)[1]}
    if machine.database:
        if chain is not None and not looks:
            keep(machine, chain, names)
        wanted = kept(machine) if chain is None or not looks else {name: chain for name in names or (ALL,)}
    elif chain is None:
        raise BadVenue("name a file of plans: venues.toml names no database that has one")
    else:
        if unknown := sorted(set(names) - here):
            raise BadVenue(f"there is no venue {', '.join(unknown)}")
        wanted = {name: chain for name in names or (ALL,)}
    if names:
        wanted = {name: of_venue(wanted, name) for name in names if name in wanted or ALL in wanted}
    if not wanted:
        raise BadVenue("no plans of the chain are in the table yet: name a file of plans")
    return Push(machine, root, units, looks).run(wanted)


def fetch(machine: Machine, root: pathlib.Path, units: Units) -> int:
    """Brings the plans of the table to the venues of this machine that have not got them; 0 where each has
    them. BadVenue, table.Away, UnitFault: what is away."""
    if names := behind_here(machine):
        files = kept(machine)
        return Push(machine, root, units).run({name: of_venue(files, name) for name in names})
    return 0


def main() -> int:
    """Fetches the plans of the table, for the timer; 0 also where venues.toml names no database. What is away
    is said by portal-venues-collect, and which venue has not got them by the report of the office."""
    root = pathlib.Path("/")
    try:
        machine = machine_of(root)
        return LEFT if machine.database and fetch(machine, root, Units()) else 0
    except (BadVenue, table.Away, UnitFault, OSError) as fault:
        print(f"the plans of the chain are not fetched: {fault}", file=sys.stderr, flush=True)
        return NOT_FETCHED


if __name__ == "__main__":
    sys.exit(main())
