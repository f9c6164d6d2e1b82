"""Carries out what the settings of the venues by name say: files, rules, units. Each step can be repeated;
one that fails is said with what was done and what was not, and hinders no other venue."""

from __future__ import annotations

import pathlib
import sys
from collections.abc import Callable, Sequence
from dataclasses import dataclass, field

from portal_field import KIT
from portal_field.settings.samples import is_sample, mark_as_chosen
from portal_field.settings.venue import Field
from portal_field.venues import sign_in
from portal_field.venues.files import VenueFiles, make_shared
from portal_field.venues.places import BadVenue, Machine, Places
from portal_field.venues.units import (
    CLOCK, COLLECT, COUNTER, DOOR, NGINX, OFFICE, PLANS, RULES, SIGN_IN, TIMER, UnitFault, Units,
    units_of)

STEPS = ("files", "prices", "units")
# Files that a desk reads at its start
OF_THE_DESK = ("portal.toml", "server.env")


def say(text: str) -> None:
    """Shows how far it is."""
    print(text, flush=True)


@dataclass
class Result:
    """What came of one venue: the steps that were done, and the fault of the one that was not."""
    name: str
    done: list[str] = field(default_factory=list)
    written: list[pathlib.Path] = field(default_factory=list)
    fault: str = ""

    @property
    def line(self) -> str:
        """In words, for the terminal."""
        if not self.fault:
            return f"{self.name}: ready, {len(self.written)} files new"
        left = [step for step in STEPS if step not in self.done]
        done = ", ".join(self.done) or "nothing"
        return f"{self.name}: FAILED: {self.fault}\n    done: {done}; not done: {', '.join(left)}"


class Apply:
    """Brings the venues of a machine to what their settings say."""

    def __init__(self, machine: Machine, root: pathlib.Path, units: Units, kit: str = str(KIT),
                 prices_as_shipped: bool = False) -> None:
        self.machine, self.root, self.units, self.kit = machine, root, units, kit
        self.prices_as_shipped = prices_as_shipped

    def files(self, places: Places, settings: Field, result: Result) -> None:
        """Makes the files of a venue, and its user. UnitFault: it is not made."""
        result.written += VenueFiles(settings, places, self.kit).make()
        self.units.make_users(self.root)

    def prices(self, places: Places) -> None:
        """Lets no sample of prices be loaded that nobody chose, since a loaded plan never changes. BadVenue:
        it is one."""
        path = places.settings / "plans.toml"
        if places.database.exists() or not path.exists() or not is_sample(path):
            return
        if not self.prices_as_shipped:
            raise BadVenue(f"nobody has chosen the prices: edit {path}, or take them with "
                           "--prices-as-shipped")
        path.write_text(mark_as_chosen(path.read_text()))

    def start(self, places: Places, settings: Field, result: Result) -> None:
        """Enables and starts the units of a venue; the desk anew where its settings are new. UnitFault: one
        of them does not start."""
        has_radius = settings.access_servers is not None
        wanted, possible = units_of(places.name, has_radius), units_of(places.name, True)
        self.units.ctl("enable", *wanted)
        self.units.ctl("start", wanted[0])
        if unused := [unit for unit in possible if unit not in wanted]:
            self.units.ctl("disable", "--now", *unused)
        is_new = any(path.name in OF_THE_DESK for path in result.written)
        if is_new and self.units.is_active(places.unit):
            self.units.ctl("restart", places.unit)
        if has_radius and any(path.name.startswith(("radius", "clients")) for path in result.written):
            self.units.ctl("try-restart", *wanted[2:])

    def venue(self, name: str, settings: Field) -> Result:
        """All steps of a venue."""
        places, result = Places(name, self.root), Result(name)
        steps: dict[str, Callable[[], None]] = {
            "files": lambda: self.files(places, settings, result), "prices": lambda: self.prices(places),
            "units": lambda: self.start(places, settings, result)}
        for step in STEPS:
            try:
                steps[step]()
            except (OSError, BadVenue, UnitFault) as fault:
                result.fault = f"{step}: {fault}"
                return result
            result.done.append(step)
        return result

    def shared(self, venues: dict[str, Field], is_new: bool) -> None:
        """What all venues share: rules, nginx, clock and pages. OSError, UnitFault: one step failed, the
        later ones were not done."""
        written = {path.name for path in make_shared(venues, self.machine, self.root, self.kit)}
        if not venues:
            self.units.ctl("disable", "--now", CLOCK, COUNTER, DOOR, RULES, TIMER, COLLECT, PLANS, OFFICE,
                           SIGN_IN)
            self.units.ctl("stop", "portal-venues.target")
        else:
            # which desks and pages there are is known to these two since their start
            is_new = is_new or bool(written & {"venues.conf", "desks.nft"})
            self.units.ctl("enable", CLOCK, COUNTER, DOOR, RULES, TIMER)
            self.units.ctl("reload-or-restart" if "desks.nft" in written else "start", RULES)
            self.units.ctl("restart" if is_new else "start", CLOCK)
            self.units.ctl("start", DOOR, TIMER)
            self.units.ctl("enable" if self.machine.database else "disable", "--now", COLLECT, PLANS,
                           OFFICE)
            has_sign_in = (path := self.root / sign_in.FILE).exists()
            if has_sign_in:
                path.chmod(0o600)       # it has the client's secret
            self.units.ctl("enable" if has_sign_in else "disable", "--now", SIGN_IN)
            self.units.ctl("restart" if is_new else "start", COUNTER)
        if {"venues.conf", "nginx.conf"} & written or not self.units.is_active(NGINX):
            self.units.ctl("reload-or-restart", NGINX)

    def run(self, venues: dict[str, Field], names: Sequence[str], faults: dict[str, str]) -> int:
        """Brings the venues of these names to what their settings say, and what all share; 0 where all went
        well."""
        results = [Result(name, fault=faults[name]) for name in sorted(faults) if name in names]
        wanted = [name for name in names if name in venues]
        for number, name in enumerate(wanted, 1):
            results.append(self.venue(name, venues[name]))
            say(f"[{number}/{len(wanted)}] {results[-1].line}")
        for result in results:
            if result.name in faults:
                say(result.line)
        is_new = any(result.written for result in results)
        try:
            self.shared(venues, is_new)
            say(f"all venues: ready: {len(venues)}")
        except (OSError, UnitFault) as fault:
            print(f"all venues: FAILED: {fault}\n    done: the venues' own files; run portal-venues apply "
                  "again once that is mended", file=sys.stderr, flush=True)
            return 1
        return int(any(result.fault for result in results))
