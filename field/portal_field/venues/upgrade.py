"""portal-venues upgrade: starts the venues by name with the program that is installed now, one after another.

Each is copied first, and looked at afterwards: its server answers, and its takings are not less than before.
The first one that is not well stops it, and goes back: to the program of before, which the package keeps, and
where that cannot read the database any more, to the copy. Until it is its turn a venue goes on with the
program of before, also where it is started anew meanwhile. It can be repeated.
"""

from __future__ import annotations

import datetime
import filecmp
import pathlib
import subprocess
import sys
import tempfile
import time
from collections.abc import Sequence

from portal_field import KIT
from portal_field.backup.copies import BadCopy, ask_portal, copy_both, fold
from portal_field.counter import takings
from portal_field.lib.desk_client import Desk, NoAnswer, Refused, Routes
from portal_field.lib.local_time import zone_of
from portal_field.settings import socket_owners
from portal_field.settings.venue import Field
from portal_field.venues.ending import answers, backup, patience_of
from portal_field.venues.files import VenueFiles, make_shared
from portal_field.venues.places import Machine, Places
from portal_field.venues.units import CLOCK, COUNTER, NGINX, RULES, UnitFault, Units, units_of
from portal_field.venues.venue_settings import all_venues

PROGRAM, KEPT = "usr/bin/portal", "var/lib/portal-programs"
DROP_IN = "etc/systemd/system/portal@{}.service.d/program-before.conf"
DAYS = 7        # of takings that are compared
HEAD = "# Written by portal-venues upgrade: this venue goes on with the program of before.\n"
START = ("[Service]\nExecStart=\nExecStart={} serve --port ${{PORTAL_PORT}} "
         "--db /var/lib/portal-venues/%i/book.db --settings ${{CREDENTIALS_DIRECTORY}}/settings\n")
Sums = dict[str, tuple[int, int]]


class Upgrade:
    """The upgrade of the venues of a machine."""

    def __init__(self, machine: Machine, root: pathlib.Path, units: Units) -> None:
        self.machine, self.root, self.units = machine, root, units
        self.moment = time.strftime("%Y%m%dT%H%M%SZ", time.gmtime())
        self.faults: dict[str, str] = {}

    # The program of before

    def drop_in(self, name: str) -> pathlib.Path:
        """The file by which a venue runs with the program of before."""
        return self.root / DROP_IN.format(name)

    def kept(self) -> pathlib.Path | None:
        """The newest of the programs of before that is not the one that is installed now; None where there is
        none."""
        found = sorted((self.root / KEPT).glob("*"), key=lambda path: path.stat().st_mtime, reverse=True)
        now = self.root / PROGRAM
        return next((path for path in found if not now.exists() or not filecmp.cmp(path, now, False)), None)

    def before_of(self, name: str) -> pathlib.Path | None:
        """The program with which a venue goes on, or would: that of its file, or the newest that was kept."""
        if (path := self.drop_in(name)).exists():
            for line in path.read_text().splitlines():
                if line.startswith("ExecStart=/"):
                    return self.root / line.removeprefix("ExecStart=/").split()[0]
        return self.kept()

    def hold_back(self, name: str, program: pathlib.Path) -> None:
        """Has a venue run with the program of before at its next start."""
        path = self.drop_in(name)
        path.parent.mkdir(parents=True, exist_ok=True)
        path.write_text(HEAD + START.format(f"/{program.relative_to(self.root)}"))
        self.units.ctl("daemon-reload")

    def release(self, name: str) -> None:
        """Has a venue run with the program that is installed now at its next start."""
        path = self.drop_in(name)
        if path.exists():
            path.unlink()
            self.units.ctl("daemon-reload")

    def forget(self) -> None:
        """Removes the programs of before that no venue runs with."""
        used = {self.before_of(path.parent.name.removeprefix("portal@").removesuffix(".service.d"))
                for path in self.root.glob(DROP_IN.format("*"))}
        for program in (self.root / KEPT).glob("*"):
            if program not in used:
                program.unlink()

    # One venue

    def sums(self, places: Places, field: Field) -> Sums:
        """What was sold and refunded on each of the last days, by the server. NoAnswer, Refused: it does not
        say."""
        today = datetime.datetime.now(zone_of(field.zone)).date()
        query = {"from": str(today - datetime.timedelta(DAYS)), "to": str(today)}
        desk = Desk(field.desk_port, places.desk_token.read_text().strip(), 30.0)
        rows = takings.days(desk.request(Routes.TAKINGS, query=query).decode())
        return {row.name: (row.sold, row.refunded) for row in rows}

    def fault_of(self, places: Places, field: Field, before: Sums) -> str:
        """What is wrong with a venue that was started, or nothing."""
        if not answers(field.desk_port, patience_of(places)):
            return "its desk does not answer"
        try:
            now = self.sums(places, field)
        except (NoAnswer, Refused, OSError, ValueError) as fault:
            return f"its takings: {fault}"
        less = [day for day, sums in before.items() if any(a > b for a, b in zip(sums, now.get(day, (0, 0))))]
        return f"its takings are less than before: {', '.join(less)}" if less else ""

    def venue(self, name: str, field: Field) -> str:
        """Starts a venue with the program that is installed now; what failed and what was done then, or
        nothing."""
        places, program, copy = Places(name, self.root), self.before_of(name), f"before-upgrade-{self.moment}"
        try:
            before = self.sums(places, field)
        except (NoAnswer, Refused, OSError, ValueError):
            before = {}         # it was silent before: whatever it says afterwards is no less
        try:
            self.units.ctl("stop", places.unit)
            fault = backup(places, copy, str(program) if program else "")
            if not fault:
                self.release(name)
                self.units.ctl("start", places.unit)
                fault = self.fault_of(places, field, before)
        except UnitFault as caught:
            fault = str(caught)
        if not fault:
            return ""
        try:
            return f"{fault}\n    {self.go_back(places, field, program, copy)}"
        except (UnitFault, OSError) as caught:
            return (f"{fault}\n    it does not go back either: {caught}; "
                    f"its copy of before: {places.copies}/{copy}.db")

    def reads(self, program: pathlib.Path, places: Places) -> bool:
        """Whether the program of before takes the database as it is now, by a copy of it."""
        with tempfile.TemporaryDirectory() as folder:
            goal = pathlib.Path(folder, "book.db")
            try:
                copy_both(places.database, goal)
                fold(goal)
                return ask_portal([str(program)], places.settings / "portal.toml", goal, "check") == "ok\n"
            except (BadCopy, OSError, subprocess.SubprocessError):
                return False

    def go_back(self, places: Places, field: Field, program: pathlib.Path | None, copy: str) -> str:
        """Has a venue run as before; what was done, in words. UnitFault, OSError: a step failed."""
        if program is None:
            self.units.ctl("start", places.unit)
            return f"no program of before is kept; its copy of before: {places.copies}/{copy}.db"
        self.units.ctl("stop", places.unit)
        self.hold_back(places.name, program)
        restored = ""
        if places.database.exists() and not self.reads(program, places):
            words = [str(KIT / "portal-restore"), "--portal", str(program), "--unit", places.unit,
                     "--settings", str(places.settings / "portal.toml"),
                     str(places.copies / f"{copy}.db"), str(places.database)]
            done = subprocess.run(words, capture_output=True, text=True)
            if done.returncode != 0:
                raise OSError(done.stderr.strip())
            restored = f", from its copy: {done.stdout.strip()}"
        self.units.ctl("start", places.unit)
        is_back = answers(field.desk_port, patience_of(places))
        state = "it answers with" if is_back else "it does NOT answer, with"
        return f"it went back: {state} the program of before{restored}"

    # All of them

    def prepare(self, running: Sequence[str]) -> None:
        """Has every venue that runs stay with the program of before, until it is its turn."""
        for name in running:
            if not self.drop_in(name).exists() and (program := self.kept()):
                self.hold_back(name, program)

    def run(self) -> int:
        """The whole upgrade; 0 where every venue is well."""
        venues, self.faults = all_venues(self.root)
        for name, field in venues.items():      # a version may make more files than the one before, or others
            VenueFiles(field, Places(name, self.root)).make()
        make_shared(venues, self.machine, self.root)
        if self.units.is_active(RULES):
            self.units.ctl("reload", RULES)
        running = [name for name in sorted(venues) if self.units.is_active(Places(name).unit)]
        self.prepare(running)
        for number, name in enumerate(running, 1):
            if fault := self.venue(name, venues[name]):
                parts = running[:number - 1], running[number:]
                done, left = (", ".join(names) or "none" for names in parts)
                print(f"[{number}/{len(running)}] {name}: FAILED: {fault}\n    done: {done}; not done, with "
                      f"the program of before: {left}\n    once that is mended: portal-venues upgrade",
                      file=sys.stderr, flush=True)
                return 1
            print(f"[{number}/{len(running)}] {name}: answers", flush=True)
        for name in sorted(venues.keys() - set(running)):
            self.release(name)
        self.forget()
        socket_owners.renew(lambda keys, units: self.units.ctl("show", "-p", keys, units), self.root)
        for unit in (CLOCK, COUNTER, NGINX):
            self.units.ctl("try-reload-or-restart", unit)
        for name in running:
            self.units.ctl("try-restart", *units_of(name, True)[2:])
        return int(bool(self.faults))
