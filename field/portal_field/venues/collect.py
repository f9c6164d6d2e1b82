"""portal-venues collect: copies what the venues of this machine took, issued, sold and let in into the view
of all venues in PostgreSQL.

The takings are each server's own answers; where a server is silent, the program adds them up over a copy of
its database. Plans, batches, vouchers and sessions come from such a copy: a server lists batches, but no
loaded plans, no ended sessions, and of a refund no time. It is made while the server is held still, as
portal-backup does, and only where the files were written since. It can be repeated: what is the same is not
written. Once a day all of it is read, else what may have changed.

    python3 -m portal_field.venues.collect
"""

from __future__ import annotations

import concurrent.futures
import contextlib
import datetime
import os
import pathlib
import secrets
import shutil
import ssl
import subprocess
import sys
import tempfile
from collections.abc import Callable, Sequence
from dataclasses import dataclass, field

from portal_field.backup.backup import CannotHold, held_still
from portal_field.backup.copies import ENDS, BadCopy, InUse, ask_portal, copy_both, fold
from portal_field.counter import takings
from portal_field.counter.journal import Sums
from portal_field.lib.desk_client import Desk, NoAnswer, Refused, Routes
from portal_field.lib.local_time import zone_of
from portal_field.settings.venue import Field
from portal_field.venues import table, view
from portal_field.venues.files import TOKENS, Files
from portal_field.venues.places import BadVenue, Machine, Places, machine_of, venues_in
from portal_field.venues.records import Head, Records, Row, read_records, time_of
from portal_field.venues.venue_settings import all_venues

AWAY_STILL = 4              # the status where PostgreSQL was away the last time, too
BACK = "portal-failed@portal-venues-collect.service:back.service"   # reports that it is there again
SILENT = 3                  # the status where a venue is silent, or something of it was not read
WORKERS = 4                 # venues that are collected at a time
PATIENCE = 30.0             # seconds for the takings of a year
DAYS = 35                   # of takings that are asked for each time; all of them once a day
WHOLE = datetime.timedelta(days=1)
PROGRAM = ("/usr/bin/portal",)
DAY = datetime.timedelta(days=1)
Hold = Callable[[Places], contextlib.AbstractContextManager[None]]


@dataclass
class Result:
    """What came of a venue: how many rows are new, and what failed."""
    name: str
    rows: int = 0
    is_older: bool = False
    answered: bool = False
    silent: str = ""
    faults: list[str] = field(default_factory=list)

    @property
    def fault(self) -> str:
        """What failed, in words; nothing where all went well."""
        return "; ".join([*([f"it is silent: {self.silent}"] if self.silent else []), *self.faults])

    @property
    def lines(self) -> list[str]:
        """In words, for the terminal or the journal."""
        older = ["its database is older than what was read of it, as after a restore: it was read anew"]
        found = [*([f"is silent: {self.silent}"] if self.silent else []), *self.faults,
                 *(older if self.is_older else [])]
        return [f"{self.name} {line}" if line.startswith("is silent") else f"{self.name}: {line}"
                for line in found or [f"{self.rows} rows new"]]


@dataclass(frozen=True)
class Copy:
    """A copy of a venue's database. `is_live`: it was made now; else it is the newest of the nightly ones."""
    path: pathlib.Path
    is_live: bool


def hold(places: Places) -> contextlib.AbstractContextManager[None]:
    """Holds the server of a venue still, so that its files can be copied."""
    return held_still(None, False, places.database, places.unit)


def key_of(root: pathlib.Path) -> bytes:
    """The key of this machine for codes and devices in the view, drawn once."""
    path = root / "etc/portal/credentials/view_key"
    if not path.exists():
        writer = Files(None, root, "")      # type: ignore[arg-type]
        writer.write(path, secrets.token_urlsafe(32) + "\n", TOKENS)
    return path.read_text().strip().encode()


def stamp_of(database: pathlib.Path) -> str:
    """Sizes and times of a database and its log; nothing where there is none."""
    found = [pathlib.Path(f"{database}{end}") for end in ENDS]
    stats = [path.stat() for path in found if path.exists()]
    return " ".join(f"{one.st_size} {one.st_mtime_ns}" for one in stats)


def end_of(cert: pathlib.Path) -> datetime.datetime | None:
    """When a certificate ends; None where it cannot be read."""
    words = ["openssl", "x509", "-noout", "-enddate", "-in", str(cert)]
    with contextlib.suppress(OSError, ValueError):
        done = subprocess.run(words, capture_output=True, text=True)
        return time_of(int(ssl.cert_time_to_seconds(done.stdout.strip().partition("=")[2])))
    return None


class Collector:
    """Copies the venues of a machine into the view."""

    def __init__(self, machine: Machine, root: pathlib.Path, hold: Hold = hold,
                 program: Sequence[str] = PROGRAM) -> None:
        self.machine, self.root, self.hold, self.program = machine, root, hold, list(program)
        self.key, self.ends = key_of(root), end_of(root / machine.cert.lstrip("/"))

    def copy(self, places: Places, folder: pathlib.Path) -> Copy | None:
        """A copy of a venue's database in a folder; None where it has sold nothing yet. BadCopy: there is
        none that can be read."""
        goal, fault = folder / "book.db", ""
        if places.database.exists():
            try:
                with self.hold(places):
                    copy_both(places.database, goal)
                fold(goal)
                return Copy(goal, is_live=True)
            except (BadCopy, CannotHold, InUse, OSError, subprocess.SubprocessError) as caught:
                fault = str(caught)
        nightly = max(places.copies.glob("[0-9]*Z.db"), default=None)
        if nightly is None:
            if fault:
                raise BadCopy(fault)
            return None
        for end in ENDS:
            pathlib.Path(f"{goal}{end}").unlink(missing_ok=True)
        shutil.copyfile(nightly, goal)
        return Copy(goal, is_live=False)

    def records(self, link: object, result: Result, copy: Copy, state: view.State, is_whole: bool,
                stamp: str) -> Records | None:
        """Takes the records of a copy into the view; None where it says nothing new, as a nightly copy that
        is older than what was read. BadCopy: it cannot be read."""
        found = read_records(copy.path, self.key, Head() if is_whole else state.head)
        is_older = found.head.is_older_than(state.head)
        if is_older and not copy.is_live:
            return None
        if is_older:
            view.clear(link, result.name)
        result.rows += view.put_records(link, result.name, found)
        if not view.is_complete(link, result.name, found):
            is_older = True
            found = read_records(copy.path, self.key, Head())
            view.clear(link, result.name)
            result.rows += view.put_records(link, result.name, found)
        if is_older:
            view.note_older(link, result.name, state.head, found.head)
        result.is_older = is_older
        view.note_read(link, result.name, found.head, stamp if copy.is_live else "")
        return found

    def takings(self, places: Places, settings: Field, first: datetime.date, last: datetime.date,
                copy: Copy | None, result: Result) -> list[Sums]:
        """The takings of these days by the server, or else by the program over the copy. BadCopy: neither
        says them."""
        desk = Desk(settings.desk_port, places.desk_token.read_text().strip(), PATIENCE)
        parts = list(takings.parts(str(first), str(last)))
        try:
            rows = [row for part in parts for row in
                    takings.days(desk.request(Routes.TAKINGS, query=part).decode())]
            result.answered = True
            return rows
        except (NoAnswer, Refused) as fault:
            result.silent = str(fault)
        if copy is None:
            return []
        answers = (ask_portal(self.program, places.settings / "portal.toml", copy.path, "takings",
                              part["from"], part["to"]) for part in parts)
        return [row for answer in answers for row in takings.days(answer)]

    def read(self, link: object, places: Places, settings: Field, result: Result,
             folder: pathlib.Path) -> bool:
        """Takes a venue into the view; whether all of it was read."""
        state = view.state_of(link, places.name)
        now = datetime.datetime.now(zone_of(settings.zone))
        is_whole = state.whole is None or now - state.whole > WHOLE
        stamp, copy, records = stamp_of(places.database), None, None
        try:
            if is_whole or not stamp or stamp != state.stamp:
                copy = self.copy(places, folder)
                if copy is not None:
                    records = self.records(link, result, copy, state, is_whole, stamp)
        except BadCopy as fault:
            result.faults.append(f"its database is not read: {fault}")
        is_whole = is_whole or result.is_older
        first, today = now.date() - DAYS * DAY, now.date()
        if is_whole and records is not None and records.first is not None:
            begin = datetime.datetime.fromtimestamp(records.first, now.tzinfo).date()
            first = min(first, begin)
        try:
            rows = self.takings(places, settings, first, today, copy, result)
        except (BadCopy, OSError) as fault:
            rows = []
            result.faults.append(f"its takings are not read: {fault}")
        from_copy = bool(result.silent)
        replaces = not from_copy or (copy is not None and copy.is_live)
        days: list[Row] = [(row.name, row.sold, row.sales, row.refunded, row.refunds,
                            row.name < str(today), from_copy) for row in rows]
        result.rows += view.put(link, "takings", places.name, days, replaces)
        if result.faults:
            view.forget_stamp(link, places.name)
        return is_whole and not result.faults

    def venue(self, name: str, settings: Field | None, fault: str) -> Result:
        """Takes a venue into the view, in one transaction. table.Away: PostgreSQL is not there any more."""
        result, places = Result(name), Places(name, self.root)
        try:
            if settings is None:
                raise BadVenue(fault or "its settings are not on this machine: portal-venues apply")
            with tempfile.TemporaryDirectory() as folder, view.opened(self.machine) as link:
                whole = self.read(link, places, settings, result, pathlib.Path(folder))
                view.note_tried(link, name, result.fault, result.answered, whole, self.ends)
        except (BadVenue, OSError) as caught:
            result.faults.append(str(caught))
            with view.opened(self.machine) as link:
                view.note_tried(link, name, result.fault, False, ends=self.ends)
        return result

    def run(self, names: Sequence[str] = ()) -> list[Result]:
        """Takes these venues of the machine into the view, or all. BadVenue: one of these is none of this
        machine in the table of venues; table.Away: PostgreSQL cannot be reached."""
        with view.opened(self.machine) as link:
            here = view.venues_of(link, self.machine)
        if unknown := sorted(set(names) - set(here)):
            raise BadVenue(f"the table of venues has no {', '.join(unknown)} on this machine")
        fields, faults = all_venues(self.root)
        wanted = [name for name in here if name in names or not names]
        with concurrent.futures.ThreadPoolExecutor(WORKERS) as pool:
            results = list(pool.map(
                lambda name: self.venue(name, fields.get(name), faults.get(name, "")), wanted))
        missing = [] if names else sorted(set(venues_in(self.root)) - set(here))
        return [*results, *(Result(name, faults=[f"it is not in the table: portal-venues add {name}"])
                            for name in missing)]


def collect(machine: Machine, root: pathlib.Path, names: Sequence[str] = ()) -> int:
    """Takes the venues of this machine into the view, and says what came of each; 0 where all went well."""
    results = Collector(machine, root).run(names)
    for result in results:
        for line in result.lines:
            print(line, file=sys.stderr if result.fault else sys.stdout, flush=True)
    return SILENT if any(result.fault for result in results) else 0


def told_once(told: pathlib.Path) -> int:
    """The status of a time at which nothing was read: the venue's command hears of the first one alone."""
    if told.exists():
        return AWAY_STILL
    with contextlib.suppress(OSError):
        told.touch()
    return 1


def main() -> int:
    """Takes all venues of this machine into the view, for the timer; 1 where PostgreSQL cannot be reached,
    and another status as long as it stays so."""
    root, state = pathlib.Path("/"), os.environ.get("STATE_DIRECTORY", "/var/lib/portal-venues-collect")
    told = pathlib.Path(state, "told")
    try:
        status = collect(machine_of(root), root)
    except (BadVenue, table.Away, OSError) as fault:
        print(f"the view is as it was: {fault}", file=sys.stderr, flush=True)
        return told_once(told)
    if told.exists():
        told.unlink()
        print("the view is filled again", flush=True)
        subprocess.run(["systemctl", "start", "--no-block", BACK])
    return status


if __name__ == "__main__":
    sys.exit(main())
