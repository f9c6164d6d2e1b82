"""The end of a venue by name, and what an upgrade needs of one that starts."""

from __future__ import annotations

import pathlib
import subprocess
import sys
import time

from portal_field import KIT
from portal_field.lib.desk_client import Desk, NoAnswer, Refused, Routes
from portal_field.venues import table
from portal_field.venues.collect import Collector
from portal_field.venues.places import BadVenue, Machine, Places
from portal_field.venues.units import Units, units_of

PATIENCE = 120.0        # seconds within which a desk answers after its start,
EACH_MB = 1.0           # and for each MB of its database, whose tables a new program may make anew,
LARGE, EACH_LARGE_MB = 20.0, 8.0        # and for each beyond so many: pages of its indexes are written again
NOBODY = "02:00:00:00:00:00"    # a device of no guest
RETIRED = "field.toml.retired"


def backup(places: Places, name: str = "", program: str = "") -> str:
    """A copy of a database that nobody has open, which a program checks; why there is none, or nothing."""
    if not places.database.exists():
        return ""
    places.copies.mkdir(parents=True, exist_ok=True, mode=0o700)
    words = [str(KIT / "portal-backup"), "--still", *(["--name", name] if name else []),
             *(["--portal", program] if program else []), "--check", str(places.settings / "portal.toml"),
             str(places.database), str(places.copies)]
    done = subprocess.run(words, capture_output=True, text=True)
    return "" if done.returncode == 0 else done.stderr.strip()


def collect_last(collector: Collector, name: str) -> None:
    """Takes what a venue that was ended sold at last into the view of all venues, where that knows it.
    table.Away: PostgreSQL cannot be reached."""
    try:
        faults = [fault for result in collector.run([name]) for fault in result.faults]
    except BadVenue as fault:
        faults = [str(fault)]
    for line in faults:
        print(f"{name}: its last sales are not in the view of all venues: {line}", file=sys.stderr)


def retire(places: Places, machine: Machine, units: Units) -> int:
    """Ends a venue: its units, a last copy, its last sales in the view, its line in the table. BadVenue:
    there is none of that name."""
    if not places.field.exists():
        raise BadVenue(f"there is no venue {places.name}")
    units.ctl("disable", "--now", *reversed(units_of(places.name, True)))
    print(f"{places.name}: its units are ended", flush=True)
    if fault := backup(places):
        print(f"{places.name}: FAILED: the last copy: {fault}\n    done: units ended; not done: copy, "
              "settings put aside. Its database stays; run it again once that is mended", file=sys.stderr)
        return 1
    print(f"{places.name}: the last copy is in {places.copies}", flush=True)
    if machine.database:
        collect_last(Collector(machine, places.root), places.name)
        table.retire(machine, places.name)
    places.field.rename(places.field.with_name(RETIRED))
    print(f"{places.name}: retired; its database stays at {places.database}", flush=True)
    return 0


def patience_of(places: Places) -> float:
    """Seconds within which the desk of a venue answers after its start, by the size of its database."""
    files = places.database, pathlib.Path(f"{places.database}-wal")
    size = sum(path.stat().st_size for path in files if path.exists()) / 2**20
    return PATIENCE + EACH_MB * size + EACH_LARGE_MB * max(0.0, size - LARGE)


def answers(port: int, patience: float = PATIENCE) -> bool:
    """Whether a desk answers within its time."""
    end = time.monotonic() + patience
    while time.monotonic() < end:
        try:
            Desk(port).request_json(Routes.CAPTIVE, device=NOBODY)
            return True
        except NoAnswer:
            time.sleep(0.2)
        except Refused:
            return True
    return False
