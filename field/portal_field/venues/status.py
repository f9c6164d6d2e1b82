"""How each venue by name of a machine is, line by line."""

from __future__ import annotations

import pathlib
import time

from portal_field.lib.desk_client import Desk, NoAnswer, Refused, Routes
from portal_field.settings.accounts import BadAccounts, of_venue
from portal_field.settings.venue import Field
from portal_field.venues import table
from portal_field.venues.places import Machine, Places
from portal_field.venues.units import Units
from portal_field.venues.venue_settings import all_venues

OLD_COPY = 26 * 3600    # seconds: a night was left out


def state_of_desk(places: Places, field: Field, units: Units) -> str:
    """What the desk does: answers, silent (it runs and gives no answer), or systemd's word."""
    if not units.is_active(places.unit):
        return "off"
    try:
        Desk(field.desk_port, timeout=2).request_json(Routes.CAPTIVE, device="02:00:00:00:00:00")
    except NoAnswer:
        return "silent"
    except Refused:
        pass
    return "answers"


def age_of_copy(places: Places, now: float) -> str:
    """How old the last good copy is, in hours."""
    path = places.copies / "copied"
    return f"{(now - path.stat().st_mtime) / 3600:.0f} h" if path.exists() else "none"


def troubles_of(places: Places, desk: str, now: float) -> list[str]:
    """What is wrong with a venue, in words."""
    found = [] if desk == "answers" else [f"its desk is {desk}: journalctl -u {places.unit}"]
    try:
        if not of_venue(places.settings):
            found.append("nobody can log in")
    except FileNotFoundError:
        found.append(f"nobody can log in: portal-venues clerk {places.name} NAME")
    except (OSError, BadAccounts) as fault:
        found.append(f"its accounts: {fault}")
    copied = places.copies / "copied"
    if places.database.exists() and copied.exists() and now - copied.stat().st_mtime > OLD_COPY:
        found.append(f"its last copy is {age_of_copy(places, now)} old")
    return found


def show(machine: Machine, root: pathlib.Path, units: Units) -> int:
    """Prints a line for each venue, and what is wrong; 0 where nothing is."""
    venues, faults = all_venues(root)
    now, wrong = time.time(), len(faults)
    print(f"{'venue':20} {'port':>5} {'desk':8} {'copy':>6} house")
    for name, field in sorted(venues.items()):
        places = Places(name, root)
        desk = state_of_desk(places, field, units)
        print(f"{name:20} {field.desk_port:5} {desk:8} {age_of_copy(places, now):>6} {field.house}")
        for trouble in troubles_of(places, desk, now):
            wrong += 1
            print(f"    {trouble}")
    for name, fault in sorted(faults.items()):
        print(f"{name:20} {'-':>5} {'off':8} {'-':>6} {fault}")
    if machine.database:
        for line in table.differences(machine, root):
            wrong += 1
            print(f"table: {line}")
    return int(bool(wrong))
