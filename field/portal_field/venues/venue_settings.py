"""The settings of a venue by name: the lines of field.toml less those of a gateway, which it has not."""

from __future__ import annotations

import pathlib
import tomllib
from typing import Any

from portal_field.settings.venue import BadSettings, Field
from portal_field.venues.places import BadVenue, Places, venues_in

# Lines of a machine with a gateway, or of the whole machine. A venue by name has none of them: the values
# stand in for what no file of such a venue has.
OF_A_GATEWAY: dict[str, Any] = {
    "lan": "lan0", "wan": "wan0", "guests": "10.77.0.1/22", "leases": ["10.77.0.50", "10.77.3.250", "1h"],
    "counter": "10.88.0.1/24", "poll_seconds": 1.0, "grace_seconds": 5, "without_browser": [],
    "counter_internet": False}
OF_THE_MACHINE: dict[str, Any] = {
    "cert": "/etc/portal/tls/cert.pem", "key": "/etc/portal/tls/key.pem", "clock": "kernel",
    "on_failure": [], "backup_key": "", "metrics": "", "metrics_takings": False}
# What the guests' page does, which a venue without a gateway leaves to its access points
OF_THE_GUESTS_PAGE = ("guest_colour", "guest_prices", "terms_version", "terms_days", "free_plan",
                      "free_daily", "daily_report")


def read_venue(text: str) -> Field:
    """The settings in a venue's field.toml. BadVenue: a line is not valid, or not one of such a venue."""
    try:
        lines = tomllib.loads(text)
    except tomllib.TOMLDecodeError as fault:
        raise BadVenue(str(fault)) from fault
    for names, why in ((OF_A_GATEWAY, "a venue by name has no gateway on this machine"),
                       (OF_THE_MACHINE, "it is a line of /etc/portal/venues.toml, or of the whole machine"),
                       (OF_THE_GUESTS_PAGE, "a venue by name has no guests' page on this machine")):
        if wrong := sorted(lines.keys() & set(names)):
            raise BadVenue(f"{', '.join(wrong)}: {why}")
    if "desk_port" not in lines:
        raise BadVenue("missing: desk_port, where its server listens, on 127.0.0.1")
    stand_in = "".join(f"{key} = {value!r}\n".replace("False", "false")
                       for key, value in (OF_A_GATEWAY | OF_THE_MACHINE).items())
    try:
        return Field.read(stand_in + text)
    except BadSettings as fault:
        raise BadVenue(str(fault)) from fault


def venue_of(places: Places) -> Field:
    """The settings of a venue. BadVenue: they are not there, or not valid."""
    try:
        return read_venue(places.field.read_text(encoding="utf-8"))
    except (OSError, ValueError, BadVenue) as fault:
        raise BadVenue(f"{places.field}: {fault}") from fault


def own_venue(root: pathlib.Path) -> Field | None:
    """The settings of the venue without a name, where this machine has one."""
    try:
        return Field.read((root / "etc/portal/field.toml").read_text(encoding="utf-8"))
    except (OSError, ValueError, BadSettings):
        return None


def sockets_of(field: Field) -> list[tuple[str, int]]:
    """Addresses and ports at which the programs of a venue listen."""
    sockets = [("127.0.0.1", field.desk_port)]
    if radius := field.access_servers:
        sockets += [(radius.listen, radius.auth_port), (radius.listen, radius.acct_port)]
    return sockets


def clashes(venues: dict[str, Field], own: Field | None) -> dict[str, str]:
    """Why a venue cannot run beside the others, by its name: two of them have a port or a name of a page in
    common. The first one has it."""
    owners: dict[object, str] = {}
    if own:
        owners = dict.fromkeys([*sockets_of(own), own.counter_name], "the venue without a name")
    faults: dict[str, str] = {}
    for name, field in sorted(venues.items()):
        for thing in (*sockets_of(field), field.counter_name):
            if thing in owners:
                words = f"port {thing[1]} of {thing[0]}" if isinstance(thing, tuple) else f"the name {thing}"
                faults.setdefault(name, f"{words} is {owners[thing]}'s")
        if name not in faults:
            owners |= dict.fromkeys([*sockets_of(field), field.counter_name], f"the venue {name}")
    return faults


def all_venues(root: pathlib.Path) -> tuple[dict[str, Field], dict[str, str]]:
    """The settings of all venues by name, and what is wrong with those that cannot run."""
    fields, faults = {}, {}
    for name in venues_in(root):
        try:
            fields[name] = venue_of(Places(name, root))
        except BadVenue as fault:
            faults[name] = str(fault)
    own = own_venue(root) if (root / "etc/portal/gateway.toml").exists() else None
    for name, why in clashes(fields, own).items():
        del fields[name]
        faults[name] = f"{Places(name, root).field}: {why}"
    return fields, faults
