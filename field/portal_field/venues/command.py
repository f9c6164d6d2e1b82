"""portal-venues: the venues by name of a machine.

    portal-venues add NAME --house TEXT --counter-name HOST --name HOST --zone ZONE [--plans FILE]
    portal-venues apply [NAME ..] [--prices-as-shipped]
    portal-venues clerk NAME CLERK [--role ROLE]
    portal-venues retire NAME
    portal-venues status
    portal-venues upgrade
    portal-venues collect [NAME ..]
    portal-venues report [--weeks N] [--csv FILE [--from DAY] [--to DAY]]
    portal-venues plans [FILE] [--offers FILE] [--venue NAME ..] [--look]
    portal-venues targets FILE [--port PORT] [--domain DOMAIN]
    portal-venues reader ROLE (--office | --venue NAME .. | --none)

`add` makes a venue's settings, with the next free port, and applies them. `apply` carries out what the
settings say, of all venues or of some. `clerk` makes an account of a venue's counter, or gives it a new
password. `retire` ends a venue, after a last copy; its files and its database stay. `status` says how each
venue is. `upgrade` starts one venue after another with the program that is installed now. Where the
table of venues is in PostgreSQL, `collect` copies takings, vouchers and sessions into the view of all venues
beside it, `report` says what the office should know of it, and `reader` lets a role of PostgreSQL read it.
`plans` brings the plans of a chain to its venues. `targets` names the machines of the table to Prometheus.
"""

from __future__ import annotations

import argparse
import datetime
import os
import pathlib
import sys
from typing import Any

from portal_field.settings import accounts, clerk_account
from portal_field.settings.venue import toml_lines
from portal_field.venues import chain_plans, collect, ending, report, status, table, view
from portal_field.venues.apply import Apply
from portal_field.venues.ending import RETIRED
from portal_field.venues.places import (
    FIRST_PORT, LAST_PORT, BadVenue, Machine, Places, check_name, machine_of)
from portal_field.venues.units import UnitFault, Units
from portal_field.venues.upgrade import Upgrade
from portal_field.venues.venue_settings import all_venues, read_venue
from portal_field.venues.files import SECRET, Files

ROOT = pathlib.Path("/")


def ports_in(root: pathlib.Path) -> set[int]:
    """The ports of desks that are taken, also by venues that were retired."""
    taken = {8080}
    for path in (root / "etc/portal").glob("venues/*/field.toml*"):
        for line in path.read_text(encoding="utf-8", errors="replace").splitlines():
            key, _, value = line.partition("=")
            if key.strip() == "desk_port" and value.split("#")[0].strip().isdecimal():
                taken.add(int(value.split("#")[0]))
    return taken


def next_port(taken: set[int]) -> int:
    """The lowest port that is free. BadVenue: there is none."""
    for port in range(FIRST_PORT, LAST_PORT + 1):
        if port not in taken:
            return port
    raise BadVenue(f"no port from {FIRST_PORT} to {LAST_PORT} is free")


def settings_text(args: argparse.Namespace, port: int) -> str:
    """The lines of a new venue's field.toml. BadVenue: one is not valid."""
    text = toml_lines({"house": args.house, "name": args.name, "counter_name": args.counter_name,
                       "zone": args.zone, "desk_port": port})
    read_venue(text)
    return text


def add(args: argparse.Namespace, machine: Machine) -> int:
    """Makes the settings of a venue, and applies them."""
    name = check_name(args.venue)
    places = Places(name, ROOT)
    before = places.settings / RETIRED
    if places.field.exists() and not machine.database:
        raise BadVenue(f"there is a venue {name} already, by {places.field}")
    kept = next((path for path in (places.field, before) if path.exists()), None)
    if kept:        # to be put into the table, or one that was retired
        text = kept.read_text(encoding="utf-8")
    else:
        taken = ports_in(ROOT) | (table.ports(machine) if machine.database else set())
        text = settings_text(args, next_port(taken))
    if machine.database:
        table.add(machine, name, text)
    writer = Files(None, ROOT, "")      # type: ignore[arg-type]
    if args.plans:
        writer.write(places.settings / "plans.toml", args.plans.read_text(encoding="utf-8"))
    writer.write(places.field, text, SECRET)
    before.unlink(missing_ok=True)
    print(f"{name}: settings: {places.field}", flush=True)
    return apply(args, machine, [name])


def apply(args: argparse.Namespace, machine: Machine, names: list[str]) -> int:
    """Takes the table's settings, where PostgreSQL has them, and carries out what the settings say."""
    is_away = False
    if machine.database:
        try:
            table.export(machine, ROOT)
        except table.Away as fault:
            is_away = True
            print(f"the table of venues is away, and the files count as they are: {fault}", file=sys.stderr)
    venues, faults = all_venues(ROOT)
    names = names or sorted({*venues, *faults})
    if unknown := [name for name in names if name not in venues and name not in faults]:
        raise BadVenue(f"there is no venue {', '.join(unknown)}")
    maker = Apply(machine, ROOT, Units(), prices_as_shipped=args.prices_as_shipped)
    return maker.run(venues, names, faults) or int(is_away)


def clerk(args: argparse.Namespace) -> int:
    """Makes an account of a venue's counter, or gives it a new password."""
    places = Places(check_name(args.venue), ROOT)
    if not places.field.exists():
        raise BadVenue(f"there is no venue {places.name}")
    writer = Files(None, ROOT, "")      # type: ignore[arg-type]
    clerk_account.new_password(places.settings, args.clerk, args.role or "").put(
        places.settings, lambda path, text: writer.write(path, text, accounts.MODE, accounts.GROUP))
    return 0


def add_words_of_view(kinds: Any) -> None:
    """Adds the words of what concerns the view of all venues."""
    taken = kinds.add_parser("collect", help="copy takings, vouchers and sessions into the view of all")
    taken.add_argument("venues", nargs="*", metavar="NAME")
    told = kinds.add_parser("report", help="takings by venue and week, and what is wrong, out of the view")
    told.add_argument("--weeks", type=int, choices=range(1, 54), default=2, metavar="N",
                      help="how many weeks stand beside one another, at most 53; else 2")
    told.add_argument("--csv", metavar="FILE", help="write the takings of each venue and day")
    told.add_argument("--from", dest="first", type=datetime.date.fromisoformat, metavar="DAY",
                      help="the first day of the file, such as 2026-01-31; else a year before the last one")
    told.add_argument("--to", dest="last", type=datetime.date.fromisoformat, metavar="DAY",
                      help="its last day; else today")
    chain = kinds.add_parser("plans", help="bring the plans of a chain to all its venues or some")
    chain.add_argument("file", nargs="?", type=pathlib.Path, metavar="FILE",
                       help="the plans.toml of the chain; else those in the table")
    chain.add_argument("--offers", type=pathlib.Path, metavar="FILE", help="its offers.toml")
    chain.add_argument("--venue", action="append", dest="seen", metavar="NAME", default=[],
                       help="this venue; can be repeated")
    chain.add_argument("--look", action="store_true",
                       help="change nothing: say what would be, and what differs")
    scraped = kinds.add_parser("targets", help="name the machines of the table to Prometheus (file_sd)")
    scraped.add_argument("file", type=pathlib.Path, metavar="FILE")
    scraped.add_argument("--port", type=int, default=table.EXPORTER,
                         help=f"where it asks them; else {table.EXPORTER}")
    scraped.add_argument("--domain", default="", help="what follows a machine's name")
    reader = kinds.add_parser("reader", help="let a role of PostgreSQL read the view")
    reader.add_argument("role", metavar="ROLE")
    rows = reader.add_mutually_exclusive_group(required=True)
    rows.add_argument("--office", action="store_const", dest="seen", const=[view.ALL], help="all venues")
    rows.add_argument("--venue", action="append", dest="seen", metavar="NAME",
                      help="this venue; can be repeated")
    rows.add_argument("--none", action="store_const", dest="seen", const=[], help="nothing any more")


def show_report(args: argparse.Namespace, machine: Machine) -> int:
    """Prints the report of the office, or writes its file."""
    last = args.last or datetime.date.today()
    if not args.csv:
        print(report.show(machine, args.weeks, last), end="")
        return 0
    text = report.as_csv(machine, args.first or last - datetime.timedelta(365), last)
    pathlib.Path(args.csv).write_text(text, encoding="utf-8")
    return 0


def push_plans(args: argparse.Namespace, machine: Machine) -> int:
    """Brings the plans of the chain to the venues."""
    if args.offers and not args.file:
        raise BadVenue("--offers goes with a file of plans")
    chain = chain_plans.read_files(args.file, args.offers) if args.file else None
    return chain_plans.push(machine, ROOT, Units(), chain, args.seen, args.look)


def set_reader(args: argparse.Namespace, machine: Machine) -> int:
    """Lets a role of PostgreSQL read the view."""
    with view.opened(machine) as link:
        view.venues_of(link, machine)
        view.set_reader(link, args.role, args.seen)
    what = "all venues" if args.seen == [view.ALL] else ", ".join(args.seen) or "nothing"
    print(f"the role {args.role} reads: {what}")
    return 0


def read_words() -> argparse.Namespace:
    """The words of the command line."""
    words = argparse.ArgumentParser(description="The venues by name of this machine.")
    kinds = words.add_subparsers(dest="kind", required=True)
    new = kinds.add_parser("add", help="make a venue, and start it")
    new.add_argument("--house", default="", help="the venue's name, as guests and clerks read it")
    new.add_argument("--name", default="", help="the portal's name, to which the vouchers lead")
    new.add_argument("--counter-name", default="", help="the name of the counter's page")
    new.add_argument("--zone", default="", help="the time zone, such as Europe/Berlin")
    new.add_argument("--plans", type=pathlib.Path, metavar="FILE", help="its plans.toml")
    old = kinds.add_parser("apply", help="carry out what the settings of the venues say")
    for kind in (new, old):
        kind.add_argument("--prices-as-shipped", action="store_true", help="take the sample's prices")
    person = kinds.add_parser("clerk", help="make an account of a venue's counter, or set its password")
    end = kinds.add_parser("retire", help="end a venue; its files and its database stay")
    for kind in (new, person, end):
        kind.add_argument("venue", metavar="NAME")
    person.add_argument("clerk", metavar="CLERK")
    person.add_argument("--role", choices=accounts.ROLES)
    old.add_argument("venues", nargs="*", metavar="NAME")
    kinds.add_parser("status", help="say how each venue is")
    kinds.add_parser("upgrade", aliases=["renew"],
                     help="start one venue after another with the program that is installed now")
    add_words_of_view(kinds)
    return words.parse_args()


def run(args: argparse.Namespace) -> int:
    """Does what the command line says. BadVenue, table.Away, UnitFault: why it cannot be done."""
    machine = machine_of(ROOT)
    if args.kind == "add":
        return add(args, machine)
    if args.kind == "apply":
        return apply(args, machine, args.venues)
    if args.kind == "clerk":
        return clerk(args)
    if args.kind == "status":
        return status.show(machine, ROOT, Units())
    if args.kind in ("upgrade", "renew"):
        return Upgrade(machine, ROOT, Units()).run()
    if args.kind == "collect":
        return collect.collect(machine, ROOT, args.venues)
    if args.kind == "report":
        return show_report(args, machine)
    if args.kind == "plans":
        return push_plans(args, machine)
    if args.kind == "targets":
        Files(None, ROOT, "").write(                    # type: ignore[arg-type]
            args.file.resolve(), table.targets(machine, args.port, args.domain))
        return 0
    if args.kind == "reader":
        return set_reader(args, machine)
    status_of_end = ending.retire(Places(check_name(args.venue), ROOT), machine, Units())
    args.prices_as_shipped = False
    return status_of_end or apply(args, machine, [])


def main() -> int:
    """Runs the command; 0 where all went well."""
    args = read_words()
    if os.geteuid() != 0:
        print("portal-venues: it needs root", file=sys.stderr)
        return 1
    os.umask(0o022)
    try:
        return run(args)
    except (BadVenue, table.Away, UnitFault, OSError) as fault:
        print(f"portal-venues: {fault}", file=sys.stderr)
        return 1


if __name__ == "__main__":
    sys.exit(main())
