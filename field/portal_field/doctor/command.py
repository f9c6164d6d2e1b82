"""Looks at a venue's machine, and says in words what is wrong and what to do.

    doctor [--json] [--all] [FIELD.TOML]

Each line: a check, what it saw; below it what to do. Without --all what is good, or follows from another
finding, is counted and not printed. Run it as root: without, it says what was passed over. Exit codes: 0
nothing is wrong (warnings alone are none), 1 something is. docs/DOCTOR.md lists each check, and the shape of
--json.
"""

from __future__ import annotations

import argparse
import json
import pathlib
import time
from collections import Counter
from collections.abc import Iterator

from portal_field.doctor.base import backup, clock, disk, logo, versions, zone
from portal_field.doctor.causes import Traced, folded, trace
from portal_field.doctor.certificates import certificate
from portal_field.doctor.findings import (
    Finding, Look, Machine, State, findings_of, good, passed_over, warning, wrong)
from portal_field.doctor.network import addresses, devices, limits, ports
from portal_field.doctor.optional import optional, venue_lines
from portal_field.doctor.others import others
from portal_field.doctor.prices import free_minutes, plans
from portal_field.doctor.running import clerks, connections, rules, server, services
from portal_field.settings.venue import BadSettings, Field

MADE = "/etc/portal/gateway.toml"       # by set-up, each time


def settings(machine: Machine, path: pathlib.Path) -> Iterator[Finding]:
    """Whether field.toml can be read and is valid, and whether set-up ran after its last change."""
    try:
        machine.field_or_none = Field.in_file(path)
    except PermissionError:
        machine.unread = "only root can read"
        yield passed_over(f"{path} only root can read")
        return
    except BadSettings as fault:
        yield wrong(fault.at(path), fault.do)
        return
    if machine.field_or_none.wifi_password and path.stat().st_mode & 0o004:
        yield warning(f"every user of this machine can read {path}, which has the password of the Wi-Fi",
                      f"`chmod 0640 {path}`")
    settings_made = machine.path(MADE)
    if settings_made.exists() and path.stat().st_mtime > settings_made.stat().st_mtime:
        yield warning(f"{path} was changed after the last set-up", "`portal-setup`, so that it counts")
    else:
        yield good(f"{path} is whole")


def set_up(machine: Machine) -> Iterator[Finding]:
    """Whether set-up has run, which looks at this machine by itself before it changes anything."""
    if machine.path(MADE).exists():
        yield good("set-up has run")
    else:
        yield wrong(f"set-up has not run: there is no {MADE}", "`portal-setup`")


CHECKS: tuple[Look, ...] = (set_up, devices, addresses, limits, certificate, zone, clock, ports, others,
                            rules, services, connections, server, clerks, plans, free_minutes, logo, optional,
                            venue_lines, backup, disk, versions)


def find_all(machine: Machine, path: pathlib.Path) -> list[tuple[str, Finding]]:
    """What all checks find, the settings first."""
    first = [("settings", finding) for finding in settings(machine, path)]
    return first + list(findings_of(CHECKS, machine))


def print_findings(rows: list[Traced], everything: bool) -> None:
    """Prints findings for people. Where not everything is asked for: causes that are not good alone, each
    with the number of those that follow from it."""
    follow = Counter(row.cause for row in rows)
    for place, row in enumerate(rows):
        finding, state = row.finding, row.finding.state.value
        if not everything and (finding.state is State.GOOD or row.cause is not None):
            continue
        print(f"{state.upper() if finding.state is State.WRONG else state:11} {row.check}: {finding.what}")
        if finding.do:
            print(f"{'':15} do: {finding.do}")
        if row.cause is not None:
            print(f"{'':15} follows from: {rows[row.cause].check}")
        elif follow[place] and not everything:
            print(f"{'':15} {folded(follow[place])}")
    counts = Counter(row.finding.state for row in rows if row.cause is None)
    more = f"; {len(rows) - follow[None]} follow" if len(rows) > follow[None] else ""
    fine = counts[State.GOOD] + counts[State.NOTE]
    print(f"{counts[State.WRONG]} wrong, {counts[State.WARNING]} warnings, {fine} good, "
          f"{counts[State.PASSED_OVER]} passed over{more}")


def print_json(rows: list[Traced], is_wrong: bool) -> None:
    """Prints findings as one JSON object."""
    findings = [{"check": row.check, "state": row.finding.state.value, "what": row.finding.what,
                 "do": row.finding.do, "follows": "" if row.cause is None else rows[row.cause].check}
                for row in rows]
    at = time.strftime("%Y-%m-%dT%H:%M:%SZ", time.gmtime())
    print(json.dumps({"state": "wrong" if is_wrong else "good", "at": at, "findings": findings},
                     ensure_ascii=False, indent=1))


def main() -> int:
    """Runs all checks; 0 where nothing is wrong, else 1."""
    words = argparse.ArgumentParser(description="Looks at a venue's machine, and says what is wrong and what "
                                                "to do.")
    words.add_argument("--json", action="store_true", help="for machines: one object (docs/DOCTOR.md)")
    words.add_argument("--all", action="store_true",
                       help="also print what is good, and what follows from another finding")
    words.add_argument("--root", type=pathlib.Path, default=pathlib.Path("/"),
                       help="where the machine's files are")
    words.add_argument("--portal", default="/usr/bin/portal", help="the program, as a command line")
    words.add_argument("settings", type=pathlib.Path, nargs="?", default="/etc/portal/field.toml",
                       metavar="FIELD.TOML")
    args = words.parse_args()
    rows = trace(find_all(Machine(args.root, portal=args.portal), args.settings))
    is_wrong = any(row.finding.state is State.WRONG for row in rows)
    if args.json:
        print_json(rows, is_wrong)
    else:
        print_findings(rows, args.all)
    return int(is_wrong)
