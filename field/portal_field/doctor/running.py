"""What a venue that is open does: its settings, rules, services and server."""

from __future__ import annotations

import json
import os
import re
import time
from collections import Counter
from collections.abc import Iterator
from typing import Any

from portal_field.doctor.findings import Finding, Machine, all_about, good, note, warning, wrong
from portal_field.lib.desk_client import Desk, NoAnswer, Refused, Routes
from portal_field.lib.machine_time import Notes
from portal_field.settings import accounts

RESTARTED = "MESSAGE_ID=5eb03494b6584870a536b337290809b3"      # systemd: a restart was scheduled
PARTS = ("portal.service", "portal-gateway.service", "portal-leases.service", "portal-front.service",
         "portal-counter.service", "portal-counter-nginx.service", "portal-settings.socket",
         "portal-give.socket", "portal-lookup@1.service", "portal-lookup@2.service", "nginx.service",
         "dnsmasq.service", "portal-backup.timer", "portal-restarts.timer")
NOTES = "/run/portal-clock"
START = "start of portal"       # what the server's own note is about
NOBODY = "02:00:00:00:00:00"    # a device that no guest has
ENOUGH, DEBIANS = 4096, 768     # connections at one time, and what Debian gives one worker


def rules(machine: Machine) -> Iterator[Finding]:
    """Whether the packet rules are loaded, and whether they let guests pass at all."""
    lan = machine.field.lan
    machine.needs_root("the rules")
    unit = rules_unit(machine)
    forwards = machine.read("/proc/sys/net/ipv4/ip_forward").strip() == "1"
    missing = [family for family in ("inet", "netdev")
               if machine.run("nft", "list", "table", family, "portal").returncode != 0]
    if missing:
        yield wrong(f"the table portal is not loaded ({', '.join(missing)}), and packets are "
                    + ("forwarded: what another firewall lets through passes" if forwards
                       else "not forwarded"),
                    f"`systemctl restart {unit}`; who flushed them? (`nft flush ruleset`, another firewall)")
    else:
        yield good("the tables are loaded")
        yield grace(machine, lan)
        yield from kept(machine)
        yield from all_about("bound", [bound(machine, lan)])
        yield good("packets are forwarded") if forwards else \
            wrong("packets are not forwarded: no guest gets out", f"`systemctl restart {unit}`")
    yield from all_about("ipv6", ipv6(machine, lan))


def grace(machine: Machine, lan: str) -> Finding:
    """Whether the kernel's timeout runs, which each good poll renews."""
    elements = elements_of(machine, "alive")
    running = [element["elem"] for element in elements if isinstance(element, dict) and "elem" in element]
    if any(element.get("val") == lan for element in running):
        return good("the grace timer runs")
    return wrong("the grace timer does not run: all guests are blocked, as the agent or the server is silent",
                 "`systemctl status portal-gateway portal`, `journalctl -u portal-gateway -n 20`",
                 "grace timer")


def kept(machine: Machine) -> Iterator[Finding]:
    """Whether guests go on by the agent's last list, as the server was stopped in order. Rules of an earlier
    version have no such set."""
    shown = machine.run("nft", "-j", "list", "set", "inet", "portal", "desk_closed")
    if shown.returncode == 0 and '"lo"' in shown.stdout:
        yield note("the server was stopped in order: the sessions go on without it for a minute at most",
                   "for longer `systemctl start portal`")


def elements_of(machine: Machine, name: str) -> list[Any]:
    """The elements of a set of the rules."""
    listing = json.loads(machine.output_of("nft", "-j", "list", "set", "inet", "portal", name))
    return [element for row in listing["nftables"] for element in row.get("set", {}).get("elem", ())]


def bound(machine: Machine, lan: str) -> Finding:
    """Whether the set `bound` has each permanent entry of the neighbour table: a device with its address."""
    if machine.run("nft", "list", "set", "inet", "portal", "bound").returncode != 0:
        return wrong("the rules that are loaded are of an earlier version: they have no set `bound`",
                     f"`systemctl reload {rules_unit(machine)}`")
    again = "`systemctl restart portal-leases`, `journalctl -u portal-leases -n 20`"
    if not elements_of(machine, "bound_ready"):
        return wrong("the set `bound` was not filled since the rules were loaded: all guests are blocked",
                     again)
    pairs = {tuple(element["concat"]) for element in elements_of(machine, "bound")}
    entries = json.loads(machine.output_of("ip", "-j", "-4", "neigh", "show", "dev", lan, "nud", "permanent")
                         or "[]")
    missing = sorted(row["dst"] for row in entries if (row.get("lladdr"), row["dst"]) not in pairs)
    if missing:
        return wrong(f"{len(missing)} devices are blocked, as their addresses are not in the set `bound`: "
                     + ", ".join(missing[:3]), again)
    return good(f"the set `bound` has the {len(entries)} devices of the neighbour table")


def ipv6(machine: Machine, lan: str) -> Iterator[Finding]:
    """Whether IPv6 is off on the guests' device."""
    name = f"/proc/sys/net/ipv6/conf/{lan}/disable_ipv6"
    if not machine.path(name).exists() or machine.read(name).strip() == "1":
        yield good(f"IPv6 is off on {lan}")
    else:
        yield wrong(f"IPv6 is on at {lan}",
                    f"`sysctl -w net/ipv6/conf/{lan}/disable_ipv6=1`; the agent sets it when it "
                    "starts, so look what turned it on")


def rules_unit(machine: Machine) -> str:
    """The name of the unit that loads the rules."""
    return f"portal-rules@{machine.output_of('systemd-escape', '--', machine.field.lan).strip()}.service"


def services(machine: Machine) -> Iterator[Finding]:
    """Whether every unit of the venue runs and starts at boot."""
    needed = (*PARTS, rules_unit(machine))
    keys = "Id,LoadState,ActiveState,SubState,Result,UnitFileState"
    output = machine.output_of("systemctl", "show", "--property", keys, *needed, "portal*")
    units = {}
    for block in output.split("\n\n"):
        row = dict(line.split("=", 1) for line in block.strip().splitlines() if "=" in line)
        units[row.get("Id", "")] = row
    fine = 0
    for name in sorted(unit for unit in units if unit):
        is_needed = name in needed or units[name].get("UnitFileState") == "enabled"
        faults = list(all_about(part_of(name), faults_of(name, units[name], is_needed)))
        fine += name in needed and not faults
        yield from faults
    yield good(f"{fine} of {len(needed)} units that every venue needs are active")
    yield from restarts(machine, set(needed) | units.keys())


def part_of(unit: str) -> str:
    """What a finding of a unit is about: its name without `.service`, and that of the rules without more."""
    return "portal-rules" if unit.startswith("portal-rules@") else unit.removesuffix(".service")


def faults_of(name: str, unit: dict[str, str], needed: bool) -> Iterator[Finding]:
    """What is wrong with one unit."""
    see = f"`journalctl -u {name} -n 20`"
    state = unit.get("ActiveState", "")
    if state == "failed":
        yield wrong(f"{name} has failed ({unit.get('Result', '')})",
                    f"{see}, then `systemctl restart {name}`")
    elif needed and unit.get("LoadState") != "loaded":
        yield wrong(f"{name} is not there ({unit.get('LoadState')})",
                    "`portal-setup`, or the steps of README.md by hand")
    elif needed and state != "active":
        yield wrong(f"{name} is not active: {state} ({unit.get('SubState')})",
                    f"{see}, then `systemctl start {name}`")
    elif needed and unit.get("UnitFileState") not in ("enabled", "enabled-runtime", "static", "generated"):
        yield warning(f"{name} does not start at boot ({unit.get('UnitFileState')})",
                      f"`systemctl enable {name}`")


def restarts(machine: Machine, units: set[str]) -> Iterator[Finding]:
    """Which units ended by themselves and were started again in the last hour."""
    machine.needs_root("restarts in the last hour")
    output = machine.output_of("journalctl", "-q", "-o", "json", "--output-fields=UNIT",
                               f"--since=@{int(machine.now) - 3600}", RESTARTED)
    counts = Counter(json.loads(line).get("UNIT") for line in output.splitlines())
    for name in sorted(unit for unit in counts if unit in units):
        times = "once" if counts[name] == 1 else f"{counts[name]} times"
        yield warning(f"{name} ended by itself and was started again {times} in the last hour",
                      f"`journalctl -u {name} --since -1h`", part_of(name))


def connections(machine: Machine) -> Iterator[Finding]:
    """How many connections nginx of the guests' page can have, by its whole configuration. Debian's is 768
    for each processor."""
    machine.needs_root("how many connections nginx takes")
    output = machine.output_of("nginx", "-T", "-q")

    def value(key: str, default: str) -> str:
        """The value of a line of the configuration, or nginx's own."""
        match = re.search(rf"(?m)^[^#\n]*\b{key}\s+(\w+)\s*;", output)
        return match[1] if match else default

    each, workers = int(value("worker_connections", "512")), value("worker_processes", "1")
    count = os.cpu_count() or 1 if workers == "auto" else int(workers)
    limit_text = f"nginx takes {count * each} connections of guests ({count} workers, {each} each)"
    if count * each < ENOUGH:
        # nginx has this line in one place, in a file of Debian's that includes none there
        do = (f"in /etc/nginx/nginx.conf, section events: `worker_connections {ENOUGH};` (`sed -i "
              f"'s/worker_connections .*;/worker_connections {ENOUGH};/' /etc/nginx/nginx.conf`), then "
              "`systemctl restart nginx`")
        yield warning(f"{limit_text}: few, as each guest may hold 48", do) if count * each < DEBIANS else \
            note(f"{limit_text}: enough for a small venue, as each guest may hold 48", f"for more {do}")
    else:
        yield good(limit_text)


def server(machine: Machine) -> Iterator[Finding]:
    """Whether the server serves: its own note, and one whole request with a time limit; root is one of the
    users that may connect."""
    port, note = machine.field.desk_port, Notes(str(machine.path(NOTES))).read("state")
    machine.needs_root("whether the server answers")
    if note.get("is") == "waits":
        yield wrong(f"it waits, as the time may be wrong: {note.get('why')}",
                    "compare the time and the year with another clock. If it is right, say so on the "
                    "counter's page; otherwise set it (`timedatectl set-time`)", START)
        return
    if note.get("is") == "failed":
        yield wrong(f"it does not start: {note.get('why')}", "then `systemctl restart portal`", START)
        return
    start = time.monotonic()
    try:
        Desk(port).request_json(Routes.CAPTIVE, device=NOBODY)
    except Refused as refusal:
        yield wrong(f"on port {port} it refuses: {refusal.word}", "`journalctl -u portal -n 20`, then "
                    "`systemctl restart portal`")
    except NoAnswer as fault:
        yield wrong(f"on port {port} it does not answer: {fault}", "`systemctl restart portal`; who holds a "
                    f"connection? (`ss -tnp sport = :{port}`)")
    else:
        yield good(f"it answers in {1000 * (time.monotonic() - start):.0f} ms")


def clerks(machine: Machine) -> Iterator[Finding]:
    """Whether somebody can log in at the counter, a manager among them, by a file that not every user can
    read."""
    name, before = f"/etc/portal/{accounts.FILE}", f"/etc/portal/{accounts.BEFORE}"
    add, path = "`portal-setup --clerk NAME`; by hand `./setup --clerk NAME`", machine.path(name)
    if not path.exists():
        if machine.path(before).exists():
            yield wrong(f"there is no {name}, only the {before} of an earlier version",
                        "`portal-setup` makes it")
        else:
            yield wrong(f"no clerk has a password: there is no {name}", add)
        return
    mode = path.stat().st_mode
    if mode & 0o007:
        yield warning(f"every user of this machine can read {name}", f"`chmod 0640 {name}`")
    try:
        found = accounts.Accounts.read(machine.read(name))
    except accounts.BadAccounts as fault:
        yield wrong(f"{name}: {fault}", "mend that line: until then the accounts of before count, and none "
                    f"after a restart. The counter's page keeps the file of before as {name}.before")
        return
    if not found:
        yield wrong(f"no clerk has a password in {name}", add)
    elif not found.managers:
        yield wrong(f"nobody is a manager in {name}", "`portal-setup --clerk NAME --role manager`")
    else:
        yield good(f"{len(found)} accounts, {len(found.managers)} of managers")
        yield from left_in(machine, before, found)


def left_in(machine: Machine, before: str, found: accounts.Accounts) -> Iterator[Finding]:
    """Who is still in the password file of an earlier version, and has no account any more."""
    if machine.path(before).exists():
        names = sorted(accounts.Accounts.of_earlier_version(machine.read(before)).keys() - found.keys())
        if names:
            yield warning(f"{before}, which is not read any more, still has {', '.join(names)}: an earlier "
                          "version would let them in",
                          f"`rm {before}` once no such version comes back")
