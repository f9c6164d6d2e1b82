"""What else nginx, dnsmasq and nftables do on this machine: what of it the venue's files would change, or be
hindered by."""

from __future__ import annotations

import ipaddress
import json
import re
from collections.abc import Iterator
from typing import Any, NamedTuple

from portal_field.doctor.findings import CannotTell, Finding, Machine, all_about, good, warning, wrong

OURS = {"portal.conf", "portal-guests.conf", "portal-counter.conf"}
NOT_READ = ("~", ".dpkg-dist", ".dpkg-old", ".dpkg-new")
ONCE = ("dhcp-leasefile", "dhcp-lease-max", "edns-packet-max")      # dnsmasq takes each of these once
SHARED = "dhcp-authoritative, dhcp-ignore-clid, edns-packet-max, domain-needed, bogus-priv, stop-dns-rebind"
LOOPBACK = re.compile(r"(?m)^\s*nameserver\s+127\.0\.0\.1\s*$")


class Line(NamedTuple):
    """A line of another's file for dnsmasq."""
    path: str
    key: str
    value: str


def dnsmasq_lines(machine: Machine) -> list[Line]:
    """What dnsmasq reads beside the venue's file, by Debian's rules."""
    folder = machine.path("/etc/dnsmasq.d")
    paths = [machine.path("/etc/dnsmasq.conf"), *(sorted(folder.iterdir()) if folder.is_dir() else ())]
    lines = []
    for path in paths:
        name = path.name
        if not path.is_file() or name in OURS or name.startswith(".") or name.endswith(NOT_READ):
            continue
        name = f"/{path.relative_to(machine.root)}"
        for line in machine.read(name).splitlines():
            key, _, value = line.partition("#")[0].strip().partition("=")
            if key.strip():
                lines.append(Line(name, key.strip(), value.strip()))
    return lines


def other_names(machine: Machine) -> Iterator[Finding]:
    """Which lines of dnsmasq's other files do not go with the venue's: it has one list of files for all
    networks."""
    lines = dnsmasq_lines(machine)
    faults = [finding for line in lines if (finding := fault_of(machine, line))]
    if lines and not any(line.key in ("interface", "listen-address") for line in lines):
        faults.append(wrong(f"{lines[0].path}: dnsmasq answers on every network today; with the venue's file "
                            "it would answer guests alone",
                            "name its networks there, each by a line interface=DEVICE"))
    if machine.path("/etc/resolv.conf").is_file() and LOOPBACK.search(machine.read("/etc/resolv.conf")):
        faults.append(wrong("/etc/resolv.conf: this machine asks its own dnsmasq for names, and the venue's "
                            "file takes it off the loopback",
                            "name another server there: the provider's, or systemd-resolved"))
    yield from faults
    if not faults and lines and not machine.is_installed:
        yield warning(f"dnsmasq reads {', '.join(sorted({line.path for line in lines}))}, too: those "
                      f"networks are served "
                      f"on, and for them hold from now on: {SHARED}", "look there after the set-up")
    elif not faults:
        yield good("dnsmasq reads nothing that hinders the venue")


def fault_of(machine: Machine, line: Line) -> Finding | None:
    """What is wrong with a line of dnsmasq's files beside the venue's; None where nothing is."""
    field, line_text = machine.field, f"{line.path}: {line.key}" + (f"={line.value}" if line.value else "")
    if line.key == "bind-interfaces":
        return wrong(f"{line_text} does not go with the venue's bind-dynamic: dnsmasq would not start",
                     "put bind-dynamic in its place: it does the same, also for an address that comes late")
    if line.key in ONCE:
        return wrong(f"{line_text}: dnsmasq takes this line once, and the venue's file has it",
                     "take the line out")
    if line.key == "port" and line.value != "53":
        return wrong(f"{line_text}: guests would get no names", "take the line out")
    if line.key in ("except-interface", "no-dhcp-interface") and field.lan in line.value.split(","):
        return wrong(f"{line_text}: guests would not be served", f"take {field.lan} out of the line")
    if line.key == "dhcp-range" and in_guests(line.value, ipaddress.IPv4Interface(field.guests).network):
        return wrong(f"{line_text}: these addresses are on the guests' network",
                     "take the line out: leases are in field.toml")
    return None


def in_guests(value: str, network: ipaddress.IPv4Network) -> bool:
    """Whether a value of dnsmasq names an address of the guests' network."""
    for word in value.split(","):
        try:
            if ipaddress.IPv4Address(word) in network:
                return True
        except ValueError:
            pass
    return False


def other_rules(machine: Machine) -> Iterator[Finding]:
    """Which chains of other tables drop what they do not accept, and so guests' packets with a session,
    too."""
    machine.needs_root("the rules in the kernel")
    rows: list[dict[str, Any]] = json.loads(machine.output_of("nft", "-j", "list", "ruleset"))["nftables"]
    field = machine.field
    faults = 0
    for row in rows:
        chain = row.get("chain", {})
        where = (chain.get("family"), chain.get("table"))
        drops = chain.get("policy") == "drop" and chain.get("hook") in ("forward", "input")
        if where[1] == "portal" or not drops:
            continue
        if field.lan in json.dumps([other for other in rows if of_table(other) == where]):
            continue        # who made it thought of the guests' device
        faults += 1
        place = f"nftables: table {where[0]} {where[1]}, chain {chain['name']}"
        if chain["hook"] == "forward":
            yield wrong(f"{place}: it drops what it does not accept, guests with a session too",
                        f"there: iifname {field.lan} oifname {field.wan} accept; iifname {field.wan} oifname "
                        f"{field.lan} "
                        "ct state established,related accept (and the same in /etc/nftables.conf)")
        else:
            yield wrong(f"{place}: it drops what it does not accept, guests' questions for an address and a "
                        f"page too",
                        f"there: iifname {field.lan} accept (the venue's own table lets in four ports), and "
                        "port 443 from the counter's network (and the same in /etc/nftables.conf)")
    if not faults:
        yield good("no other rules of nftables drop guests' packets")


def of_table(row: dict[str, Any]) -> tuple[str | None, str | None]:
    """The family and the table of an object of nft's list."""
    inner: dict[str, Any] = next(iter(row.values()), {})
    return inner.get("family"), inner.get("table")


def others(machine: Machine) -> Iterator[Finding]:
    """Lines of dnsmasq and rules of nftables beside the venue's that conflict with these."""
    yield from all_about("dnsmasq's files", other_names(machine))
    try:
        yield from other_rules(machine)
    except json.JSONDecodeError as fault:
        raise CannotTell(f"nft's answer cannot be read: {fault}") from fault
