"""Devices, addresses, limits and ports."""

from __future__ import annotations

import ipaddress
import json
import re
from collections.abc import Iterator
from dataclasses import dataclass
from typing import Any

from portal_field.doctor.findings import CannotTell, Finding, Machine, all_about, good, warning, wrong

UP_AT_BOOT = "and have it so after a boot, too (/etc/network/interfaces)"
LEASES = "/var/lib/misc/dnsmasq.leases"
NEIGHBOURS = "/proc/sys/net/ipv4/neigh/default/gc_thresh3"
EVERY = ("0.0.0.0", "*")        # as `ss` writes a socket for all addresses
LOOPBACK = "127.0.0.1"          # where the server listens
# TCP ports, and which part of the venue has each
OF_THE_VENUE = {53: "dnsmasq", 80: "nginx", 443: "nginx"}
CHOOSE = "choose another in field.toml, from {} on, that nothing on this machine has: 8080 is the usual one"
UNPRIVILEGED = "/proc/sys/net/ipv4/ip_unprivileged_port_start"
LISTENER = re.compile(r"(tcp|udp)\s+\S+\s+\d+\s+\d+\s+(\S+):(\d+)\s+\S+\s*(.*)")


def network_devices(machine: Machine) -> dict[str, dict[str, Any]]:
    """The network devices by their names, as `ip` shows them."""
    return {row["ifname"]: row for row in json.loads(machine.output_of("ip", "-j", "address", "show"))
            if "ifname" in row}


def addresses_of(device: dict[str, Any]) -> list[ipaddress.IPv4Interface]:
    """The IPv4 addresses of a device, as `ip` prints it."""
    return [ipaddress.IPv4Interface(f"{row['local']}/{row['prefixlen']}")
            for row in device.get("addr_info", ())
            if row.get("family") == "inet"]


def device_of(devices: dict[str, dict[str, Any]], address: ipaddress.IPv4Interface) -> str | None:
    """The name of the device that has an address; None where none has it."""
    return next((name for name, device in devices.items()
                 if address.ip in (own.ip for own in addresses_of(device))), None)


def devices(machine: Machine) -> Iterator[Finding]:
    """Whether the network devices of the settings are there, up and apart."""
    field, shown_devices = machine.field, network_devices(machine)
    for key, name in (("lan", field.lan), ("wan", field.wan)):
        if name in shown_devices:
            yield link(machine, key, shown_devices[name])
        else:
            yield wrong(f"{key} = {name!r}: this machine has no such network device",
                        "plug it in, or change the line in field.toml; there are "
                        + ", ".join(sorted(shown_devices)), key)
    counter = device_of(shown_devices, ipaddress.IPv4Interface(field.counter))
    if counter in (field.lan, field.wan):
        yield wrong(f"counter = {field.counter!r}: this address is on {counter}, which is no network of the "
                    f"counter",
                    "give the counter a network device of its own")
    elif counter:
        yield link(machine, "counter", shown_devices[counter])


def link(machine: Machine, key: str, device: dict[str, Any]) -> Finding:
    """Whether a device is up and has a link."""
    name, flags = device["ifname"], device.get("flags", ())
    if "UP" not in flags:
        return wrong(f"{key}: {name} is down", f"`ip link set {name} up`, {UP_AT_BOOT}", key)
    if "LOWER_UP" not in flags:
        level = wrong if machine.is_installed else warning
        return level(f"{key}: {name} has no link", "look at its cable, and at what is at the other end", key)
    return good(f"{key}: {name} is up")


def addresses(machine: Machine) -> Iterator[Finding]:
    """Whether the addresses of guests, counter and outside are at their devices."""
    field, devices = machine.field, network_devices(machine)
    guests, counter = ipaddress.IPv4Interface(field.guests), ipaddress.IPv4Interface(field.counter)
    own = ("guests", guests, field.lan), ("counter", counter, device_of(devices, counter))
    for key, address, device in own:
        yield from all_about(f"{key} address", [own_address(key, address, devices, device)])
    yield from all_about("wan address", outside(machine, devices, (guests, counter)))


def own_address(key: str, address: ipaddress.IPv4Interface, devices: dict[str, Any],
                name: str | None) -> Finding:
    """Whether this machine has an address of the settings, at the right device and with the right length."""
    there = device_of(devices, address)
    if there is None:
        command = f"`ip address add {address} dev {name or 'DEVICE'}`, {UP_AT_BOOT}"
        return wrong(f"{key} = \"{address}\": no network device has this address", command)
    if there != name:
        return wrong(f"{key} = \"{address}\": {there} has this address, and not {name}", f"give it to {name}")
    if address not in addresses_of(devices[there]):
        other = next(own for own in addresses_of(devices[there]) if own.ip == address.ip)
        return wrong(f"{key} = \"{address}\": {there} has it as {other}", "make both the same")
    return good(f"{key}: {there} has {address}")


def outside(machine: Machine, devices: dict[str, Any], ours: tuple[ipaddress.IPv4Interface,
                                                                   ...]) -> Iterator[Finding]:
    """Whether wan has an address, on a network of its own, and the way out leads through it."""
    wan = machine.field.wan
    own = addresses_of(devices[wan]) if wan in devices else []
    if wan in devices and not own:
        level = wrong if machine.is_installed else warning
        yield level(f"wan: {wan} has no address",
                    "look at the line's device, or at this device's DHCP client")
    for address in own:
        for other in ours:
            if address.network.overlaps(other.network):
                yield wrong(f"wan: {address} on {wan} overlaps {other.network}, which is ours",
                            "choose other networks in field.toml: guests and counter")
    routes = json.loads(machine.output_of("ip", "-j", "route", "show", "default") or "[]")
    ways = sorted({str(row.get("dev")) for row in routes})
    if wan in ways and own:
        yield good(f"wan: {wan} has {', '.join(map(str, own))}, and the way out leads through it")
    elif ways and wan not in ways:
        yield wrong(f"wan: the way out leads through {', '.join(ways)} and not through {wan}",
                    "set the default route, or name the right device in field.toml")
    elif not ways:
        yield warning("there is no default route: names and most of the outside cannot be reached",
                      f"set it through {wan}")


def limits(machine: Machine) -> Iterator[Finding]:
    """Whether leases and the kernel's table of neighbours are large enough for the guests' network."""
    field = machine.field
    network = ipaddress.IPv4Interface(field.guests).network
    first, last = (ipaddress.IPv4Address(text) for text in field.leases[:2])
    room = int(last) - int(first) + 1
    yield from leases_left(machine, network, first, last)
    if not machine.path(NEIGHBOURS).exists():
        raise CannotTell("how many neighbours the kernel keeps is not shown here")
    most = int(machine.read(NEIGHBOURS))
    if most < room:
        yield wrong(f"the kernel keeps {most} neighbours at most, and there are {room} leases: a full "
                    "network has no room for new devices", "`sysctl -p /etc/sysctl.d/60-portal.conf`")
    else:
        yield good(f"the kernel keeps up to {most} neighbours")


def leases_left(machine: Machine, network: ipaddress.IPv4Network, first: ipaddress.IPv4Address,
                last: ipaddress.IPv4Address) -> Iterator[Finding]:
    """How many leases are given, of those that there are."""
    room = int(last) - int(first) + 1
    if not machine.path(LEASES).exists():
        yield good(f"{room} leases in a network of {network.num_addresses - 2} addresses")
        return
    rows = [line.split() for line in machine.read(LEASES).splitlines()]
    count = sum(is_given(row, int(machine.now), first, last) for row in rows)
    if count >= room:
        yield wrong(f"all {room} leases are given: no new device gets an address",
                    "make the time in `leases` shorter, or the guests' network wider (field.toml)")
    elif count >= room * 0.9:
        yield warning(f"{count} of {room} leases are given",
                      "make the time in `leases` shorter, or the guests' network wider (field.toml)")
    else:
        yield good(f"{count} of {room} leases are given, in a network of {network.num_addresses - 2} "
                   f"addresses")


def is_given(row: list[str], now: int, first: ipaddress.IPv4Address, last: ipaddress.IPv4Address) -> bool:
    """Whether a line of dnsmasq's (the lease's end, 0 for none; the device; the address) gives an address
    of the range."""
    if len(row) < 3 or not row[0].isdigit() or ":" in row[2]:
        return False
    return first <= ipaddress.IPv4Address(row[2]) <= last and (row[0] == "0" or int(row[0]) > now)


@dataclass(frozen=True)
class Door:
    """A port that a part of the venue listens on."""
    kind: str
    address: str
    port: int
    program: str
    is_apart: bool = False      # it needs a process of its own

    def __str__(self) -> str:
        return f"{self.kind} port {self.port} of {self.address}"

    @property
    def unit(self) -> str:
        """The unit of the program that is to listen there."""
        return "portal-counter-nginx" if self.is_apart else self.program


@dataclass(frozen=True)
class Listener:
    """What listens at a port of this machine."""
    kind: str
    address: str
    device: str
    port: int
    programs: tuple[tuple[str, str], ...]      # name and process; none where it cannot be seen

    def takes_place_of(self, door: Door, device: str) -> bool:
        """Whether it takes the place of a port that the venue needs."""
        same = self.address == door.address or (self.address in EVERY and self.device in ("", device))
        return (self.kind, self.port) == (door.kind, door.port) and same


def listeners(machine: Machine) -> list[Listener]:
    """All that listens on this machine."""
    all_listeners = []
    for line in machine.output_of("ss", "-Hlntup").splitlines():
        parts = LISTENER.match(line)
        if parts:
            address, _, device = parts[2].partition("%")
            programs = tuple(re.findall(r'\("([^"]*)",pid=(\d+)', parts[4]))
            all_listeners.append(Listener(parts[1], address, device, int(parts[3]), programs))
    return all_listeners


def desk_port(machine: Machine) -> Iterator[Finding]:
    """Whether the server can have its port: no part of the venue has it, and root need not listen there."""
    field, port = machine.field, machine.field.desk_port
    address, _, metrics_port = field.metrics.rpartition(":")
    is_of_metrics = address in (LOOPBACK, *EVERY) and int(metrics_port) == port
    owner = OF_THE_VENUE.get(port) or ("the metrics (`metrics` in field.toml)" if is_of_metrics else "")
    least = int(machine.read(UNPRIVILEGED)) if machine.path(UNPRIVILEGED).exists() else 1024
    if owner:
        yield wrong(f"desk_port = {port}: this is the port of {owner}", CHOOSE.format(least))
    elif port < least:
        yield wrong(f"desk_port = {port}: only root may listen on a port below {least}, and the server is "
                    f"not root",
                    CHOOSE.format(least))


def ports(machine: Machine) -> Iterator[Finding]:
    """Whether every port that the venue needs is free, or has its own program."""
    field = machine.field
    guests, counter = (str(ipaddress.IPv4Interface(text).ip) for text in (field.guests, field.counter))
    doors = [Door("udp", guests, 53, "dnsmasq"), Door("tcp", guests, 53, "dnsmasq"),
             Door("udp", guests, 67, "dnsmasq"),
             Door("tcp", guests, 80, "nginx"), Door("tcp", guests, 443, "nginx"),
             Door("tcp", counter, 443, "nginx", is_apart=True)]
    impossible = list(desk_port(machine))
    yield from impossible
    if not impossible:
        doors.append(Door("tcp", LOOPBACK, field.desk_port, "portal"))
    all_listeners, unseen, faults = listeners(machine), False, len(impossible)
    shared = list(one_nginx_for_both(doors, all_listeners)) if machine.is_installed else []
    yield from shared
    faults += len(shared)
    for door in doors:
        here = [one for one in all_listeners if one.takes_place_of(door, field.lan)]
        unseen = unseen or any(not one.programs for one in here)
        for fault in faults_at(door, here, machine.is_installed):
            faults += 1
            yield fault
    if unseen and not machine.is_root():
        raise CannotTell("which programs listen only root can see")
    if not faults:
        yield good("dnsmasq, nginx and the server have their ports" if machine.is_installed else
                   "no other program listens on a port that the venue needs")


def is_on_every_address(machine: Machine, port: int) -> bool:
    """Whether a program has this TCP port of every address, so that no other can have it of one."""
    return any((one.kind, one.port) == ("tcp", port) and one.address in EVERY and not one.device
               for one in listeners(machine))


def one_nginx_for_both(doors: list[Door], all_listeners: list[Listener]) -> Iterator[Finding]:
    """Whether the counter has an nginx of its own: guests can use up the connections of another one."""
    numbers: dict[bool, set[str]] = {False: set(), True: set()}
    for one in all_listeners:
        for door in doors:
            is_same = one.kind == "tcp" and (one.address, one.port) == (door.address, door.port)
            if door.program == "nginx" and is_same:
                numbers[door.is_apart] |= {number for _, number in one.programs}
    both = numbers[False] & numbers[True]
    if both:
        yield wrong(f"one nginx (process {min(both, key=int)}) serves guests and the counter, so guests can "
                    f"shut the counter's page",
                    "`portal-setup` gives the counter an nginx of its own; a site of another file that "
                    "listens at the counter's address needs another one")


def faults_at(door: Door, here: list[Listener], installed: bool) -> Iterator[Finding]:
    """What is wrong with what listens at one of the venue's ports."""
    everywhere = {number for one in here for name, number in one.programs
                  if door.is_apart and name == door.program and one.address in EVERY and not one.device}
    if everywhere:
        yield wrong(f"{door}: nginx listens there at every address (process {min(everywhere, key=int)}), and "
                    "the counter's own nginx needs this one",
                    f"name an address in that site's line `listen {door.port}` (`nginx -T`), then "
                    "`systemctl restart nginx` and `portal-setup`", f"place of {door.unit}")
    others = sorted({other for one in here for other in one.programs if other[0] != door.program})
    names = {name for name, _ in others}
    for name in sorted(names):
        process = next(number for other, number in others if other == name)
        yield wrong(f"{door}: {name} listens there (process {process}), and {door.program} needs it",
                    f"stop it (`systemctl disable --now` its unit: `systemctl status {process}`), or let it "
                    "listen on other addresses", f"place of {door.unit}")
    if installed and not here:
        yield wrong(f"{door}: nobody listens there, and {door.program} should",
                    f"`systemctl status {door.unit}`", f"ports of {door.unit}")
