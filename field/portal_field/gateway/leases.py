"""Binds each leased address to the device that holds the lease: its entry in the kernel's neighbour table is
permanent, so that no ARP of another device changes it, and both are in the set `bound` of the packet rules.

What is wanted stands in dnsmasq's lease file, and what is done in the kernel's table, so this may be stopped
and started at any moment. An address leaves its device only once that does not answer there any more, or its
lease has run out: anybody can release another's lease, since DHCP has no signature.
"""

from __future__ import annotations

import contextlib
import ctypes
import functools
import ipaddress
import math
import os
import pathlib
import re
import select
import sys
import time
from collections.abc import Callable
from dataclasses import dataclass, field
from typing import Any, Protocol

from portal_field.gateway.bound import POLL, Bound, Pair
from portal_field.lib import pyroute2_parts     # noqa: F401 (before pyroute2)
from portal_field.lib.desk_client import settings
from portal_field.lib.notify import notify_systemd

LINE = re.compile(r"(\d{1,18}) ([0-9a-f]{2}(?::[0-9a-f]{2}){5}) (\S+) \S+ \S+\n")
# seconds that a lease is missing before its device is asked: dnsmasq writes its file over itself
SETTLED = 1.0
AGAIN = 10.0        # seconds after which a device that still answered at an address is asked again
WHOLE = 10.0        # seconds after which the whole table is read, whatever messages came meanwhile


@dataclass(frozen=True)
class Lease:
    """A device that has an address, and until when."""
    mac: str
    until: float    # by the clock (of Binder.bound: by ticks); without an end: infinity


@functools.lru_cache(maxsize=65536)     # of a file that was changed most lines are as before
def lease_in(line: str, network: ipaddress.IPv4Network) -> tuple[str, Lease] | None:
    """The address and the lease of a line of dnsmasq's file; None where it has none of this network."""
    parts = LINE.fullmatch(line)
    try:
        address = ipaddress.IPv4Address(parts[3] if parts else "")
    except ipaddress.AddressValueError:
        return None
    if not parts or address not in network:
        return None
    return str(address), Lease(parts[2], float(parts[1]) or math.inf)


def leases_in(text: str, network: ipaddress.IPv4Network, now: float) -> dict[str, Lease]:
    """The leases of dnsmasq's file that have not run out; a line that is not whole is none."""
    pairs = (lease_in(line, network) for line in text.splitlines(keepends=True))
    return {address: lease for address, lease in filter(None, pairs) if lease.until > now}


class Entry(Protocol):
    """An entry of the neighbour table, as far as it is needed here."""

    @property
    def mac(self) -> str | None:
        """The MAC address of the entry; None where it has none."""
    @property
    def device(self) -> str | None:
        """The device of a permanent entry; None where the entry is another."""
    @property
    def is_asked(self) -> bool:
        """Whether the kernel is asking the device just now."""
    @property
    def has_failed(self) -> bool:
        """Whether the device did not answer."""
    @property
    def is_ours(self) -> bool:
        """Whether this service made the entry."""


class Table(Protocol):
    """The neighbour table; the tests have another one."""

    def entry(self, address: str) -> Any:
        """The entry of an address; None where there is none."""
    def entries(self) -> dict[str, Any]:
        """All entries, by address."""
    def bind(self, address: str, mac: str) -> Any:
        """Makes the entry of an address permanent for a device."""
    def probe(self, address: str, mac: str) -> Any:
        """Has the kernel ask the device at an address."""
    def drop(self, address: str) -> None:
        """Removes the entry of an address."""


@dataclass
class Binder:
    """Keeps a permanent entry of each leased address, and asks a device before another one gets it."""
    table: Table
    clock: Callable[[], float] = time.time
    ticks: Callable[[], float] = time.monotonic
    # Whether the rules drop ARP by which another device would take an address (of a MAC and an address) while
    # it is asked
    is_guarded: Callable[[str, str], bool] = lambda mac, address: True
    leases: dict[str, Lease] = field(default_factory=dict)      # as the file has them
    # Whose an address was last, and until when by `ticks`: a clock that is set ends no lease.
    bound: dict[str, Lease] = field(default_factory=dict)
    entries: dict[str, Entry] = field(default_factory=dict)        # the kernel's entries
    missing: dict[str, float] = field(default_factory=dict)     # bound, without a lease: since when
    asked_at: dict[str, float] = field(default_factory=dict)    # of the last device of an address

    def look(self) -> None:
        """Reads the kernel's table. What an earlier run bound is bound until its device does not answer; an
        entry that it left while it asked counts where the rules have it too."""
        self.entries = self.table.entries()
        for address, entry in list(self.entries.items()):
            if not entry.is_ours or address in self.bound:
                continue
            if entry.mac and (entry.device or self.is_guarded(entry.mac, address)):
                self.bound[address] = Lease(entry.mac, math.inf)
                self.hold(address, entry.mac)
            else:
                self.drop(address)

    def follow(self, leases: dict[str, Lease]) -> None:
        """Binds what is leased; what is not any more goes once that is certain, and its device has left."""
        self.leases, now = leases, self.ticks()
        self.missing = {address: self.missing.get(address, now)
                        for address in self.bound.keys() - leases.keys()}
        fault = None
        for address in (*leases, *(address for address, since in self.missing.items()
                                   if now - since >= SETTLED)):
            try:
                self.settle(address)
            except OSError as this:     # the others are bound all the same
                fault = this
        if fault:
            raise fault

    def settle(self, address: str) -> None:
        """Binds one address to the device of its lease, once the device that had it before has left."""
        lease, last = self.leases.get(address), self.bound.get(address)
        if last and (lease is None or lease.mac != last.mac) and not self.has_left(address, last):
            return
        self.asked_at.pop(address, None)
        if lease:
            self.bound[address] = Lease(lease.mac, self.ticks() + lease.until - self.clock())
            self.hold(address, lease.mac)
        elif self.bound.pop(address, None):
            self.missing.pop(address, None)
            entry = self.entries.get(address)
            if entry and entry.is_ours:
                self.drop(address)

    def has_left(self, address: str, last: Lease) -> bool:
        """Whether the last device of an address has it no more: its lease would have ended, or it does not
        answer there. Until then it keeps the address, and is asked again and again."""
        entry, asked_at = self.entries.get(address), self.asked_at.get(address)
        by_hand = entry is not None and entry.device is not None and not entry.is_ours
        if last.until <= self.ticks() or by_hand and address not in self.leases:
            return True
        if asked_at is not None and entry is not None and entry.has_failed:
            return True
        if (asked_at is None or self.ticks() - asked_at >= AGAIN) and self.is_guarded(last.mac, address):
            self.asked_at[address] = self.ticks()
            self.entries[address] = self.table.probe(address, last.mac)
        elif entry is None or not entry.is_asked or entry.mac != last.mac:
            self.hold(address, last.mac)
        return False

    def hold(self, address: str, mac: str) -> None:
        """Makes the entry of an address permanent for a device, where it is not."""
        entry = self.entries.get(address)
        if entry is None or entry.device != mac or not entry.is_ours:
            self.entries[address] = self.table.bind(address, mac)

    def drop(self, address: str) -> None:
        """Removes the entry of an address."""
        self.table.drop(address)
        self.entries.pop(address, None)

    def devices(self) -> frozenset[Pair]:
        """Who may send from which address, as MAC and address: who holds it by a permanent entry, made by
        hand or from a lease, and who is asked just now whether it is still there."""
        pairs = {(entry.device, address) for address, entry in self.entries.items() if entry.device}
        return frozenset(pairs | {(self.bound[address].mac, address) for address in self.asked_at})

    def note_change(self, address: str, is_permanent: bool = False) -> bool:
        """Takes note that somebody changed the kernel's entry of an address; whether that is of any matter
        here."""
        entry_before, is_ours = self.entries.get(address), address in self.leases or address in self.bound
        if not (is_ours or is_permanent or entry_before and entry_before.device):
            return False
        entry = self.table.entry(address)
        self.entries.pop(address, None)
        if entry is not None:
            self.entries[address] = entry
        if address in self.leases or address in self.asked_at:
            self.settle(address)
        return True

    def wait(self) -> float:
        """Seconds to wait at most, if no message comes meanwhile."""
        ends = [lease.until - self.clock() for lease in self.leases.values()]
        holds = [self.bound[address].until - self.ticks() for address in self.asked_at]
        soon = [SETTLED / 4] if any(self.ticks() - since < SETTLED for since in self.missing.values()) else []
        again = [when + AGAIN - self.ticks() for when in self.asked_at.values()]
        return max(0.05, min([WHOLE, *ends, *holds, *soon, *again]))


@dataclass
class Service:
    """The binder at its file and at the kernel. A fault is printed once, and all is done anew."""
    binder: Binder
    sets: Bound
    index: Callable[[], int]
    path: pathlib.Path
    network: ipaddress.IPv4Network
    fault: str = ""
    has_looked: bool = False
    is_stale: bool = True       # whether the sets of the rules may lack something

    def complain(self, faults: list[OSError]) -> None:
        """Writes faults into the journal of the service, once for as long as they stay the same."""
        message = "; ".join(map(str, faults))
        if message and message != self.fault:
            print("leases:", message, file=sys.stderr, flush=True)
        self.fault = message

    def read(self) -> dict[str, Lease]:
        """The leases of dnsmasq's file."""
        try:
            text = self.path.read_text(errors="replace")
        except FileNotFoundError:       # dnsmasq makes it with the first lease
            text = ""
        return leases_in(text, self.network, self.binder.clock())

    def bind(self, changed: dict[tuple[int, str], bool], whole: bool, reread: bool) -> None:
        """Brings the neighbour table up to what changed: entries, the file, or all of it."""
        if whole:
            self.binder.look()
            self.has_looked = True
        index = self.index() if changed else 0
        for (where, address), is_permanent in changed.items():
            if where == index:
                self.is_stale = self.binder.note_change(address, is_permanent) or self.is_stale
        if whole or reread:
            self.is_stale = True
            self.binder.follow(self.read())

    def step(self, changed: dict[tuple[int, str], bool], whole: bool, reread: bool) -> bool:
        """Acts on the messages that came; whether all went well."""
        faults = []
        try:
            self.bind(changed, whole, reread)
        except OSError as fault:
            faults.append(fault)
        try:
            if self.has_looked and (self.is_stale or self.sets.is_due()):
                self.sets.follow(self.binder.devices())
                self.is_stale = False
        except OSError as fault:
            faults.append(fault)
        self.complain(faults)
        return not faults


def watch_folder(folder: pathlib.Path) -> int:
    """A descriptor that is readable once a file of the folder was written, made or renamed."""
    from pyroute2.inotify.inotify_fd import Inotify

    watch = Inotify(ctypes.CDLL(None, use_errno=True), ())
    watch.bind()
    watch.register_path(str(folder), 0x2 | 0x80 | 0x100)     # IN_MODIFY, IN_MOVED_TO, IN_CREATE
    assert watch.fd is not None
    return int(watch.fd)


def main() -> None:
    """Follows dnsmasq's file and the neighbour table for ever."""
    from portal_field.gateway.kernel_sets import BoundInKernel           # needs python3-nftables,
    # and this python3-pyroute2, which the tests of the binder do not
    from portal_field.lib.neighbours import Events, Neighbours

    conf = settings("/etc/portal/leases.toml")
    table, path = Neighbours(conf["lan"]), pathlib.Path(conf["leases"])
    sets = Bound(BoundInKernel(conf["lan"]))
    events, files = Events(), watch_folder(path.parent)     # before the first look, so that nothing is missed
    service = Service(Binder(table, is_guarded=sets.holds), sets, lambda: table.index, path,
                      ipaddress.IPv4Network(conf["network"]))
    with contextlib.suppress(OSError):      # the rules are not loaded yet
        sets.look()
    good, looked = service.step({}, True, True), time.monotonic()
    notify_systemd(b"READY=1")
    due, again = looked + service.binder.wait(), False
    while True:
        ready = select.select([events, files], [], [], max(0.0, min(POLL, due - time.monotonic())))[0]
        if files in ready:
            os.read(files, 65536)
        changed, whole = events.read() if events in ready else ({}, False)
        now, again = time.monotonic(), again or not good
        if whole or now - looked >= (POLL if again else WHOLE):
            whole, looked, again = True, now, False
        good = service.step(changed, whole, files in ready or now >= due)
        due = now + service.binder.wait()
        notify_systemd(b"WATCHDOG=1")
        time.sleep(0.005)       # what others send cannot make it spin


if __name__ == "__main__":
    main()
