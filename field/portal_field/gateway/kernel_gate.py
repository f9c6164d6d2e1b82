"""The sets of portal.nft in the kernel, read and changed by libnftables; each change is one transaction."""

from __future__ import annotations

import contextlib
import functools
import os
import pathlib
import re
import socket
import sys
import time
from collections.abc import Iterable
from typing import TYPE_CHECKING

import nftables

from portal_field.gateway.kernel_sets import (
    ALIVE, BARRED, DESK_CLOSED, DOWN, LISTED, READY, UP, KernelSets, element, flush)
from portal_field.gateway.passing import NotReady, Passing, RulesAreGone

if TYPE_CHECKING:
    from portal_field.gateway.kernel_elements import KernelElements

# a count at the egress of an Ethernet device holds the frame's head, one in `forward` does not
ETHERNET = 14
NET = pathlib.Path("/proc/sys/net")
# A table that this process owns: while it runs, no flush of another's takes it. What portal.nft let through
# carries the mark; without those rules nothing does.
GUARD = """table inet portal_guard { flags owner; }
add chain inet portal_guard through { type filter hook forward priority filter + 10; }
add chain inet portal_guard from_guests { type filter hook input priority filter + 10; }
flush table inet portal_guard
add rule inet portal_guard through iifname "LAN" meta mark != 0x70 drop
add rule inet portal_guard through oifname "LAN" meta mark != 0x70 drop
add rule inet portal_guard from_guests iifname != "LAN" accept
add rule inet portal_guard from_guests meta nfproto ipv6 drop
add rule inet portal_guard from_guests ct state established,related accept
add rule inet portal_guard from_guests udp dport { 53, 67 } accept
add rule inet portal_guard from_guests tcp dport { 53, 80, 443 } accept
add rule inet portal_guard from_guests icmp type echo-request accept
add rule inet portal_guard from_guests drop
"""
OURS = re.compile(r"([0-9]{1,18})\+([0-9]{1,18})")      # an element's comment, if the agent made it


class KernelGate(KernelSets):
    """The kernel's sets of who passes, by libnftables."""

    def __init__(self, lan: str, grace: int, rules: str) -> None:
        super().__init__()
        self.lan, self.grace, self.rules = lan, grace, rules
        self.is_barred, self.has_guard, self.index = False, False, 0
        self.mark = f"{os.getpid()} {time.time_ns()}"       # comment of the switch that this process renewed

    @functools.cached_property
    def elements_alone(self) -> KernelElements:
        """What reads one element. The agent of a small venue reads all each time, and never loads it."""
        from portal_field.gateway.kernel_elements import KernelElements
        return KernelElements()

    def passing(self) -> dict[str, Passing]:
        """The devices let through, with the IP-layer bytes of both directions. What others put there is left
        alone."""
        down = {back.mac: back.bytes - ETHERNET * back.packets for back in self.counted(DOWN)}
        passing = {}
        for up in self.counted(UP):
            ours = OURS.fullmatch(up.comment)
            if ours:
                passing[up.mac] = Passing(int(ours[1]), int(ours[2]), up.bytes + down.get(up.mac, 0))
        return passing

    def is_known(self) -> bool:
        """Whether the switch is on by this process; whoever loads the rules anew or empties the sets turns it
        off."""
        return any(e.get("comment") == self.mark for e in self.elements(ALIVE))

    def ask(self, macs: Iterable[str]) -> dict[str, Passing]:
        """Those of these devices that are let through, as `passing` has them; none where the kernel refuses
        to say it of one alone."""
        passing = {}
        for mac in macs:
            try:
                up, down = (self.elements_alone.ask(where, mac) for where in (UP, DOWN))
            except OSError:
                return {}
            ours = OURS.fullmatch(up.comment) if up else None
            if up and down and ours:
                count = up.bytes + down.bytes - ETHERNET * down.packets
                passing[mac] = Passing(int(ours[1]), int(ours[2]), count)
        return passing

    def change(self, gone: Iterable[str], come: dict[str, Passing]) -> None:
        """Takes devices out and lets others in, and renews the kernel's timeout, all at once."""
        # Each is added before it is deleted: what others took away is no fault then, and what they put there
        # goes.
        commands = [element(verb, where, mac)
                    for mac in (*gone, *come) for where in (UP, DOWN) for verb in ("add", "delete")]
        for mac, p in come.items():
            commands.append(element("add", UP, {"elem": {"val": mac, "comment": f"{p.session}+{p.base}"}}))
            commands.append(element("add", DOWN, mac))
        # Older kernels do not renew a timeout: the element goes and comes within one transaction.
        fresh = {"elem": {"val": self.lan, "timeout": self.grace, "comment": self.mark}}
        commands += [element("add", ALIVE, fresh), element("delete", ALIVE, self.lan),
                     element("add", ALIVE, fresh)]
        self.run(commands)

    def check_rules(self) -> None:
        """Raises RulesAreGone where a table of ours is not there: a set of each is read. (A list of all
        tables is no JSON with nft 1.0.6, once one of them has an owner.) Raises NotReady where `bound` was
        not filled since they were loaded."""
        any(self.elements(LISTED))
        self.is_barred = any(self.elements(BARRED)) or self.is_barred
        if not any(self.elements(READY)):
            raise NotReady("the set `bound` was not filled since the rules were loaded; nothing is opened "
                           "until then")

    def guard(self) -> None:
        """Once, the table of our own; and IPv6 is off on the guests' device, each time that the device
        comes."""
        if not self.has_guard:
            status, _, error = self.nft.cmd(GUARD.replace("LAN", self.lan))
            self.has_guard = status == 0
            if not self.has_guard:
                print("gateway: without a table of its own:", error.partition("\n")[0], file=sys.stderr,
                      flush=True)
        try:
            index = socket.if_nametoindex(self.lan)
        except OSError:
            return
        if index != self.index:
            self.shut_ipv6()
            self.index = index

    def shut_ipv6(self) -> None:
        """Turns IPv6 off on the guests' device. It is beside the rules, so where it cannot be done that is
        printed and no more."""
        switch = NET / "ipv6/conf" / self.lan / "disable_ipv6"
        try:
            if switch.exists():
                switch.write_text("1\n")
        except OSError as fault:
            print("gateway: IPv6 stays on at the guests' device:", fault, file=sys.stderr, flush=True)

    def bar(self) -> None:
        """Lets nothing through without the rules, for as long as they are gone; IPv6 is off for guests."""
        self.is_barred = True
        (NET / "ipv4/ip_forward").write_text("0\n")
        self.shut_ipv6()

    def load(self) -> None:
        """Loads the rules anew, with empty sets. The kernel keeps that forwarding is off by us, should we
        end now."""
        fresh = nftables.Nftables()     # one knows each definition once
        status, _, error = fresh.cmd(f'include "{self.rules}"\nadd element inet portal barred '
                                     f'{{ "{self.lan}" }}')
        if status != 0:
            raise RulesAreGone("nft: " + error.strip())

    def unbar(self) -> None:
        """Turns forwarding on again, and lets guests pass the agent's own table."""
        if self.is_barred:
            (NET / "ipv4/ip_forward").write_text("1\n")
            self.run([element(verb, BARRED, self.lan) for verb in ("add", "delete")])
            self.is_barred = False

    def close_desk(self, seconds: int) -> None:
        """Lets none but the agent and the server's watch connect to the desk, for so many seconds."""
        closed = {"elem": {"val": "lo", "timeout": seconds}}
        self.run([element("add", DESK_CLOSED, closed), element("delete", DESK_CLOSED, "lo"),
                  element("add", DESK_CLOSED, closed)])

    def open_desk(self) -> None:
        """Lets all parts connect again. Rules of an earlier version have no such set, and close nothing."""
        with contextlib.suppress(RulesAreGone):
            self.run([element("add", DESK_CLOSED, "lo"), element("delete", DESK_CLOSED, "lo")])

    def is_desk_closed(self) -> bool:
        """Whether the desk is closed still."""
        return any(self.elements(DESK_CLOSED))

    def shut(self) -> None:
        """Empties the set without which nobody passes."""
        self.run([flush(ALIVE)])
