"""A device is its MAC address and its leased address: what another guest gains by forged releases, by ARP, by source
addresses of others and by made-up MAC addresses, and what a reload of the rules costs."""

from __future__ import annotations

import contextlib
import os
import re
import shlex
import signal
import subprocess
import time
from collections.abc import Callable, Iterator

import pytest
from e2e_device import ATTACKER, BY_HAND, GATEWAY, DeviceLab
from lab import PEER, PORTAL
from network import FIELD, MACS, NAME, OUTSIDE, PYTHON
from steady import assert_measured

PRINTER = "02:aa:00:00:00:03"
STREAM = 14         # seconds: a device that answers is asked again after ten
UNUSED, MADE_UP = "10.77.3.100", "10.64.0.0"     # of the guests' network, and of any
TUNNEL = 60         # names that are answered within a second at most: 40 at once, then 5 a second


class AddressLab(DeviceLab):
    """A lab that counts packets where they come in."""

    @property
    def hard(self) -> str:
        """The gateway's MAC address at the guests' network."""
        return self.within("gw", "cat", "/sys/class/net/lan0/address").stdout.strip()

    @contextlib.contextmanager
    def counting(self, space: str, match: str, hook: str = "prerouting") -> Iterator[Callable[[], int]]:
        """Counts the packets that a space gets (or, with `output`, sends)."""
        table = f"t{time.monotonic_ns()}"
        self.within(space, "nft", f"add table ip {table}; add chain ip {table} c {{ type filter hook {hook} priority raw; }}; "
                                  f"add rule ip {table} c {match} counter")

        def count() -> int:
            found = re.search(r"counter packets (\d+)", self.within(space, "nft", "list", "table", "ip", table).stdout)
            assert found
            return int(found[1])

        try:
            yield count
        finally:
            self.within(space, "nft", "delete", "table", "ip", table)

    def give_leases(self) -> None:
        super().give_leases()
        guests = ("guest1", "guest2")
        self.until(lambda: all(self.is_bound(self.address(guest), guest) for guest in guests), 5, "entries")
        self.until(lambda: all(self.in_bound(MACS[guest], self.address(guest)) for guest in guests), 3, "the set")

    def release(self, guest: str) -> None:
        """The second guest releases a guest's lease; dnsmasq believes it."""
        self.within("guest2", PYTHON, ATTACKER, "dhcp", "release", MACS[guest], self.address(guest), GATEWAY)

    def rule_set(self, name: str, family: str = "inet") -> str:
        return self.within("gw", "nft", "list", "set", family, "portal", name).stdout

    def in_bound(self, mac: str, address: str) -> bool:
        return f"{mac} . {address}" in self.rule_set("bound")

    def reload(self) -> None:
        """As `systemctl reload portal-rules@lan0` does it."""
        etc = self.root / "etc"
        unit = (etc / "systemd/system/portal-rules@.service").read_text()
        order = re.search(r"(?m)^ExecReload=(.*)$", unit)
        assert order
        self.within("gw", *shlex.split(order[1].replace("%I", "lan0").replace("/etc/portal", str(etc / "portal"))))

    def asks(self, source: str, many: int, count: int, each: int, seconds: float) -> subprocess.Popen[str]:
        """The second guest's questions, which say in the end how many were answered."""
        return self.begin("guest2", PYTHON, ATTACKER, "names", self.hard, source, many, GATEWAY, count, each, seconds)

    def answers(self, guest: str, count: int, name: str) -> int:
        """How many answers a guest gets to so many questions within a second."""
        return int(self.within(guest, PYTHON, PEER, "names", GATEWAY, count, name).stdout)

    def is_answered(self, guest: str, name: str) -> bool:
        """Whether a guest gets an answer to one question of the kind that stub resolvers send, which they repeat."""
        return any(self.answers(guest, 1, name) == 1 for _ in range(3))


pytestmark = [pytest.mark.packets, pytest.mark.lab(kind=AddressLab, without_browser=[PRINTER])]


# Forged releases

def stolen_stream(lab: AddressLab, act: Callable[[], None], seconds: float = STREAM) -> tuple[int, int, int]:
    """A stream to the first guest, while the second one says by ARP that the first one's address is its own: how many of
    its packets were sent, came to the first guest, and came to the second."""
    address, stream = lab.address("guest1"), "udp sport 7002"
    with lab.counting("outside", stream, "output") as sent, lab.counting("guest1", stream) as came, \
            lab.counting("guest2", f"ip daddr {address}") as stolen:
        flow = lab.stream("guest1", seconds)
        time.sleep(0.5)
        act()
        with lab.attack(address, 0.05):
            flow.communicate()
        return sent(), came(), stolen()


def assert_forged_are_dropped(lab: AddressLab) -> None:
    address = lab.address("guest1")
    lab.release("guest1")
    lab.until(lambda: lab.lease_of(address) != MACS["guest1"], 3, "the release")


def again(lab: AddressLab) -> None:
    """The lease is the first guest's again, which has no other address."""
    lab.by_dhcp("guest1")
    lab.until(lambda: lab.is_bound(lab.address("guest1")), 12, "a permanent entry")


@pytest.mark.parametrize("what", ("without", "with"))
def test_released(lab: AddressLab, what: str) -> None:
    """DHCP has no signature: the second guest, with a session or without, releases the first one's lease, and says by
    ARP that it has the address."""
    lab.online("guest1")
    if what == "with":
        lab.online("guest2")
    sent, came, stolen = stolen_stream(lab, lambda: assert_forged_are_dropped(lab))
    assert stolen == 0, f"a forged release and ARP {what} a session take no packet  [{stolen} of {sent}]"
    assert came == sent > 5000, f"nor do they cut the first guest off ({what} a session)  [{came} of {sent} came]"
    status, _, _ = lab.curl("guest1", PORTAL)
    assert status == 200 and lab.is_bound(lab.address("guest1")), (
        f"its page answers, and its entry is its own ({what} a session)  "
        f"[{(status, lab.entry(lab.address('guest1')))}]")
    again(lab)


def test_released_at_a_restart(lab: AddressLab) -> None:
    """The lease is released while portal-leases is stopped."""
    lab.online("guest1")
    lab.online("guest2")

    def restart() -> None:
        lab.stop("leases", kill=True)
        assert_forged_are_dropped(lab)
        lab.service("leases")

    sent, came, stolen = stolen_stream(lab, restart)
    assert stolen == 0 and came == sent > 5000, (
        f"a release over a restart of portal-leases takes no packet  [{stolen} stolen, {came} of {sent} "
        "came]")
    again(lab)


def test_killed_while_it_asks(lab: AddressLab) -> None:
    """The lease is released, and portal-leases is killed while the kernel asks the device."""
    lab.online("guest1")
    lab.online("guest2")
    sent, came, stolen = stolen_stream(lab, lambda: killed_while_it_asks(lab))
    assert stolen == 0 and came == sent > 5000, (
        f"nor does one where it is killed while the device is asked  [{stolen} stolen, {came} of {sent} "
        "came]")
    assert lab.is_bound(lab.address("guest1")), (
        f"and the entry is permanent again  [{lab.entry(lab.address('guest1'))}]")
    again(lab)


def killed_while_it_asks(lab: AddressLab) -> None:
    """The first guest sends no ARP for a moment, so that it is being asked when portal-leases is killed. The question comes
    a second after the release, or ten after the last one."""
    address = lab.address("guest1")
    lab.within("guest1", "nft", "add table arp w; add chain arp w o { type filter hook output priority 0; policy drop; }")
    assert_forged_are_dropped(lab)
    try:
        lab.until(lambda: lab.entry(address)[1] not in ("", "PERMANENT"), 12, "a question")
        lab.stop("leases", kill=True)
    finally:
        lab.within("guest1", "nft", "delete table arp w")
    lab.until(lambda: lab.entry(address)[1] != "PROBE", 5, "an answer")
    lab.service("leases")


def test_left(lab: AddressLab) -> None:
    """A device that has left its address loses it, so that another one may have it."""
    address = lab.address("guest1")
    assert_forged_are_dropped(lab)
    lab.within("guest1", "ip", "addr", "flush", "dev", "eth0")
    start = time.monotonic()
    with lab.attack(address, 0.05):
        lab.until(lambda: not lab.in_bound(MACS["guest1"], address), 8, "the end of the entry")
    assert (not lab.is_bound(address) and MACS["guest1"] not in lab.rule_set("bound", "netdev")
            and address not in lab.rule_set("leased", "netdev")), (
        f"a released address is nobody's once its device does not answer  [{time.monotonic() - start:.1f}"
        " s]")
    again(lab)


# Source addresses of others

def test_foreign(lab: AddressLab) -> None:
    """The second guest asks a server for much, in the name of the first one's address: four small packets, 700 packets of
    1,000 bytes for each."""
    lab.redeem("guest1", lab.codes("small", 1)[0])
    lab.until(lambda: lab.reaches("guest1"), 6, "packets of guest1")
    lab.online("guest2")
    address, own = lab.address("guest1"), lab.address("guest2")

    def drain(mac: str, source: str) -> tuple[int, int]:
        """How many bytes are counted for the first guest, and how many packets come out."""
        lab.until(lambda: quiet(lab), 30, "an end of the answers")
        before, out = lab.gateway_bytes("guest1"), lab.packets_outside()
        lab.within("guest2", PYTHON, ATTACKER, "udp", mac, source, lab.hard, OUTSIDE, 7002, "700", 4)
        time.sleep(2.0)
        return lab.gateway_bytes("guest1") - before, lab.packets_outside() - out

    seen = drain(MACS["guest2"], address)
    assert seen == (0, 0), "with another guest's address no bytes of that guest are used up"
    seen = drain(PRINTER, address)
    assert seen == (0, 0), "nor with the MAC address of a device without a browser"
    seen = drain(MACS["guest2"], BY_HAND)
    assert seen[1] == 0, "with a session and an address that was not given out nothing comes out"
    seen = drain(MACS["guest2"], own)
    assert seen[1] >= 4, "with its own it does"
    assert lab.reaches("guest1", 1.0) and lab.reaches("guest2", 1.0), "and both guests pass"
    lab.send_as_clerk("close", session=lab.session_of("guest1"))


def quiet(lab: AddressLab) -> bool:
    before = lab.gateway_bytes("guest1")
    time.sleep(0.7)
    return lab.gateway_bytes("guest1") == before


def test_by_hand(lab: AddressLab) -> None:
    """An address that the network did not give out, and that somebody lets in by hand."""
    lab.online("guest2")
    own = lab.address("guest2")
    lab.give_address("guest2", BY_HAND)
    assert not lab.reaches("guest2", 1.0), (
        "a device with a session does not pass with an address that it chose")
    lab.within("gw", "ip", "neigh", "replace", BY_HAND, "lladdr", MACS["guest2"], "dev", "lan0", "nud", "permanent")
    try:
        lab.until(lambda: lab.reaches("guest2", 0.3), 3, "packets")
        assert lab.in_bound(MACS["guest2"], BY_HAND), "with an entry made by hand it does"
    finally:
        lab.within("gw", "ip", "neigh", "del", BY_HAND, "dev", "lan0")
    lab.until(lambda: not lab.in_bound(MACS["guest2"], BY_HAND), 3, "the end of the entry")
    assert not lab.reaches("guest2", 0.5), "and without it no more"
    lab.give_address("guest2", own)


# Made-up MAC addresses

def captive(lab: AddressLab) -> None:
    for guest in ("guest1", "guest2"):
        if (session := lab.session_of(guest)) is not None:
            lab.send_as_clerk("close", session=session)
            lab.until(lambda: not lab.reaches(guest), 5, "the close")


def test_tunnel(lab: AddressLab) -> None:
    """A tunnel through names, by one who takes another MAC address for every 40 questions."""
    captive(lab)
    own = lab.address("guest2")
    assert_measured("with its own MAC address at most 60 of 3,000 names are answered in a second",
                    lambda: asked_of(lab, own, 1, 0))
    assert_measured("with made-up ones no more", lambda: asked_of(lab, own, 1, 40))
    assert_measured("nor from addresses that were not given out", lambda: asked_of(lab, UNUSED, 75, 40))
    lab.online("guest1")
    with lab.attack(UNUSED, 0.05):
        got = asked_with(lab, MACS["guest1"], UNUSED)
    assert got <= TUNNEL, "nor with the MAC address of a guest with a session from such an address"
    assert_measured("nor by TCP", lambda: by_tcp(lab))
    captive(lab)


def asked_of(lab: AddressLab, source: str, many: int, each: int) -> tuple[bool, int]:
    lab.within("gw", "nft", "flush", "set", "inet", "portal", "asked")
    got = int(lab.asks(source, many, 3000, each, 1.0).communicate()[0])
    return got <= TUNNEL, got


def asked_with(lab: AddressLab, mac: str, source: str) -> int:
    """Questions in frames of another's MAC address; answers come to whoever has the address by ARP."""
    with lab.counting("guest2", f"ip daddr {source} udp sport 53") as got:
        lab.within("guest2", PYTHON, "-c", QUESTIONS_OF, mac, source, lab.hard, GATEWAY, 1000,
                   env={**os.environ, "PYTHONPATH": str(FIELD / "test")})
        time.sleep(1.0)
        return got()


QUESTIONS_OF = """import sys, socket
import attacker
mac, source, to, host, count = sys.argv[1:]
with socket.socket(socket.AF_PACKET, socket.SOCK_RAW) as s:
    s.bind(("eth0", 0))
    for number in range(int(count)):
        data = attacker.packet(source, host, (20_000 + number, 53), attacker.question("outside.example"))
        s.send(attacker.octets(to) + attacker.octets(mac) + b"\\x08\\0" + data)
"""


def by_tcp(lab: AddressLab) -> tuple[bool, int]:
    """A guest with a session asks by TCP with its leased address, and does not with one that it chose."""
    own = lab.address("guest1")
    knocks = ["knock", GATEWAY, 53]
    first = lab.within("guest1", PYTHON, PEER, *knocks, check=False).returncode
    lab.give_address("guest1", BY_HAND)
    second = lab.within("guest1", PYTHON, PEER, *knocks, check=False).returncode
    lab.give_address("guest1", own)
    return (first, second) == (0, 1), second


def test_shut_out(lab: AddressLab) -> None:
    """70,000 questions with as many made-up MAC addresses, and then a usual guest, while more of them come."""
    captive(lab)
    own = lab.address("guest1")
    lab.asks(MADE_UP, 70_000, 70_000, 1, 10.0).communicate()
    flood = lab.asks(MADE_UP, 70_000, 20_000, 1, 12.0)
    try:
        time.sleep(1.0)
        assert lab.is_answered("guest1", NAME), (
            "after 70,000 questions from made-up MAC addresses a guest with a lease gets the portal's "
            "own name")
        count = len(re.findall(r"\d+\.\d+\.\d+\.\d+ (?:timeout|expires|limit)", lab.rule_set("asked")))
        assert count <= 2, "and the set of those who asked holds no more than the leases"
        lab.give_address("guest1", BY_HAND)
        assert lab.is_answered("guest1", NAME.upper()), "and so does one without a lease"
    finally:
        flood.kill()
        flood.communicate()
        lab.give_address("guest1", own)


def test_used_up(lab: AddressLab) -> None:
    """5,000 questions of a guest itself."""
    captive(lab)
    start = time.monotonic()
    flood = lab.asks(lab.address("guest2"), 1, 5000, 0, 10.0)
    lab.until(lambda: lab.answers("guest2", 8, "outside.example") < 6, 6, "a guest whose names are used up")
    own_names = lab.answers("guest2", 8, NAME)
    got, most = int(flood.communicate()[0]), 40 + 8 + 5 * (time.monotonic() - start)
    assert own_names == 8 and got <= most, (
        f"a guest whose names are used up gets the portal's own name all the same, and no other  [{own_names}"
        f" of 8; {got} of at most {most:.0f}]")


# The rules are loaded again

SENDER = """import socket, sys, time
with socket.socket(socket.AF_INET, socket.SOCK_DGRAM) as s:
    end = time.monotonic() + float(sys.argv[2])
    while time.monotonic() < end:
        s.sendto(b"x" * 100, (sys.argv[1], 9))
        time.sleep(0.002)
"""


def passes_all_along(lab: AddressLab, act: Callable[[], None]) -> tuple[bool, str]:
    """Whether all packets of a guest come, both ways, while something is done, and for some polls after it."""
    down, up = "udp sport 7002", "udp dport 9"
    with lab.counting("outside", down, "output") as sent, lab.counting("guest1", down) as came, \
            lab.counting("guest1", up, "output") as packets_out, lab.counting("outside", up) as packets_in:
        flows = lab.stream("guest1", 6), lab.begin("guest1", PYTHON, "-c", SENDER, OUTSIDE, 6)
        time.sleep(1.0)
        act()
        for flow in flows:
            flow.communicate()
        time.sleep(0.3)
        ways = (sent(), came()), (packets_out(), packets_in())
    return all(first == last > 1000 for first, last in ways), "; ".join(f"{last} of {first}" for first, last in ways)


def test_reloaded(lab: AddressLab) -> None:
    lab.online("guest1")

    def twice() -> None:
        for _ in range(2):
            lab.reload()
            time.sleep(0.2)

    assert_measured("a reload of the rules loses no packet of a guest with a session", lambda: passes_all_along(lab, twice))
    lab.tcp("guest1", "send", 500_000)
    before = lab.gateway_bytes("guest1")
    lab.reload()
    after = lab.gateway_bytes("guest1")
    assert before <= after < before + 100_000 and before > 500_000, "and its bytes count on"
    lab.within("gw", "nft", "add element inet portal up { 02:aa:00:00:00:77 comment \"printer\" }; "
               "add element inet portal alive { \"other0\" }")
    lab.reload()
    assert ('02:aa:00:00:00:77 counter packets 0 bytes 0 comment "printer"' in lab.rule_set("up")
            and lab.reaches("guest1", 1.0)), (
        "an administrator's elements stay")
    lab.within("gw", "nft", "delete element inet portal up { 02:aa:00:00:00:77 }")
    lab.stop("gateway", kill=True)
    lab.reload()
    end = time.monotonic() + 8
    while lab.reaches("guest1", 0.1) and time.monotonic() < end:
        lab.reload()
    assert time.monotonic() < end, "however often they are loaded, without the agent the gate shuts"
    lab.service("gateway")
    lab.until(lambda: lab.reaches("guest1"), 5, "packets")


def test_filled(lab: AddressLab) -> None:
    """Somebody loads the rules with nft, which empties all sets."""
    lab.online("guest1")
    pid = lab.jobs["leases"].pid
    os.kill(pid, signal.SIGSTOP)
    try:
        lab.rules()
        time.sleep(3.5)
        assert "expires" not in lab.rule_set("alive"), "the gate is not opened before `bound` is filled"
    finally:
        os.kill(pid, signal.SIGCONT)
    lab.until(lambda: lab.reaches("guest1"), 6, "packets")
    assert all(lab.in_bound(MACS[guest], lab.address(guest)) for guest in ("guest1", "guest2")), (
        "which portal-leases does by itself")
    assert_measured("within a poll", lambda: took_to_fill(lab))


def took_to_fill(lab: AddressLab) -> tuple[bool, str]:
    """Half a second after portal-leases filled the set: so it is known when it looks again."""
    took = 0.0
    for _ in range(2):
        lab.rules()
        start = time.monotonic()
        lab.until(lambda: lab.in_bound(MACS["guest1"], lab.address("guest1")), 12, "the set")
        took = time.monotonic() - start
        time.sleep(0.5)
    return took < 1.5, f"{took:.2f} s"


def test_before_this_version(lab: AddressLab) -> None:
    """Rules without the sets of this version, as a venue has them that is upgraded."""
    lab.online("guest1")

    def take_away() -> None:
        text = lab.within("gw", "nft", "list", "table", "inet", "portal").stdout
        text = "\n".join(line for line in re.sub(r"(?s)\tset bound(_ready)? \{.*?\n\t\}\n", "", text).splitlines()
                         if "@bound" not in line)
        lab.within("gw", "nft", "-f", "-", input=f"delete table inet portal\n{text}\n")

    os.kill(lab.jobs["leases"].pid, signal.SIGSTOP)       # of the version before, which knows no such set
    os.kill(lab.jobs["gateway"].pid, signal.SIGSTOP)
    try:
        take_away()
        assert lab.within("gw", "nft", "list", "set", "inet", "portal", "bound", check=False).returncode != 0, (
            "rules of before have no set `bound`")
        lab.reload()
        assert all(lab.in_bound(MACS[guest], lab.address(guest)) for guest in ("guest1", "guest2")), (
            f"a reload fills it from the entries of the neighbour table  [{lab.rule_set('bound')}]")
    finally:
        for name in ("gateway", "leases"):
            os.kill(lab.jobs[name].pid, signal.SIGCONT)
    lab.until(lambda: lab.reaches("guest1"), 5, "packets")


def test_leases_stopped(lab: AddressLab) -> None:
    lab.online("guest1")
    lab.stop("leases", kill=True)

    def reload() -> None:
        lab.reload()
        time.sleep(1.5)

    assert_measured("with portal-leases stopped a guest passes on, over a reload too", lambda: passes_all_along(lab, reload))
    assert all(lab.in_bound(MACS[guest], lab.address(guest)) for guest in ("guest1", "guest2")), (
        "and the set is as it left it")
    lab.service("leases")
    lab.until(lambda: '"carried"' not in lab.rule_set("bound_ready"), 5, "its own mark")
    assert lab.reaches("guest1", 1.0) and lab.is_bound(lab.address("guest1")), (
        "started again it goes on")


def test_no_fault_in_a_log(lab: AddressLab) -> None:
    assert lab.faults_in_logs("Traceback") == {}, "no fault in a log"
