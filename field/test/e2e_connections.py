"""Guests and neighbours that hold connections, and who reaches which address of the gateway."""

from __future__ import annotations

import contextlib
import re
import time
from collections.abc import Iterator

import pytest
from lab import PEER, PORTAL, Lab
from network import COUNTER, FIELD, MACS, NAME, OUTSIDE, PYTHON
from steady import assert_measured

ATTACKER = FIELD / "test/attacker.py"
GUESTS, COUNTERS, OWN = "10.77.0.1", "10.88.0.1", "203.0.113.1"     # of the gateway
QUICK = ("--max-time", "3")
MANY, LOOKS = 3300, 20      # half requests, and looks of others meanwhile
EACH, TOGETHER = 48, 64     # connections of a leased address, and of all others together
BY_HAND, STRANGERS = "10.77.0.9", [f"10.77.0.{number}" for number in range(10, 30)]
INSIDE = "192.168.9.9"      # a network of the venue's own
BESIDE = [f"10.88.0.{number}" for number in range(66, 96)]      # on the counter's network
WORDS = "no address from this network"


class RoutedLab(Lab):
    """A lab whose outer network has routes to the gateway's other addresses."""

    def give_leases(self) -> None:
        super().give_leases()
        for address in (GUESTS, COUNTERS):
            self.within("outside", "ip", "route", "replace", address, "via", OWN)
        self.until(lambda: all(map(self.has_page, ("guest1", "guest2"))), 5, "both devices' pages")

    def has_page(self, guest: str) -> bool:
        page = self.curl(guest, PORTAL)[1]
        return page != "" and WORDS not in page


pytestmark = [pytest.mark.packets, pytest.mark.lab(kind=RoutedLab)]


class Held:
    """An attack that goes on meanwhile; `most`: how many connections it held at one time."""

    def __init__(self, lab: Lab, space: str, *words: object) -> None:
        self.job, self.most = lab.begin(space, PYTHON, ATTACKER, "half", *words), -1

    def end(self) -> int:
        self.most = int(self.job.communicate()[0] or -1)
        return self.most


def guest_looks(lab: Lab) -> int:
    """How many of the second guest's looks at the page are answered."""
    good = 0
    for _ in range(LOOKS):
        good += lab.curl("guest2", PORTAL, *QUICK)[0] == 200
        time.sleep(0.2)     # of the limit of requests
    return good


def counter_looks(lab: Lab) -> int:
    return sum(lab.curl("clerk", f"https://{COUNTER}/", *lab.as_clerk(), *QUICK)[0] == 200 for _ in range(LOOKS))


def knocks(lab: Lab, space: str, address: str, port: int) -> bool:
    return lab.within(space, PYTHON, PEER, "knock", address, port, check=False).returncode == 0


def test_addresses(lab: Lab) -> None:
    """An address is reached by its own device, and from the machine itself."""
    for space, address, ports in (("outside", GUESTS, (53, 80, 443)), ("outside", COUNTERS, (443,)),
                                  ("clerk", GUESTS, (53, 80, 443)), ("guest2", COUNTERS, (443,))):
        seen = [port for port in ports if knocks(lab, space, address, port)]
        assert not seen, f"{space} does not reach {address}"
    answered = lab.within("outside", PYTHON, PEER, "names", GUESTS, 5, check=False).stdout.strip()
    pings = [lab.within(space, "ping", "-c1", "-W1", address, check=False).returncode
             for space, address in (("outside", GUESTS), ("clerk", GUESTS), ("outside", COUNTERS))]
    assert answered in ("", "0") and all(pings), "nor by names or ping"
    lab.start("shell", PYTHON, PEER, "door", "0.0.0.0", 22)       # as one who looks after the machine would have it
    lab.until(lambda: lab.listening(22), what="port 22")
    missed = [(space, address) for space, address in (("outside", OWN), ("clerk", OWN), ("clerk", COUNTERS))
              if not knocks(lab, space, address, 22)]
    assert not missed, "other addresses and ports of the machine are reached"
    lab.stop("shell")
    good = [(space, address) for space, address in (("gw", GUESTS), ("gw", COUNTERS), ("guest2", GUESTS), ("clerk", COUNTERS))
            if knocks(lab, space, address, 443)]
    assert len(good) == 4, "each side reaches its own, and the machine itself both"


@contextlib.contextmanager
def without_lease(lab: Lab) -> Iterator[None]:
    """The first guest has addresses that it chose, and no other."""
    before = lab.address("guest1")
    lab.within("guest1", "ip", "addr", "flush", "dev", "eth0")
    for address in (STRANGERS[0], *STRANGERS[1:], BY_HAND):
        lab.within("guest1", "ip", "addr", "add", address + "/22", "dev", "eth0")
    lab.within("guest1", "ip", "route", "replace", "default", "via", GUESTS)
    try:
        yield
    finally:
        lab.within("guest1", "ip", "addr", "flush", "dev", "eth0")
        lab.within("guest1", "ip", "addr", "add", before + "/22", "dev", "eth0")
        lab.within("guest1", "ip", "route", "replace", "default", "via", GUESTS)


def test_attacked(lab: Lab) -> None:
    """The first guest and a neighbour of the outer network hold half requests at the same time."""
    for port in (80, 443):
        what = f"half requests on port {port}"
        guest = Held(lab, "guest1", GUESTS, port, MANY, 25)
        others = [Held(lab, "outside", address, port, MANY, 25) for address in (GUESTS, COUNTERS)]
        time.sleep(3)
        seen = guest_looks(lab), counter_looks(lab)
        connections, gained = guest.end(), [other.end() for other in others]
        assert not any(gained), f"a neighbour of the outer network gets no connection ({what})  [{gained}]"
        assert 1 <= connections <= EACH, f"such a guest holds {EACH} {what} at most  [{connections}]"
        assert seen[0] == LOOKS, (
            f"while a guest keeps trying to hold {MANY} {what}, another guest's looks are answered  [{seen[0]}"
            f" of {LOOKS}]")
        assert seen[1] == LOOKS, f"and the counter's ({what})  [{seen[1]} of {LOOKS}]"


def test_beside_the_counter(lab: Lab) -> None:
    """Computers of the counter's network hold half requests, first one of them and then many."""
    lab.as_clerk()
    for address in BESIDE:
        lab.within("clerk", "ip", "addr", "replace", f"{address}/24", "dev", "eth0")
    for what, many, addresses in (("one computer", MANY, BESIDE[:1]), ("all of them", EACH * len(BESIDE), BESIDE)):
        held = Held(lab, "clerk", COUNTERS, 443, many, 20, *addresses)
        time.sleep(3)
        seen = counter_looks(lab)
        most = EACH * len(addresses)
        assert 1 <= held.end() <= most, f"{what} beside the counter: {EACH} connections an address at most  [{held.most}]"
        assert seen == LOOKS, f"{what} beside the counter: a clerk's looks are answered meanwhile  [{seen} of {LOOKS}]"
        # The 21st address makes them more than Debian's nginx takes
        assert len(addresses) == 1 or held.most > 1024, f"they hold more than a thousand connections  [{held.most}]"


def test_strangers(lab: Lab) -> None:
    """Addresses that the network did not give out."""
    with without_lease(lab):
        lab.within("gw", "ip", "neigh", "replace", BY_HAND, "lladdr", MACS["guest1"], "dev", "lan0", "nud", "permanent")
        status, page, _ = lab.curl("guest1", PORTAL, "--interface", STRANGERS[0])
        assert status == 200 and WORDS in page, "a device without a lease gets the page that says so"
        strangers = Held(lab, "guest1", GUESTS, "80,443", 20 * TOGETHER, 20, *STRANGERS)
        time.sleep(2)
        own = lab.curl("guest1", PORTAL, "--interface", BY_HAND, *QUICK)
        seen = guest_looks(lab), counter_looks(lab)
        assert 1 <= strangers.end() <= TOGETHER, (
            f"of {len(STRANGERS)} addresses without a lease all connections together are {TOGETHER} at "
            f"most, at both ports  [{strangers.most}]")
        assert seen == (LOOKS, LOOKS), (
            "meanwhile the looks of a guest with a lease and of the counter are answered")
        assert own[0] == 200 and WORDS not in own[1], "and a device that was let in by hand gets the page"
        lab.within("gw", "ip", "neigh", "del", BY_HAND, "dev", "lan0")
        lab.until(lambda: lab.curl("guest1", PORTAL, "--interface", STRANGERS[1], *QUICK)[0] == 200, 15, "the page")


CLOSED = """import socket, sys, time
link, start = socket.create_connection((sys.argv[1], int(sys.argv[2])), timeout=30), time.monotonic()
link.sendall(b"GET / HTTP/1.1\\r\\nHost: x\\r\\nX: " if sys.argv[2] == "80" else bytes([22, 3, 1]))
try:
    link.recv(100)
except TimeoutError:
    pass
print(time.monotonic() - start)
"""


def test_heads(lab: Lab) -> None:
    """What nginx says before it knows who asks, and how long it waits for that."""
    def is_closed() -> tuple[bool, float]:
        took = float(lab.within("guest2", PYTHON, "-c", CLOSED, GUESTS, 80).stdout)
        return took < 7, took

    assert_measured("half a request on port 80 is closed after some five seconds", is_closed)
    took = float(lab.within("clerk", PYTHON, "-c", CLOSED, COUNTERS, 443).stdout)
    assert took < 20, "and one at the counter after ten"
    status, _, head = lab.curl("guest2", "http://outside.example/")
    assert status == 302 and "\nconnection: close" in head.lower(), "an answer on port 80 ends its connection"
    answers = {"port 80": head, "the guests' page": lab.curl("guest2", f"https://{NAME}/x")[2],
               "the counter's": lab.curl("clerk", f"https://{COUNTER}/")[2]}
    servers = {what: line for what, text in answers.items() for line in text.splitlines() if line.lower().startswith("server:")}
    assert len(servers) == 3 and all(line.strip().lower() == "server: nginx" for line in servers.values()), (
        "no answer has nginx's version")


def test_apart(lab: Lab) -> None:
    """Each page has an nginx of its own."""
    clerk = lab.as_clerk()
    lab.stop("nginx")
    seen = lab.curl("guest2", PORTAL, *QUICK)[0], lab.curl("clerk", f"https://{COUNTER}/", *clerk, *QUICK)[0]
    assert seen == (0, 200), "without nginx of the guests' page the counter's is served"
    lab.web("nginx")
    lab.stop("counter-nginx")
    seen = lab.curl("guest2", PORTAL, *QUICK)[0], lab.curl("clerk", f"https://{COUNTER}/", *clerk, *QUICK)[0]
    assert seen == (200, 0), "and the guests' without the counter's nginx"
    lab.web("counter-nginx")


def leaves(lab: Lab, space: str) -> tuple[bool, int]:
    """Whether a packet of the counter's network is answered from outside, and how many have come out with its address."""
    lab.within("outside", "nft", "add table inet c; flush table inet c; add chain inet c i { type filter hook input priority 0; }; "
               "add rule inet c i ip saddr 10.88.0.0/24 counter")
    answered = lab.reaches(space)
    seen = re.search(r"counter packets (\d+)", lab.within("outside", "nft", "list", "table", "inet", "c").stdout)
    assert seen
    return answered, int(seen[1])


def test_kept_in(lab: Lab) -> None:
    assert leaves(lab, "clerk") == (False, 0), "no packet of the counter's network leaves the venue"


def test_no_fault_in_a_log(lab: Lab) -> None:
    assert lab.faults_in_logs("Traceback") == {}, "no fault in a log"


@pytest.mark.lab(kind=Lab, counter_internet=True)
def test_let_out(lab: Lab) -> None:
    """The counter's network where field.toml lets it out: a card reader there."""
    assert leaves(lab, "clerk") == (True, 0), "it reaches the outside, by the gateway's own address"
    lab.within("outside", "ip", "addr", "replace", INSIDE + "/32", "dev", "lo")
    lab.within("gw", "ip", "route", "replace", INSIDE, "via", OUTSIDE)
    assert lab.reaches("gw", host=INSIDE), "the gateway itself reaches a network of the venue's own"
    out = lab.packets_outside()
    assert not lab.reaches("clerk", host=INSIDE) and lab.packets_outside() == out, "and no network of the venue's own behind it"
    for space in ("clerk", "guest2"):
        lab.begin(space, PYTHON, PEER, "door", "0.0.0.0", 7777)
        lab.until(lambda: knocks(lab, space, "127.0.0.1", 7777), what="a door")
    lab.within("outside", "ip", "route", "replace", "10.88.0.0/24", "via", OWN)
    assert not knocks(lab, "outside", "10.88.0.2", 7777), "nobody outside reaches it unasked"
    assert not knocks(lab, "clerk", lab.address("guest2"), 7777), "it does not reach guests"
    assert not knocks(lab, "guest2", "10.88.0.2", 7777), "nor do guests reach it"
    out = lab.packets_outside()
    assert not lab.reaches("guest1") and lab.packets_outside() == out, "a guest without a session is blocked as before"
    lab.online("guest1")
    assert lab.reaches("guest1"), "and one with a session passes"
