"""What another device on the guests' wire gains by a forged release, by ARP and by the guest's source
address. Its frames are sent, and counted, at the guest's end of the wire."""

from __future__ import annotations

import pathlib
import re
import subprocess
import sys
import time
from collections.abc import Iterator

import pytest
from machine import (
    GUEST, OUTSIDE, Gap, arrived, captive, code, is_bound, journal, lease, leased, neighbour, output,
    passes, request_json, send_as_clerk, sessions, sh, until, within)

pytestmark = pytest.mark.container
OTHER, UNUSED = "02:aa:00:00:00:66", "10.77.3.99"
TOOL = "/srv/venue/field/test/attacker.py"
AT_OTHER = ("add table netdev other; add chain netdev other i {{ type filter hook ingress device eth0 "
            "priority 0; }}; "
            "add rule netdev other i ether daddr {} ip daddr {} counter")


@pytest.fixture(scope="module")
def other(request: pytest.FixtureRequest) -> Iterator[bool]:
    """Whether another device, which typed a code, as it were, has a session."""
    request.getfixturevalue("levels").reach("venue")
    before = sessions()
    status = request_json("/portal/redeem", {"code": code()}, device=OTHER)
    yield status == 200 and until(lambda: len(sessions()) == len(before) + 1, 10) is not None
    for session in sessions()[1:]:
        send_as_clerk("close", session=session)


def attack_tool(*words: object) -> list[str]:
    return ["nsenter", "--net=/run/netns/guest", sys.executable, TOOL, *map(str, words)]


def packets_to_other() -> int:
    match = re.search(r"counter packets (\d+)", within("guest", "nft", "list", "table", "netdev",
                                                       "other").stdout)
    return int(match[1]) if match else -1


@pytest.fixture
def address(venue: None) -> Iterator[str]:
    """The guest's, which joins anew afterwards; the frames to it at the other device are counted."""
    address = leased()
    within("guest", "nft", AT_OTHER.format(OTHER, address))
    yield address
    within("guest", "nft", "delete table netdev other")
    if leased() != address or not is_bound():
        within("guest", "ip", "addr", "flush", "dev", "eth0")
        lease()
        until(is_bound, 15)


@pytest.mark.parametrize("restarts", [False, True])
def test_release_is_forged(other: bool, address: str, restarts: bool) -> None:
    """Also with portal-leases restarted after the release."""
    what = ", and a restart of portal-leases after it" if restarts else ""
    assert other, "another device has a session"
    with Gap() as gap:
        sh(*attack_tool("dhcp", "release", GUEST, address, "10.77.0.1"))
        took = until(lambda: leased() != address, 5)
        if restarts:
            sh("systemctl restart portal-leases")
        job = subprocess.Popen(attack_tool("arp", address, 0.05, OTHER))
        time.sleep(13)          # a device that answers is asked again after ten seconds
        job.kill()
        job.wait()
    assert took is not None and packets_to_other() == 0, (
        f"a release in the guest's name{what}, with ARP of the other device: not one packet comes to that  "
        f"[{packets_to_other()}]")
    assert gap.heard > 1000 and gap.lost == gap.unanswered == 0, (
        f"and the guest loses none{what}  [{gap.heard} heard outside, {gap.lost} lost, {gap.unanswered} not "
        "answered, "
        f"longest gap {gap.seconds} s]")
    entry = sh("ip", "neigh", "show", "to", address, "dev", "lan0").stdout
    assert captive().get("captive") is False and f"lladdr {GUEST} " in entry, (
        f"its page and its entry are its own{what}  [{journal('portal-leases')[-3:]}]")
    within("guest", "ip", "addr", "flush", "dev", "eth0")       # and the guest joins anew
    done = lease()
    assert done.returncode == 0 and until(is_bound, 15) is not None, (
        f"the guest gets its lease again  [{neighbour()} {output(done, 80)}]")


def test_address_is_forged(other: bool, venue: None) -> None:
    hard, before = pathlib.Path("/sys/class/net/lan0/address").read_text().strip(), arrived()
    for source in (leased(), UNUSED):
        sh(*attack_tool("udp", OTHER, source, hard, OUTSIDE, 9, "x", 4))
    time.sleep(0.5)
    assert arrived() == before, (
        "with the guest's source address, or one that was not given out, the other device sends nothing  "
        f"[{arrived() - before}]")
    sh(*attack_tool("udp", GUEST, leased(), hard, OUTSIDE, 9, "x", 4))
    assert until(lambda: arrived() == before + 4, 3) is not None and passes(), (
        f"the guest does  [{arrived() - before}]")
