"""A large database, full disks, an upgrade and a removal while guests are online."""

from __future__ import annotations

import contextlib
import json
import os
import pathlib
import sqlite3
import time
from collections.abc import Iterator
from dataclasses import dataclass

import pytest
import steady
from booted import Levels
from machine import (
    COPIES, DATABASE, GUEST, OUTSIDE, PATIENCE, Done, Gap, all_run, apt, arrived, forward, install, installed,
    output, passes, request_json, request_text, serves, sh, until, versions, within)
from purge import left, purge

pytestmark = pytest.mark.container
VOUCHERS, A_BATCH, DEVICES = 100_000, 500, 50
# seconds without packets at an upgrade over that many vouchers, on a machine that is not held up
MOST_GAP = 10.0


@pytest.fixture(scope="module")
def filled(levels: Levels) -> tuple[bool, str]:
    """Whether so many vouchers, and sessions of devices that are somewhere, were made; a note on them."""
    levels.reach("venue")
    good = all(request_json("/desk/batches", {"batch": f"many-{number}", "plan": "hour", "count": A_BATCH},
                            "desk_token") == 200
               for number in range(VOUCHERS // A_BATCH))
    lines = request_text("/desk/batches/many-0/print", "desk_token").splitlines()
    codes = [line.split(",")[0] for line in lines if not line.startswith("code")][:DEVICES]
    sold = [request_json("/desk/sales", {"code": text}, "desk_token") for text in codes]
    opened = [request_json("/portal/redeem", {"code": text}, device=f"02:bb:00:00:00:{number:02x}")
              for number, text in enumerate(codes)]
    note = f"{DATABASE.stat().st_size >> 20} MB; {set(sold)} {set(opened)}"
    return good and sold == opened == [200] * DEVICES, note


def open_sessions() -> list[tuple[int, str]]:
    rows = json.loads(request_text("/gateway/sessions", "gateway_token"))["sessions"]
    return [(row["session"], row["device"]) for row in rows]


def test_many_vouchers(filled: tuple[bool, str]) -> None:
    assert filled[0], f"a database of {VOUCHERS} vouchers and {DEVICES} more sessions is made  [{filled[1]}]"


@pytest.fixture
def full_disk(venue: None) -> Iterator[None]:
    """A disk of the copies (and of the database) with next to no room."""
    aside = COPIES.with_name("portal-aside")
    if COPIES.exists():
        COPIES.rename(aside)
    COPIES.mkdir(mode=0o700)
    sh("mount", "-t", "tmpfs", "-o", "size=2m,mode=0700", "tmpfs", COPIES)
    yield
    sh("umount", COPIES)
    COPIES.rmdir()
    if aside.exists():
        aside.rename(COPIES)


def test_upgrade_on_a_full_disk(full_disk: None) -> None:
    done = install(versions()[1])
    words = done.stdout + done.stderr
    assert (done.returncode != 0 and "Make room" in words and versions()[0] in installed()
            and "install ok installed" in installed()), (
        "an upgrade without room for its copy is refused in words, before anything is unpacked  "
        f"[{output(done, 500)}]")
    assert serves() and passes() and all_run(), "and the venue runs on"


def test_set_up_on_a_full_disk(full_disk: None) -> None:
    done = sh("portal-setup")
    assert done.returncode == 1 and "free" in done.stderr and serves(), (
        f"a set-up on a full disk is refused in words  [{output(done)}]")


@dataclass(frozen=True)
class Upgrade:
    """The sessions of before, how it went, and whether guests had packets as they should."""
    sessions: list[tuple[int, str]]
    done: Done
    gap: Gap
    is_quick: bool
    passes: bool


@pytest.fixture(scope="module")
def upgrade(filled: tuple[bool, str]) -> Upgrade:
    before, span = open_sessions(), steady.Span()
    with Gap() as gap:
        done = install(versions()[1])
        until(lambda: all_run() and serves(), 30)
    return Upgrade(before, done, gap, span.allows(gap.seconds, MOST_GAP * PATIENCE),
                   until(passes, 20) is not None)


def test_upgrade_of_many(upgrade: Upgrade) -> None:
    before, after = upgrade.sessions, open_sessions()
    assert (upgrade.done.returncode == 0 and upgrade.passes and len(before) == DEVICES + 1 and after == before
            and any(mac == GUEST for _, mac in before)), (
        f"upgrade over {VOUCHERS} vouchers with {len(before)} sessions open: all go on  "
        f"[longest gap of packets {upgrade.gap.seconds} s; {len(after)} sessions; "
        f"{output(upgrade.done, 200)}]")
    assert upgrade.is_quick, (
        f"guests are without packets for at most {MOST_GAP:.0f} s  [{upgrade.gap.seconds}]")


def vouchers_in(copy: pathlib.Path) -> int:
    with contextlib.closing(sqlite3.connect(f"file:{copy}?mode=ro", uri=True)) as base:
        return int(base.execute("SELECT count(*) FROM portal_vouchers").fetchone()[0])


def test_copy_of_before(upgrade: Upgrade) -> None:
    copies = sorted(COPIES.glob(f"before-{versions()[1]}-*.db"))
    assert (len(copies) == 1
            and sh(f"cd {COPIES} && sha256sum --check {copies[0].name}.sha256").returncode == 0
            and vouchers_in(copies[0]) >= VOUCHERS), (
        f"the copy of before is one file with its sum, and it has all vouchers  [{copies}]")


class Stranger:
    """A device without a session, with the guest's address, that sends all the while. It knows the gateway's
    MAC address, since the gateway answers none of its ARP."""
    SEND = f"""
import socket, time
s = socket.socket(2, 2)
while True:
    try: s.sendto(b'x', ('{OUTSIDE}', 9))
    except OSError: pass
    time.sleep(.005)
"""

    def __init__(self, mac: str) -> None:
        self.mac, self.sends = mac, 0

    def __enter__(self) -> Stranger:
        within("guest", "ip", "link", "set", "eth0", "address", self.mac)
        within("guest", "ip", "route", "replace", "default", "via", "10.77.0.1")
        gateway = pathlib.Path("/sys/class/net/lan0/address").read_text().strip()
        within("guest", "ip", "neigh", "replace", "10.77.0.1", "lladdr", gateway, "dev", "eth0", "nud",
               "permanent")
        sh("systemd-run", "--unit=stranger", "--collect", "nsenter", "--net=/run/netns/guest", "python3",
           "-c", self.SEND)
        before = self.come()
        until(lambda: self.come() > before + 20, 10)
        self.sends = self.come() - before
        return self

    @staticmethod
    def come() -> int:
        return int(pathlib.Path("/sys/class/net/lan0/statistics/rx_packets").read_text())

    def __exit__(self, *_: object) -> None:
        sh("systemctl stop stranger")
        within("guest", "ip", "neigh", "del", "10.77.0.1", "dev", "eth0")
        within("guest", "ip", "link", "set", "eth0", "address", GUEST)
        within("guest", "ip", "route", "replace", "default", "via", "10.77.0.1")


@dataclass(frozen=True)
class Removal:
    """How it went; the packets of a stranger that came to the gateway, and those that got out."""
    done: Done
    came: int
    got_out: int


@pytest.fixture(scope="module")
def removal(levels: Levels) -> Removal:
    """With sessions open; a device without one sends all the while."""
    levels.reach("venue")
    with Stranger("02:aa:00:00:00:99") as stranger:
        before = arrived()
        done = apt("remove", "portal")
        time.sleep(1)
        after = arrived()
    levels.forget()
    return Removal(done, stranger.sends, after - before)


def test_strangers_packets_at_a_removal(removal: Removal) -> None:
    assert removal.came > 20 and removal.got_out == 0 and removal.done.returncode == 0, (
        "removal with sessions open: no packet of a device without a session gets out meanwhile or "
        "afterwards  "
        f"[{removal.came} packets came to the gateway, {removal.got_out} got out; "
        f"{output(removal.done, 200)}]")


def test_removed(removal: Removal) -> None:
    tables, words = sh("nft list tables").stdout, removal.done.stderr + removal.done.stdout
    assert forward() == "0" and "portal" not in tables and "forwards no packets" in words and not passes(), (
        f"nothing is forwarded then, the rules are gone, and it says so in words  [{tables.split()}]")


def test_files_after_a_removal(removal: Removal) -> None:
    left = [path for path in ("/etc/sysctl.d/60-portal.conf", "/etc/nginx/conf.d/portal-guests.conf",
                              "/etc/dnsmasq.d/portal.conf")
            if os.path.exists(path)]
    assert not left and DATABASE.exists(), (
        f"of the files that set-up made outside its folder none is left  [{left}]")


def test_purged(removal: Removal) -> None:
    """With venues by name, where their tests have made some."""
    purged = purge()
    assert purged.done.returncode == 0 and not purged.faults(), (
        f"each path that goes or stays is named, and root alone reads what stays  [{purged.faults()}]")
    assert os.listdir("/etc/portal") == ["tls"] and DATABASE.exists(), (
        f"after a purge of the settings certificates alone are left  [{os.listdir('/etc/portal')}]")
    done = sh(purged.command())
    assert done.returncode == 0 and not left(), (
        f"the command that is printed last destroys what stayed  [{purged.command()}; {left()}]")
