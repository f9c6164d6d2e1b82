"""Whose session a voucher opens, under attack by another guest; and what a guest sees and nginx logs where parts are
away."""

from __future__ import annotations

import contextlib
import json
import os
import signal
import time
from collections.abc import Callable, Iterator

import pytest
from lab import API, PORTAL, Answer, Lab
from network import FIELD, LOOKUPS, MACS, NAME, PYTHON
from steady import assert_measured, wait_until

ATTACKER = FIELD / "test/attacker.py"
REDEEM = f"https://{NAME}/portal/redeem"
GATEWAY, BY_HAND = "10.77.0.1", "10.77.0.9"
QUICK = ("--max-time", "3")
RAW = "<center>nginx"       # in each page of nginx's own


class DeviceLab(Lab):
    """A lab in which a guest may try often, and nginx has few connections and does not wait long."""

    def files(self) -> None:
        """Writes the files, with limits that are no matter here."""
        super().files()
        path = self.root / "etc/nginx/conf.d/portal-guests.conf"
        text = path.read_text()
        for old, new in (("rate=12r/m", "rate=6000r/m"), ("rate=5r/s", "rate=500r/s"),
                         ("proxy_read_timeout 20s", "proxy_read_timeout 3s")):
            assert old in text, old
            text = text.replace(old, new)
        path.write_text(text)
        path = self.root / "nginx.conf"
        path.write_text(path.read_text().replace("worker_connections 512", "worker_connections 40"))

    def give_leases(self) -> None:
        """Gives the leases, and waits until the kernel has the first guest's device as a permanent neighbour."""
        super().give_leases()
        wait_until(lambda: self.is_bound(self.address("guest1")), 3)

    @contextlib.contextmanager
    def attack(self, address: str, seconds: float, guest: str = "guest2") -> Iterator[None]:
        """Has a guest say by ARP that an address is its own, for the time of the block."""
        job = self.begin(guest, PYTHON, ATTACKER, "arp", address, seconds)
        try:
            time.sleep(0.3)
            yield
        finally:
            job.kill()
            job.communicate()

    def entry(self, address: str) -> tuple[str, str]:
        """The gateway's neighbour entry: MAC address and state."""
        shown = self.within("gw", "ip", "-j", "neigh", "show", "to", address, "dev", "lan0").stdout
        row = (json.loads(shown or "[]") or [{}])[0]
        return row.get("lladdr", ""), " ".join(row.get("state", []))

    def is_bound(self, address: str, guest: str = "guest1") -> bool:
        """Whether the kernel has the guest's device as a permanent neighbour at this address."""
        return self.entry(address) == (MACS[guest], "PERMANENT")

    def lease_of(self, address: str) -> str:
        """The MAC address that dnsmasq has for an address."""
        rows = [line.split() for line in (self.root / "var/lib/misc/dnsmasq.leases").read_text().splitlines()]
        return next((row[1] for row in rows if row[2] == address), "")

    def by_form(self, code: str) -> int:
        """Redeems a code by the page's form; the status."""
        number = self.number("guest1")
        return self.send_form("guest1", code, number, *QUICK)[0]

    def by_json(self, code: str) -> int:
        """Redeems a code by JSON; the status."""
        return self.curl("guest1", REDEEM, "-d", json.dumps({"code": code}), *QUICK)[0]

    def attacker_gets_in(self) -> bool:
        """Whether the attacker has a session, which is then closed."""
        session = self.session_of("guest2")
        if session is not None:
            self.send_as_clerk("close", session=session)
        return session is not None

    def uses_of(self, code: str) -> int:
        """How often a voucher was redeemed."""
        return int(self.ask_desk("desk_token", "GET", "/desk/vouchers/" + code)["redeemed"])

    def give_address(self, guest: str, address: str) -> None:
        """Gives a guest an address by hand, and no other."""
        self.within(guest, "ip", "addr", "flush", "dev", "eth0")
        self.within(guest, "ip", "addr", "add", address + "/22", "dev", "eth0")
        self.within(guest, "ip", "route", "replace", "default", "via", GATEWAY)

    def by_dhcp(self, guest: str) -> str:
        """Takes the guest's address away and asks for a lease; the address that was given."""
        self.within(guest, "ip", "addr", "flush", "dev", "eth0")
        return self.lease(guest)[0]


pytestmark = [pytest.mark.packets, pytest.mark.lab(kind=DeviceLab)]


def test_bound(lab: DeviceLab) -> None:
    address = lab.address("guest1")
    assert lab.is_bound(address), f"the entry of a lease is permanent  [{lab.entry(address)}]"


def test_attacked(lab: DeviceLab) -> None:
    """ARP of the second guest for the first one's address, at three rates. The first one says that it is its own, as
    phones do that see a conflict, so that its connections come about wherever the last word counts."""
    address = lab.address("guest1")
    thefts, opened, tries = {"form": 0, "JSON": 0}, {"form": 0, "JSON": 0}, {"form": 50, "JSON": 100}
    for seconds, part in ((0.07, 0.4), (0.01, 0.4), (1.3, 0.2)):
        codes = lab.codes("hour", round(part * sum(tries.values())))
        with lab.attack(address, seconds), lab.attack(address, 0.03, "guest1"):
            for kind, send, good in (("form", lab.by_form, 303), ("JSON", lab.by_json, 200)):
                count = round(part * tries[kind])
                end = time.monotonic() + 2.3 * count    # a gateway that is led astray makes the guest wait
                for _ in range(count):
                    if not thefts[kind] and time.monotonic() < end:
                        opened[kind] += send(codes.pop()) == good
                        thefts[kind] += lab.attacker_gets_in()
    for kind in ("JSON", "form"):       # by a form that is signed for the device it is hard to come by
        assert thefts[kind] == 0, f"under ARP at any rate none of {tries[kind]} vouchers is stolen by {kind}"
    for kind in ("form", "JSON"):
        assert opened[kind] == tries[kind], f"and each opens a session of the guest's own by {kind}"


def test_restarted(lab: DeviceLab) -> None:
    """The same while each part that knows the device is away and comes again, and while the guest renews its lease."""
    address, thefts = lab.address("guest1"), 0

    def dnsmasq() -> None:
        lab.stop("dnsmasq")
        lab.dnsmasq()

    def leases() -> None:
        lab.stop("leases", kill=True)
        lab.service("leases")

    def link() -> None:
        for state in ("down", "up"):
            lab.within("gw", "ip", "link", "set", "lan0", state)

    codes = lab.codes("hour", 24)
    with lab.attack(address, 0.01):
        acts: tuple[Callable[[], object], ...] = (dnsmasq, leases, link, lambda: lab.lease("guest1"))
        for what in acts:
            for _ in range(3):
                what()      # and at once, and somewhat later
                lab.by_json(codes.pop())
                thefts += lab.attacker_gets_in()
                lab.by_form(codes.pop())
                thefts += lab.attacker_gets_in()
            lab.until(lambda: lab.is_bound(address), 5, f"a permanent entry ({lab.entry(address)})")
    assert thefts == 0, "none of 24 is stolen while parts are away or come again"
    lab.within("gw", "ip", "neigh", "replace", address, "lladdr", MACS["guest2"], "dev", "lan0", "nud", "stale")
    lab.until(lambda: lab.is_bound(address), 2, "a permanent entry")
    assert lab.lease_of(address) == MACS["guest1"], (
        "an entry that another program changed is as it was at once")


def test_forms(lab: DeviceLab) -> None:
    """A form is for the device that its page showed."""
    code, = lab.codes("hour", 1)
    number = lab.number("guest1")
    fields = lab.shown["guest1"]
    assert fields.get("device") == MACS["guest1"] and len(fields.get("sign", "")) == 64, (
        "a page's form names its device")
    lab.shown["guest2"] = fields
    status, body, _ = lab.send_form("guest2", code, number)
    assert status == 409 and "shown to another device" in body and lab.uses_of(code) == 0, (
        "a form that was shown to another device is refused in words")
    assert f'value="{fields.get("sign")}"' in body and MACS["guest2"] not in body, (
        "and stays one for that device")
    lab.shown["guest2"] = {**fields, "device": MACS["guest2"]}
    status, body, _ = lab.send_form("guest2", code, number)
    assert status == 400 and lab.uses_of(code) == 0 and lab.session_of("guest2") is None, (
        "a form with another device's name in it is none of ours")
    lab.stop("front")
    (lab.root / "run/portal-front/socket").unlink(missing_ok=True)
    lab.service("front")
    status = lab.send_form("guest1", code, number)[0]
    assert (status, lab.uses_of(code)) == (303, 1), (
        "a page that was shown before a restart of the helper is good")


def test_no_lease(lab: DeviceLab) -> None:
    """An address that the network did not give out: after a release, once its device has left it, and by hand."""
    address, (code,) = lab.address("guest1"), lab.codes("hour", 1)
    number = lab.number("guest1")
    lab.within("guest1", PYTHON, ATTACKER, "dhcp", "release", MACS["guest1"], address, GATEWAY)
    lab.until(lambda: not lab.lease_of(address), 3, "the release")
    lab.within("guest1", "ip", "addr", "flush", "dev", "eth0")
    lab.until(lambda: not any(lab.entry(address)), 8, "the entry's end")
    assert not lab.is_bound(address), (
        f"after a release the entry goes once its device does not answer  [{lab.entry(address)}]")
    lab.give_address("guest1", address)
    with lab.attack(address, 0.01):
        result = [lab.by_json(code) for _ in range(3)], lab.send_form("guest1", code, number, *QUICK)[0]
        assert not lab.attacker_gets_in() and lab.uses_of(code) == 0, (
            f"a released address opens no session, whoever answers for it  [{result}]")
    for what, where in (("after a release", address), ("by hand", BY_HAND)):
        lab.give_address("guest1", where)
        assert_words_shown(lab, what, code)
    assert lab.uses_of(code) == 0, "and the voucher is as good as before"
    again = lab.by_dhcp("guest1")
    lab.until(lambda: lab.is_bound(again), 2, "a permanent entry")
    assert lab.by_form(code) == 303 and lab.session_of("guest1") is not None, "with DHCP it is redeemed"


def assert_words_shown(lab: DeviceLab, what: str, code: str) -> None:
    """Page, form and JSON say that the address was not given out by this network."""
    words = "no address from this network"
    status, page, _ = lab.curl("guest1", PORTAL)
    answer: Answer = lab.send_form("guest1", code, lab.number("guest1"))
    assert status == 200 and words in page and answer[0] == 403 and words in answer[1], (
        f"an address that was not given out ({what}) gets a page that says so")
    answers = lab.curl("guest1", API), lab.curl("guest1", REDEEM, "-d", json.dumps({"code": code}))
    good = all(status == 403 and body.startswith('{"error":"no_lease"') and words in body and "json" in head
               for status, body, head in answers)
    assert good, f"and a program ({what}) is refused in words  [{answers[1][1]}]"


def test_taken_over(lab: DeviceLab) -> None:
    """DHCP has no signature: the second guest takes the first one's lease."""
    address = lab.address("guest1")
    lab.within("guest2", PYTHON, ATTACKER, "dhcp", "request", MACS["guest2"], address, GATEWAY, MACS["guest1"])
    time.sleep(0.5)
    assert lab.lease_of(address) == MACS["guest1"], "another's client identifier moves no lease"
    codes = lab.codes("hour", 5)
    number, thefts = lab.number("guest1"), 0
    before = time.monotonic()
    while lab.lease_of(address) != MACS["guest2"] and time.monotonic() < before + 5:
        lab.within("guest2", PYTHON, ATTACKER, "dhcp", "release", MACS["guest1"], address, GATEWAY)
        lab.within("guest2", PYTHON, ATTACKER, "dhcp", "release", MACS["guest2"], lab.address("guest2"), GATEWAY)
        lab.within("guest2", PYTHON, ATTACKER, "dhcp", "request", MACS["guest2"], address, GATEWAY)
        time.sleep(0.2)
    assert lab.lease_of(address) == MACS["guest2"], "a release in another's name does"
    result = []
    for code in codes:
        time.sleep(1.0)
        result.append((lab.by_json(code), lab.send_form("guest1", code, number, *QUICK)[0]))
        thefts += lab.attacker_gets_in()
    uses = [lab.uses_of(code) for code in codes]
    assert thefts == 0 and uses == [1] * len(codes) and lab.entry(address)[0] == MACS["guest1"], (
        "as long as the first guest answers at its address it has it, and nobody else  "
        f"[{(result, lab.entry(address))}]")
    lab.by_dhcp("guest1")     # another address, as this one is leased
    start = time.monotonic()
    lab.until(lambda: lab.is_bound(address, "guest2"), 16, "the second guest's entry")
    assert lab.lease_of(address) == MACS["guest2"], (
        f"once it does not the address changes hands  [{time.monotonic() - start:.1f} s]")
    lab.within("guest2", "ip", "addr", "flush", "dev", "eth0")
    lab.lease("guest2")


def test_helper_away(lab: DeviceLab) -> None:
    """The guests' page is held still, ended, or has no connection left; and so the look-up of devices."""
    helper = lab.jobs["front"].pid
    os.kill(helper, signal.SIGSTOP)
    try:
        seen = {"held still": lab.curl("guest1", PORTAL)}
        assert "captive" in lab.captive("guest1"), "a program has its answer beside a page that is held still"
    finally:
        os.kill(helper, signal.SIGCONT)
    done = lab.within("guest1", PYTHON, ATTACKER, "crowd", GATEWAY, 443, 90, check=False)
    assert "500" in done.stdout or "503" in done.stdout, (
        "where all of nginx's connections are taken it says so  "
        f"[{done.stdout.strip() or done.stderr.strip()[-80:]}]")
    lab.stop("front")
    seen["ended"] = lab.curl("guest1", PORTAL)
    for name in LOOKUPS:
        assert "captive" in lab.captive("guest1"), "one look-up of devices is enough"
        lab.stop(name)
    seen["ended, a program"] = lab.curl("guest1", API)
    statuses = {what: answer[0] for what, answer in seen.items()}
    assert list(statuses.values()) == [504, 502, 500], (
        "with the helper away nginx answers 502, 504, and a program 500")
    for what, (status, body, head) in seen.items():
        assert (RAW not in body and "width=device-width" in body and "retry-after" in head.lower()
                and "/style.css" in body), (
            f"and the guest gets a page of ours ({what})  [{(status, body[:60])}]")
    logs = "".join(log.read_text() for log in (lab.root / "nginx-error.log", lab.root / "log/guests.log",
                                               lab.root / "nginx.log") if log.exists())
    assert all(lab.address(guest) not in logs for guest in ("guest1", "guest2")), (
        f"no guest's address stands in nginx's logs  "
        f"[{[line for line in logs.splitlines() if 'client' in line][:2]}]")
    (lab.root / "run/portal-front/socket").unlink(missing_ok=True)
    for name in ("front", *LOOKUPS):
        lab.service(name)


def test_a_lookup_that_hangs(lab: DeviceLab) -> None:
    """One of the processes that look devices up is held still: each question comes to the other."""
    def is_answered(name: str) -> tuple[bool, str]:
        time.sleep(2.5)     # nginx asks one again that it left out for two seconds
        os.kill(lab.jobs[name].pid, signal.SIGSTOP)
        try:
            start = time.monotonic()
            answers = ["captive" in lab.captive(guest) for _ in range(10) for guest in ("guest1", "guest2")]
            took = time.monotonic() - start
        finally:
            os.kill(lab.jobs[name].pid, signal.SIGCONT)
        return all(answers) and took < 10, f"{sum(answers)} of 20 answered, in {took:.1f} s"

    lab.until(lambda: "captive" in lab.captive("guest1"), 5, "nginx asks again")
    for name in LOOKUPS:
        assert_measured("a look-up that hangs leaves no program without an answer", lambda: is_answered(name))


def test_no_fault_in_a_log(lab: DeviceLab) -> None:
    assert lab.faults_in_logs("Traceback") == {}, "no fault in a log"
