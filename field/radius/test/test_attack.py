"""Accounting of others than the access server that logged in, and packets that nobody means."""

from __future__ import annotations

import json
import random
import re
import sqlite3
import threading
from collections import Counter
from collections.abc import Iterator

import pytest
from scripted_nas import ACCEPT, DISCONNECT, MAKERS, PLAIN, REJECT, Nas, Values, encode, pair
from venue_lab import FAULTS, MADE_UP, Venue

BAR, NO_CLASS = MAKERS[2], MAKERS[3]        # other access servers than the one that logs in
MOST = 10_000_000                           # bytes of the plan `both`
TWENTY = 15_000_000, 5_000_000              # bytes, of both directions
GIG = 6 * 2**30
SEED, PACKETS, AT_ONCE = 20_201, 3_000, 8
# What a guest reads of a text that is no code.
NO_CODE = re.compile("no code of ours|There is no [01OIL, ]+ in a code|of 16 signs|signs, and a code has 16")

pytestmark = pytest.mark.radius


def test_not_text(venue: Venue) -> None:
    """Signs that are not UTF-8, in names of guests and of Wi-Fis."""
    nas, device = venue.nas(), venue.device()
    code, = venue.codes("gig", 1)
    for name in (b"\xff\xfe", b"M\xfcller", code.encode() + b"\xa0", b"\xc3"):
        reply = nas.login(name, device)
        assert reply.code == REJECT and reply.signed and NO_CODE.search(reply.words), (
            f"a name that is not UTF-8 is rejected in words: {name[-4:]!r}")
    reply = nas.login(code, "", more={"Calling-Station-Id": b"02-00-\xff"})
    assert reply.code == REJECT and "identify your device" in reply.words, "a device that is not UTF-8 too"
    assert venue.uses_of(code) == 0, "and nothing is used"


def test_wifi_not_text(venue: Venue) -> None:
    nas, device = venue.nas(), venue.device()
    code, = venue.codes("gig", 1)
    named: Values = {"Called-Station-Id": b"02-AA-00-00-00-01:Caf\xe9"}
    reply = nas.login(code, device, more=named)
    assert reply.code == ACCEPT, "at a Wi-Fi whose name is not UTF-8 a code is accepted"
    is_answered = nas.account("Interim-Update", "t1", code, device, reply.values.get("Class"), (500, 500), more=named)
    assert is_answered and venue.comes(lambda: venue.bytes_left(device) == GIG - 1000), (
        f"and its accounting is answered and counted  [{(is_answered, venue.bytes_left(device))}]")


def logged_in(venue: Venue, nas: Nas, plan: str = "both") -> tuple[str, str, bytes, int]:
    """A guest whom this access server logged in: code, device, Class and number of the session."""
    code, device = venue.codes(plan, 1)[0], venue.device()
    klass = nas.login(code, device).values["Class"]
    assert isinstance(klass, bytes)
    return code, device, klass, venue.sessions()[device]["session"]


def of_before(session: int, device: str) -> bytes:
    """The Class of version 1.0.0."""
    return f"portal-{session}-{device.replace(':', '')}".encode()


class Guest:
    """Whom an access server logged in, on a plan of 10 MB. It counts honestly."""

    def __init__(self, venue: Venue, nas: Nas) -> None:
        self.venue, self.nas = venue, nas
        self.code, self.device, self.klass, self.number = logged_in(venue, nas)
        self.octets: Counter[str] = Counter()

    def counts(self, session: str, octets: int) -> bool:
        """So many more in this accounting session; whether that and what was counted before is all that the server then
        holds. What others sent before this would be held too."""
        self.octets[session] += octets
        self.nas.account("Interim-Update", session, self.code, self.device, self.klass, (self.octets[session], 0))
        return self.venue.comes(lambda: self.venue.bytes_left(self.device) == MOST - self.octets.total())


FORGED = {"guessed": "with a Class that can be guessed", "none": "without a Class",
          "other": "with the Class of the access server that logged in",
          "tag": "with that Class and a tag of its own session's", "made-up": "with a made-up tag",
          "empty": "with an empty one"}


def forge(venue: Venue, guest: Guest, kind: str, own: bytes) -> bool:
    """Accounting of another access server, with a Class of a kind of FORGED; it has a session of its own."""
    plain = of_before(guest.number, guest.device)
    classes = {"guessed": plain, "none": None, "other": guest.klass, "tag": plain + own[own.rindex(b"-"):],
               "made-up": plain + b"-" + b"0" * 32, "empty": plain + b"-"}[kind]
    by = venue.nas(NO_CLASS if kind == "none" else BAR)
    return all([by.account(status, f"f{guest.number}{kind}", guest.code, guest.device, classes, TWENTY)
                for status in ("Start", "Interim-Update", "Stop")])


@pytest.mark.parametrize("kind", FORGED)
def test_forged(venue: Venue, kind: str) -> None:
    """Accounting of another access server, which has a secret of its own."""
    guest, own = Guest(venue, venue.nas()), logged_in(venue, venue.nas(BAR), "gig")[2]
    assert guest.counts("h1", 1_000_000), (
        f"what the access server counts arrives  [{venue.bytes_left(guest.device)}]")
    answered = forge(venue, guest, kind, own)
    assert answered and guest.counts("h1", 1000), (
        f"forged accounting {FORGED[kind]} ends no session, and counts nothing  "
        f"[{(answered, venue.bytes_left(guest.device))}]")


def test_forged_in_pairs(venue: Venue) -> None:
    """All of it, and with two Classes of which one is its own; then what else is known of access servers."""
    nas, bar, none = venue.nas(), venue.nas(BAR), venue.nas(NO_CLASS)
    guest, own = Guest(venue, nas), logged_in(venue, bar, "gig")[2]
    for kind in FORGED:
        forge(venue, guest, kind, own)
    for first, second in ((guest.klass, own), (own, guest.klass)):
        bar.account("Interim-Update", f"two-{first[-4:]!r}", guest.code, guest.device, first, TWENTY,
                    after=pair(25, second))
    assert guest.counts("h1", 1000), (
        f"nor does it with two Classes of which one is its own  [{venue.bytes_left(guest.device)}]")
    assert not nas.requests_for(DISCONNECT, "h1"), f"and nobody is sent a Disconnect-Request  [{nas.requests}]"
    log = (venue.root / "radius.log").read_text()
    named = [log.count(f"portal-radius: {maker.name} counts for a session") for maker in (BAR, NO_CLASS, PLAIN)]
    assert named == [1, 1, 0], f"the log names the access server, once  [{(named, log[-900:])}]"
    roamed = bar.login(bar.maker.device(guest.device), guest.device).values["Class"]
    bar.account("Interim-Update", "h2", guest.code, guest.device, roamed, (700_000, 300_000))
    guest.octets["h2"] = 1_000_000
    assert guest.counts("h1", 1000), (
        f"a guest who roams is logged in there too, and both count  [{venue.bytes_left(guest.device)}]")
    guest = Guest(venue, none)
    venue.stop("radius")
    venue.start_radius()
    assert guest.counts("h3", 1000), (
        f"who gives no Class is known after a restart of FreeRADIUS  [{venue.bytes_left(guest.device)}]")


def as_of_before(venue: Venue) -> None:
    """FreeRADIUS is stopped, and what it leaves is what version 1.0.0 left: no HMAC, no logins."""
    venue.stop("agent")
    venue.stop("radius")
    book = sqlite3.connect(venue.state / "radacct.db", timeout=5)
    for number, klass in book.execute("SELECT radacctid, class FROM radacct WHERE class LIKE '0x%'").fetchall():
        text = bytes.fromhex(klass[2:]).rpartition(b"-")[0]
        book.execute("UPDATE radacct SET class = ? WHERE radacctid = ?", ("0x" + text.hex(), number))
    book.commit()
    book.close()
    for path in venue.state.glob("logins.db*"):
        path.unlink()


def test_upgraded(venue: Venue) -> None:
    """What access servers hold of version 1.0.0 is good at those that counted with it."""
    nas, bar, none = venue.nas(), venue.nas(BAR), venue.nas(NO_CLASS)
    known, silent, late = Guest(venue, nas), Guest(venue, none), Guest(venue, nas)
    assert known.counts("u1", 1000) and silent.counts("u2", 1000), "before the upgrade all count"
    as_of_before(venue)
    venue.start_radius()
    venue.start_agent()
    for guest in (known, silent, late):
        guest.klass = of_before(guest.number, guest.device)
    assert known.counts("u1", 1000), f"a Class of version 1.0.0 counts on  [{venue.bytes_left(known.device)}]"
    assert known.counts("u3", 500), f"also in a new accounting session  [{venue.bytes_left(known.device)}]"
    assert silent.counts("u4", 500), f"so does who gives none  [{venue.bytes_left(silent.device)}]"
    assert late.counts("u5", 1000), f"and who had not counted yet  [{venue.bytes_left(late.device)}]"
    after = venue.device()
    venue.redeem(venue.codes("both", 1)[0], after)
    class_before = of_before(venue.sessions()[after]["session"], after)
    for device, klass in ((known.device, known.klass), (late.device, late.klass), (after, class_before)):
        bar.account("Interim-Update", f"x{device}", "X", device, klass, (20_000_000, 0))
    assert known.counts("u1", 1000) and late.counts("u5", 1000) and venue.bytes_left(after) == MOST, (
        f"at another access server it does not, nor for a session of after the upgrade  "
        f"[{(known.octets, late.octets, venue.sessions())}]")
    venue.close_session(known.device)
    assert venue.comes(lambda: nas.requests_for(DISCONNECT, "u3")), (
        f"a session of before that is closed: a Disconnect-Request  [{nas.requests}]")


def odd(chance: random.Random) -> bytes:
    """An attribute that is seldom one: any number, any bytes, a length that may lie."""
    value = chance.randbytes(chance.choice((0, 1, 4, 16, chance.randrange(254))))
    length = len(value) + 2 if chance.random() < 0.8 else chance.randrange(256)
    return bytes([chance.choice((1, 4, 25, 26, 31, 40, 44, 55, 79, 80, 103, 245, chance.randrange(256))), length]) + value


def mutate(chance: random.Random, text: bytes) -> bytes:
    """Some of its bytes are others, are gone, or are more."""
    found = bytearray(text)
    for _ in range(chance.randrange(1, 6)):
        at = chance.randrange(len(found) + 1)
        found[at:at + chance.randrange(3)] = chance.randbytes(chance.randrange(3))
    return bytes(found)


def packets(chance: random.Random, nas: Nas, victim: Guest, count: int) -> Iterator[tuple[bytes, int]]:
    """Packets and their ports, of an access server that has its secret: names that are no code, foreign Classes, attributes
    that are none."""
    code, device, klass, number = victim.code, victim.device, victim.klass, victim.number
    names = (MADE_UP.encode(), b"", b"\xff\xfe", b"%{exec:/bin/touch /tmp/x}", b"'; DROP TABLE radacct; --", b"\x00",
             mutate(chance, b"2222" + code.encode()[4:]), b"A" * 253, "\u00fc\u202e".encode())
    classes = (klass, of_before(number, device), of_before(number, device) + b"-" + b"f" * 32, b"", mutate(chance, klass))
    for _ in range(count):
        login, ident = chance.random() < 0.5, chance.randrange(256)
        stranger = "02-01-" + "-".join(f"{octet:02x}" for octet in chance.randbytes(4))
        body = pair(1, chance.choice(names)) + pair(31, (stranger if login else device).encode())
        if not login:
            body += encode({"Acct-Status-Type": chance.randrange(16), "Acct-Session-Id": f"z{chance.randrange(99)}",
                            "Acct-Input-Octets": chance.getrandbits(32)})
            body += b"".join(pair(25, chance.choice(classes)) for _ in range(chance.randrange(3)))
        body += b"".join(odd(chance) for _ in range(chance.randrange(4)))
        packet = (nas.access_packet(ident, body, chance.randbytes(16), chance.random() < 0.9) if login
                  else nas.accounting_packet(ident, body))
        yield packet if chance.random() < 0.8 else mutate(chance, packet), nas.auth_port if login else nas.acct_port


def sent_all(venue: Venue, nas: Nas, victim: Guest, good: list[tuple[str, str]]) -> list[int]:
    """Sends the packets, a good login among so many; the codes of the replies to the good ones."""
    replies: list[int] = []

    def go(part: int) -> None:
        for i, (packet, port) in enumerate(packets(random.Random(SEED + part), nas, victim, PACKETS // AT_ONCE)):
            nas.exchange(packet, port, 0.02)
            if i % 75 == 0:
                replies.append(venue.nas().login(*good[part * 5 + i // 75]).code)

    threads = [threading.Thread(target=go, args=(part,)) for part in range(AT_ONCE)]
    for thread in threads:
        thread.start()
    for thread in threads:
        thread.join()
    return replies


def test_fuzzed(venue: Venue) -> None:
    """3,000 packets from a seed, of another access server than the one that logged the guest in."""
    nas, bar = venue.nas(), venue.nas(BAR)
    victim, was = Guest(venue, nas), len(bar.requests)
    assert victim.counts("v1", 1_000_000), (
        f"what the access server counts arrives  [{venue.bytes_left(victim.device)}]")
    kept, good = venue.codes("hour", 20), [(code, venue.device()) for code in venue.codes("hour", 5 * AT_ONCE)]
    before = set(venue.sessions())
    replies = sent_all(venue, bar, victim, good)
    assert replies == [ACCEPT] * len(good), (
        f"{PACKETS} packets from the seed {SEED}: each good login among them is accepted")
    refused = json.loads((venue.run / "refusals.json").read_text())
    rows = venue.rows("SELECT count(*) FROM radacct WHERE acctsessionid LIKE 'z%'")[0][0]
    assert refused.get("bad_code", 0) > 100 and rows > 50, (
        "names reached the server, and accounting the database")
    assert victim.counts("v1", 1000), (
        "nothing is counted that the access server of the session did not count  "
        f"[{venue.bytes_left(victim.device)}]")
    assert all(venue.jobs[name].poll() is None for name in ("radius", "agent", "desk")), (
        "FreeRADIUS, the agent and the server live")
    assert set(venue.sessions()) == before | {device for _, device in good}, (
        f"no session is open that was not asked for, and none has ended  [{set(venue.sessions()) ^ before}]")
    assert not any(venue.uses_of(code) for code in kept), "no code is used that was not asked for"
    assert not nas.requests_for(DISCONNECT, "v1") and len(bar.requests) == was, (
        f"nobody is sent a request  [{(nas.requests, bar.requests)}]")
    assert venue.faults_in_logs(*FAULTS) == {}, "no fault in a log"


def test_no_fault_in_a_log(venue: Venue) -> None:
    assert venue.faults_in_logs(*FAULTS) == {}, "no fault in a log"
