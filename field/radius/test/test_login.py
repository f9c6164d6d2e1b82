"""Logins, refusals, one use."""

from __future__ import annotations

import os
import signal
import time
from typing import Any

import pytest
from scripted_nas import ACCEPT, REJECT, at_once
from steady import Span, assert_measured
from venue_lab import FAULTS, MADE_UP, Venue

from portal_field.lib.counts import Counts
from portal_field.lib.desk_client import Desk, Route, Routes
from portal_field.lib.languages import Language
from portal_field.radius.logins import Logins
from portal_field.radius.open_sessions import OpenSessions

AGAIN = "press the button again"

pytestmark = pytest.mark.radius


def test_accepted(venue: Venue) -> None:
    nas, device, other = venue.nas(), venue.device(), venue.device()
    hour, spelled = venue.codes("hour", 2)
    reply = nas.login(hour, device)
    assert reply.code == ACCEPT, "a sold code is accepted"
    assert 3590 <= venue.number(reply, "Session-Timeout") <= 3600, "Session-Timeout is what is left"
    number = venue.sessions()[device]["session"]
    assert reply.values.get("Class") == venue.class_of(number, device, nas), (
        "Class names the session and its device, under an HMAC of the access server's name")
    assert reply.values.get("Acct-Interim-Interval") == 60, "the answer has an interim interval"
    assert reply.signed, "the answer is signed"
    reply = nas.login(venue.codes("gig", 1)[0], venue.device())
    limits = [reply.values.get(f"Mikrotik-Total-Limit{end}") for end in ("", "-Gigawords")]
    assert limits == [2**31, 1], "6 GiB are sent with gigawords"
    limits = [reply.values.get(f"{name}-Max-Total-Octets") for name in ("ChilliSpot", "pfSense")]
    assert limits == [2**32 - 1] * 2, "and where there are none as the greatest that fits"
    assert "Session-Timeout" not in reply.values, "no Session-Timeout where time is not limited"
    digits = other.replace(":", "")
    cisco = ".".join(digits[i:i + 4] for i in (0, 4, 8))
    reply = nas.login(spelled.lower().replace("-", " "), "", more={"Calling-Station-Id": cisco})
    assert reply.code == ACCEPT and other in venue.sessions(), (
        "a code in lower case with blanks, a device as Cisco writes it")


def test_refused(venue: Venue) -> None:
    nas, device = venue.nas(), venue.device()
    hour, back, kept = venue.codes("hour", 3)
    unsold, = venue.codes("hour", 1, sell=False)
    nas.login(hour, venue.device())
    venue.refund(back)
    for code, words in ((hour, "used already"), ("AAAA-AAAA-AAAB", "no code of ours"), (MADE_UP, "do not know this code"),
                        (unsold, "not been sold"), (back, "refunded")):
        reply = nas.login(code, device)
        assert reply.code == REJECT and words in reply.words, f"refused in words: {words}"
    assert reply.signed, "and signed"
    reply = nas.login(kept, "")
    assert reply.code == REJECT and "identify your device" in reply.words and venue.uses_of(kept) == 0, (
        "no device: refused in words, nothing used")
    reply = nas.login(kept, "", more={"Calling-Station-Id": "10.5.50.9"})
    assert reply.code == REJECT and venue.uses_of(kept) == 0, "an address in the device's place: the same"
    names = ((MADE_UP + "\r\nPortal-Token: x").encode(), b"\xff\xfe", b"\x00", "\u00fc".encode() * 20, b'"}')
    replies = [nas.login(name, device) for name in names]
    assert [r.code for r in replies] == [REJECT] * 5, (
        f"names that are no text, or have line ends in them, are refused  [{replies}]")
    assert nas.login(kept, device).code == ACCEPT, "and the server goes on"


def test_same_again(venue: Venue) -> None:
    nas, device, other = venue.nas(), venue.device(), venue.device()
    three, first = venue.codes("three", 2)
    hour, = venue.codes("hour", 1)
    nas.login(three, device)
    reply = nas.login(three, device)
    assert reply.code == ACCEPT and venue.uses_of(three) == 1, (
        "the same code by the same device: accepted, one use taken")
    at_once(20, lambda: nas.login(three, device))
    assert venue.uses_of(three) == 1, "20 at once: still one use"
    replies = at_once(20, lambda: nas.login(first, other).code)
    assert venue.uses_of(first) == 1 and ACCEPT in replies, "20 first logins at once: one use"
    device = venue.device()
    nas.login(hour, device)
    reply = nas.login(hour, device)
    assert reply.code == ACCEPT, "a used-up code on its open session: accepted"
    reply = nas.login(nas.maker.device(device), device)
    assert reply.code == ACCEPT and "Session-Timeout" in reply.values, (
        "MAC authentication of an open session: accepted")
    stranger = venue.device()
    reply = nas.login(stranger.replace(":", ""), stranger)
    assert reply.code == REJECT and "Type the code" in reply.words, (
        "MAC authentication of a stranger: rejected")


class CountedDesk(Desk):
    """Counts the lists that are asked for."""
    lists = 0

    def request(self, route: Route, *part: str, **more: Any) -> bytes:
        self.lists += route is Routes.SESSIONS
        return super().request(route, *part, **more)


class Rules:
    """The rules alone, beside FreeRADIUS."""

    def __init__(self, venue: Venue) -> None:
        self.gateway = CountedDesk(venue.desk_port, venue.gateway.token)
        self.sessions = OpenSessions(Desk(venue.desk_port), self.gateway, lambda rows: None)
        self.logins = Logins(Desk(venue.desk_port), self.sessions, lambda session, *names: str(session), 60, Language("en"), Counts())

    def session(self, name: str, device: str) -> int:
        """The number of the session that a login is on."""
        return int(dict(self.logins.decide(name, device, "plain")[1]).get("Class", 0))

    def session_by_old_list(self, name: str, device: str) -> int:
        """The same, as if the last list had just come."""
        self.sessions.asked_at = time.monotonic()
        return self.session(name, device)


def test_numbered(venue: Venue) -> None:
    """Which session a login is on just after it was opened, and where another one of the device is over."""
    rules, second, device, other = Rules(venue), Rules(venue), venue.device(), venue.device()
    three, = venue.codes("three", 1)
    hour, more, third = venue.codes("hour", 3)

    def is_open(session: int, device: str) -> bool:
        return bool(session == venue.sessions()[device]["session"])

    first = rules.session(three, device)
    assert is_open(first, device), "a first login is on what it opened"
    venue.redeem(more, other)
    session = rules.session_by_old_list(other, other)
    assert is_open(session, other), "MAC authentication on what was opened a moment ago elsewhere"
    venue.close_session(device)
    session = rules.session_by_old_list(three, device)
    assert is_open(session, device), "the next use a moment after an end is on the new session"
    venue.close_session(device)
    second.session(hour, device)
    rules.session(third, venue.device())
    session = rules.session_by_old_list(hour, device)
    assert is_open(session, device), "what another RADIUS server redeemed a moment ago is on its session"
    rules.sessions.asked_at = float("-inf")
    session = rules.session(three, device)
    assert is_open(session, device) and venue.uses_of(three) == 2, (
        "a code whose session is over, another one open: on that, and nothing is used")


def test_list_for_all(venue: Venue) -> None:
    """First logins, the same codes again, MAC authentication."""
    rules, pairs, start = Rules(venue), [(code, venue.device()) for code in venue.codes("hour", 40)], time.monotonic()
    sessions = [rules.session(*pair) for pair in (*pairs, *pairs, *((device, device) for _, device in pairs))]
    took, numbers = time.monotonic() - start, [venue.sessions()[device]["session"] for _, device in pairs]
    assert sessions == numbers * 3, "each login is on its device's session"
    assert rules.gateway.lists <= took / 0.5 + 3, (
        "a list of the open sessions serves for half a second, and not for one login")


def test_next_use(venue: Venue) -> None:
    nas, device = venue.nas(), venue.device()
    three, = venue.codes("three", 1)
    blink, = venue.codes("blink", 1)
    nas.login(three, venue.device())
    reply = nas.login(three, venue.device())
    assert reply.code == ACCEPT and venue.uses_of(three) == 2, "the same code by another device: its next use"
    nas.login(blink, device)
    venue.until(lambda: device not in venue.sessions(), what="the session's end")
    reply = nas.login(blink, device)
    assert reply.code == ACCEPT and venue.uses_of(blink) == 2, (
        "the same code after its session's end: its next use")


def test_extended(venue: Venue) -> None:
    nas, device, stiff = venue.nas(), venue.device(), venue.device()
    one, two = venue.codes("hour", 2)
    fixed, more = venue.codes("stiff", 2)
    nas.login(one, device)
    reply = nas.login(two, device)
    assert reply.code == ACCEPT and venue.number(reply, "Session-Timeout") > 7100, (
        "another code extends the open session")
    nas.login(fixed, stiff)
    reply = nas.login(more, stiff)
    assert reply.code == ACCEPT and venue.uses_of(more) == 0 and "Keep this code" in reply.words, (
        "a plan that does not extend: accepted on what is open, the code is kept")
    reply = nas.login(MADE_UP, stiff)
    assert reply.code == REJECT, "a code that never was on an open session: rejected"


def test_signed(venue: Venue) -> None:
    nas, device = venue.nas(), venue.device()
    code, = venue.codes("hour", 1)
    reply = nas.login(code, device, sign=False, wait=1.0)
    assert reply.code == 0 and venue.uses_of(code) == 0, (
        "a request without Message-Authenticator is not answered, and nothing is used")
    replies = [nas.login(code, device), nas.login("X", device)]
    assert [r.signed for r in replies] == [True, True], f"each answer has one  [{replies}]"
    secret, nas.secret = nas.secret, b"another secret of some length"
    reply = nas.login(code, device, wait=1.0)
    nas.secret = secret
    assert reply.code == 0, "another secret gets no answer"


def test_silent(venue: Venue) -> None:
    """The server is held still: what was asked is carried out later, when its asker has given up."""
    nas, device, late = venue.nas(), venue.device(), venue.device()
    three, = venue.codes("three", 1)
    hour, = venue.codes("hour", 1)
    desk = venue.jobs["desk"].pid
    os.kill(desk, signal.SIGSTOP)
    span = Span()
    reply = nas.login(three, device)
    took = span.seconds()
    assert reply.code == REJECT and AGAIN in reply.words and 2.5 < took and span.allows(took, 6), (
        "a silent server: rejected in words after its time limit")

    def eight() -> tuple[bool, object]:
        start = time.monotonic()
        codes = at_once(8, lambda: nas.login(hour, late).code)
        took = time.monotonic() - start
        return codes == [REJECT] * 8 and took < 5, (took, codes)

    assert_measured("eight more at once are rejected, not one after another", eight)
    os.kill(desk, signal.SIGCONT)
    time.sleep(2.2)
    reply = nas.login(three, device)
    assert reply.code == ACCEPT and venue.uses_of(three) == 1, (
        "it was carried out all the same: the next try takes no second use")


def test_killed_radius(venue: Venue) -> None:
    """FreeRADIUS is killed while it asks the server."""
    nas, device = venue.nas(), venue.device()
    code, = venue.codes("three", 1)
    venue.kill_radius_at_login(nas, code, device)
    venue.start_radius()
    reply = nas.login(code, device)
    assert reply.code == ACCEPT and venue.uses_of(code) == 1, (
        "FreeRADIUS killed while it asked: the next try is accepted, one use")


def test_desk_down(venue: Venue) -> None:
    nas, device, other = venue.nas(), venue.device(), venue.device()
    gig, = venue.codes("gig", 1)
    hour, = venue.codes("hour", 1)
    klass = nas.login(gig, device).values["Class"]
    nas.account("Start", "down", gig, device, klass)
    time.sleep(1.2)         # the agent has looked at it
    venue.stop("desk")
    count = len(nas.requests)

    def is_rejected() -> tuple[bool, object]:
        start = time.monotonic()
        reply = nas.login(hour, other)
        took = time.monotonic() - start
        return reply.code == REJECT and AGAIN in reply.words and took < 1, (took, reply)

    assert_measured("the server is down: new logins are rejected in words, within a second", is_rejected)
    assert nas.login(gig, device).code == REJECT, (
        "the server is down: a device that was online is not let in again")
    assert nas.account("Interim-Update", "down", gig, device, klass, (150, 150)), (
        "the server is down: accounting is kept")
    time.sleep(2)
    assert len(nas.requests) == count, f"the server is down: nobody is cut off  [{nas.requests[count:]}]"
    venue.start_desk()
    assert venue.comes(lambda: venue.bytes_left(device) == 6 * 2**30 - 300), (
        f"the server is up again: the bytes of meanwhile arrive  [{venue.bytes_left(device)}]")
    reply = nas.login(hour, other)
    assert reply.code == ACCEPT and venue.uses_of(hour) == 1, "and the login that was rejected works, one use"


def test_no_fault_in_a_log(venue: Venue) -> None:
    assert venue.faults_in_logs(*FAULTS) == {}, "no fault in a log"
