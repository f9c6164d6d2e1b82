"""What ends a session, and what the access servers hear of it."""

from __future__ import annotations

import itertools
import time

import pytest
from scripted_nas import COA, DISCONNECT, MAKERS, Nas
from steady import assert_measured
from venue_lab import FAULTS, Venue

pytestmark = pytest.mark.radius


def close_session(venue: Venue, nas: Nas, name: str) -> tuple[tuple[str, str, object], float]:
    """A session that was closed at the counter: its code, device, Class, and when."""
    device = venue.device()
    hour, = venue.codes("hour", 1)
    klass = nas.login(hour, device).values["Class"]
    nas.account("Start", name, hour, device, klass)
    time.sleep(1.2)
    at = time.time()
    venue.close_session(device)
    return (hour, device, klass), at


def test_ended(venue: Venue) -> None:
    nas, turns = venue.nas(), itertools.count(1)
    (hour, device, klass), at = close_session(venue, nas, "c,1")
    assert venue.comes(lambda: nas.requests_for(DISCONNECT, "c,1")), (
        f"a close at the counter: a Disconnect-Request  [{nas.requests}]")
    request = nas.requests_for(DISCONNECT, "c,1")[0]

    def in_time() -> tuple[bool, float]:
        """Of that close first, then of others."""
        if (turn := next(turns)) == 1:
            return request.at - at < 1, request.at - at
        names, start = close_session(venue, nas, f"again{turn}")
        venue.until(lambda: nas.requests_for(DISCONNECT, f"again{turn}"), what="a Disconnect-Request")
        nas.account("Stop", f"again{turn}", *names)
        took = nas.requests_for(DISCONNECT, f"again{turn}")[0].at - start
        return took < 1, took

    assert_measured("within a second", in_time)
    names = {"User-Name": hour, "Acct-Session-Id": "c,1", "Calling-Station-Id": nas.maker.device(device),
             "Framed-IP-Address": "10.5.50.9"}
    names_sent = {name: value for name, value in request.values.items() if name in names}
    assert names_sent == names, f"it names the session as the access server did  [{request}]"
    assert request.signed, "and is signed"
    nas.account("Stop", "c,1", hour, device, klass, (1, 1))
    count = len(nas.requests)
    time.sleep(2.2)
    assert len(nas.requests) == count, f"after its Stop no more is sent  [{nas.requests[count:]}]"
    blink, = venue.codes("blink", 1)
    device = venue.device()
    klass = nas.login(blink, device).values["Class"]
    nas.account("Start", "d1", blink, device, klass)
    assert venue.comes(lambda: nas.requests_for(DISCONNECT, "d1"), 9), (
        f"the end of time: a Disconnect-Request  [{nas.requests}]")
    assert venue.comes(lambda: len(nas.requests_for(DISCONNECT, "d1")) > 1), (
        f"and again where no Stop comes  [{nas.requests}]")


def test_extended_elsewhere(venue: Venue) -> None:
    nas, device = venue.nas(), venue.device()
    one, two = venue.codes("hour", 2)
    klass = nas.login(one, device).values["Class"]
    nas.account("Start", "e1", one, device, klass)
    time.sleep(1.5)
    venue.redeem(two, device)
    assert venue.comes(lambda: nas.requests_for(COA, "e1")), (
        f"extended elsewhere: a CoA-Request where the access server takes that  [{nas.requests}]")
    timeouts = [request.values.get("Session-Timeout") for request in nas.requests_for(COA, "e1")]
    assert timeouts and 7100 < int(str(timeouts[0])) <= 7200, "with the time that is left now"


def test_deaf(venue: Venue) -> None:
    """One access server does not answer: the others get theirs in time all the same."""
    turns = itertools.count(1)
    assert_measured("an access server that does not answer holds up no other one",
                    lambda: disconnects_beside_a_deaf_one(venue, f"f{next(turns)}-"))


def disconnects_beside_a_deaf_one(venue: Venue, name: str) -> tuple[bool, list[float]]:
    quick, slow = venue.nas(), venue.nas(MAKERS[0])
    slow.deaf = True
    codes, devices = venue.codes("hour", 24), [venue.device() for _ in range(24)]
    for i, (code, device) in enumerate(zip(codes, devices)):
        nas = slow if i < 23 else quick
        nas.account("Start", f"{name}{i}", code, device, nas.login(code, device).values["Class"])
    time.sleep(1.2)
    for device in devices[:23]:
        venue.close_session(device)
    venue.until(lambda: slow.requests_for(DISCONNECT, f"{name}0"), what="the first one is asked")
    at = time.time()
    venue.close_session(devices[23])
    venue.comes(lambda: quick.requests_for(DISCONNECT, f"{name}23"))
    took = [request.at - at for request in quick.requests_for(DISCONNECT, f"{name}23")]
    slow.deaf = False
    for i, (code, device) in enumerate(zip(codes, devices)):
        (slow if i < 23 else quick).account("Stop", f"{name}{i}", code, device, None)
    return bool(took) and took[0] < 1.5, took


def test_restored(venue: Venue) -> None:
    """A Class of before a restore: its number is another device's session now."""
    nas, device, other = venue.nas(), venue.device(), venue.device()
    code, = venue.codes("gig", 1)
    klass = nas.login(code, device).values["Class"]
    nas.account("Start", "g1", code, device, klass)
    time.sleep(1.2)
    was, number = venue.bytes_left(device) or 0, venue.sessions()[device]["session"]
    nas.account("Interim-Update", "g2", "X", other, venue.class_of(number, other, nas), (10**9, 0))
    is_cut_off = venue.comes(lambda: nas.requests_for(DISCONNECT, "g2"))
    time.sleep(1.2)
    assert venue.bytes_left(device) == was, (
        "a Class of before a restore, now another device's session: not counted on it")
    assert is_cut_off, f"and cut off  [{nas.requests}]"
    nas.account("Stop", "g2", "X", other, None)
    count = len(nas.requests)
    hour, = venue.codes("hour", 1)
    gone = venue.device()
    nas.account("Start", "g3", hour, gone, nas.login(hour, gone).values["Class"])
    nas.account("Accounting-On", "0", "", "")
    venue.close_session(gone)
    time.sleep(2)
    sent = [request for request in nas.requests[count:] if request.values["Acct-Session-Id"] != "g2"]     # (once more, on a slow machine)
    assert not sent, f"an access server that started again (Accounting-On): nothing is sent to it  [{sent}]"
    klass = nas.login(code, device).values["Class"]
    nas.account("Interim-Update", "g4", code, device, klass, (50, 50))
    assert venue.comes(lambda: venue.bytes_left(device) == was - 100), (
        f"and counting goes on  [{venue.bytes_left(device)}]")


def test_no_fault_in_a_log(venue: Venue) -> None:
    assert venue.faults_in_logs(*FAULTS) == {}, "no fault in a log"
