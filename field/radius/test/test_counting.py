"""Accounting, makers, purging, secrets."""

from __future__ import annotations

import os
import sqlite3
import stat
import time

import pytest
from scripted_nas import ACCEPT, DISCONNECT, MAKERS, REJECT
from venue_lab import FAULTS, Venue

GIG = 6 * 2**30
DAY = 86_400

pytestmark = pytest.mark.radius


def test_counted(venue: Venue) -> None:
    nas, device = venue.nas(), venue.device()
    code, = venue.codes("gig", 1)
    klass = nas.login(code, device).values["Class"]
    assert nas.account("Start", "a1", code, device, klass), "a Start is answered"
    nas.account("Interim-Update", "a1", code, device, klass, (2**32 + 5, 7))
    assert venue.comes(lambda: venue.bytes_left(device) == GIG - 2**32 - 12), (
        f"an interim report of more than 4 GiB comes to the server  [{venue.bytes_left(device)}]")
    nas.account("Stop", "a1", code, device, klass, (2**32 + 100, 100))
    nas.account("Interim-Update", "a1", code, device, klass, (1000, 7))
    assert venue.comes(lambda: venue.bytes_left(device) == GIG - 2**32 - 200), (
        f"a Stop counts, and a late smaller interim after it takes nothing away  [{venue.bytes_left(device)}]")
    nas.account("Start", "a2", code, device, klass)
    nas.account("Interim-Update", "a2", code, device, klass, (50, 50))
    assert venue.comes(lambda: venue.bytes_left(device) == GIG - 2**32 - 300), (
        f"a second accounting session is added  [{venue.bytes_left(device)}]")
    nas.account("Interim-Update", "a2", code, device, klass, (50, 50))
    venue.stop("agent", kill=True)
    nas.account("Interim-Update", "a2", code, device, klass, (100, 100))
    venue.start_agent()
    assert venue.comes(lambda: venue.bytes_left(device) == GIG - 2**32 - 400), (
        f"an agent that was killed goes on where it was  [{venue.bytes_left(device)}]")
    other = venue.device()
    code, = venue.codes("both", 1)
    nas.login(code, other)
    nas.account("Start", "b1", code, other)
    nas.account("Interim-Update", "b1", code, other, None, (4_000_000, 1_000_000))
    assert venue.comes(lambda: venue.bytes_left(other) == 5_000_000), (
        f"an access server that gives no Class: found by its device  [{venue.bytes_left(other)}]")
    nas.account("Interim-Update", "b1", code, other, None, (8_000_000, 2_000_001))
    assert venue.comes(lambda: nas.requests_for(DISCONNECT, "b1")), (
        f"the last byte: a Disconnect-Request  [{nas.requests}]")
    assert other not in venue.sessions(), "and the session is over"


def test_lost_radacct(venue: Venue) -> None:
    """The database of accounting is lost: counting goes on from what the server holds."""
    nas, device = venue.nas(), venue.device()
    code, = venue.codes("gig", 1)
    klass = nas.login(code, device).values["Class"]
    nas.account("Interim-Update", "l1", code, device, klass, (1000, 0))
    venue.until(lambda: venue.bytes_left(device) == GIG - 1000, what="the first bytes arrive")
    venue.stop("agent")
    venue.stop("radius")
    for path in venue.state.glob("radacct.db*"):
        path.unlink()
    venue.start_radius()
    venue.start_agent()
    nas.account("Start", "l2", code, device, klass)
    time.sleep(1.2)
    nas.account("Interim-Update", "l2", code, device, klass, (500, 0))
    assert venue.comes(lambda: venue.bytes_left(device) == GIG - 1500), (
        f"with radacct lost it counts on from what the server holds  [{venue.bytes_left(device)}]")


def test_makers(venue: Venue) -> None:
    """Each maker's access server, scripted: what it sends, what it gets, where it listens."""
    for maker in MAKERS:
        nas, device, name = venue.nas(maker), venue.device(), maker.name
        code, = venue.codes("gig", 1)
        reply = nas.login(code, device)
        assert reply.code == ACCEPT and device in venue.sessions(), (
            f"{name}: a login of its own form is accepted for the device")
        limits = [venue.number(reply, attribute) for attribute in maker.limit]
        whole = [GIG & 0xffffffff, GIG >> 32] if len(limits) == 2 else [2**32 - 1] * len(limits)
        if maker.limit:
            assert limits == whole, f"{name}: its own attribute limits the bytes"
        session = f"{name}-1"
        nas.account("Start", session, code, device, reply.values["Class"])
        nas.account("Interim-Update", session, code, device, reply.values["Class"], (2**32, 10))
        assert venue.comes(lambda: venue.bytes_left(device) == GIG - 2**32 - 10), (
            f"{name}: its bytes are counted  [{venue.bytes_left(device)}]")
        rows = venue.rows("SELECT calledstationid, nasipaddress FROM radacct WHERE acctsessionid = ?", session)
        assert rows == [(maker.called, nas.address)], (
            f"{name}: the station it was called by, and the address that it spoke from, are kept")
        reply = nas.login(maker.device(device), device)
        assert reply.code == ACCEPT, f"{name}: MAC authentication in its spelling"
        venue.close_session(device)
        if maker.coa_port:
            assert nas.port == maker.coa_port and venue.comes(lambda: nas.requests_for(DISCONNECT, session)), (
                f"{name}: a Disconnect-Request at its port {maker.coa_port}  [{nas.requests}]")
        else:
            time.sleep(1.5)
            assert not nas.requests, f"{name}: takes no Disconnect-Request, and gets none"
            assert nas.login(maker.device(device), device).code != ACCEPT, (
                f"{name}: its next login is rejected")
        nas.account("Stop", session, code, device, None)


def test_purged(venue: Venue) -> None:
    nas, device, over = venue.nas(), venue.device(), venue.device()
    gig, = venue.codes("gig", 1)
    hour, = venue.codes("hour", 1)
    klass = nas.login(gig, device).values["Class"]
    nas.account("Start", "h1", gig, device, klass)
    nas.account("Stop", "h1", gig, device, klass, (700, 0))
    nas.account("Start", "h2", gig, device, klass)
    nas.account("Interim-Update", "h2", gig, device, klass, (300, 0))
    gone = nas.login(hour, over).values["Class"]
    for session, status in (("h3", "Stop"), ("h4", "Stop"), ("h5", "Start")):
        nas.account("Start", session, hour, over, gone)
        nas.account(status, session, hour, over, gone, (9, 9))
    venue.until(lambda: venue.bytes_left(device) == GIG - 1000, what="the bytes arrive")
    venue.close_session(over)
    venue.stop("agent")
    book = sqlite3.connect(venue.state / "radacct.db", timeout=5)
    then = int(time.time()) - 31 * DAY
    book.execute("UPDATE radacct SET acctstoptime = ? WHERE acctsessionid IN ('h1', 'h3')", (then,))
    book.execute("UPDATE radacct SET acctstarttime = ?, acctupdatetime = ? WHERE acctsessionid = 'h5'", (then, then))
    book.commit()
    book.close()
    venue.start_agent()
    assert venue.comes(lambda: not venue.sessions_of("h3", "h5")), (
        "accounting rows of 31 days ago are purged, those that never ended too  "
        f"[{venue.sessions_of('h3', 'h5')}]")
    assert venue.sessions_of("h1", "h2", "h4") == {"h1", "h2", "h4"}, (
        "later ones stay, and all of a session that is open")
    logins_purged(venue, device, over)
    nas.account("Interim-Update", "h2", gig, device, klass, (400, 0))
    assert venue.comes(lambda: venue.bytes_left(device) == GIG - 1100), (
        f"and its bytes are still their sum  [{venue.bytes_left(device)}]")


def logins_purged(venue: Venue, device: str, over: str) -> None:
    """What is kept of logins of yesterday, once another one needed a list of the open sessions."""
    venue.stop("radius")
    book = sqlite3.connect(venue.state / "logins.db")
    book.execute("UPDATE portal_logins SET at = at - ?", (DAY + 1,))
    book.commit()
    venue.start_radius()
    venue.nas().login(venue.codes("hour", 1)[0], venue.device())
    devices = {name for name, in book.execute("SELECT device FROM portal_logins")}
    book.close()
    assert over not in devices, "and logins of sessions that are over"
    assert device in devices, "but not of one that is open"


def test_secrets_are_drawn(venue: Venue) -> None:
    folder = venue.etc / "credentials/radius"
    drawn = {path.name: path.read_text().strip() for path in folder.iterdir() if path.name != "clients.conf"}
    names = {"plain", *(maker.name for maker in MAKERS)}
    assert (drawn.keys() == names and len(set(drawn.values())) == len(drawn)
            and all(len(word) >= 22 for word in drawn.values())), (
        "each access server has a secret of its own, of 22 signs or more")
    modes = {path.name: stat.S_IMODE(os.stat(path).st_mode) for path in folder.iterdir()}
    assert set(modes.values()) == {0o600} and stat.S_IMODE(folder.stat().st_mode) == 0o700, (
        "only root reads them")
    modes = {path.name: stat.S_IMODE(os.stat(path).st_mode) for path in venue.state.glob("*.db")}
    assert modes == {"radacct.db": 0o600, "logins.db": 0o600}, (
        "and the server's user alone the databases of accounting and of logins")
    texts = "".join((venue.etc / name).read_text() for name in ("radius.toml", "radius.env"))
    assert not any(word in texts for word in drawn.values()), "no secret stands in a file that others read"
    key = venue.etc / "credentials/class_key"
    drawn_key = key.read_text()
    assert (stat.S_IMODE(os.stat(key).st_mode) == 0o600 and len(drawn_key.strip()) >= 22
            and drawn_key.strip() not in texts + "".join(drawn.values())), (
        "the key of Class is another one, which root alone reads")
    venue.settings()
    again = {path.name: path.read_text().strip() for path in folder.iterdir() if path.name != "clients.conf"}
    assert again == drawn and key.read_text() == drawn_key, "set-up once more leaves them as they are"
    code, = venue.codes("hour", 1)
    replies = [venue.nas().login(name, venue.device()).code for name in (code, code, "2222-2222-223N")]
    assert replies == [ACCEPT, REJECT, REJECT], "of three logins one is accepted"
    log = (venue.root / "radius.log").read_text()
    assert not any(code in log for code in venue.all_codes), "no code is in FreeRADIUS's log"


def test_no_fault_in_a_log(venue: Venue) -> None:
    assert venue.faults_in_logs(*FAULTS) == {}, "no fault in a log"
