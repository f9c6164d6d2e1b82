"""Follows the server's list of open sessions and FreeRADIUS's radacct: reports bytes, and ends what the
server has ended.

Bytes. A session may have several accounting sessions (re-association, roaming, an access server that started
again), and a Class for each access server that logged it in: its total is their sum, in both directions, plus
what the server held before radacct knew it (a lost radacct.db). A row has a Class only where `counting` found
it good. The server keeps the greatest report, so reports carry no idempotency key and may be sent twice.

Ends. A live accounting session whose session is not in the list (closed, out of time or bytes), or is there
for another device (a restore of an older copy), gets a Disconnect-Request. While the server is silent nobody
is cut off: the access server keeps to the time and the bytes that it was sent.
"""

from __future__ import annotations

import os
import pathlib
import sqlite3
import time
from collections.abc import Iterator
from typing import Any

from portal_field.lib.desk_client import Desk, NoAnswer, Refused, Routes, credential, settings
from portal_field.lib.notify import notify_systemd
from portal_field.radius.classes import SessionClass, in_radacct
from portal_field.radius.disconnects import Pairs, Requests, Row, Server, complain

NEAR_END = 8            # a report is due when this part of what is left was used
HOUR, DAY = 3600, 86_400
LATE = 5                # seconds by which an end has to move so that it is sent to the access server
MOST_PURGED = 500       # rows at a time: a purge holds up accounting for a moment at most
ROWS = """SELECT acctuniqueid AS uid, acctsessionid, username, nasipaddress, callingstationid,
  framedipaddress, class, acctstoptime IS NULL AS live FROM radacct
  WHERE class LIKE '0x%' AND (acctstoptime IS NULL OR acctstoptime >= ?)"""
SUM = """SELECT sum(coalesce(acctinputoctets, 0) + coalesce(acctoutputoctets, 0)) FROM radacct
  WHERE class >= ? AND class < ?"""
OLD = """SELECT radacctid, class FROM radacct
  WHERE coalesce(acctstoptime, acctupdatetime, acctstarttime, 0) < ? ORDER BY radacctid"""
Session = dict[str, Any]


def session_of(text: str | None) -> tuple[int, str]:
    """The number and the device in a Class; 0 where it is another program's."""
    session_class = SessionClass.read(text)
    return (session_class.session, session_class.device) if session_class else (0, "")


class Agent:
    """Reports the bytes of sessions, and ends what the server has ended."""

    def __init__(self, conf: dict[str, Any], desk: Desk, requests: Requests) -> None:
        self.desk, self.requests = desk, requests
        self.quiet, self.keep = conf["quiet_seconds"], conf["keep_days"] * DAY
        self.book = sqlite3.connect(conf["radacct"], timeout=5, isolation_level=None)
        self.book.row_factory = sqlite3.Row
        self.base: dict[int, int] = {}                      # session: what the server held beyond radacct
        # session: bytes that the server knows, and since when
        self.server_counts: dict[int, tuple[int, float]] = {}
        # accounting session: the end that the access server knows
        self.ends: dict[str, float] = {}
        self.purge_at = 0.0

    def report(self, session: int, total: int) -> int:
        """Reports a session's bytes; what the server holds now. A session that it does not know (a restored
        copy) is passed over."""
        try:
            reply = self.desk.request_json(Routes.REPORT, body={"session": session, "bytes": total})
            used = int(reply["used"])
        except Refused as fault:
            if fault.status == 503:
                raise
            used = total
        self.server_counts[session] = (max(total, used), time.monotonic())
        return used

    def radacct_bytes(self, session: int, device: str) -> int:
        """What radacct has of a session, under all its Classes."""
        total: int | None = self.book.execute(SUM, in_radacct(session, device)).fetchone()[0]
        return total or 0

    def count(self, session: int, device: str, row: Session | None, live: bool) -> bool:
        """Reports the session's bytes where that is due; whether that was the last byte."""
        radacct_bytes = self.radacct_bytes(session, device)
        if session not in self.base:
            self.base[session] = max(0, self.report(session, 0) - radacct_bytes)
        total = self.base[session] + radacct_bytes
        server_count, when = self.server_counts[session]
        fresh, left = total - server_count, (row or {}).get("bytes-remaining")
        near_end = left is not None and fresh * NEAR_END >= left
        if fresh > 0 and (near_end or not live or time.monotonic() - when >= self.quiet):
            self.report(session, total)
            return left is not None and fresh >= left
        return False

    def over(self, rows: list[Row], listed: dict[int, Session]) -> set[tuple[int, str]]:
        """The sessions and devices whose session is over, once the bytes of all are reported."""
        live: dict[tuple[int, str], bool] = {}
        for row in rows:
            key = session_of(row["class"])
            live[key] = live.get(key, False) or bool(row["live"])
        live.pop((0, ""), None)
        ended = set()
        for (session, device), is_live in live.items():
            session_row = listed.get(session)
            # of the database before a restore
            is_foreign = session_row is not None and session_row["device"] != device
            if is_foreign or self.count(session, device, session_row, is_live) or session_row is None:
                ended.add((session, device))
        self.forget({session for session, _ in live})
        return ended

    def forget(self, live: set[int]) -> None:
        """Drops what is kept of sessions that are over."""
        for session in set(self.base) - live:
            del self.base[session]
        for session in set(self.server_counts) - live:
            del self.server_counts[session]

    def poll(self) -> None:
        """One poll: what is over, what was extended, and what is reported."""
        listed = {row["session"]: row for row in self.desk.request_json(Routes.SESSIONS)["sessions"]}
        rows = self.book.execute(ROWS, (int(time.time()) - HOUR,)).fetchall()
        over = self.over(rows, listed)
        self.requests.end([row for row in rows if row["live"] and session_of(row["class"]) in over])
        self.requests.send("coa", list(self.moved_ends([row for row in rows if row["live"]], listed)))
        if time.monotonic() >= self.purge_at:
            self.purge(listed)

    def moved_ends(self, rows: list[Row], listed: dict[int, Session]) -> Iterator[tuple[Row, Pairs]]:
        """Live sessions whose end has moved since they were first looked at: the time left is sent to the
        access server, if it is one that takes that."""
        self.ends = {uid: end for uid, end in self.ends.items() if uid in {row["uid"] for row in rows}}
        for row in rows:
            session = listed.get(session_of(row["class"])[0])
            if session is None or "seconds-remaining" not in session:
                continue
            end = time.time() + session["seconds-remaining"]
            if end <= self.ends.setdefault(row["uid"], end) + LATE:
                continue
            self.ends[row["uid"]] = end
            server = self.requests.server_at(row["nasipaddress"])
            if server and server.extend_by_coa:
                yield row, [("Session-Timeout", session["seconds-remaining"])]

    def purge(self, listed: dict[int, Session]) -> None:
        """Takes rows away that ended, or were last heard of, `keep_days` ago; never those of an open session,
        whose bytes are their sum."""
        old = self.book.execute(OLD, (int(time.time()) - self.keep,)).fetchall()
        gone = [row["radacctid"] for row in old if session_of(row["class"])[0] not in listed]
        self.book.executemany("DELETE FROM radacct WHERE radacctid = ?",
                              [(number,) for number in gone[:MOST_PURGED]])
        if len(gone) <= MOST_PURGED:
            self.purge_at = time.monotonic() + HOUR


def try_poll(agent: Agent) -> None:
    """A poll whose faults are written into the journal of the service."""
    try:
        agent.poll()
    except Refused as fault:
        complain("the server refuses: " + fault.word)
    except (NoAnswer, OSError, sqlite3.Error, KeyError, TypeError) as fault:
        complain(repr(fault))


def main() -> None:
    """Polls for ever."""
    conf = settings("/etc/portal/radius.toml")
    requests = Requests(Server.all(conf), pathlib.Path(os.environ["CREDENTIALS_DIRECTORY"]))
    agent = Agent(conf, Desk(conf["desk_port"], credential("gateway_token"), timeout=3.0), requests)
    notify_systemd(b"READY=1")
    while True:
        start = time.monotonic()
        try_poll(agent)
        notify_systemd(b"WATCHDOG=1")
        time.sleep(max(0.05, conf["poll_seconds"] - (time.monotonic() - start)))


if __name__ == "__main__":
    main()
