"""The gateway agent: lets through the devices that the desk names, counts their bytes, reports them.

All that lasts is in the kernel's sets (portal.nft), so the agent may be stopped and started at any moment: an
element's counter and its comment `SESSION+BASE` say which session is counted, and from which number on.
"""

from __future__ import annotations

import contextlib
import json
import os
import pathlib
import select
import socket
import sys
import time
from collections.abc import Callable, Iterable
from typing import Any, Protocol

from portal_field.gateway import last_list
from portal_field.gateway.last_list import LastList, Row
from portal_field.gateway.passing import Passing, RulesAreGone
from portal_field.lib import doors
from portal_field.lib.desk_client import Desk, NoAnswer, Refused, Routes, credential, settings
from portal_field.lib.notify import notify_systemd

NEAR_END = 8            # a report is due when this part of what is left was used
MOST_REPORTS = 50       # a poll; the others wait for the next, which then comes at once
LONGEST = 3.0           # seconds that a poll spends on reports, since the list that it works on grows old
# seconds after which a report that the desk answered renews the kernel's timeout again
RENEWED = 1.0
SAYS_SO = 1.0           # seconds that one who asks has to say what
# The kernel's counts are read as a whole each READ_PART seconds for each device that passes, at most each
# LONGEST_READ: in a small venue at each poll. In between a count is asked for alone where it matters: that of
# a session that ends, and of one that may use its last bytes before the next whole reading.
READ_PART, LONGEST_READ = 0.005, 5.0
ASK = 30                # how many counts are read as a whole while one is asked for alone
PACE = 12_500_000       # bytes a second that any device may use; one that used more may use twice as many
GOLDEN = 0.6180339887   # parts of an interval by numbers that follow one another: evenly spread, however many


class Gate(last_list.Gate, Protocol):
    """What the agent needs of the kernel's sets; the tests have another one."""

    def passing(self) -> dict[str, Passing]:
        """The devices that pass, with their counts."""
    def is_known(self) -> bool:
        """Whether the sets are those that this process changed last: nobody loaded or emptied them since."""
    def ask(self, macs: Iterable[str]) -> dict[str, Passing]:
        """Those of these devices that pass, with their counts, each asked for alone."""
    def change(self, gone: Iterable[str], come: dict[str, Passing]) -> None:
        """Lets devices pass no more, and others from now on."""
    def shut(self) -> None:
        """Blocks all guests."""
    def guard(self) -> None:
        """Makes the agent's own table, which no other program's flush removes."""
    def check_rules(self) -> None:
        """RulesAreGone or NotReady: the rules are not loaded, or not filled yet."""
    def load(self) -> None:
        """Loads the rules again."""
    def bar(self) -> None:
        """Blocks guests by the agent's own table, and turns forwarding and IPv6 off."""
    def unbar(self) -> None:
        """Lets guests pass the agent's own table again, and turns forwarding on."""


class Agent:
    """Polls the server, and lets those devices pass that have an open session."""

    def __init__(self, desk: Desk, gate: Gate, snapshot: str | None = None, quiet: float = 30.0,
                 time_quiet: float = 600.0, now: Callable[[], float] = time.monotonic,
                 kept: float = last_list.CLOSED) -> None:
        self.desk, self.gate, self.snapshot, self.now = desk, gate, snapshot, now
        self.quiet, self.time_quiet = quiet, time_quiet
        self.server_counts: dict[int, tuple[int, float]] = {}    # session: bytes, when
        # session: when it was reported to the desk, since this agent started
        self.reported_at: dict[int, float] = {}
        # session: the last count that the desk has not heard
        self.unreported: dict[int, int] = {}
        # when the kernel's timeout was renewed; when the reports of a poll end
        self.renewed_at = self.reports_end = 0.0
        self.reports_left = 0                                       # reports that this poll may make
        self.has_postponed = False                                   # whether some had to wait
        # The devices that pass as far as is known, each with the count that was read last; None where the
        # kernel has to be read.
        self.known: dict[str, Passing] | None = None
        self.read_at = 0.0                          # when the kernel was read as a whole
        self.pace: dict[int, float] = {}            # session: bytes a second between the last two readings
        self.last = LastList(gate, now, kept)
        # device and session: the count of those that ended while the server was silent, for which the desk
        # may hold them open
        self.ended: dict[tuple[str, int], int] = {}

    def change(self, gone: Iterable[str], come: dict[str, Passing]) -> None:
        """Changes who passes, which renews the kernel's timeout."""
        self.gate.change(gone, come)
        self.renewed_at = self.now()

    def may_report(self, reserve: int = 0) -> bool:
        """Whether this poll has room for one more report; if not, the next poll comes at once."""
        room = self.reports_left > reserve and self.now() < self.reports_end
        self.has_postponed = self.has_postponed or not room
        return room

    def report(self, session: int, used: int) -> tuple[bool, int]:
        """Reports a session's bytes; whether the session is still open, and what the desk holds.

        No idempotency key: the desk keeps the greatest report, so a report sent twice does no harm, and
        numbers are kept for good."""
        self.reports_left -= 1
        reply = self.desk.request_json(Routes.REPORT, body={"session": session, "bytes": used})
        self.server_counts[session] = (max(used, reply["used"]), self.now())
        self.reported_at[session] = self.now()
        if self.now() - self.renewed_at >= RENEWED:
            self.change((), {})
        return reply["open"], reply["used"]

    def later(self, session: int, count: int) -> None:
        """Puts off the next report of a session without a byte limit: by its number somewhere within the
        interval."""
        self.server_counts[session] = (count, self.now() - session * GOLDEN % 1 * self.time_quiet)

    def urgency(self, p: Passing, left: int | None) -> float:
        """How urgent a report is; 0: none is due. Each is a commit at the desk: it comes near the end of the
        bytes, or after a while, and where bytes have no limit after a long while."""
        if p.session not in self.server_counts:
            if left is not None:
                return float(NEAR_END)
            self.later(p.session, p.base)
        count, when = self.server_counts[p.session]
        fresh, waited = p.used - count, self.now() - when
        if fresh <= 0:
            return 0.0
        if left is None:
            return waited / self.time_quiet if waited >= self.time_quiet else 0.0
        part = fresh * NEAR_END / max(left, 1)
        return part if part >= 1 or waited >= self.quiet else 0.0

    def report_due(self, stay: dict[str, Passing], wanted: dict[str, Row]) -> list[str]:
        """Sends the reports that are due of these devices, the most urgent first; the devices whose session
        has ended by it."""
        needs = {mac: self.urgency(p, wanted[mac].get("bytes-remaining")) for mac, p in stay.items()}
        ended = []
        for mac in sorted((mac for mac in needs if needs[mac] > 0), key=lambda mac: -needs[mac]):
            if not self.may_report():
                break
            if not self.report(stay[mac].session, stay[mac].used)[0]:
                ended.append(mac)
        return ended

    def settle(self, gone: dict[str, Passing], wanted: dict[str, Row]) -> None:
        """Reports the last counts of devices that were taken out; what the desk does not hear is left to
        the next poll."""
        self.unreported.update({p.session: p.used for p in gone.values()})
        # After a restore of an older book a number may belong to another device: say nothing then.
        if self.unreported:
            for session in (0, *(row["session"] for row in wanted.values())):
                self.unreported.pop(session, None)
        for session, used in list(self.unreported.items()):
            if not self.may_report(MOST_REPORTS // 2):
                break
            try:
                self.report(session, used)
            except Refused as refusal:
                if refusal.status == 503:
                    raise
            del self.unreported[session]
            self.server_counts.pop(session, None)

    def newcomers(self, wanted: dict[str, Row], stay: dict[str, Passing]) -> dict[str, Passing]:
        """The devices to let in, each with the bytes from which its count goes on: those that the desk holds.

        A report of 0 bytes changes nothing and answers what is held, also to a gateway that lost its
        counts."""
        come = {}
        for mac, row in wanted.items():
            if mac not in stay and self.may_report():
                is_open, used = self.report(row["session"], self.ended.get((mac, row["session"]), 0))
                self.ended.pop((mac, row["session"]), None)
                if is_open:
                    come[mac] = Passing(row["session"], used, 0)
                if "bytes-remaining" not in row:
                    self.later(row["session"], used)
        return come

    def matters(self, p: Passing, row: Row | None) -> bool:
        """Whether a session's count is needed now: it ends, or may use its last bytes before the kernel is
        read as a whole again. `row`: what the desk lists for its device."""
        if row is None or row["session"] != p.session:
            return True
        if "bytes-remaining" not in row:
            return False
        fresh = p.used - self.server_counts.get(p.session, (p.base, 0.0))[0]
        left: int = row["bytes-remaining"]
        return left - fresh < max(PACE, 2 * self.pace.get(p.session, 0.0)) * LONGEST_READ

    def read(self) -> dict[str, Passing]:
        """Reads the kernel as a whole; how fast each session used its bytes since the last time."""
        before, seconds = self.known or {}, max(self.now() - self.read_at, RENEWED)
        passing = self.gate.passing()
        self.pace = {p.session: (p.count - before[mac].count) / seconds for mac, p in passing.items()
                     if mac in before and before[mac].session == p.session}
        self.read_at = self.now()
        return passing

    def look(self, wanted: dict[str, Row]) -> tuple[dict[str, Passing], set[str]]:
        """The devices that pass, and those of which the count is new: all, or those of which it matters."""
        if self.known is not None and self.gate.is_known():
            matters = {mac for mac, p in self.known.items() if self.matters(p, wanted.get(mac))}
            pause = min(READ_PART * len(self.known), LONGEST_READ)
            if self.now() - self.read_at < pause and len(matters) * ASK <= len(self.known):
                asked = self.gate.ask(matters) if matters else {}
                if asked.keys() == matters:         # else somebody else took some out
                    return {**self.known, **asked}, matters
        passing = self.read()
        return passing, set(passing)

    def poll(self) -> None:
        """One poll: who passes no more, who passes, and what is reported to the server."""
        self.gate.guard()
        self.gate.check_rules()                  # also where the desk is silent
        wanted = {row["device"]: row for row in self.desk.request_json(Routes.SESSIONS)["sessions"]}
        if self.last.closed_at is not None:
            self.last.take(wanted, {session: count for session, (count, _) in self.server_counts.items()})
        now, fresh = self.look(wanted)
        self.known = None                   # until this poll comes to its end
        stay = {mac: p for mac, p in now.items() if mac in wanted and wanted[mac]["session"] == p.session}
        gone = {mac: p for mac, p in now.items() if mac not in stay} if len(stay) < len(now) else {}
        self.change(gone, {})               # first of all: who may not pass, passes no more
        is_whole = len(fresh) == len(now)
        due = stay if is_whole or self.has_postponed else {mac: stay[mac] for mac in fresh & stay.keys()}
        self.reports_left, self.reports_end, self.has_postponed = MOST_REPORTS, self.now() + LONGEST, False
        self.settle(gone, wanted)
        come = self.newcomers(wanted, stay) if len(stay) < len(wanted) else {}
        if come:
            self.change((), come)
        ended = self.report_due(due, wanted)
        if ended or self.reports_left < MOST_REPORTS:
            self.change(ended, {})
        self.known = {mac: p for mac, p in {**stay, **come}.items() if mac not in ended}
        if gone or come or ended or is_whole:
            self.forget(wanted)
            self.write_sessions(wanted, self.known)

    def forget(self, wanted: dict[str, Row]) -> None:
        """Drops what is kept of sessions that are over."""
        sessions = {row["session"] for row in wanted.values()} | self.unreported.keys()
        self.ended = {key: used for key, used in self.ended.items() if key[1] in sessions}
        self.server_counts = {session: count for session, count in self.server_counts.items()
                              if session in sessions}
        self.reported_at = {session: when for session, when in self.reported_at.items()
                            if session in sessions}

    def row(self, row: Row, p: Passing) -> Row:
        """A session as the desk lists it, with the count of this poll; and what the desk holds of it, as of
        when, where it was reported since the agent started. (The desk does not say when it was reported.)"""
        if p.session not in self.reported_at:
            return {**row, "used": p.used}
        at = time.time() - (self.now() - self.reported_at[p.session])
        return {**row, "used": p.used, "reported": self.server_counts[p.session][0], "reported-at": int(at)}

    def write_sessions(self, wanted: dict[str, Row], passing: dict[str, Passing]) -> None:
        """Writes the list for the counter's page, which has no token of the gateway."""
        if self.snapshot is None:
            return
        rows = [self.row(wanted[mac], p) for mac, p in sorted(passing.items(),
                                                              key=lambda item: item[1].session)]
        self.write(pathlib.Path(self.snapshot), {"at": int(time.time()), "sessions": rows})

    def write_state(self, is_open: bool) -> None:
        """Writes whether guests pass, for the metrics; what was opened shuts by itself once its grace is
        over."""
        if self.snapshot is not None:
            self.write(pathlib.Path(self.snapshot).with_name("gate.json"),
                       {"at": time.time(), "open": is_open})

    def write(self, path: pathlib.Path, content: dict[str, Any]) -> None:
        """Writes a file as a whole, for those of the agent's group."""
        part = path.with_name(path.name + ".part")
        part.write_text(json.dumps(content))
        part.chmod(0o640)
        part.replace(path)

    def try_poll(self) -> bool:
        """One poll; whether all went well. The desk's silence shuts the gate by the switch, its stop at
        once."""
        try:
            self.poll()
            self.gate.unbar()
            self.last.has_answered()
            self.write_state(True)
            return True
        except RulesAreGone as fault:
            complain(f"{fault}; nothing is forwarded until they are loaded")
            self.gate.bar()
            self.write_state(False)
            self.load_rules()
        except Refused as refusal:
            complain("the desk refuses: " + refusal.word)
            if refusal.word != "no_memory":     # a desk short of memory for a moment is as a silent one
                self.shut()
        except NoAnswer as fault:
            if not self.keep():
                complain(str(fault))
        except OSError as fault:
            complain(str(fault))
        except (KeyError, TypeError) as fault:
            complain("an answer that the desk does not give: " + repr(fault))
            self.shut()
        return False

    def shut(self) -> None:
        """Blocks all guests, by whatever list they passed."""
        self.gate.shut()
        self.last.open()
        self.write_state(False)

    def close_desk(self) -> bool:
        """Before the server is stopped in order: takes the list that is newer than any command. Whether
        guests go on by it."""
        try:
            self.last.close()
            if self.try_poll():
                self.last.is_taken()
                complain("the server is stopped: the sessions go on for a minute at most, each to its own "
                         "end")
                return True
            self.last.open()
        except OSError as fault:
            complain(str(fault))
        return False

    def keep(self) -> bool:
        """While the server is silent after an orderly stop: lets those sessions of its last list pass that
        have not ended. Whether there is such a list."""
        try:
            if not self.last.is_kept():
                return False
            passing = self.gate.passing()
            over = self.last.over(passing)
            self.unreported.update({passing[mac].session: passing[mac].used for mac in over})
            self.ended.update({(mac, passing[mac].session): passing[mac].used for mac in over})
            self.known = None
            self.change(over, {})
        except OSError as fault:
            complain(str(fault))
            return False
        self.write_state(True)
        return True

    def load_rules(self) -> None:
        """Loads the rules after somebody's flush; forwarding stays off until a good poll."""
        try:
            self.gate.load()
            complain("the rules are loaded again")
        except RulesAreGone as fault:
            complain(str(fault))


def complain(text: str) -> None:
    """Writes a fault into the journal of the service."""
    print("gateway:", text, file=sys.stderr, flush=True)


def knock_socket(path: str) -> socket.socket:
    """The socket at which the front end knocks after a redemption, so that the guest need not wait for the
    next poll."""
    pathlib.Path(path).unlink(missing_ok=True)
    knocks = socket.socket(socket.AF_UNIX, socket.SOCK_DGRAM)
    knocks.bind(path)
    os.chmod(path, 0o660)
    knocks.setblocking(False)
    return knocks


def wait_for_knock(knocks: socket.socket, seconds: float, stops: socket.socket | None = None) -> bool:
    """Waits until somebody knocks or the time is over; all knocks so far count as one. Whether somebody asked
    meanwhile at the other socket, before the server is stopped."""
    ready = select.select([knocks, stops] if stops else [knocks], [], [], seconds)[0]
    if knocks in ready:
        try:
            while knocks.recv(16):
                pass
        except BlockingIOError:
            pass
    return stops in ready


def answer_stop(stops: socket.socket, agent: Agent) -> None:
    """Answers the server's parent, which waits with the stop until then. Who only connects asks nothing."""
    with stops.accept()[0] as link, contextlib.suppress(OSError):
        link.settimeout(SAYS_SO)
        if doors.is_asked_by(link, "portal") and link.recv(16) == doors.STOP and agent.close_desk():
            link.sendall(b"k")


def main() -> None:
    """Polls for ever, and at once after a knock."""
    # needs python3-nftables, which the agent's tests do not
    from portal_field.gateway.kernel_gate import KernelGate

    conf = settings("/etc/portal/gateway.toml")
    desk = Desk(conf["desk_port"], credential("gateway_token"), timeout=conf["poll_seconds"] * 2)
    gate = KernelGate(conf["lan"], conf["grace_seconds"], conf["rules"])
    agent = Agent(desk, gate, conf.get("snapshot"), conf["quiet_seconds"], conf["time_quiet_seconds"],
                  kept=last_list.CLOSED - conf["grace_seconds"])
    knocks = knock_socket(conf["knock"])
    stops = doors.listening(conf["stops"]) if "stops" in conf else None
    notify_systemd(b"READY=1")
    while True:
        start = time.monotonic()
        good = agent.try_poll()
        notify_systemd(b"WATCHDOG=1")     # after each poll: an agent that hangs is killed and started again
        time.sleep(0.05)        # knocks cannot make it spin
        pause = 0.0 if good and agent.has_postponed else conf["poll_seconds"] - (time.monotonic() - start)
        if wait_for_knock(knocks, max(0.0, pause), stops) and stops:
            answer_stop(stops, agent)


if __name__ == "__main__":
    main()
