"""Runs the server: once the machine's time is right, ended where the clock is set, started again where it
hangs.

    python3 -m portal_field.server.parent [--portal "CMD .."] [--gateway SOCKET] --port N --db FILE
    --settings FILE

It is the unit's first process and the server's parent, so that what holds the server still (`systemctl
freeze`) holds this watch still too. A server that ends ends this program, and systemd starts both anew; where
that can never help the status is 78, which systemd takes as the last word.
"""

from __future__ import annotations

import argparse
import contextlib
import os
import pathlib
import shlex
import signal
import socket
import subprocess
import sys
import threading
import time
from typing import Any, NoReturn

from portal_field.lib import doors
from portal_field.lib.desk_client import Desk, NoAnswer, Refused, Routes, settings
from portal_field.lib.local_time import clock as local, use_zone
from portal_field.lib.machine_time import Notes
from portal_field.lib.notify import notify_systemd
from portal_field.server.accepted_steps import FILE, Steps
from portal_field.server.right_time import BELIEVED, Clock

TICK = 0.1          # seconds between two looks at the clock while the server runs
AGAIN = 0.5         # and while it waits for the time
LAST_LIST = 5.0     # for which a stop waits for the gateway agent
NOBODY = "02:00:00:00:00:00"    # a device of no guest
NEVER, HUNG = 78, 75            # statuses: EX_CONFIG, which is not started again; EX_TEMPFAIL
# What the program says where no new start can help, and what does.
ADVICE = {
    "settings": "its settings are not valid: correct field.toml and run the set-up again",
    "not_ours": "the database file is another program's: put the venue's own there, or restore a copy",
    "newer": "the database was written by a later version: install that version, or restore a copy of before",
    "usage": "its command line is not valid",
}


def say(text: str) -> None:
    """Writes a line of the journal, and of `systemctl status`."""
    print("server:", text, file=sys.stderr, flush=True)
    notify_systemd(b"STATUS=" + text.encode())


def is_held(pid: int) -> bool:
    """Whether somebody stopped the process by a signal, as for a copy of its files by hand."""
    try:
        return pathlib.Path(f"/proc/{pid}/stat").read_text().rpartition(")")[2].split()[0] in "Tt"
    except OSError:
        return False


class Watch(threading.Thread):
    """Asks the server now and then, as a client of its own; it hangs where three answers in a row do not come
    in time. Silence alone counts: one that ends is noticed anyway, and one that somebody holds still goes on
    after that."""
    EACH, MOST = 5.0, 3

    def __init__(self, desk: Desk, pid: int) -> None:
        super().__init__(daemon=True)
        self.desk, self.pid, self.over = desk, pid, threading.Event()
        self.silent, self.has_complained = 0, False

    @property
    def hangs(self) -> bool:
        """Whether the server has been silent too often."""
        return self.silent >= self.MOST

    def run(self) -> None:
        """Asks the server until it hangs or the watch is over."""
        while not self.over.wait(self.EACH if self.silent == 0 else self.EACH / 5) and not self.hangs:
            self.silent = 0 if self.answers() or is_held(self.pid) else self.silent + 1

    def answers(self) -> bool:
        """Whether the server answers, or at least refuses the connection."""
        try:
            self.desk.request_json(Routes.CAPTIVE, device=NOBODY)
        except NoAnswer as fault:
            if isinstance(fault.__cause__, ConnectionRefusedError) and not self.has_complained:
                self.has_complained = True
                say("does not watch the server: the packet rules let nobody of its user connect; load them "
                    "anew")
            return not isinstance(fault.__cause__, TimeoutError)
        except Refused:
            pass
        return True


class Server:
    """The server as a process that this one starts and ends."""

    def __init__(self, words: list[str], clock: Clock, desk: Desk, notes: Notes, gateway: str = "") -> None:
        self.words, self.clock, self.desk, self.notes, self.gateway = words, clock, desk, notes, gateway
        self.fault = ""             # the program's last word of a fault
        self.watch: Watch | None = None

    def note(self, **values: Any) -> None:
        """Notes for the counter's page what the server does."""
        try:
            self.notes.write("state", **values)
        except OSError as fault:
            print("server: the state for the counter's page could not be written:", fault, file=sys.stderr,
                  flush=True)

    def wait_for_time(self) -> None:
        """Waits until the time is right."""
        reason = ""
        while not (verdict := self.clock.judge()).right:
            if verdict.why != reason:
                reason = verdict.why
                say(f"waits, as the time may be wrong ({local(int(time.time()))} in the venue's zone): "
                    f"{reason}. It starts once the clock is set right, or a clerk has said at the counter "
                    "that the time is right")
                self.note(**{"is": "waits", "why": reason, "last": verdict.last})
            threading.Event().wait(AGAIN)       # as a timed wait below, which counts by the monotonic clock
        say(f"starts at {local(int(time.time()))} in the venue's zone: {verdict.why}")
        self.note(**{"is": "serves", "since": time.time_ns()})

    def read(self, job: subprocess.Popen[bytes], ended: threading.Event) -> None:
        """Prints what the program says, remembers its fault, and starts the watch once it listens."""
        assert job.stdout
        for line in job.stdout:
            print(line.decode("utf-8", "replace"), end="", file=sys.stderr, flush=True)
            if line.startswith(b"portal: "):
                self.fault = line[8:].decode("ascii", "replace").strip()
            elif line.startswith(b"listening ") and not self.watch:
                self.watch = Watch(self.desk, job.pid)
                self.watch.start()
        ended.set()

    def serve(self) -> int | None:
        """Runs the server until it ends; the status to end with, or None where the clock was set."""
        self.fault, self.watch, ended = "", None, threading.Event()
        with subprocess.Popen(self.words, stdin=subprocess.DEVNULL, stdout=subprocess.PIPE,
                              stderr=subprocess.STDOUT) as job:
            reader = threading.Thread(target=self.read, args=(job, ended), daemon=True)
            reader.start()
            try:
                while not ended.wait(TICK):
                    if self.clock.was_set():
                        return None
                    if self.watch and self.watch.hangs:
                        return self.hangs()
                reader.join()
                return self.ends(job.wait())
            except SystemExit:      # systemd stops the unit
                self.ask_gateway()
                raise
            finally:
                job.kill()          # nothing that was answered is lost by it
                reader.join(5)
                if self.watch:
                    self.watch.over.set()

    def ask_gateway(self) -> None:
        """Before the server is stopped: waits until the gateway agent has taken its last list, where there is
        an agent."""
        with contextlib.suppress(OSError), socket.socket(socket.AF_UNIX) as link:
            link.settimeout(LAST_LIST)
            if self.gateway:
                link.connect(self.gateway)
                link.sendall(doors.STOP)
                link.recv(1)

    def hangs(self) -> int:
        """Says that the server does not answer; the status with which this process then ends."""
        say("the server does not answer: it is ended and started again")
        return HUNG

    def ends(self, status: int) -> int:
        """The status with which this process ends, after the server's; says so where no start can mend it."""
        word = "usage" if status == 2 else self.fault.partition(" ")[0] if status == 3 else ""
        if word in ADVICE:
            why = f"it ended with status {status}, `portal: {word}`: {ADVICE[word]}"
            say(f"the server is not started again by itself, as that would not help: {why}. "
                "Then: systemctl restart portal")
            self.note(**{"is": "failed", "why": why})
            return NEVER
        return status if status >= 0 else 128 - status

    def run(self) -> int:
        """Starts the server whenever the time is right, until it ends by itself."""
        while True:
            self.wait_for_time()
            status = self.serve()
            if status is not None:
                return status
            say("the machine's clock was set while the server ran: the server is ended")


def end(*_: object) -> NoReturn:
    """Ends this process on SIGTERM, and the server with it."""
    sys.exit(0)


def main() -> int:
    """Runs the server; the status is its own, or says why it is not started again."""
    words = argparse.ArgumentParser(description="Runs the server once the machine's time is right.")
    words.add_argument("--portal", default="/usr/bin/portal", help="the program, as a command line")
    words.add_argument("--port", type=int, required=True)
    words.add_argument("--db", type=pathlib.Path, required=True)
    words.add_argument("--settings", required=True)
    words.add_argument("--gateway", default="", help="the socket at which the gateway agent hears of a stop")
    words.add_argument("--notes", default="/run/portal-clock", help="the folder of the notes about the clock")
    args = words.parse_args()
    signal.signal(signal.SIGTERM, end)
    os.environ.setdefault("FIELD_SETTINGS", "/etc/portal/server.toml")
    conf = settings("") if os.path.exists(os.environ["FIELD_SETTINGS"]) else {}
    use_zone(conf.get("zone", "UTC0"))
    believed = conf.get("clock", BELIEVED[0])
    notes = Notes(args.notes)
    line = [*shlex.split(args.portal), "serve", "--port", str(args.port), "--db", str(args.db),
            "--settings", args.settings]
    status = 0
    try:
        clock = Clock(believed, notes, args.db, steps=Steps(args.db.with_name(FILE)))
        status = Server(line, clock, Desk(args.port), notes, args.gateway).run()
    finally:
        if status != NEVER:
            notes.drop("state")
    return status


if __name__ == "__main__":
    sys.exit(main())
