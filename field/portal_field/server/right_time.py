"""Whether the machine's clock is right, before the server carries out anything at its time.

The time of a database never goes back: one command at a wrong time in the future makes vouchers expire for
good. So a time service is believed only near the database's last entry, and as far as `accepted_steps.py`
allows.
"""

from __future__ import annotations

import contextlib
import ctypes
import os
import pathlib
import shutil
import sqlite3
import tempfile
import time
from collections.abc import Callable
from dataclasses import dataclass

from portal_field.lib.machine_time import Notes, origin, was_set
from portal_field.lib.owned_files import held
from portal_field.server.accepted_steps import DAY, MOST, WITHIN, Steps

# seconds before and after the last entry within which a time service is believed
EARLIER, LATER = 60, 7 * DAY
BELIEVED = ("kernel", "host", "clerk")      # `clock` of field.toml
# microseconds: the kernel's largest error once no time service set a smaller one for hours
UNKNOWN = 16_000_000
NO_ENTRY = "the database has no entry to compare it with"
SERVICE = "a time service keeps the clock"
# what the clock is compared with: why it cannot be, and the last entry
LastEntry = tuple[str, int | None]


def is_synchronised() -> bool:
    """The kernel's word: a time service (timesyncd, chrony, ntpd, ..) keeps the clock. Setting it by hand
    ends that. As timedatectl does it: the flag beside the error says more of the hardware clock."""
    # struct timex with no mode: nothing is set. The fourth word is maxerror.
    words = (ctypes.c_long * 64)()
    return ctypes.CDLL(None).adjtimex(words) >= 0 and words[3] < UNKNOWN


class Unreadable(Exception):
    """The database is there, and its last moment cannot be read."""


def last_moment(database: pathlib.Path) -> int | None:
    """The moment of the last entry, out of a copy of both files, since reading the files themselves would
    change them. None: there is no database yet, or one without entries. Nobody writes meanwhile, as the
    server does not run."""
    if not database.exists():
        return None
    try:
        with tempfile.TemporaryDirectory() as folder:
            copy = f"{folder}/copy.db"
            for end in ("", "-wal"):
                if os.path.lexists(f"{database}{end}"):
                    with held(pathlib.Path(f"{database}{end}")) as address:
                        shutil.copyfile(address, copy + end)
            with contextlib.closing(sqlite3.connect(copy)) as base:
                if not base.execute("SELECT 1 FROM sqlite_master WHERE name = 'portal_head'").fetchone():
                    return None
                return int(base.execute("SELECT last_moment FROM portal_head").fetchone()[0]) or None
    except (OSError, sqlite3.Error, TypeError, ValueError) as fault:
        raise Unreadable(str(fault)) from fault


@dataclass(frozen=True)
class Verdict:
    """Whether the time is right, and why."""
    right: bool
    why: str                    # for the journal and the counter's page
    last: int | None = None     # the database's last moment, where it was looked at


class Clock:
    """The machine's clock, compared with what may be trusted."""

    def __init__(self, keeper: str, notes: Notes, database: pathlib.Path,
                 now: Callable[[], float] = time.time,
                 origin: Callable[[], float] = origin, synchronised: Callable[[], bool] = is_synchronised,
                 steps: Steps | None = None) -> None:
        self.keeper, self.notes, self.database, self.steps = keeper, notes, database, steps or Steps()
        self.now, self.origin, self.synchronised = now, origin, synchronised
        # the origin that goes on as right; the one in the note
        self.accepted_origin = self.noted_origin = 0.0
        self.last_look: tuple[object, LastEntry] | None = None

    def judge(self) -> Verdict:
        """Whether the server may start at this time."""
        if self.keeper == "host":
            return Verdict(True, "the settings say that this machine's host keeps its clock")
        here = self.origin()
        if who := self.word(here):
            self.go_on(here)
            self.steps.begin(here)
            return Verdict(True, f"{who} said at the counter that it is right")
        synchronised = self.synchronised()
        self.steps.look(here, synchronised)
        verdict = self.without_a_word(here, synchronised and self.keeper == "kernel")
        if verdict.right:
            self.go_on(here)
            self.steps.accept(here, verdict.last)
        else:
            self.steps.refuse()
        return verdict

    def without_a_word(self, here: float, synchronised: bool) -> Verdict:
        """The verdict where no clerk has spoken."""
        origin = self.notes.read("found").get("origin")
        is_far = self.keeper == "kernel" and not self.steps.may(here)
        if isinstance(origin, (int, float)) and not was_set(origin, here) and not is_far:
            return Verdict(True, "the clock was found right before, and was not set since")
        verdict = self.by_service() if synchronised else self.by_database()
        if not verdict.right or not is_far:
            return verdict
        days = self.steps.all_in_all(here) / DAY
        return Verdict(False,
                       f"a time service moved the clock forward by {days:.1f} days within {WITHIN // DAY} "
                       f"days, and more than {MOST // DAY} need the word of a clerk", verdict.last)

    def word(self, here: float) -> str:
        """Who said that the time is right. Taken once, whatever comes of it, and good for the clock as it was
        then."""
        note = self.notes.read("word")
        self.notes.drop("word")
        origin = note.get("origin")
        if not isinstance(origin, (int, float)) or was_set(origin, here):
            return ""
        return str(note.get("who", "somebody"))

    def by_service(self) -> Verdict:
        """The verdict where a time service keeps the clock: it may be wrong, or another machine may answer
        in its place."""
        fault, last = self.compared_with()
        if last is None:
            return Verdict(True, SERVICE) if fault == NO_ENTRY else Verdict(False, f"{SERVICE}, but {fault}")
        far = "more than a minute before" if self.now() < last - EARLIER else ""
        if self.now() > max(last, self.steps.record.seen) + LATER:
            far = "more than seven days after"
        if far:
            return Verdict(False, f"{SERVICE}, but it is {far} the database's last entry", last)
        return Verdict(True, SERVICE, last)

    def by_database(self) -> Verdict:
        """The verdict where no time service keeps the clock."""
        fault, last = self.compared_with()
        if last is None:
            return Verdict(False, f"no time service keeps the clock, and {fault}")
        far = "before" if self.now() < last else "more than a day after" if self.now() > last + DAY else ""
        if far:
            return Verdict(False,
                           f"no time service keeps the clock, and it is {far} the database's last entry",
                           last)
        return Verdict(True, "the clock is within a day after the last entry of the database", last)

    def compared_with(self) -> LastEntry:
        """Why the clock cannot be compared with the database, and the moment of its last entry where it can;
        read again where a file has changed."""
        signs = []
        for end in ("", "-wal"):
            with contextlib.suppress(OSError):
                status = pathlib.Path(f"{self.database}{end}").stat()
                signs.append((end, status.st_ino, status.st_size, status.st_mtime_ns))
        if self.last_look is None or self.last_look[0] != signs:
            try:
                self.last_look = signs, (NO_ENTRY, last_moment(self.database))
            except Unreadable as fault:
                self.last_look = signs, (f"the last entry of the database cannot be read ({fault})", None)
        return self.last_look[1]

    def go_on(self, here: float) -> None:
        """Notes that the clock is right until it is set. A server that is started again need not wait anew;
        the note goes with the boot."""
        self.accepted_origin = here
        if abs(self.noted_origin - self.accepted_origin) >= 1:
            with contextlib.suppress(OSError):
                self.notes.write("found", origin=self.accepted_origin)
                self.noted_origin = self.accepted_origin

    def was_set(self) -> bool:
        """Whether the clock was set since it was accepted. Small steps go on, while a time service does not
        make too many."""
        here = self.origin()
        if self.keeper == "host":
            return False
        if was_set(self.accepted_origin, here):
            return True
        self.go_on(here)
        return self.keeper == "kernel" and not self.steps.goes_on(here, self.synchronised)
