"""How far the clock was moved forward of the time that really passed, without a clerk's word: in a file that
outlives the boot.

A time service is seldom authenticated, and one that lies can move the clock again and again. What really
passed is known from the clock of the boot, which nobody sets. While the machine was off it is known where the
machine's own clock is seen before a time service has set it.
"""

from __future__ import annotations

import contextlib
import json
import os
import pathlib
from collections.abc import Callable
from dataclasses import asdict, dataclass, field

from portal_field.lib.machine_time import STEP, since_boot
from portal_field.lib.owned_files import read

DAY = 86_400
FILE = "clock-steps.json"           # beside the database
MOST, WITHIN = 7 * DAY, 30 * DAY    # seconds forward, in all, within so many seconds that passed
NOISE = 1.0         # seconds by which a clock is corrected all the time
EACH = 600.0        # seconds between two notes while all goes on
TOGETHER = 3600.0   # steps within so many seconds count as one


def boot_id() -> str:
    """The kernel's name of this boot; empty where it gives none."""
    with contextlib.suppress(OSError):
        return pathlib.Path("/proc/sys/kernel/random/boot_id").read_text().strip()
    return ""


@dataclass
class Record:
    """What the file has. Moments and spans in seconds."""
    boot: str = ""              # which boot `uptime` and `own` are of
    seen: float = 0.0           # the clock when it was accepted last; 0: never
    uptime: float = 0.0         # since the boot, then
    # in a new boot: its moment by the machine's own clock, before a service set that
    own: float | None = None
    passed: float = 0.0         # what really passed since the first note, as far as it is known
    # when, as `passed` has it, and how far forward
    moves: list[list[float]] = field(default_factory=list)
    service: bool = False       # whether a time service kept the clock since the last word of a clerk
    refused: bool = False       # whether the clock was found wrong since it was accepted last

    def sum_of_moves(self, since: float = 0.0) -> float:
        """How far forward the clock was moved of late, so many seconds after it was accepted last."""
        return sum(far for at, far in self.moves if self.passed + since - at < WITHIN)


def read_record(path: pathlib.Path) -> Record:
    """The record in a file; nothing was moved where there is no such file, or one that does not read."""
    try:
        return Record(**json.loads(read(path)))
    except (OSError, ValueError, TypeError):
        return Record()


class Steps:
    """The file, and the clock at each look. `here`: the moment of the boot by the clock, as
    `machine_time.origin` has it."""

    def __init__(self, path: pathlib.Path | None = None, boot: Callable[[], str] = boot_id,
                 uptime: Callable[[], float] = since_boot) -> None:
        self.path, self.boot, self.uptime = path, boot(), uptime
        self.record = read_record(path) if path else Record()

    def look(self, here: float, synchronised: bool) -> None:
        """Takes note of the boot and of a time service, before the clock is judged. What the clock shows in a
        new boot before a service has set it is the machine's own clock, unless that was found wrong before
        the boot: a service's time goes into it, too."""
        record = self.record
        if record.boot != self.boot:
            own = None if synchronised or record.refused else here
            self.record = record = Record(self.boot, record.seen, -1.0, own, record.passed, record.moves,
                                          record.service, record.refused)
            self.write()
        if synchronised and not record.service:
            record.service = True
            self.write()

    def since(self, here: float) -> float:
        """What really passed since the clock was accepted last."""
        record, uptime = self.record, self.uptime()
        if record.uptime >= 0:
            return uptime - record.uptime
        own = record.own
        if own is not None and own < here + STEP and own + uptime > record.seen:
            return own + uptime - record.seen
        return uptime       # the machine was off, nobody knows how long

    def ahead(self, here: float) -> float:
        """How far the clock is ahead of what really passed since it was accepted last; not less than
        nothing."""
        far = here + self.uptime() - self.record.seen - self.since(here)
        return far if self.record.seen and far >= NOISE else 0.0

    def may(self, here: float) -> bool:
        """Whether the clock may go on like this without a clerk's word; where no service kept it other rules
        hold."""
        return not self.record.service or self.all_in_all(here) <= MOST

    def all_in_all(self, here: float) -> float:
        """Seconds by which services moved the clock forward within the time that counts."""
        return self.record.sum_of_moves(max(self.since(here), 0.0)) + self.ahead(here)

    def accept(self, here: float, last: int | None = None) -> None:
        """Counts the clock as right. `last`: the database's last entry, which is compared with where
        nothing else is known."""
        record = self.record
        record.seen = record.seen or float(last or 0)
        time_passed, far = self.since(here) if record.seen else 0.0, self.ahead(here)
        record.passed += max(time_passed, 0.0)
        record.moves = [move for move in record.moves if record.passed - move[0] < WITHIN]
        if far and record.moves and record.passed - record.moves[-1][0] < TOGETHER:
            record.moves[-1][1] += far
        elif far:
            record.moves.append([record.passed, far])
        self.note(here)

    def begin(self, here: float) -> None:
        """A clerk said that the clock is right: what was before does not count any more."""
        self.record = Record(self.boot)
        self.note(here)

    def note(self, here: float) -> None:
        """Notes the clock's time, from which the count goes on."""
        record, record.uptime = self.record, self.uptime()
        record.seen, record.own, record.refused = here + record.uptime, None, False
        self.write()

    def refuse(self) -> None:
        """Notes that a clerk has to say that the time is right."""
        if not self.record.refused:
            self.record.refused = True
            self.write()

    def goes_on(self, here: float, synchronised: Callable[[], bool]) -> bool:
        """Counts small steps of the clock while the server runs; whether their sum is small enough to go
        on."""
        record = self.record
        gone = self.uptime() - record.uptime
        if abs(here - (record.seen - record.uptime)) < NOISE and gone < EACH:
            return True
        self.look(here, synchronised())
        if not self.may(here):
            return False
        self.accept(here)
        return True

    def write(self) -> None:
        """Writes the record as a whole, or leaves what was there. Without room on the disk this process alone
        knows it."""
        if not self.path:
            return
        part = self.path.with_name(f".{self.path.name}.part")
        with contextlib.suppress(OSError), os.fdopen(os.open(part, os.O_WRONLY | os.O_CREAT | os.O_TRUNC,
                                                             0o600), "w") as file:
            json.dump(asdict(self.record), file)
            file.flush()
            os.fsync(file.fileno())
            part.replace(self.path)
