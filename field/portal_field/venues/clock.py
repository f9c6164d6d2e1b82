"""portal-venues-clock.service: runs the desks of the venues by name once the machine's time is right, ends
them where the clock is set, and starts one anew that hangs. One process does for all desks what
portal_field.server.parent does for one.
"""

from __future__ import annotations

import concurrent.futures
import contextlib
import os
import pathlib
import shutil
import subprocess
import sys
import time
from collections.abc import Callable, Sequence

from portal_field.lib.desk_client import Desk, NoAnswer, Refused, Routes
from portal_field.lib.machine_time import Notes
from portal_field.lib.notify import notify_systemd
from portal_field.server.accepted_steps import FILE, Steps
from portal_field.server.right_time import NO_ENTRY, Clock, LastEntry
from portal_field.venues import health
from portal_field.venues.places import BadVenue, Places, machine_of, venues_in
from portal_field.venues.venue_settings import all_venues

TARGET = "portal-venues.target"
AGAIN, TICK = 0.5, 1.0      # seconds between two looks: while it waits for the time, and while the desks run
EACH, MOST = 10.0, 3        # seconds between two questions to a desk, and how many may have no answer
PATIENCE = 5.0              # seconds for an answer
NEWEST = 5                  # so many databases are looked into: those that were written last
NOBODY = "02:00:00:00:00:00"    # a device of no guest


def say(text: str) -> None:
    """Writes a line of the journal, and of `systemctl status`."""
    print("venues:", text, file=sys.stderr, flush=True)
    notify_systemd(b"STATUS=" + text.encode())


def ctl(*words: str) -> int:
    """Runs systemctl; its status."""
    return subprocess.run(["systemctl", "--no-block", *words]).returncode


class VenuesClock(Clock):
    """The machine's clock, compared with the last entries of the databases that were written last."""

    def __init__(self, keeper: str, notes: Notes, databases: Callable[[], Sequence[pathlib.Path]],
                 steps: Steps) -> None:
        super().__init__(keeper, notes, pathlib.Path("/nonexistent"), steps=steps)
        self.databases = databases

    def compared_with(self) -> LastEntry:
        """The latest entry of all; where there is none, why one cannot be read."""
        found = []
        for database in self.databases():
            self.database, self.last_look = database, None
            found.append(super().compared_with())
        entries = [look for look in found if look[1] is not None]
        faults = [look for look in found if look[1] is None and look[0] != NO_ENTRY]
        return max(entries, key=lambda look: look[1] or 0) if entries else (*faults, (NO_ENTRY, None))[0]


def written(database: pathlib.Path) -> float:
    """When a database, or its log, was written last."""
    return max((path.stat().st_mtime for path in (database, pathlib.Path(f"{database}-wal"))
                if path.exists()), default=0.0)


def newest_databases(root: pathlib.Path) -> list[pathlib.Path]:
    """The databases of the venues that were written last."""
    paths = [Places(name, root).database for name in venues_in(root)]
    return sorted(filter(pathlib.Path.exists, paths), key=written, reverse=True)[:NEWEST]


def make_folders(root: pathlib.Path) -> list[Notes]:
    """Makes the folder of each venue's notes, for desk and counter, where it is not there. The notes."""
    made = []
    for name in venues_in(root):
        folder = Places(name, root).notes
        folder.mkdir(parents=True, exist_ok=True)
        with contextlib.suppress(LookupError, PermissionError):
            shutil.chown(folder, group="portal-clock")
        folder.chmod(0o770)
        made.append(Notes(str(folder)))
    return made


def take_word(notes: Sequence[Notes], shared: Notes) -> None:
    """Takes a clerk's word that the time is right, from whatever venue."""
    for note in notes:
        if word := note.read("word"):
            note.drop("word")
            shared.write("word", **word)


class Watch:
    """Asks each desk now and then, and has one started anew that does not answer three times in a row."""

    def __init__(self, ports: dict[str, int], restart: Callable[[str], object]) -> None:
        self.ports, self.restart = ports, restart
        self.silent: dict[str, int] = {}
        self.gone: dict[int, float] = {}    # ports without an answer, and since when

    def answers(self, port: int) -> bool:
        """Whether a desk answers, or does not run at all: that systemd mends."""
        try:
            Desk(port, timeout=PATIENCE).request_json(Routes.CAPTIVE, device=NOBODY)
        except NoAnswer as fault:
            self.gone.setdefault(port, time.monotonic())
            return not isinstance(fault.__cause__, TimeoutError)
        except Refused:
            pass
        self.gone.pop(port, None)
        return True

    def seconds_silent(self) -> dict[str, float]:
        """For how many seconds each desk has given no answer; 0: it answers."""
        now = time.monotonic()
        return {name: now - self.gone.get(port, now) for name, port in self.ports.items()}

    def look(self) -> None:
        """Asks all desks, some at a time."""
        with concurrent.futures.ThreadPoolExecutor(8) as pool:
            answers = dict(zip(self.ports, pool.map(self.answers, self.ports.values())))
        for name, is_good in answers.items():
            self.silent[name] = 0 if is_good else self.silent.get(name, 0) + 1
            if self.silent[name] >= MOST:
                say(f"the desk of {name} does not answer: it is ended and started again")
                self.silent[name] = 0
                self.restart(Places(name).unit)


def wait_for_time(clock: VenuesClock, notes: Sequence[Notes], shared: Notes) -> None:
    """Waits until the time is right."""
    reason = ""
    while not (verdict := clock.judge()).right:
        if verdict.why != reason:
            reason = verdict.why
            say(f"the desks wait, as the time may be wrong: {reason}")
            for note in notes:
                note.write("state", **{"is": "waits", "why": reason, "last": verdict.last})
        time.sleep(AGAIN)
        take_word(notes, shared)
    say(f"the desks start: {verdict.why}")


def run_desks(clock: VenuesClock, watch: Watch, root: pathlib.Path) -> None:
    """Runs the desks until the clock is set. What Prometheus reads of them is written at each look."""
    ctl("start", TARGET)
    looked = time.monotonic()
    while not clock.was_set():
        if time.monotonic() - looked >= EACH:
            looked = time.monotonic()
            watch.look()
            health.write_metrics(root, watch.seconds_silent())
        time.sleep(TICK)
    say("the machine's clock was set while the desks ran: they are ended")
    subprocess.run(["systemctl", "stop", TARGET], check=True)


def main() -> int:
    """Runs the desks; 78 where the settings of the machine are not what they must be."""
    root = pathlib.Path("/")
    try:
        machine = machine_of(root)
    except BadVenue as fault:
        say(str(fault))
        return 78
    notes, shared = make_folders(root), Notes("/run/portal-venues")
    steps = Steps(pathlib.Path(os.environ.get("STATE_DIRECTORY", "/var/lib/portal-venues-clock"), FILE))
    clock = VenuesClock(machine.clock, shared, lambda: newest_databases(root), steps)
    ports = {name: field.desk_port for name, field in all_venues(root)[0].items()}
    while True:
        wait_for_time(clock, notes, shared)
        run_desks(clock, Watch(ports, lambda unit: ctl("restart", unit)), root)


if __name__ == "__main__":
    sys.exit(main())
