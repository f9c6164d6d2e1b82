"""The machine's clock, and the folder in which the server and the counter's page leave notes about it."""

from __future__ import annotations

import contextlib
import json
import os
import pathlib
import threading
import time
from typing import Any

from portal_field.lib.owned_files import read

STEP = 60.0     # seconds; a clock that is set by less goes on as before: time services correct by seconds


def origin() -> float:
    """When the machine booted, by its clock: another moment once the clock is set. Sleep changes nothing,
    since CLOCK_BOOTTIME counts it."""
    while True:
        before, now, after = since_boot(), time.time(), since_boot()
        if after - before < 1:      # or this process was held still in between
            return now - after


def since_boot() -> float:
    """Seconds since the boot, with those of sleep."""
    return time.clock_gettime(time.CLOCK_BOOTTIME)


def was_set(before: float, now: float) -> bool:
    """Whether the clock was set between two readings of its origin."""
    return abs(now - before) >= STEP


class Notes:
    """Small files that go with the boot. `state`: what the server does, for both pages.
    `offers`: the plans that the counter offers, for the guests' page. `word`: a
    clerk's word that the time is right, for the server, which takes it once. `found`: the clock that the
    server found right."""

    def __init__(self, folder: str) -> None:
        self.folder = pathlib.Path(folder)

    def read(self, name: str) -> dict[str, Any]:
        """The values of a note; nothing where there is no such note, or one that does not read."""
        try:
            note = json.loads(read(self.folder / name))
        except (OSError, ValueError):
            return {}
        return note if isinstance(note, dict) else {}

    def write(self, name: str, **values: Any) -> None:
        """Writes a note as a whole: for all to read where the guests' page reads it, which is not of the
        group that may write here, and else for the group."""
        mode = 0o644 if name in ("state", "offers") else 0o640
        # a form may be sent twice at once
        part = self.folder / f".{name}.{os.getpid()}-{threading.get_ident()}"
        part.unlink(missing_ok=True)
        with os.fdopen(os.open(part, os.O_WRONLY | os.O_CREAT | os.O_EXCL, mode), "w") as file:
            os.fchmod(file.fileno(), mode)
            json.dump(values, file)
        part.replace(self.folder / name)

    def drop(self, name: str) -> None:
        """Removes a note."""
        with contextlib.suppress(OSError):
            (self.folder / name).unlink()
