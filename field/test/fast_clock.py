"""A clock that goes faster, for programs that a test starts. libfaketime has one too, but makes timeouts shorter with it, and has
each program's clock begin when that program does."""

from __future__ import annotations

import datetime
import pathlib
import subprocess
import time


class FastClock:
    """It begins to go when it is made. Needs gcc."""

    def __init__(self, folder: pathlib.Path, shows: datetime.datetime, speed: int) -> None:
        library = folder / "fast_clock.so"
        subprocess.run(["gcc", "-O2", "-Wall", "-Wextra", "-Werror", "-shared", "-fPIC", "-o", library,
                        pathlib.Path(__file__).with_suffix(".c")], check=True)
        self.speed, self.shows, self.began = speed, int(shows.timestamp()) * 10**9, time.time_ns()
        self.environment = {"LD_PRELOAD": str(library), "FAST_CLOCK": f"{self.began} {self.shows} {speed}"}

    def now(self) -> float:
        """What it shows, in seconds since 1970."""
        return (self.shows + (time.time_ns() - self.began) * self.speed) / 1e9

    def real_seconds_to(self, moment: float) -> float:
        """Seconds of the machine's clock until it shows this moment; below 0 for one that is over."""
        return (moment - self.now()) / self.speed
