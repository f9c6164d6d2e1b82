"""Time limits on a machine that other work may hold up. The kernel says whether it does."""

from __future__ import annotations

import os
import pathlib
import time
from collections.abc import Callable
from typing import Any

PRESSURE, PROCESSORS = pathlib.Path("/proc/pressure/cpu"), pathlib.Path("/proc/stat")
# The part of a time in which something waited for a processor, or no processor was idle: from it on the machine is held
# up.
BUSY = 0.3 if PRESSURE.exists() else 0.9
MOST_TIMES = 4      # a measurement is made anew while the machine is held up, and a wait lasts so many times as long


def processor_times() -> list[float]:
    """Seconds so far of all processors: user, nice, system, idle, waiting for a disk, interrupts (two), and those in which
    the machine that this one runs on gave a processor to others, though something could run."""
    words = PROCESSORS.read_text().split("\n", 1)[0].split()[1:9]
    return [int(word) / os.sysconf("SC_CLK_TCK") for word in words]


def seconds_waited() -> float:
    """Seconds so far in which something that could run waited for a processor, of this machine or of the one that it runs
    on. Where the kernel keeps no such account: seconds of work, shared by the processors."""
    times = processor_times()
    try:
        return int(PRESSURE.read_text().split("total=")[1].split()[0]) / 1e6 + times[7]
    except (OSError, IndexError):
        return (sum(times) - times[3] - times[4]) / (os.cpu_count() or 1)


class Span:
    """A time that began when this was made."""

    def __init__(self) -> None:
        self.start, self.before = time.monotonic(), seconds_waited()

    def seconds(self) -> float:
        """How long it lasts so far."""
        return time.monotonic() - self.start

    def held_up(self) -> float:
        """The part of it in which the machine was held up."""
        return (seconds_waited() - self.before) / max(self.seconds(), 0.01)

    def times(self) -> float:
        """How many times as long a time may last as on a calm machine: MOST_TIMES where it is held up, and in proportion
        where it is held up in part."""
        return 1 + (MOST_TIMES - 1) * min(1.0, self.held_up() / BUSY)

    def allows(self, took: float, seconds: float) -> bool:
        """Whether a time that was taken meanwhile is at most so many seconds, or longer as far as the machine is held
        up."""
        return took <= seconds or took <= seconds * self.times()

    def over(self, seconds: float) -> bool:
        """Whether it lasts longer than so many seconds, or longer than that as far as the machine is held up."""
        late = self.seconds() / seconds
        return late > MOST_TIMES or late > 1 and late > self.times()


def wait_until(true: Callable[[], object], seconds: float, pause: float = 0.05) -> bool:
    """Waits until it is so. Whether that came about before the time was over."""
    span = Span()
    while not true():
        if span.over(seconds):
            return False
        time.sleep(pause)
    return True


def assert_measured(what: str, measure: Callable[[], tuple[bool, Any]]) -> None:
    """Asserts what looks at a time, and prints what it saw. A measurement that fails while the machine is held up, be it
    in part, is made anew, MOST_TIMES times in all; the last one counts, and each before it is printed."""
    good, note = False, None
    for turn in range(MOST_TIMES):
        span = Span()
        try:
            good, note = measure()
        except TimeoutError as fault:
            if turn == 0:
                raise
            note = f"{note}; then {fault}"      # what failed before has failed
            break
        busy = span.held_up()
        if good or busy < BUSY / MOST_TIMES or turn == MOST_TIMES - 1:
            break
        print(f"note {what}: no [{note}], while for {busy:.0%} of the time something waited for a processor: once more",
              flush=True)
    assert good, f"{what}  [{note}]"
    print(f"note {what}  [{note}]", flush=True)
