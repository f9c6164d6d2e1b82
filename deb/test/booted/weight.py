"""What the parts of one venue need at rest."""

from __future__ import annotations

import contextlib
import pathlib
import re
import time
from dataclasses import dataclass

from machine import sh

REST = 10.0     # seconds without a request before it is measured


@dataclass(frozen=True)
class Weight:
    """The private memory of each unit that runs, in kB, its processes, and the processor time of a second."""
    memory: dict[str, int]
    processes: dict[str, int]
    busy: float

    @property
    def megabytes(self) -> float:
        """All of the memory."""
        return sum(self.memory.values()) / 1024

    def __str__(self) -> str:
        parts = (f"{unit.removesuffix('.service')} {kilobytes / 1024:.1f}"
                 for unit, kilobytes in sorted(self.memory.items()))
        return (f"{self.megabytes:.1f} MB private in {sum(self.processes.values())} processes of "
                f"{len(self.memory)} units ({', '.join(parts)}), "
                f"{1000 * self.busy:.1f} ms of the processor a second")


def processes_of(unit: str) -> list[int]:
    """The processes of a unit."""
    group = sh("systemctl", "show", "-p", "ControlGroup", "--value", unit).stdout.strip()
    found: list[int] = []
    for path in pathlib.Path("/sys/fs/cgroup" + group).rglob("cgroup.procs") if group else ():
        with contextlib.suppress(OSError):
            found += [int(line) for line in path.read_text().split()]
    return found


def private(pid: int) -> int:
    """The private memory of a process, in kB; nothing where it has ended."""
    with contextlib.suppress(OSError):
        text = pathlib.Path(f"/proc/{pid}/smaps_rollup").read_text()
        return sum(map(int, re.findall(r"(?m)^Private_(?:Clean|Dirty): +(\d+)", text)))
    return 0


def ticks(pid: int) -> int:
    """The processor time of a process, in hundredths of a second."""
    with contextlib.suppress(OSError):
        words = pathlib.Path(f"/proc/{pid}/stat").read_text().rpartition(")")[2].split()
        return int(words[11]) + int(words[12])
    return 0


def weigh() -> Weight:
    """Measures what runs, after some seconds without a request."""
    time.sleep(REST)
    lines = sh("systemctl list-units --no-legend --plain --state=running").stdout.splitlines()
    units = [line.split()[0] for line in lines
             if re.match(r"portal.*\.service|(nginx|dnsmasq)\.service", line)]
    pids = {unit: processes_of(unit) for unit in units}
    start = sum(ticks(pid) for group in pids.values() for pid in group)
    time.sleep(REST)
    end = sum(ticks(pid) for group in pids.values() for pid in group)
    return Weight({unit: sum(map(private, group)) for unit, group in pids.items()},
                  {unit: len(group) for unit, group in pids.items()}, max(0, end - start) / 100 / REST)
