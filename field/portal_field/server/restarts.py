"""Reports a unit that ends and is started again and again, by the command that failed.py takes.

systemd does not count such a unit as failed, so no OnFailure= reports it. A timer runs this each minute. What
it saw is kept in RUNTIME_DIRECTORY.
"""

from __future__ import annotations

import json
import os
import pathlib
import subprocess
import sys
import time
from dataclasses import dataclass, field
from typing import Any

from portal_field.server import failed

UNITS = ("portal.service", "portal-gateway.service", "portal-leases.service", "portal-front.service",
         "portal-counter.service", "portal-radius.service", "portal-radius-agent.service",
         "portal-metrics.service", "portal-give.service", "portal-lookup@*.service",
         "portal-counter-nginx.service", "nginx.service", "dnsmasq.service",
         "portal@*.service", "portal-radius@*.service", "portal-radius-agent@*.service",
         "portal-venues-clock.service", "portal-venues-counter.service")
MANY, WITHIN = 5, 600.0     # so many restarts in so many seconds are reported


@dataclass(frozen=True)
class UnitRestarts:
    """One unit at one moment."""
    count: int              # systemd's count of its restarts, which begins anew where somebody starts it
    restarts: list[float] = field(default_factory=list)     # when they happened, of the last WITHIN seconds
    is_reported: bool = False

    @classmethod
    def of_row(cls, row: dict[str, Any]) -> UnitRestarts:
        """From its row in the file, which outlives an upgrade: the names in it stay as they are."""
        return cls(row["count"], row["restarts"], row["told"])

    def row(self) -> dict[str, Any]:
        """Its row in the file."""
        return {"count": self.count, "restarts": self.restarts, "told": self.is_reported}

    def later(self, count: int, now: float) -> UnitRestarts:
        """The unit at a later moment: what was reported counts as reported until WITHIN seconds have gone
        by without a restart."""
        more = count - self.count if count >= self.count else count
        recent = [moment for moment in self.restarts if now - moment < WITHIN]
        restarts = [*recent, *[now] * min(more, MANY)][-MANY:]
        return UnitRestarts(count, restarts, self.is_reported and bool(restarts))

    def is_news(self) -> bool:
        """Whether the restarts are many and nobody has heard of them."""
        return len(self.restarts) >= MANY and not self.is_reported


def counts() -> dict[str, int]:
    """How often systemd has restarted each unit."""
    words = ["systemctl", "show", "-p", "Id,NRestarts", *UNITS]
    output = subprocess.run(words, check=True, capture_output=True, text=True).stdout
    rows = [dict(line.split("=", 1) for line in block.splitlines()) for block in output.strip().split("\n\n")]
    return {row["Id"]: int(row["NRestarts"]) for row in rows}


def look(before: dict[str, UnitRestarts], now: float) -> tuple[dict[str, UnitRestarts], int]:
    """Compares how often each unit was restarted with the look before, and runs the venue's command where
    that is news: what is seen now, and the highest status of the commands. What was there at the first look
    is no news: at boot a unit may be started several times until the addresses have come."""
    after, worst = {}, 0
    for unit, count in counts().items():
        restarts = before[unit].later(count, now) if unit in before else UnitRestarts(count)
        if restarts.is_news():
            words = f"ended and was started again {MANY} times or more within {WITHIN / 60:.0f} minutes"
            status = failed.run_command(unit, words)
            # otherwise it is tried again
            restarts = UnitRestarts(restarts.count, restarts.restarts, is_reported=status == 0)
            worst = max(worst, status)
        after[unit] = restarts
    return after, worst


def main() -> int:
    """Looks at the restarts once, and keeps what was found for the next time."""
    path = pathlib.Path(os.environ["RUNTIME_DIRECTORY"], "seen.json")
    rows = json.loads(path.read_text()) if path.exists() else {}
    before = {unit: UnitRestarts.of_row(row) for unit, row in rows.items()}
    after, worst = look(before, time.clock_gettime(time.CLOCK_BOOTTIME))
    part = path.with_suffix(".part")
    part.write_text(json.dumps({unit: restarts.row() for unit, restarts in after.items()}))
    part.replace(path)
    return worst


if __name__ == "__main__":
    sys.exit(main())
