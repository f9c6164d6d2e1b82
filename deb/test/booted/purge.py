"""What a purge of the package prints, and what it leaves."""

from __future__ import annotations

import glob
import re
from dataclasses import dataclass

from machine import Done, apt, sh

PLACES = ("/etc/portal*", "/var/lib/portal*", "/var/backups/portal*", "/var/log/portal*", "/run/portal-clock",
          "/var/lib/systemd/timers/stamp-portal*")


def left() -> set[str]:
    """What is there of a venue."""
    return {path for place in PLACES for path in glob.glob(place)}


@dataclass(frozen=True)
class Purge:
    """What was there before it, and how it went."""
    before: set[str]
    done: Done

    def named(self, begin: str) -> set[str]:
        """The paths of the line that begins so."""
        lines = re.findall(rf"(?m)^{re.escape(begin)}(.*)$", self.done.stdout + self.done.stderr)
        return set(re.findall(r"/\S+", " ".join(lines)))

    def command(self) -> str:
        """The command that destroys what was kept."""
        match = re.search(r"(?m)^portal: this destroys for good what was kept:\n(.+)$", self.done.stderr)
        return match[1] if match else ""

    def faults(self) -> list[str]:
        """What is not as it was printed: paths that stay unnamed, and those that others than root may read."""
        there, kept, gone = left(), self.named("portal: kept, for root alone:"), self.named("portal: deleted:")
        certificates = {"/etc/portal"} & there
        wide = sh("find", *sorted(kept), "!", "-user", "root", "-o", "!", "-group", "root", "-o", "!", "-type", "l",
                  "-perm", "/077").stdout.split() if kept else []
        return [*(f"{path} stays unnamed" for path in there - kept - certificates),
                *(f"{path} was kept, and is not there" for path in kept - there),
                *(f"{path} went unnamed" for path in self.before - there - gone),
                *(f"others than root may read {path}" for path in wide)]


def purge() -> Purge:
    """Purges the package."""
    before = left()
    return Purge(before, apt("purge", "portal"))
