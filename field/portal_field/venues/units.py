"""systemd's units of the venues by name."""

from __future__ import annotations

import pathlib
import subprocess

from portal_field.venues import users

CLOCK, COUNTER = "portal-venues-clock.service", "portal-venues-counter.service"
DOOR = "portal-venues-counter.socket"
RULES, TIMER = "portal-venues-rules.service", "portal-venues-backup.timer"
COLLECT = "portal-venues-collect.timer"     # where the table of venues is in PostgreSQL
PLANS = "portal-venues-plans.timer"         # as well
OFFICE = "portal-office.socket"             # as well
SIGN_IN = "portal-sign-in.socket"           # where there is a file of it
NGINX = "portal-counter-nginx.service"
PATIENCE = 120      # seconds for a command of systemctl


class UnitFault(Exception):
    """A command of systemctl failed, in its own words."""


class Units:
    """Runs systemctl."""

    def ctl(self, *words: str) -> str:
        """What a command prints. UnitFault: it failed, or took too long."""
        try:
            done = subprocess.run(["systemctl", *words], capture_output=True, text=True, timeout=PATIENCE)
        except (OSError, subprocess.TimeoutExpired) as fault:
            raise UnitFault(f"systemctl {' '.join(words)}: {fault}") from fault
        if done.returncode != 0:
            raise UnitFault(f"systemctl {' '.join(words)}: {done.stderr.strip() or done.returncode}")
        return done.stdout

    def make_users(self, root: pathlib.Path) -> None:
        """Makes the users of the venues that have settings below a root. UnitFault: they are not made."""
        try:
            users.make(root)
        except (OSError, subprocess.SubprocessError) as fault:
            raise UnitFault(f"systemd-sysusers: {getattr(fault, 'stderr', '') or fault}") from fault

    def is_active(self, unit: str) -> bool:
        """Whether a unit runs."""
        return subprocess.run(["systemctl", "is-active", "--quiet", unit], timeout=PATIENCE).returncode == 0


def units_of(name: str, has_radius: bool) -> list[str]:
    """The units that a venue has for itself, in the order of their start."""
    radius = [f"portal-radius@{name}.service", f"portal-radius-agent@{name}.service"]
    return [f"portal-settings@{name}.socket", f"portal@{name}.service", *(radius if has_radius else [])]
