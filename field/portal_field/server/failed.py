"""Reports that a unit failed, by the command that field.toml sets (`on_failure`); without one the journal
alone has it.

    python3 -m portal_field.server.failed UNIT

The command gets the message on its standard input. What the counter's page wrote is not sent: it is about
clerks.
"""

from __future__ import annotations

import os
import socket
import subprocess
import sys

from portal_field.lib import venue_command
from portal_field.lib.desk_client import settings

LIMIT = 60      # seconds for the command


def output_of(*words: str) -> str:
    """What a command prints, or why it cannot be run."""
    try:
        return subprocess.run(words, capture_output=True, text=True, timeout=LIMIT).stdout.strip()
    except (OSError, subprocess.TimeoutExpired) as fault:
        return str(fault)


def message(unit: str, words: str) -> str:
    """The text for the venue's command."""
    result = output_of("systemctl", "show", "-p", "Result,ExecMainStatus,ActiveState", unit)
    lines = "" if unit.startswith("portal-counter") else output_of("journalctl", "-u", unit, "-n", "20",
                                                                   "--no-pager")
    head = f"{unit} {words} on {socket.gethostname()}."
    return f"{head}\n\n{result}\n\n{lines}\n\nSee: systemctl status {unit}\n"


def run_command(unit: str, words: str) -> int:
    """Runs the venue's command with the text, if one is set; its status."""
    os.environ.setdefault("FIELD_SETTINGS", "/etc/portal/failed.toml")
    command = settings("").get("on_failure", []) if os.path.exists(os.environ["FIELD_SETTINGS"]) else []
    if not command:
        print(f"{unit} {words}; no command is set that reports it (on_failure in field.toml)", flush=True)
        return 0
    print(f"{unit} {words}; reported by {command[0]}", flush=True)
    try:
        return venue_command.run(command, message(unit, words), LIMIT)
    except (OSError, subprocess.TimeoutExpired) as fault:
        print("the command failed:", fault, file=sys.stderr, flush=True)
        return 1


if __name__ == "__main__":
    name, _, word = sys.argv[1].partition(":")      # UNIT:back, by a unit that starts this itself
    sys.exit(run_command(name, "is well again" if word else "failed"))
