"""A command of the venue, as field.toml names it, which gets a text on its standard input."""

from __future__ import annotations

import os
import subprocess

# of the unit: the command may be written in Python, too
OURS = ("PYTHONPATH", "PYTHONDONTWRITEBYTECODE")


def run(command: list[str], text: str, limit: float) -> int:
    """Runs a command of the venue's settings; its status. OSError: it cannot be run.
    subprocess.TimeoutExpired: it took longer."""
    env = {name: value for name, value in os.environ.items() if name not in OURS}
    return subprocess.run(command, input=text, text=True, timeout=limit, env=env).returncode
