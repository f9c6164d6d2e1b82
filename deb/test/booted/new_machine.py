"""What the tests of a lost machine share: the commands of the page, and what has to be there again."""

from __future__ import annotations

import contextlib
import os
import pathlib
import re
import sqlite3
import time
from typing import Any

from machine import ACCOUNTS, HERE, findings, output, request_text, run_doctor, secret, sessions, sh, versions

KEPT, KEY = HERE / "kept", pathlib.Path("/root/portal-key.txt")
JOURNAL = "/var/lib/portal-counter/journal.db"


def page() -> str:
    """The page as the package has it; on a new machine it is not installed yet."""
    package = HERE / f"portal_{versions()[0]}_amd64.deb"
    return sh(f"dpkg-deb --fsys-tarfile {package} | tar -xO ./usr/share/doc/portal/NEW_MACHINE.md").stdout


def commands(heading: str) -> list[list[str]]:
    """The commands of each block below a heading of the page."""
    part = page().partition(f"\n## {heading}\n")[2].partition("\n## ")[0]
    return [re.findall(r"(?m)^\$ (.+)$", block) for block in re.findall(r"(?s)```console\n(.*?)```", part)]


def follow(lines: list[str]) -> list[str]:
    """Types commands of the page, each as it stands there, in one shell's folder; what failed. apt alone gets words that say that
    nobody answers it."""
    folder, faults = "/root", list[str]()
    for line in lines:
        words = re.sub(r"^apt install", "DEBIAN_FRONTEND=noninteractive apt-get -y --no-install-recommends install", line)
        if words.startswith("cd "):
            folder = words[3:]
            continue
        done = sh(words, cwd=folder, env={**os.environ, "HOME": "/root"})
        if done.returncode != 0:
            faults.append(f"{line}: {done.returncode}: {output(done)}")
    return faults


def facts() -> dict[str, Any]:
    """What a venue is: sums, open sessions, accounts, journal, tokens and certificate."""
    today = time.strftime("%Y-%m-%d", time.gmtime())
    with contextlib.closing(sqlite3.connect(JOURNAL)) as base:
        acts = base.execute("SELECT count(*) FROM acts WHERE act IN ('issue', 'sell')").fetchone()[0]
    return {"takings": request_text(f"/desk/takings?from={today}&to={today}", "desk_token"),
            "sessions": sessions(), "acts": acts, "accounts": ACCOUNTS.read_text(), "token": secret("desk_token"),
            "certificate": pathlib.Path("/etc/portal/tls/cert.pem").read_text()}


def remarks() -> list[str]:
    """What the doctor says that is not good, as of the clock of a machine without a time service; less days and times."""
    report = run_doctor()[1]
    return sorted(re.sub(r"\d{2,}", "N", row) for row in findings(report, "wrong") + findings(report, "warning"))


def unlisted_files() -> list[str]:
    """The files that parts of this venue keep, and that the one list of them (venue_state.py) does not have."""
    words = ("import fnmatch, pathlib; from portal_field.backup.venue_state import FOLDERS; "
             "print(*(path for path in pathlib.Path('/var/lib').glob('portal*/*') if not any(fnmatch.fnmatch("
             "path.name, row) for row in FOLDERS[path.parent.name].kept + FOLDERS[path.parent.name].made_again)))")
    done = sh("python3", "-c", words, env={**os.environ, "PYTHONPATH": "/usr/share/portal/field"})
    return (done.stdout + done.stderr).split()
