"""The nightly copy, a restore drill, and backups that are stopped and killed in the middle."""

from __future__ import annotations

import contextlib
import pathlib
import re
import shutil
import subprocess
from collections.abc import Iterator

import pytest
from machine import (
    COPIES, DATABASE, SALES, Gap, active, copies, journal, output, make_slow_cp, parts, passes, sh, show,
    until)

pytestmark = pytest.mark.container


def test_timer(venue: None) -> None:
    rows = sh("systemctl list-timers --no-legend portal-backup.timer").stdout.strip()
    assert "03:30" in rows, f"the timer has its next time  [{rows}]"


def test_nightly_copy(venue: None) -> None:
    before = len(copies())
    with Gap() as gap:
        done = sh("systemctl start portal-backup.service")
    assert (done.returncode == 0 and len(copies()) == before + 1
            and show("portal", "FreezerState") == "running"
            and active("portal") == "active"), (
        f"a copy as the timer makes it: freeze, copy, thaw, check  [longest gap of packets {gap.seconds} s, "
        f"{journal('portal-backup')[-3:]}]")
    names = sorted(path.name for path in COPIES.iterdir())
    sums = sh(f"cd {COPIES} && sha256sum --check --strict *.sha256").returncode
    both = [f"{begin}{pathlib.Path(copy).name}" for copy in copies() for begin in ("", "journal-")]
    assert names == sorted(f"{name}{end}" for name in both for end in ("", ".sha256")) and sums == 0, (
        f"it is one file with its SHA-256 beside it, and so is that of the counter's journal  [{names}]")


def test_drill(venue: None) -> None:
    """What was sold so far are hours, at the 3.00 of the sample plans."""
    sh("systemctl start portal-backup.service")
    done = sh("portal-restore", "--drill")
    day = max(day for _, day in SALES)
    sales = SALES.count(("hour", day))
    assert done.returncode == 0 and re.search(rf"(?m)^{day} +{sales} +{3 * sales}\.00 ", done.stdout), (
        f"a restore drill prints the takings of the last day, while the server serves  [{sales} sales; "
        f"{output(done)}]")


def thaw(state: str) -> None:
    """What comes next needs a server that runs."""
    if state != "running":
        sh("systemctl thaw portal; systemctl restart portal")
        until(passes, 15)


def test_backup_is_stopped_in_the_middle(venue: None) -> None:
    """By `systemctl stop` (as at a shutdown)."""
    job = subprocess.Popen(["systemd-run", "--unit=slow-backup", "--wait",
                            f"--setenv=PATH={make_slow_cp(20)}",
                            "/usr/sbin/portal-backup", str(DATABASE), str(COPIES)], stdout=-3, stderr=-3)
    frozen = until(lambda: show("portal", "FreezerState") == "frozen", 8)
    sh("systemctl stop slow-backup")
    job.wait()
    state, left = show("portal", "FreezerState"), parts()
    thaw(state)
    assert frozen is not None and state == "running" and not left, (
        "a backup that is stopped in the middle leaves the server running, and nothing else  [frozen after "
        f"{frozen} s, then {state}; {left}]")


@contextlib.contextmanager
def slow_nightly_unit() -> Iterator[None]:
    """The nightly unit copies slowly meanwhile."""
    folder = pathlib.Path("/run/systemd/system/portal-backup.service.d")
    folder.mkdir(parents=True)
    (folder / "slow.conf").write_text(f"[Service]\nEnvironment=PATH={make_slow_cp(20)}\n")
    sh("systemctl daemon-reload")
    yield
    shutil.rmtree(folder)
    sh("systemctl daemon-reload; systemctl reset-failed portal-backup.service")


def test_backup_is_killed_in_the_middle(venue: None) -> None:
    """All of the nightly unit at once, so that nothing of it can thaw the server."""
    with slow_nightly_unit():
        sh("systemctl --no-block start portal-backup.service")
        frozen = until(lambda: show("portal", "FreezerState") == "frozen", 8)
        sh("systemctl kill -s KILL portal-backup.service")
        took = until(lambda: show("portal", "FreezerState") == "running", 5)
        thaw(show("portal", "FreezerState"))
        left = parts()
    assert frozen is not None and took is not None, (
        f"a backup that is killed in the middle leaves the server running  [frozen after {frozen} s, on "
        f"again {took} s after the kill]")
    done = sh("systemctl start portal-backup.service")
    assert done.returncode == 0 and left and not parts(), (
        f"the next backup removes what it left behind  [{left} -> {parts()}]")
