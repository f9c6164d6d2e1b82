"""What comes back by itself, and what does not start again for ever."""

from __future__ import annotations

import pathlib
import shutil
import subprocess
import time
from collections.abc import Callable, Iterator

import pytest
from machine import (
    DATABASE, active, captive, changed, counter, journal, one_code, passes, serves, server_note, sh, show,
    until)

pytestmark = pytest.mark.container
SETTINGS, FAILED = pathlib.Path("/etc/portal/portal.toml"), pathlib.Path("/etc/portal/failed.toml")
MAIL = pathlib.Path("/run/mail")        # where the venue's command puts what it gets


def starts() -> int:
    return sum(line.startswith("listening") for line in journal("portal"))


def goes_on(seconds: float) -> float | None:
    """After how long the server serves, and the guest's packets pass."""
    return until(lambda: serves() and passes(), seconds)


@pytest.mark.parametrize("unit, works", [
    ("nginx", lambda: captive().get("captive") is False), ("dnsmasq", lambda: active("dnsmasq") == "active"),
    ("portal-counter-nginx", lambda: counter("")[0] == 200)],
                         ids=["nginx", "dnsmasq", "portal-counter-nginx"])
def test_killed(venue: None, unit: str, works: Callable[[], bool]) -> None:
    pid = show(unit, "MainPID")
    sh("systemctl", "kill", "-s", "KILL", unit)
    took = until(lambda: show(unit, "MainPID") not in (pid, "0") and works(), 15)
    state = active(unit)
    if took is None:
        sh("systemctl", "restart", unit)
    assert took is not None, f"kill -9 of {unit}: it starts again by itself  [{state}]"


def test_stopped_in_order(venue: None) -> None:
    """The server starts again later than the grace of five seconds."""
    sh("systemctl stop portal")
    time.sleep(8)
    seen, words = passes(), sh("portal-doctor --all").stdout
    sh("systemctl start portal")
    took = goes_on(20)
    assert seen and took is not None, "a guest with a session goes on while the server is stopped in order, and after its start"
    assert "the sessions go on without it for a minute at most" in words, "and the doctor says so"
    assert any("the server is stopped: the sessions go on" in line for line in journal("portal-gateway")), (
        "and the agent's log")


def test_counters_address_comes_late(venue: None) -> None:
    sh("systemctl stop portal-counter-nginx; ip addr del 10.88.0.1/24 dev ctr0; systemctl start "
       "portal-counter-nginx")
    time.sleep(3)
    state, guests = active("portal-counter-nginx"), captive().get("captive")
    sh("ip addr add 10.88.0.1/24 dev ctr0")
    took = until(lambda: counter("")[0] == 200, 15)
    if took is None:
        sh("systemctl start portal-counter-nginx")
        until(lambda: counter("")[0] == 200, 10)
    assert took is not None, (
        "the counter's address comes after its nginx was started: it serves there by itself  [before: "
        f"{state}]")
    assert guests is False, "meanwhile the guests' page was served"


def test_rules_are_flushed(venue: None) -> None:
    sh("nft flush ruleset")
    took = until(lambda: "netdev portal" in sh("nft list tables").stdout and passes(), 20)
    if took is None:
        sh("systemctl restart portal-rules@lan0")
        until(passes, 10)
    assert took is not None, (
        "with the rules flushed they are loaded again by themselves, and the session goes on")


def test_server_hangs(venue: None) -> None:
    """By a connection that is open and silent."""
    hold = "import socket, time; s = socket.create_connection(('127.0.0.1', 8080)); time.sleep(60)"
    before = starts()
    job = subprocess.Popen(["python3", "-c", hold])
    silent = until(lambda: captive().get("captive") is None, 14)
    took = goes_on(60)
    job.kill()
    job.wait()
    again = starts()
    goes_on(20)
    assert silent is not None and took is not None and again == before + 1, (
        f"a server that hangs is ended and started again, and the session goes on  [{took} s after it fell "
        f"silent; {journal('portal')[-6:]}]")


def test_server_is_held(venue: None) -> None:
    before, pid = starts(), show("portal", "MainPID")
    sh("systemctl freeze portal")
    time.sleep(30)          # a hung one is ended after some twenty
    sh("systemctl thaw portal")
    took = goes_on(10)
    assert took is not None and starts() == before and show("portal", "MainPID") == pid, (
        f"a server that is held for a copy is not ended, however long  [serves {took} s after the thaw; "
        f"{journal('portal')[-2:]}]")


def test_pages_hang(venue: None) -> None:
    units = ("portal-front", "portal-counter")
    pids = {unit: show(unit, "MainPID") for unit in units}
    for unit in units:
        sh("systemctl", "kill", "-s", "STOP", unit)
    took = until(lambda: all(show(unit, "MainPID") not in (pids[unit], "0") for unit in units)
                 and counter("")[0] == 200 and captive().get("captive") is False, 60)
    for unit in units if took is None else ():
        sh("systemctl", "kill", "-s", "KILL", unit)
    assert took is not None, "pages that hang are ended and started again"


@pytest.fixture(scope="module")
def mail() -> Iterator[pathlib.Path]:
    """A folder that the venue's command may write to."""
    MAIL.mkdir(exist_ok=True)
    MAIL.chmod(0o777)
    yield MAIL
    shutil.rmtree(MAIL)


def sent_to(path: pathlib.Path, seconds: float) -> str:
    """What the venue's command was sent; `tee` makes the file before it writes."""
    until(lambda: path.exists() and path.read_text(), seconds)
    return path.read_text() if path.exists() else ""


@pytest.fixture
def bad_settings(venue: None, mail: pathlib.Path) -> Iterator[str]:
    """The server is started with settings that can never work; its state some time later."""
    with (changed(FAILED, f'on_failure = ["tee", "{mail}/server"]\n'),
          changed(SETTINGS, SETTINGS.read_text().replace('zone = "UTC0"', 'zone = "Europe/Berlin"'))):
        sh("systemctl restart portal")
        until(lambda: active("portal") == "failed", 15)
        before = show("portal", "NRestarts")
        time.sleep(4)
        is_same = "the same" if show("portal", "NRestarts") == before else "more"
        yield f"{active('portal')}, status {show('portal', 'ExecMainStatus')}, restarts {is_same}"
    if active("portal") != "active":
        sh("systemctl restart portal")
        goes_on(20)


def test_settings_that_never_work(bad_settings: str, mail: pathlib.Path) -> None:
    assert bad_settings == "failed, status 78, restarts the same", (
        "with settings that can never work the server is not started again and again")
    words = sh("systemctl status --no-pager -n 12 portal").stdout
    assert "correct field.toml" in words and "systemctl restart portal" in words, (
        f"`systemctl status` says why, and what to do  [{words.splitlines()[-4:]}]")
    assert "The server does not start" in counter("")[1], "so does the counter's page"
    text = sent_to(mail / "server", 10)
    assert text.startswith("portal.service failed on venue.") and "portal: settings" in text, (
        f"the command of field.toml gets it  [{text[-300:]}]")
    SETTINGS.write_text(SETTINGS.read_text().replace('zone = "Europe/Berlin"', 'zone = "UTC0"'))
    sh("systemctl restart portal")
    assert goes_on(20) is not None, f"with good settings it starts  [{server_note()}]"


def test_failure_without_a_command(venue: None) -> None:
    """Of a nightly copy that finds no database."""
    sh(f"systemctl stop portal; mv {DATABASE.parent} /var/lib/kept; mkdir {DATABASE.parent}; systemctl start "
       "portal-backup")
    sh(f"rmdir {DATABASE.parent}; mv /var/lib/kept {DATABASE.parent}; systemctl start portal")
    goes_on(20)
    unit = "portal-failed@portal-backup.service.service"
    took = until(lambda: any("no command is set" in line for line in journal(unit)), 10)
    sh("systemctl reset-failed portal-backup")
    assert took is not None, "a failure of another part without a command is a line of the journal"


def test_part_in_a_crash_loop(venue: None, mail: pathlib.Path) -> None:
    """For systemd the part has not failed: it is started again each second, which a timer sees."""
    drop = pathlib.Path("/run/systemd/system/portal-front.service.d")
    drop.mkdir(parents=True)
    (drop / "ends.conf").write_text("[Service]\nExecStart=\nExecStart=/bin/false\n")
    with changed(FAILED, f'on_failure = ["tee", "{mail}/loop"]\n'):
        sh("systemctl daemon-reload; systemctl restart portal-front")
        text, state = sent_to(mail / "loop", 150), active("portal-front")
    shutil.rmtree(drop)
    sh("systemctl daemon-reload; systemctl restart portal-front")
    until(lambda: captive().get("captive") is False, 20)
    assert (state != "failed"
            and text.startswith("portal-front.service ended and was started again 5 times or more")), (
        f"a part that is started again and again: the command of field.toml gets it  [{text[:80]}]")


@pytest.fixture
def small_disk(venue: None) -> Iterator[pathlib.Path]:
    """The database's folder is a disk with some room."""
    folder = DATABASE.parent
    size = sum(path.stat().st_size for path in folder.iterdir()) // 1024 + 600
    sh(f"systemctl stop portal; cp -a {folder} /var/lib/kept; mount -t tmpfs -o size={size}k,mode=0700 tmpfs "
       f"{folder}; "
       f"cp -a /var/lib/kept/. {folder}/; chown portal:portal {folder}; systemctl start portal")
    goes_on(20)
    yield folder
    sh(f"systemctl stop portal; umount {folder}; rm -rf {folder}; mv /var/lib/kept {folder}; systemctl start "
       "portal")
    assert goes_on(20) is not None, f"and with the disk of before  [{server_note()}]"


def test_disk_is_full_for_a_while(small_disk: pathlib.Path) -> None:
    first = one_code("hour")
    sh(f"head -c 100m /dev/zero > {small_disk}/filler")
    refused = any(one_code("hour") == "" for _ in range(60))
    stopped = until(lambda: any("portal: stopped" in line or "portal: file" in line
                                for line in journal("portal")[-40:]), 10)
    time.sleep(3)
    (small_disk / "filler").unlink()
    took = until(lambda: serves() and one_code("hour") != "" and passes(), 30)
    assert first != "" and refused and stopped is not None and took is not None, (
        f"a full disk stops the server; once there is room it goes on by itself  [refused {refused}, "
        f"stopped {stopped}; on after {took} s]")
