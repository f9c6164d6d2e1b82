"""What a guest without a code, and a neighbour of the outer network, do to others by half requests; how many
connections nginx takes."""

from __future__ import annotations

import pathlib
import re
import subprocess
import sys
import time
from collections.abc import Iterator

import pytest
from machine import (
    NAME, PATIENCE, all_run, changed, counter, curl, findings, output, run_doctor, sh, show, until, within)

pytestmark = pytest.mark.container
SECOND, TOOL = "02:aa:00:00:00:67", "/srv/venue/field/test/attacker.py"
GUESTS, COUNTERS = "10.77.0.1", "10.88.0.1"
MANY, LOOKS, EACH, LASTS = 3300, 20, 48, 30
MAIN = pathlib.Path("/etc/nginx/nginx.conf")


@pytest.fixture(scope="module")
def second_guest(request: pytest.FixtureRequest) -> Iterator[bool]:
    """Whether another device at the guest's end of the wire, without a session, has a lease. The neighbour
    knows the ways."""
    request.getfixturevalue("levels").reach("venue")
    sh("ip netns add guest2")
    within("guest", "ip", "link", "add", "link", "eth0", "name", "eth9", "address", SECOND, "type", "macvlan",
           "mode", "bridge")
    within("guest", "ip", "link", "set", "eth9", "netns", "guest2", "name", "eth0")
    within("guest2", "ip", "link", "set", "eth0", "up")
    done = within("guest2", "busybox", "udhcpc", "-i", "eth0", "-f", "-q", "-n", "-t", "5", "-s",
                  "/srv/venue/udhcpc")
    for address in (GUESTS, COUNTERS):
        within("outside", "ip", "route", "replace", address, "via", "203.0.113.1")
    took = until(lambda: SECOND in sh("nft list set inet portal bound").stdout, 10)
    yield done.returncode == 0 and took is not None
    sh("ip netns del guest2")
    for address in (GUESTS, COUNTERS):
        within("outside", "ip", "route", "del", address)


def half(space: str, address: str, port: int) -> subprocess.Popen[str]:
    """Keeps trying to hold half requests; writes how many it held at most."""
    words = ["nsenter", f"--net=/run/netns/{space}", sys.executable, TOOL, "half", address, str(port),
             str(MANY), str(LASTS)]
    return subprocess.Popen(words, stdout=subprocess.PIPE, text=True)


def look() -> tuple[int, int]:
    """How many looks of the guest with a session, and of the counter, are answered."""
    good = [0, 0]
    for _ in range(LOOKS):
        good[0] += curl("guest", f"https://{NAME}/portal", "--max-time", f"{3 * PATIENCE:.0f}")[0] == 200
        good[1] += counter("style.css")[0] == 200
        time.sleep(0.2)
    return good[0], good[1]


@pytest.mark.parametrize("port", [80, 443])
def test_half_requests(second_guest: bool, venue: None, port: int) -> None:
    assert second_guest, "a second guest has a lease"
    jobs = [half("guest2", GUESTS, port), half("outside", GUESTS, port), half("outside", COUNTERS, 443)]
    time.sleep(4)
    answered = look()
    most = [int(job.communicate()[0] or -1) for job in jobs]
    assert answered == (LOOKS, LOOKS), (
        f"while a guest and a neighbour of the outer network keep trying to hold {MANY} half requests on "
        f"port {port}, the looks "
        f"of another guest and of the counter are answered  [{answered} of {LOOKS}]")
    assert 1 <= most[0] <= EACH and most[1:] == [0, 0], (
        f"such a guest holds {EACH} at most, and the neighbour none (port {port})  [{most}]")


def lines_on_connections(state: str) -> list[str]:
    return [line for line in findings(run_doctor()[1], state) if line.startswith("connections: ")]


def restart_nginx() -> None:
    sh("systemctl restart nginx")
    until(all_run, 10)


def test_nginx_takes_connections(venue: None) -> None:
    """As the doctor asks for it."""
    text = MAIN.read_text()
    with changed(MAIN, re.sub(r"worker_connections \d+;", "worker_connections 64;", text)):
        restart_nginx()
        few = [*lines_on_connections("warning"), *lines_on_connections("good")]
    MAIN.write_text(re.sub(r"worker_connections \d+;", "worker_connections 4096;", text))
    restart_nginx()
    many, warned = lines_on_connections("good"), lines_on_connections("warning")
    assert "64 each): few" in few[0] and "4096 each)" in many[0] and not warned, (
        f"the doctor says how many connections of guests nginx takes, and warns of few  [{few} {many} "
        f"{warned}]")
    limits = pathlib.Path(f"/proc/{show('nginx', 'MainPID')}/limits").read_text()
    files = re.findall(r"Max open files +(\d+)", limits)
    assert files and int(files[0]) >= 2 * 4096, f"nginx has the files for them  [{files}]"
    done = sh("nginx -t")
    assert done.returncode == 0, f"nginx takes its settings  [{output(done, 200)}]"
