"""What stands after a reboot with a session open, and what a guest could do before."""

from __future__ import annotations

import pathlib

import pytest
from machine import (
    ask_for_a_lease, count_outside, failed_units, inactive_units, is_bound, is_online, neighbour, passes, sh,
    show, until)

pytestmark = pytest.mark.container
WATCH = pathlib.Path("/run/venue-watch")


def test_units() -> None:
    assert inactive_units() == {}, "after a reboot every unit is active"
    assert failed_units() == [], "no unit failed at boot"


def test_nothing_passes_before_the_agent_polls() -> None:
    until(lambda: WATCH.exists() and "packet" in WATCH.read_text(), 10)
    lines = WATCH.read_text().splitlines() if WATCH.exists() else []
    on = next((line for line in lines if "forward 1" in line), "")
    assert "inet netdev" in on, "forwarding comes on with the rules loaded"
    first = next((float(line.split()[0]) for line in lines if "packet" in line), None)
    polled = float(show("portal-gateway", "ActiveEnterTimestampMonotonic")) / 1e6
    assert first is not None and first > polled, (
        "no packet of a guest with an open session gets out before the agent polls")


def test_session_goes_on() -> None:
    sh("systemctl", "stop", "venue-watch")
    count_outside()
    assert until(is_bound, 5) is not None, (
        f"a leased address is bound again after the reboot  [{neighbour()}]")
    ask_for_a_lease()
    assert until(passes, 5) is not None and is_online(), "the session goes on after the reboot"
