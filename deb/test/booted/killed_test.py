"""Parts that are killed, that hang, and that are stopped."""

from __future__ import annotations

from collections.abc import Iterator

import pytest
from machine import Gap, active, captive, counter, passes, sh, show, until

pytestmark = pytest.mark.container


@pytest.mark.parametrize("unit", ["portal", "portal-gateway", "portal-leases", "portal-front",
                                  "portal-counter", "portal-counter-nginx"])
def test_killed(venue: None, unit: str) -> None:
    pid = show(unit, "MainPID")
    with Gap() as gap:
        sh("systemctl", "kill", "-s", "KILL", unit)
        took = until(lambda: show(unit, "MainPID") not in (pid, "0") and active(unit) == "active", 15)
        good = until(lambda: captive().get("captive") is False and counter("")[0] == 200, 15)
    assert took is not None and good is not None and passes(), (
        f"kill -9 of {unit}: it starts again, and the guest's session goes on  "
        f"[again after {took} s, all answers {good} s later, longest gap of packets {gap.seconds} s]")


@pytest.fixture
def agent() -> Iterator[None]:
    """The agent runs afterwards, and polls."""
    yield
    if not passes():
        sh("systemctl", "kill", "-s", "KILL", "portal-gateway")
        sh("systemctl start portal-gateway")
        until(passes, 10)


def test_agent_hangs(venue: None, agent: None) -> None:
    pid = show("portal-gateway", "MainPID")
    with Gap() as gap:
        sh("systemctl", "kill", "-s", "STOP", "portal-gateway")
        shut = until(lambda: not passes(), 12)
        took = until(lambda: show("portal-gateway", "MainPID") not in (pid, "0") and passes(), 40)
    assert shut is not None, "while the agent hangs the gateway blocks by itself"
    assert took is not None, (
        f"an agent that hangs is ended and started again  [longest gap of packets {gap.seconds} s]")


def test_agent_is_stopped(venue: None, agent: None) -> None:
    sh("systemctl stop portal-gateway")
    took = until(lambda: not passes(), 10)
    assert took is not None, "with the agent stopped the gateway blocks by itself"
    sh("systemctl start portal-gateway")
    assert until(passes, 10) is not None, "and opens again"
