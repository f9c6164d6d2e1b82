"""Rules that are flushed and loaded again, and a guests' device that goes and comes."""

from __future__ import annotations

import pathlib
import time
from collections.abc import Iterator

import pytest
from machine import Gap, active, captive, forward, is_bound, lease, neighbour, passes, sh, until

pytestmark = pytest.mark.container
RULES = pathlib.Path("/etc/portal/rules.nft")
RULES_UNIT = "portal-rules@lan0"


@pytest.fixture
def rules() -> Iterator[None]:
    """They are loaded afterwards, and the guest's device is there."""
    yield
    if not passes():
        sh(f"ip link show lan0 || /srv/venue/venue-net lan; systemctl restart dnsmasq nginx {RULES_UNIT}")
        lease()
        until(passes, 10)


def test_flushed(venue: None, rules: None) -> None:
    """As by a firewall of the venue's own."""
    away = RULES.with_suffix(".away")
    RULES.rename(away)          # so that the agent cannot load them meanwhile
    sh("nft flush ruleset")
    took = until(lambda: forward() == "0", 5)
    passed = passes()
    away.rename(RULES)
    assert took is not None and not passed, "with the rules flushed nothing is forwarded"
    sh(f"systemctl reload {RULES_UNIT}")
    assert until(passes, 10) is not None, "with the rules loaded again the session goes on"


def test_reloaded(venue: None, rules: None) -> None:
    with Gap() as gap:
        for _ in range(3):
            sh(f"systemctl reload {RULES_UNIT}")
            time.sleep(0.5)
    assert gap.heard > 100 and gap.lost == gap.unanswered == 0, (
        "`systemctl reload portal-rules@lan0` three times: a guest with a session loses no packet  "
        f"[{gap.lost} lost of {gap.heard}, {gap.unanswered} not answered]")


def test_nftables_is_restarted(venue: None, rules: None) -> None:
    sh("systemctl restart nftables")
    took = until(lambda: passes() and active(RULES_UNIT) == "active", 15)
    assert took is not None, ("`systemctl restart nftables` (a firewall of the venue's own loaded again): "
                              "the session goes on  "
                              f"[rules {active(RULES_UNIT)}, nftables {active('nftables')}, forward "
                              f"{forward()}]")


def test_device_goes_and_comes(venue: None, rules: None) -> None:
    sh("ip link del lan0")
    time.sleep(1.5)
    gone = active(RULES_UNIT)
    sh("/srv/venue/venue-net lan")      # the guest's device is a new one, too
    took = until(lambda: active(RULES_UNIT) == "active" and lease().returncode == 0 and passes(), 15)
    assert took is not None, ("lan0 goes and comes again (a plug): guests pass again without a hand  "
                              f"[rules when it was gone: {gone}, now {active(RULES_UNIT)}; forward "
                              f"{forward()}]")
    assert lease().returncode == 0, f"and a guest gets a lease there  [dnsmasq {active('dnsmasq')}]"
    assert until(is_bound, 5) is not None, f"and its entry is permanent there  [{neighbour()}]"


def test_device_comes_late(venue: None, rules: None) -> None:
    sh("ip link del lan0; systemctl stop nginx dnsmasq; systemctl start nginx; systemctl start dnsmasq")
    time.sleep(4)
    sh("/srv/venue/venue-net lan")
    served = until(lambda: active("nginx") == active("dnsmasq") == "active" and lease().returncode == 0
                   and captive().get("captive") is not None, 15)
    states = f"nginx {active('nginx')}, dnsmasq {active('dnsmasq')}"
    sh(f"systemctl restart dnsmasq nginx; systemctl start {RULES_UNIT}")
    until(passes, 10)
    assert served is not None, f"lan0 comes after nginx and dnsmasq were started: both serve it  [{states}]"
