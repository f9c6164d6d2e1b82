"""The first guest: a lease, a voucher, packets, and the kernel's entry of the guest's address."""

from __future__ import annotations

import os
import pathlib
import re
import subprocess
import time

import pytest
from machine import (
    NAME, OUTSIDE, active, captive, code, curl, is_bound, is_online, lease, neighbour, passes, redeem, until)

pytestmark = pytest.mark.container


def test_lease_with_option_114(served: None) -> None:
    lease("-O", "114")
    words = pathlib.Path("/run/lease").read_text() if os.path.exists("/run/lease") else ""
    assert "opt114" in words, (
        f"a guest gets a lease with option 114  [{re.findall('(?:ip|opt114)=.*', words)}]")


def test_captured(served: None) -> None:
    assert not passes(), "nothing passes before a code"
    status, _, head = curl("guest", f"http://{OUTSIDE}/x")
    assert status == 302 and NAME in head, f"plain HTTP leads to the portal  [{status}]"


def test_first_voucher(served: None) -> None:
    status = redeem(code())
    assert status == 303 and until(passes, 5) is not None, (
        f"a voucher is issued, sold, redeemed, and packets pass  [{status}]")
    assert is_online(), f"the API says so  [{captive()}]"


def test_entry_is_permanent(venue: None) -> None:
    took = until(is_bound, 5)
    assert took is not None, f"the entry of a leased address is permanent  [{neighbour()}]"


@pytest.mark.parametrize("unit", ["dnsmasq", "portal-leases"])
def test_entry_stays_over_a_restart(venue: None, unit: str) -> None:
    """It is looked at all the while."""
    job = subprocess.Popen(["systemctl", "restart", unit])
    looks: list[bool] = []
    while job.poll() is None or len(looks) < 100:
        looks.append(is_bound())
        time.sleep(0.01)
    assert all(looks) and active(unit) == "active", (
        f"and stays so over `systemctl restart {unit}`  [{looks.count(True)} of {len(looks)} looks]")


def test_entry_stays_over_a_request(venue: None) -> None:
    done = lease()
    assert done.returncode == 0 and until(is_bound, 1) is not None, (
        f"and when the guest asks for its lease again  [{neighbour()}]")
