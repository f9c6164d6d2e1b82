"""Another machine, on which nothing was installed, becomes the venue of before from the copy that had left it, by the
page of the documents, word by word."""

from __future__ import annotations

import json
import os
import re
import shutil

import pytest
from machine import (
    COPIES, HERE, ask_for_a_lease, count_outside, has_package, passes, run_doctor, sh, until, versions)
from new_machine import JOURNAL, KEPT, KEY, commands, facts, follow, remarks

pytestmark = pytest.mark.container


@pytest.fixture(scope="module")
def faults() -> list[str]:
    """What failed of the page's commands, once the three files that it names are there."""
    assert not has_package() and not os.path.exists("/etc/portal") and not COPIES.exists(), (
        "nothing of a venue is on the new machine")
    sh("systemctl stop venue-watch")
    for path in (HERE / f"portal_{versions()[0]}_amd64.deb", KEPT / KEY.name, *KEPT.glob("venue-*")):
        shutil.copy(path, "/root")
    block, = commands("The new machine")
    return follow(block)


def test_commands(faults: list[str]) -> None:
    assert not faults, f"each command of the page ends with 0  [{faults}]"
    assert not KEY.exists(), "the key is not left on the machine"


def test_it_is_the_venue_of_before(faults: list[str]) -> None:
    before = json.loads((KEPT / "facts.json").read_text())
    until(lambda: facts()["sessions"] == before["sessions"], 10)
    now = facts()
    before.pop("remarks")
    assert now == before, (
        f"takings, open sessions, accounts, journal, token and certificate are those of before  [{before} -> {now}]")
    assert re.search(r"net [1-9]\d*\.\d\d", now["takings"]) and before["acts"] and before["sessions"], (
        f"and there are some  [{now}]")


def test_guest_goes_on(faults: list[str]) -> None:
    count_outside()
    assert ask_for_a_lease() and until(passes, 15) is not None, "the guest's session goes on without a code"


def test_doctor(faults: list[str]) -> None:
    before, now = json.loads((KEPT / "facts.json").read_text())["remarks"], remarks()
    assert run_doctor()[0] == 0 and set(now) <= set(before), (
        f"the doctor has nothing to say but what this container lacks  [{before} -> {now}]")


def test_owners(faults: list[str]) -> None:
    owners = sh(
        f"stat -c '%U %a' /var/lib/portal/book.db {JOURNAL} /etc/portal/credentials/desk_token").stdout.splitlines()
    assert owners == ["portal 600", "portal-counter 640", "root 600"], f"each file is its part's own  [{owners}]"
