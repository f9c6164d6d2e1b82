"""An upgrade to a later version with a session open, and the way back."""

from __future__ import annotations

import os
import pathlib
import re
import shutil
from dataclasses import dataclass

import pytest
import steady
from booted import Levels
from machine import (
    COPIES, FIELD, GUEST, PATIENCE, Away, Done, Gap, active, all_run, code, counter, inactive_units, install,
    installed, is_online, leased, look_up, output, passes, sessions, sh, share_the_counters_door, show, tokens, until,
    versions)

pytestmark = pytest.mark.container
OLD_SITE = pathlib.Path("/etc/nginx/conf.d/portal-counter.conf")
PAGE = pathlib.Path("/etc/portal/counter-nginx/page.conf")


def copies_of_before() -> list[pathlib.Path]:
    return sorted(COPIES.glob(f"before-{versions()[1]}-*.db"))


def take_rules_of_before() -> bool:
    """Agent and rules as earlier versions have them: these know no set `bound`."""
    agent = pathlib.Path("/usr/share/portal/field/portal_field/gateway/kernel_gate.py")
    agent.write_text(agent.read_text().replace("        if not any(self.elements(READY)):",
                                               "        if False:"))
    sh("systemctl disable --now portal-leases")
    sh("systemctl restart portal-gateway")
    rules = sh("nft list table inet portal").stdout
    rules = re.sub(r"(?s)\tset bound(_ready)? \{.*?\n\t\}\n", "", rules)
    rules = "\n".join(line for line in rules.splitlines() if "@bound" not in line)
    done = sh("nft", "-f", "-", input=f"delete table inet portal\n{rules}\n")
    pathlib.Path("/run/portal-rules.sum").unlink(missing_ok=True)
    is_old = sh("nft list set inet portal bound").returncode != 0
    return done.returncode == 0 and is_old and until(passes, 10) is not None


def nginx_at(address: str) -> str:
    """The first process that listens there: of nginx the master, whose number is the lowest."""
    return min(re.findall(r'"nginx",pid=(\d+)', sh("ss", "-Hltnp", "src", address).stdout), key=int,
               default="")


def take_page_of_before() -> bool:
    """The counter's page as earlier versions have it: nginx of the guests' page serves it too."""
    sh("systemctl stop portal-counter-nginx")
    share_the_counters_door()
    OLD_SITE.write_bytes(PAGE.read_bytes())
    shutil.rmtree(PAGE.parent)
    sh("systemctl reload nginx")
    took = until(lambda: counter("")[0] == 200, 10)
    return took is not None and nginx_at("10.88.0.1:443") == show("nginx", "MainPID")


@dataclass(frozen=True)
class Upgrade:
    """What was before it, how it went, and what was so directly afterwards."""
    has_old_rules: bool
    has_old_page: bool
    tokens: list[str]
    sessions: list[int]
    settings: bytes
    done: Done
    gap: Gap
    away: Away
    is_short: bool          # the time in which the counter's page was away
    passes: bool


@pytest.fixture(scope="module")
def upgrade(levels: Levels) -> Upgrade:
    levels.reach("venue")
    old_rules, old_page = take_rules_of_before(), take_page_of_before()
    before = tokens(), sessions(), FIELD.read_bytes()
    FIELD.chmod(0o644)          # as earlier versions have it
    span = steady.Span()
    with Gap() as gap, Away() as away:
        done = install(versions()[1])
        until(all_run, 20)
    is_short = span.allows(away.seconds, 2 * PATIENCE)
    return Upgrade(old_rules, old_page, *before, done, gap, away, is_short, passes())


def test_parts_of_before(upgrade: Upgrade) -> None:
    assert upgrade.has_old_rules, "agent and rules of before, without the set `bound`: the session goes on"
    assert upgrade.has_old_page, (
        "the counter's page in nginx of the guests' page, as earlier versions have it")


def test_upgrade(upgrade: Upgrade) -> None:
    assert upgrade.done.returncode == 0 and upgrade.passes, (
        f"upgrade to the later version with a session open  [{output(upgrade.done, 100)}]")
    gap = upgrade.gap
    assert gap.heard > 100 and gap.lost == gap.unanswered == 0, (
        f"its guest loses no packet  [{gap.lost} lost of {gap.heard}, {gap.unanswered} not answered, "
        f"longest gap {gap.seconds} s]")
    bound = sh("nft list set inet portal bound").stdout
    assert f"{GUEST} . {leased()}" in bound, f"the guest is in the set `bound` then  [{bound}]"


def test_counters_page(upgrade: Upgrade) -> None:
    assert upgrade.is_short, (
        f"meanwhile the counter's page was away for two seconds at most  [{upgrade.away.seconds:.2f} s]")
    own, guests = nginx_at("10.88.0.1:443"), nginx_at("10.77.0.1:443")
    assert not OLD_SITE.exists() and own == show("portal-counter-nginx", "MainPID") != guests, (
        f"it is served by an nginx of its own, and not by the guests' any more  [{own} {guests}]")
    assert inactive_units() == {}, "after it every unit is active"


def test_all_is_the_same(upgrade: Upgrade) -> None:
    assert (tokens() == upgrade.tokens and FIELD.read_bytes() == upgrade.settings and is_online()
            and sessions() == upgrade.sessions), "the same tokens, the same settings file, the same session"
    modes = [f"{path.stat().st_mode & 0o777:o}" for path in (FIELD, pathlib.Path("/etc/portal/counter.toml"))]
    assert modes == ["640"] * 2, "what may have the password of the Wi-Fi is no longer for every user"


def test_copy_of_before(upgrade: Upgrade) -> None:
    copies = copies_of_before()
    assert len(copies) == 1 and os.path.exists(f"{copies[0]}.sha256"), (
        f"the database of before the upgrade was kept  [{copies}]")


def test_going_back_is_refused(upgrade: Upgrade) -> None:
    done = install(versions()[0], "--allow-downgrades")
    assert (done.returncode != 0 and "schema version" in done.stderr + done.stdout
            and versions()[1] in installed()), (
        "going back over a database of a later schema version is refused before anything is changed  "
        f"[{installed()}]")
    assert until(passes, 10) is not None and active("portal") == "active" and counter("")[0] == 200, (
        "and the venue still runs")


@dataclass(frozen=True)
class Rollback:
    """A voucher that was sold after the upgrade, and how the way back went."""
    code: str
    restored: Done
    installed: Done
    seconds: float | None
    runs_before: str        # systemd's name for the run of the counter's nginx

    @property
    def is_good(self) -> bool:
        return self.restored.returncode == self.installed.returncode == 0 and self.seconds is not None


@pytest.fixture(scope="module")
def rollback(upgrade: Upgrade) -> Rollback:
    text, copy = code(), copies_of_before()[0]
    sh("systemctl stop portal")
    restored, before = sh("portal-restore", copy), show("portal-counter-nginx", "InvocationID")
    done = install(versions()[0], "--allow-downgrades")
    sh("systemctl start portal")
    return Rollback(text, restored, done, until(lambda: passes() and all_run(), 20), before)


def test_rollback(rollback: Rollback) -> None:
    look = look_up(rollback.code)[0]
    assert rollback.is_good and look == 404, (
        "rollback: with the copy of before the upgrade the first version goes on  "
        f"[{output(rollback.restored)}; {rollback.seconds} s; voucher {look}; {installed()}]")


def test_counters_nginx_on_the_way_back(rollback: Rollback) -> None:
    assert rollback.runs_before != show("portal-counter-nginx", "InvocationID"), (
        "on the way back the counter's nginx gave its address back, which an earlier version may need, and "
        "was started anew")
