"""An upgrade of a venue of version 1.0.0, with a session open: its guest loses no packet, and its owner
changes nothing. What the parts of one venue need at rest is measured before it and after it."""

from __future__ import annotations

import re
import time
from collections.abc import Iterator
from dataclasses import dataclass

import pytest
from booted import Levels
from machine import (
    ACCOUNTS, AUTHORITY, COUNTER, FIELD, GUEST, HERE, PASSWORD, PLANS, Done, Gap, active, apt, as_worker,
    ask_for_a_lease, count_outside, counter, curl, edit_settings, inactive_units, is_online, journal, log_in,
    output, passes, put_certificate, request_json, request_text, serves, sessions, sh, tokens, until, waits)
from needs import HISTORY
from weight import Weight, weigh

pytestmark = pytest.mark.container
PACKAGES = HERE / "first"       # that of 1.0.0, and one of this version with a later number
FIRST_PARTS = ("portal", "portal-rules@lan0", "portal-gateway", "portal-leases", "portal-front",
               "portal-counter")
OWN_FILES = (FIELD, PLANS)      # that the owner edits


def put_package(number: int) -> Done:
    """Installs 1.0.0 (0) or this version (1) from its file."""
    files = sorted(PACKAGES.glob("*.deb"), key=lambda path: len(path.name))
    return apt("install", str(files[number]))


def set_up(*more: str) -> tuple[Done, float]:
    """Sets the venue up; how it went, and how long it took."""
    start = time.monotonic()
    return sh("portal-setup", "--clerk", "clerk", *more, input=f"{PASSWORD}\n"), time.monotonic() - start


def page_of_before(*words: str, page: str = "") -> str:
    """A page of the counter of 1.0.0. nginx asks there who it is, by a name and a password."""
    return curl("clerk", f"https://{COUNTER}/{page}", "-u", f"clerk:{PASSWORD}", *words)[1]


def say_the_time_is_right() -> bool:
    """Whether the counter's page has the form on the time, which the clerk sends."""
    form = page_of_before().partition("The time is right</button>")[0].rpartition('action="/time"')[2]
    fields = dict(re.findall(r'name="(shown|booted)" value="([^"]*)"', form))
    words = [word for key, value in {"request": "time-1", **fields}.items()
             for word in ("--data-urlencode", f"{key}={value}")]
    return bool(fields) and page_of_before("-H", f"Origin: https://{COUNTER}", *words, page="time") != ""


def begin_of_before() -> bool:
    """Whether the server of 1.0.0 serves; where it waits for the time, a clerk says that it is right."""
    until(lambda: serves() or waits(), 10)
    if waits():
        until(say_the_time_is_right, 10)
    return until(serves, 15) is not None


def open_session() -> list[int]:
    """Issues a batch of three, sells two, and has the guest's device redeem one. The statuses."""
    page_of_before()        # which loads the plans
    found = [request_json("/desk/batches", {"batch": "first", "plan": "hour", "count": 3}, "desk_token")]
    lines = request_text("/desk/batches/first/print", "desk_token").splitlines()
    codes = [line.split(",")[0] for line in lines if not line.startswith("code")]
    found += [request_json("/desk/sales", {"code": text}, "desk_token") for text in codes[:2]]
    return [*found, request_json("/portal/redeem", {"code": codes[0]}, device=GUEST)]


def takings() -> str:
    """The takings of three days, as the server says them."""
    first, last = (time.strftime("%Y-%m-%d", time.gmtime(time.time() + 86400 * days)) for days in (-1, 1))
    return request_text(f"/desk/takings?from={first}&to={last}", "desk_token")


@dataclass(frozen=True)
class Before:
    """A venue of 1.0.0 with a session open."""
    installed: Done
    setup: Done
    seconds: float          # of the set-up
    statuses: list[int]
    weight: Weight


@pytest.fixture(scope="module")
def before(levels: Levels) -> Iterator[Before]:
    if not PACKAGES.exists():
        pytest.skip(HISTORY)
    levels.remove()
    done = put_package(0)
    put_certificate()
    AUTHORITY.append(AUTHORITY[0])
    edit_settings(house="First Library")
    setup, seconds = set_up()
    count_outside()
    ask_for_a_lease()
    if not begin_of_before():
        pytest.fail(f"the server of 1.0.0 serves  [{output(setup)}; {journal('portal')[-5:]}]", pytrace=False)
    statuses = open_session()
    until(passes, 10)
    yield Before(done, setup, seconds, statuses, weigh())
    levels.remove()         # other tests have other packages


@dataclass(frozen=True)
class Upgrade:
    """What was before the upgrade, and how it went."""
    kept: tuple[object, ...]
    done: Done
    gap: Gap
    passes: bool
    weight: Weight


def what_stays() -> tuple[object, ...]:
    """What must be the same after an upgrade: the owner's files, tokens, sessions and takings."""
    return *(path.read_bytes() for path in OWN_FILES), tokens(), sessions(), takings()


@pytest.fixture(scope="module")
def upgrade(before: Before) -> Upgrade:
    kept = what_stays()
    with Gap() as gap:
        done = put_package(1)
        until(lambda: not inactive_units(), 20)
    return Upgrade(kept, done, gap, passes(), weigh())


def test_venue_of_before(before: Before) -> None:
    states = {unit: active(unit) for unit in FIRST_PARTS}
    is_good = before.installed.returncode == before.setup.returncode == 0
    assert is_good and set(states.values()) == {"active"}, (
        f"a venue of 1.0.0 is set up and runs  [{output(before.installed)}; {output(before.setup)}; "
        f"{states}]")
    assert before.statuses == [200] * 4 and passes(), f"its guest has a session  [{before.statuses}]"


def test_no_packet_is_lost(upgrade: Upgrade) -> None:
    assert upgrade.done.returncode == 0 and upgrade.passes, (
        f"an upgrade from 1.0.0 with a session open  [{output(upgrade.done)}]")
    gap = upgrade.gap
    assert gap.heard > 100 and gap.lost == gap.unanswered == 0, (
        f"its guest loses no packet  [{gap.lost} lost of {gap.heard}, {gap.unanswered} not answered, longest "
        f"gap {gap.seconds} s]")
    print(f"note upgrade from 1.0.0: {gap.heard} packets there and back, longest gap {gap.seconds} s")


def test_all_is_the_same(upgrade: Upgrade) -> None:
    assert inactive_units() == {}, "after it every unit is active"
    assert what_stays() == upgrade.kept and is_online(), (
        "settings, plans, tokens, sessions and takings are those of before")


def test_no_question(upgrade: Upgrade) -> None:
    assert "now run" not in upgrade.done.stdout + upgrade.done.stderr, (
        f"nothing asks the owner to do something after it  [{output(upgrade.done)}]")
    answer = log_in()
    assert answer[0] == 303 and counter("")[0] == 200 and ACCOUNTS.exists(), (
        f"the clerk logs in with the password of before  [{answer[0]}]")


def test_guests_nginx_is_not_at_the_counter(upgrade: Upgrade) -> None:
    """www-data was in the groups of both pages, and wrote the counter's log."""
    door = "import socket; socket.socket(socket.AF_UNIX).connect('/run/portal-counter/socket')"
    tried = [as_worker("nginx", "cat", str(ACCOUNTS)), as_worker("nginx", "python3", "-c", door)]
    assert [done.returncode for done in tried] == [1, 1] and all("Permission denied" in done.stderr for done in tried), (
        f"a worker of the guests' nginx reads no account, and opens no socket of the counter  [{[output(done) for done in tried]}]")
    own = as_worker("portal-counter-nginx", "python3", "-c", door)
    assert own.returncode == 0, f"which the counter's nginx opens  [{output(own)}]"
    groups = sh("id", "-nG", "www-data").stdout.split()
    logs = sh("find /var/log/portal -name 'counter*' -user www-data").stdout.split()
    assert (groups, logs) == (["www-data"], []), f"www-data is in no group of a part, and no log of the counter is its own  [{groups} {logs}]"


def test_nothing_of_a_chain_runs(upgrade: Upgrade) -> None:
    listed = sh("systemctl list-units --all --no-legend --plain 'portal@*' 'portal-venues*' 'portal-office*' "
                "'portal-sign-in*' 'portal-radius*'").stdout.split("\n")
    enabled = sh("systemctl list-unit-files --no-legend --state=enabled 'portal*'").stdout.split()
    running = [line for line in listed if " active " in line]
    assert running == [] and not any("venues" in name for name in enabled), (
        f"no unit of venues by name runs or is enabled  [{listed}]")
    packages = [name for name in ("postgresql-15", "python3-psycopg", "python3-authlib", "prometheus")
                if sh("dpkg", "-s", name).returncode == 0]
    assert packages == [], f"no package that a chain alone needs is installed  [{packages}]"


def test_memory(before: Before, upgrade: Upgrade) -> None:
    print(f"note 1.0.0, set up in {before.seconds:.1f} s: {before.weight}")
    print(f"note upgraded: {upgrade.weight}")
    assert upgrade.weight.megabytes <= before.weight.megabytes, (
        "the parts of one venue need no more memory at rest than those of 1.0.0")


def test_new_venue(upgrade: Upgrade, levels: Levels) -> None:
    """The same from an empty machine, without an earlier version."""
    levels.remove()
    put_package(1)
    put_certificate()
    edit_settings(house="First Library")
    setup, seconds = set_up("--prices-as-shipped")
    assert setup.returncode == 0 and inactive_units() == {}, (
        f"a venue of this version is set up by the same command  [{output(setup)}]")
    print(f"note this version, set up in {seconds:.1f} s: {weigh()}")
