"""A boot with a clock ten years ahead, ten years back, a clock that is set while the server runs, a clerk's
word."""

from __future__ import annotations

import contextlib
import shutil
import pathlib
import time
from collections.abc import Iterator

import pytest
from fake_clock import AHEAD, BACK, RIGHT, code_of_before, end_the_fake_clock, entry_of_before, set_clock
from machine import (
    DATABASE, active, ask_for_a_lease, captive, code, count_outside, counter, journal, last_entry, passes,
    redeem, say_the_time_is_right, says_since, serves, server_note, sh, show, until, waits)

pytestmark = pytest.mark.container


def goes_on(seconds: float) -> float | None:
    """After how long the server serves, and the guest's packets pass."""
    return until(lambda: serves() and passes(), seconds)


def listenings() -> int:
    return sum(line.startswith("listening") for line in journal("portal"))


@pytest.fixture(scope="module")
def boot() -> None:
    """Only to be looked at: the clock is ten years ahead."""
    sh("systemctl stop venue-watch")
    count_outside()
    ask_for_a_lease()


@pytest.fixture
def right_clock(boot: None) -> Iterator[None]:
    """The clock is right, and is so again afterwards."""
    set_clock(RIGHT)
    goes_on(30)
    yield
    set_clock(RIGHT)
    goes_on(30)


def test_boot_ten_years_ahead(boot: None) -> None:
    up = until(lambda: waits() and active("portal-counter") == "active", 30)
    page = counter("")[1]
    year = time.gmtime(time.time() + 3650 * 86_400).tm_year
    assert (up is not None and "The server waits" in page and f", {year}-" in page
            and "more than a day after" in page), (
        "a boot with the clock ten years ahead: the server waits, and the counter's page says so with the "
        f"time  [{server_note()}]")
    assert sum("waits, as the time" in line for line in journal("portal")) == 1, (
        f"the journal says so once  [{journal('portal')[-2:]}]")
    time.sleep(7)
    assert captive().get("captive") is None and not passes(), (
        "meanwhile no guest gets an answer, and nobody passes")
    assert last_entry() == entry_of_before(), "no entry was made at that time"


def test_clock_of_the_boot_is_set(boot: None) -> None:
    set_clock(RIGHT)
    assert goes_on(30) is not None, (
        f"once the clock is set the server starts by itself, and the session goes on  [{server_note()}]")
    took = until(lambda: "not loaded" not in counter("")[1], 10)
    assert took is not None and last_entry() <= time.time(), (
        f"the counter loads its plans, which the database has: no entry is made  [{last_entry()}]")


def test_clock_ten_years_back(right_clock: None) -> None:
    before = last_entry()
    sh("systemctl stop portal")
    set_clock(BACK)
    sh("systemctl start portal")
    took = until(waits, 10)
    time.sleep(2)
    assert (took is not None and waits()
            and "before the database's last entry" in str(server_note().get("why"))), (
        f"a start with the clock ten years back: the server waits  [{server_note()}]")
    set_clock(RIGHT)
    assert goes_on(20) is not None and last_entry() == before, "and starts by itself once the clock is set"


def test_small_steps(right_clock: None) -> None:
    before = listenings()
    for offset in ("+2", "-2", RIGHT):
        set_clock(offset)
        time.sleep(0.7)
    assert serves() and listenings() == before, "steps of some seconds, as of a time service, go on"


def test_clock_is_set_while_it_runs(right_clock: None) -> None:
    before, pid, lines = last_entry(), show("portal", "MainPID"), len(journal("portal"))
    set_clock(AHEAD)
    took = until(waits, 5)
    page = counter("")[1]
    assert (took is not None and "The server waits" in page
            and says_since("portal", lines, "clock was set while the server ran")), (
        "a clock that is set by ten years while the server runs ends it, in the journal and on the "
        f"counter's page  [{took} s; {journal('portal')[lines:]}]")
    took = until(lambda: not passes(), 10)
    set_clock(RIGHT)
    again = goes_on(20)
    entered = last_entry() - before     # seconds: the gateway may have reported bytes at a right time
    assert (took is not None and again is not None and 0 <= entered < 3600
            and show("portal", "MainPID") == pid), (
        f"the gateway shuts, and all goes on once the clock is set back, without an entry of the wrong time  "
        f"[shut after {took} s, on after {again} s, {entered} s]")


@contextlib.contextmanager
def copy_of_the_database() -> Iterator[None]:
    """What is done meanwhile is done to a copy; at first the server and the agent, whose reports would be
    entries, are stopped."""
    aside = pathlib.Path("/var/lib/kept-database")
    sh(f"systemctl stop portal-gateway portal; cp -a {DATABASE.parent} {aside}")
    try:
        yield
    finally:
        sh(f"systemctl stop portal; rm -f {DATABASE}*; cp -a {aside}/{DATABASE.name}* {DATABASE.parent}/")
        shutil.rmtree(aside)
        set_clock(RIGHT)
        sh("systemctl start portal portal-gateway")


def use_a_clerks_word() -> None:
    """Two days ahead."""
    before, lines, clerks = last_entry(), len(journal("portal")), len(journal("portal-counter"))
    set_clock("+2d")
    sh("systemctl start portal")
    until(waits, 10)
    notice = say_the_time_is_right()
    took = until(serves, 10)
    assert took is not None and "starts now" in notice and says_since(
        "portal", lines, "clerk said at the counter that it is right"), (
        f"a clerk says on the counter's page that the time is right: the server starts  [{took} s; {notice}]")
    assert says_since("portal-counter", clerks, "clerk at 10.88.0.2: time "), (
        "the journal of the counter names the clerk")
    sh("systemctl restart portal")
    assert until(serves, 10) is not None and last_entry() == before, (
        f"started again it need not be said anew, as the clock was not set since  [{server_note()}]")
    sh("systemctl start portal-gateway")
    text = code()
    assert text and last_entry() > time.time() + 86_400, (
        f"it sells at that time  [{last_entry() - time.time()}]")
    set_clock("+5d")
    took = until(waits, 10)
    time.sleep(3)
    assert took is not None and waits(), (
        f"the word was for once: after another step the server waits again  [{server_note()}]")


def test_clerks_word(right_clock: None) -> None:
    with copy_of_the_database():
        use_a_clerks_word()
    assert goes_on(20) is not None, (
        f"with the database and the clock of before all goes on  [{server_note()}]")


def test_voucher_of_before(right_clock: None) -> None:
    end_the_fake_clock()
    before = last_entry()
    sh("systemctl restart portal-counter")
    until(lambda: counter("")[0] == 200, 10)
    assert last_entry() == before, (
        "a start of the counter's page makes no entry: its plans were loaded before")
    assert redeem(code_of_before()) == 303, "the voucher that was sold before the wrong clock is redeemed"


def test_another_database(right_clock: None) -> None:
    """As an owner who begins anew, or restores a copy of before the plans."""
    aside = pathlib.Path("/var/lib/kept-database")
    sh(f"systemctl stop portal; mkdir {aside}; mv {DATABASE}* {aside}/; systemctl start portal")
    until(serves, 10)
    counter("")
    text = code()
    sh(f"systemctl stop portal; rm -f {DATABASE}*; mv {aside}/* {DATABASE.parent}/; rmdir {aside}; systemctl "
       "start portal")
    assert text != "", "a database that lacks the plans gets them without a start of the counter's page"
