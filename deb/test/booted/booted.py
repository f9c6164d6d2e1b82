"""How far the venue of a booted machine is, and the fixtures that bring it so far; for pytest in that
machine.

A test takes the fixture of the level that it needs. Where a test before it took it nothing is done; first,
and after a test that failed, each level is looked at, and what is missing is made.
"""

from __future__ import annotations

import pathlib
from collections.abc import Callable, Iterator
from dataclasses import dataclass

import needs
import pytest
from machine import (
    AUTHORITY, FIELD, GATEWAY, PASSWORD, active, apt, arrived, ask_for_a_lease, begin_to_serve, code,
    count_outside, counter, edit_settings, has_package, install, installed, output, passes,
    put_certificate, redeem, serves, sh, until, versions)
from report import FAILED


@dataclass(frozen=True)
class Level:
    """Something that a venue has; a fixture has its name."""
    name: str
    is_reached: Callable[[], object]
    reach: Callable[[], object]


def install_package() -> str:
    """Installs this version of the package; the end of what apt said."""
    return output(install(versions()[0]), 100)


def prepare() -> None:
    """Does what an owner does before the set-up: puts the certificate there, and edits field.toml."""
    put_certificate()
    AUTHORITY.append(AUTHORITY[0])
    edit_settings(house="Test Library")


def set_up_venue() -> str:
    """Runs portal-setup with a clerk's password; the end of what it said."""
    return output(sh("portal-setup", "--clerk", "clerk", "--prices-as-shipped", input=f"{PASSWORD}\n"), 200)


def begin() -> bool:
    """Brings the venue from set up to serving, with a lease for the guest. Whether it serves."""
    return ask_for_a_lease() and begin_to_serve()


def open_session() -> bool:
    """Opens a session for the guest with a new code. Whether the redemption was accepted."""
    return ask_for_a_lease() and redeem(code()) == 303


def is_prepared() -> bool:
    """Whether the certificate is there and field.toml was filled in."""
    return pathlib.Path("/etc/portal/tls/cert.pem").exists() and 'clock = "clerk"' in FIELD.read_text()


def is_set_up() -> bool:
    """Whether the server runs and the clerk has the password of the tests."""
    return GATEWAY.exists() and active("portal") == "active" and counter("")[0] == 200


LEVELS = (
    Level("quiet", lambda: active("venue-watch") != "active", lambda: sh("systemctl stop venue-watch")),
    Level("installed", has_package, install_package),
    Level("counted", lambda: arrived() >= 0, count_outside),
    Level("prepared", is_prepared, prepare),
    Level("set_up", is_set_up, set_up_venue),
    Level("served", serves, begin),
    Level("venue", passes, open_session))


class Levels:
    """The levels that this machine's venue has reached. One that cannot be reached fails each test that needs
    it, at once."""

    def __init__(self) -> None:
        self.reached, self.faults = 0, dict[str, str]()

    def forget(self) -> None:
        """Forgets what was reached, so that each level is looked at anew."""
        self.reached = 0

    def reach(self, name: str) -> None:
        """Makes what is missing up to this level."""
        last = next(number for number, level in enumerate(LEVELS) if level.name == name)
        for level in LEVELS[self.reached:last + 1]:
            if level.name not in self.faults and not level.is_reached():
                note = level.reach()
                if until(level.is_reached, 10) is None:
                    self.faults[level.name] = f"the venue does not come to the level {level.name}  [{note}]"
            if level.name in self.faults:
                pytest.fail(self.faults[level.name], pytrace=False)
        self.reached = max(self.reached, last + 1)

    def remove(self) -> None:
        """Removes the package; nothing of it is there afterwards."""
        self.reach("quiet")
        if installed():         # also where its settings alone are left
            apt("purge", "portal")
        sh("rm -rf /etc/portal /var/lib/portal* /var/backups/portal*")
        self.forget()


def pytest_configure() -> None:
    """Has needs.py take all as there: what it lists is what deb/test/run needs to boot this machine."""
    needs.NEEDS["container"] = (needs.ROOT,)


@pytest.fixture(scope="session")
def levels() -> Levels:
    """What the tests of this boot have reached so far."""
    return Levels()


@pytest.fixture(autouse=True)
def look_after_a_failure(request: pytest.FixtureRequest, levels: Levels) -> Iterator[None]:
    """After a test that failed, each level is looked at anew."""
    yield
    if request.node.stash.get(FAILED, False):
        levels.forget()


@pytest.fixture
def quiet(levels: Levels) -> None:
    """Brings the venue so far that nothing sends packets but the tests."""
    levels.reach("quiet")


@pytest.fixture(name="installed")
def installed_package(levels: Levels) -> None:
    """Brings the venue so far that the package is there, and what arrives outside is counted."""
    levels.reach("counted")


@pytest.fixture
def prepared(levels: Levels) -> None:
    """Brings the venue so far that certificate and settings are there, too."""
    levels.reach("prepared")


@pytest.fixture
def set_up(levels: Levels) -> None:
    """Brings the venue so far that portal-setup has been run; the server may wait for a clerk's word on the
    time."""
    levels.reach("set_up")


@pytest.fixture
def served(levels: Levels) -> None:
    """Brings the venue so far that the server serves a guest who has a lease."""
    levels.reach("served")


@pytest.fixture
def venue(levels: Levels) -> None:
    """Brings the venue so far that the guest has a session."""
    levels.reach("venue")
