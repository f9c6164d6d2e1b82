"""What whoever controls a part can use: a program looks for all of it in the sandbox of each unit, and the table of parts has the
same."""

from __future__ import annotations

import pathlib
import shutil
from collections.abc import Iterator

import pytest
from chain_test import chain        # noqa: F401 (a fixture)
from machine import ACCOUNTS, SESSIONS, sh, until
from probing import DROP_INS, Found, of_everybody, of_part, probe

pytestmark = pytest.mark.container
# The agent and the server, of which others read and whom they ask, come last.
UNITS = (
    "nginx", "portal-front", "portal-lookup@1", "portal-give", "portal-counter-nginx", "portal-counter", "portal-settings", "portal-paper@x",
    "portal-report", "portal-failed@x", "portal-restarts", "portal-backup", "portal@north", "portal@south", "portal-venues-counter",
    "portal-settings@north", "portal-office@x", "portal-sign-in@x", "portal-venues-collect", "portal-venues-plans", "portal-venues-rules",
    "portal-venues-backup", "portal-venues-clock", "portal-leases", "portal-rules@lan0", "portal-gateway", "portal")
NOBODY = "nobody.service"
# Files that a venue may have, with the group that reads them; and a program, without which a socket is not made.
MAY_BE_THERE = {"/etc/portal/sign-in.toml": ("root", 0o600), "/etc/portal/venue.toml": ("portal-counter", 0o640),
                "/usr/bin/weasyprint": ("root", 0o755)}
SOCKETS = "portal-sign-in.socket", "portal-paper.socket"


@pytest.fixture(scope="module")
def parts(request: pytest.FixtureRequest) -> Iterator[None]:
    """A venue with a guest, and two venues by name; all that the table names is there."""
    request.getfixturevalue("levels").reach("venue")
    sh("systemctl start postgresql")
    request.getfixturevalue("chain")
    made = [pathlib.Path(name) for name in MAY_BE_THERE if not pathlib.Path(name).exists()]
    for path in made:
        group, mode = MAY_BE_THERE[str(path)]
        path.touch(mode)
        shutil.chown(path, group=group)
        path.chmod(mode)
    sh("systemctl", "start", "portal-backup", "portal-restarts", *SOCKETS)
    until(pathlib.Path("/run/portal-venues/venues.prom").exists, 30)
    until(SESSIONS.exists, 10)
    yield
    sh("systemctl", "stop", *SOCKETS)
    for path in made:
        path.unlink()
    for name in ("north", "south"):
        sh("portal-venues", "retire", name)
    sh("systemctl disable --now postgresql; systemctl reset-failed")


def look_as_nobody() -> Found:
    """What a user can use who is no part's."""
    (DROP_INS / NOBODY).write_text("[Service]\nUser=nobody\nExecStart=/bin/true\n")
    return probe(NOBODY)


@pytest.fixture(scope="module")
def everybody(parts: None) -> Found:
    """What every user of the machine can use."""
    return look_as_nobody()


def test_everybody(everybody: Found) -> None:
    faults = of_everybody(everybody)
    assert not faults, f"what every user can read of the venue, write and connect to is what the table says  [{faults}]"


@pytest.mark.parametrize("unit", UNITS)
def test_part(everybody: Found, unit: str) -> None:
    name = f"{unit}.service"
    faults = of_part(name, probe(name), everybody)
    assert not faults, f"whoever controls it can use what the table says, and nothing else  [{faults}]"


PLANTED = {     # a part, lines of its unit, and what is found then
    "group": ("portal-front", "SupplementaryGroups=portal-counter", "reads", "+/etc/portal/clerks.toml"),
    "user": ("portal@north", "User=portal_south", "memory", "portal@south.service"),
    "folder": ("portal-leases", "ReadWritePaths=/run/portal-clock\nSupplementaryGroups=portal-clock", "writes", "+/run/portal-clock/"),
    "capability": ("portal-leases", "AmbientCapabilities=CAP_DAC_READ_SEARCH\nCapabilityBoundingSet=CAP_DAC_READ_SEARCH", "reads",
                   "+/etc/portal/credentials/desk_token")}


@pytest.mark.parametrize("right", PLANTED)
def test_planted_right(everybody: Found, right: str) -> None:
    unit, more, key, text = PLANTED[right]
    faults = of_part(f"{unit}.service", probe(f"{unit}.service", more), everybody)
    assert text in faults.get(key, []), f"a right too many is found  [{right}: {faults}]"


def test_planted_mode(everybody: Found) -> None:
    mode = ACCOUNTS.stat().st_mode
    ACCOUNTS.chmod(0o644)
    try:
        faults = of_everybody(look_as_nobody())
    finally:
        ACCOUNTS.chmod(mode)
    assert faults == {"reads": ["+/etc/portal/clerks.toml"]}, f"so is a file that everybody may read  [{faults}]"


def test_planted_socket(everybody: Found) -> None:
    path = pathlib.Path("/run/portal-counter/socket")
    path.chmod(0o666)
    try:
        faults = of_everybody(look_as_nobody())
    finally:
        path.chmod(0o660)
    assert faults == {"connects": ["+/run/portal-counter/socket"]}, f"and a socket that everybody may open  [{faults}]"
