"""The package is removed, installed again, purged, and installed again over what the purge kept."""

from __future__ import annotations

import glob
import os
import pathlib
from collections.abc import Iterator
from dataclasses import dataclass
from typing import Any

import pytest
from booted import Levels
from machine import (
    COPIES, DATABASE, LOGIN, Done, active, all_run, apt, begin_to_serve, code, counter, forward, inactive_units,
    install, is_bound, log_in, neighbour, output, passes, sh, tokens, until, versions)
from new_machine import JOURNAL, facts
from purge import Purge, left, purge

pytestmark = pytest.mark.container
WHOLE, BY_NAME = "/var/backups/portal-whole", pathlib.Path("/var/lib/portal-venues/north")


@dataclass(frozen=True)
class Removal:
    """The tokens of before, and how it went."""
    tokens: list[str]
    done: Done


DEFAULT_SITE = pathlib.Path("/etc/nginx/sites-enabled/default")


@pytest.fixture(scope="module")
def removal(levels: Levels) -> Removal:
    levels.reach("venue")
    before = tokens()
    assert not DEFAULT_SITE.exists(), "set-up disabled nginx's default site"
    done = apt("remove", "portal")
    levels.forget()
    return Removal(before, done)


def test_removed(removal: Removal) -> None:
    tables = sh("nft list tables").stdout
    assert not is_bound(), f"remove: no address is bound any more  [{neighbour()}]"
    assert (removal.done.returncode == 0 and forward() == "0" and "portal" not in tables
            and active("nginx") == active("dnsmasq") == "active"), (
        "remove: nothing is forwarded, the rules are gone, nginx and dnsmasq run  "
        f"[forward {forward()}; {tables.split()}; nginx {active('nginx')}; {output(removal.done, 100)}]")
    assert DATABASE.exists(), "the database is kept"


def test_default_site(removal: Removal) -> None:
    assert removal.done.returncode == 0
    assert DEFAULT_SITE.resolve() == pathlib.Path("/etc/nginx/sites-available/default"), (
        "remove: nginx's default site, which set-up had disabled, is enabled again")


def test_installed_again(removal: Removal) -> None:
    done = install(versions()[0])
    again = sh("portal-setup")
    until(all_run, 20)
    assert (done.returncode == again.returncode == 0 and tokens() == removal.tokens
            and until(passes, 10) is not None), (
        f"installed again: the same database, tokens and session  [{output(again)}]")


@dataclass(frozen=True)
class Kept:
    """What the venue was before a purge, and how that went."""
    facts: dict[str, Any]
    purged: Purge


@pytest.fixture(scope="module")
def kept(levels: Levels) -> Kept:
    """A voucher is sold before the night's copy, and one after it. There is a database of a venue by name, too."""
    levels.reach("venue")
    code()
    done = sh("systemctl start portal-backup.service")
    assert done.returncode == 0, f"the copies of a night are made  [{output(done)}]"
    code()
    sh("install", "-d", "-o", "portal", BY_NAME)
    sh("install", "-o", "portal", "/dev/null", BY_NAME / "book.db")
    until(lambda: facts()["sessions"], 10)
    before = facts()
    purged = purge()
    levels.forget()
    return Kept(before, purged)


def test_purged(kept: Kept) -> None:
    faults, wholes = kept.purged.faults(), glob.glob(f"{WHOLE}/venue-*.tar.gz")
    assert kept.purged.done.returncode == 0 and not faults, (
        f"each path that goes or stays is named, and root alone reads what stays  [{faults}]")
    assert DATABASE.exists() and (BY_NAME / "book.db").exists() and any(COPIES.iterdir()) and wholes, (
        f"a purge keeps the database, its copies and the whole copies  [{output(kept.purged.done, 900)}]")
    assert not os.path.exists("/etc/portal/credentials"), "and drops tokens and settings"


@pytest.fixture(scope="module")
def back(kept: Kept, levels: Levels) -> Iterator[list[str]]:
    """What failed of the commands with which a venue comes back after a purge."""
    newest = sorted(glob.glob(f"{WHOLE}/venue-*.tar.gz"))[-1]
    done = {"install": install(versions()[0]), "restore": sh("portal-restore", "--whole", newest),
            "set-up": sh("portal-setup")}
    LOGIN.update(cookie="", token="")
    begin_to_serve()
    yield [f"{name}: {output(it)}" for name, it in done.items() if it.returncode != 0]
    levels.forget()


def test_the_venue_is_back(kept: Kept, back: list[str]) -> None:
    assert not back, f"each command ends with 0  [{back}]"
    until(lambda: facts()["sessions"] == kept.facts["sessions"], 10)
    assert facts() == kept.facts and kept.facts["sessions"], (
        f"takings, the open session, accounts, journal, token and certificate are those of before the purge  "
        f"[{kept.facts} -> {facts()}]")
    assert until(all_run, 20) is not None and until(passes, 15) is not None, (
        f"the guest's session goes on without a code  [{inactive_units()}]")


def test_the_clerk_is_back(back: list[str]) -> None:
    assert log_in()[0] == 303 and counter("")[0] == 200, "the clerk logs in with the password of before the purge"


def test_each_part_has_its_files_again(back: list[str]) -> None:
    paths = (DATABASE.parent, DATABASE, JOURNAL, BY_NAME.parent, COPIES, WHOLE)
    owners = sh("stat", "-c", "%U %a", *paths).stdout.splitlines()
    assert owners == ["portal 700", "portal 600", "portal-counter 600", "root 755", "root 700", "root 700"], (
        f"each part has its files again  [{owners}]")


def test_destroyed(installed: None, levels: Levels) -> None:
    purged = purge()
    levels.forget()
    done = sh(purged.command())
    assert done.returncode == 0 and not left(), (
        f"the command that is printed last destroys what stayed  [{purged.command()}; {left()}]")
