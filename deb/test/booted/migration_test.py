"""An upgrade over a database of schema version 4, which the first start migrates."""

from __future__ import annotations

import contextlib
import pathlib
import re
import sqlite3
from collections.abc import Iterator
from dataclasses import dataclass

import pytest
from booted import Levels
from machine import (
    COPIES, DATABASE, Done, all_run, code, install, installed, look_up, output, passes, request_text,
    serves, sessions, sh, until, versions)
from schema_versions import take_back

pytestmark = pytest.mark.container
SCHEMA = DATABASE.with_name("schema")
# What a running venue does not change: not the bytes that sessions used, nor the time of the last command.
COLUMNS = {"portal_plans": "*", "portal_batches": "*", "portal_vouchers": "*", "portal_grants": "*",
           "portal_requests": "*", "portal_sessions": "number, device, plan_id, opened, closed, ends",
           "portal_head": "id, grants, sessions"}
# Those of a database of schema version 4, with its counters where a later version has them.
COLUMNS_APART = COLUMNS | {"portal_vouchers": "*, (SELECT redeemed FROM portal_counts WHERE code = portal_vouchers.code)",
                           "portal_sessions": """number, device, plan_id, opened, closed,
                           (SELECT ends FROM portal_totals WHERE number = portal_sessions.number)"""}


def rows(path: pathlib.Path) -> dict[str, list[tuple[object, ...]]]:
    """The rows of a database that nobody has open, table by table."""
    with contextlib.closing(sqlite3.connect(path)) as base:
        apart = base.execute("SELECT layout FROM portal_head").fetchone()[0] < 6
        return {name: base.execute(f"SELECT {columns} FROM {name} ORDER BY rowid").fetchall()
                for name, columns in (COLUMNS_APART if apart else COLUMNS).items()}


def version_in(path: pathlib.Path) -> int:
    """The schema version of a database that nobody has open."""
    with contextlib.closing(sqlite3.connect(path)) as base:
        return int(base.execute("SELECT layout FROM portal_head").fetchone()[0])


def statement(text: str) -> None:
    """Changes the database while the server is stopped."""
    with contextlib.closing(sqlite3.connect(DATABASE)) as base, base:
        base.execute(text)


def takings() -> str:
    """What the server took yesterday, today and tomorrow, whatever the venue's zone."""
    first, last = (sh("date", "+%F", "-d", day).stdout.strip() for day in ("yesterday", "tomorrow"))
    return request_text(f"/desk/takings?from={first}&to={last}", "desk_token")


@dataclass(frozen=True)
class Before:
    """What the venue had before the upgrade."""
    code: str
    takings: str
    sessions: list[int]
    rows: dict[str, list[tuple[object, ...]]]


@pytest.fixture(scope="module")
def before(levels: Levels) -> Iterator[Before]:
    """The venue's database with the tables of version 4, and no server; this version is there again afterwards."""
    levels.reach("venue")
    text = code()
    seen = text, takings(), sessions()
    sh("systemctl stop portal")
    kept = rows(DATABASE)
    take_back(DATABASE)
    sh(f"chown portal: {DATABASE}")
    SCHEMA.write_text("4\n")
    yield Before(*seen, kept)
    SCHEMA.write_text("6\n")
    install(versions()[0], "--allow-downgrades")
    levels.forget()


def test_index_of_others(before: Before) -> None:
    statement("CREATE INDEX vouchers_by_sale ON portal_vouchers (sold)")
    done = install(versions()[1])
    statement("DROP INDEX vouchers_by_sale")
    words = done.stdout + done.stderr
    assert (done.returncode != 0 and "the index vouchers_by_sale is on portal_vouchers" in words
            and f"{versions()[0]} install ok installed" == installed() and version_in(DATABASE) == 4), (
        f"an upgrade over an index of others on a table of the program is refused  [{output(done, 500)}]")


@pytest.fixture(scope="module")
def upgrade(before: Before) -> Done:
    done = install(versions()[1])
    sh("systemctl start portal")
    until(lambda: all_run() and serves() and passes(), 30)
    return done


def test_upgrade(upgrade: Done) -> None:
    words, how_long = upgrade.stdout + upgrade.stderr, r"anew \(schema version 6, \d+ MB\): .* for up to \d+ seconds"
    assert upgrade.returncode == 0 and versions()[1] in installed() and passes(), (
        f"an upgrade over a database of version 4: the venue serves  [{output(upgrade, 300)}]")
    assert re.search(how_long, words), (
        f"it says before it begins how long they wait  [{output(upgrade, 500)}]")


def test_all_is_the_same(upgrade: Done, before: Before) -> None:
    assert takings() == before.takings and sessions() == before.sessions, "the same takings and open sessions"
    assert look_up(before.code)[0] == 200, "a voucher that was sold before is found"
    sh("systemctl stop portal")
    kept, version = rows(DATABASE), version_in(DATABASE)
    sh("systemctl start portal")
    keys = before.rows["portal_requests"]
    assert keys and kept["portal_requests"] == keys, "the same idempotency keys, with their answers"
    assert kept == before.rows and version == 6, "every row of before, in version 6"
    copy = max(COPIES.glob(f"before-{versions()[1]}-*.db"))
    assert version_in(copy) == 4 and rows(copy) == before.rows, "and the copy of before has them in version 4"
