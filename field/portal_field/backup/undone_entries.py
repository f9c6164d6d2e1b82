"""What a restore undoes: sales, refunds and redemptions that the database has and the copy in its place does
not.

The database is read in a copy of its file and its log: SQLite changes what it opens, and a file that this
process opens and closes loses the lock that keeps the server out.
"""

from __future__ import annotations

import contextlib
import csv
import os
import pathlib
import sqlite3
import tempfile
import time
from collections.abc import Iterator
from dataclasses import dataclass

from portal_field.backup.copies import BadCopy, address_of, copy_both, fold, head_of, read_only
from portal_field.lib.owned_files import names_to_disk, own_folder

VERSIONS = (1, 2, 3, 4, 5, 6)   # of the schema; the columns that are read here are the same in all of them
FILE_NAME = "undone.csv"
HEAD = ("what", "time", "code", "batch", "plan", "uses", "sum", "in the copy")
# Redemptions are counted in their own table, as version 1 has no table of counts.
DIFFERENCES = """
WITH there AS (SELECT code, count(*) AS uses, max(moment) AS last FROM main.portal_grants GROUP BY code),
    here AS (SELECT code, count(*) AS uses FROM copy.portal_grants GROUP BY code)
SELECT voucher.code, batch.id AS batch, plan.id AS plan, price, plan.uses,
    voucher.sold, voucher.refunded, voucher.amount,
    ifnull(there.uses, 0) AS there, there.last, same.code IS NOT NULL AS is_issued, same.sold AS sold_here,
    same.refunded AS refunded_here, ifnull(here.uses, 0) AS here
FROM main.portal_vouchers AS voucher
    JOIN main.portal_batches AS batch ON batch.id = voucher.batch_id
    JOIN main.portal_plans AS plan ON plan.id = batch.plan_id
    LEFT JOIN copy.portal_vouchers AS same ON same.code = voucher.code
    LEFT JOIN there ON there.code = voucher.code LEFT JOIN here ON here.code = voucher.code
WHERE (voucher.sold IS NOT NULL AND same.sold IS NULL)
    OR (voucher.refunded IS NOT NULL AND same.refunded IS NULL)
    OR ifnull(there.uses, 0) > ifnull(here.uses, 0)
ORDER BY batch.id, voucher.place"""


@dataclass(frozen=True)
class UndoneEntry:
    """A sale, a refund, or redemptions of one voucher, with the time of the last."""
    what: str           # sold, refunded or redeemed
    moment: int         # seconds since 1970
    code: str
    batch: str
    plan: str
    uses: int           # how many were redeemed; 0 of a sale and a refund
    # hundredths: the price, what was paid back, or what a refund of these uses would pay back
    amount: int
    in_copy: str        # what the voucher is there: sold, unsold or not issued


@dataclass(frozen=True)
class UndoneEntries:
    """What a restore undoes, voucher by voucher."""
    entries: list[UndoneEntry]
    damage: str         # what SQLite finds wrong with the database, so that some may be missing; or nothing

    def counts(self) -> str:
        """Counts and sums, without codes."""
        words = []
        for what in ("sold", "refunded", "redeemed"):
            these = [entry for entry in self.entries if entry.what == what]
            count = sum(entry.uses or 1 for entry in these)
            words.append(f"{what} {count} ({decimal(sum(entry.amount for entry in these))})")
        return "undone, since the copy does not have it: " + ", ".join(words)


def decimal(amount: int) -> str:
    """An amount of hundredths, such as 12.50."""
    return f"{amount // 100}.{amount % 100:02}"


def amount_left(price: int, uses: int, redeemed: int) -> int:
    """What the server pays back for a voucher: the price of its unused uses, rounded down."""
    return price * (uses - redeemed) // uses


def entries_of(row: sqlite3.Row) -> Iterator[UndoneEntry]:
    """The undone sales, refunds and redemptions of one voucher."""
    in_copy = "not issued" if not row["is_issued"] else "unsold" if row["sold_here"] is None else "sold"

    def entry(what: str, moment: int, uses: int, amount: int) -> UndoneEntry:
        """An entry of this voucher."""
        return UndoneEntry(what, moment, row["code"], row["batch"], row["plan"], uses, amount, in_copy)

    if row["sold"] is not None and row["sold_here"] is None:
        yield entry("sold", row["sold"], 0, row["price"])
    if row["refunded"] is not None and row["refunded_here"] is None:
        yield entry("refunded", row["refunded"], 0, row["amount"])
    if row["there"] > row["here"]:
        left = [amount_left(row["price"], row["uses"], redeemed) for redeemed in (row["here"], row["there"])]
        yield entry("redeemed", row["last"], row["there"] - row["here"], left[0] - left[1])


def check_version(path: pathlib.Path) -> None:
    """BadCopy: the schema version of a database is none that can be read here."""
    head = head_of(path)
    if not head:
        raise BadCopy("it is no database of portal, or an empty one")
    if head[0] not in VERSIONS:
        raise BadCopy(f"its schema version is {head[0]}, and {VERSIONS[0]} to {VERSIONS[-1]} can be read")


def compare(database: pathlib.Path, copy: pathlib.Path) -> UndoneEntries:
    """What the database has and the copy has not; both have no log. BadCopy where one is of no version that
    is known, sqlite3.Error where it cannot be read."""
    check_version(database)
    check_version(copy)
    with contextlib.closing(read_only(database)) as base:
        base.execute("ATTACH ? AS copy", (address_of(copy),))
        damage = base.execute("PRAGMA main.integrity_check(1)").fetchone()[0]
        base.row_factory = sqlite3.Row
        entries = [entry for row in base.execute(DIFFERENCES) for entry in entries_of(row)]
    return UndoneEntries(entries, "" if damage == "ok" else damage)


def undone_entries(database: pathlib.Path, copy: pathlib.Path, scratch: pathlib.Path) -> UndoneEntries:
    """What this copy in the database's place undoes. The database may have a log, and is read in the scratch
    folder."""
    with tempfile.TemporaryDirectory(dir=scratch) as folder:
        whole = pathlib.Path(folder) / "replaced.db"
        copy_both(database, whole)
        fold(whole)
        return compare(whole, copy)


def write_list(undone: UndoneEntries, folder: pathlib.Path) -> pathlib.Path:
    """Writes the list as CSV, for its owner alone, since codes are worth money. Its path. Times are those of
    the process's zone."""
    with own_folder(folder) as number:
        handle = os.open(FILE_NAME, os.O_WRONLY | os.O_CREAT | os.O_EXCL, 0o600, dir_fd=number)
        try:
            with open(handle, "w", newline="") as file:
                lines = csv.writer(file)
                lines.writerow(HEAD)
                for entry in undone.entries:
                    time_text = time.strftime("%Y-%m-%d %H:%M:%S", time.localtime(entry.moment))
                    lines.writerow((entry.what, time_text, entry.code, entry.batch, entry.plan,
                                    entry.uses or "", decimal(entry.amount), entry.in_copy))
                file.flush()
                os.fsync(handle)
            names_to_disk(number)
        except OSError:
            os.unlink(FILE_NAME, dir_fd=number)
            raise
    return folder / FILE_NAME
