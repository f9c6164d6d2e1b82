"""Databases that somebody else wrote: the product's tables without their UNIQUE, PRIMARY KEY and REFERENCES clauses, and in each one
fault that a clause would have refused. `portal check` says `ok` without a fault, and `differs` with each.

    rows.py PROGRAM
"""

from __future__ import annotations

import os
import re
import sqlite3
import sys
import tempfile
from contextlib import closing

from desk import DESK, PLANS, Desk, guest, request

SEED = "0" * 64
OTHER = "2222-2222-2222"        # a code that was never issued
# What a clause would have refused. Where a counter follows from the change, it is changed too, so that nothing else differs.
FAULTS = {
    "two plans of one id": "INSERT INTO portal_plans SELECT * FROM portal_plans",
    "two batches of one id": "INSERT INTO portal_batches SELECT * FROM portal_batches",
    "two vouchers of one code": "INSERT INTO portal_vouchers (code, batch_id, place, redeemed) SELECT code, batch_id, 7, redeemed FROM portal_vouchers LIMIT 1",
    "two vouchers at one place": "UPDATE portal_vouchers SET place = 0",
    "two requests of one key": "INSERT INTO portal_requests SELECT * FROM portal_requests",
    "a batch of no plan": "UPDATE portal_batches SET plan_id = 'none'",
    "a voucher of no batch": "UPDATE portal_vouchers SET batch_id = 'none'",
    "a session of no plan": "UPDATE portal_sessions SET plan_id = 'none', ends = NULL, remaining = NULL",
    "a redemption of no voucher": f"UPDATE portal_grants SET code = '{OTHER}'; UPDATE portal_vouchers SET redeemed = 0",
    "a redemption in no session": "UPDATE portal_grants SET session = 9; UPDATE portal_sessions SET ends = 1000",
}


def answer(desk: Desk, moment: int, method: str, path: str, field: str, body: str, number: str | None = None) -> None:
    done = desk.run("answer", "--now", str(moment), "--seed", SEED, data=request(method, path, field, body, number))
    assert done.returncode == 0, (path, done.stdout, done.stderr)


def make_database(desk: Desk, path: str) -> None:
    """A plan, a batch of two codes with a kept request, and a sale and a redemption of the first."""
    answer(desk, 0, "POST", "/desk/plans", DESK, PLANS)
    answer(desk, 1000, "POST", "/desk/batches", DESK, '{"batch":"b1","plan":"hour","count":2}', "order-1")
    with closing(sqlite3.connect(path)) as made:
        [(code,)] = made.execute("SELECT code FROM portal_vouchers ORDER BY place LIMIT 1")
    answer(desk, 1000, "POST", "/desk/sales", DESK, f'{{"code":"{code}"}}')
    answer(desk, 1000, "POST", "/portal/redeem", guest(1), f'{{"code":"{code}"}}')


def without_clauses(create: str) -> str:
    """The statement that creates a table, without what refuses rows."""
    create = re.sub(r", (UNIQUE|PRIMARY KEY) \([^)]*\)", "", create)
    create = re.sub(r" REFERENCES \w+ \(\w+\)", "", create)
    return create.replace("TEXT NOT NULL PRIMARY KEY", "TEXT NOT NULL")


def made_anew(path: str) -> None:
    """Each table of the product is made anew without its clauses, with its rows in their order, and each index after that."""
    with closing(sqlite3.connect(path)) as made:
        items = made.execute("SELECT type, name, sql FROM sqlite_master WHERE sql IS NOT NULL").fetchall()
        for _, name, sql in [item for item in items if item[0] == "table"]:
            made.executescript(f"CREATE TABLE kept AS SELECT * FROM {name} ORDER BY rowid; DROP TABLE {name}; {without_clauses(sql)};"
                               f"INSERT INTO {name} SELECT * FROM kept ORDER BY rowid; DROP TABLE kept")
        for _, _, sql in [item for item in items if item[0] == "index"]:
            made.execute(sql)
        made.commit()


def check(desk: Desk, name: str, wanted: str) -> None:
    done = desk.run("check")
    if (done.stdout, done.stderr) != (wanted, ""):
        sys.exit(f"outside: check of a database with {name}\n  expected: {wanted!r}\n  came:     {(done.stdout, done.stderr)}")


def refer_to_a_code(desk: Desk, path: str) -> None:
    """With a table of others that refers to a code the database is not opened, and stays as it was."""
    with closing(sqlite3.connect(path)) as made:
        made.execute("CREATE TABLE gift (id INTEGER PRIMARY KEY, code TEXT REFERENCES portal_vouchers (code))")
        [(code,)] = made.execute("SELECT code FROM portal_vouchers WHERE sold IS NULL")
    words = 1000, "POST", "/desk/sales", DESK, f'{{"code":"{code}"}}'
    done = desk.run("answer", "--now", "1000", "--seed", SEED, data=request(*words[1:]))
    wanted = "portal: file\n  portal.db: the table gift refers to a table of portal\n"
    if (done.returncode, done.stdout, done.stderr) != (3, "", wanted):
        sys.exit(f"outside: a sale beside a table that refers to a code\n  came: {(done.returncode, done.stdout, done.stderr)}")
    with closing(sqlite3.connect(path)) as made:
        assert made.execute("SELECT sold FROM portal_vouchers WHERE code = ?", (code,)).fetchall() == [(None,)], "nothing is written"
        made.execute("DROP TABLE gift")
    answer(desk, *words)


def main() -> None:
    with tempfile.TemporaryDirectory() as folder:
        desk = Desk(sys.argv[1], folder)
        path = os.path.join(folder, "portal.db")
        make_database(desk, path)
        check(desk, "its clauses", "ok\n")
        refer_to_a_code(desk, path)
        made_anew(path)
        check(desk, "no clauses", "ok\n")
        with open(path, "rb") as file:
            good = file.read()
        for name, change in FAULTS.items():
            with open(path, "wb") as file:
                file.write(good)
            with closing(sqlite3.connect(path)) as made:
                made.executescript(change)
            check(desk, name, "differs\n")
    print(f"outside: check finds each of {len(FAULTS)} faults that a clause of a table would have refused")


main()
