"""Database files of a size, for what is measured here: the program issues the vouchers and makes one row of
each kind, and Python's sqlite3 puts in rows like those. `portal check` has to say `ok` of them."""

import contextlib
import json
import sqlite3
import time
from dataclasses import dataclass
from pathlib import Path

from desk import DESK, PLANS, Desk, codes_of, guest

BATCH, YEAR, OPEN_SESSIONS = 500, 365 * 86400, 200
SAMPLE = "sample"                              # the batch with the voucher whose rows are the pattern


@dataclass(frozen=True)
class Size:
    """So many vouchers, sold `step` seconds apart; every tenth is redeemed where `every` is 10."""
    name: str
    vouchers: int
    step: int
    every: int
    keys: bool = False

    @property
    def patience(self):
        """Seconds that an opening may take on a slow machine that does other work too."""
        return 60 + self.vouchers // 1000


def size_of(word):
    """A number: so many vouchers, sold over a year, every tenth redeemed. hostel: ten years of 40 vouchers a
    day, all redeemed, with idempotency keys."""
    if word == "hostel":
        return Size(word, 146000, 86400 // 40, 1, keys=True)
    return Size(f"{int(word):,}", int(word), max(1, YEAR // int(word)), 10)


def device_of(number):
    return "02:01:%02x:%02x:%02x:%02x" % tuple(number.to_bytes(4, "big"))


class Rows:
    """Puts rows into a file of any schema version, each like the one that the program made."""

    def __init__(self, file):
        self.file, self.samples = file, {}
        file.row_factory = sqlite3.Row
        for name, in file.execute("SELECT name FROM sqlite_schema WHERE type = 'table'").fetchall():
            self.samples[name] = [dict(row) for row in file.execute(f"SELECT * FROM {name} LIMIT 2")]

    def put(self, table, rows, like=0):
        """Rows that differ from the sample in the columns named. If the file lacks the table, none."""
        if table not in self.samples:
            return
        sample = self.samples[table][like]
        words = f"INSERT INTO {table} ({', '.join(sample)}) VALUES ({', '.join('?' * len(sample))})"
        values = ([row.get(name, value) for name, value in sample.items()] for row in rows)
        self.file.executemany(words, values)

    def set_redeemed(self, codes):
        table = "portal_counts" if "portal_counts" in self.samples else "portal_vouchers"
        self.file.executemany(f"UPDATE {table} SET redeemed = 1 WHERE code = ?", ((code,) for code in codes))


def make_samples(desk):
    """A voucher that was sold and redeemed with keys."""
    desk.answer_to("POST", "/desk/batches", DESK, json.dumps({"batch": SAMPLE, "plan": "hour", "count": 1}))
    body = json.dumps({"code": codes_of(desk, SAMPLE)[0]}, separators=(",", ":"))
    desk.answer_to("POST", "/desk/sales", DESK, body, number="s")
    desk.answer_to("POST", "/portal/redeem", guest(1), body, number="r")


def put_keys(rows, used):
    """The kept requests of these sales and redemptions: (number, code, moment)."""
    def kept(number, code, **more):
        body = json.dumps({"code": code}, separators=(",", ":")).encode()
        return {"number": f"{number:032x}", "body": body, **more}

    sales = (kept(number, code, word=code) for number, code, _ in used)
    redemptions = (kept(number, code, caller=device_of(number), n1=number) for number, code, _ in used)
    rows.put("portal_requests", sales)
    rows.put("portal_requests", redemptions, like=1)


def fill(path, size, now):
    """Sells all vouchers but those of the last batch, and redeems them as the size says; the sessions of the
    last ones are open. Gives the number of the last session."""
    with contextlib.closing(sqlite3.connect(path)) as file, file:
        rows = Rows(file)
        begun = now - 3600 - size.vouchers * size.step
        spare = f"b{size.vouchers // BATCH}"
        issued = "SELECT code FROM portal_vouchers WHERE batch_id NOT IN (?, ?) ORDER BY rowid"
        codes = [code for code, in file.execute(issued, (spare, SAMPLE))]
        sold = [(begun + at * size.step, code) for at, code in enumerate(codes)]
        file.executemany("UPDATE portal_vouchers SET sold = ? WHERE code = ?", sold)
        used = [(number, code, moment + 60) for number, (moment, code) in enumerate(sold[::size.every], 2)]
        used[-OPEN_SESSIONS:] = [(number, code, now - 60) for number, code, _ in used[-OPEN_SESSIONS:]]
        last = used[-1][0]
        rows.put("portal_sessions", ({"number": number, "device": device_of(number), "opened": moment,
                                      "ends": moment + 3600} for number, _, moment in used))
        rows.put("portal_totals", ({"number": number, "ends": moment + 3600} for number, _, moment in used))
        rows.put("portal_grants", ({"number": number, "code": code, "session": number, "moment": moment}
                                   for number, code, moment in used))
        rows.set_redeemed(code for _, code, _ in used)
        if size.keys:
            put_keys(rows, used)
        file.execute("UPDATE portal_head SET grants = ?, sessions = ?", (last, last))
    with contextlib.closing(sqlite3.connect(path)) as file:
        file.execute("PRAGMA wal_checkpoint(TRUNCATE)")
    return last


def make(program, size, folder):
    """The desk over a file of that size, not started yet, and the number of its last session. The vouchers
    of its last batch are not sold yet."""
    desk, now = Desk(program, str(folder)), int(time.time())
    desk.start()
    desk.answer_to("POST", "/desk/plans", DESK, PLANS)
    make_samples(desk)
    for at in range(size.vouchers // BATCH + 1):
        body = json.dumps({"batch": f"b{at}", "plan": "hour", "count": BATCH})
        desk.answer_to("POST", "/desk/batches", DESK, body)
    desk.kill()
    last = fill(Path(folder, "portal.db"), size, now)
    audit = desk.run("check", patience=4 * size.patience)
    assert (audit.returncode, audit.stdout) == (0, "ok\n"), audit
    return desk, last
