"""How long the two lists that grow take: the open sessions, and the takings of 366 days. Not run by ./test.

    lists.py PROGRAM [--sessions N ..] [--vouchers N ..]

For each N a database file is made: the program makes it with its plans and a sample of each row, and rows like those
are put in by Python's sqlite3. `check` must say `ok` of it. Then `serve` is asked, once to warm it and five times by
the clock.
"""

import argparse
import os
import random
import re
import sqlite3
import statistics
import tempfile
import time

from desk import DESK, GATEWAY, PLANS, Desk, codes_of, guest

SIGNS = "23456789ABCDEFGHJKMNPQRSTUVWXYZ"
DAY, DAYS, BATCH, ROUNDS = 86400, 366, 500, 5
MANY = PLANS.replace('"hour"', '"many"').replace("uses = 3", "uses = 100000").replace("= 3600", "= 86400")


def code(draw):
    """A code of 16 signs."""
    return code_of([draw.randrange(31) for _ in range(15)])


def code_of(values):
    """The code that begins with these 15 signs: the weighted sum with the check character is divisible by 31."""
    values = list(values)
    values.append(-sum(value * weight for weight, value in enumerate(values, 2)) % 31)
    signs = "".join(SIGNS[value] for value in values)
    return "-".join(signs[i:i + 4] for i in range(0, 16, 4))


def device(number):
    return "02:" + ":".join(f"{byte:02x}" for byte in number.to_bytes(5, "big"))


def make_first_file(desk):
    """A file of the program's own making with both plans, a voucher of each, and one session."""
    desk.start()
    desk.answer_to("POST", "/desk/plans", DESK, PLANS + MANY)
    for batch, plan in (("first", "hour"), ("open", "many")):
        desk.answer_to("POST", "/desk/batches", DESK, '{"batch":"%s","plan":"%s","count":1}' % (batch, plan))
        desk.answer_to("POST", "/desk/sales", DESK, '{"code":"%s"}' % codes_of(desk, batch)[0])
    text = codes_of(desk, "open")[0]
    desk.answer_to("POST", "/portal/redeem", guest(0xffff), '{"code":"%s"}' % text)
    desk.kill()
    return text


def columns(file, table):
    return [row[1] for row in file.execute(f"PRAGMA table_info({table})")]


def put(file, table, rows):
    """Rows as wide as the table, each as those that the program made."""
    names = columns(file, table)
    file.executemany(f"INSERT INTO {table} ({', '.join(names)}) VALUES ({', '.join('?' * len(names))})", rows)


def sell(file, count, now):
    """Vouchers in batches of 500, all sold, spread over 366 days, every twentieth refunded as a whole."""
    draw, price = random.Random(count), 300
    base = file.execute("SELECT min(place) FROM portal_vouchers").fetchone()[0]
    for first in range(0, count, BATCH):
        name, issued = f"b{first}", now - (DAYS - 1) * DAY + first * (DAYS - 2) * DAY // count
        size = min(BATCH, count - first)
        put(file, "portal_batches", [(name, "hour", issued, issued + 30 * DAY, size)])
        vouchers = []
        for place in range(size):
            text, sold = code(draw), issued + place
            refund = (sold + 60, price) if place % 20 == 0 else (None, None)
            vouchers.append((text, name, place + base, sold, *refund, 0))
        put(file, "portal_vouchers", vouchers)


def redeem(file, text, count, now):
    """Sessions of a day each, opened by one voucher of many uses."""
    first = file.execute("SELECT max(number) FROM portal_sessions").fetchone()[0] + 1
    grant = file.execute("SELECT max(number) FROM portal_grants").fetchone()[0] + 1
    numbers = range(count - 1)
    put(file, "portal_sessions", [(first + i, device(i), "many", now, 0, None, now + DAY, None) for i in numbers])
    put(file, "portal_grants", [(grant + i, text, first + i, now, DAY, 0) for i in numbers])
    file.execute("UPDATE portal_vouchers SET redeemed = ? WHERE code = ?", (count, text))
    more = count - 1
    head = "UPDATE portal_head SET last_moment = ?, grants = grants + ?, sessions = sessions + ?"
    file.execute(head, (now, more, more))


def time_requests(desk, path, caller):
    """The seconds of five answers, and the last answer."""
    times = []
    for _ in range(ROUNDS + 1):
        start = time.perf_counter()
        text = desk.answer_to("GET", path, caller)
        times.append(time.perf_counter() - start)
    return times[1:], text


def result(what, times):
    span = f"median {statistics.median(times):.3f} s, {min(times):.3f} to {max(times):.3f}"
    print(f"{what}: {span}, load {os.getloadavg()[0]:.0f}", flush=True)


def opened(desk):
    audit = desk.run("check")
    assert (audit.returncode, audit.stdout) == (0, "ok\n"), audit
    start = time.perf_counter()
    desk.start()
    desk.answer_to("GET", "/captive", guest(1))
    return time.perf_counter() - start


def measure(program, kind, count):
    with tempfile.TemporaryDirectory() as folder:
        desk = Desk(program, folder)
        text, now = make_first_file(desk), int(time.time())
        with sqlite3.connect(os.path.join(folder, "portal.db")) as file:
            if kind == "sessions":
                redeem(file, text, count, now)
            else:
                sell(file, count, now)
        file.close()
        start = opened(desk)
        try:
            if kind == "sessions":
                times, answer = time_requests(desk, "/gateway/sessions", GATEWAY)
                assert answer.count('"session":') == count, answer[:200]
                result(f"GET /gateway/sessions, {count} open (opened in {start:.1f} s)", times)
            else:
                ends = [time.strftime("%Y-%m-%d", time.gmtime(now - days * DAY)) for days in (DAYS - 1, 0)]
                times, answer = time_requests(desk, f"/desk/takings?from={ends[0]}&to={ends[1]}", DESK)
                total = int(re.search(r"^total +([0-9]+) ", answer, re.M)[1])
                assert total == count + 2, (total, count)
                result(f"GET /desk/takings of {DAYS} days, {count} sold (opened in {start:.1f} s)", times)
        finally:
            desk.kill()


def main():
    words = argparse.ArgumentParser(description="How long the two lists that grow take.")
    words.add_argument("program")
    words.add_argument("--sessions", type=int, nargs="*", default=[1000, 10000])
    words.add_argument("--vouchers", type=int, nargs="*", default=[10000, 100000])
    args = words.parse_args()
    program = os.path.abspath(args.program)
    for kind in ("sessions", "vouchers"):
        for count in getattr(args, kind):
            measure(program, kind, count)


if __name__ == "__main__":
    main()
