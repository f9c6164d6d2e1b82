"""One request of each route and each subcommand over a database file, of which each request for memory is refused in turn. What is
answered is the answer with memory, and then its rows stand in the file; or it is no_memory, and the rows are as before. Then the same call
with memory is answered as if nothing had been. An opening is refused memory a second time too, before it is made with memory.

usage: routes.py PROGRAM LIBRARY [--quick] [--one]      --quick: of an opening, which is the same in each call, only some requests for
                                                        memory; --one: of the calls that without a request alone, the shortest

The last line is 'memory: N passed, M failed', in calls."""

import concurrent.futures
import contextlib
import os
import sqlite3
import sys
from pathlib import Path

from desk import DESK, GATEWAY, PLANS, SETTINGS, guest, request
from reader import Sql, read_case
from refusing import LIBRARY, bytes_of, copy_files, folder, rows, run

SEED, CODE = "0" * 64, "3N55-WA4S-KH5V-JR49"
NO_MEMORY = b'{"error":"no_memory"}'
NO_DATABASE = b"portal: file\n  portal.db: there is no database here: only serve and answer create one\n"
NOT_CLOSED = b"portal: no_memory\n"
BATCH = '{"batch":"b1","plan":"%s","count":3}'
SOLD = '{"code":"%s"}' % CODE


def answer(now, method, path, field, body="", number=None):
    words = ["answer", "--db", "portal.db", "--settings", "settings", "--now", str(now), "--seed", SEED]
    return words, request(method, path, field, body, number)


def result(*words):
    return [*words, "--db", "portal.db", "--settings", "settings"], b""


LOAD = answer(0, "POST", "/desk/plans", DESK, PLANS)
ISSUE = answer(1000, "POST", "/desk/batches", DESK, BATCH % "hour")
SALE = answer(1000, "POST", "/desk/sales", DESK, SOLD)
REDEMPTION = answer(1000, "POST", "/portal/redeem", guest(1), SOLD)
NUMBERED = answer(1000, "POST", "/portal/redeem", guest(1), SOLD, number="a1")
NOTHING = answer(2000, "GET", "/", DESK)[0], b"GET"
STORES = {"new": [], "plans": [LOAD], "issued": [LOAD, ISSUE], "sold": [LOAD, ISSUE, SALE], "open": [LOAD, ISSUE, SALE, NUMBERED],
          "version 1": [], "version 4": [], "version 5": []}

CALLS = [
    ("GET /captive", "open", answer(2000, "GET", "/captive", guest(1))),
    ("POST /portal/redeem", "sold", REDEMPTION),
    ("POST /portal/redeem, numbered", "sold", NUMBERED),
    ("POST /portal/redeem, sent again", "open", NUMBERED),
    ("POST /desk/plans", "new", LOAD),
    ("POST /desk/batches", "plans", ISSUE),
    ("GET /desk/batches/b1/print", "issued", answer(1000, "GET", "/desk/batches/b1/print", DESK)),
    ("POST /desk/sales", "issued", SALE),
    ("POST /desk/refunds", "sold", answer(2000, "POST", "/desk/refunds", DESK, SOLD)),
    ("POST /desk/closes", "open", answer(2000, "POST", "/desk/closes", DESK, '{"session":1}')),
    ("GET /desk/vouchers/..", "open", answer(2000, "GET", f"/desk/vouchers/{CODE}", DESK)),
    ("GET /desk/vouchers/../redemptions", "open", answer(2000, "GET", f"/desk/vouchers/{CODE}/redemptions", DESK)),
    ("GET /desk/vouchers", "open", answer(2000, "GET", f"/desk/vouchers?prefix={CODE[:4]}", DESK)),
    ("GET /desk/batches", "open", answer(2000, "GET", "/desk/batches", DESK)),
    ("GET /desk/batches/b1", "open", answer(2000, "GET", "/desk/batches/b1", DESK)),
    ("GET /desk/takings", "sold", answer(2000, "GET", "/desk/takings?from=1970-01-01&to=1970-01-31", DESK)),
    ("POST /gateway/reports", "open", answer(2000, "POST", "/gateway/reports", GATEWAY, '{"session":1,"bytes":7}')),
    ("GET /gateway/sessions", "open", answer(2000, "GET", "/gateway/sessions", GATEWAY)),
    ("GET /gateway/sessions/details", "open", answer(2000, "GET", "/gateway/sessions/details", GATEWAY)),
    ("GET /desk/sessions/..", "open", answer(2000, "GET", "/desk/sessions/1", DESK)),
    ("GET /desk/sessions", "open", answer(2000, "GET", "/desk/sessions?device=02:00:00:00:00:01", DESK)),
    ("GET /portal/session", "open", answer(2000, "GET", "/portal/session", guest(1))),
    ("POST /portal/redeem, a second session", "open", answer(2000, "POST", "/portal/redeem", guest(2), SOLD)),
    ("POST /desk/sales, refused", "open", answer(2000, "POST", "/desk/sales", DESK, SOLD)),
    ("no request", "open", NOTHING),
    ("print", "issued", result("print", "b1")),
    ("takings", "sold", result("takings", "1970-01-01", "1970-01-31")),
    ("check", "open", result("check")),
    ("check, migrating", "version 1", result("check")),
    ("check, migrating version 4", "version 4", result("check")),
    ("check, migrating version 5", "version 5", result("check")),
]

# The calls of which each request for memory is refused, or every so many of them; of the others those after the store is open.
WHOLE = ("POST /desk/plans", "check", "check, migrating", "check, migrating version 4", "check, migrating version 5")
FEWER = 23

# The calls that are refused memory a second time before they are made with memory. Their databases are of older schema versions.
TWICE = ("check, migrating", "check, migrating version 4", "check, migrating version 5")
CASES = Path(__file__).resolve().parent.parent / "cases"
OLD = {"version 1": "first_version_migrated.txt", "version 4": "fourth_version_migrated.txt",
       "version 5": "fifth_version_migrated.txt"}


def is_no_memory(said):
    """Whether that is what is said where memory is wanted: a response, or a word where none can be written."""
    status, output, errors = said
    if output:
        is_response = output.startswith(b"HTTP/1.1 503 ") and output.endswith(b"\r\n\r\n" + NO_MEMORY)
        return status == 1 and is_response and errors == b""
    return (status, errors) in ((1, b"portal: no_memory\n"), (3, b"portal: no_memory\n"), (3, b"portal: cut\n"))


class Trial:
    """A call over a store: what is said and what stands there with memory."""

    def __init__(self, program, name, source, call):
        self.program, self.name, self.source, (words, self.data) = program, name, source, call
        self.words, self.known = [program, *words], []
        with folder() as room:
            copy_files(source, room)
            self.check(room)
            self.before = rows(room)
            copy_files(source, room)
            self.wanted = run(self.words, room, self.data)[:3]
            self.after = rows(room)
        assert self.wanted[0] in (0, 1) and not is_no_memory(self.wanted), (name, self.wanted)

    def check(self, room):
        """The counters are right, or there is no database yet; then one without commands is made."""
        database = Path(room, "portal.db")
        is_new = not database.exists() or database.stat().st_size == 0
        audit = run([self.program, *result("check")[0]], room)
        assert audit[:3] == ((3, b"", NO_DATABASE) if is_new else (0, b"ok\n", b"")), (self.name, audit)
        if is_new:
            words, data = NOTHING
            made = run([self.program, *words], room, data)
            assert made[0] == 1 and made[2] == b"", (self.name, made)

    def is_done(self, said):
        """Whether that is what is said with memory, perhaps with the error of the close after it."""
        return said[:2] == self.wanted[:2] and said[2] in (self.wanted[2], self.wanted[2] + NOT_CLOSED)

    def look(self, room, is_done, where):
        """What stands there is what the call makes of it, or what stood there, and then the call is made with memory. Files that are known
        are not looked at again."""
        left = (is_done, bytes_of(room))
        if left in self.known:
            return
        self.known.append(left)
        self.check(room)
        found = rows(room)
        if is_done:
            assert found == self.after, where
        else:
            assert found == self.before, where
            assert run(self.words, room, self.data)[:3] == self.wanted, where
            assert rows(room) == self.after, where

    def refuse(self, at):
        """Refuses the request for memory of that number. False where there were not so many."""
        with folder() as room:
            copy_files(self.source, room)
            *said, is_refused = run(self.words, room, self.data, at)
            said, where = tuple(said), (self.name, at)
            is_done = self.is_done(said)
            assert is_done or (is_refused and is_no_memory(said)), (where, said)
            if self.name in TWICE and not is_done:
                again = run(self.words, room, self.data, 1 + 7 * at % 5000)
                is_done = self.is_done(again[:3])
                assert is_done or (again[3] and is_no_memory(again[:3])), (where, again)
            self.look(room, is_done, where)
            return is_refused

    def count(self):
        """The number of requests for memory."""
        low, high = 1, 2
        with folder() as room:

            def is_refused(at):
                copy_files(self.source, room)
                return run(self.words, room, self.data, at)[3]

            while is_refused(high):
                low, high = high, 2 * high
            while high - low > 1:
                middle = (low + high) // 2
                low, high = (middle, high) if is_refused(middle) else (low, middle)
        return low


def stores(program, room):
    """Each store in a folder of its own."""
    for name, calls in STORES.items():
        place = os.path.join(room, name)
        os.mkdir(place)
        with open(os.path.join(place, "settings"), "w", encoding="utf-8") as file:
            file.write(SETTINGS)
        for words, data in calls:
            said = run([program, *words], place, data)
            assert said[0] == 0, (name, words, said)
    for name, case in OLD.items():
        make = next(step for step in read_case(CASES / case).steps if isinstance(step, Sql))
        with contextlib.closing(sqlite3.connect(os.path.join(room, name, "portal.db"))) as old:
            old.executescript(make.text)


def opening(program, place):
    """The requests for memory of an opening of the store, some too few."""
    return Trial(program, "no request", place, NOTHING).count() - 100


def refuse_each(program, name, place, call, start, step):
    """Refuses each request for memory of the call, or every so many of them. Answers how many it has."""
    trial, at = Trial(program, name, place, call), start
    while trial.refuse(at):
        at += step
    return at - step


def main():
    program, LIBRARY["path"] = sys.argv[1:3]
    step = FEWER if "--quick" in sys.argv else 1
    calls = [it for it in CALLS if "--one" not in sys.argv or it[2] is NOTHING]
    passed = failed = 0
    with folder() as room, concurrent.futures.ThreadPoolExecutor(os.cpu_count() or 2) as pool:
        stores(program, room)
        used = {store for _, store, _ in calls}
        first = dict(zip(used, pool.map(lambda name: opening(program, os.path.join(room, name)), used)))
        tasks = {}
        for name, store, call in calls:
            start, steps = (1, step) if name in WHOLE else (first[store], 1)
            tasks[pool.submit(refuse_each, program, name, os.path.join(room, store), call, start, steps)] = name, start
        for done in concurrent.futures.as_completed(tasks):
            name, start = tasks[done]
            try:
                print(f"memory: {name}: some {done.result()} requests for memory, refused from the one of number {start} on", flush=True)
                passed += 1
            except AssertionError as fault:
                print(f"memory: {name}: FAILED: {fault}", flush=True)
                failed += 1
    print(f"memory: {passed} passed, {failed} failed")
    return 1 if failed else 0


sys.exit(main())
