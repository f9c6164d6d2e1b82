"""How the time of each route grows with the store, and the plan that sqlite3 has for each SQL text.

growth.py PROGRAM [SIZE ..] [--keep FOLDER], with tests/outside and tests/cases in PYTHONPATH, makes a file of
each size (see files.py: a number of vouchers, or `hostel`; 1,000, 10,000, 100,000, 1,000,000 and hostel where
none is named), starts the program over it, and prints the time of each route in milliseconds, over HTTP with
a connection for each request: the tenth percentile, which a busy machine disturbs least. The start is in
milliseconds of the processor until it listens, and by the clock; the memory is what the process has for
itself then (Private_Clean and Private_Dirty). After them stands the plan of each SQL text. --keep FOLDER
leaves each file as FOLDER/SIZE. Up to 1,000,000 vouchers it takes some 20 minutes and 1 GB of disk. No part
of ./test. Python's standard library alone."""

import argparse
import contextlib
import json
import os
import re
import shutil
import sqlite3
import tempfile
import time
from pathlib import Path

from desk import DESK, GATEWAY, codes_of, guest
from files import BATCH, YEAR, device_of, make, size_of

CRATES = Path(__file__).resolve().parents[2] / "crates"
SIZES = ["1000", "10000", "100000", "1000000", "hostel"]
TRIES = 15
TEXT = re.compile(r'"((?:SELECT|INSERT|UPDATE|DELETE) [^"]*)"')
CONTINUED = re.compile(r"\\\n\s*")                       # a text that goes on in the next line


def time_of(act):
    """Milliseconds."""
    begun = time.perf_counter()
    act()
    return 1000 * (time.perf_counter() - begun)


def best(act, tries=TRIES):
    """The tenth percentile."""
    return sorted(time_of(act) for _ in range(tries))[tries // 10]


def day(moment):
    return time.strftime("%Y-%m-%d", time.gmtime(moment))


def measure(desk, now, last, codes):
    """The time of the first list after a start, and then of each route."""
    codes = iter(codes)
    fresh, turn = [], iter(range(1, 1 << 16))

    def request(method, path, field, body=""):
        return lambda: desk.answer_to(method, path, field, body)

    def sell():
        fresh.append(next(codes))
        desk.answer_to("POST", "/desk/sales", DESK, json.dumps({"code": fresh[-1]}))

    def redeem():
        desk.answer_to("POST", "/portal/redeem", guest(next(turn)), json.dumps({"code": fresh.pop()}))

    def report():
        body = json.dumps({"session": last, "bytes": next(turn)})
        desk.answer_to("POST", "/gateway/reports", GATEWAY, body)

    times = {"first list": time_of(request("GET", "/gateway/sessions", GATEWAY))}
    first = codes_of(desk, "b0")[0]
    times["captive"] = best(request("GET", "/captive", f"Portal-Device: {device_of(last)}"))
    times["voucher"] = best(request("GET", f"/desk/vouchers/{first}", DESK))
    times["sale"], times["redeem"], times["report"] = best(sell), best(redeem), best(report)
    times["sessions"] = best(request("GET", "/gateway/sessions", GATEWAY))
    times["print"] = best(request("GET", "/desk/batches/b0/print", DESK))
    times["batches"] = best(request("GET", "/desk/batches", DESK))
    times["batch"] = best(request("GET", "/desk/batches/b0", DESK))
    times["first characters"] = best(request("GET", f"/desk/vouchers?prefix={first[:4]}", DESK))
    times["redemptions"] = best(request("GET", f"/desk/vouchers/{first}/redemptions", DESK))
    times["day"] = best(request("GET", f"/desk/takings?from={day(now)}&to={day(now)}", DESK), 5)
    times["year"] = best(request("GET", f"/desk/takings?from={day(now - YEAR)}&to={day(now)}", DESK), 5)
    return times


def state_of(process):
    """Milliseconds of the processor so far, and megabytes of memory that the process has for itself."""
    fields = Path(f"/proc/{process.pid}/stat").read_text(encoding="utf-8").rpartition(") ")[2].split()
    lines = Path(f"/proc/{process.pid}/smaps_rollup").read_text(encoding="utf-8").splitlines()
    private = sum(int(line.split()[1]) for line in lines if line.startswith("Private_"))
    return 1000 * (int(fields[11]) + int(fields[12])) / os.sysconf("SC_CLK_TCK"), private / 1024


def grow(program, size, folder):
    """A file of that size in the folder: what the start and each route cost."""
    desk, last = make(program, size, folder)
    length = os.path.getsize(os.path.join(folder, "portal.db"))
    found = {"start, clock": time_of(lambda: desk.start(patience=size.patience))}
    found["start, processor"], found["memory, MB"] = state_of(desk.process)
    found["file, MB"] = length / 1e6
    try:
        found.update(measure(desk, int(time.time()), last, codes_of(desk, f"b{size.vouchers // BATCH}")))
    finally:
        desk.kill()
    return found


def plans(path):
    """Each text of the crates with the plan that sqlite3 has for it."""
    sources = [source for source in CRATES.glob("portal_*/src/**/*.rt") if "_tests" not in str(source)]
    codes = (CONTINUED.sub("", source.read_text(encoding="utf-8")) for source in sources)
    texts = {text for code in codes for text in TEXT.findall(code)}
    with contextlib.closing(sqlite3.connect(path)) as store:
        for text in sorted(texts):
            try:
                bound = re.sub(r"\?\d+", "1", text)
                steps = [row[3] for row in store.execute(f"EXPLAIN QUERY PLAN {bound}")]
            except sqlite3.Error as fault:
                steps = [f"({fault})"]
            yield text, "; ".join(steps) or "one row"


def main():
    words = argparse.ArgumentParser(description=__doc__, formatter_class=argparse.RawDescriptionHelpFormatter)
    words.add_argument("program", type=Path)
    words.add_argument("sizes", nargs="*", default=SIZES, metavar="SIZE")
    words.add_argument("--keep", type=Path, metavar="FOLDER")
    args = words.parse_intermixed_args()
    sizes, table = [size_of(word) for word in args.sizes], []
    with tempfile.TemporaryDirectory() as room:
        for size, word in zip(sizes, args.sizes):
            folder = Path(args.keep or room, word)
            folder.mkdir(parents=True)
            table.append(grow(str(args.program.resolve()), size, str(folder)))
            if folder != Path(room, args.sizes[0]) and not args.keep:
                shutil.rmtree(folder)
        print("ms".ljust(17), *(f"{size.name:>10}" for size in sizes))
        for route in table[0]:
            print(route.ljust(17), *(f"{times[route]:>10.1f}" for times in table))
        for text, plan in plans(Path(args.keep or room, args.sizes[0], "portal.db")):
            print(f"{text[:100]}\n    {plan}")
    print(f"load {os.getloadavg()[0]:.0f}")


if __name__ == "__main__":
    main()
