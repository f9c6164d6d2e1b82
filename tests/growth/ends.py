#!/usr/bin/env python3
"""What the end of an `answer` costs: the time from its start to the whole response, and from there to its
exit.

ends.py PROGRAM [VOUCHERS ..], with tests/outside and tests/cases in PYTHONPATH, makes a file with so many
vouchers, as growth.py does (1,000, 10,000 and 100,000 where none are named), and gives the medians of 30 runs
in milliseconds, for a captive state and for a sale. CI does not run it. Python's standard library alone."""

import statistics
import subprocess
import sys
import tempfile
import time
from pathlib import Path

from desk import DESK, codes_of, guest, request
from files import BATCH, make, size_of

RUNS = 30


def time_to_end(program, folder, now, data):
    """Milliseconds to the end of standard output, and from there to the exit."""
    words = [program, "answer", "--now", str(now), "--seed", "0" * 64]
    words += ["--db", "portal.db", "--settings", "settings.toml"]
    begun = time.perf_counter()
    with subprocess.Popen(words, cwd=folder, stdin=subprocess.PIPE, stdout=subprocess.PIPE) as answer:
        answer.stdin.write(data)
        answer.stdin.close()
        head = answer.stdout.readline()
        while not head.lower().startswith(b"content-length"):
            head = answer.stdout.readline()
        while answer.stdout.readline() != b"\r\n":
            pass
        answer.stdout.read(int(head.split(b":")[1]))
        answered = time.perf_counter()
        status = answer.wait()
    assert status == 0, status
    return 1000 * (answered - begun), 1000 * (time.perf_counter() - answered)


def measure(program, folder, size):
    desk, _ = make(program, size, folder)
    desk.start(patience=size.patience)
    codes, now = codes_of(desk, f"b{size.vouchers // BATCH}")[:RUNS], int(time.time())
    desk.kill()
    captive = [time_to_end(program, folder, now, request("GET", "/captive", guest(1))) for _ in range(RUNS)]
    asked = [request("POST", "/desk/sales", DESK, f'{{"code":"{code}"}}') for code in codes]
    sales = [time_to_end(program, folder, now, data) for data in asked]
    return [statistics.median(column) for runs in (captive, sales) for column in zip(*runs)]


def main():
    program = str(Path(sys.argv[1]).resolve())
    sizes = [size_of(word) for word in sys.argv[2:] or ("1000", "10000", "100000")]
    columns = []
    for size in sizes:
        with tempfile.TemporaryDirectory() as folder:
            columns.append(measure(program, folder, size))
    rows = ("captive state: to the response", "and then to the exit",
            "sale: to the response", "and then to the exit, with the copy")
    print("ms".ljust(36), *(f"{size.name:>10}" for size in sizes))
    for row, times in zip(rows, zip(*columns)):
        print(row.ljust(36), *(f"{time:>10.1f}" for time in times))


if __name__ == "__main__":
    main()
