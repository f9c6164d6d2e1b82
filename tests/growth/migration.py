#!/usr/bin/env -S python3 -B
"""What a migration from an older schema version takes: time, memory and room.

migration.py PROGRAM [SIZE ..] [--versions VERSION ..] [--folder FOLDER], with tests/outside, tests/cases and field/test in
PYTHONPATH, makes a file of each size (see files.py; 10000, 100000 and hostel where none are named) in FOLDER, gives a copy
of it the tables of each version (4 and 5 where none are named), and has `portal check` open that twice: the first time it
is migrated. It is no part of the gate. Python's standard library alone."""

import argparse
import contextlib
import os
import shutil
import sqlite3
import subprocess
import tempfile
import threading
import time
from pathlib import Path

from desk import Desk
from files import make, size_of
from schema_versions import take_back


def size_together(path):
    """The bytes of a database and its log."""
    return sum(file.stat().st_size for file in (path, Path(f"{path}-wal")) if file.exists())


def check(desk, path):
    """Seconds of the processor and by the clock, the most memory, and the most of file and log together, of an opening."""
    most, over = [0], threading.Event()

    def look():
        while not over.wait(0.01):
            most[0] = max(most[0], size_together(path))

    looker = threading.Thread(target=look)
    looker.start()
    begun, job = time.perf_counter(), subprocess.Popen(desk.words("check"), cwd=desk.folder, stdout=subprocess.PIPE)
    said = job.stdout.read()
    _, status, used = os.wait4(job.pid, 0)
    clock = time.perf_counter() - begun
    over.set()
    looker.join()
    assert (status, said) == (0, b"ok\n"), (status, said)
    return used.ru_utime + used.ru_stime, clock, used.ru_maxrss << 10, most[0]


def checkpoint(path):
    with contextlib.closing(sqlite3.connect(path)) as base:
        base.execute("PRAGMA wal_checkpoint(TRUNCATE)")


def measure(desk, size, version):
    """Has a file of an older version opened twice, and prints a line for each time."""
    path = Path(desk.folder, "portal.db")
    take_back(path, version)
    checkpoint(path)                                    # (the log of what made it is no part of it)
    for words in ("with a migration", "without"):
        before = path.stat().st_size / 1e6
        processor, clock, memory, most = check(desk, path)
        print(f"{size.name:>9}  {version:>7}  {words:<16} {processor:>8.2f} s {clock:>7.2f} s {memory / 1e6:>5.0f} MB {before:>9.1f} MB"
              f" {path.stat().st_size / 1e6:>6.1f} MB {most / 1e6:>6.1f} MB {os.getloadavg()[0]:>5.0f}", flush=True)


def main():
    words = argparse.ArgumentParser(description=__doc__, formatter_class=argparse.RawDescriptionHelpFormatter)
    words.add_argument("program", type=Path)
    words.add_argument("sizes", nargs="*", default=["10000", "100000", "hostel"], metavar="SIZE")
    words.add_argument("--versions", nargs="+", type=int, choices=(4, 5), default=[4, 5], metavar="VERSION")
    words.add_argument("--folder", help="for the files: a folder on a disk with room")
    args = words.parse_intermixed_args()
    print(f"{'':>9}  version  {'opening':<16} {'processor':>10} {'clock':>9} {'memory':>8} {'file before':>12} {'after':>9}"
          f" {'with log':>9}  load")
    for size in map(size_of, args.sizes):
        with tempfile.TemporaryDirectory(dir=args.folder) as folder:
            desk, _ = make(str(args.program.resolve()), size, folder)
            checkpoint(Path(folder, "portal.db"))
            for version in args.versions:
                with tempfile.TemporaryDirectory(dir=args.folder) as copy:
                    shutil.copy(Path(folder, "portal.db"), copy)
                    measure(Desk(desk.program, copy), size, version)


if __name__ == "__main__":
    main()
