#!/usr/bin/env python3
"""What a start takes in two programs, in turns: after a clean end, and after a kill.

starts.py BEFORE NOW [SIZE ..] [--rounds N] [--folder FOLDER], with tests/outside and tests/cases in PYTHONPATH,
makes a file of each size with BEFORE (see files.py; hostel where none is named), gives each program a copy,
which it migrates where it must, and starts them N times (3) in turns: over that copy, and over one to which it
was killed after 60 sales and redemptions with keys. It prints the processor's seconds until each listens, and
the memory that it has for itself then (see growth.py), and last the ratio of the medians. No part of ./test.
Python's standard library alone."""

import argparse
import json
import os
import shutil
import statistics
import tempfile
from pathlib import Path

from desk import DESK, Desk, codes_of, guest
from files import BATCH, make, size_of
from growth import state_of

SALES = 60


def copied(source, target):
    """A folder with the files of another one."""
    shutil.rmtree(target, ignore_errors=True)
    shutil.copytree(source, target)
    return str(target)


def start(program, folder, size):
    """The desk, and what its start took: seconds of the processor, and megabytes."""
    desk = Desk(program, folder)
    desk.start(patience=20 * size.patience)
    processor, memory = state_of(desk.process)
    return desk, (processor / 1000, memory)


def make_folders(program, made, room, size):
    """The program's own copy of a file, after a clean end and after a kill."""
    clean, killed = Path(room, "clean"), Path(room, "killed")
    audit = Desk(program, copied(made, clean)).run("check", patience=20 * size.patience)
    assert (audit.returncode, audit.stdout) == (0, "ok\n"), audit
    desk, _ = start(program, copied(clean, killed), size)
    for number, code in enumerate(codes_of(desk, f"b{size.vouchers // BATCH}")[:SALES]):
        body = json.dumps({"code": code})
        desk.answer_to("POST", "/desk/sales", DESK, body, number=f"s{number}")
        desk.answer_to("POST", "/portal/redeem", guest(number), body, number=f"r{number}")
    desk.kill()
    return {"clean end": clean, "kill": killed}


def measure(programs, size, rounds, room):
    """Starts both programs in turns, and prints each start and the ratios."""
    Path(room, "made").mkdir()
    make(programs[0], size, Path(room, "made"))
    folders = [make_folders(program, Path(room, "made"), Path(room, str(at)), size)
               for at, program in enumerate(programs)]
    for end in ("clean end", "kill"):
        found = [[], []]
        for _ in range(rounds):
            for at, program in enumerate(programs):
                desk, figures = start(program, copied(folders[at][end], Path(room, "work")), size)
                desk.kill()
                found[at].append(figures)
                print(f"{size.name:>9}  after a {end:<9}  {('before', 'now')[at]:<6} {figures[0]:>7.2f} s"
                      f" {figures[1]:>6.1f} MB  load {os.getloadavg()[0]:.0f}", flush=True)
        ratios = [statistics.median(now) / max(statistics.median(before), 0.01)
                  for before, now in zip(*(zip(*figures) for figures in found))]
        print(f"{size.name:>9}  after a {end:<9}  now to before: processor {ratios[0]:.3f},"
              f" memory {ratios[1]:.3f}", flush=True)


def main():
    words = argparse.ArgumentParser(description=__doc__, formatter_class=argparse.RawDescriptionHelpFormatter)
    words.add_argument("before", type=Path)
    words.add_argument("now", type=Path)
    words.add_argument("sizes", nargs="*", default=["hostel"], metavar="SIZE")
    words.add_argument("--rounds", type=int, default=3, metavar="N")
    words.add_argument("--folder", help="for the files: a folder on a disk with room")
    args = words.parse_intermixed_args()
    for size in map(size_of, args.sizes):
        with tempfile.TemporaryDirectory(dir=args.folder) as room:
            measure([str(args.before.resolve()), str(args.now.resolve())], size, args.rounds, room)


if __name__ == "__main__":
    main()
