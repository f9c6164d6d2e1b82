#!/usr/bin/env python3
"""The speed of the program beside a desk in C and one in Go (baselines/) that do the same work, request by
request.

beside.py PROGRAM [--rounds N] [--only KIND ..], with tests/outside and tests/cases in PYTHONPATH, starts all
of them, each over a new file, and sends a few requests to each, whose answers must agree. Then, over new
files, one client (load.c) sends each request to each of them in turn, with a connection for each. It prints,
for each kind, the tenth percentile of the program's times in microseconds (the median of the rounds), and how
many times as fast the program is as each of the others: the median of the rounds, with the least and the
greatest. Above 1 the program is faster. It is the tenth percentile, since a busy machine disturbs that least;
compare ratios, not times.

Needs gcc and libsqlite3-dev; for the desk in Go also golang-go and golang-github-mattn-go-sqlite3-dev (Debian
packages). Without these two it says so and goes on without Go. No part of ./test."""

import argparse
import collections
import contextlib
import json
import os
import shutil
import statistics
import subprocess
import sys
import tempfile
from pathlib import Path

from desk import DESK, GATEWAY, Desk, codes_of, guest

HERE = Path(__file__).resolve().parent
GO_PATH = "/usr/share/gocode"                  # where the package golang-github-mattn-go-sqlite3-dev is
PLANS = """[[plan]]
id = "year"
price = 300
uses = 1
seconds = 31000000
bytes = 0
shelf_days = 30
extend = true

[[plan]]
id = "gig"
price = 500
uses = 3
seconds = 0
bytes = 1073741824
shelf_days = 30
extend = false
"""
FEW, MANY = 200, 10000                                  # open sessions
# What load.c sends, how many a round, with how many open sessions. Redemptions are last: they open more.
KINDS = {
    "captive": ("captive", 4000, FEW), "report": ("report", 800, FEW), "list": ("sessions", 40, FEW),
    "issue of 1": ("issue", 400, FEW), "issue of 500": ("issue500", 10, FEW), "sale": ("sale", 800, FEW),
    "redeem": ("redeem", 800, FEW),
    "list at 10,000": ("sessions", 20, MANY), "report at 10,000": ("report", 800, MANY),
}


class Other(Desk):
    """One of the desks beside the program, which takes its arguments otherwise."""

    def words(self, *_):
        return [self.program, "portal.db", str(self.port), str(HERE / "baselines/schema.sql")]


def build(folder):
    """The load client and the desks that can be built here, by their names."""
    def compile_c(name, source, *more):
        subprocess.run(["gcc", "-O2", "-o", folder / name, source, *more], check=True)
        return str(folder / name)

    if not shutil.which("gcc"):
        sys.exit("beside: not installed: gcc")
    load = compile_c("load", HERE / "load.c")
    desks = {"C": compile_c("desk_c", HERE / "baselines/desk.c", "-lsqlite3")}
    if shutil.which("go") and os.path.isdir(f"{GO_PATH}/src/github.com/mattn/go-sqlite3"):
        words = ["go", "build", "-tags", "libsqlite3", "-o", folder / "desk_go", HERE / "baselines/desk.go"]
        go = {"GO111MODULE": "off", "GOPATH": GO_PATH, "CGO_ENABLED": "1", "GOCACHE": str(folder / "cache")}
        subprocess.run(words, check=True, env=os.environ | go)
        desks["Go"] = str(folder / "desk_go")
    else:
        print("without Go: not installed: golang-go, golang-github-mattn-go-sqlite3-dev")
    return load, desks


def answers_of(desk):
    """What the desk answers to the same few requests: status and body of each, without code and moments."""
    told = []

    def ask(method, path, field, body=""):
        status, text = desk.ask(method, path, field, json.dumps(body) if body else "")
        told.append((f"{method} {path}", status, text.partition(',"expires"')[0]))

    def report(number, used):
        ask("POST", "/gateway/reports", GATEWAY, {"session": number, "bytes": used})

    ask("GET", "/captive", guest(1))
    ask("GET", "/captive", "Portal-Device: none")
    ask("GET", "/gateway/sessions", DESK)
    for batch, plan, count in (("a", "gig", 2), ("a", "gig", 2), ("b", "nil", 2), ("b", "gig", 501)):
        ask("POST", "/desk/batches", DESK, {"batch": batch, "plan": plan, "count": count})
    code = codes_of(desk, "a")[0]
    for caller in (guest(1), DESK, DESK, guest(1), guest(1), guest(2)):
        ask("POST", "/desk/sales" if caller == DESK else "/portal/redeem", caller, {"code": code})
        ask("GET", "/captive", guest(1))
    ask("GET", "/gateway/sessions", GATEWAY)
    for number, used in ((1, 1073741823), (1, 1073741824), (1, 5), (2, 1073741824), (9, 5)):
        report(number, used)
        ask("GET", "/captive", guest(1))
    for device in (1, 2, 3):
        ask("POST", "/portal/redeem", guest(device), {"code": code})
    ask("GET", "/no/such", DESK)
    return [(what, status, text.replace(code, "CODE")) for what, status, text in told]


@contextlib.contextmanager
def started(programs):
    """The desks by name, each over a new file with the plans."""
    with tempfile.TemporaryDirectory() as room:
        desks = {}
        try:
            for name, program in programs.items():
                folder = Path(room, name)
                folder.mkdir()
                desks[name] = (Desk if name == "program" else Other)(program, str(folder))
                desks[name].start()
                desks[name].answer_to("POST", "/desk/plans", DESK, PLANS)
            yield desks
        finally:
            for desk in desks.values():
                desk.kill()


def agree(desks):
    told = {name: answers_of(desk) for name, desk in desks.items()}
    for name, answers in told.items():
        for mine, other in zip(told["program"], answers, strict=True):
            assert mine == other, (name, mine, other)
    print(f"{len(told['program'])} requests, each answered alike")


class Bench:
    """The desks, each with the file of its codes, and how far each kind has come."""

    def __init__(self, load, desks):
        self.load, self.desks, self.opened = load, desks, 0
        self.ports = ",".join(str(desk.port) for desk in desks.values())
        self.files = ",".join(os.path.join(desk.folder, "codes") for desk in desks.values())
        self.next = collections.Counter({"issue": 1 << 30, "issue500": 1 << 31})

    def send(self, kind, count, first, *last):
        """The numbers of each desk for so many requests, sent to them in turn."""
        words = [self.load, self.ports, kind, str(count), str(first), *map(str, last)]
        done = subprocess.run(words, stdout=subprocess.PIPE, text=True, check=False)
        assert done.returncode == 0, (words, done.stdout)
        return dict(zip(self.desks, map(json.loads, done.stdout.splitlines()), strict=True))

    def go_on(self, kind, count):
        """The next requests of a kind. Half of the devices that ask for their state have a session."""
        first, self.next[kind] = self.next[kind], self.next[kind] + count
        files = [self.files] if kind in ("sale", "redeem") else []
        last = {"captive": [2 * self.opened], "report": [self.opened]}
        return self.send(kind, count, first, *last.get(kind, files))

    def issue(self, codes):
        batches = -(-codes // 500)
        self.send("issue500", batches, 0)
        self.send("print", batches, 0, self.files)

    def open(self, count):
        """Sells and redeems until so many sessions are open."""
        more = count - self.next["redeem"]
        if self.next["sale"] < count:
            self.go_on("sale", count - self.next["sale"])
        if more > 0:
            self.go_on("redeem", more)
        self.opened = count


def measure(bench, kinds, rounds):
    """For each kind and desk the tenth percentile of each round."""
    found = {kind: {name: [] for name in bench.desks} for kind in kinds}
    for many in (FEW, MANY):
        chosen = {kind: how for kind, how in KINDS.items() if kind in kinds and how[2] == many}
        if chosen:
            bench.open(many)
            bench.go_on("sessions", 1)      # as a gateway does each second
        for kind, (sent, count, _) in chosen.items():
            for _ in range(rounds):
                if kind == "redeem" and bench.next["sale"] < bench.next["redeem"] + count:
                    bench.go_on("sale", count)
                for name, numbers in bench.go_on(sent, count).items():
                    found[kind][name].append(numbers["p10"])
    return found


def print_ratios(found, others):
    print("kind".ljust(18), "program, us", *(f"of {name}'s speed".rjust(26) for name in others))
    for kind, times in found.items():
        cells = []
        for name in others:
            ratios = sorted(other / mine for mine, other in zip(times["program"], times[name]))
            cells.append(f"{statistics.median(ratios):.2f} ({ratios[0]:.2f} to {ratios[-1]:.2f})".rjust(26))
        print(kind.ljust(18), f"{statistics.median(times['program']):>11.0f}", *cells)


def main():
    words = argparse.ArgumentParser(description=__doc__, formatter_class=argparse.RawDescriptionHelpFormatter)
    words.add_argument("program", type=Path)
    words.add_argument("--rounds", type=int, default=5)
    words.add_argument("--only", nargs="+", choices=KINDS, default=list(KINDS), metavar="KIND")
    args = words.parse_intermixed_args()
    with tempfile.TemporaryDirectory() as folder:
        load, others = build(Path(folder))
        programs = {"program": str(args.program.resolve()), **others}
        with started(programs) as desks:
            agree(desks)
        with started(programs) as desks:
            bench = Bench(load, desks)
            bench.issue(MANY + 2 * args.rounds * KINDS["redeem"][1])
            found = measure(bench, args.only, args.rounds)
    print_ratios(found, list(others))
    print(f"load {os.getloadavg()[0]:.0f}")


if __name__ == "__main__":
    main()
