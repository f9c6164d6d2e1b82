#!/usr/bin/python3
"""Measures the kit; root for all but `sessions` and `copies`. The machine's load stands beside each number.

    measure.py all|NAME [--portal "CMD .."] [--rounds N] [--sessions N] [--seconds N]

first       a form sent: to its answer, and to the first packet's answer from outside; and a program's JSON
agent       the agent's processor time with N open sessions (200), at rest and each with packets every second
crowd       N open sessions (1,000) on a time plan, and then on a byte plan, that all pass packets for 300 s: the longest
            time for which another guest's packets did not pass, and the agent's processor time
written     bytes that the desk writes a day for N open sessions (200) on a time plan; six hours of a faster clock
shut        the gate after a kill of the agent and of the desk, a desk held still, one that stopped, flushed rules
late        bytes beyond a session's limit until nothing passes any more
offload     bytes counted against the guest's device, with merged packets (offloading) off and on
sessions    GET /gateway/sessions with 200 open among N (100,000), at 10 questions a round
lookup      GET /captive through nginx, which asks the pages' helper for the device: 500 times, alone and beside 4,500 connections
            that say nothing
lookups     the same question of many connections at once, for 10 s each
memory      private memory of each part of the kit at rest
sheet       the counter's page with 500 vouchers and their pictures, through nginx
copies      copies of the book while the desk sells: how long it is held still, and what a sale waits
"""

from __future__ import annotations

import argparse
import json
import os
import pathlib
import signal
import statistics
import subprocess
import threading
import time
from collections.abc import Callable

from crowd import NO_LEASES, OPEN, bind, crowd, processor_seconds, written
from desk_process import DeskProcess, Routes
from lab import PEER, Lab
from lookups import SECONDS
from network import COUNTER, FIELD, LOOKUPS, NAME, OUTSIDE, PYTHON, SERVICES, STAND_IN

MANY = "[[plan]]\nid = '{}'\nprice = 0\nuses = 100000\nseconds = {}\nbytes = 0\nshelf_days = 9\nextend = true\n"


def print_figures(what: str, numbers: list[float], unit: str = "ms") -> None:
    print(f"{what}: median {statistics.median(numbers):.1f} {unit}, {min(numbers):.1f} to {max(numbers):.1f}, "
          f"{len(numbers)} times, load {os.getloadavg()[0]:.0f}", flush=True)


def mac(number: int) -> str:
    return "02:" + ":".join(f"{byte:02x}" for byte in number.to_bytes(5, "big"))


def first(args: argparse.Namespace) -> None:
    with Lab(args.portal) as lab:
        lab.start_services()
        lab.lease("guest1")
        codes = lab.codes("hour", 2 * args.rounds)
        for way in ("form", "json"):
            answers, packets = [], []
            for i in range(args.rounds):
                number, code, watch = lab.number("guest1"), codes.pop(), lab.first("guest1", 5)
                time.sleep(0.25 + 0.07 * (i % 9))       # at another moment of the poll each time
                start = time.time()
                if way == "form":
                    lab.send_form("guest1", code, number)
                else:
                    lab.curl("guest1", f"https://{NAME}/portal/redeem", "-d", json.dumps({"code": code}))
                answers.append((time.time() - start) * 1e3)
                packets.append((float(watch.communicate()[0]) - start) * 1e3)
                lab.send_as_clerk("close", session=lab.session_of("guest1"))
                lab.until(lambda: not lab.reaches("guest1", 0.1), 5, "the close")
                time.sleep(4.5)     # the front end's limit of tries a minute
            print_figures(f"{way}: to the answer", answers)
            print_figures(f"{way}: to the first packet's answer", packets)


def agent(args: argparse.Namespace) -> None:
    """Each session's packets are one a second, from a device of its own; reports come by themselves."""
    seconds, many = 30, args.sessions or OPEN
    with Lab(args.portal) as lab:
        with open(lab.root / "etc/portal/plans.toml", "a") as plans:
            plans.write(MANY.format("many", 86400))
        lab.start_services()
        lab.lease("guest1")
        code, = lab.codes("many", 1)
        for i in range(many):
            words = ("-H", "Portal-Device: " + mac(i), "-d", json.dumps({"code": code}))
            lab.ask_desk(None, "POST", "/portal/redeem", *words)
        for what in ("at rest", "each with a packet a second"):
            if what != "at rest":
                hard = lab.within("gw", "cat", "/sys/class/net/lan0/address").stdout.strip()
                bind(lab, many, NO_LEASES)
                lab.start("many", PYTHON, PEER, "many", OUTSIDE, hard, many, NO_LEASES, space="guest1")
            lab.until(lambda: len(lab.gateway_list()) == many, 60, "the first reports")
            time.sleep(3)
            jobs = {name: lab.jobs[name].pid for name in ("gateway", "desk")}
            before, out = {name: processor_seconds(pid) for name, pid in jobs.items()}, lab.packets_outside()
            time.sleep(seconds)
            used = {name: 100 * (processor_seconds(pid) - before[name]) / seconds for name, pid in jobs.items()}
            print(f"{many} sessions {what}: agent {used['gateway']:.2f} % of one core, desk {used['desk']:.2f} %, "
                  f"{(lab.packets_outside() - out) / seconds:.0f} packets a second came out; {seconds} s, "
                  f"load {os.getloadavg()[0]:.0f}", flush=True)


def shut(args: argparse.Namespace) -> None:
    with Lab(args.portal) as lab:
        lab.start_services()
        lab.lease("guest1")

        def stop_desk() -> None:
            lab.stop("desk")
            lab.start("stopped", PYTHON, PEER, "stopped")

        def desk_back() -> None:
            lab.stop("stopped")
            lab.desk()

        def flush() -> None:
            """On a network where guests' packets would find their way back untranslated."""
            lab.within("outside", "ip", "route", "replace", "10.77.0.0/22", "via", "203.0.113.1")
            lab.within("gw", "nft", "flush", "ruleset")

        cases: tuple[tuple[str, Callable[[], object], Callable[[], object]], ...] = (
            ("the agent killed", lambda: lab.stop("gateway", kill=True), lambda: lab.service("gateway")),
            ("the desk killed", lambda: lab.stop("desk", kill=True), lab.desk),
            ("the desk held still", lambda: os.kill(lab.jobs["desk"].pid, signal.SIGSTOP),
             lambda: os.kill(lab.jobs["desk"].pid, signal.SIGCONT)),
            ("a desk that says stopped", stop_desk, desk_back),
            ("rules flushed", flush, lab.rules))
        for what, harm, mend in cases:
            times = []
            for i in range(args.rounds):
                lab.online("guest1")
                time.sleep(0.3 + 0.17 * (i % 6))        # at another moment of the poll each time
                start = time.time()
                harm()
                took = lab.shut_after("guest1", 12)
                times.append((time.time() - start) if took is not None else 99.0)
                mend()
                lab.until(lambda: lab.reaches("guest1"), 10, "packets")
            print_figures(f"shut after {what}", times, "s")


def settled_bytes(lab: Lab, session: int) -> int:
    """What the desk holds for a session that has ended, once it grows no more."""
    before = -1
    while before != (now := lab.desk_bytes(session)):
        before = now
        time.sleep(1.5)
    return before


def late(args: argparse.Namespace) -> None:
    limit = 3_000_000
    with Lab(args.portal) as lab:
        lab.start_services()
        lab.lease("guest1")
        codes, over, seconds = lab.codes("small", args.rounds), [], []
        for code in codes:
            lab.redeem("guest1", code)
            session = lab.session_of("guest1") or 0
            arrivals = [float(word) for word in lab.stream("guest1", 8).communicate()[0].split()]
            rate = 1000 * (len(arrivals) - 1) / (arrivals[-1] - arrivals[0])
            count = settled_bytes(lab, session)
            over.append((count - limit) / 1e3)
            seconds.append((count - limit) / rate)
            time.sleep(5)
        print_figures(f"a session of {limit} bytes at some {rate * 8 / 1e6:.0f} Mbit/s: more than its limit", over, "kB")
        print_figures("the same in seconds of that stream", seconds, "s")


def offload(args: argparse.Namespace) -> None:
    for on in (False, True):
        with Lab(args.portal, offload=on) as lab:
            lab.start_services()
            lab.lease("guest1")
            lab.online("guest1")
            lab.neighbours("permanent")
            for verb, way in (("take", "sends"), ("send", "gets")):
                counts, devices = [], []
                for _ in range(args.rounds):
                    before, frames = lab.gateway_bytes("guest1"), lab.frames("guest1")
                    lab.tcp("guest1", verb, 40_000_000)
                    time.sleep(0.5)
                    devices.append(lab.frames("guest1") - frames)
                    counts.append(lab.gateway_bytes("guest1") - before)
                off = [count - device for count, device in zip(counts, devices)]
                more = [count / 4e5 - 100 for count in counts]
                print(f"offloading {'on' if on else 'off'}, guest {way} 40,000,000 bytes {args.rounds} times: gateway "
                      f"payload + {min(more):.2f} to {max(more):.2f} %, more than the device by {off} bytes, "
                      f"load {os.getloadavg()[0]:.0f}", flush=True)


def sessions(args: argparse.Namespace) -> None:
    many = args.sessions or 100_000
    with DeskProcess(portal=args.portal) as desk:
        desk.desk.request_json(Routes.PLANS, body=(MANY.format("brief", 1) + MANY.format("long", 86400)).encode())
        brief, long = desk.sell_codes("brief", "b1")[0], desk.sell_codes("long", "b2")[0]
        start = time.monotonic()
        for i in range(many):
            code = long if i % (many // OPEN) == 0 else brief
            desk.desk.request_json(Routes.REDEEM, body={"code": code}, device=mac(i))
        print(f"{many} redemptions, one after another, in {time.monotonic() - start:.0f} s")
        time.sleep(2)
        times, rows, before, rounds = [], 0, processor_seconds(desk.job.pid), args.rounds * 10
        for _ in range(rounds):
            start = time.perf_counter()
            rows = len(desk.gateway.request_json(Routes.SESSIONS)["sessions"])
            times.append((time.perf_counter() - start) * 1e3)
        used = (processor_seconds(desk.job.pid) - before) / rounds * 1e3
        print_figures(f"GET /gateway/sessions, {rows} open among {many}", times)
        print(f"of the desk's processor {used:.1f} ms each")


def copies(args: argparse.Namespace) -> None:
    many = args.sessions or 20_000
    with DeskProcess(portal=args.portal) as desk:
        desk.load()
        for i in range(many // 500):
            desk.issue_codes("hour", f"book-{i}", 500)
        waits: list[float] = []
        stop = threading.Event()

        def sells() -> None:
            while not stop.is_set():
                start = time.perf_counter()
                desk.desk.request_json(Routes.ISSUE, body={"batch": f"b{len(waits)}", "plan": "hour", "count": 1})
                waits.append((time.perf_counter() - start) * 1e3)

        worker = threading.Thread(target=sells)
        worker.start()
        time.sleep(2)
        calm, wholes, longest = list(waits), [], []
        words = [PYTHON, str(FIELD / "portal-backup"), "--pid", str(desk.job.pid), "--portal", args.portal,
                 "--check", str(desk.settings), str(desk.book), str(desk.folder / "copies")]
        try:
            for _ in range(args.rounds):
                count, start = len(waits), time.perf_counter()
                subprocess.run(words, check=True, capture_output=True)
                wholes.append((time.perf_counter() - start) * 1e3)
                time.sleep(0.3)
                longest.append(max(waits[count:]))
        finally:
            stop.set()
            worker.join()
        size = sum(path.stat().st_size for path in desk.folder.glob("book.db*")) / 1e6
        print_figures("a batch of one code, no copy being made", calm)
        print_figures(f"a copy of a book of {many} vouchers ({size:.0f} MB), made and checked", wholes)
        print_figures("the longest wait of a batch of one code meanwhile", longest)


def lookup(args: argparse.Namespace) -> None:
    many, words = args.sessions or 4500, (PYTHON, FIELD / "test/lookups.py")
    with Lab(args.portal) as lab:
        lab.limitless(2 * many)
        lab.start_services()
        for guest in ("guest1", "guest2"):
            lab.lease(guest)
        authority = lab.root / "ca.pem"

        def times(what: str) -> None:
            lines: list[float] = []
            before = sum(map(processor_seconds, helpers(lab)))
            for _ in range(args.rounds):
                lines += map(float, lab.within("guest1", *words, "ask", authority, 500).stdout.split())
            lines.sort()
            took = (sum(map(processor_seconds, helpers(lab))) - before) / len(lines) * 1e3
            print_figures(what, lines)
            print(f"95 of 100 within {lines[len(lines) * 95 // 100]:.2f} ms; median {statistics.median(lines):.3f} ms; "
                  f"the helper's processor {took:.2f} ms each", flush=True)

        times("GET /captive")
        job = lab.begin("guest2", *words, "idle", authority, many, feed=True)
        assert job.stdout and job.stdin
        job.stdout.readline()
        times(f"GET /captive beside {many} connections that say nothing")
        job.stdin.close()
        job.wait()


def helpers(lab: Lab) -> list[int]:
    """The processes that name to nginx the device of an address."""
    return [lab.jobs[name].pid for name in LOOKUPS]


def lookups(args: argparse.Namespace) -> None:
    with Lab(args.portal) as lab:
        lab.limitless(2048)
        lab.start_services()
        lab.lease("guest1")
        for count in (4, 32, 128):
            before = sum(map(processor_seconds, helpers(lab)))
            lines = [float(line) for line in lab.within("guest1", PYTHON, FIELD / "test/lookups.py", "many", lab.root / "ca.pem",
                                                        count).stdout.split()]
            took = (sum(map(processor_seconds, helpers(lab))) - before) / len(lines) * 1e3
            print(f"GET /captive over {count} connections at once: {len(lines) / SECONDS:.0f} a second, median "
                  f"{statistics.median(lines):.1f} ms, 99 of 100 within {lines[len(lines) * 99 // 100]:.1f} ms; the helpers' "
                  f"processor {took:.2f} ms each, load {os.getloadavg()[0]:.0f}", flush=True)


def private(pid: int) -> float:
    """The megabytes of memory that a process shares with no other."""
    lines = pathlib.Path(f"/proc/{pid}/smaps_rollup").read_text().splitlines()
    return sum(int(line.split()[1]) for line in lines if line.startswith("Private_")) / 1e3


def memory(args: argparse.Namespace) -> None:
    with Lab(args.portal) as lab:
        lab.start_services()
        lab.lease("guest1")
        for _ in range(args.rounds):
            lab.captive("guest1")
        time.sleep(10)
        parts = {name: private(job.pid) for name, job in lab.jobs.items() if name in SERVICES}
        print("private memory at rest: " + ", ".join(f"{name} {size:.1f}" for name, size in parts.items())
              + f"; in all {sum(parts.values()):.1f} MB", flush=True)


def sheet(args: argparse.Namespace) -> None:
    with Lab(args.portal) as lab:
        lab.start_services()
        lab.send_as_clerk("issue", plan="hour", batch="b500", count=500)
        waits, before = [], processor_seconds(lab.jobs["counter"].pid)
        for _ in range(args.rounds):
            start = time.perf_counter()
            status, body, _ = lab.curl("clerk", f"https://{COUNTER}/sheet?batch=b500", *lab.as_clerk())
            waits.append((time.perf_counter() - start) * 1e3)
            assert (status, body.count("<svg")) == (200, 500), status
        print_figures("a sheet of 500 vouchers", waits)
        took = (processor_seconds(lab.jobs["counter"].pid) - before) / args.rounds
        print(f"the page's processor {took:.2f} s each", flush=True)


MEASURES = {work.__name__: work for work in (first, agent, crowd, written, shut, late, offload, sessions, lookup, lookups,
                                             memory, sheet, copies)}


def main() -> None:
    words = argparse.ArgumentParser(description="Measures the kit.")
    words.add_argument("what", choices=("all", *MEASURES))
    words.add_argument("--portal", default=STAND_IN, help="the program, as a command line; else the stand-in")
    words.add_argument("--rounds", type=int, default=12)
    words.add_argument("--sessions", type=int, default=0, help="else what the measure says in brackets")
    words.add_argument("--seconds", type=float, default=300.0, help="how long the crowd passes packets")
    words.add_argument("--changed", type=json.loads, default={}, help="other lines of field.toml for `written`, as JSON")
    args = words.parse_args()
    if args.portal == STAND_IN:
        print("the desk is the stand-in for tests, not the program")
    for name in MEASURES if args.what == "all" else (args.what,):
        MEASURES[name](args)


if __name__ == "__main__":
    main()
