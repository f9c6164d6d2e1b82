#!/usr/bin/python3
"""Measures the RADIUS part on loopback; the machine's load stands beside each figure.

    radius_measure.py [--portal "CMD .."] [--count N] [logins|crowd|ends|rest ..]

`crowd`: two venues in one run, one with 100 sessions open and one with so many more; they take turns.
"""

from __future__ import annotations

import argparse
import os
import pathlib
import statistics
import time
from collections.abc import Callable, Iterable
from concurrent import futures
from typing import TypeVar

from scripted_nas import ACCEPT, DISCONNECT
from venue_lab import PLANS, STAND_IN, Venue, plan

from portal_field.lib.desk_client import Routes

Item = TypeVar("Item")
ALL_PLANS = (*PLANS, plan("day", seconds=86_400), plan("crowd", uses=100_000, seconds=86_400))
AT_ONCE = 8
FEW, MANY, TURNS, EACH = 100, 10_000, 7, 150    # open sessions of the two venues; turns of so many logins each


def print_figures(what: str, figure: str) -> None:
    print(f"{what}: {figure}, load {os.getloadavg()[0]:.0f}", flush=True)


def for_each(items: Iterable[Item], call: Callable[[Item], object]) -> None:
    """AT_ONCE at a time."""
    with futures.ThreadPoolExecutor(AT_ONCE) as pool:
        list(pool.map(call, items))


def logins(lab: Venue, pairs: list[tuple[str, str]]) -> tuple[float, list[float], set[int]]:
    """So many logins: how many a second, the time of each, the codes of the replies."""
    nas, waits, codes = lab.nas(), [], set()

    def go(pair: tuple[str, str]) -> None:
        start = time.monotonic()
        codes.add(nas.login(*pair).code)
        waits.append(time.monotonic() - start)

    start = time.monotonic()
    for_each(pairs, go)
    return len(pairs) / (time.monotonic() - start), waits, codes


def print_logins(lab: Venue, what: str, pairs: list[tuple[str, str]]) -> None:
    rate, waits, codes = logins(lab, pairs)
    late = sorted(waits)[len(waits) * 99 // 100]
    print_figures(what, f"{rate:.0f} a second, {len(pairs)} times, median {statistics.median(waits) * 1000:.0f} ms, "
                        f"99 % below {late * 1000:.0f} ms, replies {sorted(codes)}")


def measure_logins(lab: Venue, count: int) -> None:
    pairs = [(code, lab.device()) for at in range(0, count, 500) for code in lab.codes("hour", min(500, count - at))]
    print_logins(lab, "first logins", pairs)
    print_logins(lab, f"the same codes again, {count} sessions open", pairs)
    print_logins(lab, "MAC authentication of the same devices", [(device, device) for _, device in pairs])
    strangers = [lab.device() for _ in range(count)]
    print_logins(lab, "MAC authentication of strangers", [(device, device) for device in strangers])


def open_sessions(lab: Venue, count: int) -> None:
    """So many open sessions, of one voucher."""
    code, = lab.codes("crowd", 1)
    for_each([lab.device() for _ in range(count)], lambda device: lab.redeem(code, device))


def turn_of(lab: Venue, rates: dict[str, list[float]]) -> None:
    """First logins; the same codes again, and the same devices by their addresses, for a second or so. Then all are closed."""
    pairs = [(code, lab.device()) for code in lab.codes("day", EACH)]
    for what, turns in (("first logins", pairs), ("the same codes again", pairs * 4),
                        ("MAC authentication", [(device, device) for _, device in pairs] * 6)):
        rate, _, codes = logins(lab, turns)
        assert codes == {ACCEPT}, codes
        rates.setdefault(what, []).append(rate)
    numbers = lab.sessions()
    for_each(pairs, lambda pair: lab.counter.request(Routes.CLOSE, body={"session": numbers[pair[1]]["session"]}))


def measure_crowd(few: Venue, _: int) -> None:
    many = Venue(few.command)
    rates: tuple[dict[str, list[float]], dict[str, list[float]]] = {}, {}
    try:
        many.start_all()
        many.load(*ALL_PLANS)
        open_sessions(few, FEW)
        open_sessions(many, MANY)
        for _ in range(TURNS):
            turn_of(few, rates[0])
            turn_of(many, rates[1])
    finally:
        many.close()
    for what in rates[0]:
        one, other = (statistics.median(found[what]) for found in rates)
        print_figures(f"{what}, eight at a time", f"{one:.0f} a second with {FEW} open, {other:.0f} with {MANY:,}: {other / one:.2f} of it")


def measure_ends(lab: Venue, _: int) -> None:
    nas, waits = lab.nas(), []
    for i, code in enumerate(lab.codes("hour", 30)):
        device = lab.device()
        nas.account("Start", f"m{i}", code, device, nas.login(code, device).values["Class"])
        time.sleep(0.7 + i % 10 / 20)
        at = time.time()
        lab.close_session(device)
        lab.until(lambda: nas.requests_for(DISCONNECT, f"m{i}"), what="a Disconnect-Request")
        waits.append(nas.requests_for(DISCONNECT, f"m{i}")[0].at - at)
        nas.account("Stop", f"m{i}", code, device, None)
    print_figures("from a close to the Disconnect-Request", f"median {statistics.median(waits):.2f} s, {min(waits):.2f} to "
                                                            f"{max(waits):.2f} s, {len(waits)} times")


def processor(pid: int) -> float:
    fields = pathlib.Path(f"/proc/{pid}/stat").read_text().rpartition(")")[2].split()
    return (int(fields[11]) + int(fields[12])) / os.sysconf("SC_CLK_TCK")


def measure_rest(lab: Venue, _: int) -> None:
    """200 sessions with an interim report each."""
    nas, codes = lab.nas(), lab.codes("gig", 200)
    devices = [lab.device() for _ in codes]
    for i, (code, device) in enumerate(zip(codes, devices)):
        klass = nas.login(code, device).values["Class"]
        nas.account("Start", f"r{i}", code, device, klass)
        nas.account("Interim-Update", f"r{i}", code, device, klass, (1000, 1000))
    time.sleep(3)
    before, start = {name: processor(job.pid) for name, job in lab.jobs.items()}, time.monotonic()
    time.sleep(20)
    took = time.monotonic() - start
    parts = {name: f"{(processor(job.pid) - before[name]) / took:.1%}" for name, job in lab.jobs.items()}
    print_figures("200 sessions at rest, part of one core", str(parts))


MEASURES = {"logins": measure_logins, "crowd": measure_crowd, "ends": measure_ends, "rest": measure_rest}


def main() -> None:
    words = argparse.ArgumentParser(description="Measures the RADIUS part on loopback.")
    words.add_argument("--portal", default=STAND_IN, help="the program, as a command line; else the stand-in")
    words.add_argument("--count", type=int, default=1000)
    words.add_argument("names", nargs="*", choices=[*MEASURES, []], default=[])
    args = words.parse_args()
    for name in args.names or MEASURES:
        lab = Venue(args.portal)
        try:
            lab.start_all()
            lab.load(*ALL_PLANS)
            MEASURES[name](lab, args.count)
        finally:
            lab.close()


if __name__ == "__main__":
    main()
