"""A venue of many guests: a larger network, whose open sessions all pass packets, and what they cost.

One crowd at a time: how many neighbours the kernel keeps (gc_thresh3, 1,024 unless it was raised) is for the machine
with all its namespaces.
"""

from __future__ import annotations

import argparse
import contextlib
import glob
import ipaddress
import os
import pathlib
import statistics
import time
from collections.abc import Iterator
from typing import Any

from lab import PEER, Lab
from network import FIELD, OUTSIDE, PYTHON

NETWORK = {"guests": "10.77.0.1/20", "leases": ["10.77.0.50", "10.77.15.250", "1h"]}
FIRST = "10.77.4.1"         # the address of the crowd's first device
NO_LEASES = "10.99.0.1"     # and of one that no lease is near
SESSIONS = """import sys
from portal_field.lib.desk_client import Desk, Routes
desk, plan, uses, count = Desk(8080, open(sys.argv[1]).read().strip()), sys.argv[2], int(sys.argv[3]), int(sys.argv[4])
for first in range(0, count, 500 * uses):
    batch = f"crowd-{first}"
    desk.request_json(Routes.ISSUE, body={"batch": batch, "plan": plan, "count": 500})
    codes = [line.split(",")[0] for line in desk.request(Routes.PRINT, batch).decode().splitlines()[1:]]
    for i in range(first, min(first + 500 * uses, count)):
        code = codes[(i - first) // uses]
        if (i - first) % uses == 0:
            desk.request_json(Routes.SELL, body={"code": code})
        device = ":".join(f"{2 << 40 | i:012x}"[at:at + 2] for at in range(0, 12, 2))
        desk.request_json(Routes.REDEEM, body={"code": code}, device=device)
"""
USES = {"day": 1, "gigabyte": 3}        # of settings/plans.toml
HOURS, FASTER = 6.0, 60                 # of a clock that runs so many times as fast
OPEN = 200


def processor_seconds(pid: int) -> float:
    """Seconds of the processor that a process took so far."""
    fields = pathlib.Path(f"/proc/{pid}/stat").read_text().rpartition(")")[2].split()
    return (int(fields[11]) + int(fields[12])) / os.sysconf("SC_CLK_TCK")


def written_by(pid: int) -> tuple[int, int]:
    """Bytes that a process wrote so far; and what the kernel counts as written to the disk for it, which is in whole
    pages, or in the larger pieces that the file system keeps (nothing of files in memory)."""
    numbers = dict(line.split(": ") for line in pathlib.Path(f"/proc/{pid}/io").read_text().splitlines())
    return int(numbers["wchar"]), int(numbers["write_bytes"])


def open_sessions(lab: Lab, count: int, plan: str) -> None:
    """Opens so many sessions, each of a device of its own, and waits until all are let in."""
    token = lab.root / "etc/portal/credentials/desk_token"
    before = len(lab.gateway_list())
    lab.within("gw", PYTHON, "-c", SESSIONS, token, plan, USES[plan], count, env={**os.environ, "PYTHONPATH": str(FIELD)})
    lab.until(lambda: len(lab.gateway_list()) == before + count, 60, "all sessions")


def bind(lab: Lab, count: int, first: str) -> None:
    """Makes permanent entries of the neighbour table for so many devices, as they are made by hand for those
    without a lease."""
    low = int(ipaddress.IPv4Address(first))
    lines = [f"neigh replace {ipaddress.IPv4Address(low + i)} lladdr {device(i)} dev lan0 nud permanent\n" for i in range(count)]
    lab.within("gw", "ip", "-batch", "-", input="".join(lines))
    last = f"{device(count - 1)} . {ipaddress.IPv4Address(low + count - 1)}"
    lab.until(lambda: last in lab.within("gw", "nft", "list", "set", "inet", "portal", "bound").stdout, 30, "the set `bound`")


def device(number: int) -> str:
    """The MAC address of one of the crowd."""
    return ":".join(f"{2 << 40 | number:012x}"[at:at + 2] for at in range(0, 12, 2))


@contextlib.contextmanager
def packets(lab: Lab, count: int, part: str = "crowd", first: str = FIRST) -> Iterator[None]:
    """Has each of the crowd's devices send a packet a second, from the first guest's place."""
    bind(lab, count, first)
    hard = lab.within("gw", "cat", "/sys/class/net/lan0/address").stdout.strip()
    job = lab.begin("guest1", PYTHON, PEER, part, OUTSIDE, hard, count, first)
    try:
        yield
    finally:
        job.kill()
        job.wait()


def held_up(pid: int) -> float:
    """Seconds so far in which a program waited for a processor."""
    tasks = pathlib.Path(f"/proc/{pid}/task").glob("*/schedstat")
    return sum(int(path.read_text().split()[1]) for path in tasks) / 1e9


def share(lab: Lab, name: str, seconds: float) -> float:
    """The part of one processor that a program takes in some seconds, in per cent. The time in which it waits for one
    does not count: so other work on the machine does not make it seem cheap."""
    pid = lab.jobs[name].pid
    before, start = (processor_seconds(pid), held_up(pid)), time.monotonic()
    time.sleep(seconds)
    calm = time.monotonic() - start - (held_up(pid) - before[1])
    return 100 * (processor_seconds(pid) - before[0]) / max(calm, 0.01)


def crowd(args: argparse.Namespace) -> None:
    """Measures a crowd of sessions: each one's bytes are counted in both directions; the outside sends each
    packet back."""
    many, seconds = args.sessions or 1000, args.seconds
    for plan in USES:
        with Lab(args.portal, NETWORK) as lab:
            lab.start_services()
            for guest in ("guest1", "guest2"):
                lab.lease(guest)
            lab.online("guest2")
            open_sessions(lab, many, plan)
            with packets(lab, many):
                time.sleep(5)
                out, flow = lab.packets_outside(), lab.begin("guest2", PYTHON, PEER, "gap", OUTSIDE, seconds)
                shares = [share(lab, "gateway", seconds / 3 - 1) for _ in range(3)]
                came, longest = map(float, flow.communicate()[0].split())
                out = lab.packets_outside() - out
            used = sorted(row["used"] for row in lab.gateway_list())[:many]
            print(f"{many} sessions of the plan {plan}, in {seconds:.0f} s {out / seconds:.0f} packets a second come "
                  f"out, {used[0]} to {used[-1]} bytes of each are counted; the longest time without a packet to another "
                  f"guest {longest:.2f} s ({came:.0f} came); agent {statistics.median(shares):.1f} % of one core "
                  f"({min(shares):.1f} to {max(shares):.1f}), load {os.getloadavg()[0]:.0f}", flush=True)


class FastLab(Lab):
    """The desk and the agent have a clock that runs FASTER."""

    def start(self, name: str, *words: object, **more: Any) -> None:
        """Starts a program; the desk and the gateway with a clock that goes faster."""
        if name in ("desk", "gateway"):
            library, = glob.glob("/usr/lib/*/faketime/libfaketime.so.1")
            words = ("env", f"LD_PRELOAD={library}", f"FAKETIME=+0 x{FASTER}", *words)
        super().start(name, *words, **more)


def written(args: argparse.Namespace) -> None:
    """Measures what is written to the disk. The kernel's timeout has no faster clock: it is long, and polls
    are as rare as they may be."""
    many, seconds = args.sessions or OPEN, HOURS * 3600 / FASTER
    with FastLab(args.portal, {"poll_seconds": 10.0, "grace_seconds": 60, **args.changed}) as lab:
        lab.start_services()
        lab.lease("guest1")
        open_sessions(lab, many, "day")
        with packets(lab, many, "many", NO_LEASES):
            time.sleep(15)
            pid = lab.jobs["desk"].pid
            before = written_by(pid)
            time.sleep(seconds)
            sizes = [(after - first) / 1e9 * 24 / HOURS for first, after in zip(before, written_by(pid))]
        print(f"{many} open sessions on a time plan, {HOURS:.0f} hours of a clock {FASTER} times as fast: the server "
              f"writes {sizes[0]:.2f} GB a day (the kernel counts {sizes[1]:.2f} GB to the disk), "
              f"load {os.getloadavg()[0]:.0f}", flush=True)
