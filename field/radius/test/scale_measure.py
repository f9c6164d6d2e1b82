#!/usr/bin/python3
"""Measures what one server, and many venues on one machine, bear; the machine's load stands beside each figure. Needs root, PostgreSQL,
nginx and FreeRADIUS.

    PYTHONPATH=field:field/test field/radius/test/scale_measure.py --portal PROGRAM [--venues N ..] [--vouchers N] [NAME ..]

rest      memory of N venues by name (50) at rest, each with so many vouchers (1,000): servers, counters' pages, nginx, clock; and of
          FreeRADIUS and its agent, of one of ten venues
start     N servers (50, 200), all started at once: until each of them answers, and their processor time
requests  one server: GET /captive, and sales one after another, over eight connections at a time
queue     one server that is held still for three seconds: how many of 400 connections wait for it, and when all have an answer
pages     the first page of the counters of N venues (50), through nginx with TLS, over eight connections at a time
collect   the collector over N venues (50): all of it, nothing new, and one sale in each venue
records   bytes of a voucher that was sold and redeemed with keys, in the server's database and in PostgreSQL
"""

from __future__ import annotations

import argparse
import concurrent.futures
import contextlib
import http.client
import json
import multiprocessing
import os
import pathlib
import resource
import shutil
import signal
import socket
import subprocess
import sys
import tempfile
import time
from collections.abc import Callable

from chain_lab import Chain, open_chain
from desk_process import DeskProcess, Routes, free_port
from named_lab import Door, Named, accepts_at

from portal_field.backup.copies import copy_both, fold
from portal_field.lib.desk_client import new_number

SECONDS, AT_ONCE = 5.0, 8
MANY, HELD = 400, 3.0       # connections at once, and how long the server is held still
CAPTIVE = b"GET /captive HTTP/1.1\r\nHost: a\r\nPortal-Device: 02:00:00:00:00:01\r\n\r\n"
MEGABYTE = 1 << 20
CLOCK = "import sys, time, portal_field.venues.clock; print(flush=True); time.sleep(60)"
A_YEAR = 40 * 365           # vouchers of a venue that sells 40 a day
OF_THE_VIEW = ("voucher", "session", "batch", "takings")


def say(what: str) -> None:
    """Prints a figure, with the machine's load."""
    print(f"{what}; load {os.getloadavg()[0]:.0f}", flush=True)


def processor(pid: int) -> float:
    """Seconds of the processor that a process took so far."""
    fields = pathlib.Path(f"/proc/{pid}/stat").read_text().rpartition(")")[2].split()
    return (int(fields[11]) + int(fields[12])) / os.sysconf("SC_CLK_TCK")


def of_children() -> float:
    """Seconds of the processor that all programs took that this one started and that ended."""
    used = resource.getrusage(resource.RUSAGE_CHILDREN)
    return used.ru_utime + used.ru_stime


def memory(pid: int) -> float:
    """Memory of a process and what it started, in megabytes: its own, and its part of what it shares with others (Pss)."""
    total = 0.0
    for folder in pathlib.Path("/proc").glob("[0-9]*"):
        try:
            if os.getpgid(int(folder.name)) == pid:
                lines = (folder / "smaps_rollup").read_text().splitlines()
                total += sum(int(line.split()[1]) for line in lines if line.startswith("Pss:")) * 1024 / MEGABYTE
        except OSError:
            continue        # it has ended
    return total


def names(count: int) -> list[str]:
    """Names of so many venues."""
    return [f"v{number:03}" for number in range(1, count + 1)]


def free_ports(count: int) -> list[int]:
    """So many ports of loopback that nothing has now."""
    found: set[int] = set()
    while len(found) < count:
        found.add(free_port())
    return sorted(found)


def fill(venue: Named, vouchers: int) -> None:
    """Issues so many vouchers, sells each tenth of them, and has each tenth of these redeemed by a device of its own."""
    for first in range(0, vouchers, 500):
        codes = venue.new_codes("day", min(500, vouchers - first), sell=False)
        for code in codes[::10]:
            venue.desk.request_json(Routes.SELL, body={"code": code}, number=new_number())
        for code in codes[::100]:
            venue.desk.request_json(Routes.REDEEM, body={"code": code}, device=venue.device(), number=new_number())


def fill_all(chain: Chain, vouchers: int) -> None:
    """The same in all venues; then the servers are started anew."""
    with concurrent.futures.ThreadPoolExecutor(4) as pool:
        list(pool.map(lambda venue: fill(venue, vouchers), chain.venues.values()))
    for name in chain.venues:
        chain.start_again(chain.kill(f"desk-{name}"))


def measure_rest(args: argparse.Namespace) -> None:
    """Memory at rest."""
    count = args.venues[0]
    with open_chain(args.portal, names(count), count // 10, {}) as chain:
        fill_all(chain, args.vouchers)
        clock = subprocess.Popen([sys.executable, "-c", CLOCK], stdout=subprocess.PIPE, start_new_session=True)
        assert clock.stdout
        clock.stdout.readline()
        time.sleep(SECONDS)
        found: dict[str, list[float]] = {}
        for part, job in (*chain.jobs.items(), ("clock", clock)):
            found.setdefault(part.partition("-")[0], []).append(memory(job.pid))
        clock.kill()
        clock.wait()
    each = {part: f"{sum(sizes):.0f} MB" + (f" ({len(sizes)}, each {sum(sizes) / len(sizes):.1f})" if len(sizes) > 1 else "")
            for part, sizes in found.items()}
    total = sum(sum(found[part]) for part in ("desk", "counters", "nginx", "clock"))
    say(f"{count} venues of {args.vouchers} vouchers at rest: {total:.0f} MB for servers, counters' pages, nginx and clock; {each}")


def made_database(folder: pathlib.Path, portal: str, vouchers: int) -> pathlib.Path:
    """A database with so many vouchers, each tenth of them sold."""
    with DeskProcess(folder / "made.db", portal) as desk:
        desk.load()
        for at in range(0, vouchers, 500):
            codes = desk.issue_codes("hour", f"b-{at}", min(500, vouchers - at))
            for code in codes[::10]:
                desk.desk.request_json(Routes.SELL, body={"code": code}, number=new_number())
        desk.job.kill()
        desk.job.wait()
        copy_both(folder / "made.db", folder / "one.db")
        shutil.copy(desk.settings, folder / "settings.toml")
    fold(folder / "one.db")
    return folder / "one.db"


def measure_start(args: argparse.Namespace) -> None:
    """Starts of many servers."""
    for count in args.venues if len(args.venues) > 1 else (args.venues[0], 4 * args.venues[0]):
        with tempfile.TemporaryDirectory() as place:
            folder = pathlib.Path(place)
            made = made_database(folder, args.portal, args.vouchers)
            ports = {port: folder / f"{port}.db" for port in free_ports(count)}
            for book in ports.values():
                shutil.copy(made, book)
            begin = time.monotonic()
            jobs = [subprocess.Popen([*args.portal.split(), "serve", "--port", str(port), "--db", book, "--settings", folder / "settings.toml"],
                                     stdout=subprocess.DEVNULL) for port, book in ports.items()]
            try:
                waiting = set(ports)
                while waiting:
                    waiting = {port for port in waiting if not accepts_at(port)}
                    time.sleep(0.01)
                took, used = time.monotonic() - begin, sum(processor(job.pid) for job in jobs)
            finally:
                for job in jobs:
                    job.kill()
                    job.wait()
        say(f"{len(ports)} servers of {args.vouchers} vouchers: all answer after {took:.1f} s; {used:.1f} s of the processor")


def ask_captive(port: int, seconds: float) -> int:
    """Asks for a device's state for so long, one connection after another; how often it was answered."""
    count, end = 0, time.monotonic() + seconds
    while time.monotonic() < end:
        with socket.create_connection(("127.0.0.1", port)) as link:
            link.sendall(CAPTIVE)
            while link.recv(4096):
                pass
        count += 1
    return count


def sell_codes(port: int, codes: list[str]) -> int:
    """Sells these codes; how many."""
    for code in codes:
        link = http.client.HTTPConnection("127.0.0.1", port, timeout=60)
        link.request("POST", "/desk/sales", json.dumps({"code": code}), {"Portal-Token": "desk-token", "Portal-Request": new_number()})
        assert link.getresponse().read().startswith(b'{"code"')
        link.close()
    return len(codes)


def at_once(desk: DeskProcess, what: str, act: Callable[..., int], words: list[tuple[object, ...]]) -> None:
    """Has so many processes ask at once."""
    before, begin = processor(desk.job.pid), time.monotonic()
    with multiprocessing.Pool(len(words)) as pool:
        count = sum(pool.starmap(act, words))
    took, used = time.monotonic() - begin, processor(desk.job.pid) - before
    say(f"{what}, {len(words)} connections at a time: {count / took:.0f} a second; {used / count * 1e6:.0f} µs of the server's processor each, "
        f"which makes {count / used:.0f} a second of a whole core")


def measure_requests(args: argparse.Namespace) -> None:
    """Requests a second of one server."""
    with tempfile.TemporaryDirectory() as folder, DeskProcess(pathlib.Path(folder) / "book.db", args.portal) as desk:
        desk.load()
        at_once(desk, "GET /captive", ask_captive, [(desk.port, SECONDS)] * AT_ONCE)
        codes = [desk.issue_codes("hour", f"b-{number}", 250) for number in range(AT_ONCE)]
        at_once(desk, "sales", sell_codes, [(desk.port, part) for part in codes])


def wait_for_answer(port: int, begin: float) -> float:
    """Seconds after which a question is answered, on its only connection."""
    with socket.create_connection(("127.0.0.1", port), timeout=60) as link:
        link.sendall(CAPTIVE)
        while link.recv(4096):
            pass
    return time.monotonic() - begin


def measure_queue(args: argparse.Namespace) -> None:
    """Connections that wait."""
    with tempfile.TemporaryDirectory() as folder, DeskProcess(pathlib.Path(folder) / "book.db", args.portal) as desk, \
            concurrent.futures.ThreadPoolExecutor(MANY) as pool:
        os.kill(desk.job.pid, signal.SIGSTOP)
        begin = time.monotonic()
        waits = [pool.submit(wait_for_answer, desk.port, begin) for _ in range(MANY)]
        time.sleep(HELD)
        rows = [line.split() for line in pathlib.Path("/proc/net/tcp").read_text().splitlines()[1:]]
        queued = sum(row[1].endswith(f":{desk.port:04X}") and row[3] == "01" for row in rows)
        os.kill(desk.job.pid, signal.SIGCONT)
        times = sorted(wait.result() for wait in waits)
    say(f"{MANY} connections to a server that is held still for {HELD:.0f} s: {queued} wait for it; half are answered after {times[MANY // 2]:.1f} s, "
        f"all after {times[-1]:.1f} s")


def ask_pages(address: str, asks: list[tuple[str, str]]) -> int:
    """Asks for the first page of counters, each with a name and the cookie of a log-in; how many."""
    for name, cookie in asks:
        with contextlib.closing(Door(address, f"{name}.example")) as link:
            link.request("GET", "/", headers={"Host": f"{name}.example", "Cookie": cookie})
            answer = link.getresponse()
            assert answer.status == 200 and b"logout" in answer.read(), answer.status
    return len(asks)


def measure_pages(args: argparse.Namespace) -> None:
    """Pages a second of the counters."""
    count = args.venues[0]
    with open_chain(args.portal, names(count), 0, {}) as chain:
        asks = [(name, chain.clerk(name).cookie) for name in chain.venues] * (1000 // count)
        nginx = [int(pid) for pid in subprocess.run(["pgrep", "-g", str(chain.jobs["nginx"].pid)], capture_output=True, text=True).stdout.split()]
        before, begin = (processor(chain.jobs["counters"].pid), sum(map(processor, nginx))), time.monotonic()
        with multiprocessing.Pool(AT_ONCE) as pool:
            done = sum(pool.starmap(ask_pages, [(chain.host, asks[at::AT_ONCE]) for at in range(AT_ONCE)]))
        took = time.monotonic() - begin
        used = processor(chain.jobs["counters"].pid) - before[0], sum(map(processor, nginx)) - before[1]
    say(f"first pages of the counters of {count} venues, {AT_ONCE} connections at a time: {done / took:.0f} a second; {used[0] / done * 1e3:.1f} ms of the "
        f"counters' process and {used[1] / done * 1e3:.1f} ms of nginx each")


def measure_collect(args: argparse.Namespace) -> None:
    """Runs of the collector."""
    count = args.venues[0]
    with open_chain(args.portal, names(count), 0, {}) as chain:
        fill_all(chain, args.vouchers)
        for what in ("all of it", "nothing new", "one sale in each venue"):
            if what.startswith("one"):
                for venue in chain.venues.values():
                    venue.new_codes("hour", 1)
            before = of_children()
            found = chain.collect()
            assert found.status == 0, found
            say(f"the collector over {count} venues of {args.vouchers} vouchers, {what}: {found.rows} rows new, {found.end - found.begin:.1f} s, "
                f"{of_children() - before:.1f} s of its processor")


def measure_records(args: argparse.Namespace) -> None:
    """Bytes of a voucher."""
    with open_chain(args.portal, names(1), 0, {}) as chain, tempfile.TemporaryDirectory() as folder:
        venue, sizes, counts = chain.venues["v001"], [], []
        for vouchers in (1000, 4000):
            codes = [code for _ in range(vouchers // 500) for code in venue.new_codes("day", 500, sell=False)]
            for code in codes:
                venue.desk.request_json(Routes.SELL, body={"code": code}, number=new_number())
                venue.desk.request_json(Routes.REDEEM, body={"code": code}, device=venue.device(), number=new_number())
            outage, copy = chain.kill("desk-v001"), pathlib.Path(folder) / f"{vouchers}.db"
            copy_both(venue.places.database, copy)
            fold(copy)
            chain.start_again(outage)
            chain.collect()
            tables = [chain.ask("SELECT pg_total_relation_size(%s)", f"portal_view.{name}")[0][0] for name in OF_THE_VIEW]
            sizes.append([copy.stat().st_size, *tables])
            counts.append(len(venue.codes))
    each = [(b - a) / (counts[1] - counts[0]) for a, b in zip(*sizes)]
    say(f"a voucher that was sold and redeemed with keys: {each[0]:.0f} bytes of the server's database, {sum(each[1:]):.0f} in PostgreSQL with its "
        f"indexes ({', '.join(f'{name} {size:.0f}' for name, size in zip(OF_THE_VIEW, each[1:]))}); {A_YEAR} a year: "
        f"{each[0] * A_YEAR / MEGABYTE:.0f} and {sum(each[1:]) * A_YEAR / MEGABYTE:.0f} MB")


MEASURES = {"rest": measure_rest, "start": measure_start, "requests": measure_requests, "queue": measure_queue,
            "pages": measure_pages, "collect": measure_collect, "records": measure_records}


def main() -> None:
    """Measures what is named, or all."""
    words = argparse.ArgumentParser(description="Measures what one server and many venues bear.")
    words.add_argument("--portal", required=True, help="the program, as a command line")
    words.add_argument("--venues", type=int, nargs="+", default=[50])
    words.add_argument("--vouchers", type=int, default=1000)
    words.add_argument("names", nargs="*", choices=[*MEASURES, []], default=[])
    args = words.parse_args()
    for name in args.names or MEASURES:
        MEASURES[name](args)


if __name__ == "__main__":
    main()
