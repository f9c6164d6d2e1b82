"""Many venues by name on one machine, with what a chain has around them: PostgreSQL with the table of venues and their view, the
collector, the counters' pages behind nginx, FreeRADIUS where a venue has access servers, and the file for Prometheus. The servers,
the counters' pages, PostgreSQL and the collector have the test's clock; FreeRADIUS and its agent have the machine's. A part that is
killed is started again by the test, where a machine has systemd.
"""

from __future__ import annotations

import concurrent.futures
import contextlib
import os
import pathlib
import re
import shutil
import signal
import subprocess
import threading
import time
from collections.abc import Iterator, Sequence
from dataclasses import dataclass, field
from typing import Any

from named_lab import FIELD, RADIUS, Lab, Named
from own_postgres import PROGRAMS, as_owner
from venue_lab import PYTHON, plan

from portal_field.venues import health, table
from portal_field.venues.clock import Watch
from portal_field.venues.places import Machine

MORE = 'currency = "EUR"\ncounter_lock_minutes = 0\n'
BYTES = 40_000_000          # of the plan "both"
PLANS = (plan("hour") + plan("day", seconds=86_400).replace("price = 300", "price = 500")
         + plan("family", uses=3, seconds=7200).replace("price = 300", "price = 901")
         + plan("both", seconds=14_400, octets=BYTES).replace("price = 300", "price = 250")
         + plan("sorry").replace("price = 300", "price = 0"))
LOOKS = 1.0                 # seconds between two looks at whether the servers answer
SETTLES = 2.0               # seconds after a part runs again in which what it did not answer may still come back
STARTERS = 4                # venues that are started at a time
LINE = re.compile(r"([a-z0-9-]+)(?:: (\d+) rows new| (is silent: .*)|: (.*))")


class VenueOfChain(Named):
    """A venue without access servers."""
    lines, plans = FIELD + MORE, PLANS


class VenueWithRadius(VenueOfChain):
    """A venue with an access server."""
    lines = FIELD + MORE + RADIUS


@dataclass
class Outage:
    """A part that was killed: since when, and until when it may have done harm, by time.monotonic()."""
    part: str
    begin: float
    end: float = float("inf")


@dataclass
class Collected:
    """A run of the collector: its status, what it said of each venue that has a fault, and when it began and ended."""
    status: int
    text: str
    begin: float
    end: float
    rows: int = 0
    faults: dict[str, str] = field(default_factory=dict)


class Chain(Lab):
    """The venues of one machine, the first ones with an access server. `clock`: as FastClock's environment has it."""

    def __init__(self, portal: str, names: Sequence[str], radius: int, clock: dict[str, str]) -> None:
        self.with_radius, self.outages, self.ends = set(names[:radius]), list[Outage](), threading.Event()
        super().__init__(portal, names, clock)
        self.lock, self.collecting = threading.Lock(), threading.Lock()
        self.data = pathlib.Path(f"{self.root}.postgres")
        self.database = f"host={self.data} user=chain dbname=postgres"
        self.machine = Machine("127.0.0.1", database=self.database, machine="one")
        (self.made / "run/desks").mkdir(parents=True)
        (self.made / "run/portal-venues").mkdir(parents=True)
        self.watch = Watch({name: venue.port for name, venue in self.venues.items()}, self.hangs)
        self.hung: list[str] = []

    def venue(self, name: str, number: int) -> Named:
        """Makes a venue, with its files."""
        kind = VenueWithRadius if name in self.with_radius else VenueOfChain
        return kind(name, number, self.made, self.host, f"{self.network}.{1 + number}", self.new_port())

    # Parts

    def start_program(self, name: str, words: Sequence[object], **more: Any) -> None:
        """Starts a program with a group of its own, which is killed as a whole; it writes to the log of its name. OSError: all are
        ended already."""
        if self.ends.is_set():
            raise OSError("all programs are ended")
        super().start_program(name, words, start_new_session=True, **more)
        if name.startswith("desk-"):
            (self.made / "run/desks" / name.removeprefix("desk-")).write_text(str(self.jobs[name].pid))

    def make_postgres(self) -> None:
        """Makes the database cluster."""
        self.data.mkdir()
        shutil.chown(self.data, "postgres", "postgres")
        as_owner(PROGRAMS / "initdb", "-D", self.data / "data", "-A", "trust", "-U", "chain", "--no-sync", "--locale=C.UTF-8")

    def start_postgres(self) -> None:
        """Starts PostgreSQL, and waits until it answers; anew while one that was killed is not wholly gone."""
        words = ["setpriv", "--reuid=postgres", "--regid=postgres", "--clear-groups", PROGRAMS / "postgres", "-D", self.data / "data",
                 "-k", self.data, "-c", "listen_addresses="]

        def answers() -> bool:
            """Whether it answers; it is started where it does not run."""
            if "postgres" not in self.jobs or self.jobs["postgres"].poll() is not None:
                self.start_program("postgres", words, env={**os.environ, **self.clock})
            with contextlib.suppress(table.Away), table.opened(self.machine):
                return True
            return False
        self.until(answers, what="PostgreSQL")

    def start_part(self, part: str) -> None:
        """Starts a part that was killed."""
        kind, _, name = part.partition("-")
        if kind in ("desk", "radius", "agent"):
            getattr(self, f"start_{kind}")(self.venues[name])
        else:
            getattr(self, f"start_{kind}")()

    def start_all(self) -> None:
        """Starts all parts, some venues at a time."""
        self.make_postgres()
        self.start_postgres()
        with concurrent.futures.ThreadPoolExecutor(STARTERS) as pool:
            list(pool.map(self.start_venue, self.venues.values()))
        for name, venue in self.venues.items():
            table.add(self.machine, name, venue.places.field.read_text())
        self.start_counters()
        self.start_nginx()
        threading.Thread(target=self.look_at_health, daemon=True).start()

    def kill(self, part: str) -> Outage:
        """Kills a part with all its processes, at once."""
        outage = Outage(part, time.monotonic())
        with self.lock:
            self.outages.append(outage)
        job = self.jobs.pop(part)
        os.killpg(job.pid, signal.SIGKILL)
        job.wait()
        return outage

    def start_again(self, outage: Outage) -> None:
        """Starts the part again that was killed."""
        self.start_part(outage.part)
        outage.end = time.monotonic() + SETTLES

    def was_out(self, begin: float, *parts: str) -> bool:
        """Whether one of these parts was out at some time since then, so that something may have had no answer."""
        with self.lock:
            return any(outage.part in parts and outage.end >= begin for outage in self.outages)

    def close(self) -> None:
        """Ends all programs, and removes the folders."""
        self.ends.set()
        if "postgres" in self.jobs:
            self.jobs["postgres"].send_signal(signal.SIGQUIT)       # with its children
            with contextlib.suppress(subprocess.TimeoutExpired):
                self.jobs["postgres"].wait(10)
        for job in list(self.jobs.values()):
            with contextlib.suppress(ProcessLookupError):
                os.killpg(job.pid, signal.SIGKILL)
            job.wait()
        self.jobs.clear()
        super().close()
        if not os.environ.get("KEEP_LAB"):
            shutil.rmtree(self.data, ignore_errors=True)

    # The collector

    def begin_collecting(self) -> subprocess.Popen[str]:
        """Starts the collector."""
        words = [PYTHON, "-B", pathlib.Path(__file__).with_name("collect_process.py"), self.made, self.database, *self.portal]
        return subprocess.Popen([str(word) for word in words], env={**os.environ, **self.clock}, stdout=subprocess.PIPE,
                                stderr=subprocess.STDOUT, text=True, start_new_session=True)

    def collect(self) -> Collected:
        """A run of the collector."""
        with self.collecting:
            begin, job = time.monotonic(), self.begin_collecting()
            text = job.communicate()[0]
        found = Collected(job.returncode, text, begin, time.monotonic())
        for line in text.splitlines():
            if match := LINE.fullmatch(line):
                found.rows += int(match[2] or 0)
                if match[3] or match[4]:
                    found.faults[match[1]] = line
        return found

    def ask(self, query: str, *words: object) -> list[tuple[Any, ...]]:
        """The rows of a query of PostgreSQL."""
        with table.opened(self.machine) as link:
            return list(link.execute(query, words))

    # Health

    def hangs(self, unit: str) -> None:
        """A server that runs and gives no answer, which a machine would start anew."""
        self.hung.append(unit)

    def look_at_health(self) -> None:
        """Asks all servers now and then, and writes what Prometheus reads."""
        while not self.ends.wait(LOOKS):
            self.watch.look()
            health.write_metrics(self.made, self.watch.seconds_silent())

    def is_up(self, name: str) -> bool:
        """What Prometheus reads of a venue."""
        text = (self.made / health.FILE).read_text()
        return f'portal_venue_up{{venue="{name}"}} 1\n' in text


@contextlib.contextmanager
def open_chain(portal: str, names: Sequence[str], radius: int, clock: dict[str, str]) -> Iterator[Chain]:
    """The venues with all their parts."""
    chain = Chain(portal, names, radius, clock)
    try:
        chain.start_all()
        yield chain
    finally:
        chain.close()
