#!/usr/bin/python3
"""A day of many venues on one machine, with a clock that goes faster, and random parts that are killed meanwhile: every answer is what
the small model of the tests says, nothing that was answered is lost, and PostgreSQL has what the servers have. Needs root, PostgreSQL,
nginx, FreeRADIUS and gcc.

    PYTHONPATH=field:field/test field/radius/test/chain_day.py --portal PROGRAM [--venues N] [--devices N] [--hours N] [--kills N]
        [--seed N] [--speed N] [--radius N] [--begin HH:MM] [--parts PART,..]

--radius: so many of the venues have an access server, with FreeRADIUS and the agent; the guests of the others ask the server itself.
"""

from __future__ import annotations

import argparse
import concurrent.futures
import dataclasses
import datetime
import os
import pathlib
import random
import signal
import subprocess
import sys
import tempfile
import threading
import time
from collections import Counter
from collections.abc import Callable

from chain_lab import Chain, Collected, open_chain
from chain_venue import MINUTE, Burst, VenueDay, day_of
from desk_model import takings
from fast_clock import FastClock

from portal_field.backup.backup import state_of
from portal_field.counter import takings as tables
from portal_field.counter.journal import DONE
from portal_field.lib.desk_client import Routes
from portal_field.venues.collect import SILENT, key_of
from portal_field.venues.records import hidden

DATE = "2027-03-02"
COLLECTS = 15 * MINUTE      # as portal-venues-collect.timer has it, by the clock of the day
PARTS = ("desk", "postgres", "nginx", "radius", "counters", "collector", "agent")
NOTICED = 15.0              # seconds in which Prometheus' file says how a venue is
REPORTED = 20.0             # seconds in which the agent has reported the last bytes


@dataclasses.dataclass(frozen=True)
class Size:
    """What a day is drawn from. `radius`: venues with an access server. `parts`: what is killed."""
    venues: int = 50
    devices: int = 200
    hours: float = 24.0
    kills: int = 20
    seed: int = 1
    speed: int = 60
    radius: int = 5
    begin: str = "06:00"
    parts: str = ",".join(PARTS)


class ChainDay:
    """The day of all venues."""

    def __init__(self, chain: Chain, clock: FastClock, size: Size) -> None:
        self.chain, self.time, self.size, self.draw = chain, clock, size, random.Random(size.seed)
        self.begin, self.seconds = clock.now() + 1, size.hours * 3600
        self.days = {name: VenueDay(chain, venue, clock, random.Random(f"{size.seed} {name}"), size.devices, self.begin, self.seconds)
                     for name, venue in chain.venues.items()}
        self.faults: list[BaseException] = []
        self.stops, self.happened = threading.Event(), Counter[str]()
        self.rows, self.longest = 0, 0.0

    # Threads

    def guarded(self, act: Callable[[], None]) -> None:
        """Does something beside; what is not as it has to be ends the day."""
        try:
            act()
        except BaseException as fault:
            self.faults.append(fault)
            self.stops.set()
            for day in self.days.values():
                day.is_over = True
                day.bursts.put(None)

    def run(self) -> None:
        """The whole day. AssertionError: something is not as it has to be."""
        jobs = [threading.Thread(target=self.guarded, args=(day.run,), daemon=True) for day in self.days.values()]
        kills, collects = (threading.Thread(target=self.guarded, args=(act,), daemon=True) for act in (self.kill_parts, self.collect_now_and_then))
        for job in (*jobs, kills, collects):
            job.start()
        self.wait(self.begin + self.seconds)
        kills.join()
        for day in self.days.values():
            day.bursts.put(None)
        for job in jobs:
            job.join()
        self.stops.set()
        collects.join()
        if self.faults:
            raise self.faults[0]
        self.last_sales()
        self.check_all()

    def last_sales(self) -> None:
        """Each venue sells a voucher that the collector has seen unsold, and refunds one: so both happen in the shortest day too."""
        codes = {day: (day.take("hour"), day.take("hour")) for day in self.days.values()}
        time.sleep(0.1)         # some seconds of its clock
        for day, (first, _) in codes.items():
            day.command("sell", {"code": first})
        self.collect()
        for day, (first, second) in codes.items():
            day.command("sell", {"code": second})
            day.command("refund", {"code": first})

    def wait(self, moment: float) -> bool:
        """Waits for a moment of the clock; whether the day goes on."""
        return not self.stops.wait(max(0.0, self.time.real_seconds_to(moment)))

    # The collector

    def collect_now_and_then(self) -> None:
        """Collects as the timer does."""
        moment = self.begin + COLLECTS
        while self.wait(moment):
            self.collect()
            moment = max(moment + COLLECTS, self.time.now())

    def collect(self) -> Collected:
        """A run of the collector: it names no venue but those whose server was killed."""
        found = self.chain.collect()
        self.happened["collected"] += 1
        self.rows, self.longest = self.rows + found.rows, max(self.longest, found.end - found.begin)
        if not self.chain.was_out(found.begin, "postgres"):
            assert found.status in (0, SILENT), f"the collector runs to its end  [{found}]"
            strange = {line for name, line in found.faults.items() if not self.chain.was_out(found.begin, f"desk-{name}")}
            assert not strange, f"it names no venue that answers  [{strange}]"
        return found

    # Parts that are killed

    def kill_parts(self) -> None:
        """Kills parts of each kind in turn, at random times."""
        kinds = [kind for kind in self.size.parts.split(",") if self.size.radius or kind not in ("radius", "agent")]
        order = [kind for _ in range(self.size.kills // len(kinds) + 1) for kind in self.draw.sample(kinds, len(kinds))][:self.size.kills]
        moments = sorted(self.begin + self.draw.uniform(0.04, 0.93) * self.seconds for _ in order)
        for kind, moment in zip(order, moments):
            if not self.wait(moment):
                return
            name = self.draw.choice([name for name in self.days if kind not in ("radius", "agent") or name in self.chain.with_radius])
            print(f"{datetime.datetime.fromtimestamp(self.time.now(), datetime.UTC):%H:%M} {kind} is killed, at the venue {name}",
                  flush=True)
            getattr(self, f"kill_{kind}")(name)
            self.happened[f"killed {kind}"] += 1

    def busy(self, name: str, what: str) -> threading.Event:
        """Has a venue do much at once, and waits until it is somewhere within. The event is set once a part is killed."""
        burst = Burst(what, threading.Event(), threading.Event())
        self.days[name].bursts.put(burst)
        while not burst.begins.wait(0.1) and not self.stops.is_set():
            pass
        time.sleep(self.draw.uniform(0.0, 0.1))
        return burst.is_out

    def kill_desk(self, name: str) -> None:
        """The venue is named by the collector and by the health of the venues until its server runs again. At first all
        sales of that moment are the page's, so that one of these gets no answer."""
        is_out = self.busy(name, "sales" if self.happened["killed desk"] % 2 else "page")
        outage = self.chain.kill(f"desk-{name}")
        is_out.set()
        found = self.collect()
        assert "is silent" in found.faults.get(name, ""), f"the collector names a venue whose server was killed  [{name}: {found}]"
        assert self.chain.comes(lambda: not self.chain.is_up(name), NOTICED), f"Prometheus hears of a server that was killed  [{name}]"
        self.chain.start_again(outage)
        assert self.chain.comes(lambda: self.chain.is_up(name), NOTICED), f"and that it runs again  [{name}]"

    def kill_postgres(self, _: str) -> None:
        """The collector says that the view is as it was; the venues go on."""
        outage = self.chain.kill("postgres")
        found = self.collect()
        assert found.status == 1 and "the view is as it was" in found.text, f"the collector says that PostgreSQL is away  [{found}]"
        self.chain.start_again(outage)

    def kill_part(self, part: str, is_out: threading.Event | None = None) -> None:
        """A part that is there again after a moment."""
        outage = self.chain.kill(part)
        if is_out:
            is_out.set()
        time.sleep(self.draw.uniform(0.3, 1.5))
        self.chain.start_again(outage)

    def kill_nginx(self, name: str) -> None:
        """While a clerk sells."""
        self.kill_part("nginx", self.busy(name, "page"))

    def kill_counters(self, name: str) -> None:
        """While a clerk sells."""
        self.kill_part("counters", self.busy(name, "page"))

    def kill_radius(self, name: str) -> None:
        """While guests log in."""
        self.kill_part(f"radius-{name}", self.busy(name, "login"))

    def kill_agent(self, name: str) -> None:
        """At any time."""
        self.kill_part(f"agent-{name}")

    def kill_collector(self, _: str) -> None:
        """While it copies: no server is left held still, and the next run is as if it had not been."""
        with self.chain.collecting:
            job = self.chain.begin_collecting()
            time.sleep(self.draw.uniform(0.3, 1.2))
            job.kill()
            job.communicate()
        time.sleep(1.0)
        pids = {path.name: int(path.read_text()) for path in (self.chain.made / "run/desks").iterdir()}
        held = [name for name, pid in pids.items() if "T" in state_of(pid)]
        assert not held, f"no server is left held still  [{held}]"
        self.collect()

    # The end

    def check_all(self) -> None:
        """All servers, the view and what each of them adds up to."""
        with concurrent.futures.ThreadPoolExecutor(8) as pool:
            list(pool.map(VenueDay.check_all, self.days.values()))
        self.check_bytes()
        found = self.collect()
        assert found.status == 0, f"the last run of the collector has nothing to say  [{found}]"
        assert self.collect().rows == 0, "once more it finds nothing new"
        assert not self.chain.hung, f"no server was silent while it ran  [{self.chain.hung}]"
        for query, what in (("SELECT venue FROM portal_view.silent", "no venue is silent"),
                            ("SELECT * FROM portal_view.older_copy", "no database went back"),
                            ("SELECT * FROM portal_view.takings_changed", "no day changes that is over")):
            rows = self.chain.ask(query)
            assert not rows, f"{what}  [{rows}]"
        for day in self.days.values():
            self.check_view(day)
            self.check_journal(day)
        self.check_sums()
        self.check_files()

    def check_bytes(self) -> None:
        """The servers know all bytes that access servers counted: the view reads them of a database once more, as on another day."""
        def is_known() -> bool:
            """Whether the view has the bytes of each guest."""
            self.chain.ask("UPDATE portal_view.venue SET whole = NULL, stamp = '' RETURNING venue")
            self.collect()
            rows = {(venue, number): used for venue, number, used in self.chain.ask("SELECT venue, number, used FROM portal_view.session")}
            return all(rows[name, guest.number] == guest.sent for name, day in self.days.items() if day.nas for guest in day.guests.values())
        assert self.chain.comes(is_known, REPORTED), "the view has all bytes that access servers counted"
        for day in self.days.values():
            for guest in day.guests.values() if day.nas else ():
                session = day.model.sessions[guest.number - 1]
                session.used, guest.sent = guest.sent, 0

    def check_view(self, day: VenueDay) -> None:
        """Each voucher and session of a venue in the view."""
        name, model, key = day.venue.name, day.model, key_of(self.chain.made)
        rows = self.chain.ask("SELECT code, batch, plan, price, uses, extract(epoch FROM expires)::bigint, extract(epoch FROM sold)::bigint, "
                              "amount, redeemed FROM portal_view.voucher WHERE venue = %s", name)
        expected = {hidden(key, "code", code): (v.batch, v.plan.id, v.plan.price, v.plan.uses, v.expires, v.sold, v.refund, v.redeemed)
                    for code, v in model.vouchers.items()}
        found = {bytes(code): tuple(rest) for code, *rest in rows}
        assert found == expected, f"the view has the venue's vouchers  [{name}: {dict(found.items() - expected.items())}]"
        rows = self.chain.ask("SELECT number, device, plan, extract(epoch FROM opened)::bigint, extract(epoch FROM ends)::bigint, used, "
                              "closed IS NOT NULL FROM portal_view.session WHERE venue = %s", name)
        sessions = {s.number: (hidden(key, "device", s.device), s.plan.id, s.ends, s.used, s.closed is not None) for s in model.sessions}
        opened = {number: (bytes(device), plan, ends, used, closed) for number, device, plan, _, ends, used, closed in rows}
        assert opened == sessions, f"the view has the venue's sessions  [{name}: {opened.items() ^ sessions.items()}]"

    def check_journal(self, day: VenueDay) -> None:
        """The journal has each sale of the counter's page, once."""
        path = day.venue.places.counter_state / "journal.db"
        row, = day.venue.rows(path, f"SELECT count(*), count(DISTINCT request) FROM acts WHERE act = 'sell' AND answer = '{DONE}'")
        sold = day.happened["sold by the page"]
        assert row[1] == sold, f"the journal has the sales of the counter's page  [{day.venue.name}: {row}, not {sold}]"

    def check_sums(self) -> None:
        """The takings of each venue and day in PostgreSQL are those of its server, and of the model; and so are those of all."""
        first, last = day_of(self.begin), day_of(self.time.now())
        total, own = [0] * 4, [0] * 4
        for name, day in self.days.items():
            text = day.ask(Routes.TAKINGS, query=f"?from={first}&to={last}")[0].text.decode()
            assert text == takings(day.model, first, last), f"the takings are the model's  [{name}]"
            sums = {row.name: (row.sold, row.sales, row.refunded, row.refunds) for row in tables.days(text)}
            rows = {str(at): tuple(rest) for at, *rest in self.chain.ask(
                "SELECT day, sold, sales, refunded, refunds FROM portal_view.takings WHERE venue = %s AND day >= %s", name, first)}
            assert rows == sums, f"the view has the server's takings  [{name}: {rows}, not {sums}]"
            total = [a + sum(row[at] for row in sums.values()) for at, a in enumerate(total)]
            own = [a + b for a, b in zip(own, (len(day.model.sales), sum(price for _, price in day.model.sales), len(day.model.refunds),
                                               sum(amount for _, amount in day.model.refunds)))]
        row, = self.chain.ask("SELECT sum(sold)::bigint, sum(sales)::bigint, sum(refunded)::bigint, sum(refunds)::bigint FROM portal_view.takings")
        assert list(row) == total == own, f"the sums of all venues agree  [{row}, {total}, {own}]"
        self.happened.update({"sold": total[0], "refunded": total[2]})
        print(f"takings of all venues: {total[0]} sold for {total[1] / 100:.2f}, {total[2]} refunded for {total[3] / 100:.2f}", flush=True)

    def check_files(self) -> None:
        """The program finds nothing wrong with any database."""
        for name, venue in self.chain.venues.items():
            self.chain.stop(f"desk-{name}")
            done = subprocess.run([*self.chain.portal, "check", "--db", str(venue.places.database), "--settings",
                                   str(venue.places.settings / "portal.toml")], capture_output=True, text=True)
            assert done.returncode == 0, f"the program finds nothing wrong with a database  [{name}: {done.stdout} {done.stderr}]"

    def summary(self) -> str:
        """What happened, in a few lines."""
        happened = sum((day.happened for day in self.days.values()), self.happened)
        late = max(day.late for day in self.days.values())
        return (f"{self.size}\n{dict(sorted(happened.items()))}\n{self.rows} rows new in the view, the longest run of the collector "
                f"{self.longest:.1f} s; the latest act was {late:.1f} s late; load {os.getloadavg()[0]:.0f}")


def run_day(portal: str, size: Size) -> ChainDay:
    """A day of that size, and what happened in it."""
    names = [f"v{number:03}" for number in range(1, size.venues + 1)]
    with tempfile.TemporaryDirectory() as folder:
        pathlib.Path(folder).chmod(0o755)
        shows = datetime.datetime.fromisoformat(f"{DATE}T{size.begin}+00:00")
        start = time.monotonic()
        clock = FastClock(pathlib.Path(folder), shows, size.speed)
        with open_chain(portal, names, min(size.radius, size.venues), clock.environment) as chain:
            print(f"all parts run after {time.monotonic() - start:.0f} s", flush=True)
            day = ChainDay(chain, clock, size)
            day.run()
            return day


def main() -> None:
    """Runs the day of a size."""
    words = argparse.ArgumentParser(description="A day of many venues on one machine.")
    words.add_argument("--portal", required=True, help="the program, as a command line")
    for line in dataclasses.fields(Size):
        words.add_argument(f"--{line.name}", type=type(line.default), default=line.default)
    args = vars(words.parse_args())
    signal.signal(signal.SIGTERM, lambda *_: sys.exit(143))     # so that all programs are ended
    portal = args.pop("portal")
    print(run_day(portal, Size(**args)).summary(), "nothing is lost, and all sums agree", sep="\n", flush=True)


if __name__ == "__main__":
    main()
