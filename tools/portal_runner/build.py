"""Proves the program's crates and builds the program; tools/build says how."""

from __future__ import annotations

import contextlib
import fcntl
import hashlib
import os
import re
import shutil
import signal
import subprocess
import sys
import tempfile
import time
from collections.abc import Iterator
from pathlib import Path
from typing import IO, Any

from . import crates
from .budgets import UNKNOWN, read_budgets

TOP = Path(__file__).resolve().parent.parent.parent
PROGRAM = "portal"
MEMORY_OF_A_JOB = 5_000_000     # in kB
AT_ONCE_OVER_SQLITE = 2
LINES_OF_A_LOG = 20
SIGNALS = signal.SIGHUP, signal.SIGINT, signal.SIGTERM


class Stop(Exception):
    """The end of the build: its status, and what is said."""

    def __init__(self, status: int, text: str) -> None:
        super().__init__(text)
        self.status = status


def say(text: str) -> None:
    print(f"portal: {text}", file=sys.stderr, flush=True)


def jobs_of(asked: str, meminfo: str, limit: str, processors: int) -> int:
    """How many jobs of rt there are at a time: as many as are asked for, or one for each core with 5 GB of
    free memory."""
    if asked:
        if not re.fullmatch("[1-9][0-9]{0,3}", asked):
            raise Stop(2, f"PORTAL_JOBS is a number from 1 to 9999, and not '{asked}'")
        return int(asked)
    found = re.search(r"^MemAvailable:\s*(\d+)", meminfo, re.M)
    free = int(found[1]) if found else 0
    if limit.isdecimal():
        free = min(free, int(limit) // 1024)
    return max(1, min(free // MEMORY_OF_A_JOB, processors))


class Plan:
    """The crates that the program stands on: which comes next, with how many jobs, and how long the rest
    takes."""

    def __init__(self, uses: dict[str, list[str]], costs: dict[str, float], jobs: int) -> None:
        self.uses, self.jobs, self.order = uses, jobs, crates.order_of(uses, PROGRAM)
        self.costs = {it: int(costs.get(f"prove:{it}", UNKNOWN)) for it in self.order}
        self.running: list[str] = []
        self.done: list[str] = []
        self.used = self.cost_done = 0
        self.seconds_done = 0.0
        # The program is alone at the end, and the crates over sqlite take the longest: they are given more
        # than one job.
        self.width = {it: jobs if it == PROGRAM else min(jobs, 1 + self.is_heavy(it)) for it in self.order}
        # The cost for each of these jobs, with that of the longest chain of crates above it.
        self.chain = {it: self.share(it) for it in self.order}
        for name in reversed(self.order):
            for lower in crates.below(uses, name):
                self.chain[lower] = max(self.chain[lower], self.share(lower) + self.chain[name])

    def is_heavy(self, name: str) -> bool:
        return crates.is_over_sqlite(self.uses, name)

    def share(self, name: str) -> int:
        return self.costs[name] // self.width[name]

    def next(self) -> str | None:
        """The crate to start, or nothing: of those that are ready the one with the longest chain. A crate
        over sqlite takes more memory than the others; two of them at most are built at a time."""
        if self.used >= self.jobs:
            return None
        is_full = sum(map(self.is_heavy, self.running)) >= AT_ONCE_OVER_SQLITE
        ready = [
            it for it in self.order
            if it not in [*self.done, *self.running] and not (is_full and self.is_heavy(it))
            and set(crates.below(self.uses, it)) <= set(self.done)
        ]
        return max(ready, key=self.chain.__getitem__) if ready else None

    def start(self, name: str) -> None:
        self.width[name] = min(self.width[name], self.jobs - self.used)
        self.used += self.width[name]
        self.running.append(name)

    def finish(self, name: str, seconds: float) -> None:
        self.running.remove(name)
        self.done.append(name)
        self.used -= self.width[name]
        self.cost_done += self.costs[name]
        self.seconds_done += self.width[name] * seconds

    def minutes_left(self) -> int:
        """At the pace so far: the costs by the number of jobs, or the longest chain, whichever is more."""
        left = [it for it in self.order if it not in self.done]
        longest = max(sum(self.costs[it] for it in left) // self.jobs, *(self.chain[it] for it in left))
        return (int(longest * (self.seconds_done + 1) / self.cost_done) + 60) // 60

    def report(self, name: str) -> str:
        text = f"{name} is done ({len(self.done)} of {len(self.order)})"
        if self.running:
            text += f"; now {' '.join(self.running)}"
        if len(self.done) < len(self.order):
            text += f"; about {self.minutes_left()} min left"
        return text


def copy_links(source: Path, target: Path) -> None:
    """A folder's files as links, or copies where there can be none."""
    try:
        shutil.copytree(source, target, symlinks=True, copy_function=os.link)
    except (OSError, shutil.Error):
        shutil.rmtree(target, ignore_errors=True)
        shutil.copytree(source, target, symlinks=True)


class Lanes:
    """The folders that crates are built in: this checkout, or copies of its sources."""

    def __init__(self, top: Path) -> None:
        self.top, self.copies = top, top / "out/lanes"
        self.taken: dict[str, Path] = {}

    def out(self, lane: Path, name: str) -> Path:
        return lane / "crates" / name / "out"

    def take(self, name: str, done: list[str]) -> Path:
        """The first folder that no crate is built in, ready for this one."""
        lane, number = self.top, 0
        while lane in self.taken.values():
            number += 1
            lane = self.copies / str(number)
        self.taken[name] = lane
        if lane != self.top:
            self.fill(lane, name, done)
        return lane

    def fill(self, lane: Path, name: str, done: list[str]) -> None:
        if not lane.exists():
            self.copy_sources(lane)
        for it in [*done, name]:
            self.link_part(lane, it, "rlib")
        self.link_part(lane, name, "incremental")

    def copy_sources(self, lane: Path) -> None:
        (lane / "crates").mkdir(parents=True)
        for file in ("crates.txt", "HANDLES"):
            if (self.top / file).exists():
                shutil.copy(self.top / file, lane)
        for folder in (self.top / "crates").iterdir():
            if folder.is_dir():
                target = lane / "crates" / folder.name
                shutil.copytree(folder, target, ignore=shutil.ignore_patterns("out", "must-fail*"))

    def link_part(self, lane: Path, name: str, part: str) -> None:
        source, target = self.out(self.top, name) / part, self.out(lane, name) / part
        if source.exists() and not target.exists():
            copy_links(source, target)

    def give_back(self, name: str) -> None:
        """Puts what rt made of a crate in a copy into the checkout."""
        lane = self.taken.pop(name)
        for part in ("rlib", "incremental") if lane != self.top else ():
            source, target = self.out(lane, name) / part, self.out(self.top, name) / part
            if source.exists():
                shutil.rmtree(target, ignore_errors=True)
                target.parent.mkdir(exist_ok=True)
                source.rename(target)


class Build:
    """One build. Each crate is built by a group of processes, so that it can be stopped with all that it
    started."""

    def __init__(self, top: Path, plan: Plan) -> None:
        self.top, self.plan, self.lanes = top, plan, Lanes(top)
        self.logs = Path(tempfile.mkdtemp())
        self.processes: dict[int, tuple[subprocess.Popen[bytes], str, float]] = {}
        self.is_busy = self.is_interrupted = self.is_log_kept = False

    def interrupt(self, *_: Any) -> None:
        """What a signal does: it ends the build, but not between two steps that belong together."""
        for number in SIGNALS:
            signal.signal(number, signal.SIG_IGN)
        self.is_interrupted = True
        if not self.is_busy:
            raise KeyboardInterrupt

    @contextlib.contextmanager
    def busy(self) -> Iterator[None]:
        self.is_busy = True
        yield
        self.is_busy = False
        if self.is_interrupted:
            raise KeyboardInterrupt

    def start(self, name: str) -> None:
        lane = self.lanes.take(name, self.plan.done)
        self.plan.start(name)
        jobs = ["--jobs", str(self.plan.width[name])]
        words = ["rt", "run", *jobs, "--", "--help"] if name == PROGRAM else ["rt", "lib", *jobs]
        none, both = subprocess.DEVNULL, subprocess.STDOUT
        with (self.logs / f"{name}.log").open("w") as log, self.busy():
            process = subprocess.Popen(
                words, cwd=lane / "crates" / name, stdin=none, stdout=log, stderr=both, process_group=0
            )
            self.processes[process.pid] = process, name, time.monotonic()

    def wait(self) -> str:
        """Waits for the end of a crate, and answers its name."""
        number, status = os.waitpid(-1, 0)
        with self.busy():
            process, name, began = self.processes.pop(number)
            process.returncode = status
            if status == 0:
                self.lanes.give_back(name)
                self.plan.finish(name, time.monotonic() - began)
        if status:
            self.fail(name)
        return name

    def all(self) -> None:
        finished = ""
        while len(self.plan.done) < len(self.plan.order):
            while name := self.plan.next():
                self.start(name)
            if finished:
                say(self.plan.report(finished))
            if not self.processes:
                raise Stop(3, "crates.txt has a circle")
            finished = self.wait()
        say(self.plan.report(finished))

    def fail(self, name: str) -> None:
        """Shows and keeps the log of a crate that failed."""
        self.stop()
        self.is_log_kept = True
        log = self.logs / f"{name}.log"
        lines = log.read_text(errors="replace").splitlines()[-LINES_OF_A_LOG:]
        print(*lines, sep="\n", file=sys.stderr)
        for other in self.logs.glob("*.log"):
            if other != log:
                other.unlink()
        raise Stop(3, f"{name} could not be built; the whole log is {log}")

    def stop(self) -> None:
        """Stops what runs. A process that has just begun may miss a signal, so each is sent until all have
        ended."""
        while self.processes:
            for number, (process, *_) in list(self.processes.items()):
                with contextlib.suppress(ProcessLookupError):
                    os.killpg(number, signal.SIGTERM)
                if process.poll() is not None:
                    del self.processes[number]
            time.sleep(0.1)
        for name in list(self.lanes.taken):
            self.lanes.give_back(name)
        shutil.rmtree(self.lanes.copies, ignore_errors=True)


class Record:
    """out/portal, the program, and out/portal.from: the sum of the sources that it was built from, the kit,
    and its own sum."""

    def __init__(self, top: Path) -> None:
        self.built, self.file = top / "out/portal", top / "out/portal.from"

    def is_current(self, sources: str, kit: str) -> bool:
        if not os.access(self.built, os.X_OK) or not self.file.is_file():
            return False
        rows = self.file.read_text(errors="replace").splitlines()
        return len(rows) > 1 and rows[0].split()[:1] == [sources] and rows[1] == kit

    def write(self, sources: str, kit: str) -> None:
        whole = hashlib.sha256(self.built.read_bytes()).hexdigest()
        self.file.write_text(f"{sources}\n{kit}\nsha256: {whole}\n")


class Made:
    """out/portal.made: the crates for which rt has kept something only since a build that has not come to its
    end."""

    def __init__(self, top: Path) -> None:
        self.top, self.file = top, top / "out/portal.made"

    def note(self, order: list[str]) -> None:
        with self.file.open("a") as file:
            file.writelines(f"{it}\n" for it in order if not (self.top / "crates" / it / "out").exists())

    def remove(self) -> None:
        if os.environ.get("PORTAL_KEEP") != "1":
            for name in self.file.read_text().splitlines():
                shutil.rmtree(self.top / "crates" / name / "out", ignore_errors=True)
        self.file.unlink()


def build(top: Path, plan: Plan, sources: str, kit: str) -> None:
    record, made = Record(top), Made(top)
    crowd = f"{len(plan.order)} crates, up to {plan.jobs} at a time"
    say(f"proving and building the program: {crowd}; half an hour or more ..")
    made.note(plan.order)
    record.file.unlink(missing_ok=True)
    shutil.rmtree(top / "out/lanes", ignore_errors=True)
    one = Build(top, plan)
    for number in SIGNALS:
        signal.signal(number, one.interrupt)
    try:
        one.all()
    except KeyboardInterrupt:
        raise Stop(130, "") from None
    finally:
        one.stop()
        if not one.is_log_kept:
            shutil.rmtree(one.logs)
    shutil.copy(top / "crates" / PROGRAM / "out/portal", f"{record.built}.new")
    os.replace(f"{record.built}.new", record.built)
    # An edit during the build may be in the program or not: with no record the next call builds again.
    if crates.sum_of_sources(top) == sources:
        record.write(sources, kit)
    else:
        say("the sources changed during the build: the next call builds again")
    made.remove()


def lock(top: Path) -> IO[str]:
    """One build at a time."""
    try:
        (top / "out").mkdir(exist_ok=True)
        file = (top / "out/portal.lock").open("w")
    except OSError:
        raise Stop(3, f"{top}/out cannot be written, so nothing can be built here") from None
    try:
        fcntl.flock(file, fcntl.LOCK_EX | fcntl.LOCK_NB)
    except BlockingIOError:
        say("waiting for another build ..")
        fcntl.flock(file, fcntl.LOCK_EX)
    return file


def read(path: str) -> str:
    try:
        return Path(path).read_text().strip()
    except OSError:
        return ""


def run(top: Path, words: list[str]) -> None:
    if words not in ([], ["--if-stale"]):
        raise Stop(2, "tools/build takes nothing, or --if-stale")
    kit = crates.kit_here()
    if not kit:
        raise Stop(3, "the command rt of the Rattle kit, which builds the program, is not on the path")
    asked, limit = os.environ.get("PORTAL_JOBS", ""), read("/sys/fs/cgroup/memory.max")
    jobs = jobs_of(asked, read("/proc/meminfo"), limit, len(os.sched_getaffinity(0)))
    with lock(top):
        sources = crates.sum_of_sources(top)
        if not words or not Record(top).is_current(sources, kit):
            build(top, Plan(crates.uses_of(top), read_budgets(top), jobs), sources, kit)


def main(words: list[str]) -> int:
    try:
        run(TOP, words)
    except Stop as end:
        if str(end):
            say(str(end))
        return end.status
    except KeyboardInterrupt:
        return 130
    return 0
