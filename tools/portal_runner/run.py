"""One run of ./test: which steps run, in which order, and what is kept of them."""

from __future__ import annotations

import dataclasses
import os
import threading
import traceback
from typing import NamedTuple

from .inputs import Changed
from .kept import Kept, Store
from .report import Report
from .results import Counts, Result
from .machine import Machine
from .room import Ran, Room
from .steps import Step, Table

MORE_RUNS = 2  # of a step that looks at times, where a check failed
MEMORY_TO_SPARE = 2.0


@dataclasses.dataclass(frozen=True)
class Options:
    """What was asked for: a group, or names of parts, steps and tests, or what was changed since a commit."""

    words: tuple[str, ...] = ()
    base: str = ""
    is_whole: bool = False
    is_anew: bool = False
    has_budgets: bool = False


class Chosen(NamedTuple):
    """A step that is to run, and the test of it that was named, if any."""

    step: Step
    test: str = ""


class Run:
    """One run: what is taken from the store, what runs, and what is kept."""

    def __init__(
        self, table: Table, machine: Machine, store: Store, room: Room, options: Options, report: Report
    ) -> None:
        self.table, self.machine, self.store, self.room = table, machine, store, room
        self.options, self.report = options, report
        self.processors = float(len(os.sched_getaffinity(0)))
        self.memory = os.sysconf("SC_PAGE_SIZE") * os.sysconf("SC_PHYS_PAGES") / 2**30 - MEMORY_TO_SPARE
        self.digests: dict[str, str] = {}
        self.changed = threading.Condition()
        self.running: list[Step] = []
        self.failed: set[str] = set()

    def decide(self, chosen: Chosen) -> bool:
        """Whether a step is to run: not where it cannot run here, or where its result is kept."""
        step = chosen.step
        why = self.machine.why_not(step)
        if why:
            self.report.cannot(step, why)
            return False
        if chosen.test:
            return True
        self.digests[step.name] = digest = self.table.digest(step, self.machine.facts(step))
        kept = None if self.options.is_anew else self.store.get(digest)
        if not kept and not self.options.is_whole and not self.options.is_anew:
            kept = self.store.get(self.digest_of_most(step))
            if kept:
                self.report.left_to_whole(step)
        if kept:
            self.report.cached(step, kept)
        return not kept

    def digest_of_most(self, step: Step) -> str:
        """Over all but what a step carries, and but the program where of a new one a sample is enough."""
        return "most-" + self.table.digest(step, self.machine.facts(step, step.is_sampled), is_whole=False)

    def weights(self, chosen: list[Chosen]) -> dict[str, float]:
        """Of each step the seconds until all is done that waits for it."""
        steps = {it.step.name: it.step for it in chosen}
        found: dict[str, float] = {}

        def weight(name: str) -> float:
            if name not in found:
                after = [weight(it.name) for it in steps.values() if name in it.after]
                found[name] = steps[name].budget / max(1.0, steps[name].seats) + max(after, default=0.0)
            return found[name]

        for name in steps:
            weight(name)
        return found

    def fits(self, step: Step, waiting: set[str]) -> bool:
        """Whether a step may begin: what it waits for has ended, and there is room for it."""
        if any(it in waiting or it in {one.name for one in self.running} for it in step.after):
            return False
        if step.lane and step.lane in {it.lane for it in self.running}:
            return False
        seats = sum(it.seats for it in self.running) + step.seats
        memory = sum(it.memory for it in self.running) + step.memory
        return not self.running or seats <= self.processors and memory <= self.memory

    def run_steps(self, chosen: list[Chosen]) -> None:
        """Runs these side by side; what takes longest to its end begins first."""
        weights = self.weights(chosen)
        waiting = sorted(chosen, key=lambda it: (it.step.group != "first", -weights[it.step.name]))
        with self.changed:
            while waiting or self.running:
                names = {it.step.name for it in waiting}
                for it in [it for it in waiting if self.failed & set(it.step.after)]:
                    waiting.remove(it)
                    self.failed.add(it.step.name)
                    self.report.held_up(it.step, sorted(self.failed & set(it.step.after)))
                found = next((it for it in waiting if self.fits(it.step, names)), None)
                if found:
                    waiting.remove(found)
                    self.running.append(found.step)
                    threading.Thread(target=self.run_one, args=(found,), daemon=True).start()
                elif self.running:
                    self.changed.wait()

    def run_one(self, chosen: Chosen) -> None:
        step = chosen.step
        try:
            ran = self.room.run(step, chosen.test)
            self.take(chosen, ran)
        except Exception as fault:
            if self.room.groups.is_stopped:
                return
            said = f"FAILED {fault}\n" if isinstance(fault, Changed) else traceback.format_exc()
            self.report.take(step, Ran(Result(said, Counts(0, 1)), 0.0, 0.0))
            self.failed.add(step.name)
        with self.changed:
            self.running.remove(step)
            self.changed.notify_all()

    def take(self, chosen: Chosen, ran: Ran) -> None:
        """Keeps what passed, and says what failed. What took too long fails, but holds up no step: its checks
        passed."""
        step, is_measured = chosen.step, self.options.has_budgets
        is_good = self.report.take(step, ran, 0.0 if chosen.test or is_measured else step.budget)
        if ran.result.counts.failed:
            self.failed.add(step.name)
        if chosen.test:
            return
        self.report.took[step.name] = ran.processor
        digests = self.digests[step.name], self.digest_of_most(step)
        kept = Kept(ran.result.counts.passed, ran.result.passed_over(), round(ran.processor, 1))
        before = self.store.get(digests[0]) if self.options.is_anew else None
        if before and (not is_good or before[:2] != kept[:2]):
            self.report.contradicts(step, before)
            is_good = False
        for digest in digests:
            if is_good:
                self.store.keep(digest, step.name, kept)
            else:
                self.store.forget(digest)

    def run_again(self, chosen: list[Chosen]) -> None:
        """Runs what looks at times and failed once more, now alone."""
        for it in chosen:
            for _ in range(MORE_RUNS):
                if it.step.is_timed and it.step.name in self.failed and it.step.name in self.report.results:
                    self.report.again(it.step)
                    self.failed.discard(it.step.name)
                    self.run_steps([it])

    def all(self, chosen: list[Chosen]) -> None:
        left = [it for it in chosen if self.decide(it)]
        self.report.begin([it.step for it in left])
        self.run_steps(left)
        self.run_again(left)
