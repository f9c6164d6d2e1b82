"""What a run of ./test prints: each step as it ends, with what is left; and at the end what failed, what was
skipped and why, what took more than its budget, and the counts."""

from __future__ import annotations

import threading
import time
from collections.abc import Callable, Iterable

from .budgets import FILE, fixed_work
from .kept import Kept
from .results import Counts, Reasons, Result, slowest
from .room import Ran
from .steps import Step, Table

# How often its budget a step may take before it is named, and before it fails; and how many seconds always.
NAMED, FAILED, LEAST = 1.5, 3.0, 10.0
WORDS = {"field": "./test field", "all": "./test all"}


class Report:
    def __init__(self, table: Table, reasons: Reasons, say: Callable[..., None]) -> None:
        self.table, self.reasons, self.say = table, reasons, say
        self.lock = threading.RLock()
        self.results: dict[str, Result] = {}
        self.kept: dict[str, tuple[Step, Kept]] = {}
        self.unable: dict[str, tuple[Step, str]] = {}
        self.others: list[str] = []
        self.faults: list[str] = []
        self.took: dict[str, float] = {}
        self.slow: list[str] = []
        self.processor = 0.0
        self.start, self.work, self.done = time.monotonic(), 1.0, 0.0
        self.count, self.ended = 0, 0
        self.speed = 1.0

    def cannot(self, step: Step, why: str) -> None:
        self.unable[step.name] = step, why

    def cached(self, step: Step, kept: Kept) -> None:
        self.kept[step.name] = step, kept
        self.took[step.name] = kept.seconds

    def left_to_whole(self, step: Step) -> None:
        self.others.append(step.name)

    def begin(self, steps: list[Step]) -> None:
        """Says what is kept, a line a part, and how much there is to do."""
        parts: dict[str, list[Kept]] = {}
        for step, kept in self.kept.values():
            parts.setdefault(step.part, []).append(kept)
        for part, found in parts.items():
            of = f", {len(found)} steps" if len(found) > 1 else ""
            self.say(f"test: {part}: {sum(it.passed for it in found)} passed{of} (cached)")
        self.count, self.work = len(steps), sum(it.budget for it in steps) or 1.0
        if steps:
            self.speed = self.slowness()
            self.say(f"test: {len(steps)} steps to run, {minutes(self.work)} of processor time by {FILE}")

    def slowness(self) -> float:
        """How much slower this machine is now than the one of the budgets; 1 where it is not."""
        of_budgets = self.table.budgets.get("machine")
        return max(1.0, fixed_work() / of_budgets) if of_budgets else 1.0

    def take(self, step: Step, ran: Ran, budget: float = 0.0) -> bool:
        """Says how a step ended, and whether it passed; with a budget it must not take it three times."""
        faults = self.over(step, ran.processor, budget)
        for line in ran.result.passed_over():
            if not self.reasons.holds(line):
                faults.append(f"{step.name} skips for no reason that holds: {line}")
        with self.lock:
            self.results[step.name] = ran.result
            self.processor += ran.processor
            self.ended, self.done = self.ended + 1, self.done + step.budget
            passed, failed = ran.result.counts
            lines = ran.result.failures() if failed else ran.result.notes()
            took = f"{ran.processor:.0f} s of the processor in {ran.clock:.0f} s"
            self.say(
                *lines,
                *(f"test: failed: {it}" for it in faults),
                f"test: {step.name}: {passed} passed, {failed} failed, {took}{self.left()}",
            )
            self.faults += faults
        return not failed and not faults

    def over(self, step: Step, seconds: float, budget: float) -> list[str]:
        """What is wrong with a step that took three times its budget; at one and a half times it is named."""
        if step.name not in self.table.budgets or seconds <= max(NAMED * budget, LEAST) or not budget:
            return []
        times = seconds / max(self.speed, self.slowness()) / budget
        said = f"{step.name} took {seconds:.0f} s of the processor, on this machine {times:.1f} times its "
        said += f"budget of {budget:.0f} s"
        if times > NAMED and times <= FAILED:
            with self.lock:
                self.slow.append(said)
        return [said] if times > FAILED else []

    def left(self) -> str:
        """How much is done, and about how long the rest takes."""
        if self.ended >= self.count:
            return ""
        spent = time.monotonic() - self.start
        more = spent * (self.work - self.done) / self.done if self.done else 0.0
        return f"  ({self.ended} of {self.count}, about {minutes(more)} left)"

    def again(self, step: Step) -> None:
        with self.lock:
            self.say(f"test: {step.name}: once more, since a check failed")
            del self.results[step.name]
            self.faults = [it for it in self.faults if not it.startswith(f"{step.name} ")]
            self.ended, self.done = self.ended - 1, self.done - step.budget

    def held_up(self, step: Step, failed: list[str]) -> None:
        self.faults.append(f"{step.name} did not run, as {', '.join(failed)} failed")

    def contradicts(self, step: Step, before: Kept) -> None:
        self.faults.append(
            f"{step.name} passed before with {before.passed} checks over the same inputs: one is missing in "
            "tests/steps.toml, or a test passes now and then"
        )

    def counts(self) -> Counts:
        found = [it.counts for it in self.results.values()] + [
            Counts(it.passed, 0) for _, it in self.kept.values()
        ]
        return Counts(sum(it.passed for it in found), sum(it.failed for it in found) + len(self.faults))

    def list_skipped(self) -> None:
        """What was passed over, and why."""
        for name in sorted(self.results):
            for line in self.results[name].passed_over():
                self.say(f"test: skipped: {line}")
        for line in dict.fromkeys(line for _, kept in self.kept.values() for line in kept.skipped):
            self.say(f"test: skipped: {line} (cached)")
        parts: dict[tuple[str, str], int] = {}
        for step, why in self.unable.values():
            parts[step.part, why] = parts.get((step.part, why), 0) + 1
        for (part, why), count in parts.items():
            self.say(f"test: skipped: {part}{f', {count} steps' if count > 1 else ''}: {why}")

    def list_not_run(self, groups: Iterable[str]) -> None:
        """By which word what was not asked for runs."""
        for group in groups:
            parts = dict.fromkeys(it.part for it in self.table.steps if it.group == group)
            self.say(f"test: not run: {', '.join(parts)} ({WORDS[group]})")
        if self.others:
            self.say(
                f"test: not run, as little of theirs has changed: {parts_of(self.others)} (./test whole)"
            )

    def finish(self, not_run: Iterable[str] = ()) -> int:
        """Says the rest; the last line has the counts. Answers the status."""
        for line in slowest(list(self.results.values())):
            self.say(f"test: slowest: {line}")
        self.list_skipped()
        self.list_not_run(not_run)
        for line in self.slow:
            self.say(f"test: over its budget: {line}")
        for name in sorted(self.results):
            result = self.results[name]
            for line in result.failed_lines() if result.counts.failed else []:
                self.say(f"test: failed: {name}: {line}")
        for line in self.faults:
            self.say(f"test: failed: {line}")
        spent = time.monotonic() - self.start
        of = f"{len(self.results)} steps ran, {len(self.kept)} are (cached)"
        self.say(f"test: {of}; {self.processor:.0f} s of the processor, {minutes(spent)} by the clock")
        passed, failed = self.counts()
        self.say(f"{passed} passed, {failed} failed")
        return int(failed > 0)


def minutes(seconds: float) -> str:
    return f"{seconds:.0f} s" if seconds < 100 else f"{seconds / 60:.0f} min"


def parts_of(names: list[str]) -> str:
    """The parts of these steps, each with their number."""
    parts: dict[str, int] = {}
    for name in names:
        part = name.partition(":")[0]
        parts[part] = parts.get(part, 0) + 1
    return ", ".join(f"{part} ({count})" for part, count in parts.items())
