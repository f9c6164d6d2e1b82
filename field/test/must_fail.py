#!/usr/bin/python3
"""Tries the mutants of the kit: each is made in a copy, and its test has to fail of it as its table says.

    must_fail.py [--portal "CMD .."] [--kind unit|browser|packets|radius] [--table TABLE] [--labs N] [NAME ..]

Those of kinds `unit` and `browser` need no root; those of kind `radius` are tried if they are named, or with --kind. TABLE is a
file of mutants/ without its suffix. N at a time run side by side, each in a lab of its own. A mutant has survived that no test refuses, whose test fails
first in another way than expected, or whose test the kit as it is does not pass. The last line: 'N passed, M
failed'.
"""

from __future__ import annotations

import argparse
import os
import pathlib
import re
import shutil
import signal
import subprocess
import sys
import tempfile
from collections.abc import Callable, Iterator
from concurrent import futures
from dataclasses import dataclass
from typing import Any

from mutant_tables import DESCRIPTION, TOP, Misfit, Mutant, make, read_all, statement_at
from steady import BUSY, Span

PYTHON = "/usr/bin/python3"
SKIPPED = "passed over: "       # begins what was not tried
KINDS = ("unit", "browser", "packets", "radius")
FRAME = re.compile(r'^  File "(.+)", line (\d+), in (\w+)$', re.M)
RUNNING: set[subprocess.Popen[str]] = set()


@dataclass(frozen=True)
class Outcome:
    """What a test said of a kit: what failed, whether it ran to its end, why it was skipped, and the end of
    what it wrote."""
    failed: tuple[str, ...] = ()
    ended: bool = False
    skipped: str = ""
    rest: str = ""

    def refuses(self, mutant: Mutant) -> bool:
        """Whether it fails as the mutant's table says."""
        return any(failure.startswith(mutant.fails) for failure in self.failed)

    def passes(self) -> bool:
        """Whether the test came to its end, and nothing failed."""
        return self.ended and not self.failed


def run(words: list[str], seconds: float, **more: Any) -> subprocess.CompletedProcess[str]:
    """Runs a command that is ended, and cleans up after itself, where it takes longer than it may."""
    job = subprocess.Popen(words, stdout=subprocess.PIPE, stderr=subprocess.PIPE, text=True, **more)
    RUNNING.add(job)
    try:
        output, errors = job.communicate(timeout=seconds)
    except subprocess.TimeoutExpired:
        job.terminate()
        output, errors = job.communicate()
        errors += f" (ended after {seconds:.0f} s)"
    finally:
        RUNNING.discard(job)
    return subprocess.CompletedProcess(words, job.returncode, output, errors)


def first_statement(errors: str, test: str) -> str:
    """The statement of a test at which unittest says that it failed first."""
    for file, line, name in FRAME.findall(errors.partition("\nFAIL: ")[2]):
        if name == test:
            return statement_at(pathlib.Path(file), int(line))
    return ""


def kit_environment(tree: pathlib.Path, **more: str) -> dict[str, str]:
    """The environment in which Python imports the modules of a tree's kit, and none of another kit."""
    folders = ("field", "field/test", "field/radius/test")
    return {**os.environ, "PYTHONPATH": ":".join(str(tree / folder) for folder in folders), **more}


def run_unit(tree: pathlib.Path, mutant: Mutant, portal: str) -> Outcome:
    """Runs a unit test. Where it stops by an error it refuses nothing."""
    file, cls, test = mutant.test.split("::")
    path = tree / file
    done = run([PYTHON, "-m", "unittest", "-v", f"{path.stem}.{cls}.{test}"], 240, cwd=path.parent,
               env=kit_environment(tree, FIELD_PORTAL=portal))
    skipped = re.search(r"skipped [\"'](.*)[\"']\n", done.stderr)
    statement = "" if "\nERROR: " in done.stderr else first_statement(done.stderr, test)
    return Outcome((statement,) if statement else (), "\nRan 1 test" in done.stderr, skipped[1] if skipped else "",
                   done.stderr[-300:])


def run_by_pytest(tree: pathlib.Path, mutant: Mutant, portal: str) -> Outcome:
    """Runs a test in a browser, with packets or with FreeRADIUS, which ends with what fails first."""
    name = mutant.test.removeprefix("field/")
    done = run([str(tree / "field/test/run"), *(["--portal", portal] if portal else []), name], 600,
               env=kit_environment(tree))
    lines = [line.partition("  [")[0] for line in done.stdout.splitlines()]
    failed = [line.removeprefix(f"FAIL {name}: ") for line in lines if line.startswith(f"FAIL {name}: ")]
    skipped = [line.removeprefix(SKIPPED).partition(": ")[2] for line in lines if line.startswith(SKIPPED)]
    ended = bool(failed) or f"ok   {name}" in lines
    return Outcome(tuple(failed), ended, "".join(skipped), done.stdout[-300:] + done.stderr[-300:])


def run_test(tree: pathlib.Path, mutant: Mutant, portal: str, goal: Callable[[Outcome], bool]) -> Outcome:
    """Runs the test of a mutant over a tree, once more where it did not come to the goal while other work
    held the machine up; three times in all."""
    outcome = Outcome()
    for _ in range(3):
        span = Span()
        outcome = (run_unit if mutant.kind == "unit" else run_by_pytest)(tree, mutant, portal)
        if goal(outcome) or span.held_up() < BUSY:
            break
    return outcome


def copy_kit(tree: pathlib.Path) -> None:
    """Copies the kit, and the API's description beside it, to where all users can read them."""
    tree.chmod(0o755)
    ignored = shutil.ignore_patterns("__pycache__", "shots")
    shutil.copytree(TOP / "field", tree / "field", symlinks=True, ignore=ignored)
    if (TOP / DESCRIPTION).is_file():
        (tree / DESCRIPTION).parent.mkdir()
        shutil.copy(TOP / DESCRIPTION, tree / DESCRIPTION)


def run_unchanged(mutant: Mutant, portal: str) -> Outcome:
    """Runs the test of a mutant over the kit as it is, which is to pass."""
    with tempfile.TemporaryDirectory() as folder:
        tree = pathlib.Path(folder)
        copy_kit(tree)
        return run_test(tree, mutant, portal, Outcome.passes)


def try_mutant(mutant: Mutant, portal: str, before: Outcome | None) -> str:
    """Tries a mutant: `refused`, why it was skipped, or how it survived. `before`: its step over the kit as
    it is."""
    if before and not before.passes():
        return "SURVIVED the kit as it is does not pass the check: " + before.rest
    with tempfile.TemporaryDirectory() as folder:
        tree = pathlib.Path(folder)
        copy_kit(tree)
        try:
            make(mutant.changes, tree)
        except Misfit as fault:
            return f"SURVIVED {fault}"
        outcome = run_test(tree, mutant, portal, lambda outcome: outcome.refuses(mutant))
    if outcome.skipped:
        return SKIPPED + outcome.skipped
    first = outcome.failed[0] if outcome.failed else "nothing"
    return "refused" if outcome.refuses(mutant) else f"SURVIVED first failed: {first}; {outcome.rest}"


def side_by_side(mutants: list[Mutant], portal: str, labs: int) -> Iterator[tuple[Mutant, str]]:
    """Tries so many at a time: first each step over the kit as it is, for which `test/run` does that of the
    unit tests, then the mutants."""
    steps = {mutant.test: mutant for mutant in mutants if mutant.kind != "unit"}
    with futures.ThreadPoolExecutor(labs) as pool:
        before = dict(zip(steps, pool.map(lambda mutant: run_unchanged(mutant, portal), steps.values())))
        verdicts = pool.map(lambda mutant: try_mutant(mutant, portal, before.get(mutant.test)), mutants)
        yield from zip(mutants, verdicts)


def choose(kinds: list[str], names: list[str], table: str = "") -> list[Mutant]:
    """The mutants that are named, or if none is those of these kinds, of one table if that is named; those of unit
    tests come first."""
    mutants = [mutant for mutant in read_all(table=table) if mutant.kind in KINDS]
    unknown = set(names) - {mutant.name for mutant in mutants}
    if unknown:
        raise SystemExit(f"must_fail.py: no such mutant: {', '.join(sorted(unknown))}")
    mutants = [mutant for mutant in mutants if mutant.name in names or not names and mutant.kind in kinds]
    return sorted(mutants, key=lambda mutant: (KINDS.index(mutant.kind), mutant.test))


def end_all(*_: object) -> None:
    """Ends all labs that run, and this program, at SIGTERM."""
    for job in list(RUNNING):
        job.terminate()
    sys.exit(143)


def main() -> int:
    """Tries the mutants that were named, or those of a kind; 0 where its test refuses each of them."""
    words = argparse.ArgumentParser(description="The mutants of the kit, each refused by its test.")
    words.add_argument("--portal", default="", help="the program, as a command line; else the stand-in")
    words.add_argument("--kind", action="append", choices=KINDS, help="of this kind; else all but radius")
    words.add_argument("--table", default="", help="of this table alone")
    words.add_argument("--labs", type=int, default=max(4, os.cpu_count() or 1), help="how many at a time")
    words.add_argument("names", nargs="*")
    args = words.parse_args()
    signal.signal(signal.SIGTERM, end_all)
    sys.dont_write_bytecode = True
    mutants = choose(args.kind or ["unit", "browser", "packets"], args.names, args.table)
    survivors, skipped = 0, list[str]()
    for mutant, verdict in side_by_side(mutants, args.portal, args.labs):
        if verdict.startswith(SKIPPED):
            skipped.append(f"{SKIPPED}{mutant.name}: {verdict.removeprefix(SKIPPED)}")
            continue
        survivors += verdict != "refused"
        word = "ok  " if verdict == "refused" else "FAIL"
        lines = verdict.replace("\n", "\n  ")      # (so that no line that a test wrote looks like one of these)
        print(f"{word} {mutant.name}: {lines} by `{mutant.fails}`", flush=True)
    print(*skipped, f"{len(mutants) - survivors - len(skipped)} passed, {survivors} failed", sep="\n")
    return int(survivors > 0)


if __name__ == "__main__":
    sys.exit(main())
