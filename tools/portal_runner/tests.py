"""Runs the tests: tests/usage.txt says how it is called, tests/steps.toml what there is. ./test calls it."""

from __future__ import annotations

import difflib
import subprocess
import sys
import threading
from pathlib import Path
from typing import NoReturn

from . import processes
from .budgets import write_budgets
from .folders import make_folder, remove
from .inputs import Repository
from .kept import Store, folder_of_user
from .report import Report
from .results import Reasons
from .machine import Machine
from .room import Room
from .run import Chosen, Options, Run
from .steps import GROUPS, BadTable, Table

TOP = Path(__file__).resolve().parent.parent.parent


def refuse(why: str, usage: str) -> NoReturn:
    """Says what is wrong with the command line, and the first lines of the usage."""
    first = usage.partition("\n\n")[0].rstrip()
    print(f"test: {why}; ./test --help says more", first, sep="\n", file=sys.stderr)
    raise SystemExit(2)


def read_options(words: list[str], usage: str) -> Options:
    """What was asked for; it ends the program where that is wrong, or is --help."""
    options = {"--anew": "is_anew", "--budgets": "has_budgets"}
    given: dict[str, object] = {}
    names: list[str] = []
    for word in words:
        if word == "--help":
            print(usage, end="")
            raise SystemExit(0)
        if word in options:
            given[options[word]] = True
        elif word == "--changed" or word.startswith("--changed="):
            given["base"] = word.partition("=")[2] or "HEAD"
        elif word.startswith("-"):
            near = difflib.get_close_matches(word, [*options, "--changed", "--help"], 1)
            refuse(f"unknown option: {word}{f' (did you mean {near[0]}?)' if near else ''}", usage)
        else:
            names.append(word)
    if names == ["whole"]:
        names, given["is_whole"] = ["all"], True
    if "base" in given and names or len(names) > 1 and set(names) & {*GROUPS, "whole"}:
        refuse("one of first, field, all, whole and --changed, or names", usage)
    return Options(words=tuple(names), **given)  # type: ignore[arg-type]


def changed_since(top: Path, base: str) -> set[str]:
    """The files that were changed, added or removed since a commit."""
    found: set[str] = set()
    for words in (
        ["diff", "--name-only", "-z", "--no-renames", base],
        ["ls-files", "-z", "--others", "--exclude-standard"],
    ):
        ran = subprocess.run(["git", "-C", str(top), *words], capture_output=True, text=True)
        if ran.returncode:
            raise BadTable(f"git does not know what was changed: {ran.stderr.strip()}")
        found |= set(filter(None, ran.stdout.split("\0")))
    return found


def choose(table: Table, options: Options) -> tuple[list[Chosen], list[str]]:
    """What is to run, and the groups that are left out."""
    if options.base:
        return [Chosen(it) for it in table.changed(changed_since(table.repository.top, options.base))], []
    group = options.words[0] if options.words else GROUPS[0]
    if group in GROUPS:
        return [Chosen(it) for it in table.of_group(group)], list(GROUPS[GROUPS.index(group) + 1 :])
    found: list[Chosen] = []
    for word in options.words:
        name, _, test = word.partition("::")
        steps = table.named(name)
        if test and len(steps) > 1:
            raise BadTable(f"{name} has several steps: {', '.join(it.name for it in steps)}")
        for step in steps:
            step.command(test)  # (which says where a step has no tests)
            found.append(Chosen(step, test))
    return list(dict.fromkeys(found)), []


def run_tests(options: Options, top: Path, folder: Path, groups: processes.Groups) -> int:
    lock = threading.RLock()

    def say(*lines: str) -> None:
        with lock:
            print(*lines, sep="\n", flush=True)

    try:
        table = Table(Repository(top))
        machine = Machine(table.repository, table.probes)
        chosen, not_run = choose(table, options)
        machine.find_program(folder / "program")
        store = Store(folder_of_user())
        store.prune()
        report = Report(table, Reasons(top), say)
        run = Run(table, machine, store, Room(table, machine, folder, groups), options, report)
        run.all(chosen)
    except BadTable as fault:
        print(f"test: {fault}", file=sys.stderr)
        return 2
    if options.has_budgets:
        write_budgets(top, report.took)
    return report.finish(not_run)


def main(words: list[str]) -> int:
    options = read_options(words, (TOP / "tests/usage.txt").read_text(encoding="utf-8"))
    processes.print_all()
    groups, folder = processes.Groups(), make_folder()
    return processes.run_until_stopped(
        lambda: run_tests(options, TOP, folder, groups), groups, lambda: remove(folder)
    )


if __name__ == "__main__":
    sys.exit(main(sys.argv[1:]))
