"""Tries the mutants of the package, deb/test/mutants.toml: those of one run are made in one copy of the tree.

    deb/test/must_fail [--portal FILE] [--base FOLDER] [--logs FOLDER] [--only RUN ..]

A run is deb/test/run (root, some minutes) or deb/test/package over that copy, with the tests of its mutants.
A mutant is refused if its test fails first as its table says. Each line: ok or FAIL, the run, the mutant,
what its test said. At the end the table. The last line: 'N passed, M failed'.
"""

from __future__ import annotations

import argparse
import os
import pathlib
import shutil
import subprocess
import sys
import tempfile

from mutant_tables import TOP, Misfit, Mutant, Table, make, read_table

TABLE = TOP / "deb/test/mutants.toml"


def make_copy(goal: pathlib.Path, mutants: list[Mutant]) -> str:
    """The tree with the mutants; what could not be made."""
    goal.mkdir()
    for name in ("deb", "field", "docs", "examples", "dist"):
        shutil.copytree(TOP / name, goal / name, symlinks=True,
                        ignore=shutil.ignore_patterns("out", "__pycache__"))
    for name in ("VERSION", "CHANGELOG.md", "crates.txt", "LICENSE-MIT", "LICENSE-APACHE", "pyproject.toml"):
        shutil.copy(TOP / name, goal / name)
    (goal / "tools").mkdir()
    for name in ("current", "release", "verify", "version"):
        shutil.copy(TOP / "tools" / name, goal / "tools" / name)
    try:
        for mutant in mutants:
            make(mutant.changes, goal)
    except Misfit as fault:
        return str(fault)
    return ""


def named(mutant: Mutant) -> str:
    """The mutant's test, as the command of its run takes it."""
    file, _, test = mutant.test.partition("::")
    return f"{pathlib.PurePath(file).name}::{test}"


def run_tests(copy: pathlib.Path, command: list[str], tests: list[str],
              args: argparse.Namespace) -> list[tuple[str, str]]:
    """The tests of a copy that fail, each with what it says first."""
    script, *words = command
    words += ["--portal", str(args.portal)] if args.portal else []
    env = dict(os.environ)
    if script == "deb/test/run":
        words += ["--base", str(args.base)]
        # it makes the package of the version before, which is in the history; tests of a release commit and tag
        env["GIT_DIR"] = str(TOP / ".git")
    done = subprocess.run([str(copy / script), *words, *dict.fromkeys(tests)], capture_output=True, text=True, env=env)
    if args.logs:
        (args.logs / f"{copy.name}.log").write_text(done.stdout + done.stderr)
    lines = [line.removeprefix("FAIL ").partition(": ") for line in done.stdout.splitlines()
             if line.startswith("FAIL ")]
    return [(test.partition("[")[0], words) for test, _, words in lines]


# a run, a mutant, and what its test said, or nothing where that refused nothing
Row = tuple[str, str, str]


def try_run(name: str, table: Table, room: pathlib.Path, args: argparse.Namespace) -> list[Row]:
    """Makes the mutants of a run in one tree, and tries them."""
    mutants = [mutant for mutant in table.mutants if mutant.run == name]
    fault = make_copy(room / name, mutants)
    failed = [] if fault else run_tests(room / name, table.runs[name], [named(mutant) for mutant in mutants],
                                        args)
    rows = []
    for mutant in mutants:
        said = [words for test, words in failed if test == named(mutant)]
        refused = next((words for words in said if words.startswith(mutant.fails)), "")
        why = refused[:160] or fault or f"first failed: {said[0][:300] if said else 'nothing'}"
        print(f"{'ok  ' if refused else 'FAIL'} {name}: {mutant.name}  [{why}]", flush=True)
        rows.append((name, mutant.name, mutant.fails if refused else ""))
    for test, words in failed:
        if not words.startswith(tuple(mutant.fails for mutant in mutants)):
            print(f"note {name}: failed as well: {test}: {words[:100]}")
    return rows


def main() -> int:
    table = read_table(TABLE)
    words = argparse.ArgumentParser(description="The mutants of the package, and which check refuses which.")
    words.add_argument("--portal", type=pathlib.Path, help="the program; else the shipped one")
    base = "/var/tmp/portal-test-base"
    words.add_argument("--base", type=pathlib.Path, default=base, help="the base of the machines")
    words.add_argument("--logs", type=pathlib.Path, help="a folder for what the tests said")
    words.add_argument("--only", nargs="+", choices=table.runs, default=list(table.runs), metavar="RUN")
    args = words.parse_args()
    with tempfile.TemporaryDirectory(dir="/var/tmp") as room:
        rows = [row for name in args.only for row in try_run(name, table, pathlib.Path(room), args)]
    print("\n| Run | Mutant | Refused by |\n|---|---|---|")
    for run, mutant, check in rows:
        print(f"| {run} | {mutant} | {check or 'none'} |")
    survivors = sum(not check for _, _, check in rows)
    print(f"{len(rows) - survivors} passed, {survivors} failed")
    return int(survivors > 0)


if __name__ == "__main__":
    sys.exit(main())
