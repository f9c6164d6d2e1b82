"""Reads the tables of mutants, `field/test/mutants/*.toml` and `deb/test/mutants.toml`, and makes mutants.

    mutant_tables.py    looks whether each mutant can be made and whether its test is there; python3 is enough

A mutant is a change of one text, or of several, that a test must refuse:

    [a_warning_is_a_fault]
    file = "field/doctor"       # from the top of the repository
    old = "finding.state is State.WRONG for"
    new = "finding.state is not State.GOOD for"
    test = "field/test/test_doctor.py::Command::test_warnings_alone_are_no_fault"
    fails = "self.assertEqual(status, 0)"

`fails` is how the first failure of the test begins: the words of a check, or the statement of a unit test.
`old` stands in the file once, or as often as `times` says. A table `also` has a further change, of another
file if it names one. A mutant of the package has `run`, too: all that name one run are made in one tree, and
its command, in the table `runs`, runs their tests together. The last line: 'N passed, M failed'.
"""

from __future__ import annotations

import ast
import functools
import pathlib
import re
import sys
import tomllib
from collections.abc import Iterator
from dataclasses import dataclass
from typing import Any, NamedTuple

TOP = pathlib.Path(__file__).resolve().parents[2]
TABLES = ("field/test/mutants/*.toml", "deb/test/mutants.toml")
DESCRIPTION = "docs/openapi.yaml"       # not there where the kit stands outside of its repository
CHANGE, WORDS = {"file", "old", "new", "times"}, {"test", "run", "fails", "also"}
SENTENCE, VALUE = 8, "\0"    # the least characters of the words of a check; what stands for a value within
ERROR = re.compile(r"\w+(?:Error|Expired): ")        # begins a failure that is no check's


class Misfit(Exception):
    """Why a mutant cannot be made, or a table cannot be read."""


class Change(NamedTuple):
    """A text of a file that another one replaces."""
    file: str
    old: str
    new: str
    times: int

    def apply(self, text: str) -> str:
        """The file's text with the change."""
        if text.count(self.old) != self.times:
            raise Misfit(f"{self.file} has {self.old!r} {text.count(self.old)} times, expected {self.times}")
        return text.replace(self.old, self.new)


@dataclass(frozen=True)
class Mutant:
    """Changes that `test` must refuse, by a first failure that begins with `fails`; with the others of `run`."""
    name: str
    changes: tuple[Change, ...]
    fails: str
    test: str
    run: str = ""

    @property
    def kind(self) -> str:
        """How the mutant is tried: package, radius, packets, browser, or unit by unittest."""
        if self.run:
            return "package"
        kinds = (("field/radius/test/", "radius"), ("field/test/e2e", "packets"), ("field/test/browser_history", "browser"))
        return next((kind for begin, kind in kinds if self.test.startswith(begin)), "unit")


class Table(NamedTuple):
    mutants: list[Mutant]
    runs: dict[str, list[str]]


def change_of(name: str, row: dict[str, Any], file: str = "") -> Change:
    """The change of a file that a row of a table describes. Misfit: it describes none."""
    change = Change(row.get("file", file), row.get("old", ""), row.get("new", ""), row.get("times", 1))
    if not change.file or not change.old or change.old == change.new or "new" not in row or change.times < 1:
        raise Misfit(f"{name} lacks a file or a text, or changes nothing")
    return change


def mutant_of(name: str, row: dict[str, Any]) -> Mutant:
    """The mutant that a row of a table describes. Misfit: it describes none."""
    also = row.get("also", [])
    odd = [*(row.keys() - CHANGE - WORDS), *(key for more in also for key in more.keys() - CHANGE)]
    if odd or not row.get("test") or not row.get("fails"):
        raise Misfit(f"{name} has {odd}" if odd else f"{name} needs test and fails")
    first = change_of(name, row)
    changes = (first, *(change_of(name, more, first.file) for more in also))
    return Mutant(name, changes, row["fails"], row["test"], row.get("run", ""))


def read_table(path: pathlib.Path) -> Table:
    """The mutants of a table, and the commands of its runs."""
    rows = tomllib.loads(path.read_text(encoding="utf-8"))
    runs = rows.pop("runs", {})
    mutants = [mutant_of(name, row) for name, row in rows.items()]
    odd = set(runs) ^ {it.run for it in mutants if it.run}
    if odd:
        raise Misfit(f"{path.name} lacks a run, or has one that nothing is tried by: {sorted(odd)}")
    return Table(mutants, runs)


def read_all(top: pathlib.Path = TOP, table: str = "") -> list[Mutant]:
    """The mutants of all tables that are there, or of the one of this name."""
    paths = [path for pattern in TABLES for path in sorted(top.glob(pattern)) if table in ("", path.stem)]
    mutants = [mutant for path in paths for mutant in read_table(path).mutants]
    names = [mutant.name for mutant in mutants]
    if len(names) != len(set(names)):
        raise Misfit(f"one name for two mutants: {sorted({name for name in names if names.count(name) > 1})}")
    return mutants


def make(changes: tuple[Change, ...], tree: pathlib.Path) -> None:
    """Makes the changes in a tree."""
    for change in changes:
        path = tree / change.file
        if not path.is_file():
            raise Misfit(f"there is no {change.file}")
        path.write_text(change.apply(path.read_text(encoding="utf-8")), encoding="utf-8")


# Whether each can be made, and its test is there


def faults_of_changes(mutants: list[Mutant], top: pathlib.Path) -> Iterator[str]:
    """What is wrong with the mutants' changes; those of one run are made in one tree."""
    trees = dict[str, dict[str, str]]()
    for mutant in mutants:
        texts = trees.setdefault(mutant.run, {}) if mutant.run else {}
        try:
            for change in mutant.changes:
                text = texts.get(change.file) or (top / change.file).read_text(encoding="utf-8")
                texts[change.file] = change.apply(text)
        except (Misfit, OSError) as fault:
            yield f"{mutant.name}: {fault}"


@functools.cache
def parse(path: pathlib.Path) -> ast.Module:
    """The syntax tree of a file."""
    return ast.parse(path.read_text(encoding="utf-8"), str(path))


def function_of(path: pathlib.Path, names: list[str]) -> ast.AST:
    """The function of a test, in the classes that are named before it; in brackets the name has its parameters."""
    here: ast.AST = parse(path)
    for name in (name.partition("[")[0] for name in names):
        found = [it for it in ast.iter_child_nodes(here)
                 if isinstance(it, ast.FunctionDef | ast.ClassDef) and it.name == name]
        if not found:
            raise Misfit(f"{path.name} has no {name}")
        here = found[-1]
    return here


def header(path: pathlib.Path, statement: ast.stmt) -> str:
    """The source of a statement in one line; of one with a body what is before the body."""
    body = getattr(statement, "body", None)
    end = max(statement.lineno, body[0].lineno - 1 if body else statement.end_lineno or 0)
    lines = path.read_text(encoding="utf-8").splitlines()[statement.lineno - 1:end]
    return " ".join(" ".join(lines).split())


def statement_at(path: pathlib.Path, line: int) -> str:
    """The innermost statement of a file that has this line."""
    statements = [it for it in ast.walk(parse(path)) if isinstance(it, ast.stmt)]
    found = [it for it in statements if it.lineno <= line <= (it.end_lineno or 0)]
    return header(path, max(found, key=lambda it: (it.lineno, -(it.end_lineno or 0)))) if found else ""


@functools.cache
def sentences(folder: pathlib.Path) -> list[re.Pattern[str]]:
    """The texts of a folder's tests that may be the words of a check; any text may stand for a value
    within."""
    patterns = set[str]()
    for path in folder.glob("*.py"):
        for node in ast.walk(parse(path)):
            strings = [node] if isinstance(node, ast.Constant) else []
            parts: list[ast.expr] = node.values if isinstance(node, ast.JoinedStr) else [*strings]
            text = "".join(str(it.value) if isinstance(it, ast.Constant) else VALUE for it in parts)
            sentence = text.partition("  [")[0]     # what it saw is behind it
            if len(sentence) >= SENTENCE:
                patterns.add(".*".join(map(re.escape, sentence.split(VALUE))))
    return [re.compile(pattern, re.S) for pattern in patterns]


def fault_of_test(mutant: Mutant, top: pathlib.Path) -> str:
    """What is wrong with the test that a mutant names, and with the failure that is expected of it; nothing
    where all is right."""
    file, *names = mutant.test.split("::")
    if not (top / file).is_file():
        return f"there is no {file}"
    function = function_of(top / file, names)
    if mutant.kind == "unit":
        statements = [header(top / file, it) for it in ast.walk(function) if isinstance(it, ast.stmt)]
        good = any(statement.startswith(mutant.fails) for statement in statements)
    else:
        folders = (top / file).parent, top / "field/test"
        words = ERROR.sub("", mutant.fails, count=1)
        good = any(pattern.fullmatch(words) for folder in folders for pattern in sentences(folder))
    return "" if good else f"{mutant.test} has no {mutant.fails!r}"


def faults_of_tests(mutants: list[Mutant], top: pathlib.Path) -> Iterator[str]:
    """What is wrong with the tests that the mutants name."""
    for mutant in mutants:
        try:
            fault = fault_of_test(mutant, top)
        except Misfit as misfit:
            yield f"{mutant.name}: {misfit}"
            continue
        if fault:
            yield f"{mutant.name}: {fault}"


def main() -> int:
    """Looks whether every mutant applies and names a test that there is, and prints what is wrong."""
    try:
        mutants = read_all()
    except (Misfit, tomllib.TOMLDecodeError) as misfit:
        print(f"mutants: {misfit}\n0 passed, 1 failed")
        return 1
    faults = [*faults_of_changes(mutants, TOP), *faults_of_tests(mutants, TOP)]
    for fault in faults:
        print(f"mutants: {fault}")
    failed = len({fault.partition(":")[0] for fault in faults})
    print(f"{len(mutants) - failed} passed, {failed} failed")
    return int(bool(faults))


if __name__ == "__main__":
    sys.exit(main())
