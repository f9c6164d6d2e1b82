"""The steps of ./test, as tests/steps.toml has them: the head of that file says what a row means."""

from __future__ import annotations

import dataclasses
import difflib
import hashlib
import re
import shlex
import tomllib
from pathlib import Path
from typing import Any

from . import crates
from .budgets import UNKNOWN, read_budgets
from .inputs import Repository, Unknown, pattern_of

TABLE = "tests/steps.toml"
GROUPS = ("first", "field", "all")
MAKES_THE_PROGRAM = re.compile(r"dist/|crates/[^/]+/(?:src|specs|proofs)/")


class BadTable(Exception):
    """Why tests/steps.toml, or what was asked of it, cannot be read."""


@dataclasses.dataclass(frozen=True)
class Step:
    """One row, for one of its files; `test` is what is added to the command for a test of it."""

    part: str
    name: str
    group: str
    run: tuple[str, ...]
    inputs: tuple[str, ...]
    carries: tuple[str, ...] = ()
    test: str = ""
    needs: tuple[str, ...] = ()
    uses: tuple[str, ...] = ()
    after: tuple[str, ...] = ()
    env: tuple[tuple[str, str], ...] = ()
    seats: float = 1.0
    memory: float = 0.5
    lane: str = ""
    nice: int = 0
    is_timed: bool = False
    is_sampled: bool = True
    budget: float = UNKNOWN

    def needs_program(self) -> bool:
        return "program" in self.needs

    def command(self, test: str = "") -> list[str]:
        """For all of its tests, or for one."""
        if not test:
            return list(self.run)
        if not self.test:
            raise BadTable(f"{self.name} has no tests that can be named")
        words = self.test.replace("{test}", test)
        if words.startswith("::"):
            return [*self.run[:-1], self.run[-1] + words]
        return [*self.run, *shlex.split(words)]


WORDS = {
    "part",
    "when",
    "each",
    "but",
    "run",
    "test",
    "inputs",
    "carries",
    "needs",
    "uses",
    "after",
    "env",
    "seats",
    "memory",
    "lane",
    "nice",
    "timed",
    "sampled",
}


def each_of(repository: Repository, row: dict[str, Any]) -> list[tuple[str, str]]:
    """What a row has a step for: of each its name and its file."""
    each = row.get("each")
    if each is None:
        return [("", "")]
    found: list[tuple[str, str]] = []
    for word in [each] if isinstance(each, str) else each:
        if word == "crates":
            found += [(it, "") for it in repository.uses]
        elif "/" in word:
            found += [(Path(it).stem, it) for it in sorted(repository.matching(word))]
        else:
            found.append((word, ""))
    out = set(row.get("but", ()))
    unknown = (out | set(row.get("sampled", ()))) - {name for name, _ in found}
    if unknown:
        raise BadTable(f"{row['part']}: there is no {', '.join(sorted(unknown))}")
    return [it for it in found if it[0] not in out]


def filled(text: str, name: str, file: str) -> str:
    return text.replace("{name}", name).replace("{file}", file)


class Table:
    """All steps, and what else the file says."""

    def __init__(self, repository: Repository) -> None:
        top = repository.top
        rows = tomllib.loads((top / TABLE).read_text(encoding="utf-8"))
        self.repository, self.budgets = repository, read_budgets(top)
        self.probes: dict[str, list[str]] = {
            kind: shlex.split(text) for kind, text in rows.get("probes", {}).items()
        }
        self.sets: dict[str, list[str]] = rows.get("sets", {})
        repository.data = {it["module"]: it["files"] for it in rows.get("reads", [])}
        self.steps: list[Step] = []
        for row in rows["step"]:
            if not {"part", "when", "run", "inputs"} <= row.keys() <= WORDS or row["when"] not in GROUPS:
                raise BadTable(
                    f"{TABLE}: {row.get('part', row)}: {sorted(row.keys() - WORDS) or 'something is missing'}"
                )
            self.steps += [self.step_of(row, name, file) for name, file in each_of(repository, row)]
        self.by_name = {it.name: it for it in self.steps}
        if len(self.by_name) < len(self.steps):
            raise BadTable(f"{TABLE}: a name stands twice")

    def step_of(self, row: dict[str, Any], name: str, file: str) -> Step:
        full = f"{row['part']}:{name}" if name else row["part"]

        def texts(key: str) -> tuple[str, ...]:
            found = row.get(key, ())
            return tuple(filled(it, name, file) for it in ([found] if isinstance(found, str) else found))

        def inputs(key: str) -> tuple[str, ...]:
            found: list[str] = []
            for word in texts(key):
                found += self.sets[word[1:]] if word.startswith("@") else [word]
            return tuple(found)

        return Step(
            row["part"],
            full,
            row["when"],
            tuple(shlex.split(filled(row["run"], name, file))),
            inputs("inputs"),
            inputs("carries"),
            filled(row.get("test", ""), name, file),
            texts("needs"),
            texts("uses"),
            self.after_of(row, name),
            tuple(sorted(row.get("env", {}).items())),
            row.get("seats", 1.0),
            row.get("memory", 0.5),
            row.get("lane", ""),
            row.get("nice", 0),
            row.get("timed", False),
            name in row.get("sampled", [name]),
            self.budgets.get(full, UNKNOWN),
        )

    def after_of(self, row: dict[str, Any], name: str) -> tuple[str, ...]:
        """The steps that have to pass before; `below`: the same of each crate that this one names."""
        found: list[str] = []
        for word in row.get("after", ()):
            if word == "below":
                found += [f"{row['part']}:{it}" for it in crates.below(self.repository.uses, name)]
            else:
                found.append(filled(word, name, ""))
        return tuple(found)

    def files_of(self, step: Step) -> set[str]:
        """All that is in the folder in which a step runs."""
        try:
            return self.repository.files_of(step.inputs) | self.repository.files_of(step.carries)
        except Unknown as fault:
            raise BadTable(f"{TABLE}: {step.name}: {fault}") from None

    def carried_by(self, step: Step) -> set[str]:
        return self.repository.files_of(step.carries)

    def digest(
        self, step: Step, facts: list[str], is_whole: bool = True, change: tuple[str, str] = ("", "")
    ) -> str:
        """Over the command, the inputs, facts that are no file, and for ./test whole what is carried.
        `change` is a file with another sum than it has."""
        lines = [
            " ".join(step.run),
            step.test,
            self.repository.lines_of_crates(step.inputs),
            *(f"{a}={b}" for a, b in step.env),
            *facts,
        ]
        files = self.files_of(step)
        for name in sorted(files if is_whole else files - self.carried_by(step)):
            lines.append(f"{name} {change[1] if name == change[0] else self.repository.sum_of(name)}")
        return hashlib.sha256("\0".join(lines).encode()).hexdigest()

    def of_group(self, group: str) -> list[Step]:
        """The steps of a group with those of the groups before it."""
        wanted = GROUPS[: GROUPS.index(group) + 1]
        return [it for it in self.steps if it.group in wanted]

    def named(self, name: str) -> list[Step]:
        """The steps of a part, or the one of this name; without its part where one alone is called so."""
        found = [it for it in self.steps if name in (it.name, it.part)]
        found = found or [it for it in self.steps if it.name.partition(":")[2] == name]
        if not found:
            parts = dict.fromkeys(it.part for it in self.steps)
            near = difflib.get_close_matches(name, [*parts, *self.short_names()], 1)
            maybe = f" (did you mean {near[0]}?)" if near else ""
            raise BadTable(f"no part is called {name}{maybe}; there are: {', '.join(parts)}")
        if len({it.part for it in found}) > 1:
            raise BadTable(f"{name} may be {' or '.join(it.name for it in found)}")
        return found

    def short_names(self) -> list[str]:
        """The names of steps, with their part and without."""
        return [name for it in self.steps for name in (it.name, it.name.partition(":")[2]) if name]

    def changed(self, paths: set[str]) -> list[Step]:
        """The steps that read one of these files, or run the program that they make."""
        gone = paths - self.repository.names
        is_program = any(map(MAKES_THE_PROGRAM.match, paths))
        return [
            it
            for it in self.steps
            if self.files_of(it) & paths or self.could_read(it, gone) or is_program and it.needs_program()
        ]

    def could_read(self, step: Step, gone: set[str]) -> bool:
        """Whether one of these files, which are not there any more, would be one of a glob of the step."""
        globs = [it for it in step.inputs if " " not in it]
        for word in step.inputs:
            if word.startswith("crate "):
                globs += [f"crates/{it}/**" for it in self.repository.below(word.removeprefix("crate "))]
        return any(pattern_of(glob).fullmatch(name) for glob in globs for name in gone)
