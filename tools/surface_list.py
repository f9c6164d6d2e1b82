"""Reads tests/surface.txt, the list of the types and calls that programs may use, and compares it with the
sources of the crates.

A line is a crate, with a colon, or a name of the crate above it: a type, `refusal::Refusal`; a field or a
variant of it, `refusal::Refusal.NoMemory`; or a call and the number of its parameters besides `self` and the
allocator, `Day::new 1`. A name without a path is one of the crate's root: an item of src/lib.rt, or one that
it re-exports. A method has its type or trait before it, wherever that is. `#` begins a comment."""

from __future__ import annotations

import pathlib
import re
from collections.abc import Iterator
from typing import NamedTuple

from crate_sources import Crate

LINE = re.compile(r"([\w:]+?)(?:\.(\w+)| (\d+))?")


class Name(NamedTuple):
    text: str           # without the number of parameters
    path: str           # of a field or a variant its type
    last: str
    arity: int | None   # of a call

    @property
    def is_member(self) -> bool:
        return bool(self.path)

    @property
    def is_type(self) -> bool:
        return not self.path and self.arity is None


def read_list(top: pathlib.Path) -> dict[str, list[Name]]:
    """By crate the names that programs may use."""
    return parse_list((top / "tests" / "surface.txt").read_text(encoding="utf-8"))


def parse_list(text: str) -> dict[str, list[Name]]:
    names: dict[str, list[Name]] = {}
    for line in (one.partition("#")[0].strip() for one in text.splitlines()):
        found = LINE.fullmatch(line)
        if line.endswith(":"):
            names.setdefault(line[:-1], [])
        elif line and names:
            listed = list(names.values())[-1]
            if found and found[3]:
                listed.append(Name(found[1], "", "", int(found[3])))
            else:
                path, last = (found[1], found[2]) if found and found[2] else ("", "")
                listed.append(Name(line, path, last, None))
    return names


def faults(names: dict[str, list[Name]], crates: dict[str, Crate]) -> Iterator[str]:
    """What the list has and the sources have not."""
    for crate, listed in names.items():
        if crate not in crates:
            yield f"{crate}: there is no such crate"
            continue
        for name in listed:
            fault = fault_of(crates[crate], name, crates)
            if fault:
                yield f"{crate}: {name.text}: {fault}"


def fault_of(crate: Crate, name: Name, crates: dict[str, Crate]) -> str | None:
    """What is wrong with a name of the list; None where it is as the sources say."""
    if name.is_member:
        is_there = crate.find_type(name.path, crates) is not None
        owner = name.path.rpartition("::")[2]
        return None if is_there and f"{owner}.{name.last}" in crate.members else "the type has no such part"
    if name.is_type:
        return None if crate.find_type(name.text, crates) is not None else "there is no such type"
    call = crate.find_call(name.text, crates)
    if call is None:
        return "there is no such call"
    return None if call.arity() == name.arity else f"it has {call.arity()} parameters"
