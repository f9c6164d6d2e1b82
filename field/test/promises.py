#!/usr/bin/python3
"""Prints what the kit promises, and the test that keeps each promise.

    promises.py [WORDS]     only promises that have these words in their text or their part's name

`promises.toml` has the promises by part, each with its mutants: changes of the kit that break it. Below a
promise stands each test that refuses such a change, with the mutants' names. `must_fail.py` tries a mutant.
"""

from __future__ import annotations

import pathlib
import sys
import tomllib
from typing import NamedTuple

from mutant_tables import read_all

PROMISES = pathlib.Path(__file__).with_name("promises.toml")


class Promise(NamedTuple):
    """A promise of a part of the kit, and the names of the mutants that break it."""
    part: str
    text: str
    mutants: list[str]


def read_promises(path: pathlib.Path = PROMISES) -> list[Promise]:
    """The promises of a file, in its order."""
    parts: dict[str, dict[str, list[str]]] = tomllib.loads(path.read_text(encoding="utf-8"))
    return [Promise(part, text, mutants) for part, texts in parts.items() for text, mutants in texts.items()]


def main(words: str) -> int:
    """Prints the promises that have these words. Returns 1 if none has."""
    tests, part = {mutant.name: mutant.test for mutant in read_all()}, ""
    found = [it for it in read_promises() if words.lower() in f"{it.part} {it.text}".lower()]
    for promise in found:
        if promise.part != part:
            part = promise.part
            print(f"\n{part}")
        print(f"  {promise.text}")
        for test in dict.fromkeys(tests[name] for name in promise.mutants):
            print(f"    {test} ({', '.join(name for name in promise.mutants if tests[name] == test)})")
    return int(not found)


if __name__ == "__main__":
    sys.exit(main(" ".join(sys.argv[1:])))
