"""The crates of crates.txt, and what each stands on; the sum of their sources, and the Rattle kit."""

from __future__ import annotations

import re
import subprocess
from pathlib import Path

SUM = 'top=$1 && source "$top/tools/program.bash" && read_crates && sum_of_sources'


def uses_of(top: Path) -> dict[str, list[str]]:
    """Each crate with the libraries that its line names, in the order of the file."""
    uses = {}
    for row in (top / "crates.txt").read_text(encoding="utf-8").splitlines():
        words = re.sub("[:,]", " ", row.partition("#")[0]).split()
        if words:
            uses[words[0]] = words[1:]
    return uses


def below(uses: dict[str, list[str]], name: str) -> list[str]:
    """The crates that a crate names."""
    return [it for it in uses[name] if it in uses]


def is_over_sqlite(uses: dict[str, list[str]], name: str) -> bool:
    return "sqlite" in uses[name]


def order_of(uses: dict[str, list[str]], top: str) -> list[str]:
    """The crates that this one stands on and itself, each after those below it."""
    order: list[str] = []
    seen: set[str] = set()

    def visit(name: str) -> None:
        if name in uses and name not in seen:
            seen.add(name)
            for it in uses[name]:
                visit(it)
            order.append(name)

    visit(top)
    return order


def sum_of_sources(top: Path) -> str:
    """The sum over the sources of the program, as ./portal takes it."""
    words = ["bash", "-ec", SUM, "sum", str(top)]
    return subprocess.run(words, check=True, capture_output=True, text=True).stdout.strip()


def kit_here() -> str:
    """What `rt version` says, or nothing where there is no rt."""
    try:
        ran = subprocess.run(["rt", "version"], stdin=subprocess.DEVNULL, capture_output=True, text=True)
    except OSError:
        return ""
    return ran.stdout.strip()
