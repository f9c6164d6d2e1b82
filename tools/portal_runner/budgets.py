"""tests/budgets.txt: the seconds of the processor that each step of ./test takes, a proof from nothing; and
those of a fixed piece of work (`machine`), by which machines are compared."""

from __future__ import annotations

import hashlib
import time
from pathlib import Path

FILE = "tests/budgets.txt"
UNKNOWN = 60.0
ROUNDS = 60_000


def read_budgets(top: Path) -> dict[str, float]:
    path = top / FILE
    rows = path.read_text(encoding="utf-8").splitlines() if path.is_file() else []
    words = [row.split() for row in rows if row and not row.startswith("#")]
    return {name: float(seconds) for name, seconds in words}


def write_budgets(top: Path, took: dict[str, float]) -> None:
    """What these steps took takes the place of their budgets; the others stay, and so does that of a proof
    that takes less, as what was proved before is kept. The comments stay too."""
    path = top / FILE
    rows = path.read_text(encoding="utf-8").splitlines() if path.is_file() else []
    heads = [it for it in rows if it.startswith("#")]
    budgets = read_budgets(top)
    for name, seconds in took.items():
        budgets[name] = max(1.0, seconds, budgets.get(name, 0.0) if name.startswith("prove:") else 0.0)
    budgets.pop("machine", None)
    lines = [f"machine {fixed_work():.3f}", *(f"{name} {budgets[name]:.0f}" for name in sorted(budgets))]
    path.write_text("\n".join([*heads, *lines, ""]), encoding="utf-8")


def fixed_work() -> float:
    """The seconds of the processor that the piece of work takes now."""
    begin, text = time.process_time(), b""
    for number in range(ROUNDS):
        text = hashlib.sha256(text + b"%d" % number).digest()
    sorted((str(number) for number in range(ROUNDS)), key=lambda it: it[::-1])
    return time.process_time() - begin
