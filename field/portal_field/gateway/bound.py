"""What the kernel's set `bound` is to have, and what is sent to it: only what changed, and all of it once the
rules were loaded anew."""

from __future__ import annotations

import math
import os
import time
from collections.abc import Callable
from dataclasses import dataclass, field
from typing import Protocol

Pair = tuple[str, str]      # a device's MAC address, and its IPv4 address
POLL = 1.0                  # seconds after which the mark is looked at: the rules may have been loaded anew
WHOLE = 10.0                # seconds after which the whole set is read: somebody may have changed it


class Kernel(Protocol):
    """Each call raises OSError where the rules are not loaded."""
    def mark(self) -> str:
        """Who filled the set last; empty where nobody did."""
    def read(self) -> set[Pair]:
        """The pairs of the set."""
    def holds(self, pairs: frozenset[Pair]) -> bool:
        """Whether the set has all these pairs."""
    def change(self, gone: frozenset[Pair], come: frozenset[Pair]) -> None:
        """Takes pairs out of the set, and puts others in."""
    def fill(self, pairs: frozenset[Pair], mark: str) -> None:
        """Replaces the whole set, and marks it."""


def new_mark() -> str:
    """A mark that no other process has."""
    return f"{os.getpid()} {time.time_ns()}"


@dataclass
class Bound:
    """The set `bound` of the rules: which device has which leased address."""
    kernel: Kernel
    ticks: Callable[[], float] = time.monotonic
    own: str = field(default_factory=new_mark)
    pairs: frozenset[Pair] = frozenset()     # what the kernel's set has
    looked_at: float = -math.inf               # when the mark was looked at,
    compared_at: float = -math.inf             # and when the set was read or filled as a whole

    def look(self) -> None:
        """Reads what a process before this one filled the set with."""
        self.pairs = frozenset(self.kernel.read() if self.kernel.mark() else ())

    def holds(self, mac: str, address: str) -> bool:
        """Whether the kernel's set has this pair."""
        return (mac, address) in self.pairs

    def is_due(self) -> bool:
        """Whether it is time to look at the mark again."""
        return self.ticks() - self.looked_at >= POLL

    def follow(self, wanted: frozenset[Pair]) -> None:
        """Has the kernel's set hold these from now on."""
        now = self.looked_at = self.ticks()
        is_whole = now - self.compared_at >= WHOLE
        try:
            if self.kernel.mark() != self.own or is_whole and not self.kernel.holds(self.pairs):
                self.kernel.fill(wanted, self.own)
            elif wanted != self.pairs:
                self.kernel.change(self.pairs - wanted, wanted - self.pairs)
        except OSError:
            self.pairs = frozenset()
            raise
        self.pairs, self.compared_at = wanted, now if is_whole else self.compared_at
