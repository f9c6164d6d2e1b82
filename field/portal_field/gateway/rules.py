"""Loads the packet rules, in one transaction with what the sets of the rules before hold: who passes goes on
to pass, and its bytes count on. It ends with 1 where nftables refuses the rules; then those of before stay.

    python3 -m portal_field.gateway.rules LAN RULES.NFT
"""

from __future__ import annotations

import re
import sys
from collections.abc import Iterator
from typing import Any

import nftables

from portal_field.gateway.kernel_sets import (
    ALIVE, BARRED, BOUND, DESK_CLOSED, DOWN, LEASED, READY, UP, BoundInKernel, Pair, SetName)
from portal_field.gateway.passing import RulesAreGone

CARRIED = "carried"         # the mark of `bound_ready`: portal-leases then looks at `bound` as a whole
NOTHING = {"packets": 0, "bytes": 0}
COMMENT = re.compile(r'[^"\n]{1,128}')


class Before:
    """What the kernel holds of the rules that are loaded; nothing of sets that they do not have."""

    def __init__(self, lan: str) -> None:
        self.lan, self.sets = lan, BoundInKernel(lan)

    def elements(self, where: SetName) -> list[dict[str, Any]]:
        """The elements of a set of the rules that are loaded; none where these have no such set."""
        try:
            return list(self.sets.elements(where))
        except RulesAreGone:
            return []

    def bound_pairs(self) -> set[Pair]:
        """Devices with their addresses. Rules of an earlier version have no such set: the neighbour table
        says it."""
        if self.elements(READY):
            return self.sets.read()
        from portal_field.lib.neighbours import Neighbours       # takes its time

        try:
            return {(entry.device, address) for address, entry in Neighbours(self.lan).entries().items()
                    if entry.device}
        except OSError:
            return set()

    def lines(self) -> Iterator[str]:
        """Commands of nft that put what the sets of the loaded rules hold into those of the new rules."""
        for where in (UP, DOWN):
            for e in self.elements(where):
                comment = e.get("comment", "")
                suffix = f' comment "{comment}"' if COMMENT.fullmatch(comment) else ""
                count = e.get("counter", NOTHING)
                words = f'{e["val"]} counter packets {count["packets"]} bytes {count["bytes"]}{suffix}'
                yield add_command(where, words)
        alive, closed = self.elements(ALIVE), self.elements(DESK_CLOSED)
        for where, e in (*((ALIVE, e) for e in alive), *((DESK_CLOSED, e) for e in closed)):
            # whole seconds: none of them is added; what has no end is nobody's of ours
            if e.get("expires", 0) > 0:
                yield add_command(where, f'"{e["val"]}" timeout {e["timeout"]}s expires {e["expires"]}s')
        for e in self.elements(BARRED):
            yield add_command(BARRED, f'"{e["val"]}"')
        if alive or self.elements(READY):       # else nobody passes, and portal-leases fills `bound` first
            for mac, address in sorted(self.bound_pairs()):
                for where in BOUND:
                    yield add_command(where, f"{mac} . {address}")
                yield add_command(LEASED, address)
            yield add_command(READY, f'"{self.lan}" comment "{CARRIED}"')


def add_command(where: SetName, text: str) -> str:
    """A line of nft that puts elements into a set."""
    return f"add element {' '.join(where)} {{ {text} }}\n"


def load(rules: str, lines: str = "") -> str:
    """Loads the rules and more lines in one transaction; what nftables says against them."""
    status, _, error = nftables.Nftables().cmd(f'include "{rules}"\n{lines}')
    return error.strip() or "nft refuses" if status != 0 else ""


def main() -> int:
    """Loads the rules with what their sets held; without that where nft refuses it."""
    lan, rules = sys.argv[1:]
    refused = load(rules, "".join(Before(lan).lines()))
    if refused:
        print(f"rules: what the sets held is lost: {refused}", file=sys.stderr)
        refused = load(rules)
    if refused:
        print(f"rules: {refused}", file=sys.stderr)
    return int(bool(refused))


if __name__ == "__main__":
    sys.exit(main())
