"""What the kernel holds of a device that it lets through."""

from __future__ import annotations

from dataclasses import dataclass


class RulesAreGone(OSError):
    """nftables refused: the rules of portal.nft are not loaded, or not as they were made."""


class NotReady(OSError):
    """The rules are loaded, and the set `bound` was not filled since."""


@dataclass
class Passing:
    """A device that the kernel lets through."""
    session: int
    base: int       # bytes that the desk held when the device was let in
    count: int    # bytes since then, both directions, IP heads included

    @property
    def used(self) -> int:
        """The bytes of the session so far."""
        return self.base + self.count
