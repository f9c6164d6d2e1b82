"""The server's last list of open sessions, by which guests go on while the server starts again.

Whoever stops the server in order asks here before. The desk is then closed: the packet rules let none but
this agent and the server's own watch connect, and the list that the agent takes after that is newer than any
command. It is kept until the server answers again, at most for a minute; each session ends at its own second
and byte. After a crash there is no such list, and none after the rules were loaded without what they held.
"""

from __future__ import annotations

import time
from collections.abc import Callable
from dataclasses import dataclass, field
from typing import Any, Protocol

from portal_field.gateway.passing import Passing

Row = dict[str, Any]    # an open session as the desk lists it
CLOSED = 60             # seconds that the desk stays closed at most
# A server that still answers so many seconds after it was to be stopped has not been, or was started again.
STOPPING = 1.0


class Gate(Protocol):
    """What this needs of the kernel's sets."""

    def close_desk(self, seconds: int) -> None:
        """Lets none but the agent and the server's watch connect to the desk, for so many seconds."""
    def open_desk(self) -> None:
        """Lets all parts connect again."""
    def is_desk_closed(self) -> bool:
        """Whether the desk is closed still."""


@dataclass
class LastList:
    """The list, and whether it is the last one. `now`: seconds of a clock that is never set; `wall`: those of
    the server's clock; `seconds`: for how long a list is kept."""
    gate: Gate
    now: Callable[[], float]
    seconds: float = CLOSED
    wall: Callable[[], float] = time.time
    closed_at: float | None = None
    has_opened: bool = False        # since this process started: the one before may have closed it
    is_asked: bool = False          # the poll goes on that takes the list
    listed_at: float = 0.0
    rows: dict[str, Row] | None = None      # None: none was taken since the desk was closed
    held: dict[int, int] = field(default_factory=dict)      # session: bytes that the desk held of it then

    def close(self) -> None:
        """Closes the desk. OSError: the rules that are loaded have no such set."""
        self.gate.close_desk(CLOSED)
        self.closed_at, self.rows, self.is_asked = self.now(), None, True

    def is_taken(self) -> None:
        """After a good poll since then: from now on the server is stopped."""
        self.closed_at, self.is_asked = self.now(), False

    def open(self) -> None:
        """Opens the desk; the next list is one as any other."""
        self.gate.open_desk()
        self.closed_at, self.has_opened, self.is_asked = None, True, False

    def take(self, rows: dict[str, Row], held: dict[int, int]) -> None:
        """Takes a list that the desk gave now, and what it held of each session by the reports so far. The
        desk counts whole seconds: a list is of the begin of its second."""
        self.rows, self.held, self.listed_at = rows, held, self.now() - self.wall() % 1

    def has_answered(self) -> None:
        """After a good poll: opens the desk, unless the server is about to be stopped."""
        if self.is_asked:
            return
        if not self.has_opened or self.closed_at is not None and self.now() - self.closed_at >= STOPPING:
            self.open()

    def is_kept(self) -> bool:
        """Whether guests go on by this list, as the server is silent."""
        return (self.closed_at is not None and self.rows is not None
                and self.now() - self.closed_at < self.seconds and self.gate.is_desk_closed())

    def over(self, passing: dict[str, Passing]) -> set[str]:
        """Those devices that pass and whose session is over, or is not in the list."""
        rows = self.rows or {}
        return {mac for mac, p in passing.items() if self.is_over(p, rows.get(mac))}

    def is_over(self, p: Passing, row: Row | None) -> bool:
        """Whether a session is over by now. Of one that this agent has not reported yet the desk may hold
        more bytes than at its beginning: then it ends here too early, never too late."""
        if row is None or row["session"] != p.session:
            return True
        if "seconds-remaining" in row and self.now() - self.listed_at >= row["seconds-remaining"]:
            return True
        if "bytes-remaining" not in row:
            return False
        left: int = row["bytes-remaining"]
        return p.used - self.held.get(p.session, p.base) >= left
