"""A device's open session: its number, and what is left of it.

The number is in the server's list of all open sessions. That costs by what is open, so it is not asked for at
each login. The numbers of all sessions only rise: a redemption's answer that is greater than all known
numbers is that of the open session. Of a smaller one, which may be over, and that of a list which serves for
half a second, the greater one is. A device that has an open session, and none in the list, needs a new list.

What ended less than half a second ago may be taken for what was opened since: its Class is of a session that
is over, so the access server gets a Disconnect-Request, and the device logs in anew. The same happens to who
redeems a code at the venue's page, and within ten seconds logs in with one of before whose session is over,
where nobody else has opened one in between.
"""

from __future__ import annotations

import threading
import time
from collections.abc import Callable
from typing import Any

from portal_field.lib.desk_client import Desk, Routes

OLDEST = 0.5                # seconds
OLDEST_WITH_ANSWER = 10.0   # for an answer that is greater than all known numbers
Row = dict[str, Any]


class OpenSessions:
    """`guests` asks as a guest, `gateway` with the gateway's token. `seen` gets each list that comes."""

    def __init__(self, guests: Desk, gateway: Desk, note_open: Callable[[list[Row]], None]) -> None:
        self.guests, self.gateway, self.note_open = guests, gateway, note_open
        self.numbers: dict[str, int] = {}
        self.newest = 0
        self.asked_at = float("-inf")
        self.lock = threading.Lock()

    def captive_answer(self, device: str) -> Row | None:
        """The answer of `GET /captive` for a device that has an open session, or None. It costs the same
        however many are open."""
        reply = self.guests.request_json(Routes.CAPTIVE, device=device)
        return None if reply["captive"] else reply

    def listed_number(self, device: str, oldest: float) -> int:
        """The number in a list that is at most so many seconds old, or 0."""
        now = time.monotonic()
        if now - self.asked_at > oldest:
            rows = self.gateway.request_json(Routes.SESSIONS)["sessions"]
            self.numbers, self.asked_at = {row["device"]: row["session"] for row in rows}, now
            self.newest = max([self.newest, *self.numbers.values()])
            self.note_open(rows)
        return self.numbers.get(device, 0)

    def number(self, device: str, answered: int = 0) -> int:
        """The number of the open session of a device that has one; 0 if it ended meanwhile. `answered`: the
        number in the answer to a redemption."""
        with self.lock:
            number = self.listed_number(device, OLDEST if answered <= self.newest else OLDEST_WITH_ANSWER)
            if answered > self.newest:
                self.newest = self.numbers[device] = answered
                return answered
            return max(number, answered) if number else self.listed_number(device, 0.0)
