"""portal-give over a desk of a test's own."""

from __future__ import annotations

import json
import pathlib
import tempfile
import threading
import time
import unittest
from typing import Any

from desk_process import PLANS, Desk, DeskProcess, NoAnswer, Routes

from portal_field.give import giver
from portal_field.give.giver import Giver
from portal_field.give.record import Record
from portal_field.lib import doors
from portal_field.lib.local_time import use_zone

FREE_PLAN = """
[[plan]]
id = "free"
price = 0
uses = 1
seconds = 1800
bytes = 0
shelf_days = 1
extend = true
"""
PHONE, OTHER = "02:aa:00:00:00:01", "02:aa:00:00:00:02"
PLACE, OTHER_PLACE = "10.77.0.50", "10.77.0.51"
NOON = 1_790_000_000 - 1_790_000_000 % 86_400 + 43_200      # of a day in UTC


class CutDesk(Desk):
    """A desk of which the answer number `cut` is lost, as where the part is killed just then."""
    cut, count = 0, 0

    def exchange(self, method: str, path: str, body: bytes | None, headers: dict[str, str]) -> tuple[int, bytes]:
        """Sends a request; its answer may be lost."""
        answer = super().exchange(method, path, body, headers)
        self.count += 1
        if self.count == self.cut:
            raise NoAnswer("the part was killed")
        return answer


class Gives(unittest.TestCase):
    """The part with a desk, which has a plan of price 0, and two devices in the gateway's neighbour table."""

    def setUp(self) -> None:
        self.folder = pathlib.Path(self.enterContext(tempfile.TemporaryDirectory()))
        self.desk = self.enterContext(DeskProcess())
        self.plans, self.list = self.folder / "plans.toml", self.folder / "sessions.json"
        self.plans.write_bytes(PLANS + FREE_PLAN.encode())
        self.desk.desk.request_json(Routes.PLANS, body=self.plans.read_bytes())
        self.devices: dict[str, str | None] = {PLACE: PHONE, OTHER_PLACE: OTHER}
        self.conf: dict[str, Any] = {"network": "10.77.0.0/22", "snapshot": str(self.list), "plans": str(self.plans),
                                     "free_plan": "free", "free_daily": 3, "front_user": "portal-front"}
        use_zone("UTC0")
        self.clock, self.ticks = [float(NOON)], [0.0]
        self.giver = self.start()

    def start(self, cut: int = 0) -> Giver:
        """Starts the part anew over the same record; the answer to its request of this number is lost."""
        desk = CutDesk(self.desk.port, "desk-token")
        desk.cut = cut
        return Giver(desk, Record(self.folder / "given.db"), self.devices.get, self.conf, lambda: self.clock[0], lambda: self.ticks[0])

    def knows(self, place: str, seconds: float = 3600) -> None:
        """Has the part know the device at an address for so many seconds."""
        self.giver.record.do("INSERT INTO known VALUES (?, ?)", self.devices[place], self.clock[0] - seconds)

    def tells(self, age: float = 0) -> None:
        """Writes the gateway's list, as its agent would, so many seconds ago."""
        rows = self.desk.gateway.request_json(Routes.SESSIONS)["sessions"]
        self.list.write_text(json.dumps({"at": int(self.clock[0] - age), "sessions": rows}))

    def asks(self, act: str, place: str = PLACE, **changed: Any) -> dict[str, Any]:
        """The answer to a request of the device at an address."""
        fields = {"act": act, "address": place, "device": self.devices[place], "session": 0, **changed}
        return self.giver.answer(json.dumps(fields).encode())

    def word(self, act: str, place: str = PLACE, **changed: Any) -> str:
        """The word of an answer."""
        return str(self.asks(act, place, **changed)["answer"])

    def sessions(self) -> dict[str, int]:
        """The open sessions, by device."""
        return {row["device"]: row["session"] for row in self.desk.gateway.request_json(Routes.SESSIONS)["sessions"]}

    def close_all(self) -> None:
        """Ends every session, as a clerk does."""
        for session in self.sessions().values():
            self.desk.desk.request_json(Routes.CLOSE, body={"session": session})

    def sold(self) -> int:
        """How many vouchers the desk sold, of any plan, in all days."""
        today = time.gmtime().tm_year
        lines = self.desk.desk.request(Routes.TAKINGS, query={"from": f"{today}-01-01", "to": f"{today}-12-31"}).decode().splitlines()
        return sum(int(row[1]) for row in map(str.split, lines[1:]) if len(row) == 5 and row[0] != "total")


def serve_in_test(case: unittest.TestCase, part: Giver, path: pathlib.Path) -> None:
    """Serves the part on a socket, until the test ends."""
    door = doors.listening(str(path))
    case.addCleanup(door.close)
    threading.Thread(target=doors.Door(door, "portal-front", giver.MOST_BYTES, part.answer).serve, daemon=True).start()
