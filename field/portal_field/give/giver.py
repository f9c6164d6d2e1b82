"""portal-give.service: gives free minutes to a guest's device, and ends its session, for the guests' page.

It has the counter's token, and the page has not. It does two things and no other, for the device that holds
the lease of an address now: it looks for that itself. A page that an attacker controls gets no further than
the limits of a day. No code leaves this part: it redeems the voucher itself.

A request is a JSON object of one connection, up to its end: `act` (`look`, `end` or `free`), `address`,
`device` and `session`, which is 0 where none is ended. The answer is an object with `answer`: `done`, or the
word of a refusal; with `wait` goes `begin`, the time from which on it may be another.
"""

from __future__ import annotations

import csv
import datetime
import hashlib
import io
import ipaddress
import json
import math
import pathlib
import re
import sqlite3
import sys
import threading
import time
from collections.abc import Callable
from typing import Any

from portal_field.give.budget import Budget, hourly
from portal_field.give.record import Gift, Record
from portal_field.lib.desk_client import Desk, NoAnswer, Refused, Routes, credential, settings
from portal_field.lib.devices import Devices, Holders
from portal_field.lib.doors import Answer, Door, listening
from portal_field.lib.local_time import use_zone
from portal_field.lib.one_use import numbers
from portal_field.lib.plans import Plan, plans_in

KEYS = {"act": str, "address": str, "device": str, "session": int}
MOST_BYTES = 500            # of a request
MOST_SESSION = 2 ** 53      # as the server numbers them
DEVICE = re.compile(r"[0-9a-f]{2}(:[0-9a-f]{2}){5}")
A_MINUTE = {"look": 60, "end": 60, "free": 12}     # requests: of a device; to end, of all devices
ENDS_OF_DEVICE, ENDS_OF_VENUE = 10, 200                 # sessions that are ended on a day
OLD_LIST = 10               # seconds after which the gateway's list names nobody's session
TURN = 10.0                 # seconds for which an act waits for another one
THREADS = 8
# What the server says of the day's voucher: that it is worth nothing any more, and what is answered then.
USELESS = ("refunded", "expired", "used_up", "batch_exists", "id_reused")
WORDS = {**dict.fromkeys(USELESS, "had"), "unknown_plan": "off",
         **dict.fromkeys(("no_extend", "shape_differs", "allowance_full"), "online")}


class Refusal(Exception):
    """Nothing was done; the word of the answer, and what else is in it."""

    def __init__(self, word: str, **more: Any) -> None:
        super().__init__(word)
        self.more = more


def read_request(data: bytes) -> dict[str, Any]:
    """The fields of a request. Refusal: it is none."""
    try:
        fields = json.loads(data.decode())
    except (ValueError, RecursionError) as fault:
        raise Refusal("bad_request") from fault
    if not isinstance(fields, dict) or {key: type(value) for key, value in fields.items()} != KEYS:
        raise Refusal("bad_request")
    if fields["act"] not in A_MINUTE or not 0 <= fields["session"] < MOST_SESSION:
        raise Refusal("bad_request")
    return fields


class Giver:
    """Ends sessions, and gives the venue's free voucher. `device_at`: which device holds the lease of an
    address."""

    def __init__(self, desk: Desk, record: Record, device_at: Holders,
                 conf: dict[str, Any], now: Callable[[], float] = time.time,
                 tick: Callable[[], float] = time.monotonic) -> None:
        self.desk, self.record, self.device_at, self.conf = desk, record, device_at, conf
        self.now, self.tick = now, tick
        self.lock, self.turn = threading.Lock(), threading.Lock()
        self.requests: dict[tuple[str, str], list[float]] = {}      # of the last minute, by act and device

    @property
    def today(self) -> datetime.date:
        """The venue's day."""
        return datetime.date.fromtimestamp(self.now())

    def answer(self, data: bytes) -> Answer:
        """The answer to a request. What is not a look is in the journal, without the device."""
        act = "?"
        try:
            fields = read_request(data)
            act, device = fields["act"], self.device(fields)
            self.count_request(act, "" if act == "end" else device)
            reply = {"answer": "done", **self.act(act, device, fields["session"])}
        except Refusal as refusal:
            reply = {"answer": str(refusal), **refusal.more}
        except (sqlite3.Error, OSError) as fault:
            print(f"<3>give: {self.record.path}: {fault}", file=sys.stderr, flush=True)
            reply = {"answer": "no_record"}
        if act != "look":
            print(f"give: {act}: {reply['answer']}", file=sys.stderr, flush=True)
        return reply

    def count_request(self, act: str, device: str) -> None:
        """Counts a request, of a device or of all. Refusal: there were too many within a minute."""
        with self.lock:
            now = self.tick()
            self.requests = {key: times for key, times in self.requests.items() if now - times[-1] < 60}
            recent = [moment for moment in self.requests.get((act, device), []) if now - moment < 60]
            if len(recent) >= A_MINUTE[act]:
                raise Refusal("busy")
            self.requests[act, device] = [*recent, now]

    def device(self, fields: dict[str, Any]) -> str:
        """The device of a request, if it holds the lease of the address. Refusal: it does not."""
        address, device = fields["address"], str(fields["device"])
        try:
            is_here = ipaddress.IPv4Address(address) in ipaddress.IPv4Network(self.conf["network"])
        except ValueError:
            is_here = False
        if not (is_here and DEVICE.fullmatch(device) and self.device_at(address) == device):
            raise Refusal("not_this_device")
        return device

    def act(self, act: str, device: str, session: int) -> Answer:
        """Does what is asked for a device. Refusal: it is not done."""
        if act == "look":
            return self.look(device)
        if not self.turn.acquire(timeout=TURN):     # so that of two at once the second sees the first
            raise Refusal("busy")
        try:
            return self.end(device, session) if act == "end" else self.free(device)
        except NoAnswer as fault:
            raise Refusal("no_answer") from fault
        except Refused as refusal:
            raise Refusal("no_answer" if refusal.status == 503 else "refused") from refusal
        finally:
            self.turn.release()

    def look(self, device: str) -> Answer:
        """The session of a device, where the gateway's list has one; whether it can have the free voucher of
        today, or from when on, and what that is worth."""
        plan = self.free_plan()
        free: Answer = {"free": "yes"}
        try:
            self.new_gift(device, plan)
        except Refusal as refusal:
            free = {"free": str(refusal), **refusal.more}
        worth = {key: plan[key] for key in ("seconds", "bytes")} if plan else {}
        return {"session": self.session_of(device), **free, **worth}

    # The end of a session

    def session_of(self, device: str) -> int:
        """The number of a device's open session by the gateway's list, which is a second old; 0 where there
        is none, or no such list."""
        try:
            reply = json.loads(pathlib.Path(self.conf["snapshot"]).read_text())
            if abs(self.now() - reply["at"]) > OLD_LIST:
                return 0
            return next((int(row["session"]) for row in reply["sessions"] if row["device"] == device), 0)
        except (OSError, ValueError, KeyError, TypeError):
            return 0

    def end(self, device: str, session: int) -> Answer:
        """Ends the open session of a device, which is the one that its page showed. What was ended before is
        ended. Refusal: it has another one or none, or enough were ended today."""
        is_known, is_open = self.record.has_ended(device, session), self.session_of(device) == session
        if not session or not is_open and not is_known:
            raise Refusal("not_open")
        if not is_known:
            if (self.record.ends_since(self.today, device) >= ENDS_OF_DEVICE
                    or self.record.ends_since(self.today) >= ENDS_OF_VENUE):
                raise Refusal("many_ends")
            self.record.begin_end(device, session, self.today)
        if is_open:
            self.close(session)
        return {}

    def close(self, session: int) -> None:
        """Has the server close a session, unless it is closed."""
        try:
            self.desk.request_json(Routes.CLOSE, body={"session": session}, number=f"give-end-{session}")
        except Refused as refusal:
            if refusal.word != "closed_already":
                raise

    # Free minutes

    def free_plan(self) -> Plan | None:
        """The plan that the venue gives for nothing; None where it names none, or one that has a price."""
        name = self.conf["free_plan"]
        try:
            plan = plans_in(pathlib.Path(self.conf["plans"]).read_bytes()).get(name) if name else None
        except OSError:
            return None
        is_good = plan is not None and plan.get("price") == 0 and {"seconds", "bytes"} <= plan.keys()
        return plan if is_good else None

    def budget(self) -> Budget:
        """What is left of the hour's free vouchers."""
        return self.record.budget(hourly(self.conf["free_daily"]), self.now())

    def new_gift(self, device: str, plan: Plan | None) -> Gift:
        """The free voucher that a device can have now: of today, or one that was begun and is not over.
        Refusal: it has none. One of a later day counts, as the clock was set back since."""
        if plan is None:
            raise Refusal("off")
        today, last = self.today, self.record.last_gift(device)
        if last and last.day >= today:
            if last.is_over:
                raise Refusal("had")
            return last
        if self.record.gifts_since(today) >= self.conf["free_daily"]:
            raise Refusal("none_left")
        budget = self.budget()
        begin = budget.begin(self.record.known_since(device, budget.at))
        if begin > budget.at:
            raise Refusal("wait", begin=math.ceil(begin))
        return Gift(device, today, str(plan["id"]))

    def free(self, device: str) -> Answer:
        """Gives a device its free voucher of today, and redeems it: the session. Refusal: it is online, has
        had one, has to wait, or none is left."""
        is_online = not self.desk.request_json(Routes.CAPTIVE, device=device)["captive"]
        try:
            gift = self.new_gift(device, self.free_plan())
        except Refusal as refusal:
            if is_online:
                raise Refusal("online") from refusal
            raise
        is_begun = self.record.last_gift(device) == gift
        if is_online and not is_begun:
            raise Refusal("online")
        if not is_begun:
            self.record.begin_gift(gift, self.budget().less_one())
        try:
            reply = self.redeem(gift, self.sold_code(gift))
        except Refused as refusal:
            if refusal.word in USELESS:
                self.record.end_gift(gift)
            if refusal.word in WORDS:
                raise Refusal(WORDS[refusal.word]) from refusal
            raise
        self.record.end_gift(gift)
        return reply

    def sold_code(self, gift: Gift) -> str:
        """The code of a free voucher, issued and sold. Each request has a number that is made of device and
        day alone: after a kill it takes effect once in all. Refusal: the plan has a price."""
        mark = hashlib.sha256(f"{gift.device} {gift.day}".encode()).hexdigest()
        batch, key = f"free-{gift.day:%Y%m%d}-{mark[:16]}", f"give-{mark[:28]}"
        self.desk.request_json(Routes.ISSUE, body={"batch": batch, "plan": gift.plan, "count": 1},
                               number=f"{key}-1")
        row, = csv.DictReader(io.StringIO(self.desk.request(Routes.PRINT, batch).decode()))
        if row["plan"] != gift.plan or row["price"] != "0.00":
            print(f"<4>give: the plan {gift.plan} has a price: nothing is given", file=sys.stderr, flush=True)
            raise Refusal("off")
        try:
            self.desk.request_json(Routes.SELL, body={"code": row["code"]}, number=f"{key}-2")
        except Refused as refusal:
            if refusal.word != "sold_already":
                raise
        self.record.count_gift(gift, self.today)
        return row["code"]

    def redeem(self, gift: Gift, code: str) -> Answer:
        """Redeems a free voucher for its device: the session, and whether it is the one of before."""
        reply = self.desk.request_json(Routes.REDEEM, body={"code": code}, device=gift.device,
                                       number=next(numbers(gift.device, code)))
        return {"session": reply["session"], "extended": reply["extended"]}


def main() -> None:
    """Serves on the socket that systemd holds."""
    conf = settings("/etc/portal/give.toml")
    door = listening(conf["socket"])    # requests wait here from now on
    use_zone(conf["zone"])
    giver = Giver(Desk(conf["desk_port"], credential("desk_token")), Record(pathlib.Path(conf["record"])),
                  Devices(conf["lan"]).holder, conf)
    Door(door, conf["front_user"], MOST_BYTES, giver.answer).serve_in_threads(THREADS)


if __name__ == "__main__":
    main()
