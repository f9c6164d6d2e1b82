"""What the commands of the desk mean: an independent small model, for the stand-in of the field kit's tests alone.

The zone is UTC0. Nothing in it is proved.
"""

from __future__ import annotations

import datetime
import re
from dataclasses import dataclass, field
from typing import Any

Json = dict[str, Any]

SIGNS = "23456789ABCDEFGHJKMNPQRSTUVWXYZ"
GREATEST, MOST_BYTES, MOST_GRANTS = 253_370_764_799, 9_000_000_000_000_000, 9_007_199_254_740_991
ID = re.compile(r"[a-z0-9-]{1,32}")
# Batches in a list; vouchers found by the start of their codes; redemptions of a voucher.
MOST_LISTED, MOST_FOUND, MOST_REDEMPTIONS = 20, 50, 100


class No(Exception):
    """A refusal, by its word."""


def need(holds: bool, word: str) -> None:
    """Raises No with this word unless the condition holds."""
    if not holds:
        raise No(word)


# Codes

def with_check_character(body: list[int]) -> str:
    """The printed code of 11 or 15 body values: the weighted sum with the check character is divisible by 31."""
    values = [*body, -sum(value * weight for weight, value in enumerate(body, 2)) % 31]
    return in_groups("".join(SIGNS[value] for value in values))


def in_groups(signs: str) -> str:
    """Characters as they are printed: in groups of four."""
    return "-".join(signs[i:i + 4] for i in range(0, len(signs), 4))


def characters_in(text: str) -> str:
    """The characters that were typed: in upper case, without spaces and hyphens."""
    return "".join(s.upper() if s.isascii() else s for s in text if s not in " -")


def read_code(text: str) -> str:
    """A code as it is printed, from what was typed. No: it is none."""
    signs = characters_in(text)
    need(len(signs) in (12, 16) and all(s in SIGNS for s in signs), "bad_code")
    code = with_check_character([SIGNS.index(s) for s in signs[:-1]])
    need(code.replace("-", "") == signs, "bad_code")
    return code


def read_start(text: str) -> str:
    """The first characters of a code as they are printed, from what was typed. No: they are none."""
    signs = characters_in(text)
    need(4 <= len(signs) <= 15 and all(s in SIGNS for s in signs), "bad_code")
    return in_groups(signs)


# Records

@dataclass(frozen=True)
class Plan:
    id: str
    price: int
    uses: int
    seconds: int
    bytes: int
    shelf_days: int
    extend: bool

    LIMITS = {"price": (0, 10**8), "uses": (1, 10**5), "seconds": (0, 31_622_400), "bytes": (0, 10**15),
              "shelf_days": (1, 3660)}

    @classmethod
    def read(cls, row: Any) -> Plan:
        """A plan of a row of the plans file. No: a key or a value is wrong."""
        need(isinstance(row, dict) and row.keys() == {*cls.LIMITS, "id", "extend"}, "bad_plans")
        need(isinstance(row["id"], str) and ID.fullmatch(row["id"]) is not None, "bad_plans")
        need(isinstance(row["extend"], bool), "bad_plans")
        need(all(type(row[k]) is int and low <= row[k] <= high for k, (low, high) in cls.LIMITS.items()), "bad_plans")
        need(row["seconds"] + row["bytes"] > 0, "bad_plans")
        return cls(**row)


@dataclass
class Batch:
    id: str
    plan: Plan
    issued: int
    expires: int

    @property
    def place(self) -> tuple[int, str]:
        """By which batches are listed, the greatest first."""
        return self.issued, self.id


@dataclass
class Voucher:
    batch: str
    plan: Plan
    expires: int
    sold: int | None = None
    refund: int | None = None
    redeemed: int = 0
    redemptions: list[tuple[int, int, bool]] = field(default_factory=list)     # when, the session, whether extended


@dataclass
class Session:
    number: int
    device: str
    plan: Plan      # the first one: it says which quantities are limited
    opened: int
    ends: int
    allowance: int
    used: int = 0
    closed: int | None = None       # when

    def is_open(self, at: int) -> bool:
        """Whether the session is open at this moment."""
        in_time = not self.plan.seconds or at < self.ends
        return self.closed is None and in_time and (not self.plan.bytes or self.used < self.allowance)

    def remaining(self, at: int) -> Json:
        """What is left at a moment, as the answers of the API have it; nothing is left after an end."""
        remaining = {"bytes-remaining": max(self.allowance - self.used, 0)} if self.plan.bytes else {}
        return remaining | ({"seconds-remaining": max(self.ends - at, 0)} if self.plan.seconds else {})

    def end(self, at: int) -> Json:
        """The first reason for which the session has ended at a moment, and its time where that is known."""
        if self.closed is not None:
            return {"ended": "closed", "at": self.closed}
        if self.plan.seconds and self.ends <= at:
            return {"ended": "time", "at": self.ends}
        return {"ended": "bytes" if self.plan.bytes and self.allowance <= self.used else None}

    def entry(self, at: int) -> Json:
        """What the list of open sessions has of this one."""
        return {"device": self.device, "session": self.number, **self.remaining(at)}

    def entry_with_terms(self, at: int) -> Json:
        """The same in the list with details: when the session was opened, and by which plan."""
        return {**self.entry(at), "opened": self.opened, "plan": self.plan.id}

    def details(self, at: int) -> Json:
        """The details of the session at a moment, be it open or ended."""
        return {**self.entry_with_terms(at), **self.end(at), "used": self.used}


@dataclass
class Model:
    """What the accepted commands say. Each command refuses before it changes anything."""
    last: int = 0
    plans: dict[str, Plan] = field(default_factory=dict)
    batches: dict[str, list[str]] = field(default_factory=dict)     # the codes of each, in order of issue
    issues: dict[str, Batch] = field(default_factory=dict)
    vouchers: dict[str, Voucher] = field(default_factory=dict)
    sessions: list[Session] = field(default_factory=list)
    of_device: dict[str, Session] = field(default_factory=dict)
    grants: int = 0
    sales: list[tuple[int, int]] = field(default_factory=list)
    refunds: list[tuple[int, int]] = field(default_factory=list)

    def act(self, kind: str, words: Json, at: int) -> Json:
        """Carries out a command of this kind at this moment; its answer."""
        answer: Json = getattr(self, "do_" + kind)(at, **words)
        self.last = at
        return answer

    def do_plans(self, at: int, plans: list[Json]) -> Json:
        """Loads plans; a plan that is loaded never changes."""
        listed = [Plan(**row) for row in plans]
        need(all(self.plans.get(plan.id, plan) == plan for plan in listed), "plan_differs")
        self.plans.update({plan.id: plan for plan in listed})
        return {"plans": len(listed)}

    def do_issue(self, at: int, batch: str, plan: str, codes: list[str]) -> Json:
        """Issues a batch of new codes of a plan."""
        need(plan in self.plans, "unknown_plan")
        need(batch not in self.batches, "batch_exists")
        expires = at + self.plans[plan].shelf_days * 86_400
        need(expires <= GREATEST, "moment_range")
        need(len(set(codes)) == len(codes) and not self.vouchers.keys() & set(codes), "code_taken")
        self.batches[batch], self.issues[batch] = codes, Batch(batch, self.plans[plan], at, expires)
        self.vouchers.update({code: Voucher(batch, self.plans[plan], expires) for code in codes})
        return {"batch": batch, "count": len(codes), "expires": expires}

    def voucher(self, code: str) -> Voucher:
        """The voucher with this code. No: there is none."""
        need(code in self.vouchers, "unknown_code")
        return self.vouchers[code]

    def voucher_details(self, code: str) -> Json:
        """The voucher with this code, as the desk gets it."""
        v = self.voucher(code)
        return {"batch": v.batch, "code": code, "expires": v.expires, "plan": v.plan.id,
                "redeemed": v.redeemed, "refund": v.refund, "sold": v.sold, "uses": v.plan.uses}

    def vouchers_like(self, start: str) -> Json:
        """The first vouchers whose printed codes begin so, and whether there are more."""
        codes = sorted(code for code in self.vouchers if code.startswith(start))
        vouchers = [self.voucher_details(code) for code in codes[:MOST_FOUND]]
        return {"vouchers": vouchers, "more": MOST_FOUND < len(codes)}

    def redemptions_of(self, code: str, at: int) -> Json:
        """The last redemptions of the voucher with this code, the newest first, and whether there are more."""
        listed = [(when, self.session(number), extended) for when, number, extended in self.voucher(code).redemptions]
        entries = [{"at": when, "device": s.device, "extended": extended, "open": s.is_open(at), "session": s.number}
                   for when, s, extended in reversed(listed)]
        return {"redemptions": entries[:MOST_REDEMPTIONS], "more": MOST_REDEMPTIONS < len(entries)}

    def batch(self, name: str) -> Batch:
        """The batch of this id. No: there is none."""
        need(name in self.issues, "unknown_batch")
        return self.issues[name]

    def batch_state(self, batch: Batch) -> Json:
        """A batch, with how many of its vouchers were ever sold, refunded and used up."""
        vouchers = [self.vouchers[code] for code in self.batches[batch.id]]
        return {"batch": batch.id, "plan": batch.plan.id, "issued": batch.issued, "expires": batch.expires,
                "count": len(vouchers), "sold": sum(v.sold is not None for v in vouchers),
                "refunded": sum(v.refund is not None for v in vouchers),
                "used-up": sum(v.plan.uses <= v.redeemed for v in vouchers)}

    def batch_details(self, name: str) -> Json:
        """The same of the batch of this id, with its vouchers in order of issue."""
        batch, keys = self.batch(name), ("code", "redeemed", "refund", "sold")
        vouchers = [self.voucher_details(code) for code in self.batches[batch.id]]
        entries = [{key: voucher[key] for key in keys} for voucher in vouchers]
        return {**self.batch_state(batch), "vouchers": entries}

    def batches_after(self, before: Batch | None, limit: int) -> Json:
        """The newest batches, or those after one of them, at most so many, and whether there are more."""
        listed = sorted(self.issues.values(), key=lambda batch: batch.place, reverse=True)
        after = [batch for batch in listed if before is None or batch.place < before.place]
        return {"batches": [self.batch_state(batch) for batch in after[:limit]], "more": limit < len(after)}

    def do_sell(self, at: int, code: str) -> Json:
        """Sells a voucher."""
        v = self.voucher(code)
        need(v.sold is None, "sold_already")
        need(at < v.expires, "expired")
        v.sold = at
        self.sales.append((at, v.plan.price))
        return {"code": code, "price": v.plan.price}

    def do_redeem(self, at: int, device: str, code: str) -> Json:
        """Redeems a voucher for a device: opens a session, or extends the open one."""
        v, s = self.voucher(code), self.of_device.get(device)
        need(v.sold is not None, "not_sold")
        need(v.refund is None, "refunded")
        need(at < v.expires, "expired")
        need(v.redeemed < v.plan.uses, "used_up")
        open_one = s if s is not None and s.is_open(at) else None
        if open_one:
            s = open_one
            need(s.plan.extend, "no_extend")
            need((s.plan.seconds > 0, s.plan.bytes > 0) == (v.plan.seconds > 0, v.plan.bytes > 0), "shape_differs")
            need(s.allowance + v.plan.bytes <= MOST_BYTES, "allowance_full")
        need((open_one.ends if open_one else at) + v.plan.seconds <= GREATEST, "moment_range")
        need(self.grants < MOST_GRANTS, "numbers_full")
        if open_one:
            s = open_one
            s.ends, s.allowance = s.ends + v.plan.seconds, s.allowance + v.plan.bytes
        else:
            s = Session(len(self.sessions) + 1, device, v.plan, at, at + v.plan.seconds, v.plan.bytes)
            self.sessions.append(s)
            self.of_device[device] = s
        v.redeemed, self.grants = v.redeemed + 1, self.grants + 1
        v.redemptions.append((at, s.number, open_one is not None))
        return {"extended": open_one is not None, "session": s.number, "uses_left": v.plan.uses - v.redeemed}

    def session(self, number: int) -> Session:
        """The session with this number. No: there is none."""
        need(1 <= number <= len(self.sessions), "unknown_session")
        return self.sessions[number - 1]

    def last_session(self, device: str) -> Session:
        """The session with the greatest number of a device. No: it never had one."""
        need(device in self.of_device, "unknown_session")
        return self.of_device[device]

    def open_sessions(self, at: int) -> list[Session]:
        """The sessions that are open at a moment, by their numbers."""
        return [s for s in self.sessions if s.is_open(at)]

    def own_details(self, device: str, at: int) -> Json:
        """The details of a device's last session, as the device itself gets them."""
        return {key: value for key, value in self.last_session(device).details(at).items() if key != "device"}

    def do_report(self, at: int, session: int, bytes: int) -> Json:
        """Takes the greatest count of bytes of a session."""
        s = self.session(session)
        s.used = max(s.used, bytes)
        return {"open": s.is_open(at), "session": session, "used": s.used}

    def do_refund(self, at: int, code: str) -> Json:
        """Refunds the unused uses of a sold voucher."""
        v = self.voucher(code)
        need(v.sold is not None, "not_sold")
        need(v.refund is None, "refunded")
        need(v.redeemed < v.plan.uses, "nothing_left")
        v.refund = v.plan.price * (v.plan.uses - v.redeemed) // v.plan.uses
        self.refunds.append((at, v.refund))
        return {"amount": v.refund, "code": code}

    def do_close(self, at: int, session: int) -> Json:
        """Closes a session."""
        s = self.session(session)
        need(s.closed is None, "closed_already")
        s.closed = at
        return {"session": session}


# Questions with a query, in which nothing is decoded

def values_in(query: str, name: str) -> list[str]:
    """The values of a key of a query."""
    return [value for key, _, value in (pair.partition("=") for pair in query.split("&")) if key == name]


def read_limit(digits: str) -> int:
    """How many batches are listed at most. No: it is no number from 1 to 20."""
    need(re.fullmatch("0*(1?[0-9]|20)", digits) is not None and int(digits[-2:]) > 0, "bad_request")
    return int(digits[-2:])


def listed_batches(model: Model, query: str) -> Json:
    """The list of batches that a query asks for."""
    limits, names = values_in(query, "limit"), values_in(query, "before")
    need(len(limits) <= 1 and len(names) <= 1, "bad_request")
    limit = read_limit(limits[0]) if limits else MOST_LISTED
    return model.batches_after(model.batch(names[0]) if names else None, limit)


def found_vouchers(model: Model, query: str) -> Json:
    """The vouchers that a query asks for by the first characters of their codes."""
    starts = values_in(query, "prefix")
    need(len(starts) == 1, "bad_code")
    return model.vouchers_like(read_start(starts[0]))


# Texts

def money(hundredths: int) -> str:
    """Hundredths as an amount, such as 12.50."""
    return f"{hundredths // 100}.{hundredths % 100:02}"


def print_file(model: Model, batch: str) -> str:
    """The print file of a batch: a line for each code, as the server writes it."""
    need(batch in model.batches, "unknown_batch")
    lines = ["code,plan,seconds,bytes,price,expires"]
    for code in model.batches[batch]:
        v = model.vouchers[code]
        until = datetime.datetime.fromtimestamp(v.expires, datetime.UTC)
        worth = f"{v.plan.seconds or ''},{v.plan.bytes or ''},{money(v.plan.price)}"
        lines.append(f"{code},{v.plan.id},{worth},{until:%Y-%m-%d %H:%M}")
    return "\n".join(lines) + "\n"


def takings(model: Model, first: datetime.date, last: datetime.date) -> str:
    """The takings of these days, in lines, as the server writes them."""
    def line(name: str, sold: list[int], back: list[int]) -> str:
        """A line of the table."""
        return f"{name:<10} {len(sold):>8} {money(sum(sold)):>17} {len(back):>8} {money(sum(back)):>17}\n"

    def within(pairs: list[tuple[int, int]], low: int, high: int) -> list[int]:
        """The amounts of these days."""
        return [sum_ for at, sum_ in pairs if low <= at // 86_400 <= high]

    days = range((first - datetime.date(1970, 1, 1)).days, (last - datetime.date(1970, 1, 1)).days + 1)
    text = f"{'day':<10} {'sold':>8} {'sales':>17} {'refunded':>8} {'refunds':>17}\n"
    for day in days:
        name = str(datetime.date(1970, 1, 1) + datetime.timedelta(day))
        text += line(name, within(model.sales, day, day), within(model.refunds, day, day))
    sold, back = (within(pairs, days[0], days[-1]) for pairs in (model.sales, model.refunds))
    net = sum(sold) - sum(back)
    return text + line("total", sold, back) + f"net {'-' if net < 0 else ''}{money(abs(net))}\n"
