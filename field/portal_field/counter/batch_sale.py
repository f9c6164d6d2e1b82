"""How many codes of a batch can be sold or refunded now, and what they come to."""

from __future__ import annotations

import time
from dataclasses import dataclass

from portal_field.counter.sheet import rows
from portal_field.counter.takings import hundredths
from portal_field.lib.desk_client import Desk, Routes


@dataclass(frozen=True)
class Unsold:
    """Of the codes of a batch those that can be sold, and the price of one in hundredths."""
    batch: str
    plan: str
    codes: int
    count: int
    price: int
    is_late: bool = False       # past their date: none can be sold

    @property
    def sum(self) -> int:
        """What all of them cost together, in hundredths."""
        return self.count * self.price


@dataclass(frozen=True)
class Unused:
    """Of the codes of a batch those that were sold and of which no use was redeemed; `refundable` are those
    that were not refunded. Prices are in hundredths."""
    batch: str
    plan: str
    listed: list[str]
    unused: set[str]
    refundable: set[str]
    price: int

    @property
    def sum(self) -> int:
        """What is paid back for all that can be refunded, in hundredths."""
        return len(self.refundable) * self.price


def price_of(desk: Desk, batch: str) -> int:
    """What each voucher of a batch costs, in hundredths: the print file has it."""
    return hundredths(rows(desk.request(Routes.PRINT, batch).decode())[0]["price"])


def unsold(desk: Desk, batch: str) -> Unsold:
    """Counts the codes of a batch that can be sold, and adds up their prices. All codes of a batch have one
    date."""
    state, price = desk.request_json(Routes.BATCH, batch), price_of(desk, batch)
    is_late = bool(state["expires"] <= time.time())
    count = sum(voucher["sold"] is None for voucher in state["vouchers"])
    return Unsold(batch, state["plan"], state["count"], 0 if is_late else count, price, is_late)


def unused(desk: Desk, batch: str) -> Unused:
    """Codes past their date can be refunded, too. The codes are in the order of the print file."""
    state, price = desk.request_json(Routes.BATCH, batch), price_of(desk, batch)
    found = [voucher for voucher in state["vouchers"]
             if voucher["sold"] is not None and voucher["redeemed"] == 0]
    return Unused(batch, state["plan"], [voucher["code"] for voucher in state["vouchers"]],
                  {voucher["code"] for voucher in found},
                  {voucher["code"] for voucher in found if voucher["refund"] is None}, price)
