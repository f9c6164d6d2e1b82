"""What a refund gives back, before it is made: the server's rule, over what it says of a voucher."""

from __future__ import annotations

from typing import Any


def amount(price: int, voucher: dict[str, Any]) -> int:
    """Hundredths: the price of the uses that were not redeemed, rounded down."""
    return int(price * (voucher["uses"] - voucher["redeemed"]) // voucher["uses"])


def refusal(voucher: dict[str, Any]) -> str:
    """The word with which the server refuses a refund of this voucher; empty where it makes one."""
    if voucher["sold"] is None:
        return "not_sold"
    if voucher["refund"] is not None:
        return "refunded"
    return "nothing_left" if voucher["redeemed"] == voucher["uses"] else ""
