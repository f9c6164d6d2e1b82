"""What one field finds beside the voucher of a whole code: a session by its number or its device, a batch by
its name, a receipt by its number, and vouchers by the first characters of their codes."""

from __future__ import annotations

import re
import sqlite3
import urllib.parse

from portal_field.counter.clerk import Counter
from portal_field.counter.fields import NAME
from portal_field.counter.receipts import Receipts
from portal_field.lib.desk_client import Refused, Routes
from portal_field.lib.typed_codes import (
    DEVICE, LONG, SHORT, START, WHOLE, field_of_address, in_fours, plain_code)

SESSION = re.compile(r"[0-9]{1,11}")        # a code has 12 signs or 16
RECEIPT = re.compile(r"[A-Z]{0,3}[1-9][0-9]{0,11}")


def place_of(counter: Counter, receipts: Receipts, text: str) -> str:
    """The address of the page of what was typed; empty where it is a whole code, or nothing that is known.
    Digits alone are the number of a session, and what may begin a code leads to the codes that begin so.
    NoAnswer: the server does not say whether there is a batch of this name, or such a code."""
    text = text.strip()
    if DEVICE.fullmatch(text):
        return "/session?" + urllib.parse.urlencode({"device": text.lower().replace("-", ":")})
    plain = plain_code(text)
    if WHOLE.fullmatch(plain) and not is_start_of_longer(counter, plain):
        return ""
    if SESSION.fullmatch(text):
        return f"/session?number={int(text)}"
    if number := receipt_named(receipts, text):
        return f"/receipt?number={number}"
    if is_batch(counter, text):
        return "/batch?" + urllib.parse.urlencode({"batch": text})
    return f"/codes?look={counter.looks.keep(in_fours(plain))}" if START.fullmatch(plain) else ""


def after(start: str, typed: str) -> str:
    """What was typed beside the first signs of a code: the code with its next signs; or as it was typed where
    it does not go on there, as a scan, a device, and a code that was typed from its first sign."""
    first, plain = plain_code(start), plain_code(typed)
    if DEVICE.fullmatch(typed.strip()) or field_of_address(typed) is not None or plain.startswith(first):
        return typed
    longer = first + plain
    goes_on = START.fullmatch(longer) or len(longer) == LONG and WHOLE.fullmatch(longer)
    return in_fours(longer) if goes_on else typed


def is_start_of_longer(counter: Counter, plain: str) -> bool:
    """Whether a whole code of before is none, and codes of now begin with its signs."""
    if len(plain) != SHORT:
        return False
    try:
        found = counter.desk.request_json(Routes.VOUCHERS, query={"prefix": plain})["vouchers"]
    except Refused:
        return False        # a server of before finds no vouchers so
    return bool(found) and all(plain_code(voucher["code"]) != plain for voucher in found)


def is_batch(counter: Counter, text: str) -> bool:
    """Whether there is a batch of this name, as the server says it."""
    if not NAME.fullmatch(text):
        return False
    try:
        counter.desk.request(Routes.PRINT, text)
    except Refused as fault:
        if fault.status != 404:
            raise
        return False
    return True


def receipt_named(receipts: Receipts, name: str) -> int:
    """The number of the line of a receipt, by what is printed on it, as A12; 0 where there is none."""
    if not RECEIPT.fullmatch(name):
        return 0
    place = name.lstrip("ABCDEFGHIJKLMNOPQRSTUVWXYZ")
    try:
        found = receipts.named(name.removesuffix(place), int(place))
    except sqlite3.Error:
        return 0        # what else has this number is found without a journal
    return found.number if found else 0
