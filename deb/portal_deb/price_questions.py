"""Asks for the prices of the sample's plans, before they are loaded for good."""

from __future__ import annotations

import re
from collections.abc import Callable

from portal_field.lib.languages import Language
from portal_field.lib.plans import LIMITS, Plan, plans_in
from portal_field.settings.samples import mark_as_chosen

LEAVE_OUT = "-"
AMOUNT = re.compile(r"(\d{1,7})(?:[.,](\d{1,2}))?")


def hundredths(answer: str) -> int:
    """An amount such as 3, 3.5 or 3,50. ValueError: it is none, or more than a plan may cost."""
    match = AMOUNT.fullmatch(answer)
    amount = int(match[1]) * 100 + int((match[2] or "").ljust(2, "0")) if match else -1
    if not LIMITS["price"][0] <= amount <= LIMITS["price"][1]:
        raise ValueError(f"an amount such as 3 or 3.50, at most {LIMITS['price'][1] // 100}, or {LEAVE_OUT}")
    return amount


def worth(plan: Plan) -> str:
    """What a voucher of a plan gives: time, data, or both, and how often."""
    english = Language("en")
    writers = (("seconds", english.span), ("bytes", english.volume))
    parts = [write(plan[key]) for key, write in writers if plan[key]]
    return " and ".join(parts) + (f", {plan['uses']} times" if plan["uses"] > 1 else "")


def with_price(block: str, amount: int) -> str:
    """A plan's lines with that price."""
    return re.sub(r"(?m)^price = .*$", f"price = {amount}", block)


def ask(text: str, say: Callable[[str], None] = print, hear: Callable[[str], str] = input) -> str:
    """Asks for the price of each plan of a sample. The sample with the answers, without the plans that were
    left out."""
    say("What does a voucher cost? Choose now: a plan that was loaded never changes. "
        f"{LEAVE_OUT} leaves a plan out.")
    head, *blocks = text.split("[[plan]]")
    while True:
        answers = [ask_one(block, say, hear) for block in blocks]
        if any(answers):
            return mark_as_chosen("[[plan]]".join([head, *filter(None, answers)]))
        say("  no: at least one plan is needed")


def ask_one(block: str, say: Callable[[str], None], hear: Callable[[str], str]) -> str:
    """Asks for the price of one plan. Its lines with that price, or nothing where it is left out."""
    (name, plan), = plans_in(f"[[plan]]{block}".encode()).items()
    default = f"{plan['price'] // 100}.{plan['price'] % 100:02}"
    while True:
        answer = hear(f"The price of {name} ({worth(plan)}) [{default}]: ").strip() or default
        if answer == LEAVE_OUT:
            return ""
        try:
            return with_price(block, hundredths(answer))
        except ValueError as fault:
            say(f"  no: {fault}")
