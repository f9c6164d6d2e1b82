"""What the counter offers, as guests read it: what each plan gives, and its price."""

from __future__ import annotations

from collections.abc import Iterator
from typing import Any

from portal_field.lib.languages import Language
from portal_field.lib.machine_time import Notes
from portal_field.lib.offers_file import Offer


def worth(plan: dict[str, Any], language: Language) -> str:
    """What a voucher of a plan gives: time, data, or both, and how often."""
    parts = [say(plan[key]) for key, say in (("seconds", language.span), ("bytes", language.volume))
             if plan[key]]
    what = " + ".join(parts)
    return what if plan["uses"] == 1 else language.say_plural(
        "%(what)s, %(num)s time", "%(what)s, %(num)s times", plan["uses"], what=what)


def prices(notes: Notes, currency: str, language: Language) -> Iterator[tuple[str, str]]:
    """What each plan gives that the counter offers, after its name where the venue names it, and its price,
    the cheapest first; nothing before the counter has said so."""
    plans = notes.read("offers").get("plans", [])
    for plan in sorted(plans, key=lambda plan: (plan["price"], plan["id"])):
        offer, what = Offer(plan.get("name", ""), plan.get("names", {})), worth(plan, language)
        name = offer.name_in(language.tag)
        yield f"{name}: {what}" if name else what, language.money(plan["price"], currency)
