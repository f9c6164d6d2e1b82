"""The fields that a clerk types into: which rule each has, and how an error says it."""

from __future__ import annotations

import datetime
import re
from collections.abc import Callable
from dataclasses import dataclass

from portal_field.counter.shifts import hundredths
from portal_field.counter.takings import MOST_DAYS
from portal_field.lib import refusals
from portal_field.lib.forms import Form
from portal_field.lib.message_marks import clerk_words

NAME = re.compile(r"[a-z0-9-]{1,32}")
MOST_CODES = 500


@dataclass(frozen=True)
class Rule:
    """What a field has to be. `field`: the one that is wrong, where that has another name."""
    label: str
    words: str
    fits: Callable[[str], bool]
    field: str = ""


def is_day(text: str) -> bool:
    """Whether a text is a day that the server counts."""
    try:
        day = datetime.date.fromisoformat(text)
    except ValueError:
        return False
    return str(day) == text and 1970 <= day.year <= 9998


def is_number(text: str, least: int, most: int) -> bool:
    """Whether a text has digits alone, and is not out of bounds."""
    return text.isascii() and text.isdecimal() and len(text) <= 18 and least <= int(text) <= most


AN_AMOUNT = clerk_words("An amount of money such as 12.50, without a currency, and at most 1,000,000.")
A_DAY = clerk_words("A day of the years 1970 to 9998, such as 2026-01-31.")
RULES = {
    "batch": Rule(clerk_words("Name of the batch"),
                  clerk_words("Lower-case letters, digits and hyphens, at most 32."),
                  lambda text: bool(NAME.fullmatch(text))),
    "count": Rule(clerk_words("Codes"), clerk_words("A number from 1 to 500."),
                  lambda text: is_number(text, 1, MOST_CODES)),
    "session": Rule(clerk_words("Number of the session, as the guest's page shows it"),
                    clerk_words("Digits alone, at most 18."), lambda text: is_number(text, 0, 10**18)),
    "day": Rule(clerk_words("Day"), A_DAY, is_day),
    "from": Rule(clerk_words("First day"), A_DAY, is_day),
    "to": Rule(clerk_words("Last day"), A_DAY, is_day),
    "order": Rule(clerk_words("Last day"), clerk_words("It is not before the first day."), bool, "to"),
    "span": Rule(clerk_words("Last day"), clerk_words("From the first day on there are 40 years at most."),
                 bool, "to"),
    "float": Rule(clerk_words("Money in the drawer at the beginning"), AN_AMOUNT,
                  lambda text: hundredths(text) is not None),
    "amount": Rule(clerk_words("Amount"), AN_AMOUNT, lambda text: bool(hundredths(text))),
    "counted": Rule(clerk_words("Counted in the drawer"), AN_AMOUNT,
                    lambda text: hundredths(text) is not None)}
FORMS = {"lost": ("batch",), "replace-session": ("session",), "issue": ("batch", "count"),
         "batch": ("batch",), "sheet": ("batch",), "sheet.pdf": ("batch",), "sell-batch": ("batch",),
         "refund-batch": ("batch",), "close": ("session",), "cash-up": ("day",), "takings": ("from", "to"),
         "takings.csv": ("from", "to")}
# Which field the server speaks of.
OF_ERRORS = {"unknown_batch": "batch", "batch_exists": "batch", "unknown_plan": "plan",
             "unknown_session": "session", "closed_already": "session"}


def wrong_rule(form_name: str, form: Form) -> str:
    """The first rule that a form does not keep; empty where it keeps all."""
    for name in FORMS.get(form_name, ()):
        if not RULES[name].fits(form.get(name, "")):
            return name
    if "from" not in FORMS.get(form_name, ()):
        return ""
    days = (datetime.date.fromisoformat(form["to"]) - datetime.date.fromisoformat(form["from"])).days
    return "order" if days < 0 else "" if days < MOST_DAYS else "span"


def lines(say: Callable[..., str], name: str, form: Form) -> tuple[str, ...]:
    """What an error says of a field: what was typed, and the rule."""
    rule, cause = RULES[name], say(refusals.of_word("bad_request").cause)
    given = form.get(rule.field or name, "")
    what = say("%(field)s: “%(given)s”.", field=say(rule.label), given=given[:48]) if given else say(
        "%(field)s: nothing.", field=say(rule.label))
    return cause, what, say(rule.words)
