"""Kinds of payment, as the venue lists them. Those that are named here are translated, others are shown as
they are written."""

from __future__ import annotations

from collections.abc import Callable
from typing import Any

from portal_field.lib.forms import Form
from portal_field.lib.message_marks import clerk_words

CASH = "cash"       # what is paid so is in the drawer
NAMES = {CASH: clerk_words("Cash"), "card": clerk_words("Card"), "room": clerk_words("On the room")}
MONEY_ACTIONS = ("sell", "now", "sell-several", "sell-batch", "refund", "refund-batch")


def kinds(conf: dict[str, Any]) -> list[str]:
    """The venue's kinds of payment; cash alone where it names none."""
    listed: list[str] = conf.get("payments", [])
    return listed or [CASH]


def words(say: Callable[..., str], kind: str) -> str:
    """A kind of payment, as a clerk reads it."""
    return say(NAMES[kind]) if kind in NAMES else kind


def chosen(conf: dict[str, Any], form: Form) -> str:
    """The kind that a form names; the first one of the venue where nothing is asked, or nothing was named."""
    return form.get("payment") or kinds(conf)[0]


def is_known(conf: dict[str, Any], form: Form) -> bool:
    """Whether the venue takes what the form names. A form in doubt goes on with what it began with."""
    return "again" in form or chosen(conf, form) in kinds(conf)
