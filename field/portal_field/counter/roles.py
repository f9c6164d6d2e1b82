"""What a clerk may do, what a manager alone may, and what the office alone may: by the address of a page or
of a form."""

from __future__ import annotations

from typing import Any

import flask

from portal_field.settings.accounts import CLERK, MANAGER, OFFICE

# Who is logged in may always: the pages of the log-in itself.
FOR_ALL = {"logo", "lock", "unlock", "logout", "account", "password", "pin"}
# What a clerk sells, looks up, or refunds up to the venue's limit, with receipts, the drawer and its shift;
# also the word that the time is right, without which nothing is sold.
FOR_CLERKS = {"", "shown", "voucher", "next", "sell", "now", "several", "sell-several", "sell-batch",
              "refund", "vouchers", "batches", "batch", "codes", "sheet", "sheet.pdf",
              "sessions", "session", "venue",
              "scanner", "time",
              "money", "drawer", "shift", "shift-open", "shift-move", "shift-close", "slip", "receipt",
              "receipt.css", "receipts"}
FOR_MANAGERS = {"issue", "refund-batch", "close", "replace", "replace-session", "lost", "found", "takings",
                "takings.csv", "cash-up", "cash-up.csv", "clerks", "clerk", "clerk-gone",
                "plans", "plan", "settings", "texts", "text", "picture", "picture.png"}
# The view of all venues. A manager is one of a single venue, and does not see the others.
FOR_OFFICE = {"office", "office.csv"}
# What another part does where the password of an account of this counter is typed.
WITH_PASSWORD = {"password", "pin", "clerks", "clerk", "clerk-gone", "plans", "plan", "settings", "texts",
                 "text", "picture", "picture.png"}
REFUND_LIMIT = 2000     # hundredths, where the venue names no other


def role() -> str:
    """The role of who is logged in. Pages that are served without log-ins, as in their tests, are a
    manager's."""
    return str(flask.g.get("role", MANAGER))


def is_for(who: str, name: str) -> bool:
    """Whether this role may open an address. One that is in none of the tables is for managers."""
    if who == MANAGER:
        return name not in FOR_OFFICE
    return who == CLERK and name in FOR_ALL | FOR_CLERKS or who == OFFICE and name in FOR_ALL | FOR_OFFICE


def lacks_password(name: str) -> bool:
    """Whether an address needs a password of this counter, and who is logged in has none, as who signed in by
    the chain."""
    login = flask.g.get("login")
    return bool(login and login.is_signed_in and name in WITH_PASSWORD)


def may(name: str) -> bool:
    """Whether who is logged in may open an address."""
    return is_for(role(), name) and not lacks_password(name)


def refund_limit(conf: dict[str, Any]) -> int | None:
    """The most that who is logged in refunds of one voucher, in hundredths; None: any sum."""
    return None if role() == MANAGER else int(conf.get("clerk_refund_limit", REFUND_LIMIT))
