"""The browsers in which somebody was logged in before, by a cookie that says so: `NUMBER.MARK.MARK..`, a
number that the browser got once, and for each name a mark that only this counter can make."""

from __future__ import annotations

import hashlib
import hmac
import re
import secrets

COOKIE = "__Host-browser"
LASTS = 400 * 86400     # seconds: browsers keep no cookie for longer
MOST_NAMES = 16         # of one browser
NUMBER = re.compile(r"[0-9a-f]{32}")


class KnownBrowsers:
    """What makes and reads such cookies with a key."""

    def __init__(self, key: bytes) -> None:
        self.key = key

    def mark(self, number: str, name: str) -> str:
        """What says that this name was logged in in that browser."""
        return hmac.new(self.key, f"{number} {name}".encode(), hashlib.sha256).hexdigest()[:32]

    def number(self, cookie: str, name: str) -> str:
        """The number of a browser in which this name was logged in before; empty where its cookie does not
        say so."""
        number, *marks = cookie.split(".")
        own = self.mark(number, name)
        return number if any(hmac.compare_digest(own.encode(), mark.encode()) for mark in marks) else ""

    def cookie(self, before: str, name: str) -> str:
        """The cookie of a browser in which this name is logged in now. `before`: the one that it sent."""
        number, *marks = before.split(".")
        if not NUMBER.fullmatch(number):
            number, marks = secrets.token_hex(16), []
        own = self.mark(number, name)
        others = [mark for mark in marks if NUMBER.fullmatch(mark) and mark != own]
        return ".".join((number, own, *others[:MOST_NAMES - 1]))
