"""Wrong passwords and PINs at the counter: whom they refuse, and whom they delay.

A log-in has a count of its own, and so has a browser in which that name was logged in before: what others try
hinders neither. Anybody else is refused by name and address, and by address. The name alone refuses nobody:
it delays.
"""

from __future__ import annotations

import threading
import time
from collections.abc import Callable
from dataclasses import dataclass

from portal_field.lib import passwords
from portal_field.lib.tries import Tries

Key = tuple[str, ...]
FREE_OF_ADDRESS = 20    # wrong words of all names, before none is tried from an address
# Words that wait at a time, of all venues of this process: half of the requests that it works on. One more
# does not wait, so that those who wait keep nobody from the page.
WAITING = threading.BoundedSemaphore(4)


class Locked(Exception):
    """Too many wrong passwords or PINs: for how many seconds none is good."""

    def __init__(self, seconds: float) -> None:
        super().__init__(seconds)
        self.seconds = seconds


@dataclass(frozen=True)
class Asker:
    """Who types a password or PIN: of which name, and from which address. `browser`: the number of the
    browser, where that name was logged in in it before; `login`: the token of the log-in that it is typed in;
    both may be empty."""
    name: str
    place: str
    browser: str = ""
    login: str = ""

    # keys of Tries: tuples, since a name is whatever somebody typed

    @property
    def of_name(self) -> Key:
        """Of the name, from wherever."""
        return "name", self.name

    @property
    def of_all(self) -> tuple[Key, Key]:
        """Of whom nothing more is known: by name and address, and by address."""
        return ("name", self.name, "address", self.place), ("address", self.place)

    @property
    def of_browser(self) -> tuple[Key, ...]:
        """Of a browser in which the name was logged in before."""
        return (("name", self.name, "browser", self.browser),) if self.browser else ()

    @property
    def of_login(self) -> tuple[Key, ...]:
        """Of a log-in."""
        return (("log-in", self.login),) if self.login else ()

    @property
    def refused_by(self) -> tuple[Key, ...]:
        """The keys that refuse."""
        return self.of_login or self.of_browser or self.of_all

    @property
    def is_delayed(self) -> bool:
        """Whether the name alone delays."""
        return self.refused_by == self.of_all


class Guesses:
    """The wrong words of a venue's counter. Seconds by `now`; `sleep` waits for so many."""

    def __init__(self, now: Callable[[], float] = time.monotonic,
                 sleep: Callable[[float], None] = time.sleep) -> None:
        self.tries, self.turn, self.sleep = Tries(now), threading.Lock(), sleep

    def check_wait(self, asker: Asker) -> None:
        """Locked: too many words of this asker were wrong."""
        if seconds := max(map(self.tries.wait, asker.refused_by)):
            raise Locked(seconds)

    def delay(self, asker: Asker) -> None:
        """Waits before a word is tried, where too many of its name were wrong."""
        seconds = self.tries.delay(asker.of_name) if asker.is_delayed else 0.0
        if seconds and WAITING.acquire(blocking=False):
            try:
                self.sleep(seconds)
            finally:
                WAITING.release()

    def is_right(self, asker: Asker, word: str, *hashes: str) -> bool:
        """Whether a word is one of these; a wrong one is counted. One is tried at a time. Locked: none is
        tried now."""
        self.check_wait(asker)
        self.delay(asker)
        with self.turn:
            self.check_wait(asker)
            if any([passwords.fits(word, each) for each in hashes]):
                return True
            self.count_wrong(asker)
            return False

    def count_wrong(self, asker: Asker) -> None:
        """Counts a wrong word by all that is known of who typed it: to throw a cookie away gains little."""
        by_name, by_address = asker.of_all
        for key in (*asker.of_login, *asker.of_browser, asker.of_name, by_name):
            self.tries.add(key)
        self.tries.add(by_address, FREE_OF_ADDRESS)
