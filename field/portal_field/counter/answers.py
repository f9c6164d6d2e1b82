"""Which forms are being carried out, and which answers no browser has shown yet.

A double click sends a form twice, and the browser shows the second answer alone. The first one was not seen,
so the second one must say the same, and not that the form is a repetition.
"""

from __future__ import annotations

import contextlib
import threading
import time
from collections.abc import Callable, Iterator


class Answers:
    """Both by the number of the form, in memory: after a restart of the page every answer counts as seen."""

    LONGEST = 60.0      # seconds that an answer counts as unseen

    def __init__(self, now: Callable[[], float] = time.monotonic) -> None:
        self.now, self.change = now, threading.Condition()
        self.at_work: set[str] = set()
        self.unseen: dict[str, float] = {}      # number: when it was sent

    @contextlib.contextmanager
    def turn(self, number: str) -> Iterator[None]:
        """Forms of one number are carried out one after another."""
        with self.change:
            self.change.wait_for(lambda: number not in self.at_work)
            self.at_work.add(number)
        try:
            yield
        finally:
            with self.change:
                self.at_work.remove(number)
                self.change.notify_all()

    def sent(self, number: str) -> None:
        """An answer goes to a browser, which will say that it shows it."""
        with self.change:
            first = self.now() - self.LONGEST
            self.unseen = {each: at for each, at in self.unseen.items() if at > first} | {number: self.now()}

    def shown(self, number: str) -> None:
        """The browser shows the answer to the form of this number."""
        with self.change:
            self.unseen.pop(number, None)

    def is_unseen(self, number: str) -> bool:
        """Whether the answer to the form of this number was given a moment ago and not shown yet."""
        with self.change:
            return number in self.unseen and self.now() - self.unseen[number] < self.LONGEST
