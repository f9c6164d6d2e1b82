"""Wrong passwords and PINs, counted by keys: names, addresses, browsers."""

from __future__ import annotations

import threading
import time
from collections.abc import Callable, Hashable


class Tries:
    """Wrong words by a key. After FREE of them none is tried of that key, for twice as long each time; or,
    where a key delays alone, each waits before it is tried. A key is forgotten LONGEST seconds after its last
    wait."""
    FREE, FIRST, LONGEST, MOST = 5, 30.0, 900.0, 4096
    SLOWEST = 10.0      # seconds that a key delays at most

    def __init__(self, now: Callable[[], float] = time.monotonic) -> None:
        self.now, self.lock = now, threading.Lock()
        self.wrong: dict[Hashable, tuple[int, float]] = {}       # key: how many, and until when it waits

    def wait(self, key: Hashable) -> float:
        """Seconds for which no word of this key is tried."""
        return max(0.0, self.wrong.get(key, (0, 0.0))[1] - self.now())

    def delay(self, key: Hashable) -> float:
        """Seconds that a word of this key waits before it is tried, where the key refuses none."""
        count, until = self.wrong.get(key, (0, 0.0))
        if count < self.FREE or self.now() - until >= self.LONGEST:
            return 0.0
        return float(min(2 ** min(count - self.FREE, 10), self.SLOWEST))

    def add(self, key: Hashable, free: int = FREE) -> None:
        """Counts a wrong word of a key, which after so many waits, and longer each time."""
        with self.lock:
            now = self.now()
            count, until = self.wrong.pop(key, (0, now))
            if now - until >= self.LONGEST:
                count = 0
            count += 1
            more = min(count - free, 10)
            self.wrong[key] = (count, now + (min(self.FIRST * 2 ** more, self.LONGEST) if more >= 0
                                             else 0.0))
            if len(self.wrong) > self.MOST:
                # the one that was longest without a wrong word
                del self.wrong[next(iter(self.wrong))]
