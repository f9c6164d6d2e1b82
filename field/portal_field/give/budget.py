"""The free vouchers of an hour: one laptop with many addresses does not take those of a day, and leaves some
to whoever was there before."""

from __future__ import annotations

import math
from dataclasses import dataclass

HOUR = 3600
SHARE, LEAST = 8, 4     # an hour has an eighth of a day's free vouchers, and so many at least
OLD = 600               # seconds for which a device has to be known, once half is given out


def hourly(daily: int) -> int:
    """How many free vouchers an hour has, where a day has so many."""
    return max(LEAST, math.ceil(daily / SHARE))


@dataclass(frozen=True)
class Budget:
    """How many free vouchers are left at a moment, of the `most` of an hour. They come back evenly."""
    most: int
    left: float
    at: float

    def later(self, now: float) -> Budget:
        """What is left at another moment, if none was given since. By a clock that was set back none came
        back."""
        back = max(0.0, now - self.at) * self.most / HOUR
        return Budget(self.most, min(self.left + back, float(self.most)), now)

    def less_one(self) -> Budget:
        """What is left once one was given."""
        return Budget(self.most, self.left - 1, self.at)

    def begin(self, known: float) -> float:
        """The moment from which on a device can have one, which is known since a moment: this one while more
        than half is left; else once it is known for OLD seconds, and one is left."""
        if self.left > self.most / 2:
            return self.at
        return max(self.at, known + OLD, self.at + (1 - self.left) * HOUR / self.most)
