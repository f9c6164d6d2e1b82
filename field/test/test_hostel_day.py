"""Days of a hostel at the counter, by their seeds: `hostel_day.py SEED` runs any other one."""

from __future__ import annotations

import unittest

from hostel_day import DRAWERS, KINDS, TROUBLES, run_day


class Days(unittest.TestCase):
    """Drawers, journal and server agree at the end, whatever happened."""

    def agrees(self, seed: int) -> None:
        day = run_day(seed)
        self.assertEqual((set(day.cash), set(day.taken)), (set(DRAWERS), set(KINDS)))
        self.assertEqual([trouble for trouble in TROUBLES if not day.happened[trouble]], [], "each trouble happened")

    def test_the_first(self) -> None:
        self.agrees(1)

    def test_the_second(self) -> None:
        self.agrees(2)

    def test_the_third(self) -> None:
        self.agrees(3)


if __name__ == "__main__":
    unittest.main()
