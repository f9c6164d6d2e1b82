"""What the guests' page says of a session's end: until when, in words, whether that is soon, and when it looks again."""

from __future__ import annotations

import time
import unittest
from typing import Any
from unittest import mock

from portal_field.guests.left import LEAST_WAIT, left_of
from portal_field.lib.languages import Language
from portal_field.lib.local_time import use_zone

NOW = 1_772_800_000         # 2026-03-06 12:26:40 UTC
BERLIN = "CET-1CEST,M3.5.0,M10.5.0/3"


class Left(unittest.TestCase):
    def setUp(self) -> None:
        self.addCleanup(use_zone, "UTC0")
        use_zone("UTC0")
        self.enterContext(mock.patch.object(time, "time", lambda: float(NOW)))

    def left(self, answer: dict[str, Any], used: int = 0, tag: str = "en") -> Any:
        """What is said of an answer of the server; `seconds` and `count` are what is left."""
        names = {"seconds": "seconds-remaining", "count": "bytes-remaining", "extends": "can-extend-session"}
        return left_of({names[key]: value for key, value in {"extends": True, **answer}.items()}, used, Language(tag))

    def test_the_end_is_said_in_the_venues_zone_and_in_words(self) -> None:
        for zone, tag, seconds, words in (
                ("UTC0", "en", 3_780, ("1 hour, 3 minutes", "until 13:29")), (BERLIN, "en", 3_780, ("1 hour, 3 minutes", "until 14:29")),
                (BERLIN, "de", 240, ("4 Minuten", "bis 13:30")), (BERLIN, "ja", 86_400, ("1 日", "2026年3月7日 13:26 まで"))):
            use_zone(zone)
            amount, = self.left({"seconds": seconds}, tag=tag).amounts
            self.assertEqual((amount.left, amount.until), words, (zone, tag))

    def test_the_end_is_near_below_five_minutes_or_a_twentieth_of_the_data(self) -> None:
        answers: list[tuple[dict[str, int], int, bool]] = [
            ({"seconds": 300}, 0, False), ({"seconds": 299}, 0, True), ({"seconds": 0}, 0, True), ({"count": 50}, 950, False),
            ({"count": 49}, 951, True), ({"count": 1000}, 0, False), ({"count": 49}, 931, False), ({"count": 49}, 932, True),
            ({"seconds": 300, "count": 49}, 951, True), ({"seconds": 299, "count": 50}, 950, True)]
        for answer, used, soon in answers:
            self.assertEqual(bool(self.left(answer, used).soon), soon, (answer, used))
        self.assertEqual(self.left({"seconds": 100}).soon, "Your time ends at 12:28.")

    def test_the_page_looks_again_when_its_words_change_but_not_sooner_than_30_seconds(self) -> None:
        """The words of a span have two units: days and hours, hours and minutes, minutes, seconds."""
        answers: list[tuple[dict[str, int], int]] = [
            ({"seconds": 3_600 + 59}, 60), ({"seconds": 3_600 + 29}, 30), ({"seconds": 3_600}, LEAST_WAIT), ({"seconds": 119}, 60),
            ({"seconds": 45}, 30), ({"seconds": 86_400 + 3_599}, 3_600), ({"seconds": 86_400 + 7_200 + 99}, 100), ({"count": 1}, 60),
            ({"seconds": 86_400 + 3_599, "count": 1}, 60), ({}, 86_400)]
        for answer, wait in answers:
            self.assertEqual(self.left(answer).wait, wait, answer)
        english = Language("en")
        for seconds in (59, 60, 119, 3_599, 3_600, 5_000, 86_399, 86_400, 100_000, 200_000):
            change = next(more for more in range(1, 4_000) if english.span(seconds - more) != english.span(seconds))
            self.assertEqual(self.left({"seconds": seconds}).wait, max(LEAST_WAIT, change), seconds)

    def test_whether_another_code_adds_or_from_when_it_can_be_typed(self) -> None:
        answers: list[dict[str, Any]] = [
            {"extends": True, "seconds": 90}, {"extends": False, "seconds": 90}, {"extends": False, "count": 9}]
        self.assertEqual([self.left(answer).next_code for answer in answers], [
            "Another code adds to what is left.", "Another code can be used from 12:28 on.",
            "Another code can be used when this one has ended."])


if __name__ == "__main__":
    unittest.main()
