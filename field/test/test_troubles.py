"""What is said when something is down: on the counter's first page, and by nginx in its place; takings of many years."""

from __future__ import annotations

import datetime
import os
import re
import shutil
import time
import types
import unittest
from typing import Any
from unittest import mock

from desk_process import Routes
from test_counter import AtCounter

from portal_field.counter import takings, troubles
from portal_field.lib.desk_client import Desk
from portal_field.lib.error_pages import counter_pages

SILENT, FULL = "The server does not answer: nothing can be sold", "The disk of this machine is full"
CALL = "Whom to call: Maria, 030 1234567."


class First(AtCounter):
    def test_a_silent_server_is_said_at_once(self) -> None:
        self.assertNotIn(SILENT, self.ask("/")[1])
        self.relay.drops = True
        status, text = self.ask("/")
        self.assertEqual((status, SILENT in text, 0 < text.find("does not answer") < text.index("<h2>")), (200, True, True))
        self.assertEqual(text.count('role="alert"'), 2, "and of the gateway's list")
        self.relay.drops = False
        self.assertNotIn(SILENT, self.ask("/")[1])

    def test_a_server_that_hangs_is_waited_for_two_seconds_at_most(self) -> None:
        self.assertLessEqual(troubles.PATIENCE, 2.0)
        asked, exchange = list[tuple[str, float]](), Desk.exchange

        def heard(desk: Desk, method: str, path: str, *more: Any) -> tuple[int, bytes]:
            asked.append((path, desk.timeout))
            return exchange(desk, method, path, *more)

        with mock.patch.object(Desk, "exchange", heard):
            self.ask("/")
        self.assertEqual(asked, [("/captive", troubles.PATIENCE)])

    def test_a_full_disk_and_one_without_files_are_said(self) -> None:
        usage = shutil.disk_usage("/")
        for free, said in ((troubles.LEAST_ROOM - 1, True), (troubles.LEAST_ROOM, False)):
            with mock.patch.object(shutil, "disk_usage", lambda _, free=free: usage._replace(free=free)):
                self.assertEqual(FULL in self.ask("/")[1], said, free)
        for left, said in ((99, True), (100, False)):
            result = types.SimpleNamespace(f_blocks=10**9, f_bavail=10**9, f_bfree=10**9, f_frsize=4096, f_files=10**6, f_favail=left)
            with mock.patch.object(os, "statvfs", lambda _, result=result: result):
                self.assertEqual(FULL in self.ask("/")[1], said, left)

    def test_an_old_copy_is_said(self) -> None:
        copied = self.folder / "copied"
        self.conf["copied"] = str(copied)
        self.assertNotIn("The last copy", self.ask("/")[1], "before the first night there is none")
        copied.touch()
        for hours, said in ((0, False), (71, False), (73, True)):
            os.utime(copied, (time.time() - hours * 3600,) * 2)
            self.assertEqual("The last copy of the database is 3 days old." in self.ask("/")[1], said, hours)

    def test_whom_to_call_is_said_where_the_venue_names_somebody(self) -> None:
        self.assertNotIn("Whom to call", self.ask("/")[1])
        self.relay.drops = True
        self.assertNotIn("Whom to call", self.ask("/")[1])
        self.conf["owner_contact"] = "Maria, 030 1234567"
        for page in ("/", "/sheet?batch=b1"):
            self.assertIn(CALL, self.ask(page)[1], page)
        self.assertIn(CALL, self.ask("/sell", code="2222", request="s1")[1])
        self.relay.drops = False
        self.assertNotIn("Whom to call", self.ask("/")[1])
        self.assertNotIn("Whom to call", self.ask("/sell", code="2222", request="s2")[1], "a mistyped code calls nobody")

    def test_each_trouble_is_said_at_once_and_in_german(self) -> None:
        copied = self.folder / "copied"
        copied.touch()
        os.utime(copied, (1, 1))
        self.conf.update(copied=str(copied), language="de", owner_contact="Maria, 030 1234567")
        self.counter.__post_init__()
        self.notes.write("state", **{"is": "failed", "why": "its settings are not valid"})
        usage = shutil.disk_usage("/")
        with mock.patch.object(shutil, "disk_usage", lambda _: usage._replace(free=0)):
            text = self.ask("/")[1]
        for words in ("Der Server startet nicht.", "Die Platte dieses Rechners ist voll", "Die letzte Kopie der Datenbank ist",
                      "Anzurufen: Maria, 030 1234567."):
            self.assertIn(words, text)


class Years(AtCounter):
    def test_more_days_than_the_server_takes_are_asked_in_parts(self) -> None:
        self.desk.sell_codes("hour", "b1", 2)
        today = datetime.date.today()
        first = today - datetime.timedelta(1000)
        listed = self.counter.days(str(first), str(today))
        self.assertEqual([row.name for row in listed], [str(first + datetime.timedelta(days)) for days in range(1001)])
        self.assertEqual(takings.added("", listed), takings.added("", self.counter.days(str(today), str(today))))
        self.assertIn('<td data-label="In the drawer"><b>6.00</b></td>', self.ask(f"/takings?from={first}&to={today}&by=month")[1])
        csv = self.ask(f"/takings.csv?from={first}&to={today}")[1].splitlines()
        self.assertEqual((len(csv), csv[-1]), (1002, f"{today},2,6.00,0,0.00,6.00"))

    def test_parts_follow_one_another_and_none_is_longer_than_a_year(self) -> None:
        for days, count in ((1, 1), (366, 1), (367, 2), (732, 2), (733, 3)):
            first = datetime.date(2023, 11, 5)
            asked = list(takings.parts(str(first), str(first + datetime.timedelta(days - 1))))
            ends = [tuple(map(datetime.date.fromisoformat, part.values())) for part in asked]
            self.assertEqual((len(ends), ends[0][0], ends[-1][1]), (count, first, first + datetime.timedelta(days - 1)))
            self.assertTrue(all(0 <= (to - since).days <= 365 for since, to in ends), ends)
            self.assertTrue(all((after[0] - before[1]).days == 1 for before, after in zip(ends, ends[1:])), ends)
        for first_text, last in (("2026-02-01", "2026-01-01"), ("x", "2026-01-01"), ("2026-01-01", ""), ("0001-01-01", "9999-12-31")):
            self.assertEqual(list(takings.parts(first_text, last)), [{"from": first_text, "to": last}], "as it stands")

    def test_the_server_takes_no_more_at_once(self) -> None:
        day = datetime.date(2026, 1, 1)
        for days, is_taken in ((takings.MOST_AT_ONCE, True), (takings.MOST_AT_ONCE + 1, False)):
            query = {"from": str(day), "to": str(day + datetime.timedelta(days - 1))}
            try:
                self.desk.desk.request(Routes.TAKINGS, query=query)
            except Exception as fault:      # its only refusal
                self.assertEqual((str(fault), is_taken), ("bad_request", False))
            else:
                self.assertTrue(is_taken)


class Away(unittest.TestCase):
    def test_the_page_of_nginx_in_the_counters_language(self) -> None:
        text, busy = counter_pages("de", "Maria <x>, 030 1234567").values()
        self.assertIn("Laden Sie die Seite in einigen Sekunden noch einmal.", busy)
        for words in ('<html lang="de" dir="ltr">', "Anzurufen: Maria &lt;x&gt;, 030 1234567.", 'href="/away.css"'):
            self.assertIn(words, text)
        self.assertEqual((text.count("<h1>"), "<script" in text, text.count('role="alert"')), (1, False, 1))
        without_contact = "".join(counter_pages("en", "").values())
        self.assertNotIn("Whom to call", without_contact)
        self.assertEqual(re.findall("%\\(", without_contact), [])


if __name__ == "__main__":
    unittest.main()
