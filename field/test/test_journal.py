"""The counter's journal: its file, the pages that show it, the takings beside it, and the report of a day."""

from __future__ import annotations

import contextlib
import csv
import datetime
import html
import io
import os
import pathlib
import re
import sqlite3
import subprocess
import sys
import tempfile
import time
import unittest
from typing import Any
from unittest import mock

from desk_process import Routes
from test_counter import AtCounter

from portal_field.counter import report as daily_report, takings
from portal_field.counter.journal import Act, Journal, Sums, span_of
from portal_field.lib.languages import Language
from portal_field.settings.venue import toml_lines

ANNA, BEN = {"X-User": "anna", "X-Real-IP": "10.88.0.2"}, {"X-User": "ben", "X-Real-IP": "10.88.0.3"}
WORDS = Language("en", "counter")


def plain(text: str) -> str:
    """A page without its marks."""
    return html.unescape(re.sub(r"\s+", " ", re.sub("<[^>]*>", " ", text)))


class Kept(AtCounter):
    """What the pages write."""

    def acts(self) -> list[tuple[object, ...]]:
        self.journal.asked("SELECT 1")      # there is a file now
        with contextlib.closing(sqlite3.connect(self.journal.path)) as link:
            return link.execute("SELECT clerk, place, act, batch, plan, codes, price, request, answer FROM acts "
                                "ORDER BY number").fetchall()

    def test_each_act_of_each_clerk_is_kept_without_its_code(self) -> None:
        code, other = self.desk.issue_codes("gigabyte", "b1", 2)
        self.ask("/sell", head=ANNA, code=code, request="s1")
        self.ask("/sell", head=BEN, code=code, request="s2")
        self.ask("/refund", head=BEN, code=code, request="r1")
        self.ask("/close", head=ANNA, session="7", request="c1")
        self.ask("/issue", head=ANNA, batch="b2", plan="day", count="3", request="i1")
        self.ask("/sell", head=ANNA, code="2222", request="s3")
        self.assertEqual(self.acts(), [
            ("anna", "10.88.0.2", "sell", "b1", "gigabyte", 1, 500, "s1", "done"),
            ("ben", "10.88.0.3", "sell", "b1", "gigabyte", 1, 0, "s2", "sold_already"),
            ("ben", "10.88.0.3", "refund", "b1", "gigabyte", 1, 500, "r1", "done"),
            ("anna", "10.88.0.2", "close", "", "", 0, 0, "c1", "unknown_session"),
            ("anna", "10.88.0.2", "issue", "b2", "day", 3, 0, "i1", "done"),
            ("anna", "10.88.0.2", "sell", "", "", 0, 0, "s3", "bad_code")])
        raw = pathlib.Path(self.journal.path).read_bytes()
        self.assertTrue(b"gigabyte" in raw and code.encode() not in raw and code.replace("-", "").encode() not in raw)
        with contextlib.closing(sqlite3.connect(self.journal.path)) as link:
            moments = [row[0] for row in link.execute("SELECT moment FROM acts")]
        self.assertTrue(all(abs(moment - time.time()) < 60 for moment in moments), moments)

    def test_a_batch_is_kept_code_by_code_with_a_key_for_each(self) -> None:
        self.desk.issue_codes("hour", "b1", 3)
        self.ask("/sell-batch", batch="b1", count="3", request="w1")
        self.ask("/now", batch="one-1", plan="day", request="n1")
        self.assertEqual([(act, batch, request) for _, _, act, batch, _, _, _, request, _ in self.acts()], [
            ("sell", "b1", "w1-001"), ("sell", "b1", "w1-002"), ("sell", "b1", "w1-003"),
            ("one", "one-1", "n1-001"), ("sell", "one-1", "n1-002"), ("print", "one-1", "")])

    def test_each_sheet_that_is_shown_and_each_look_up_is_kept_and_counts_nowhere(self) -> None:
        codes = self.desk.sell_codes("gigabyte", "b1", 3)
        before = self.cash_up()
        self.ask("/sheet?batch=b1", head=ANNA)
        self.ask("/sheet?batch=b1&size=label", head=ANNA)
        self.ask("/sheet?batch=b9", head=ANNA)
        for code in (codes[0], "2222-2222-2222-2222"):
            self.see(f"/voucher?code={code}", ANNA)
        self.relay.drops = True
        self.see(f"/voucher?code={codes[0]}", ANNA)
        self.relay.drops = False
        other = Journal(self.folder / "other.db")
        other.add("anna", "10.88.0.2", [Act("look", "", "stopped")])
        who = ("anna", "10.88.0.2")
        self.assertEqual(self.acts(), [
            (*who, "print", "b1", "gigabyte", 3, 0, "", "done"), (*who, "print", "b1", "gigabyte", 3, 0, "", "done"),
            (*who, "look", "b1", "gigabyte", 1, 0, "", "done"), (*who, "look", "", "", 0, 0, "", "unknown_code")])
        day, after = datetime.date.today(), self.cash_up()
        self.assertEqual((self.journal.by("clerk", day), self.journal.by("plan", day), self.journal.in_doubt(day)), ([], [], 0))
        self.assertEqual(other.in_doubt(day), 0)
        self.assertEqual([text.partition("What the journal has")[0] for text in (before, after)], [before.partition("What the journal has")[0]] * 2)
        for words in ("sheet shown", "looked up"):
            self.assertIn(words, after.partition("What the journal has")[2])
        for code in codes:
            self.assertNotIn(code, after)

    def test_a_look_up_that_the_journal_does_not_keep_says_so(self) -> None:
        code, = self.desk.sell_codes("hour", "b1")
        pathlib.Path(self.journal.path).unlink(missing_ok=True)
        pathlib.Path(self.journal.path).mkdir()
        status, text = self.see(f"/voucher?code={code}")
        self.assertEqual((status, "The journal could not be written" in text, "Refund …" in text), (200, True, True))

    def test_what_is_in_doubt_is_kept_too_and_a_form_sent_again_counts_once(self) -> None:
        code, = self.desk.issue_codes("hour", "b1")
        self.relay.cuts = True
        self.ask("/sell", code=code, request="s1")
        self.relay.cuts = False
        day = datetime.date.today()
        self.assertEqual((self.journal.in_doubt(day), self.journal.by("plan", day)), (1, []))
        self.assertIn("1 form got no answer", self.cash_up())
        self.ask("/sell", code=code, request="s1")
        with mock.patch.object(self.counter.answers, "is_unseen", return_value=True):       # a double click
            self.ask("/sell", code=code, request="s1")
        self.assertEqual([act[8] for act in self.acts()], ["no_answer", "done", "done"])
        self.assertEqual((self.journal.in_doubt(day), self.journal.by("plan", day)), (0, [Sums("hour", 1, 300)]))
        self.assertNotIn("got no answer", self.cash_up())

    def cash_up(self, path: str = "/cash-up?details=1") -> str:
        """A cash-up below its head, which has the time of printing."""
        return plain(self.ask(path)[1]).partition("Takings")[2]

    def test_a_journal_that_cannot_be_written_hinders_no_sale_and_is_named(self) -> None:
        code, other = self.desk.issue_codes("hour", "b1", 2)
        self.journal.path = str(self.folder / "nowhere/journal.db")
        text = self.ask("/sell", code=code, request="s1")[1]
        for words in ("Take 3.00", "The journal could not be written: unable to open database file."):
            self.assertIn(words, text)
        self.assertIsNotNone(self.desk.voucher(code)["sold"])
        self.assertIn("The journal cannot be read: unable to open database file.", self.ask("/cash-up")[1])
        self.journal.path = str(self.folder / "journal.db")
        self.assertIn("Take 3.00", self.ask("/sell", code=other, request="s2")[1])
        text = self.cash_up()
        self.assertIn("Sales: the server has 3.00 more than the journal.", text)

    def test_a_day_is_cashed_up_beside_the_servers_takings(self) -> None:
        hours, gigabytes = self.desk.issue_codes("hour", "b1", 3), self.desk.issue_codes("gigabyte", "b2", 2)
        self.assertIn("The server's takings and the journal's sums are the same.", self.cash_up())
        for i, (head, code) in enumerate(((ANNA, hours[0]), (BEN, hours[1]), (BEN, gigabytes[0]))):
            self.ask("/sell", head=head, code=code, request=f"s{i}")
        self.ask("/refund", head=ANNA, code=gigabytes[0], request="r1")
        text = self.cash_up()
        for words in ("In the drawer 6.00 6.00", "The server's takings and the journal's sums are the same.",
                      "anna 1 3.00 1 5.00 -2.00", "ben 2 8.00 0 0.00 8.00", "gigabyte 1 5.00 1 5.00 0.00",
                      "hour 2 6.00 0 0.00 6.00", "anna sold b1 hour 1 3.00 done", "anna refunded b2 gigabyte 1 5.00 done"):
            self.assertIn(words, text)
        self.desk.desk.request_json(Routes.SELL, body={"code": hours[2]})      # not at the counter's page
        text = self.cash_up()
        self.assertIn("Sales: the server has 3.00 more than the journal. The server has something", text)
        self.assertIn("In the drawer 9.00 6.00", text)
        text = self.cash_up("/cash-up?details=1&day=2026-01-05")
        self.assertIn("Nothing.", text)
        for day in ("x", "2026-13-01", "9999-12-31", "0001-01-01"):
            self.assertEqual(self.ask(f"/cash-up?day={day}")[0], 400, day)


class File(AtCounter):
    def test_its_tables_are_made_in_one_transaction(self) -> None:
        """The file's change counter (bytes 24 to 27) counts transactions, each of which waits for the disk."""
        with tempfile.TemporaryDirectory() as folder:
            journal = Journal(pathlib.Path(folder) / "journal.db")
            journal.asked("SELECT 1")
            self.assertEqual(int.from_bytes(pathlib.Path(journal.path).read_bytes()[24:28]), 1)

    def test_it_only_grows(self) -> None:
        self.journal.add("anna", "here", [Act("sell", "s1", "done", "b1", "hour", 1, 300)])
        with contextlib.closing(sqlite3.connect(self.journal.path)) as link:
            for text in ("DELETE FROM acts", "UPDATE acts SET price = 0", "UPDATE acts SET clerk = 'ben'"):
                with self.assertRaisesRegex(sqlite3.Error, "the journal only grows"):
                    link.execute(text)
        again = Journal(self.journal.path)
        again.add("ben", "there", [Act("sell", "s2", "done", "b1", "hour", 1, 300)])
        self.assertEqual([act.clerk for act in again.day(datetime.date.today())], ["anna", "ben"])

    def test_a_day_is_one_of_the_venues_zone(self) -> None:
        self.addCleanup(time.tzset)
        self.enterContext(mock.patch.dict(os.environ, TZ="CET-1CEST,M3.5.0,M10.5.0/3"))
        time.tzset()
        # 29 March 2026 has 23 hours there, 25 October 25, by the rule; from midnight, 23:00 and 22:00 UTC of the day before
        self.assertEqual(span_of(datetime.date(2026, 3, 29)), (1_774_738_800, 1_774_738_800 + 23 * 3600))
        self.assertEqual(span_of(datetime.date(2026, 10, 25)), (1_792_879_200, 1_792_879_200 + 25 * 3600))
        for moment, day in ((1_774_738_799, 28), (1_774_738_800, 29), (1_774_738_800 + 23 * 3600 - 1, 29)):
            with mock.patch("time.time", lambda moment=moment: moment):
                self.journal.add("anna", "here", [Act("sell", f"s{moment}", "done", "b1", "hour", 1, 300)])
        counts = [sum(row.sold for row in self.journal.by("clerk", datetime.date(2026, 3, day))) for day in (27, 28, 29, 30)]
        self.assertEqual(counts, [0, 1, 2, 0])


class Takings(AtCounter):
    ROWS = [Sums("2026-01-01", 1, 300), Sums("2026-01-04", 2, 600, 1, 300), Sums("2026-01-05", 1, 900),
            Sums("2026-02-01", 0, 0, 1, 900)]       # Thursday, Sunday, Monday, Sunday

    def test_days_are_grouped_by_weeks_and_months(self) -> None:
        self.assertEqual(takings.grouped(self.ROWS, "day"), self.ROWS)
        self.assertEqual(takings.grouped(self.ROWS, "week"), [
            Sums("2026-01-01", 3, 900, 1, 300), Sums("2026-01-05", 1, 900), Sums("2026-02-01", 0, 0, 1, 900)])
        self.assertEqual(takings.grouped(self.ROWS, "month"), [
            Sums("2026-01-01", 4, 1800, 1, 300), Sums("2026-02-01", 0, 0, 1, 900)])

    def test_the_servers_table_is_read_as_it_stands(self) -> None:
        text = ("day            sold             sales refunded           refunds\n"
                "1970-01-02        2           1000.05        1              3.33\n"
                "total             2           1000.05        1              3.33\nnet 996.72\n")
        self.assertEqual(takings.days(text), [Sums("1970-01-02", 2, 100_005, 1, 333)])

    def test_the_page_has_bars_above_the_table_and_a_file(self) -> None:
        code, other = self.desk.sell_codes("hour", "b1", 2)
        self.desk.desk.request_json(Routes.REFUND, body={"code": other})
        day = time.strftime("%Y-%m-%d", time.gmtime())
        first = str(datetime.date.fromisoformat(day) - datetime.timedelta(20))
        for by, head in (("day", "Day"), ("week", "Week"), ("month", "Month"), ("x", "Day")):
            text = self.ask(f"/takings?from={first}&to={day}&by={by}")[1]
            self.assertIn(f'<th scope="col">{head}</th><th scope="col">Vouchers sold</th>', text)
            self.assertLess(text.index("<svg"), text.index("<table"))
            self.assertEqual((text.count('<rect class="sales"'), text.count('<rect class="refunds"'), "style=" in text), (1, 1, False))
            self.assertIn('<td data-label="In the drawer"><b>3.00</b></td>', text)
        self.assertIn('<a href="/takings.csv?from=', text)
        status, text = self.ask(f"/takings.csv?from={first}&to={day}&by=day")
        rows = list(csv.DictReader(io.StringIO(text)))
        self.assertEqual((status, len(rows)), (200, 21))
        self.assertEqual(rows[-1], {"day": day, "sold": "2", "sales": "6.00", "refunded": "1", "refunds": "3.00", "net": "3.00"})
        self.assertEqual(self.ask(f"/takings.csv?from={first}&to=x")[0], 400)

    def test_what_differs_is_said_in_words(self) -> None:
        none = Sums("")
        cases = ((Sums("", 1, 300), Sums("", 1, 300), "are the same"), (Sums("", 2, 300), Sums("", 1, 300), "numbers of vouchers"),
                 (Sums("", 1, 300), none, "Sales: the server has 3.00 more"), (none, Sums("", 1, 300), "Sales: the journal has 3.00"),
                 (Sums("", 0, 0, 1, 300), none, "Refunds: the server has 3.00"),
                 (none, Sums("", 0, 0, 1, 300), "Refunds: the journal has 3.00"))
        for server, journal, words in cases:
            result = " ".join(takings.difference(server, journal, WORDS, WORDS.money))
            self.assertIn(words, result)
            self.assertNotIn("What the server says counts.", result)
            for words in ("The journal has something", "What a restore undid is listed in undone.csv"):
                self.assertEqual(words in result, journal.sold > server.sold or journal.refunded > server.refunded)


class Report(AtCounter):
    def test_a_days_report_goes_to_the_command(self) -> None:
        code, other = self.desk.issue_codes("hour", "b1", 2)
        self.ask("/sell", head=ANNA, code=code, request="s1")
        self.desk.desk.request_json(Routes.SELL, body={"code": other})
        text = daily_report.report(self.counter, datetime.date.today())
        self.assertRegex(text, r"\AHouse: Takings \d{4}-\d\d-\d\d\n")
        for words in (r"server +2 +6\.00 +0 +0\.00 +6\.00\n", r"journal +1 +3\.00 +0 +0\.00 +3\.00\n", r"hour +1 +3\.00",
                      r"anna +1 +3\.00", "Sales: the server has 3.00 more than the journal."):
            self.assertRegex(text, words)
        self.assertNotIn(code, text)

    def run_report(self, *words: str, **changed: Any) -> subprocess.CompletedProcess[str]:
        credentials = self.folder / "credentials"
        credentials.mkdir(exist_ok=True)
        (credentials / "desk_token").write_text("desk-token\n")
        conf = {**self.conf, "zone": "UTC0", "desk_port": self.relay.port, **changed}
        (self.folder / "counter.toml").write_text(toml_lines(conf))
        env = {**os.environ, "FIELD_SETTINGS": str(self.folder / "counter.toml"), "CREDENTIALS_DIRECTORY": str(credentials),
               "STATE_DIRECTORY": str(self.folder)}
        return subprocess.run([sys.executable, "-m", "portal_field.counter.report", *words], env=env, capture_output=True, text=True)

    def test_the_program_tells_the_day_before_or_the_one_that_is_named(self) -> None:
        code, = self.desk.issue_codes("hour", "b1")
        self.ask("/sell", head=ANNA, code=code, request="s1")
        today = datetime.datetime.now(datetime.timezone.utc).date()
        out = self.folder / "out"
        command = ["/bin/sh", "-c", f"cat >{out}"]
        for words, net in (((), r"server +0"), ((str(today),), r"server +1 +3\.00")):
            done = self.run_report(*words, daily_report=command)
            self.assertEqual((done.returncode, done.stderr), (0, ""))
            self.assertRegex(out.read_text(), net)
        self.assertEqual(self.run_report(daily_report=[]).returncode, 0)
        self.assertEqual(self.run_report(daily_report=["/bin/false"]).returncode, 1)
        self.relay.drops = True
        done = self.run_report(daily_report=command)
        self.assertEqual(done.returncode, 1)
        self.assertIn("were not reported", done.stderr)


if __name__ == "__main__":
    unittest.main()
