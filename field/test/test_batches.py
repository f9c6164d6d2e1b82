"""The list of batches, as the server has them, and the page of one with the state of each voucher."""

from __future__ import annotations

import html
import re
import time
import unittest
from unittest import mock

from desk_process import Refused, Routes
from test_counter import AtCounter

from portal_field.counter import batch_pages, roles
from portal_field.lib import refusals
from portal_field.settings.accounts import CLERK

MAC = "02:00:00:00:00:01"
COUNTS = ("Codes", "Sold", "Refunded", "Used up", "Left")


class Batches(AtCounter):
    def cells(self, text: str, name: str) -> list[str]:
        """What a column of a page's table has, without marks."""
        return [html.unescape(re.sub("<[^>]*>", "", cell)) for cell in re.findall(f'<td data-label="{name}"[^>]*>(.*?)</td>', text)]

    def redeem(self, code: str, uses: int) -> None:
        """Redeems so many uses of a voucher."""
        for _ in range(uses):
            self.desk.desk.request_json(Routes.REDEEM, body={"code": code}, device=MAC)

    def used_in_each_way(self) -> list[str]:
        """Issues a batch of seven vouchers of three uses, one for each state: unsold, sold, redeemed once, used up, refunded unused
        and once used, and one more that is unsold. Their codes."""
        codes = self.desk.issue_codes("gigabyte", "b1", 7)
        for code in codes[1:6]:
            self.desk.desk.request_json(Routes.SELL, body={"code": code})
        for place, uses in ((2, 1), (3, 3), (5, 1)):
            self.redeem(codes[place], uses)
        for code in codes[4:6]:
            self.desk.desk.request_json(Routes.REFUND, body={"code": code})
        return codes

    def later(self, days: int) -> None:
        """The counter's clock is so many days ahead of the server's from now on."""
        now = time.time() + days * 86400
        self.enterContext(mock.patch("portal_field.counter.clerk.time.time", lambda: now))

    def test_the_batches_are_listed_as_the_server_has_them(self) -> None:
        self.used_in_each_way()
        self.desk.issue_codes("hour", "b2", 2)
        self.ask("/now", batch="one-1", plan="day", request="n1")
        for page in ("/batches", "/vouchers"):
            text = self.ask(page)[1]
            self.assertEqual(self.cells(text, "Batch"), ["one-1", "b2", "b1"], page)
            self.assertEqual(self.cells(text, "Plan"), ["day", "hour", "gigabyte"])
            self.assertEqual([self.cells(text, name) for name in COUNTS], [["1", "2", "7"], ["1", "0", "5"], ["0", "0", "2"], ["0", "0", "1"], ["0", "2", "2"]])
            self.assertEqual(re.findall('href="/batch[?]batch=([^"]*)"', text), ["one-1", "b2", "b1"])
            self.assertNotIn("expired", text)

    def test_an_expired_batch_is_said_to_be_expired(self) -> None:
        self.desk.issue_codes("hour", "b1")
        issued, until = self.cells(self.ask("/batches")[1], "Issued"), self.cells(self.ask("/batches")[1], "Good until")
        self.assertEqual(issued, [self.counter.language.moment(self.desk.desk.request_json(Routes.BATCH, "b1")["issued"])])
        self.later(91)
        self.assertEqual(self.cells(self.ask("/batches")[1], "Good until"), [until[0] + ", expired"])
        self.assertIn(f"<td>{until[0]}, expired</td>", self.ask("/batch?batch=b1")[1])

    def test_twenty_batches_a_page_and_a_link_to_older_ones(self) -> None:
        names = [f"b{number:02}" for number in range(41, 0, -1)]
        for name in reversed(names):
            self.desk.issue_codes("hour", name)
        self.assertEqual(self.cells(self.ask("/vouchers")[1], "Batch"), names[:batch_pages.NEWEST])
        place, pages = "/batches", list[list[str]]()
        while place:
            text = self.ask(place)[1]
            pages.append(self.cells(text, "Batch"))
            place = "".join(re.findall('<a href="([^"]*)">Older batches</a>', text))
        self.assertEqual(pages, [names[:20], names[20:40], names[40:]])

    def test_a_server_that_does_not_list_batches_is_said_and_other_forms_stay(self) -> None:
        for status, word in ((404, "no_route"), (405, "bad_method")):
            with mock.patch.object(self.counter.desk, "request_json", mock.Mock(side_effect=Refused(status, word))):
                for page, wanted in (("/batches", status), ("/batch?batch=b1", status), ("/vouchers", 200)):
                    got, text = self.ask(page)
                    self.assertEqual((got, refusals.of_word(word).cause in text, refusals.UPDATE in text), (wanted, True, True), page)
        self.relay.drops = True
        for page, wanted in (("/batches", 504), ("/batch?batch=b1", 504), ("/vouchers", 200)):
            got, text = self.ask(page)
            self.assertEqual((got, refusals.SILENT.cause in text), (wanted, True), page)
        self.assertIn('formaction="/sell-batch"', text)

    def test_the_page_of_a_batch_has_each_voucher_in_the_order_of_the_sheet(self) -> None:
        codes = self.used_in_each_way()
        status, text = self.ask("/batch?batch=b1", head={"X-User": "anna"})
        self.assertEqual((status, re.findall('<button name="code" value="([^"]*)"', text), self.cells(text, "No[.]")), (200, codes, list("1234567")))
        self.assertEqual(self.cells(text, "State"), ["unsold", "sold", "redeemed 1 of 3", "redeemed 3 of 3", "refunded", "refunded", "unsold"])
        facts = dict(re.findall('<tr><th scope="row">([^<]*)</th><td>([^<]*)</td></tr>', text))
        self.assertEqual([facts[name] for name in ("Plan", *COUNTS)], ["gigabyte: 1.0 GB, 3 times", "7", "5", "2", "1", "2"])
        self.assertEqual(self.journal.asked("SELECT clerk, act, batch, plan, codes FROM acts"), [("anna", "look", "b1", "gigabyte", 7)])
        self.later(366)
        self.assertEqual(self.cells(self.ask("/batch?batch=b1")[1], "State"), [
            "unsold, expired", "sold, expired", "redeemed 1 of 3, expired", "redeemed 3 of 3", "refunded", "refunded", "unsold, expired"])

    def test_each_voucher_leads_to_its_page_and_back_to_its_batch(self) -> None:
        codes = self.desk.issue_codes("hour", "b1", 3)
        self.assertRegex(self.ask("/batch?batch=b1")[1], r'<form method="post" action="/voucher"><table class="rows">')
        place = self.place_of("/voucher", code=codes[1])
        self.assertNotIn(codes[1], place)
        text = self.ask(place)[1]
        self.assertEqual((f"<h2>{codes[1]}</h2>" in text, 'href="/batch?batch=b1"' in text), (True, True))
        self.assertIn('href="/batch?batch=b1"', self.ask("/sheet?batch=b1")[1])

    def test_what_can_be_done_with_a_batch_is_reached_from_its_page(self) -> None:
        self.desk.sell_codes("hour", "b1", 2)
        text = self.ask("/batch?batch=b1")[1]
        self.assertIn('<form action="/sheet"><input type="hidden" name="batch" value="b1">', text)
        self.assertEqual(re.findall('formaction="/([a-z-]+)"', text), ["sell-batch", "refund-batch", "lost"])
        self.journal.explain("anna", "10.88.0.2", "l1", "lost", "b1", "left in the bus")
        self.assertIn(": left in the bus</td>", self.ask("/batch?batch=b1")[1])
        self.assertTrue(roles.is_for(CLERK, "batch") and roles.is_for(CLERK, "codes"))

    def test_a_batch_that_was_never_issued(self) -> None:
        self.assertEqual(self.ask("/batches?before=b9")[0], 404)
        for query, status, words in (("batch=b9", 404, "No batch of this name was issued."), ("batch=B", 404, "No batch of this name was issued."), ("", 400, "Lower-case letters")):
            got, text = self.ask("/batch?" + query)
            self.assertEqual((got, words in text, "Issue a batch" in text), (status, True, True), query)

    def test_the_pages_in_german(self) -> None:
        self.conf.update(language="de")
        self.counter.__post_init__()
        self.used_in_each_way()
        text = self.ask("/batch?batch=b1")[1]
        self.assertEqual(self.cells(text, "Zustand")[:5], ["unverkauft", "verkauft", "1 von 3 eingelöst", "3 von 3 eingelöst", "erstattet"])


if __name__ == "__main__":
    unittest.main()
