"""What is confirmed at the counter: the amount of a refund, and the codes and the sum of a batch that is sold."""

from __future__ import annotations

import html
import random
import re
import threading
import time
import unittest
from typing import Any
from unittest import mock

from desk_process import DeskProcess, NoAnswer, Refused, Routes
from test_counter import AtCounter

from portal_field.counter import refunds
from portal_field.counter.batch_sale import unsold, unused
from portal_field.counter.takings import hundredths
from portal_field.lib.desk_client import Route

PLAN = "[[plan]]\nid = '{}'\nprice = {}\nuses = {}\nseconds = {}\nbytes = 0\nshelf_days = 90\nextend = true\n"


class Confirmed(AtCounter):
    def hidden(self, text: str) -> dict[str, str]:
        return dict(re.findall(r'<input type="hidden" name="([^"]*)" value="([^"]*)">', text))

    def heading(self, text: str) -> str:
        return html.unescape(re.findall("<h2[^>]*>(.*?)</h2>", text)[0])

    def button(self, text: str) -> str:
        return html.unescape(re.findall("<button>(.*?)</button>", text)[0])

    def redeem(self, code: str) -> None:
        self.desk.desk.request_json(Routes.REDEEM, body={"code": code}, device="02:00:00:00:00:01")


class Refunds(Confirmed):
    def test_the_amount_is_in_the_heading_and_on_the_button(self) -> None:
        code, = self.desk.sell_codes("gigabyte", "b1")
        self.conf.update(currency="EUR")
        for amount in ("5.00", "3.33", "1.66"):     # of a third and two, rounded down
            status, text = self.see(f"/refund?code={code}")
            self.assertEqual((status, self.heading(text), self.button(text)), (
                200, f"Refund {code}: give back €{amount}", f"Give back €{amount}"))
            self.assertIn(f"<title>Refund {code}: give back €{amount} ", text)
            last = self.hidden(text)
            self.redeem(code)
        self.assertEqual(self.see(f"/refund?code={code}")[0], 409, "all uses are redeemed")
        self.assertEqual(last["code"], code)

    def test_where_nothing_can_be_given_back_it_is_said_at_once(self) -> None:
        fresh, = self.desk.issue_codes("hour", "b1")
        back, used = self.desk.sell_codes("hour", "b2", 2)
        self.desk.desk.request_json(Routes.REFUND, body={"code": back})
        self.redeem(used)
        for code, words in ((fresh, "The voucher was not sold."), (back, "The voucher was refunded."),
                            (used, "No use of the voucher is left")):
            status, text = self.see(f"/refund?code={code}")
            self.assertEqual((status, words in text, "Give back" in text), (409, True, False), code)

    def test_a_use_between_the_page_and_the_press_is_said_and_nothing_is_refunded(self) -> None:
        code, = self.desk.sell_codes("gigabyte", "b1")
        form = self.hidden(self.see(f"/refund?code={code}")[1])
        self.redeem(code)
        for _ in range(2):
            status, text = self.ask("/refund", **form)
            self.assertEqual((status, "Nothing was refunded." in text, self.button(text)), (409, True, "Give back 3.33"))
        self.assertIsNone(self.desk.voucher(code)["refund"])
        self.assertIn("Give back 3.33.", self.ask("/refund", **self.hidden(text))[1])

    def test_a_refund_in_doubt_is_sent_again(self) -> None:
        code, = self.desk.sell_codes("gigabyte", "b1")
        form = self.hidden(self.see(f"/refund?code={code}")[1])
        answer, request_json = [NoAnswer("cut")], self.counter.desk.request_json

        def cut(route: Route, *part: str, **more: Any) -> Any:
            result = request_json(route, *part, **more)
            if route is Routes.REFUND and answer:
                raise answer.pop()
            return result

        with mock.patch.object(self.counter.desk, "request_json", cut):
            self.assertIn("Send it again", self.ask("/refund", **form)[1])
            self.assertIn("Give back 5.00.", self.ask("/refund", **form, again="1")[1])

    def test_the_price_is_the_servers_whatever_the_plans_file_says(self) -> None:
        code, = self.desk.issue_codes("hour", "b1")
        self.counter.offers.accepted_plans = {"hour": {"price": 400}}
        self.assertIn("Sell for 3.00", self.see(f"/voucher?code={code}")[1])
        self.desk.desk.request_json(Routes.SELL, body={"code": code})
        self.assertEqual(self.button(self.see(f"/refund?code={code}")[1]), "Give back 3.00")


class Rounding(unittest.TestCase):
    def test_amounts_are_the_servers(self) -> None:
        """Of vouchers of random plans, of which random uses were redeemed."""
        draw, refused = random.Random(7), 0
        terms = [(draw.randrange(draw.choice((10, 10**4, 10**8 + 1))), draw.randrange(1, draw.choice((12, 12, 10**5 + 1))))
                 for _ in range(60)]        # price and uses
        terms += [(0, 1), (1, 2), (10**8, 10**5), (10**8, 3), (99_999_999, 99_999), (10**8 - 1, 7), (5, 6)]
        plans = "".join(PLAN.format(f"p{i}", *term, 60 + i) for i, term in enumerate(terms))
        with DeskProcess() as desk:
            desk.desk.request_json(Routes.PLANS, body=plans.encode())
            for i, (price, uses) in enumerate(terms):
                for code in desk.sell_codes(f"p{i}", f"b{i}", 5):
                    for _ in range(min(uses, draw.randrange(8))):
                        desk.desk.request_json(Routes.REDEEM, body={"code": code}, device=f"02:00:00:00:00:{i:02x}")
                    line = desk.desk.request(Routes.PRINT, f"b{i}").decode().splitlines()[1]
                    voucher = desk.voucher(code)
                    result = refunds.refusal(voucher) or refunds.amount(hundredths(line.split(",")[4]), voucher)
                    self.assertEqual(result, self.refunded(desk, code), (price, uses, voucher))
                    self.assertEqual(refunds.refusal(desk.voucher(code)), self.refunded(desk, code))
                    refused += isinstance(result, str)
        self.assertTrue(0 < refused < 100, "some were used up, most were not")

    def refunded(self, desk: DeskProcess, code: str) -> int | str:
        try:
            return desk.desk.request_json(Routes.REFUND, body={"code": code})["amount"]
        except Refused as fault:
            return fault.word


class Batches(Confirmed):
    def test_the_codes_that_are_unsold_and_their_sum_are_said(self) -> None:
        codes = self.desk.issue_codes("hour", "b1", 4)
        for done, heading, button in (
                (None, "Sell 4 codes of b1: take 12.00", "Sell 4 codes for 12.00"),
                ((Routes.SELL, codes[2]), "Sell 3 codes of b1: take 9.00", "Sell 3 codes for 9.00"),
                ((Routes.REFUND, codes[2]), "Sell 3 codes of b1: take 9.00", "Sell 3 codes for 9.00"),
                ((Routes.SELL, codes[0]), "Sell 2 codes of b1: take 6.00", "Sell 2 codes for 6.00"),
                ((Routes.SELL, codes[3]), "Sell 1 code of b1: take 3.00", "Sell 1 code for 3.00")):
            if done:
                self.desk.desk.request_json(done[0], body={"code": done[1]})
            status, text = self.ask("/sell-batch?batch=b1")
            self.assertEqual((status, self.heading(text), self.button(text)), (200, heading, button))
            self.assertNotIn('id="count"', text)
        text = self.ask("/sell-batch", **self.hidden(text))[1]
        for words in ("Batch b1: 1 code sold.", "Take 3.00.", "3 codes were sold before"):
            self.assertIn(words, text)
        text = self.ask("/sell-batch?batch=b1")[1]
        self.assertIn("All its codes were sold.", text)
        self.assertNotIn("<form", text)
        self.assertEqual(self.ask("/sell-batch?batch=b2")[0], 404)

    def test_above_twenty_codes_their_number_is_typed(self) -> None:
        for batch, count in (("b20", 20), ("b21", 21)):
            self.desk.issue_codes("hour", batch, count)
            text = self.ask(f"/sell-batch?batch={batch}")[1]
            self.assertEqual(('id="count"' in text, "count" in self.hidden(text)), (count > 20, count <= 20))
            self.assertEqual(text.count("autofocus"), 1)
        form = self.hidden(text)
        for typed in ("", "20", "22", "21x", "-21", "2 1", "b21", "9" * 500):
            status, text = self.ask("/sell-batch", **form, count=typed)
            self.assertEqual((status, "Nothing was sold." in text), (409, True), typed)
            self.assertEqual(self.button(text), "Sell 21 codes for 63.00")
            self.assertIn('aria-invalid="true" aria-describedby="told"', text)
        status, text = self.ask("/sell-batch", **form)
        self.assertEqual((status, "Nothing was sold." in text), (409, True), "nothing was typed")
        self.assertEqual(unsold(self.desk.desk, "b21").count, 21)
        self.assertIn("Take 63.00.", self.ask("/sell-batch", **form, count=" 021 ")[1])
        self.assertEqual(unsold(self.desk.desk, "b21").count, 0)

    def test_a_sale_between_the_page_and_the_press_is_said_and_nothing_is_sold(self) -> None:
        cases: tuple[tuple[int, dict[str, str]], ...] = ((3, {}), (30, {"count": "30"}))
        for count, typed in cases:
            codes = self.desk.issue_codes("hour", f"b{count}", count)
            form = self.hidden(self.ask(f"/sell-batch?batch=b{count}")[1]) | typed
            self.desk.desk.request_json(Routes.SELL, body={"code": codes[1]})
            status, text = self.ask("/sell-batch", **form)
            self.assertEqual((status, "Nothing was sold." in text), (409, True))
            self.assertIn(f"{count - 1} codes can be sold now, and the form says “{count}”.", text)
            self.assertEqual(self.heading(text), f"Sell {count - 1} codes of b{count}: take {count * 3 - 3}.00")
            self.assertEqual(unsold(self.desk.desk, f"b{count}").count, count - 1)
            again = self.hidden(text) | ({"count": str(count - 1)} if typed else {})
            self.assertNotEqual(again["request"], form["request"])
            self.assertIn(f"Take {count * 3 - 3}.00.", self.ask("/sell-batch", **again)[1])

    def breaks(self, after: int) -> Any:
        """A server whose answers to the sales after so many are lost."""
        request_json, asked = self.counter.desk.request_json, [0]

        def result(route: Route, *part: str, **more: Any) -> Any:
            answer = request_json(route, *part, **more)
            asked[0] += route is Routes.SELL
            if route is Routes.SELL and asked[0] > after:
                raise NoAnswer("cut")
            return answer

        return mock.patch.object(self.counter.desk, "request_json", result)

    def test_a_sale_in_doubt_goes_on_though_fewer_codes_are_unsold(self) -> None:
        """By the journal, and where that cannot be written, by the form."""
        for batch, is_written in (("b1", True), ("b2", False)):
            self.desk.issue_codes("hour", batch, 25)
            self.journal.path = str(self.folder / ("journal.db" if is_written else "nowhere/journal.db"))
            form = self.hidden(self.ask(f"/sell-batch?batch={batch}")[1]) | {"count": "25"}
            with self.breaks(10):
                status, text = self.ask("/sell-batch", **form)
            self.assertEqual((status, "Send it again" in text), (504, True))
            again = self.hidden(text)
            self.assertEqual(again, form | {"again": "1"})
            text = self.ask("/sell-batch", **(form if is_written else again))[1]
            for words in (f"Batch {batch}: 25 codes sold.", "Take 75.00."):
                self.assertIn(words, text)

    def test_a_second_press_while_the_first_one_sells_is_no_second_sale_and_says_the_same(self) -> None:
        self.desk.issue_codes("hour", "b1", 25)
        form, texts = self.hidden(self.ask("/sell-batch?batch=b1")[1]), []
        request_json = self.counter.desk.request_json

        def press() -> None:
            texts.append(self.ask("/sell-batch", head={"Sec-Fetch-Mode": "navigate"}, **form, count="25")[1])

        second = threading.Thread(target=press)

        def sells(route: Route, *part: str, **more: Any) -> Any:
            result = request_json(route, *part, **more)
            if route is Routes.SELL and second.ident is None:
                second.start()
                time.sleep(0.3)     # in which it would count the codes that are left
            return result

        with mock.patch.object(self.counter.desk, "request_json", sells):
            press()
            second.join()
        self.assertEqual([("25 codes sold." in text, "Take 75.00." in text) for text in texts], [(True, True)] * 2)
        today = time.strftime("%Y-%m-%d", time.gmtime())
        self.assertIn(b"net 75.00\n", self.desk.desk.request(Routes.TAKINGS, query={"from": today, "to": today}))

    def test_a_server_that_does_not_answer_while_codes_are_counted_leaves_nothing_in_doubt(self) -> None:
        self.desk.issue_codes("hour", "b1", 3)
        form = self.hidden(self.ask("/sell-batch?batch=b1")[1])
        request_json, asked = self.counter.desk.request_json, [0]

        def cut(route: Route, *part: str, **more: Any) -> Any:
            asked[0] += route is Routes.BATCH
            if asked[0] == 1:
                raise NoAnswer("cut")
            return request_json(route, *part, **more)

        with mock.patch.object(self.counter.desk, "request_json", cut):
            status, text = self.ask("/sell-batch?batch=b1")
            self.assertEqual((status, "The server did not answer." in text), (504, True))
            asked[0] = 0
            status, text = self.ask("/sell-batch", **form)
        self.assertEqual((status, "in doubt" in text, "Send it again" in text), (504, False, True))
        again = self.hidden(text)
        self.assertEqual(again, form)
        self.assertEqual(unsold(self.desk.desk, "b1").count, 3)
        self.assertIn("Take 9.00.", self.ask("/sell-batch", **again)[1])

    def test_the_codes_of_a_batch_are_counted_by_one_question(self) -> None:
        """Whatever became of them: unsold, sold, used in part or up, refunded unused or in part."""
        codes = self.desk.sell_codes("gigabyte", "b1", 6) + self.desk.issue_codes("gigabyte", "b2", 2)
        for code, uses in ((codes[1], 1), (codes[2], 3), (codes[4], 1)):
            for _ in range(uses):
                self.redeem(code)
        for code in codes[3:5]:
            self.desk.desk.request_json(Routes.REFUND, body={"code": code})
        request_json, asked = self.desk.desk.request_json, list[Route]()

        def noted(route: Route, *part: str, **more: Any) -> Any:
            asked.append(route)
            return request_json(route, *part, **more)

        with mock.patch.object(self.desk.desk, "request_json", noted):
            sale, back = unsold(self.desk.desk, "b2"), unused(self.desk.desk, "b1")
        self.assertEqual(asked, [Routes.BATCH, Routes.BATCH])
        self.assertEqual((sale.plan, sale.codes, sale.count, sale.sum), ("gigabyte", 2, 2, 1000))
        self.assertEqual((back.plan, back.listed, back.sum), ("gigabyte", codes[:6], 1000))
        self.assertEqual((back.unused, back.refundable), ({codes[0], codes[3], codes[5]}, {codes[0], codes[5]}))

    def test_codes_past_their_date_are_not_counted(self) -> None:
        self.desk.issue_codes("hour", "b1", 3)
        later = time.time() + 91 * 86400
        with mock.patch("portal_field.counter.batch_sale.time.time", lambda: later):
            self.assertEqual(unsold(self.desk.desk, "b1").count, 0)
            self.assertIn("Its codes are past their date.", self.ask("/sell-batch?batch=b1")[1])

    def test_the_counter_in_german(self) -> None:
        self.conf.update(language="de", currency="EUR")
        self.counter.__post_init__()
        self.desk.issue_codes("hour", "b1", 25)
        text = self.ask("/sell-batch?batch=b1")[1]
        self.assertEqual((self.heading(text), self.button(text)), (
            "25 Codes aus b1 verkaufen: 75,00\xa0€ kassieren", "25 Codes für 75,00\xa0€ verkaufen"))
        self.assertIn("Geben Sie ein, wie viele Codes Sie verkaufen", text)
        text = self.ask("/sell-batch", **self.hidden(text), count="24")[1]
        self.assertIn("Es wurde nichts verkauft.<br>25 Codes können jetzt verkauft werden, und im Formular steht „24“.",
                      text)


if __name__ == "__main__":
    unittest.main()
