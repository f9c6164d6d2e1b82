"""A voucher that is replaced for nothing: of which plan, with which reason, and what the cash-up says of it."""

from __future__ import annotations

import datetime
import html
import re
import sqlite3
import time
import unittest
from typing import Any
from unittest import mock

from desk_process import FIELD, NoAnswer, Refused, Routes
from test_plans import PLAN
from test_several import ANNA, AtOnce, Killed

from portal_field.counter import report
from portal_field.counter.clerk import Counter
from portal_field.lib import plans
from portal_field.lib.desk_client import Desk, Route
from portal_field.lib.plans import BadFile

SHIPPED = (FIELD / "settings/plans.toml").read_text()
NO_NEW_ONE = "It is not a new one. Give out no other one."


class Replaced(AtOnce):
    """A counter of a venue with a plan of goodwill."""

    def setUp(self) -> None:
        super().setUp()
        self.file, self.offers = self.folder / "plans.toml", self.folder / "offers.toml"
        self.conf["plans"] = str(self.file)
        self.names('goodwill = "sorry"')

    def names(self, offers: str, price: int = 0) -> None:
        """The venue's files; the price is of a plan of its own, since a plan never changes."""
        name = "sorry" if price == 0 else f"sorry-{price}"
        self.file.write_text(SHIPPED + PLAN.format("sorry", 0) + ("" if price == 0 else PLAN.format(name, price)))
        self.offers.write_text(offers + "\n")
        self.counter.load_plans()

    def used(self, batch: str = "b1") -> str:
        """A voucher that was sold and of which the only use was redeemed."""
        code, = self.desk.sell_codes("hour", batch)
        self.redeem(code)
        return code

    def form(self, code: str) -> dict[str, str]:
        """The hidden fields of the form that replaces a voucher, from its page on."""
        text = self.see(f"/voucher?code={code}")[1]
        place = html.unescape(re.findall(r'href="(/replace[^"]*)"', text)[0])
        return self.fields(self.ask(place, head=ANNA)[1], "replace")

    def replace(self, form: dict[str, str], reason: str = "Wi-Fi broke down", **more: str) -> tuple[int, str]:
        return self.ask("/replace", head=ANNA, **form, reason=reason, **more)

    def printed(self, text: str) -> list[str]:
        """The codes on a sheet."""
        return re.findall("<b>([2-9A-Z-]{14,19})</b>", text)

    def made_good(self) -> list[tuple[str, str, int, str, str]]:
        return [(one.clerk, one.plan, one.price, one.about, one.reason) for one in self.journal.made_good(datetime.date.today())]


class Sales(Replaced):
    def test_a_voucher_is_replaced_with_a_reason_and_its_sheet_is_shown(self) -> None:
        form = self.form(self.used())
        self.assertEqual(sorted(form), ["batch", "code", "plan", "request"])
        status, text = self.replace(form)
        new, = self.printed(text)
        self.assertEqual((status, f"Made good: {new}.<br>Take nothing." in text), (200, True))
        voucher = self.desk.voucher(new)
        self.assertEqual((voucher["plan"], voucher["batch"], voucher["sold"] is None, voucher["redeemed"]), ("sorry", form["batch"], False, 0))
        self.assertEqual(self.made_good(), [("anna", "sorry", 0, "b1", "Wi-Fi broke down")])

    def test_which_vouchers_are_replaced(self) -> None:
        fresh, = self.desk.issue_codes("hour", "b1")
        back, used = self.desk.sell_codes("hour", "b2", 2)
        self.desk.desk.request_json(Routes.REFUND, body={"code": back})
        self.redeem(used)
        shown = {code: "/replace?" in self.see(f"/voucher?code={code}")[1] for code in (fresh, back, used, self.used("b3"))}
        self.assertEqual(list(shown.values()), [False, False, True, True])
        for code, words in ((fresh, "The voucher was not sold."), (back, "The voucher was refunded.")):
            status, text = self.see(f"/replace?code={code}")
            self.assertEqual((status, words in text), (409, True))
            form = {"request": "r" + code[:4], "batch": "n-" + code[:4].lower(), "plan": "sorry", "code": code}
            self.assertEqual((self.replace(form)[0], self.made_good()), (409, []))

    def test_the_voucher_of_a_session_is_replaced(self) -> None:
        self.assertIn('formaction="/replace-session"', self.ask("/sessions")[1])
        status, text = self.ask("/replace-session?session=17")
        self.assertEqual((status, self.heading(text)), (200, "Replace: Session 17"))
        self.assertIn("Made good: ", self.replace(self.fields(text, "replace"))[1])
        self.assertEqual([about for _, _, _, about, _ in self.made_good()], ["#17"])
        self.assertIn(">Session 17<", self.ask("/cash-up")[1])
        status, text = self.ask("/replace-session?session=x1")
        self.assertEqual((status, "Digits alone, at most 18." in text, 'value="x1"' in text), (400, True, True))

    def test_the_plan_of_goodwill_is_in_no_menu_and_sold_by_no_form(self) -> None:
        for path in ("/", "/vouchers"):
            self.assertNotIn('value="sorry"', self.ask(path)[1])
        for path in ("/now", "/issue"):
            self.assertEqual(self.ask(path, batch="g1", plan="sorry", count="1", request="g" + path[1:])[0], 400)
        self.assertEqual(self.ask("/sheet?batch=g1")[0], 404)
        form = self.form(self.used())
        self.assertIn("Nothing was done.", self.replace(form | {"plan": "hour"})[1])
        self.assertEqual(self.made_good(), [])

    def test_without_a_plan_or_with_one_that_has_a_price_the_page_says_how_it_is_made(self) -> None:
        code = self.used()
        for offers, price, words in (("", 0, "This venue has no plan of which vouchers are replaced."), (
                'goodwill = "sorry-200"', 200, "names sorry-200 as goodwill, and that plan has a price."), (
                'goodwill = "nothing"', 0, "This venue has no plan of which vouchers are replaced.")):
            self.names(offers, price)
            status, text = self.see(f"/replace?code={code}")
            self.assertEqual((status, words in text, 'action="/replace"' in text, 'goodwill = "sorry"' in html.unescape(text)),
                             (200, True, False, True), offers)
        self.assertIn("The file offers.toml names nothing, which is no plan.", self.ask("/")[1])
        self.names('goodwill = "sorry-200"', 200)
        text = self.ask("/")[1]
        self.assertEqual(('value="sorry-200"' in text, "and that plan has a price." in text), (True, True), "it is sold as before")

    def test_the_counter_in_german(self) -> None:
        self.conf.update(language="de", currency="EUR")
        self.counter.__post_init__()
        text = self.replace(self.form(self.used()))[1]
        self.assertIn("Nichts kassieren.", text)
        self.assertIn("1 Gutschein für 0,00\xa0€.", self.ask("/cash-up")[1])


class Reasons(Replaced):
    REFUSED: tuple[int, list[Any], bool] = (400, [], True)

    def tried(self, reason: str) -> tuple[tuple[int, list[Any], bool], str]:
        """What comes of a reason: the status, what was made good, and whether the form came back; and the page."""
        form = self.form(self.used(f"b{time.monotonic_ns()}"))
        status, text = self.replace(form, reason)
        return (status, self.made_good(), self.fields(text, "replace") == form), text

    def test_it_is_typed_and_one_line_of_120_signs(self) -> None:
        for reason in ("", "  ", "x" * 121, "a\nb"):
            result, text = self.tried(reason)
            self.assertEqual((result, "Nothing was done." in text), (self.REFUSED, True), reason)
        self.assertIn(f'value="{"x" * 121}"', self.tried("x" * 121)[1], "what was typed stays")
        form = self.form(self.used())
        self.assertIn("Made good", self.replace(form, "ä" * 120)[1])
        self.assertEqual(self.made_good()[0][-1], "ä" * 120)

    def test_what_is_scanned_is_no_reason_and_is_shown_nowhere(self) -> None:
        code, = self.desk.issue_codes("hour", "b1")
        for scan in (code, code.replace("-", "").lower(), f"broken: {code.replace('-', ' ')}", f"https://wifi.example/portal?code={code}",
                     "WIFI:T:WPA;S:House;P:secret-word;;", "slow WIFI:T:WPA;S:House;P:secret-word;;", "httpsÖ--wifi.example-portal_code"):
            result, text = self.tried(scan)
            self.assertEqual((result, "This was scanned, and is no reason." in text), (self.REFUSED, True), scan)
            for part in (code, code.replace("-", "").lower(), code.replace("-", " "), "secret"):
                self.assertNotIn(part, text)
        raw = (self.folder / "journal.db").read_bytes()
        self.assertNotIn(code.encode(), raw)
        self.assertNotIn(b"secret", raw)

    def test_words_of_four_signs_are_no_code(self) -> None:
        self.assertIn("Made good", self.replace(self.form(self.used()), "they were here when that gate went down")[1])

    def test_no_reason_is_in_the_log_and_none_is_lost(self) -> None:
        with mock.patch("portal_field.counter.page.Pages.note") as note:
            self.replace(self.form(self.used()), "guest Miller was angry")
        self.assertNotIn("Miller", str(note.call_args_list))
        self.journal.explain("ben", "x", "r1", "replace", "b1", "one")
        self.journal.explain("ben", "x", "r1", "replace", "b1", "another")
        self.assertEqual(self.journal.asked("SELECT reason FROM reasons WHERE request = 'r1'"), [("one",)])
        for text in ("UPDATE reasons SET reason = 'x'", "DELETE FROM reasons"):
            with self.assertRaises(sqlite3.IntegrityError):
                self.journal.asked(text)

    def test_without_a_journal_nothing_is_given_out(self) -> None:
        form = self.form(self.used())
        self.journal.path = str(self.folder / "nowhere/journal.db")
        self.assertIn("Nothing was done.", self.replace(form)[1])
        with self.assertRaises(Refused):
            self.desk.desk.request(Routes.PRINT, form["batch"])

    def test_a_journal_of_before_gets_the_table(self) -> None:
        with self.journal.opened() as link:
            link.executescript("DROP TABLE reasons")
        self.assertIn("Made good", self.replace(self.form(self.used()))[1])
        self.assertEqual(len(self.made_good()), 1)


class Interrupted(Replaced):
    def given(self, form: dict[str, str]) -> list[tuple[str, int]]:
        """The sales of goodwill that the journal has, by their keys, and the forms in doubt."""
        return [(entry.request, entry.price) for entry in self.journal.steps(form["request"]) if entry.answer == "done"]

    def test_back_reload_and_a_double_click_give_out_one(self) -> None:
        form = self.form(self.used())
        first = self.printed(self.replace(form)[1])
        again = self.replace(form)[1]
        self.assertEqual((NO_NEW_ONE in again, f'href="/sheet?batch={form["batch"]}"' in again), (True, True))
        self.assertEqual(len(self.made_good()), 1)
        form = self.form(self.used("b2"))
        browser = {**ANNA, "Sec-Fetch-Mode": "navigate"}
        both = [self.printed(self.ask("/replace", head=browser, **form, reason="slow")[1]) for _ in range(2)]
        self.assertEqual((both[0] == both[1] != first, len(both[0]), len(self.made_good())), (True, 1, 2))

    def test_lost_network_and_stopped_server(self) -> None:
        for place, (route, fault, comes) in enumerate((
                (Routes.ISSUE, NoAnswer("cut"), True), (Routes.ISSUE, NoAnswer("cut"), False), (Routes.SELL, NoAnswer("cut"), True),
                (Routes.SELL, Refused(503, "stopped"), False), (Routes.SELL, Refused(503, "no_memory"), True))):
            form = self.form(self.used(f"b{place}"))
            with self.breaks(route, 0, fault, comes):
                answer = self.replace(form)[1]
            self.assertIn("Send it again", answer, place)
            again = self.fields(answer, "replace")
            self.assertEqual({**again, "again": "1"}, {**form, "reason": "Wi-Fi broke down", "again": "1"})
            self.names("")      # the venue has no plan of goodwill any more; the form goes on
            self.assertIn("Made good: ", self.ask("/replace", head=ANNA, **again)[1], place)
            self.names('goodwill = "sorry"')
            self.assertEqual((len(self.made_good()), self.given(form)), (place + 1, [(form["request"] + "-002", 0)]))
        self.assertEqual(self.journal.in_doubt(datetime.date.today()), 0)

    def test_a_killed_counter(self) -> None:
        today = datetime.date.today()
        for place, route in enumerate((Routes.ISSUE, Routes.SELL)):
            form = self.form(self.used(f"b{place}"))
            with self.breaks(route, 0, Killed()):
                self.killed("replace", {**form, "reason": "slow"})
            self.assertEqual((len(self.made_good()), self.journal.in_doubt(today)), (place, 1))
            self.assertIn("Made good: ", self.replace(form, "slow")[1])
            self.assertEqual((len(self.made_good()), self.journal.in_doubt(today)), (place + 1, 0))

    def test_a_counter_that_is_killed_after_the_voucher_was_issued(self) -> None:
        form, request = self.form(self.used()), self.counter.desk.request

        def silent(route: Route, *part: Any, **more: Any) -> bytes:
            if route is Routes.PRINT:
                raise NoAnswer("cut")
            return request(route, *part, **more)

        with mock.patch.object(self.counter.desk, "request", silent):
            self.assertIn("Send it again", self.replace(form)[1])
        with self.breaks(Routes.SELL, 0, Killed()):
            self.killed("replace", {**form, "reason": "slow"})
        self.assertEqual((len(self.made_good()), self.journal.in_doubt(datetime.date.today())), (0, 1))
        self.assertIn("Made good: ", self.replace(form)[1])


class CashUp(Replaced):
    def test_it_has_a_line_of_its_own_and_the_sums_agree(self) -> None:
        self.ask("/now", head=ANNA, plan="hour", batch="one-1", request="n1")
        for batch in ("b1", "b2"):
            form = self.form(self.used(batch))      # two sales at the server alone
            self.replace(form, f"slow <{batch}>")
        text = self.ask("/cash-up")[1]
        self.assertIn('<tr><th scope="row">Made good</th><td data-label="Server">–</td><td data-label="Journal">2: 0.00</td></tr>', text)
        self.assertIn("2 vouchers for 0.00. They are among those that were sold.", text)
        self.assertEqual(re.findall('<td data-label="Reason" class="sentence">(.*?)</td>', text), ["slow &lt;b1&gt;", "slow &lt;b2&gt;"])
        self.assertIn('<tr><th scope="row">Vouchers sold</th><td data-label="Server">5</td><td data-label="Journal">3</td></tr>', text)
        self.assertIn('<tr><th scope="row">Money in</th><td data-label="Server">9.00</td><td data-label="Journal">3.00</td></tr>', text)
        shown = report.report(self.counter, datetime.date.today())
        self.assertRegex(shown, r"made good +2 +0\.00 +0 +0\.00 +0\.00\n")


class Files(unittest.TestCase):
    def test_the_line_in_offers_toml(self) -> None:
        self.assertEqual([(plans.read_goodwill(text), plans.read_offers(text)) for text in (
            b'goodwill = "sorry"\n[day]\noffered = false\n', b"[goodwill]\noffered = false\n", b"")],
            [("sorry", {"day": False}), ("", {"goodwill": False}), ("", {})])
        for text, words in ((b"goodwill = 1", "goodwill is the id of a plan in quotes"), (b'goodwill = "Sorry!"', "goodwill is the id"), (
                b'[day]\noffered = false\ngoodwill = "sorry"', r"stands above all tables, and not below \[day\]")):
            with self.assertRaisesRegex(BadFile, words):
                plans.read_offers(text)


class Kept(Replaced):
    def test_a_mistake_in_the_file_and_a_start_forget_no_goodwill(self) -> None:
        self.offers.write_text("[day")
        again = Counter(Desk(self.relay.port, "desk-token"), self.conf, self.journal)
        again.load_plans()
        self.assertEqual(again.offers.goodwill, "sorry")


if __name__ == "__main__":
    unittest.main()
