"""Several vouchers at once: a list of scanned codes that is sold by one form, and the unused codes of a batch that are
refunded by one; what a scanner writes that is no code."""

from __future__ import annotations

import datetime
import html
import re
import sqlite3
import time
import unittest
from typing import Any
from unittest import mock

from desk_process import NoAnswer, Routes
from test_confirmation import Confirmed

from portal_field.counter import page, scans
from portal_field.counter.several import MOST_LINES, codes_of
from portal_field.lib.desk_client import Refused, Route

ANNA = {"X-User": "anna", "X-Real-IP": "10.88.0.2"}
TAKE_NOTHING, GIVE_NOTHING = "It is not a new one. Take nothing.", "It is not a new one. Give nothing back."


class Killed(BaseException):
    """The counter ends at once: no `except` of it holds this one."""


class AtOnce(Confirmed):
    """A counter with lists."""

    def listed(self, *scans: str) -> str:
        """The page of a list, after the first code and then the others were scanned."""
        first, *more = scans
        text = self.see(f"/voucher?code={first}")[1]
        for scan in more:
            name = "sell-several" if 'name="codes"' in text else "sell"
            text = self.ask(self.place_of("/" + name, ANNA, **self.fields(text, name), next=scan))[1]
        return text

    def fields(self, text: str, action: str) -> dict[str, str]:
        """The hidden fields of the form that acts so."""
        form = text.partition(f'action="/{action}"')[2].partition("</form>")[0]
        return self.hidden(form)

    def sell(self, text: str, **more: str) -> str:
        """Enter on the empty field."""
        return self.ask("/sell-several", head=ANNA, **self.fields(text, "sell-several"), **more)[1]

    def killed(self, action: str, form: dict[str, str]) -> None:
        """A form during which the counter is killed: it writes nothing of what it did."""
        with mock.patch.object(page.Pages, "keep"), self.assertRaises(Killed):
            app: Any = page.pages(self.counter)
            app.test_client().post(f"/{action}", base_url="https://counter.example", data=form,
                                   headers={"Origin": "https://counter.example"})

    def rows(self, text: str) -> list[tuple[str, str]]:
        """The lines of a list or of an answer: the code, and what is said of it."""
        lines = re.findall(r'<td data-label="Code">(.*?)</td>.*?<td data-label="Price"[^>]*>(.*?)</td>', text, re.S)
        return [(code, html.unescape(said)) for code, said in lines] or [
            (code, html.unescape(said)) for code, said in re.findall(r'<th scope="row">(.*?)</th><td>(.*?)</td>', text)]

    def sold(self, codes: list[str]) -> list[bool]:
        return [self.desk.voucher(code)["sold"] is not None for code in codes]

    def net(self) -> str:
        day = time.strftime("%Y-%m-%d", time.gmtime())
        return self.desk.desk.request(Routes.TAKINGS, query={"from": day, "to": day}).decode().splitlines()[-1]

    def kept(self, act: str) -> list[tuple[str, str, int, str]]:
        """Lines of the journal of one kind: key, batch, price and answer."""
        return [(one.request, one.batch, one.price, one.answer)
                for one in self.journal.day(datetime.date.today()) if one.act == act]

    def breaks(self, route: Route, after: int, fault: BaseException, comes: bool = True) -> Any:
        """From the command after so many on a request fails; with `comes` the server carries it out before."""
        request_json, asked = self.counter.desk.request_json, [0]

        def result(to: Route, *part: str, **more: Any) -> Any:
            asked[0] += to is route
            if to is route and asked[0] > after:
                if comes:
                    request_json(to, *part, **more)
                raise fault
            return request_json(to, *part, **more)

        return mock.patch.object(self.counter.desk, "request_json", result)


class Sales(AtOnce):
    def test_each_scan_adds_a_line_and_enter_sells_all_for_one_sum(self) -> None:
        codes = [*self.desk.issue_codes("hour", "b1", 3), *self.desk.issue_codes("day", "b2", 2)]
        text = self.listed(codes[0], codes[1].lower(), codes[2].replace("-", " "), *(
            f"https://wifi.example/portal?code={code}" for code in codes[3:]))
        self.assertEqual(self.rows(text), [*((code, "3.00") for code in codes[:3]), *((code, "9.00") for code in codes[3:])])
        self.assertEqual((self.heading(text), text.count("autofocus")), ("5 vouchers: 27.00", 1))
        self.assertEqual(self.sold(codes), [False] * 5)
        text = self.sell(text)
        self.assertIn("<title>5 vouchers sold. Take 27.00. ", text)
        self.assertEqual(self.rows(text), [*((code, "3.00") for code in codes[:3]), *((code, "9.00") for code in codes[3:])])
        self.assertEqual((self.sold(codes), self.net().split()[-1]), ([True] * 5, "27.00"))

    def test_the_journal_has_a_line_of_each_with_a_key_of_its_own(self) -> None:
        codes = [*self.desk.issue_codes("hour", "b1", 2), *self.desk.issue_codes("day", "b2")]
        text = self.listed(*codes)
        number = self.fields(text, "sell-several")["request"]
        self.sell(text)
        self.assertEqual(self.kept("sell"), [(f"{number}-001", "b1", 300, "done"), (f"{number}-002", "b1", 300, "done"),
                                             (f"{number}-003", "b2", 900, "done")])
        raw = (self.folder / "journal.db").read_bytes()
        for code in codes:
            self.assertNotIn(code.encode(), raw)
            self.assertNotIn(code.replace("-", "").encode(), raw)

    def test_a_code_that_cannot_be_sold_is_said_at_its_line_and_hinders_no_other(self) -> None:
        good = self.desk.issue_codes("hour", "b1", 2)
        sold, used, back = self.desk.sell_codes("hour", "b2", 3)
        self.redeem(used)
        self.desk.desk.request_json(Routes.REFUND, body={"code": back})
        faults = [(sold, "The voucher was sold before."), (used, "All uses of the voucher are redeemed."),
                  (back, "The voucher was refunded."), ("2222-2222-2222-2223", "No such code can exist: a sign is mistyped."),
                  ("AB", "No such code can exist: a sign is mistyped."), (self.unknown(), "The code is well-formed, but was never issued here.")]
        text = self.listed(good[0], *(code for code, _ in faults), good[1])
        self.assertEqual(self.rows(text), [(good[0], "3.00"), *faults, (good[1], "3.00")])
        self.assertEqual(self.heading(text), "2 vouchers: 6.00")
        answer = self.sell(text)
        self.assertIn("2 vouchers sold.<br>Take 6.00.", answer)
        self.assertEqual([code for code, _ in self.rows(answer)], [code for code, _ in self.rows(text)])
        for words in ("The voucher was sold before.", "No such code can exist", "never issued here"):
            self.assertIn(words, answer)
        self.assertEqual(self.sold(good), [True, True])
        self.assertIn(TAKE_NOTHING, self.sell(text), "what was refused does not make the form one in doubt")
        self.assertIn("Nothing was sold.", self.sell(self.listed_of(good)))

    def listed_of(self, codes: list[str]) -> str:
        """The page of a list, by the number of its look-up."""
        return self.ask(f"/several?look={self.counter.looks.keep(' '.join(codes))}")[1]

    def unknown(self) -> str:
        """A code that another venue issued."""
        other = type(self.desk)()
        with other:
            other.load()
            return other.issue_codes("hour", "b1")[0]

    def test_codes_past_their_date_are_said_at_their_lines(self) -> None:
        codes = self.desk.issue_codes("hour", "b1", 2)
        text = self.listed(*codes)
        later = time.time() + 91 * 86400
        with mock.patch("portal_field.counter.clerk.time.time", lambda: later):
            self.assertEqual(self.rows(self.listed_of(codes)), [(code, "The voucher is past its date.") for code in codes])
        self.assertEqual(self.rows(text), [(code, "3.00") for code in codes])

    def test_a_list_shows_a_code_once_takes_one_off_and_ends_somewhere(self) -> None:
        codes = self.desk.issue_codes("hour", "b1", MOST_LINES + 1)
        text = self.listed(*codes[:3])
        fields = self.fields(text, "sell-several")
        status, again = self.ask("/sell-several", head=ANNA, **fields, next=codes[1].lower())
        self.assertEqual((status, f"{codes[1]} is on the list already." in again, self.rows(again)), (409, True, self.rows(text)))
        text = self.ask(self.place_of("/sell-several", **fields, out=codes[1], next=codes[0]))[1]
        self.assertEqual([code for code, _ in self.rows(text)], [codes[0], codes[2]])
        text = self.ask(self.place_of("/sell-several", **self.fields(text, "sell-several"), out=codes[0]))[1]
        self.assertEqual(self.place_of("/sell-several", **self.fields(text, "sell-several"), out=codes[2]), "/")
        fields = self.fields(self.listed_of(codes[:MOST_LINES]), "sell-several")
        status, text = self.ask("/sell-several", head=ANNA, **fields, next=codes[-1])
        self.assertEqual((status, "No more than 50 codes at once" in text, len(self.rows(text))), (409, True, MOST_LINES))
        self.assertIn("Take 150.00.", self.sell(text))
        self.assertEqual(sum(self.sold(codes)), MOST_LINES)

    def test_the_form_has_the_list_so_a_restart_of_the_page_loses_none(self) -> None:
        codes = self.desk.issue_codes("hour", "b1", 3)
        text = self.listed(*codes[:2])
        self.assertNotIn(codes[0], " ".join(re.findall(' (?:href|action|src)="([^"]*)"', text)))
        self.counter.looks.codes.clear()
        text = self.ask(self.place_of("/sell-several", **self.fields(text, "sell-several"), next=codes[2]))[1]
        self.counter.looks.codes.clear()
        self.assertIn("Take 9.00.", self.sell(text))
        self.assertEqual(self.ask("/several?look=0")[0], 404)
        self.assertEqual(self.ask("/sell-several", request="s1")[0], 400, "no code, nothing sold")

    def test_the_longest_list_is_no_longer_than_a_form_may_be(self) -> None:
        codes = [f"{place:02}" + "\u4f7f" * 200 for place in range(MOST_LINES)]
        text = self.ask(f"/several?look={self.counter.looks.keep(' '.join(codes))}")[1]
        self.assertEqual(len(self.rows(text)), MOST_LINES)
        self.assertIn("Nothing was sold.", self.sell(text))

    def test_a_server_that_says_nothing_loses_no_line(self) -> None:
        codes = self.desk.issue_codes("hour", "b1", 2)
        text = self.listed(*codes)
        self.relay.drops = True
        status, silent = self.ask(f"/several?look={self.counter.looks.keep(' '.join(codes))}")
        self.assertEqual((status, "The server did not answer." in silent, self.rows(silent)), (504, True, [(code, "–") for code in codes]))
        self.relay.drops = False
        self.assertIn("Take 6.00.", self.sell(silent))
        self.assertIn("Nothing was sold.", self.sell(text))


class Interrupted(AtOnce):
    """A form that broke off is sent again, and each of its codes is sold or refunded once and has one line in the journal."""

    def sales(self, number: str, count: int) -> list[tuple[str, str, int, str]]:
        return [(f"{number}-{place + 1:03}", "b1", 300, "done") for place in range(count)]

    def test_lost_network_and_stopped_server(self) -> None:
        for batch, (fault, comes) in enumerate(((NoAnswer("cut"), True), (NoAnswer("cut"), False), (Refused(503, "stopped"), True),
                                                (Refused(503, "no_memory"), False))):
            codes = self.desk.issue_codes("hour", f"c{batch}", 4)
            text = self.listed(*codes)
            with self.breaks(Routes.SELL, 2, fault, comes):
                answer = self.sell(text)
            self.assertIn("Send it again", answer, fault)
            self.assertEqual(self.sold(codes), [True, True, comes, False])
            again = self.fields(answer, "sell-several")
            self.assertEqual({**again, "again": "1"}, {**self.fields(text, "sell-several"), "again": "1"})
            self.assertIn("4 vouchers sold.<br>Take 12.00.", self.ask("/sell-several", head=ANNA, **again)[1])
            done = [key for key, _, _, answer in self.kept("sell") if answer == "done" and key.startswith(again["request"])]
            self.assertEqual(done, [f"{again['request']}-{place:03}" for place in range(1, 5)], "one line of each")
            self.assertIn(TAKE_NOTHING, self.sell(text))

    def test_a_killed_counter(self) -> None:
        """It had no time to write what it did: the keys are in the journal before the first one is sent."""
        codes = self.desk.issue_codes("hour", "b1", 4)
        text = self.listed(*codes)
        number = self.fields(text, "sell-several")["request"]
        with self.breaks(Routes.SELL, 2, Killed()):
            self.killed("sell-several", self.fields(text, "sell-several"))
        today = datetime.date.today()
        self.assertEqual((self.sold(codes), self.kept("sell"), self.journal.in_doubt(today)), ([True] * 3 + [False], [], 1))
        self.assertEqual(self.journal.begun(number), {f"{number}-{place:03}" for place in range(1, 5)})
        self.assertIn("1 form got no answer", self.ask("/cash-up")[1])
        self.assertIn("4 vouchers sold.<br>Take 12.00.", self.sell(text))
        self.assertEqual((self.kept("sell"), self.journal.in_doubt(today)), (self.sales(number, 4), 0))

    def test_a_counter_that_is_killed_during_the_sale_of_a_whole_batch(self) -> None:
        codes = self.desk.issue_codes("hour", "b1", 4)
        form = self.hidden(self.ask("/sell-batch?batch=b1")[1])
        with self.breaks(Routes.SELL, 2, Killed()):
            self.killed("sell-batch", form)
        today = datetime.date.today()
        self.assertEqual((self.sold(codes), self.kept("sell"), self.journal.in_doubt(today)), ([True] * 3 + [False], [], 1))
        answer = self.ask("/sell-batch", head=ANNA, **form)[1]
        self.assertIn("Batch b1: 4 codes sold.<br>Take 12.00.", answer)
        self.assertEqual((self.kept("sell"), self.journal.in_doubt(today)), (self.sales(form["request"], 4), 0))
        self.assertIn(TAKE_NOTHING, self.ask("/sell-batch", head=ANNA, **form)[1])

    def test_what_was_begun_is_changed_by_nobody(self) -> None:
        self.journal.begin("anna", "10.88.0.2", "f", "sell", ["f-001"])
        self.journal.begin("ben", "10.88.0.3", "f", "sell", ["f-001", "f-002"])
        self.assertEqual(self.journal.asked("SELECT request, clerk FROM begun ORDER BY request"), [("f-001", "anna"), ("f-002", "ben")])
        for text in ("UPDATE begun SET form = 'x'", "DELETE FROM begun"):
            with self.assertRaises(sqlite3.IntegrityError):
                self.journal.asked(text)

    def test_a_journal_of_before_gets_the_table(self) -> None:
        self.journal.begin("anna", "x", "f", "sell", ["f-001"])
        with self.journal.opened() as link:
            link.executescript("DROP TABLE begun")
        self.assertTrue(self.journal.asked("SELECT 1 FROM sqlite_master WHERE name = 'begun'"))
        self.journal.begin("anna", "x", "f", "sell", ["f-001"])
        self.assertEqual(self.journal.begun("f"), {"f-001"})

    def test_without_a_journal_all_is_sold_once(self) -> None:
        codes = self.desk.issue_codes("hour", "b1", 3)
        text = self.listed(*codes)
        self.journal.path = str(self.folder / "nowhere/journal.db")
        with self.breaks(Routes.SELL, 1, NoAnswer("cut")):
            self.assertIn("Send it again", self.sell(text))
        self.assertIn("Take 9.00.", self.sell(text))
        self.assertEqual(self.net().split()[-1], "9.00")


class Repeated(AtOnce):
    def test_back_and_reload_sell_nothing_again(self) -> None:
        codes = [*self.desk.issue_codes("hour", "b1", 2), *self.desk.issue_codes("day", "b2")]
        text = self.listed(*codes)
        self.assertIn("Take 15.00.", self.sell(text))
        answer = self.sell(text)
        for words in ("This sale was made at ", TAKE_NOTHING, ">3<", ">15.00<"):
            self.assertIn(words, answer)
        self.assertNotIn(">b1<", answer, "it is of two batches")
        self.assertEqual(self.net().split()[-1], "15.00")

    def test_a_double_click_is_one_sale_and_says_the_same(self) -> None:
        codes = self.desk.issue_codes("hour", "b1", 3)
        fields = self.fields(self.listed(*codes), "sell-several")
        texts = [self.ask("/sell-several", head={**ANNA, "Sec-Fetch-Mode": "navigate"}, **fields)[1] for _ in range(2)]
        self.assertEqual(["3 vouchers sold.<br>Take 9.00." in text for text in texts], [True, True])
        self.assertEqual((self.net().split()[-1], len(self.kept("sell"))), ("9.00", 3))

    def test_another_list_with_the_number_of_one_that_was_sold_is_none(self) -> None:
        codes = self.desk.issue_codes("hour", "b1", 4)
        text = self.listed(*codes[:2])
        self.sell(text)
        fields = self.fields(text, "sell-several") | {"codes": " ".join(codes[2:])}
        answer = self.ask("/sell-several", head=ANNA, **fields)[1]
        self.assertNotIn("This sale was made", answer)
        self.assertIn("This form was sent before with other words", answer)
        self.assertEqual(self.sold(codes), [True, True, False, False])


class Refunds(AtOnce):
    def test_the_unused_codes_of_a_batch_with_their_sum(self) -> None:
        codes = self.desk.sell_codes("gigabyte", "b1", 5)
        self.redeem(codes[1])
        self.desk.desk.request_json(Routes.REFUND, body={"code": codes[3]})
        before = self.net()
        status, text = self.ask("/refund-batch?batch=b1")
        self.assertEqual((status, self.heading(text), self.button(text)), (
            200, "Refund 3 unused codes of b1: give back 15.00", "Give back 15.00"))
        self.assertEqual((before, text.count("autofocus")), (self.net(), 1))
        form = self.hidden(text)
        answer = self.ask("/refund-batch", head=ANNA, **form)[1]
        self.assertIn("Batch b1: 3 codes refunded.<br>Give back 15.00.", answer)
        self.assertEqual([self.desk.voucher(code)["refund"] for code in codes], [500, None, 500, 500, 500])
        self.assertEqual(self.kept("refund"), [(f"{form['request']}-{place:03}", "b1", 500, "done") for place in (1, 3, 5)])
        again = self.ask("/refund-batch", head=ANNA, **form)[1]
        for words in ("This refund was made at ", GIVE_NOTHING, ">b1<", ">15.00<"):
            self.assertIn(words, again)
        text = self.ask("/refund-batch?batch=b1")[1]
        self.assertEqual(("None of its codes is sold and unused." in text, "<form" in text.partition("<h2")[2]), (True, False))
        self.assertEqual(self.ask("/refund-batch?batch=b9")[0], 404)

    def test_a_use_between_the_page_and_the_press_is_said_and_nothing_is_refunded(self) -> None:
        codes = self.desk.sell_codes("hour", "b1", 3)
        form = self.hidden(self.ask("/refund-batch?batch=b1")[1])
        self.redeem(codes[0])
        status, text = self.ask("/refund-batch", head=ANNA, **form)
        self.assertEqual((status, "Nothing was refunded." in text, self.button(text)), (409, True, "Give back 6.00"))
        self.assertIn("2 codes can be refunded now, and the form says “3”.", text)
        self.assertEqual([self.desk.voucher(code)["refund"] for code in codes], [None] * 3)
        self.assertIn("Give back 6.00.", self.ask("/refund-batch", head=ANNA, **self.hidden(text))[1])

    def test_above_twenty_codes_their_number_is_typed(self) -> None:
        for batch, count in (("b20", 20), ("b21", 21)):
            self.desk.sell_codes("hour", batch, count)
            text = self.ask(f"/refund-batch?batch={batch}")[1]
            self.assertEqual(('id="count"' in text, "count" in self.hidden(text)), (count > 20, count <= 20))
        form = self.hidden(text)
        self.assertIn("Type how many codes you refund", text)
        for typed in ("", "20", "x"):
            self.assertIn("Nothing was refunded.", self.ask("/refund-batch", head=ANNA, **form, count=typed)[1])
        self.assertIn("Give back 63.00.", self.ask("/refund-batch", head=ANNA, **form, count="21")[1])

    def test_a_refund_that_broke_off_goes_on_and_gives_back_each_code_once(self) -> None:
        for batch, is_written, fault in (("b1", True, NoAnswer("cut")), ("b2", False, NoAnswer("cut")), ("b3", True, Killed())):
            codes = self.desk.sell_codes("hour", batch, 4)
            self.desk.desk.request_json(Routes.REFUND, body={"code": codes[0]})
            self.journal.path = str(self.folder / ("journal.db" if is_written else "nowhere/journal.db"))
            form = self.hidden(self.ask(f"/refund-batch?batch={batch}")[1])
            with self.breaks(Routes.REFUND, 2, fault):
                if isinstance(fault, Killed):
                    self.killed("refund-batch", form)
                else:
                    text = self.ask("/refund-batch", head=ANNA, **form)[1]
                    self.assertIn("Send it again", text)
            again = form if is_written else self.hidden(text)
            answer = self.ask("/refund-batch", head=ANNA, **again)[1]
            self.assertIn(f"Batch {batch}: 3 codes refunded.<br>Give back 9.00.", answer)
            if is_written:
                done = [key for key, of, _, answer in self.kept("refund") if of == batch and answer == "done"]
                self.assertEqual(done, [f"{form['request']}-{place:03}" for place in (2, 3, 4)], fault)

    def test_a_refund_by_keyboard_is_a_scan_and_two_keys(self) -> None:
        code, other = self.desk.sell_codes("hour", "b1", 2)
        text = self.see(f"/voucher?code={code}")[1]
        fields = self.fields(text, "next")
        place = self.place_of("/next", **fields, code="")
        self.assertEqual((place, text.count("autofocus")), (f"/refund?look={fields['refunds']}", 1))
        self.assertRegex(self.place_of("/next", **fields, code=other), r"\A/voucher\?look=")
        self.assertEqual(self.place_of("/next", refunds="../x"), "/")
        text = self.ask(place)[1]
        form = self.fields(text, "refund")
        self.assertRegex(self.place_of("/refund", **form, next=other), r"\A/voucher\?look=", "a scan does not refund")
        self.assertIsNone(self.desk.voucher(code)["refund"])
        self.assertIn("Give back 3.00.", self.ask("/refund", head=ANNA, **form, next="")[1])


class Scans(AtOnce):
    WIFI = 'WIFI:T:WPA;S:House;P:secret-word;;'
    # What a scanner set to one layout writes at a computer of another one.
    GERMAN = ("httpsÖ--wifi.example-portal_code´VQDUßWXF7ßQ3ETßGVQX", "VQDUßWXF7ßQ3ETßGVQX", "vqduẞwxf7ẞq3et", "WIFIÖTÖWPAöSÖHouseöPÖsecretßwordöö")
    AMERICAN = ("https>&&wifi.example&portal_code)VQDU/WXF7/Q3ET/GVQX", "VQDU/WXF7/Q3ET/GVQX")

    def test_what_is_no_code_is_recognised(self) -> None:
        kinds = [(self.WIFI, "wifi"), ("wifi:t:nopass;s:x;;", "wifi"), *((scan, "layout") for scan in (*self.GERMAN, *self.AMERICAN)),
                 ("https://wifi.example/portal", "address"), ("http://house.example/menu?x=1", "address"),
                 ("https://wifi.example/portal?code=VQDU-WXF7-Q3ET-GVQX", ""), ("HTTPS://WIFI.EXAMPLE/PORTAL?CODE=vqdu-wxf7-q3et-gvqx", ""),
                 ("VQDU-WXF7-Q3ET-GVQX", ""), ("vqdu wxf7 q3et", ""), ("2222", ""), ("http", ""), ("", "")]
        self.assertEqual([(scan, scans.kind_of(scan)) for scan, _ in kinds], kinds)
        self.assertEqual(scans.code_in("HTTPS://WIFI.EXAMPLE/PORTAL?CODE=vqdu-wxf7-q3et-gvqx"), "VQDU-WXF7-Q3ET-GVQX")
        self.assertEqual(scans.code_in("ＶＱＤＵ－ＷＸＦ７－Ｑ３ＥＴ－ＧＶＱＸ"), "VQDU-WXF7-Q3ET-GVQX")

    def test_it_is_said_in_each_field_and_shown_nowhere(self) -> None:
        codes, (sold,) = self.desk.issue_codes("hour", "b1", 2), self.desk.sell_codes("hour", "b2")
        voucher, refund = self.see(f"/voucher?code={codes[0]}")[1], self.see(f"/refund?code={sold}")[1]
        several = self.listed(*codes)
        fields: list[tuple[str, dict[str, str], str]] = [
            ("voucher", {}, "code"), ("next", {}, "code"), ("sell", self.fields(voucher, "sell"), "next"),
            ("sell-several", self.fields(several, "sell-several"), "next"), ("refund", self.fields(refund, "refund"), "next")]
        for scan, words in ((self.WIFI, "This is the Wi-Fi&#39;s QR code, number 1 on the voucher."), (
                self.GERMAN[0], "The scanner writes for another keyboard"), ("https://house.example/", "This is an address")):
            for action, hidden, name in fields:
                status, text = self.ask("/" + action, head=ANNA, **hidden, **{name: scan})
                self.assertEqual((status in (400, 409), words in text), (True, True), (action, scan))
                self.assertNotIn("secret", text)
        self.assertIn(codes[0], self.ask("/sell", head=ANNA, **self.fields(voucher, "sell"), next=self.WIFI)[1], "the list stays")
        self.assertEqual((self.sold([*codes, sold]), self.desk.voucher(sold)["refund"]), ([False, False, True], None))

    def test_a_page_tests_a_scanner(self) -> None:
        status, text = self.ask("/scanner")
        self.assertEqual((status, text.count("<svg"), text.count("autofocus")), (200, 1, 1))
        us = str.maketrans("yzYZ-/:?=&_", "zyZYß-Ö_´/?")
        for scan, words in ((scans.TEST_TEXT, "The scanner is set right."), ("", "Enter came twice"), (scans.TEST_TEXT.swapcase(), "Caps Lock"),
                            (scans.TEST_TEXT.translate(us), "keyboard layout of the scanner"), ("]Q1" + scans.TEST_TEXT, "more than the code"),
                            (self.WIFI, "Wi-Fi&#39;s QR code"), (scans.TEST_TEXT[:-1], "signs are missing")):
            text = self.ask("/scanner", text=scan, sent="1")[1]
            self.assertIn(words, text, scan)
            self.assertEqual('class="good screen"' in text, scan == scans.TEST_TEXT)
            self.assertNotIn("secret", text)

    def test_a_list_is_read_as_it_was_written(self) -> None:
        self.assertEqual(codes_of("vqduwxf7q3etgvqx ab VQDU-WXF7-Q3ET-GVQX AB <x>"), ["VQDU-WXF7-Q3ET-GVQX", "AB", "X"])

    def test_the_counter_in_german(self) -> None:
        self.conf.update(language="de", currency="EUR")
        self.counter.__post_init__()
        codes = self.desk.issue_codes("hour", "b1", 2)
        text = self.ask(f"/several?look={self.counter.looks.keep(' '.join(codes))}")[1]
        self.assertEqual(self.heading(text), "2 Gutscheine: 6,00\xa0€")
        self.assertIn("2 Gutscheine verkauft.<br>Zu kassieren: 6,00\xa0€.", self.sell(text))
        self.assertIn("Das ist der QR-Code des WLANs, Nummer 1 auf dem Gutschein.", self.ask("/voucher", code=self.WIFI)[1])


if __name__ == "__main__":
    unittest.main()
