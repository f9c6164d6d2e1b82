"""The client of the desk, and numbers in words."""

from __future__ import annotations

import datetime
import os
import socket
import threading
import time
import unittest
from typing import Any
from unittest import mock

import flask
from desk_process import Desk, DeskProcess, NoAnswer, Refused, Routes

from portal_field.lib.desk_client import REQUEST_NUMBER, new_number
from portal_field.lib.forms import BadForm, Form
from portal_field.lib.languages import Language
from portal_field.lib.local_time import clock, use_zone

HEAD = b"HTTP/1.1 %d X\r\nContent-Length: %d\r\nConnection: close\r\n\r\n%s"


class Answers(unittest.TestCase):
    def answer_to(self, answer: bytes, wait: float = 0.0) -> Any:
        """What the client makes of one answer."""
        door = socket.create_server(("127.0.0.1", 0))
        held = threading.Event()

        def work() -> None:
            with door, door.accept()[0] as link:
                link.recv(4096)
                link.sendall(answer)
                held.wait(wait)

        worker = threading.Thread(target=work)
        worker.start()
        try:
            return Desk(door.getsockname()[1], timeout=0.3 if wait else 10).request_json(Routes.SESSIONS)
        except (Refused, NoAnswer) as fault:
            return fault
        finally:
            held.set()
            worker.join()

    def test_answers_and_what_is_none(self) -> None:
        self.assertEqual(self.answer_to(HEAD % (200, 13, b'{"open":true}')), {"open": True})
        refused = self.answer_to(HEAD % (409, 21, b'{"error":"used_up"}  '))
        self.assertEqual((refused.status, refused.word, refused.in_doubt), (409, "used_up", False))
        self.assertTrue(self.answer_to(HEAD % (503, 19, b'{"error":"stopped"}')).in_doubt)
        for answer in (b"", b"HTTP/1.1 200 OK\r\n", HEAD % (200, 99, b"{}"), HEAD % (200, 12, b'{"open":true'),
                       HEAD % (200, 2, b"[]"), HEAD % (502, 2, b"{}"), HEAD % (502, 1, b"x"), b"\0\0\0"):
            self.assertIsInstance(self.answer_to(answer), NoAnswer, answer)

    def test_silence_has_an_end(self) -> None:
        start = time.monotonic()
        for answer in (b"", b"HTTP/1.1 200 OK\r\n"):
            self.assertIsInstance(self.answer_to(answer, wait=3), NoAnswer)
        self.assertLess(time.monotonic() - start, 2.5)
        self.assertEqual(Desk().timeout, 5)     # what README.md says of the parts

    def test_a_parameter_is_one_segment(self) -> None:
        with DeskProcess() as desk:
            for part in ("a/b", "..", "2222 2222 2222", "?x"):
                with self.assertRaises(Refused) as caught:
                    desk.desk.request_json(Routes.VOUCHER, part)
                self.assertEqual(caught.exception.word, "bad_code", part)

    def test_a_device_is_asked_about_as_it_is_printed(self) -> None:
        with mock.patch.object(Desk, "exchange", return_value=(200, b"{}")) as exchange:
            Desk(1).request_json(Routes.LAST_SESSION, query={"device": "02:00:00:00:00:01"})
        self.assertEqual(exchange.call_args.args[:2], ("GET", "/desk/sessions?device=02:00:00:00:00:01"))

    def test_the_four_questions_about_sessions(self) -> None:
        device = "02:00:00:00:00:01"
        with DeskProcess() as desk:
            desk.load()
            code, = desk.sell_codes("gigabyte", "b1")
            desk.desk.request_json(Routes.REDEEM, body={"code": code}, device=device)
            last = desk.desk.request_json(Routes.LAST_SESSION, query={"device": device})
            self.assertEqual(last, {"bytes-remaining": 10**9, "device": device, "ended": None, "opened": last["opened"], "plan": "gigabyte",
                                    "session": 1, "used": 0})
            self.assertEqual(desk.desk.request_json(Routes.SESSION, "1"), last)
            own = desk.desk.request_json(Routes.OWN_SESSION, device=device)
            self.assertEqual({**own, "device": device}, last)
            row, = desk.gateway.request_json(Routes.SESSION_DETAILS)["sessions"]
            self.assertEqual(row, {key: value for key, value in last.items() if key not in ("ended", "used")})

    def test_the_questions_about_batches_and_vouchers(self) -> None:
        with DeskProcess() as desk:
            desk.load()
            codes = {batch: desk.issue_codes("gigabyte", batch, 2) for batch in ("b1", "b2")}
            one, two = desk.desk.request_json(Routes.BATCH_LIST)["batches"]
            self.assertEqual((two["count"], two["sold"], two["refunded"], two["used-up"]), (2, 0, 0, 0))
            rest = desk.desk.request_json(Routes.BATCH_LIST, query={"before": one["batch"], "limit": "1"})
            self.assertEqual(rest, {"batches": [two], "more": False})
            vouchers = [{"code": code, "redeemed": 0, "refund": None, "sold": None} for code in codes["b1"]]
            state = next(batch for batch in (one, two) if batch["batch"] == "b1")
            self.assertEqual(desk.desk.request_json(Routes.BATCH, "b1"), {**state, "vouchers": vouchers})
            code = codes["b2"][0]
            found = desk.desk.request_json(Routes.VOUCHERS, query={"prefix": code[:12].lower()})
            self.assertEqual(found, {"more": False, "vouchers": [desk.voucher(code)]})

    def test_line_ends_never_make_a_field(self) -> None:
        with self.assertRaises(ValueError):
            Desk(1, timeout=0.1).request_json(Routes.SELL, body={}, number="a\r\nPortal-Token: x")

    def test_numbers_are_new_and_well_formed(self) -> None:
        numbers = {new_number() for _ in range(100)}
        self.assertEqual(len(numbers), 100)
        self.assertTrue(all(REQUEST_NUMBER.fullmatch(number) for number in numbers))


class Words(unittest.TestCase):
    def test_words(self) -> None:
        english, german = Language("en"), Language("de")
        span, volume, money = english.span, english.volume, english.money
        for answer_to, words in ((span(0), "0 seconds"), (span(1), "1 second"), (span(59), "59 seconds"),
                                 (span(60), "1 minute"), (span(3599), "59 minutes"), (span(3600), "1 hour"),
                                 (span(7500), "2 hours, 5 minutes"),
                                 (span(86400), "1 day"), (span(100000), "1 day, 3 hours"), (volume(0), "0 bytes"),
                                 (volume(1), "1 byte"), (volume(999), "999 bytes"), (volume(1000), "1.0 kB"),
                                 (volume(999_999), "999.9 kB"), (volume(10**9), "1.0 GB"), (volume(10**15), "1,000,000.0 GB"),
                                 (money(5), "0.05"), (money(300), "3.00"), (money(123456, "EUR"), "\u20ac1,234.56"),
                                 (money(500, "JPY"), "\u00a55"), (money(550, "JPY"), "\u00a55.50"),
                                 (german.span(100000), "1 Tag, 3 Stunden"), (german.volume(1_234_567), "1,2 MB"),
                                 (german.money(123456), "1.234,56"), (german.money(500, "EUR"), "5,00\u00a0\u20ac")):
            self.assertEqual(answer_to, words)

    def test_local_times_are_those_of_the_desks_zone(self) -> None:
        self.addCleanup(use_zone, os.environ.get("TZ", "UTC0"))
        berlin = "CET-1CEST,M3.5.0,M10.5.0/3"
        for zone, moment, words in (("UTC0", 0, "1970-01-01 00:00"), (berlin, 0, "1970-01-01 01:00"),
                                    (berlin, 1593561599, "2020-07-01 01:59")):
            use_zone(zone)
            self.assertEqual(clock(moment), words)

    def test_forms(self) -> None:
        form = Form.read("code=+a+&n=12&n=13&empty=&bad=1.0&long=1234567890123456789")
        self.assertEqual((form.word("code"), form.whole("n")), ("a", 13))
        for name in ("empty", "missing", "bad", "code", "long"):
            with self.assertRaises(BadForm):
                form.whole(name)
        with self.assertRaises(BadForm):
            Form.read("&".join(f"a{i}=1" for i in range(Form.MOST_FIELDS + 1)))


class Forms(unittest.TestCase):
    def test_a_day_is_one_of_the_calendar_between_1970_and_9998(self) -> None:
        form = Form.read("leap=2028-02-29&none=2026-02-29&month=2026-13-01&early=1969-12-31&late=9999-01-01&word=today&empty=")
        self.assertEqual(form.day("leap"), datetime.date(2028, 2, 29))
        for name in ("none", "month", "early", "late", "word", "empty", "missing"):
            fault: Exception | None = None
            try:
                form.day(name)
            except (BadForm, ValueError) as raised:
                fault = raised
            self.assertIsInstance(fault, BadForm, name)

    def test_a_form_has_a_limit_by_its_address(self) -> None:
        app = flask.Flask("forms")
        for path, size, fits in (("/sell", 4000, True), ("/sell", 5000, False), ("/text", 60_000, True), ("/text", 70_000, False)):
            with app.test_request_context(path, method="POST", data={"text": "x" * size}) as context:
                request = context.request
                if fits:
                    self.assertEqual(len(Form.from_body(request)["text"]), size)
                else:
                    self.assertRaises(BadForm, Form.from_body, request)


if __name__ == "__main__":
    unittest.main()
