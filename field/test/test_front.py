"""The guests' helper: which device, which words, and that a form takes effect once. The desk runs beside it."""

from __future__ import annotations

import http.client
import json
import os
import pathlib
import re
import socket
import tempfile
import threading
import time
import unittest
import urllib.parse
from typing import Any
from unittest import mock

from desk_process import FIELD, Desk, DeskProcess, Relay, Routes

from portal_field.guests.page import Front, pages
from portal_field.lib import serving, web
from portal_field.lib.counts import Counts
from portal_field.lib.local_time import use_zone
from portal_field.lib.machine_time import Notes

MAC, OTHER = "02:00:00:00:00:01", "02:00:00:00:00:02"


def serve_during_test(case: unittest.TestCase, app: web.Application, door: socket.socket) -> None:
    """Serves the application on a socket, until the test ends."""
    server = web.server(app, door, threads=4)
    threading.Thread(target=server.run, daemon=True).start()
    case.addCleanup(server.close)
    case.addCleanup(server.task_dispatcher.shutdown)


class UnixLink(http.client.HTTPConnection):
    def __init__(self, path: pathlib.Path) -> None:
        super().__init__("front")
        self.path = path

    def connect(self) -> None:
        """Connects to the page's Unix socket."""
        self.sock = socket.socket(socket.AF_UNIX)
        self.sock.settimeout(60)
        self.sock.connect(str(self.path))


class Served(unittest.TestCase):
    """The page on a socket, before a desk of its own."""

    def setUp(self) -> None:
        self.desk = self.enterContext(DeskProcess())
        self.desk.load()
        self.relay = Relay(self.desk.port)
        self.addCleanup(self.relay.close)
        folder = pathlib.Path(self.enterContext(tempfile.TemporaryDirectory()))
        self.path, knock = folder / "socket", folder / "knock"
        self.knocks = self.enterContext(socket.socket(socket.AF_UNIX, socket.SOCK_DGRAM))
        self.knocks.bind(str(knock))
        self.knocks.setblocking(False)
        self.conf: dict[str, Any] = {"house": "A <b> House", "help": "Ask.", "knock": str(knock), "notes": str(folder)}
        self.device: str | None = MAC
        self.head: dict[str, str] = {}      # of each request
        self.start_helper("a key")
        serve_during_test(self, lambda environ, start: self.app(environ, start), web.listening(str(self.path)))
        self.fields: dict[str, str] = {}    # of the last page, but for its number

    def start_helper(self, key: str) -> None:
        """Starts the page anew: nothing is left of what an earlier one knew."""
        self.front = Front(Desk(self.relay.port, timeout=5), self.conf, lambda _: self.device, key)
        self.app: web.Application = pages(self.front)

    def ask(self, method: str, path: str, **form: str) -> tuple[int, str, str]:
        """A page, or its form sent with the hidden fields of the last page."""
        form = {**self.fields, **form} if form else form
        link = UnixLink(self.path)
        link.request(method, path, urllib.parse.urlencode(form) if form else None, self.head)
        answer = link.getresponse()
        text = answer.read().decode()
        self.refresh = answer.getheader("Refresh", "")
        where, self.cookie = answer.getheader("Location", ""), answer.getheader("Set-Cookie", "").partition(";")[0]
        link.close()
        return answer.status, text, where

    def number(self, text: str) -> str:
        """The number of the form on this page; the signed device of its form is kept for the next request."""
        found = re.search(r'name="request" value="([A-Za-z0-9-]{1,36})"', text)
        assert found, text
        self.fields = dict(re.findall(r'name="(device|sign)" value="([^"]*)"', text))
        return found[1]

    def redeem(self, plan: str, batch: str) -> str:
        """Sells a code of the plan, and types it on the page. The code."""
        code, = self.desk.sell_codes(plan, batch)
        number = self.number(self.ask("GET", "/portal?add=1")[1])
        self.assertEqual(self.ask("POST", "/portal", code=code, request=number)[0], 303)
        return code


class Pages(Served):
    def test_a_device_without_an_address_of_this_network_reads_so(self) -> None:
        self.device = None
        self.assertIn("no address from this network", self.ask("GET", "/portal")[1])

    def test_a_device_that_comes_a_moment_later_is_found(self) -> None:
        found = [None, MAC]
        self.front.device_at = lambda _: found.pop(0)
        self.assertNotIn("no address from this network", self.ask("GET", "/portal")[1])

    def test_without_a_device_nothing_is_done(self) -> None:
        code, = self.desk.sell_codes("hour", "b1")
        number = self.number(self.ask("GET", "/portal?add=1")[1])
        self.device = None
        status, text, _ = self.ask("POST", "/portal", code=code, request=number)
        self.assertEqual((status, self.desk.voucher(code)["redeemed"]), (403, 0))
        self.assertIn("no address from this network", text)
        self.assertIn(f'value="{code}"', text)
        number = self.number(text)
        self.assertEqual(self.fields["device"], "")
        self.device = MAC       # the page of then names no device, so it is shown once more
        status, text, _ = self.ask("POST", "/portal", code=code, request=number)
        self.assertEqual((status, self.desk.voucher(code)["redeemed"]), (400, 0))
        self.assertEqual(self.ask("POST", "/portal", code=code, request=self.number(text))[0], 303)

    def test_a_form_is_for_the_device_that_its_page_showed(self) -> None:
        code, = self.desk.sell_codes("hour", "b1")
        number = self.number(self.ask("GET", "/portal?add=1")[1])
        shown, self.device = dict(self.fields), OTHER
        for _ in range(2):      # pressed again it is still not for the other one
            status, text, _ = self.ask("POST", "/portal", code=code, request=number)
            self.assertEqual((status, self.desk.voucher(code)["redeemed"]), (409, 0))
            self.assertIn("shown to another device", text)
            number = self.number(text)
            self.assertEqual(self.fields, shown)
            self.assertNotIn(OTHER, text)
            self.assertNotIn("online", text.replace("Go online", ""), "nothing is said of the other one")
        self.device = MAC
        self.assertEqual(self.ask("POST", "/portal", code=code, request=number)[0], 303)

    def test_a_form_that_no_page_showed_is_none(self) -> None:
        code, = self.desk.sell_codes("hour", "b1")
        number = self.number(self.ask("GET", "/portal?add=1")[1])
        sign, self.device = self.fields["sign"], OTHER
        for fields in ({"device": OTHER, "sign": sign}, {"device": OTHER, "sign": ""}, {"device": OTHER, "sign": "\u00fc"},
                       {"device": "", "sign": ""}):
            self.fields = fields
            status, text, _ = self.ask("POST", "/portal", code=code, request=number)
            self.assertEqual((status, self.desk.voucher(code)["redeemed"]), (400, 0), fields)
            self.assertIn("press the button once more", text)
        self.assertNotIn(sign, text)

    def test_a_page_outlives_the_helper_that_showed_it_and_no_other_key_signs_it(self) -> None:
        code, other = self.desk.sell_codes("gigabyte", "b1")[0], self.desk.sell_codes("gigabyte", "b2")[0]
        number = self.number(self.ask("GET", "/portal?add=1")[1])
        self.start_helper("a key")
        self.assertEqual(self.ask("POST", "/portal", code=code, request=number)[0], 303)
        self.start_helper("another key")
        self.assertEqual(self.ask("POST", "/portal", code=other, request=number + "1")[0], 400)

    def test_a_form_sent_twice_acts_once(self) -> None:
        code, = self.desk.sell_codes("gigabyte", "b1")
        number = self.number(self.ask("GET", "/portal?add=1")[1])
        answers = [self.ask("POST", "/portal", code=typed, request=number) for typed in (code, code.lower())]
        self.assertEqual([answer[::2] for answer in answers], [(303, "/portal?done=1&left=2")] * 2)
        self.assertEqual(self.desk.voucher(code)["redeemed"], 1)
        self.assertEqual(self.knocks.recv(9), b"r")
        self.assertIn("It can be used 2 more times.", self.ask("GET", "/portal?done=1&left=2")[1])

    def test_a_form_in_doubt_keeps_its_number_and_acts_once(self) -> None:
        code, = self.desk.sell_codes("gigabyte", "b1")
        number = self.number(self.ask("GET", "/portal?add=1")[1])
        self.relay.cuts = True      # the desk acts, and its answer is lost
        status, text, _ = self.ask("POST", "/portal", code=code, request=number)
        self.assertEqual((status, self.number(text)), (504, number))
        self.assertIn("press the button again", text)
        self.assertIn(f'value="{code}"', text)
        self.relay.cuts = False
        self.assertEqual(self.ask("POST", "/portal", code=code, request=number)[0], 303)
        self.assertEqual(self.desk.voucher(code)["redeemed"], 1)

    def test_a_code_takes_its_next_use_once_its_session_is_over(self) -> None:
        code, = self.desk.sell_codes("gigabyte", "b1")
        for session in (1, 2, 3):
            for _ in range(2):      # typed again while it is open: nothing more
                number = self.number(self.ask("GET", "/portal?add=1")[1])
                self.assertEqual(self.ask("POST", "/portal", code=code, request=number)[0], 303)
                self.assertEqual(self.desk.voucher(code)["redeemed"], session)
            self.desk.desk.request_json(Routes.CLOSE, body={"session": session})
        number = self.number(self.ask("GET", "/portal?add=1")[1])
        status, text, _ = self.ask("POST", "/portal", code=code, request=number)
        self.assertEqual(status, 409)
        self.assertIn("This code has been used already", text)

    def test_a_form_sent_again_after_its_session_is_over_acts_once(self) -> None:
        code, = self.desk.sell_codes("gigabyte", "b1")
        number = self.number(self.ask("GET", "/portal?add=1")[1])
        for _ in range(2):
            self.assertEqual(self.ask("POST", "/portal", code=code, request=number)[0], 303)
            if self.desk.gateway.request_json(Routes.SESSIONS)["sessions"]:
                self.desk.desk.request_json(Routes.CLOSE, body={"session": 1})
        self.assertEqual(self.desk.voucher(code)["redeemed"], 1)

    def test_a_form_in_doubt_acts_once_after_its_session_and_its_helper_are_gone(self) -> None:
        code, = self.desk.sell_codes("gigabyte", "b1")
        number = self.number(self.ask("GET", "/portal?add=1")[1])
        self.relay.cuts = True
        text = self.ask("POST", "/portal", code=code, request=number)[1]
        self.number(text)
        self.fields |= dict(re.findall(r'name="(sent)" value="([^"]*)"', text))
        self.relay.cuts = False
        self.desk.desk.request_json(Routes.CLOSE, body={"session": 1})
        self.start_helper("a key")
        self.assertEqual(self.ask("POST", "/portal", code=code, request=number)[0], 303)
        self.assertEqual(self.desk.voucher(code)["redeemed"], 1)

    def test_each_refusal_is_counted_by_its_word(self) -> None:
        path = self.path.with_name("refusals.json")
        self.front.counts = Counts(str(path))
        for code in ("2222-2222-2222", "2222-2222-2222", "x"):
            self.ask("POST", "/portal", code=code, request=self.number(self.ask("GET", "/portal?add=1")[1]))
        self.assertEqual(json.loads(path.read_text()), {"unknown_code": 2, "bad_code": 1})
        self.assertEqual(path.stat().st_mode & 0o777, 0o644)

    def test_a_request_that_never_came_to_the_desk_is_carried_out_at_the_second_time(self) -> None:
        code, = self.desk.sell_codes("gigabyte", "b1")
        number = self.number(self.ask("GET", "/portal?add=1")[1])
        self.relay.drops = True
        self.assertEqual(self.ask("POST", "/portal", code=code, request=number)[0], 504)
        self.relay.drops = False
        self.assertEqual(self.ask("POST", "/portal", code=code, request=number)[0], 303)
        self.assertEqual(self.desk.voucher(code)["redeemed"], 1)

    def test_a_refused_form_comes_back_with_another_number(self) -> None:
        number = self.number(self.ask("GET", "/portal?add=1")[1])
        for code, status, words in (("2222-2222-2222", 404, "We do not know this code"),
                                    ("x", 400, "1 of 16 signs"), ("DUX8-A3EQ-UBN8", 400, "no code of ours")):
            answer = self.ask("POST", "/portal", code=code, request=number)
            self.assertEqual(answer[0], status)
            self.assertIn(words, answer[1])
            self.assertNotEqual(self.number(answer[1]), number)

    def test_what_was_typed_comes_back_as_it_was_typed(self) -> None:
        code, = self.desk.sell_codes("hour", "b1")
        address = f"https://wifi.example/portal?code={code}"
        number = self.number(self.ask("GET", "/portal?add=1")[1])
        for typed, words in (("ｖｑｄｕ . wxf7.q3ET-gvq", "15 of 16 signs"), ("vqdu-wxf7-q3et-gvqo", "There is no O in a code"),
                             (address[:-3], "13 of 16 signs"), ("2222 2222 2222", "We do not know this code")):
            text = self.ask("POST", "/portal", code=typed, request=number)[1]
            self.assertIn(words, text)
            self.assertIn(f'id="code" name="code" value="{typed}"', text)
            number = self.number(text)
        self.assertEqual(self.ask("POST", "/portal", code=address, request=number)[0], 303)
        self.assertEqual(self.desk.voucher(code)["redeemed"], 1)

    def test_nothing_acts_without_a_good_number(self) -> None:
        code, = self.desk.sell_codes("hour", "b1")
        self.number(self.ask("GET", "/portal?add=1")[1])
        for number in ("", "a_1", "a" * 37):
            status, text, _ = self.ask("POST", "/portal", code=code, request=number)
            self.assertEqual(status, 400)
            self.assertIn("press the button once more", text)
        self.assertEqual(self.desk.voucher(code)["redeemed"], 0)

    def test_what_a_guest_writes_is_shown_as_words(self) -> None:
        for status, text, _ in (self.ask("GET", "/portal?code=%22%3E%3Cscript%3E"),
                                self.ask("POST", "/portal", code='"><script>', request="r1")):
            self.assertNotIn("<script>", text)
            self.assertIn('value="&#34;&gt;&lt;script&gt;"', text)
            self.assertIn("A &lt;b&gt; House", text)
        self.assertNotIn("Your code is good", self.ask("GET", "/portal?done=1&left=9")[1])     # it is not online

    def test_more_fields_than_a_form_has(self) -> None:
        many = "&".join(f"a{i}=1" for i in range(99))
        self.assertEqual(self.ask("GET", "/portal?" + many)[0], 200)
        self.assertEqual(self.ask("POST", "/portal", **{f"a{i}": "1" for i in range(99)})[0], 400)

    def test_the_state_in_words(self) -> None:
        time, data = self.desk.sell_codes("hour", "b1") + self.desk.sell_codes("gigabyte", "b2")
        for code, device, words in ((time, MAC, "59 minutes|1 hour"), (data, OTHER, "1.0 GB")):
            self.device = device
            self.assertIn("You are not online yet.", self.ask("GET", "/portal")[1])
            self.desk.desk.request_json(Routes.REDEEM, body={"code": code}, device=device)
            self.assertRegex(self.ask("GET", "/portal")[1], f"(?s)You are online.*({words})")
        self.relay.drops = True
        self.assertIn("We cannot ask our server just now", self.ask("GET", "/portal")[1])

    def test_a_page_that_says_what_is_left_renews_itself_and_has_no_field(self) -> None:
        """A field that is typed in would be emptied by it."""
        self.redeem("hour", "b1")
        text = self.ask("GET", "/portal?done=1&left=0&lang=de")[1]
        self.assertRegex(self.refresh, r"\A(3\d|4\d|5\d|60); url=/portal\?lang=de\Z")
        self.assertNotIn('name="code"', text)
        self.assertIn('<a href="/portal?add=1&amp;lang=de">', text)
        for path in ("/portal?add=1", "/portal?code=2222"):
            self.assertIn('name="code"', self.ask("GET", path)[1])
            self.assertEqual(self.refresh, "")
        number = self.number(self.ask("GET", "/portal?add=1")[1])
        self.assertIn("We do not know this code", self.ask("POST", "/portal", code="2222-2222-2222", request=number)[1])
        self.assertEqual(self.refresh, "")
        self.device = OTHER
        self.assertIn('name="code"', self.ask("GET", "/portal")[1], "a device that is not online")
        self.assertEqual(self.refresh, "")

    def test_the_page_is_amber_when_the_end_is_near(self) -> None:
        self.redeem("gigabyte", "b1")
        text = self.ask("GET", "/portal")[1]
        self.assertEqual((text.count('class="good"'), text.count('class="soon"')), (1, 0))
        self.desk.gateway.request_json(Routes.REPORT, body={"session": 1, "bytes": 960_000_000})
        self.start_helper("a key")      # the page knows it by the device
        text = self.ask("GET", "/portal")[1]
        self.assertEqual((text.count('class="good"'), text.count('class="soon"')), (0, 1))
        self.assertIn("Little of your data is left.", text)
        self.assertNotIn("You may close this page now.", text)

    def test_the_end_is_told_in_the_venues_zone(self) -> None:
        self.addCleanup(use_zone, "UTC0")
        self.conf["zone"] = "XXX-5"
        self.start_helper("a key")
        self.redeem("hour", "b1")
        ends = {time.strftime("%H:%M", time.gmtime(time.time() + 6 * 3600 - late)) for late in range(30)}
        found = re.search("<small>until (?:.* )?([0-9:]{5})</small>", self.ask("GET", "/portal")[1])
        self.assertIn(found and found[1], ends)

    def test_one_message_at_a_time(self) -> None:
        code, = self.desk.sell_codes("hour", "b1")
        number = self.number(self.ask("GET", "/portal")[1])
        self.relay.drops = True
        text = self.ask("POST", "/portal", code=code, request=number)[1]
        self.assertEqual(text.count('role="alert"'), 1)
        self.assertIn("press the button again", text)
        self.assertNotIn("You are not online", text)
        self.assertNotIn("We cannot ask our server just now", text)

    def test_a_server_that_waits_for_a_clerk_is_said_to_wait(self) -> None:
        notes = Notes(self.conf["notes"])
        code, = self.desk.sell_codes("hour", "b1")
        number = self.number(self.ask("GET", "/portal")[1])
        self.relay.drops = True
        for state, words in (("serves", "We cannot ask our server just now"), ("waits", "Our server waits until somebody at the counter")):
            notes.write("state", **{"is": state})
            self.assertIn(words, self.ask("GET", "/portal")[1])
        self.assertEqual((notes.folder / "state").stat().st_mode & 0o777, 0o644, "this page may read it")
        status, text, _ = self.ask("POST", "/portal", code=code, request=number)
        self.assertEqual((status, text.count('role="alert"'), self.number(text)), (504, 1, number))
        self.assertIn("Our server waits until somebody at the counter", text)

    # Languages

    def test_a_guest_reads_the_language_of_the_browser(self) -> None:
        for accepted, tag, way, words in (("de-AT,de;q=0.9,en;q=0.8", "de", "ltr", "Sie sind noch nicht online."),
                                          ("ar", "ar", "rtl", "لست متصلًا بعد."), ("zh-CN,zh;q=0.9", "zh-Hans", "ltr", "您尚未上网。"),
                                          ("qaa, xx;q=0.1", "en", "ltr", "You are not online yet."),
                                          ("zh-TW", "zh-Hant", "ltr", "您尚未連線上網。")):
            self.head["Accept-Language"] = accepted
            text = self.ask("GET", "/portal")[1]
            self.assertIn(f'<html lang="{tag}" dir="{way}">', text)
            self.assertIn(words, text)

    def test_a_language_that_was_chosen_on_the_page_stays(self) -> None:
        self.head["Accept-Language"] = "de"
        code, = self.desk.sell_codes("gigabyte", "b1")
        text = self.ask("GET", "/portal")[1]
        self.assertIn('<a href="/portal?lang=ja" lang="ja" hreflang="ja">日本語</a>', text)
        text = self.ask("GET", "/portal?lang=ja")[1]
        self.assertIn('<html lang="ja" dir="ltr">', text)
        number = self.number(text)
        self.assertIn('<input type="hidden" name="lang" value="ja">', text)
        text = self.ask("POST", "/portal", code="DUX8-A3EQ-UBN8", request=number, lang="ja")[1]
        self.assertIn("当店のコードではありません", text)
        where = self.ask("POST", "/portal", code=code, request=self.number(text), lang="ja")[2]
        self.assertEqual(where, "/portal?done=1&left=2&lang=ja")
        self.assertIn("コードは有効です。 あと2回使えます。", self.ask("GET", where)[1])
        self.assertIn('<html lang="de"', self.ask("GET", "/portal?lang=qaa")[1], "one that there is not")

    def test_a_choice_is_kept_for_a_page_without_it(self) -> None:
        self.head["Accept-Language"] = "de"
        self.ask("GET", "/portal")
        self.assertNotIn("portal_lang", self.cookie, "who chose nothing gets no cookie")
        self.ask("GET", "/portal?lang=ja")
        self.assertEqual(self.cookie, "portal_lang=ja")
        for cookie, path, tag in (("portal_lang=ja", "/portal", "ja"), ("portal_lang=ja", "/portal?lang=ko", "ko"), ("portal_lang=qaa", "/portal", "de")):
            self.head["Cookie"] = cookie
            self.assertIn(f'<html lang="{tag}"', self.ask("GET", path)[1], (cookie, path))

    def test_the_heading_is_in_the_guests_language(self) -> None:
        self.assertIn("<h1><bdi>A &lt;b&gt; House</bdi> WLAN</h1>", self.ask("GET", "/portal?lang=de")[1])

    def test_where_to_ask_is_said_in_the_venues_words_or_in_the_guests_language(self) -> None:
        self.assertIn('<p dir="auto">Ask.</p>', self.ask("GET", "/portal?lang=de")[1])
        self.conf["help"] = ""
        text = self.ask("GET", "/portal?lang=de")[1]
        self.assertIn("Noch keinen Code, oder er funktioniert nicht? Bitte fragen Sie am Empfang.", text)
        self.assertNotIn("Please ask at the counter", text)

    def test_amounts_are_written_as_in_the_language(self) -> None:
        self.redeem("gigabyte", "b1")
        for tag, words in (("en", "1.0 GB"), ("fr", "1,0\u202fGo|1,0.Go"), ("uk", "1,0.ГБ")):
            self.assertRegex(self.ask("GET", f"/portal?lang={tag}")[1], words)

    # What the page says of the last session of the device

    def test_the_page_shows_the_number_of_the_devices_session_in_any_browser(self) -> None:
        """No cookie has it, and no other device reads it."""
        self.assertNotIn("Session number", self.ask("GET", "/portal")[1])
        self.redeem("hour", "b1")
        self.assertEqual(self.cookie, "")
        self.assertIn("<dt>Session number</dt><dd>1</dd>", self.ask("GET", "/portal")[1])
        self.device = OTHER
        self.assertNotIn("Session number", self.ask("GET", "/portal")[1])
        self.redeem("hour", "b2")
        self.assertIn("<dt>Session number</dt><dd>2</dd>", self.ask("GET", "/portal")[1])

    def test_what_has_ended_is_said_with_why_and_when(self) -> None:
        number = "<dt>Session number</dt><dd>1</dd>"
        ends: list[tuple[dict[str, Any], str, str]] = [
            ({"ended": "time", "at": 46_800}, "Your time has ended.", "<dt>Ended</dt><dd>January 1, 1970 13:00</dd>"),
            ({"ended": "closed", "at": 46_860}, "Your session was closed.", "<dt>Ended</dt><dd>January 1, 1970 13:01</dd>"),
            ({"ended": "bytes"}, "Your data is used up.", "")]
        for end, why, at in ends:
            session = {"opened": 1000, "plan": "hour", "session": 1, "used": 7, **end}
            self.front.desk = mock.Mock(request_json=lambda route, **_: {Routes.CAPTIVE: {"captive": True}, Routes.OWN_SESSION: session}[route])
            text = self.ask("GET", "/portal")[1]
            for words in (f"<p>{why} To go online again, type another code.</p>", at, number):
                self.assertIn(words, text)
            self.assertEqual(text.count("<dt>Ended</dt>"), bool(at))
            self.assertNotIn("You are not online yet.", text)

    def test_what_the_server_says_of_an_end_is_on_the_page(self) -> None:
        self.redeem("gigabyte", "b1")
        self.desk.gateway.request_json(Routes.REPORT, body={"session": 1, "bytes": 1_000_000_000})
        self.assertIn("Your data is used up.", self.ask("GET", "/portal")[1])
        self.assertNotIn("You have ended your session.", self.ask("GET", "/portal?ended=1")[1])
        self.redeem("hour", "b2")
        self.desk.desk.request_json(Routes.CLOSE, body={"session": 2})
        text = self.ask("GET", "/portal")[1]
        self.assertIn("Your session was closed.", text)
        self.assertRegex(text, "<dt>Ended</dt><dd>[0-9]{2}:[0-9]{2}</dd>")
        self.assertIn("You have ended your session.", self.ask("GET", "/portal?ended=1")[1])
        self.device = OTHER
        self.assertIn("You are not online yet.", self.ask("GET", "/portal?ended=1")[1])
        self.assertNotIn("Session number", self.ask("GET", "/portal")[1])

    def test_a_refused_extra_code_is_not_red_and_green_at_once(self) -> None:
        self.redeem("hour", "b1")
        text = self.ask("GET", "/portal?add=1")[1]
        self.assertIn("You may close this page now.", text)
        text = self.ask("POST", "/portal", code="2222-2222-2222", request=self.number(text))[1]
        self.assertEqual((text.count('class="bad"'), text.count('class="good"')), (1, 0))
        self.assertIn('aria-invalid="true" aria-describedby="bad"', text)
        self.assertIn('<p class="bad" id="bad" role="alert">', text)
        self.assertIn("<title>That did not work", text)


class Started(unittest.TestCase):
    def test_a_start_is_over_with_the_first_answer_however_long_it_takes(self) -> None:
        """What systemd ends is a page that hangs, not one whose start is slow."""
        folder = pathlib.Path(self.enterContext(tempfile.TemporaryDirectory()))
        notices = self.enterContext(socket.socket(socket.AF_UNIX, socket.SOCK_DGRAM))
        notices.bind(str(folder / "notify"))
        self.enterContext(mock.patch.dict(os.environ, NOTIFY_SOCKET=str(folder / "notify")))
        self.enterContext(mock.patch.object(serving, "ALIVE", 0.1))
        door = web.listening(str(folder / "socket"))
        threading.Thread(target=serving.watch, args=(door.getsockname(),), daemon=True).start()
        notices.settimeout(0.5)
        self.assertRaises(TimeoutError, notices.recv, 99)
        serve_during_test(self, web.pages("none", folder), door)
        notices.settimeout(20)
        self.assertEqual(notices.recv(99), b"READY=1\nWATCHDOG=1")
        for name in ("front", "counter", "lookup@"):
            unit = (FIELD / f"units/portal-{name}.service").read_text()
            self.assertIn("\nType=notify\nWatchdogSec=20\n", unit)
            self.assertIn("\nTimeoutStartSec=10min\n", unit)


class Sources(unittest.TestCase):
    def test_pages_are_templates_alone(self) -> None:
        """No HTML in Python, and neither of the modules that would call for it."""
        for path in (path for part in ("front", "counter", "lib") for path in (FIELD / part).glob("*.py")):
            for number, line in enumerate(path.read_text().splitlines(), 1):
                self.assertNotRegex(line, r"http\.server|html\.escape|</?[a-z]+[ >/]|&lt;", f"{path.name}:{number}")


if __name__ == "__main__":
    unittest.main()
