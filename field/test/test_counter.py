"""The counter's page over a desk that runs beside it."""

from __future__ import annotations

import contextlib
import io
import json
import os
import pathlib
import re
import tempfile
import time
import unittest
import urllib.parse
from typing import Any
from unittest import mock

from desk_process import FIELD, Desk, DeskProcess, NoAnswer, Relay, Routes

from portal_field.counter.clerk import Counter
from portal_field.counter.journal import Journal
from portal_field.counter.page import pages
from portal_field.lib import refusals, web
from portal_field.lib.machine_time import Notes, origin as clock_origin
from test_front import UnixLink, serve_during_test

from portal_field.counter.sheet import wifi_text
from portal_field.lib.tries import Tries


class AtCounter(unittest.TestCase):
    """The counter's page on a socket, over a desk of its own."""

    def setUp(self) -> None:
        self.addCleanup(time.tzset)
        self.enterContext(mock.patch.dict(os.environ, TZ="UTC0"))      # the desk's
        time.tzset()
        self.desk = self.enterContext(DeskProcess())
        self.relay = Relay(self.desk.port)
        self.addCleanup(self.relay.close)
        self.folder = pathlib.Path(self.enterContext(tempfile.TemporaryDirectory()))
        self.path = self.folder / "socket"
        conf: dict[str, Any] = {"house": "House", "plans": str(FIELD / "settings/plans.toml"),
                                "portal_url": "https://wifi.example/portal", "snapshot": str(self.folder / "sessions.json"),
                                "notes": str(self.folder / "notes")}
        self.conf = conf
        (self.folder / "notes").mkdir()
        self.notes = Notes(conf["notes"])
        self.journal = Journal(self.folder / "journal.db")
        self.counter = Counter(Desk(self.relay.port, "desk-token"), conf, self.journal)
        self.counter.load_plans()
        serve_during_test(self, pages(self.counter), web.listening(str(self.path)))

    def ask(self, path: str, origin: str | None = "https://counter.example", head: Any = None,
            **form: Any) -> tuple[int, str]:
        link = UnixLink(self.path)
        fields = {"Host": "counter.example", **({"Origin": origin} if origin else {}), **(head or {})}
        link.request("POST" if form else "GET", path, urllib.parse.urlencode(form) if form else None, fields)
        answer = link.getresponse()
        text = answer.read().decode()
        link.close()
        return answer.status, text

    def see(self, path: str, head: Any = None) -> tuple[int, str]:
        """A page as a clerk comes to it: the code of its query is typed or scanned, and stands in no address."""
        name, _, query = path.partition("?")
        fields = dict(urllib.parse.parse_qsl(query))
        place = self.place_of("/voucher", head, **fields) if "code" in fields else path
        return self.ask(place.replace("/voucher?", f"{name}?"), head=head)

    def place_of(self, path: str, head: Any = None, **form: Any) -> str:
        """Where the answer to a form leads to, or nothing."""
        link = UnixLink(self.path)
        fields = {"Host": "counter.example", "Origin": "https://counter.example", **(head or {})}
        link.request("POST", path, urllib.parse.urlencode(form), fields)
        answer = link.getresponse()
        link.close()
        return str(answer.headers.get("Location") or "") if answer.status == 303 else ""


class Pages(AtCounter):
    def test_the_first_page_offers_the_plans_and_numbered_forms(self) -> None:
        status, text = self.ask("/")
        self.assertEqual(status, 200)
        self.assertIn('<option value="hour">hour: 1 hour, 3.00</option>', text)
        numbers = re.findall(r'name="request" value="([A-Za-z0-9-]{1,36})"', text)
        self.assertEqual((len(numbers), len(set(numbers))), (1, 1))
        self.assertEqual(re.findall('method="post" action="/([a-z-]+)"', text), ["voucher", "now"])
        self.assertEqual(re.findall('method="post" action="/([a-z-]+)"', self.ask("/vouchers")[1]), ["issue"])

    def test_a_day_at_the_counter(self) -> None:
        for plan, result in (("gigabyte", "Batch b1: 2 codes, good until "),
                             ("hour", "A batch of this name was issued already.")):
            form: dict[str, Any] = {"batch": "b1", "plan": plan, "count": "2", "request": str(time.monotonic_ns())}
            self.assertIn(result, self.ask("/issue", **form)[1])
        code = self.desk.desk.request(Routes.PRINT, "b1").decode().splitlines()[1].partition(",")[0]
        day = time.strftime("%Y-%m-%d", time.gmtime())
        for path, form, words in (
                ("/sell", {"code": code}, ("Sold: " + code, "Take 5.00")),
                ("/sell", {"code": code}, ("Do not take money twice",)),
                ("/refund", {"code": code}, ("Give back 5.00",)),
                ("/close", {"session": "1"}, ("There never was a session of this number.",)),
                ("/close", {"session": "x"}, ("The request was not understood.",))):
            text = self.ask(path, **form, request=str(time.monotonic_ns()))[1]
            for word in words:
                self.assertIn(word, text)
        for page, words in ((f"/voucher?code={code.replace('-', '+')}", ("gigabyte", "0 of 3", "5.00")),
                            ("/voucher?code=22A2", ("No voucher has a code that begins so.",)), ("/voucher?code=22A", ("No such code can exist",)), ("/voucher", ("Scan or type the code again",)),
                            (f"/takings?from={day}&to={day}", ('<td data-label="In the drawer"><b>0.00</b></td>', '<td data-label="Money in">5.00</td>')),
                            (f"/takings?from={day}&to=x", ("not understood",))):
            text = self.see(page)[1]
            for word in words:
                self.assertIn(word, text, page)

    def test_a_form_sent_twice_acts_once(self) -> None:
        code, = self.desk.issue_codes("hour", "b1")
        texts = [self.ask("/sell", code=code, request="s1") for _ in range(2)]
        self.assertEqual([(status, "Take 3.00" in text, "Take nothing" in text) for status, text in texts],
                         [(200, True, False), (200, False, True)])
        text = self.ask("/sell", code="2222-2222-2222", request="s1")[1]
        self.assertIn("This form was sent before with other words", text)

    def test_a_form_in_doubt_comes_back_to_be_sent_again(self) -> None:
        code, = self.desk.issue_codes("hour", "b1")
        self.relay.cuts = True
        status, text = self.ask("/sell", code=code, request="s1")
        self.assertEqual(status, 504)
        self.assertIn('<input type="hidden" name="request" value="s1">', text)
        self.assertIn(f'<input type="hidden" name="code" value="{code}">', text)
        self.assertIn("Send it again", text)
        self.relay.cuts = False
        self.assertIn("Take 3.00", self.ask("/sell", code=code, request="s1")[1])
        self.assertIn("sold before", self.ask("/sell", code=code, request="s2")[1])

    def test_no_other_site_sends_forms(self) -> None:
        code, = self.desk.issue_codes("hour", "b1")
        for origin in ("https://evil.example", "null", None, "https://counter.example.evil"):
            self.assertEqual(self.ask("/sell", origin, code=code, request="s1")[0], 403, origin)
        for number in ("", "a_1", "a" * 37):
            self.assertEqual(self.ask("/sell", code=code, request=number)[0], 400, number)
        self.assertIsNone(self.desk.voucher(code)["sold"])

    def test_a_code_is_looked_up_by_a_form_and_stands_in_no_address(self) -> None:
        code, = self.desk.sell_codes("hour", "b1")
        for typed in (code, f"https://wifi.example/portal?code={code}"):
            place = self.place_of("/voucher", code=typed)
            self.assertRegex(place, r"\A/voucher\?look=[0-9a-f]{32}\Z")
            for _ in range(2):      # as by Back, and by a reload
                status, text = self.ask(place)
                self.assertEqual((status, f"<title>{code} " in text, "Refund …" in text), (200, True, True))
        self.assertEqual(self.ask(place.replace("voucher", "refund"))[0], 200)
        self.assertNotIn(code, " ".join(re.findall(' (?:href|action|src)="([^"]*)"', text)))
        self.assertEqual(self.ask("/voucher", code=code, origin="https://evil.example")[0], 403)

    def test_an_address_with_a_code_looks_nothing_up_and_leads_to_one_without(self) -> None:
        """As an old bookmark."""
        code, = self.desk.sell_codes("hour", "b1")
        asked: list[tuple[Any, ...]] = []
        self.enterContext(mock.patch.object(self.counter.desk, "request_json", lambda *words, **_: asked.append(words)))
        for path, place in (("/voucher", "/voucher"), ("/refund", "/voucher"), ("/next", "/")):
            link = UnixLink(self.path)
            link.request("GET", f"{path}?code={code}", headers={"Host": "counter.example"})
            answer = link.getresponse()
            self.assertEqual((answer.status, answer.headers["Location"], code in answer.read().decode()), (303, place, False))
            link.close()
        for path in ("/voucher", "/voucher?look=0", "/refund?look=0", "/refund"):
            status, text = self.ask(path)
            self.assertEqual((status, "Scan or type the code again" in text), (404, True), path)
        self.assertEqual(asked, [])

    def test_what_is_kept_of_look_ups_is_bounded(self) -> None:
        looks, self.counter.looks.MOST = self.counter.looks, 3
        numbers = [looks.keep(f"code {i}") for i in range(5)]
        self.assertEqual([looks.code(number) for number in numbers], ["", "", "code 2", "code 3", "code 4"])

    def test_a_page_says_who_is_there(self) -> None:
        anna = {"X-User": "anna<b>"}
        for path in ("/", "/vouchers", "/sessions", "/money", "/venue", "/batches", "/cash-up", "/nothing"):
            text = self.ask(path, head=anna)[1]
            self.assertIn("You are anna&lt;b&gt;.", text, path)
            self.assertLess(text.index("You are"), text.index("<h2>") if "<h2>" in text else len(text))

    def test_a_form_comes_by_the_scheme_of_the_page(self) -> None:
        """nginx says by which one it is served: TLS at a venue, none where somebody tries the page without."""
        for i, (scheme, host, origin, status) in enumerate((
                ("https", "counter.example", "http://counter.example", 403), ("https", "counter.example", "https://counter.example", 200),
                ("http", "counter.example", "https://counter.example", 403), ("http", "counter.example:80", "http://counter.example", 200),
                ("http", "counter.example:443", "http://counter.example", 403), ("https", "counter.example:80", "https://counter.example", 403),
                (None, "counter.example", "http://counter.example", 403), ("gopher", "counter.example", "//counter.example", 403))):
            with self.subTest(scheme=scheme, host=host, origin=origin):
                code, = self.desk.issue_codes("hour", f"b{i}")
                head = {"Host": host, **({"X-Scheme": scheme} if scheme else {})}
                self.assertEqual(self.ask("/sell", origin, head, code=code, request=f"s{i}")[0], status)
                self.assertEqual(self.desk.voucher(code)["sold"] is not None, status == 200)

    def test_a_site_is_its_name_and_its_port(self) -> None:
        ours = "https://counter.example"
        for i, (host, origin, status) in enumerate((
                ("counter.example:8444", ours + ":8444", 200), ("counter.example:443", ours, 200),
                ("counter.example", ours, 200), ("counter.example:8444", ours, 403),
                ("counter.example", ours + ":8444", 403), ("counter.example:8444", ours + ":8445", 403),
                ("other.example", ours, 403), ("counter.example:x", ours, 403), ("counter.example:99999", ours, 403),
                ("", "null", 403), (":443", "null", 403), ("counter.example", "https://[", 403))):
            with self.subTest(host=host, origin=origin):
                code, = self.desk.issue_codes("hour", f"b{i}")
                self.assertEqual(self.ask("/sell", origin, {"Host": host}, code=code, request=f"s{i}")[0], status)
                self.assertEqual(self.desk.voucher(code)["sold"] is not None, status == 200)

    def test_the_log_names_who_sold_of_which_batch_and_no_code(self) -> None:
        code, = self.desk.issue_codes("hour", "b1")
        log, head = io.StringIO(), {"X-User": "anna", "X-Real-IP": "10.88.0.2"}
        with contextlib.redirect_stderr(log):
            for number in ("s1", "s2"):
                self.ask("/sell", head=head, code=code, request=number)
            self.ask("/sell", head=head, code="x\ny" + "z" * 99, request="s3")
            self.ask("/sell", head=head, code=code, request="s1")
            self.ask("/issue", head=head, batch="x\ny" + "2" * 99, plan="hour", count="1", request="s4")
        lines = log.getvalue().splitlines()
        self.assertEqual([line.removeprefix("counter: anna at 10.88.0.2: ") for line in lines[:4]], [
            "sell b1, hour: done", "sell b1, hour: sold_already", "sell a code: bad_code", "sell b1, hour: done before"])
        self.assertEqual((len(lines), lines[4][:47], len(lines[4]) < 120),
                         (5, "counter: anna at 10.88.0.2: issue 'x\\ny22222222", True))

    def test_what_may_be_a_code_is_in_no_log_whatever_field_it_is_typed_into(self) -> None:
        old, new = "DUX8-A3EQ-UBN7", self.desk.issue_codes("hour", "b1")[0]
        scans = [text for code in (old, new) for text in (
            code, code.lower(), code.replace("-", ""), code.replace("-", " "), f"https://wifi.example/portal?code={code}")]
        log = io.StringIO()
        with contextlib.redirect_stderr(log):
            for i, scan in enumerate(scans):
                for action in ("sell", "refund", "close", "issue", "now", "sell-batch"):
                    self.ask(f"/{action}", request=f"{action}-{i}", code=scan, batch=scan, plan=scan, count=scan, session=scan)
        plain = re.sub("[^0-9A-Z]", "", log.getvalue().upper())
        for code in (old, new):
            self.assertNotIn(code.replace("-", ""), plain)
        self.assertIn("(a code)", log.getvalue())

    def test_what_was_typed_is_shown_as_words(self) -> None:
        self.relay.drops = True
        text = self.ask("/sell", code='"><script>', request="s1", **{"<script>": "x"})[1]
        self.assertNotIn("<script>", text)
        self.assertEqual(text.count("&lt;script&gt;"), 4)

    def test_open_sessions_come_from_the_gateways_list(self) -> None:
        self.assertIn("There is no list from the gateway", self.ask("/")[1])
        row = {"device": "02:00:00:00:00:01", "session": 7, "seconds-remaining": 3599, "used": 12345}
        for age, words in ((0, ("59 minutes", "12.3 kB", 'value="7"')), (60, ("1 minute old", "nobody passes"))):
            result = {"at": int(time.time()) - age, "sessions": [row]}
            (self.folder / "sessions.json").write_text(json.dumps(result))
            for word in words:
                self.assertIn(word, self.ask("/sessions")[1])

    def test_without_a_server_the_list_is_no_fault_of_the_gateway(self) -> None:
        alarm, later = "There is no list from the gateway", "The list comes once the server runs."
        row = {"device": "02:00:00:00:00:01", "session": 7, "used": 5}
        old = json.dumps({"at": int(time.time()) - 600, "sessions": [row]})
        now = time.time_ns()
        states: tuple[tuple[dict[str, Any], bool], ...] = (
            ({"is": "waits", "why": "x", "last": None}, True), ({"is": "failed", "why": "x"}, True),
            ({"is": "serves", "since": now}, True), ({"is": "serves", "since": now - 20 * 10**9}, False))
        for state, starts in states:
            self.notes.write("state", **state)
            for result, fault in (("", alarm), (old, "This list is 10 minutes old")):
                (self.folder / "sessions.json").write_text(result)
                text = self.ask("/")[1]
                self.assertEqual((later in text, fault in text), (starts, not starts), (state, result))
        self.notes.write("state", **{"is": "serves", "since": now})
        (self.folder / "sessions.json").write_text(json.dumps({"at": int(time.time()), "sessions": [row]}))
        self.assertIn("02:00:00:00:00:01", self.ask("/sessions")[1], "a list that is there is shown")

    def test_open_sessions_say_how_old_a_count_is(self) -> None:
        now = int(time.time())
        row = {"device": "02:00:00:00:00:01", "session": 7, "used": 12345}
        cases: tuple[tuple[dict[str, Any], str], ...] = (
            ({"reported": 11000, "reported-at": now - 245}, "11.0 kB, 4 minutes ago"),
            ({"reported": 11000, "reported-at": now + 9}, "11.0 kB, 0 seconds ago"),
            ({}, "not since the gateway started"))
        for more, word in cases:
            (self.folder / "sessions.json").write_text(json.dumps({"at": now - 3, "sessions": [{**row, **more}]}))
            for part in (word, "12.3 kB", "Used: as of " + time.strftime("%H:%M:%S", time.localtime(now - 3))):
                self.assertIn(part, self.ask("/sessions")[1])

    def test_plans_are_loaded_when_the_desk_comes(self) -> None:
        self.relay.drops = True
        self.counter.load_plans()
        self.assertIn("The plans file was not loaded", self.ask("/")[1])
        self.relay.drops = False
        self.assertNotIn("not loaded", self.ask("/")[1])

    def test_a_database_takes_the_same_plans_once_and_another_database_takes_them_again(self) -> None:
        """As at each start of the counter's page, and of the server over a database that was restored."""
        asked: list[tuple[str, str | None]] = []
        request_json = self.counter.desk.request_json

        def heard(route: Any, **more: Any) -> Any:
            asked.append((route.path, more.get("number")))
            return request_json(route, **more)

        self.enterContext(mock.patch.object(self.counter.desk, "request_json", heard))
        self.notes.write("state", **{"is": "serves", "since": 1})
        for _ in range(3):
            self.ask("/")
        self.assertEqual(len(asked), 1, "for each start of the server once")
        plans = self.folder / "plans.toml"
        plans.write_text((FIELD / "settings/plans.toml").read_text() + "# more\n")
        self.counter.conf["plans"] = str(plans)
        self.notes.write("state", **{"is": "serves", "since": 2})
        self.ask("/")
        numbers = [number for _, number in asked]
        self.assertEqual((len(asked), len(set(numbers)), None in numbers), (2, 2, False))
        self.assertTrue(all(number and re.fullmatch("plans-[0-9a-f]{30}", number) for number in numbers))
        asked.clear()
        self.notes.write("state", **{"is": "serves", "since": 3})
        self.ask("/issue", batch="b1", plan="hour", count="1", request="i1")
        self.assertEqual([path for path, _ in asked], ["/desk/plans", "/desk/batches"], "before anything is done")

    def test_a_server_that_waits_for_the_time_gets_a_clerks_word(self) -> None:
        self.notes.write("state", **{"is": "waits", "why": "it is before the last entry", "last": 1_764_000_000})
        self.relay.drops = True
        text = self.ask("/")[1]
        year = time.strftime("%Y-%m-%d", time.localtime())
        last = time.strftime("%Y-%m-%d %H:%M", time.localtime(1_764_000_000))
        for word in ("The server waits", "it is before the last entry", last, year, "The time is right"):
            self.assertIn(word, text)
        form = text.partition("The time is right")[0]
        fields = dict(re.findall(r'name="(request|shown|booted)" value="([^"]*)"', form))
        log = io.StringIO()
        with contextlib.redirect_stderr(log):
            result = [self.ask("/time", head={"X-User": "anna"}, **fields) for _ in range(2)]
        self.assertEqual([(status, "The server starts now." in text) for status, text in result], [(200, True)] * 2)
        self.assertLess(abs(self.notes.read("word")["origin"] - clock_origin()), 2)
        self.assertRegex(log.getvalue(), rf"counter: anna at \?: time \w+, {year} [0-9:]+, [0-9]+: done")

    def test_a_word_for_a_clock_that_was_set_since_is_not_passed_on(self) -> None:
        self.notes.write("state", **{"is": "waits", "why": "x", "last": None})
        text = self.ask("/time", request="t1", booted=str(round(clock_origin()) - 3600))[1]
        self.assertIn("was set since this page was shown", text)
        status = self.ask("/time", request="t2", booted="x")[0]
        self.assertEqual((status, self.notes.read("word")), (400, {}))

    def test_a_word_for_a_server_that_runs_is_not_kept(self) -> None:
        self.notes.write("state", **{"is": "serves", "since": 1})
        text = self.ask("/time", request="t1", shown="x", booted=str(round(clock_origin())))[1]
        self.assertIn("does not wait", text)
        self.assertEqual(self.notes.read("word"), {})

    def test_a_server_that_cannot_start_is_named(self) -> None:
        self.notes.write("state", **{"is": "failed", "why": "its settings are not valid"})
        text = self.ask("/")[1]
        self.assertIn("The server does not start.<br>its settings are not valid", text)

    def test_a_plans_file_that_does_not_read_is_named(self) -> None:
        for text in (b"[[plan]", b"\xff", b"plan = 1", b'[[plan]]\nid = "x"\nprice = "y"\n', b""):
            (self.folder / "plans.toml").write_bytes(text)
            self.counter.conf["plans"] = str(self.folder / "plans.toml")
            self.counter.load_plans()
            self.assertIn("The plans file is refused as a whole.", self.ask("/")[1], text)

    def test_a_question_without_an_answer_is_no_command_in_doubt(self) -> None:
        self.relay.drops = True
        status, text = self.see("/voucher?code=2222-2222-2222-2222")
        self.assertEqual((status, "in doubt" in text), (504, False))

    # The flow of the counter

    def hidden(self, text: str, action: str) -> dict[str, str]:
        """The hidden fields of the page's form that acts so."""
        form = text.partition(f'<form method="post" action="/{action}">')[2].partition("</form>")[0]
        return dict(re.findall(r'<input type="hidden" name="([^"]*)" value="([^"]*)">', form))

    def test_a_sale_by_scanner_is_a_scan_and_enter(self) -> None:
        code, other = self.desk.issue_codes("hour", "b1", 2)
        for scan in (code, code.lower(), f"https://wifi.example/portal?code={code}", f"https://x/portal?lang=de&code={code}"):
            text = self.see("/voucher?" + urllib.parse.urlencode({"code": scan}))[1]
            self.assertIn(f"<title>{code} ", text)
            self.assertIn("Sell for 3.00", text)
            self.assertEqual(text.count("autofocus"), 1)
        fields = self.hidden(text, "sell")
        self.assertEqual(fields["code"], code)
        status, _ = self.ask("/sell", next=other, **fields)     # another code was scanned instead of Enter
        self.assertEqual((status, self.desk.voucher(code)["sold"], self.desk.voucher(other)["sold"]), (303, None, None))
        text = self.ask("/sell", next="", **fields)[1]
        self.assertIn("Take 3.00", text)
        self.assertIsNotNone(self.desk.voucher(code)["sold"])
        self.assertIn('id="code" name="code" maxlength="200" autocomplete="off" spellcheck="false" dir="ltr" autofocus', text)
        self.assertIn(f"<title>Sold: {code}. Take 3.00.", text)

    def test_what_can_be_done_with_a_voucher(self) -> None:
        code, = self.desk.issue_codes("hour", "b1")
        for done, there, away in ((None, "Sell for", "Refund …"), (Routes.SELL, "Refund …", "Sell for"),
                                  (Routes.REFUND, "Nothing can be done", "Sell for")):
            if done:
                self.desk.desk.request_json(done, body={"code": code})
            text = self.see(f"/voucher?code={code}")[1]
            self.assertIn(there, text)
            self.assertNotIn(away, text)
            self.assertEqual(text.count("autofocus"), 1)

    def test_a_refusal_keeps_and_names_the_code(self) -> None:
        code, = self.desk.sell_codes("hour", "b1")
        cases: tuple[tuple[str, dict[str, Any]], ...] = (
            ("/sell", {"code": code, "request": "s1"}), ("/voucher?code=22A2", {}))
        for path, form in cases:
            typed = code if form else "22A2"
            text = (self.ask(path, **form) if form else self.see(path))[1]
            self.assertIn(f'role="alert">{typed}:<br>', text)
            self.assertRegex(text, rf'id="code" [^>]*autofocus\n value="{typed}" aria-invalid="true" aria-describedby="told"')

    def test_a_scan_beside_a_code_that_was_kept_is_the_scanned_one(self) -> None:
        code, = self.desk.issue_codes("hour", "b1")
        address = f"https://wifi.example/portal?code={code}"
        half, sign = code[:9], "3" if code[0] != "3" else "4"
        for kept, typed in (("22A2", code + "22A2"), ("22A2", "22A2" + code), ("22A2", address + "22A2"), ("22A2", "22A2" + address),
                            (half, code), (half, code + half), (sign + code[1:], code), (code, code), (code, code + code),
                            (code[1:], code)):
            text = self.see("/voucher?" + urllib.parse.urlencode({"code": typed, "kept": kept}))[1]
            self.assertIn(f"<title>{code} ", text, (kept, typed))
        text = self.see("/voucher?code=22A2")[1]
        self.assertIn('<input type="hidden" name="kept" value="22A2">', text)
        self.assertNotIn('name="kept"', self.ask("/")[1])

    def test_refunds_closes_and_sales_of_batches_are_asked_once_more(self) -> None:
        code, = self.desk.sell_codes("gigabyte", "b1")
        self.desk.issue_codes("gigabyte", "b2", 2)
        self.desk.desk.request_json(Routes.REDEEM, body={"code": code}, device="02:00:00:00:00:01")
        result = {"at": int(time.time()), "sessions": [{"device": "02:00:00:00:00:01", "session": 1, "used": 5}]}
        (self.folder / "sessions.json").write_text(json.dumps(result))
        for path, action, words in ((f"/refund?code={code}", "refund", "1 of 3"), ("/close?session=1", "close", "02:00:00:00:00:01"),
                                    ("/sell-batch?batch=b2", "sell-batch", "gigabyte"), ("/close?session=9", "close", "not in the")):
            status, text = self.see(path)
            self.assertIn("This cannot be taken back.", text)
            self.assertIn(words, text)
            self.assertIn("request", self.hidden(text, action))
        for page, action in ((f"/voucher?code={code}", "refund"), ("/sessions", "close"), ("/vouchers", "sell-batch")):
            self.assertEqual(self.hidden(self.see(page)[1], action), {}, "nothing acts from there")
        self.assertIsNone(self.desk.voucher(code)["refund"])
        self.assertIn("Give back 3.33", self.ask("/refund", **self.hidden(self.see(f"/refund?code={code}")[1], "refund"))[1])
        self.assertIn("Session 1 is closed", self.ask("/close", **self.hidden(self.ask("/close?session=1")[1], "close"))[1])

    def test_one_voucher_is_issued_and_sold_at_one_press_and_once(self) -> None:
        fields = {**self.hidden(self.ask("/")[1], "now"), "plan": "day"}
        for cuts in (True, False):      # at first the answer is lost on its way
            self.relay.cuts = cuts
            status, text = self.ask("/now", **fields)
            self.assertEqual((status, "Send it again" in text, "Take 9.00" in text), (504, True, False) if cuts else (200, False, True))
        self.assertIn("Take nothing", self.ask("/now", **fields)[1])
        code = re.search(r"Sold: ([0-9A-Z-]+)\.", text)
        assert code
        self.assertEqual(self.desk.voucher(code[1])["batch"], fields["batch"])
        self.assertEqual(self.desk.desk.request(Routes.PRINT, fields["batch"]).count(b"\n"), 2)
        self.assertIn(f"<b>{code[1]}</b>", text, "as a voucher that can be printed")
        day = time.strftime("%Y-%m-%d", time.gmtime())
        self.assertIn('<td data-label="In the drawer"><b>9.00</b></td>', self.ask(f"/takings?from={day}&to={day}")[1])

    def test_what_was_sold_is_said_though_its_sheet_cannot_be_shown(self) -> None:
        fields = {**self.hidden(self.ask("/")[1], "now"), "plan": "day"}
        with mock.patch.object(self.counter, "sheet", side_effect=NoAnswer("gone")):
            status, text = self.ask("/now", **fields)
        self.assertEqual((status, "Take 9.00" in text, "Print its sheet" in text), (200, True, True))

    def test_a_whole_batch_is_sold_and_goes_on_where_it_broke_off(self) -> None:
        codes = self.desk.issue_codes("hour", "b1", 4)
        self.desk.desk.request_json(Routes.SELL, body={"code": codes[1]})
        request_json, asked = self.counter.desk.request_json, [0]

        def breaks(route: Any, *part: str, **more: Any) -> Any:
            result = request_json(route, *part, **more)
            asked[0] += route is Routes.SELL
            if asked[0] == 2:       # the third sale is made, and its answer is lost
                raise NoAnswer("cut")
            return result

        with mock.patch.object(self.counter.desk, "request_json", breaks):
            status, text = self.ask("/sell-batch", batch="b1", count="3", request="w1")
        self.assertEqual((status, "Send it again" in text), (504, True))
        self.assertEqual([self.desk.voucher(code)["sold"] is None for code in codes], [False, False, False, True])
        for result in (("Batch b1: 3 codes sold.", "Take 9.00.", "1 code was sold before"), ("Take nothing", ">9.00<")):
            text = self.ask("/sell-batch", batch="b1", count="3", request="w1")[1]
            for words in result:
                self.assertIn(words, text)
        day = time.strftime("%Y-%m-%d", time.gmtime())
        self.assertIn('<td data-label="In the drawer"><b>12.00</b></td>', self.ask(f"/takings?from={day}&to={day}")[1])

    def test_a_number_that_leaves_no_room_for_others_is_refused(self) -> None:
        self.desk.issue_codes("hour", "b1")
        for path in ("/now", "/sell-batch"):
            self.assertEqual(self.ask(path, batch="b2" if path == "/now" else "b1", plan="hour", count="1", request="a" * 33)[0], 400)

    def test_the_counter_in_german(self) -> None:
        self.conf.update(language="de", currency="EUR")
        self.counter.__post_init__()
        code, = self.desk.issue_codes("hour", "b1")
        text = self.ask("/")[1]
        self.assertIn('<html lang="de" dir="ltr">', text)
        self.assertIn('<option value="hour">hour: 1 Stunde, 3,00\xa0€</option>', text)
        self.assertIn("Zu kassieren: 3,00\xa0€.", self.ask("/sell", code=code, request="s1")[1])
        self.assertIn("Der Gutschein wurde schon verkauft.", self.ask("/sell", code=code, request="s2")[1])
        day = time.strftime("%Y-%m-%d", time.gmtime())
        self.assertIn('<td data-label="In der Kasse"><b>3,00\xa0€</b></td>', self.ask(f"/takings?from={day}&to={day}")[1])

    def test_each_page_has_a_title_of_its_own(self) -> None:
        self.desk.sell_codes("hour", "b1")
        code = self.desk.issue_codes("hour", "b2")[0]
        pages = ("/", "/vouchers", "/sessions", "/money", "/venue", "/scanner", f"/voucher?code={code}", "/voucher?code=22A2", "/sheet?batch=b1", "/sheet?batch=b2", "/takings?from=2026-01-01&to=2026-01-01",
                 f"/refund?code={code}", "/close?session=1", "/sell-batch?batch=b1", "/nothing")
        answers = [self.see(page) for page in pages]
        self.assertNotIn(500, [status for status, _ in answers])
        titles = [re.findall("<title>(.*)</title>", text)[0] for _, text in answers]
        self.assertEqual(len(set(titles)), len(titles), titles)

    def test_a_title_is_a_few_words(self) -> None:
        """What a screen reader says first: that it did not go well, and of which voucher; the sentences are on the page."""
        code, = self.desk.issue_codes("hour", "b1")
        sold = {"code": code, "request": "s1"}
        cases: tuple[tuple[dict[str, Any], str, dict[str, Any], str], ...] = (
            ({}, "/", {}, "Counter"), ({}, "/nothing", {}, "Error – Counter"), ({}, "/voucher", {}, "Error – Counter"),
            ({}, "/voucher?code=22A2", {}, "Error: 22A2 – Counter"), ({}, "/sell", sold, f"Sold: {code}. Take 3.00. – Counter"),
            ({}, "/sell", {**sold, "request": "s2"}, f"Error: {code} – Counter"),
            ({"is": "failed", "why": "its settings are not valid"}, "/", {}, "Error – Counter"),
            ({"is": "waits", "why": "x", "last": None}, "/", {}, "Is the time right? – Counter"))
        for state, page, form, title in cases:
            self.notes.write("state", **state)
            text = (self.ask(page, **form) if form else self.see(page))[1]
            self.assertEqual(re.findall("<title>(.*)</title>", text), [title], page)

    def test_a_sheet_has_the_venues_logo(self) -> None:
        self.desk.issue_codes("day", "b1", 2)
        self.assertEqual((self.ask("/sheet?batch=b1")[1].count("<img"), self.ask("/logo")[0]), (0, 404))
        logo = self.folder / "logo.svg"
        self.conf["logo"] = str(logo)
        self.assertEqual((self.ask("/sheet?batch=b1")[1].count("<img"), self.ask("/logo")[0]), (0, 404), "it is not there")
        logo.write_text("<svg/>")
        self.assertEqual(self.ask("/sheet?batch=b1")[1].count('<img src="/logo" alt="">'), 2)
        self.assertEqual(self.ask("/logo"), (200, "<svg/>"))

    def test_a_picture_that_a_manager_chose_counts_before_that_of_set_up(self) -> None:
        logo, picture = self.folder / "logo.svg", self.folder / "picture.png"
        logo.write_text("<svg/>")
        picture.write_text("a picture")
        self.conf |= {"logo": str(logo), "plans": str(self.folder / "plans.toml")}
        self.assertEqual(self.ask("/logo"), (200, "a picture"))
        picture.unlink()
        self.assertEqual(self.ask("/logo"), (200, "<svg/>"))

    def test_vouchers_are_of_the_size_that_is_set_or_chosen(self) -> None:
        self.desk.issue_codes("day", "b1")
        for query, size, there in (("", "", "a4"), ("", "receipt80", "receipt80"), ("&size=label", "receipt80", "label"),
                                   ("&size=x", "receipt80", "a4")):
            self.conf["voucher_size"] = size or "a4"
            self.assertIn(f'<div class="vouchers {there}">', self.ask(f"/sheet?batch=b1{query}")[1])

    def test_a_sheet_has_a_qr_code_for_each_code(self) -> None:
        codes = self.desk.issue_codes("day", "b1", 3)
        status, text = self.ask("/sheet?batch=b1")
        self.assertEqual(status, 200)
        self.assertEqual(re.findall("<b>([0-9A-Z-]+)</b>", text), codes)
        self.assertEqual(text.count("<svg"), 3)
        self.assertIn("1 day · 9.00", text)
        self.assertNotIn("style=", text)
        self.conf.update(wifi='A "net"; x', wifi_password="abcdefgh", currency="EUR", voucher_languages=["en", "ar"])
        text = self.ask("/sheet?batch=b1&size=receipt58")[1]
        self.assertIn('<div class="vouchers receipt58">', text)
        self.assertEqual(text.count('<span class="wifi">Password: / كلمة المرور: <bdi class="secret">abcdefgh</bdi>'), 3)
        self.assertEqual((text.count("<svg"), text.count('dir="rtl"'), text.count("€9.00")), (6, 3, 3))
        self.assertIn("Join the Wi‑Fi “A &#34;net&#34;; x”.", text)
        self.assertIn("House", text)
        self.assertIn("wifi.example/portal", text)
        self.assertEqual(wifi_text('A "net"; x', "abcdefgh"), r'WIFI:T:WPA;S:A \"net\"\; x;P:abcdefgh;;')
        self.assertEqual(wifi_text("Guests", ""), "WIFI:T:nopass;S:Guests;;")
        uses = self.desk.issue_codes("gigabyte", "b3", 1)
        self.assertIn(uses[0], self.ask("/sheet?batch=b3")[1])
        self.assertIn("1.0 GB, 3 times · €5.00", self.ask("/sheet?batch=b3")[1])


class Passwords(unittest.TestCase):
    def setUp(self) -> None:
        self.time = 0.0
        self.tries = Tries(lambda: self.time)

    def test_the_waits_grow_and_end(self) -> None:
        waits = []
        for _ in range(13):
            self.tries.add("a")
            waits.append(self.tries.wait("a"))
            self.time += waits[-1]
        self.assertEqual(waits, [0, 0, 0, 0, 30, 60, 120, 240, 480, 900, 900, 900, 900])
        self.time += 899
        self.tries.add("a")
        self.assertEqual(self.tries.wait("a"), 900)
        self.time += 1800
        self.tries.add("a")
        self.assertEqual(self.tries.wait("a"), 0, "forgotten")

    def test_so_many_addresses_are_remembered_and_no_more(self) -> None:
        for i in range(10_000):
            self.tries.add(str(i))
        self.assertEqual((len(self.tries.wrong), list(self.tries.wrong)[0]), (4096, str(10_000 - 4096)))


class Words(unittest.TestCase):
    def test_every_refusal_has_its_cause_and_what_to_do(self) -> None:
        self.assertEqual([r.number for r in refusals.TABLE], list(range(1, 32)))
        self.assertEqual(len(refusals.BY_WORD), 31)
        for refusal in refusals.TABLE:
            self.assertTrue(refusal.cause.endswith(".") and refusal.advice.endswith("."), refusal.word)
            self.assertTrue(refusal.for_guest)
        odd = Counter(Desk(1), {}).refused(refusals.of_word("new_word"))
        self.assertEqual(odd.lines[0], "The server answered 'new_word'.")


if __name__ == "__main__":
    unittest.main()
