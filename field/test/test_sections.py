"""The counter's sections: five words that lead to pages with one purpose each, sessions that can be found, and errors that
name their field."""

from __future__ import annotations

import contextlib
import datetime
import html
import json
import re
import time
import unittest
from typing import Any

from desk_process import Refused, Routes
from test_counter import AtCounter

from portal_field.counter import fields, page
from portal_field.lib.forms import Form

FIVE = ["Sell", "Vouchers", "Sessions", "Money", "Venue"]


class Sections(AtCounter):
    def test_five_words_lead_to_five_pages_and_each_page_says_where_it_is(self) -> None:
        code, = self.desk.issue_codes("hour", "b1")
        day = str(datetime.date.today())
        for path, section in (("/", "Sell"), (f"/voucher?code={code}", "Sell"), ("/vouchers", "Vouchers"), ("/batches", "Vouchers"),
                              ("/sheet?batch=b1", "Vouchers"), ("/batch?batch=b1", "Vouchers"), ("/sessions", "Sessions"), ("/money", "Money"), ("/cash-up", "Money"),
                              (f"/takings?from={day}&to={day}", "Money"), ("/venue", "Venue"), ("/scanner", "Venue")):
            status, text = self.see(path, {"X-User": "anna"})
            nav = re.findall('<nav class="screen sections" aria-label="Sections">(.*?)</nav>', text, re.S)[0]
            self.assertEqual((status, re.findall(">([A-Za-z]+)</a>", nav)), (200, FIVE), path)
            self.assertEqual(re.findall('aria-current="page">([A-Za-z]+)<', nav), [section], path)
            self.assertLess(text.index('href="#page"'), text.index("<h1"), "the first stop leads to the content")
            self.assertEqual(text.count('id="page"'), 1)
        for place in re.findall('href="(/[a-z]*)"', nav):
            self.assertEqual(self.ask(place)[0], 200, place)

    def test_the_words_are_a_clerks(self) -> None:
        code, = self.desk.sell_codes("gigabyte", "b1")
        self.desk.desk.request_json(Routes.REDEEM, body={"code": code}, device="02:00:00:00:00:01")
        rows = [{"device": "02:00:00:00:00:01", "session": 1, "used": 5, "reported": 5, "reported-at": int(time.time())}]
        (self.folder / "sessions.json").write_text(json.dumps({"at": int(time.time()), "sessions": rows}))
        pages = [self.ask(path)[1] for path in ("/", "/sessions", "/session?number=1", "/batches", "/batch?batch=b1", "/vouchers", "/money")]
        for text in (*pages, self.see(f"/voucher?code={code}")[1], self.ask("/close", session="1", request="c1")[1]):
            for words in ("At the server", "Within a poll", "as the server knows", "idempotency", "redemption key"):
                self.assertNotIn(words, text)
        self.assertIn("Its device is offline in a moment.", text)
        self.assertIn('<td data-label="Counted last">5 bytes, ', pages[1])
        day = str(datetime.date.today())
        heads = re.findall('<th scope="col">([^<]*)</th>', self.ask(f"/takings?from={day}&to={day}")[1])
        self.assertEqual(heads[1:6], ["Vouchers sold", "Money in", "Vouchers taken back", "Money back", "In the drawer"])

    def test_each_page_has_one_purpose(self) -> None:
        forms = {path: re.findall('action="/([a-z-]+)"', self.ask(path)[1]) for path in ("/", "/vouchers", "/sessions", "/money", "/venue")}
        self.assertEqual(forms, {"/": ["voucher", "now"], "/vouchers": ["issue", "sheet", "sell-batch", "refund-batch", "lost"],
                                 "/sessions": ["sessions", "close", "replace-session"], "/money": ["takings", "cash-up"], "/venue": []})

    def test_lines_of_the_journal_lead_to_their_batches(self) -> None:
        self.ask("/issue", batch="b1", plan="hour", count="1", request="i1")
        self.ask("/sell", code="2222", request="s1")
        text = self.ask("/cash-up?details=1")[1]
        self.assertEqual(re.findall('<td data-label="Batch"><a href="([^"]*)" aria-label="Batch b1">b1</a></td>', text), ["/batch?batch=b1"])
        self.assertIn('<td data-label="Batch">–</td>', text)
        self.journal.path = str(self.folder / "nowhere/journal.db")
        self.assertEqual(self.ask("/vouchers")[0], 200, "a sheet is printed without a journal, too")

    def test_the_venue_says_how_its_machine_is(self) -> None:
        self.assertIn("<td>answers</td>", self.ask("/venue")[1])
        self.relay.drops = True
        self.conf["owner_contact"] = "Maria"
        text = self.ask("/venue")[1]
        self.assertEqual(("<td>does not answer</td>" in text, "<td>Maria</td>" in text), (True, True))

    def test_qr_codes_on_vouchers_are_no_pictures_without_a_name(self) -> None:
        self.desk.issue_codes("hour", "b1", 2)
        self.assertEqual(self.ask("/sheet?batch=b1")[1].count('<div class="codes" aria-hidden="true">'), 2)

    def test_a_question_is_read_before_its_answer_is_given(self) -> None:
        code, = self.desk.sell_codes("hour", "b1")
        text = self.see(f"/refund?code={code}")[1]
        self.assertRegex(text, r'<h2 id="asked">Refund .*: give back 3.00</h2>(?s:.*) id="next" [^>]*aria-describedby="asked"')


class Found(AtCounter):
    def listed(self, count: int) -> None:
        rows = [{"device": f"02:00:00:00:{number // 256:02x}:{number % 256:02x}", "session": 1000 + number, "used": 5} for number in range(count)]
        (self.folder / "sessions.json").write_text(json.dumps({"at": int(time.time()), "sessions": rows}))

    def shown(self, find: str = "") -> list[str]:
        return re.findall('<td data-label="No."><a href="[^"]*" aria-label="[^"]*">([0-9]+)</a></td>', self.ask(f"/sessions?find={find}")[1])

    def test_the_first_page_has_the_number_of_sessions_alone(self) -> None:
        for count, words in ((0, "0 sessions are open."), (1, "1 session is open."), (400, "400 sessions are open.")):
            self.listed(count)
            text = self.ask("/")[1]
            self.assertEqual((words in text, "02:00:00" in text, "<table" in text), (True, False, False), count)
            self.assertLess(len(text), 6000, "it does not grow with the guests")

    def test_a_session_is_found_by_a_part_of_its_device_or_of_its_number(self) -> None:
        self.listed(300)
        for find, numbers in (("01:2b", ["1299"]), ("01-2B", ["1299"]), ("1299", ["1299"]), ("nothing", [])):
            self.assertEqual(self.shown(find), numbers, find)
        self.assertEqual(self.shown(), [str(1000 + number) for number in range(page.MOST_ROWS)])
        self.assertIn("200 more are not shown", self.ask("/sessions")[1])
        text = self.ask("/sessions?find=<b>")[1]
        self.assertIn("None of 300 has “&lt;b&gt;”.", text)
        self.assertIn('value="&lt;b&gt;"', text)


class Errors(AtCounter):
    def wrong(self, text: str) -> list[tuple[str, str]]:
        """The fields that an error speaks of, with what they have."""
        return [(re.findall('name="([^"]*)"', one)[0], html.unescape(re.findall('value="([^"]*)"', one)[0]))
                for one in re.findall("<input [^>]*>", text) if 'aria-invalid="true" aria-describedby="told"' in one]

    def test_an_error_names_the_field_and_its_rule_and_keeps_what_was_typed(self) -> None:
        good = {"from": "2026-01-05", "to": "2026-02-03", "by": "week"}
        day = "A day of the years 1970 to 9998, such as 2026-01-31."
        asked: list[tuple[str, dict[str, str], str, str, str]] = [
            ("takings", {**good, "from": "5.1.2026"}, "from", "First day: “5.1.2026”.", day),
            ("takings", {**good, "to": ""}, "to", "Last day: nothing.", day),
            ("takings", {**good, "to": "2026-01-04"}, "to", "Last day: “2026-01-04”.", "It is not before the first day."),
            ("takings", {**good, "from": "1980-01-01"}, "to", "Last day: “2026-02-03”.", "there are 40 years at most."),
            ("takings.csv", {**good, "to": "2026-02-30"}, "to", "Last day: “2026-02-30”.", day),
            ("cash-up", {"day": "1969-12-31"}, "day", "Day: “1969-12-31”.", day),
            ("close", {"session": "no. 7"}, "session", "Number of the session", "Digits alone, at most 18."),
            ("sheet", {"batch": ""}, "batch", "Name of the batch: nothing.", "Lower-case letters, digits and hyphens, at most 32.")]
        for path, form, name, words, rule in asked:
            status, text = self.ask(f"/{path}?" + "&".join(f"{key}={value}".replace(" ", "+") for key, value in form.items()))
            told = html.unescape(text.partition('id="told"')[2].partition("</p>")[0])
            self.assertEqual((status, words in told, rule in told), (400, True, True), (path, form, told))
            kept = form.get(name, "") or (time.strftime("%Y-%m-%d") if name == "to" else "")
            self.assertEqual(self.wrong(text), [(name, kept)], (path, form))
            for key, value in form.items():
                if value and key != "by":
                    self.assertIn(f'name="{key}"', text)
                    self.assertIn(f'value="{value}"', text, (path, form))
        self.assertIn('<option value="week" selected>', self.ask("/takings?from=x&to=2026-01-01&by=week")[1])

    def test_a_form_that_cannot_be_read_at_all_names_no_field(self) -> None:
        many = {f"x{place}": "1" for place in range(Form.MOST_FIELDS + 1)}
        for path in ("cash-up", "takings", "sell-batch", "sessions"):
            status, text = self.ask(f"/{path}?" + "&".join(f"{name}={value}" for name, value in many.items()))
            self.assertEqual((status, "The request was not understood." in text, self.wrong(text)), (400, True, []), path)
        for path in ("issue", "close"):
            status, text = self.ask(f"/{path}", head=None, **many)
            self.assertEqual((status, self.wrong(text)), (400, []), path)

    def test_a_form_that_the_server_refuses_comes_back_with_what_was_typed(self) -> None:
        self.desk.issue_codes("hour", "b1")
        for form, name, words in (
                ({"batch": "b1", "plan": "day", "count": "7"}, "batch", "A batch of this name was issued already."),
                ({"batch": "B 2", "plan": "day", "count": "7"}, "batch", "Name of the batch: “B 2”."),
                ({"batch": "b3", "plan": "day", "count": "501"}, "count", "A number from 1 to 500."),
                ({"batch": "b3", "plan": "day", "count": "0"}, "count", "Codes: “0”."),
                ({"batch": "b3", "plan": "day", "count": "many"}, "count", "A number from 1 to 500.")):
            status, text = self.ask("/issue", **form, request="i1" + form["batch"][:1] + form["count"])
            self.assertEqual((status in (400, 409), words in html.unescape(text)), (True, True), form)
            self.assertEqual(self.wrong(text), [(name, form[name])], form)
            for words in (f'value="{form["batch"]}"', f'value="{form["count"]}"', '<option value="day" selected>'):
                self.assertIn(words, text, form)
        for path, name, value in (("sheet?batch=b9", "batch", "b9"), ("sell-batch?batch=b9", "batch", "b9"), ("sheet?batch=Summer", "batch", "Summer")):
            status, text = self.ask("/" + path)
            self.assertEqual((status, self.wrong(text)), (404, [(name, value)]), path)
        status, text = self.ask("/close", session="77", request="c1")
        self.assertEqual((status, self.wrong(text)), (404, [("session", "77")]))

    def test_rules_are_those_of_the_server(self) -> None:
        for count, batch in ((1, "a"), (500, "b" * 32), (0, "c"), (501, "d"), (1, "e" * 33), (1, "F"), (1, "-")):
            body: dict[str, Any] = {"batch": batch, "plan": "hour", "count": count}
            word = ""
            with contextlib.suppress(Refused):
                self.desk.desk.request_json(Routes.ISSUE, body=body)
                word = "taken"
            self.assertEqual(fields.wrong_rule("issue", Form(batch=batch, count=str(count))) == "", word == "taken", body)

    def test_the_counter_in_german(self) -> None:
        self.conf.update(language="de")
        self.counter.__post_init__()
        text = html.unescape(self.ask("/takings?from=x&to=2026-01-01", head={"X-User": "anna"})[1])
        for words in ("Erster Tag: „x“.", "Ein Tag der Jahre 1970 bis 9998, etwa 2026-01-31.", ">Geld</a>"):
            self.assertIn(words, text)


if __name__ == "__main__":
    unittest.main()
