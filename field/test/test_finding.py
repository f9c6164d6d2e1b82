"""One field of the counter finds a voucher, a session, a batch or a receipt; and the page of a session, open or ended."""

from __future__ import annotations

import html
import json
import re
import time
import unittest
from typing import Any
from unittest import mock

from desk_process import Desk, Refused, Routes
from test_counter import AtCounter
from test_front import UnixLink

from portal_field.counter import finding, roles
from portal_field.counter.receipts import Receipts
from portal_field.lib import refusals
from portal_field.lib.desk_client import Route
from portal_field.lib.typed_codes import plain_code
from portal_field.settings.accounts import CLERK

MAC, OTHER = "02:00:00:00:00:01", "22:33:44:55:66:77"
LATER = 4_000_000_000
SAID = re.compile('<tr><th scope="row">([^<]*)</th><td>([^<]*)</td></tr>')


class Finding(AtCounter):
    def found(self, text: str) -> str:
        """Where the field leads to."""
        return self.place_of("/voucher", code=text)

    def leads(self, path: str) -> str:
        """Where a page leads to by itself, or nothing."""
        link = UnixLink(self.path)
        link.request("GET", path, headers={"Host": "counter.example"})
        answer = link.getresponse()
        link.close()
        return str(answer.headers.get("Location") or "")

    def open_session(self, plan: str, batch: str, device: str = MAC) -> int:
        """Opens a session of a voucher of this new batch; its number."""
        code, = self.desk.sell_codes(plan, batch)
        return int(self.desk.desk.request_json(Routes.REDEEM, body={"code": code}, device=device)["session"])

    def facts(self, place: str) -> dict[str, str]:
        """What the page of a session says, by the names of its lines."""
        status, text = self.ask(place)
        self.assertEqual(status, 200, text)
        return dict(SAID.findall(text))

    def test_each_thing_is_found_by_one_field(self) -> None:
        self.ask("/issue", batch="summer-26", plan="hour", count="1", request="i1")
        self.ask("/now", batch="one-1", plan="hour", request="n1")      # with receipt 1
        for typed, place in ((MAC, "/session?device=02%3A00%3A00%3A00%3A00%3A01"), (" 02-00-00-00-00-0A", "/session?device=02%3A00%3A00%3A00%3A00%3A0a"),
                             (OTHER, "/session?device=22%3A33%3A44%3A55%3A66%3A77"), ("17", "/session?number=17"), ("0017 ", "/session?number=17"),
                             ("summer-26", "/batch?batch=summer-26")):
            self.assertEqual(self.found(typed), place, typed)
        for typed in ("2233-4455-6677", "223344556677", "summer-1", "ABC", "A1", "2222-2222-2222-2222", "123456789012", "no <b>", "02:00:00:00:00"):
            self.assertRegex(self.found(typed), r"\A/voucher\?look=", typed)

    def test_a_scanned_device_is_no_code_after_a_sale_either(self) -> None:
        self.assertEqual(self.place_of("/next", code=OTHER), "/session?device=22%3A33%3A44%3A55%3A66%3A77")
        self.assertEqual(self.place_of("/next", code="5"), "/session?number=5")

    def test_a_receipt_is_found_by_what_is_printed_on_it(self) -> None:
        self.ask("/now", batch="one-1", plan="hour", request="n1")
        receipts = Receipts(self.journal)
        self.assertEqual([finding.receipt_named(receipts, name) for name in ("1", "2", "0", "01", "A1", "", "a1")], [1, 0, 0, 0, 0, 0, 0])
        self.assertEqual(self.leads("/session?number=1"), "/receipt?number=1", "there is no session 1 yet")
        self.assertEqual(self.open_session("hour", "b1"), 1)
        self.assertIn('<a href="/receipt?number=1">', self.ask("/session?number=1")[1])
        (self.folder / "receipts.db").unlink()      # from now on with a letter
        self.ask("/now", batch="one-2", plan="hour", request="n2")
        self.assertEqual(self.found("A1"), "/receipt?number=2")
        self.open_session("hour", "b2", OTHER)
        self.assertNotIn("/receipt?", self.ask("/session?number=2")[1], "the second receipt is A1")

    def begin(self, *codes: str) -> None:
        """Lets the counter find vouchers with these codes alone, since no test can draw codes that begin alike."""
        vouchers = [{"batch": "b1", "code": code, "expires": LATER, "plan": "gigabyte", "redeemed": 0, "refund": None, "sold": None, "uses": 3}
                    for code in sorted(codes)]
        request_json = self.counter.desk.request_json

        def answer(route: Route, *part: str, **more: Any) -> dict[str, Any]:
            if route is not Routes.VOUCHERS:
                return request_json(route, *part, **more)
            found = [voucher for voucher in vouchers if plain_code(str(voucher["code"])).startswith(more["query"]["prefix"])]
            return {"vouchers": found[:50], "more": len(found) > 50}

        self.enterContext(mock.patch.object(self.counter.desk, "request_json", answer))

    def test_the_first_characters_of_a_code_find_its_voucher(self) -> None:
        for number, plan in enumerate(("hour", "gigabyte")):
            code, = self.desk.sell_codes(plan, f"b{number}")
            for typed in (code[:14], code[:-1].lower(), code[:9].replace("-", ""), f" {code[:14]} "):
                place = self.found(typed)
                self.assertNotIn(typed.strip(), place, "no code is in an address")
                self.assertIn(f"<h2>{code}</h2>", self.ask(self.leads(place) or place)[1], typed)
        acts = self.journal.asked("SELECT DISTINCT act, batch, codes, answer FROM acts ORDER BY batch")
        self.assertEqual(acts, [("look", "b0", 1, "done"), ("look", "b1", 1, "done")])

    def test_several_codes_that_begin_so_are_listed_and_one_sign_more_finds_one(self) -> None:
        codes = [f"VF3R-USV3-2222-{end}" for end in ("2222", "3333", "4444")]
        self.begin(*codes, "VF3R-2222-2222-2222")
        status, text = self.ask(self.found("vf3ru"))
        self.assertEqual((status, re.findall('<button name="code" value="([^"]*)"', text), "There are more" in text), (200, codes, False))
        self.assertEqual(re.findall('<td data-label="Batch"><a href="([^"]*)">b1</a></td><td data-label="Plan">([^<]*)</td>', text),
                         [("/batch?batch=b1", "gigabyte")] * 3)
        self.assertEqual(re.findall('<td data-label="State">([^<]*)</td>', text), ["unsold"] * 3)
        self.assertRegex(self.leads(self.found("VF3R-USV3-2222-3")), r"\A/voucher\?look=")
        self.assertEqual(self.journal.asked("SELECT act, batch, codes, answer FROM acts"), [("look", "", 3, "done")])

    def test_in_a_list_the_next_signs_of_the_code_are_enough(self) -> None:
        codes = [f"VF3R-USV3-2222-{end}" for end in ("2222", "3333", "4444")]
        self.begin(*codes, "VF3R-2222-2222-2222")
        text = self.ask(self.found("VF3R"))[1]
        hidden, = re.findall('<input type="hidden" name="start" value="([^"]*)">', text)
        field, = re.findall('<input id="code"[^>]*>', text)
        self.assertEqual((hidden, 'value=""' in field), ("VF3R", True), "what is typed stands before nothing")
        self.assertIn("Type the next signs after VF3R, or scan a code", text)
        for typed, page, code in (("usv3", "codes", "VF3R-USV3"), ("U", "codes", "VF3R-U"), ("usv3-2222-3", "codes", "VF3R-USV3-2222-3"),
                                  ("2222-2222-2222", "voucher", "VF3R-2222-2222-2222"), (codes[0], "voucher", codes[0]), ("17", "session", "")):
            place = self.place_of("/voucher", code=typed, start="VF3R")
            self.assertEqual((place.partition("?")[0], self.counter.looks.code(place.partition("look=")[2])), ("/" + page, code), typed)

    def test_what_names_something_by_itself_is_no_next_sign(self) -> None:
        for typed in ("2345-6789-ABCD-EFGH", "https://wifi.example/portal?code=2345-6789-ABCD", OTHER, "vf3r-us", "17", "summer 1", "2" * 13):
            self.assertEqual(finding.after("VF3R", typed), typed)
        self.assertEqual(finding.after("VF3R-USV3-2222-222", "2"), "VF3R-USV3-2222-2222")
        self.assertEqual(finding.after("VF3R-USV3-2222-222", "22"), "22")

    def test_more_than_the_server_lists_is_said(self) -> None:
        self.begin(*(f"VF3R-2222-2222-{number:04}".replace("0", "A").replace("1", "B") for number in range(51)))
        text = self.ask(self.found("VF3R"))[1]
        self.assertEqual((text.count('<button name="code"'), "There are more: type one more sign." in text), (50, True))

    def test_no_code_that_begins_so_is_said_in_one_line(self) -> None:
        status, text = self.ask(self.found("vf3r usv3"))
        self.assertEqual((status, "VF3R-USV3:<br>No voucher has a code that begins so.</p>" in text), (404, True))
        self.assertIn('value="VF3R-USV3" aria-invalid="true" aria-describedby="told"', text)
        for typed, found in (("vf3r-22VF3R-USV3", "VF3R-22"), ("VF3R-USV3-22", "VF3R-USV3-22"), ("2VF3R-USV3", "2VF3-RUSV-3")):
            place = self.place_of("/voucher", code=typed, kept="VF3R-USV3")
            self.assertEqual(self.counter.looks.code(place.partition("look=")[2]), found, "the cursor stands before what is kept")
        place = self.place_of("/voucher", code="2222-VF3R-USV3-2222", kept="VF3R-USV3-2222")
        self.assertEqual(self.counter.looks.code(place.partition("look=")[2]), "2222-VF3R-USV3-2222", "it is completed")
        self.assertEqual(self.journal.asked("SELECT act, batch, codes, answer FROM acts"), [("look", "", 0, "unknown_code")])

    def test_nothing_is_sold_by_the_first_characters(self) -> None:
        code, = self.desk.issue_codes("hour", "b1")
        other, = self.desk.issue_codes("hour", "b2")
        self.assertIn("No such code can exist", self.ask("/sell", code=code[:13], request="s1")[1])
        self.assertIn("Nothing was sold.", self.ask("/sell-several", codes=code[:13], request="s2")[1])
        place = self.place_of("/sell", code=other, next=code[:13], request="s3")
        self.assertIn("No such code can exist", self.ask(place)[1])
        self.assertEqual([self.desk.voucher(each)["sold"] for each in (code, other)], [None, None])

    def test_twelve_signs_are_a_code_of_before_or_the_first_ones_of_a_code(self) -> None:
        before, now = "VF3R-USV3-2222", "VF3R-USV3-2222-3333"
        self.begin(before, now)
        self.assertRegex(self.found(before), r"\A/voucher\?look=", "a whole code is looked up as it is")
        self.begin(now)
        self.assertRegex(self.leads(self.found(before)), r"\A/voucher\?look=")
        with mock.patch.object(self.counter.desk, "request_json", mock.Mock(side_effect=Refused(404, "no_route"))):
            self.assertRegex(self.found(before), r"\A/voucher\?look=", "an older server knows no such question")

    def test_digits_are_a_session_and_with_a_hyphen_the_first_characters_of_a_code(self) -> None:
        self.assertEqual(self.found("2345"), "/session?number=2345")
        self.assertRegex(self.found("2345-6"), r"\A/codes\?look=")

    def test_a_batch_wins_over_the_first_characters_of_a_code(self) -> None:
        code, = self.desk.issue_codes("hour", "b1")
        name = code[:9].lower()
        self.assertRegex(self.found(name), r"\A/codes\?look=")
        self.desk.issue_codes("hour", name)
        self.assertEqual(self.found(name), f"/batch?batch={name}")

    def test_an_older_server_does_not_know_the_question(self) -> None:
        place = self.found("VF3R-USV3")
        with mock.patch.object(self.counter.desk, "request_json", mock.Mock(side_effect=Refused(404, "no_route"))):
            status, text = self.ask(place)
        self.assertEqual((status, refusals.of_word("no_route").cause in text, html.escape(refusals.UPDATE) in text), (404, True, True))
        self.assertEqual(self.ask("/codes?look=nothing")[0], 404, "the page was restarted")

    def test_the_page_of_an_open_session(self) -> None:
        number = self.open_session("hour", "b1")
        facts = self.facts(f"/session?number={number}")
        self.assertEqual({key: facts[key] for key in ("Device", "State")}, {"Device": MAC, "State": "open"})
        self.assertRegex(facts["Time left"], "^(1 hour|59 minutes)")
        self.assertNotIn("Data left", facts)
        text = self.ask("/session?number=1")[1]
        self.assertEqual(re.findall('formaction="/([a-z-]+)"', text), ["close", "replace-session"])
        self.assertIn('name="session" value="1"', text)

    def test_a_clerk_may_look_and_a_manager_closes(self) -> None:
        self.open_session("hour", "b1")
        self.assertTrue(roles.is_for(CLERK, "session"))
        with mock.patch.object(roles, "role", lambda: CLERK):
            text = self.ask("/session?number=1")[1]
        self.assertIn("A manager closes a session", text)
        self.assertNotIn("formaction", text)

    def test_what_became_of_an_ended_session(self) -> None:
        self.open_session("gigabyte", "b1")
        self.desk.gateway.request_json(Routes.REPORT, body={"session": 1, "bytes": 1_500_000_000})
        facts = self.facts("/session?device=02-00-00-00-00-01")
        self.assertEqual(facts["State"], "ended: its data was used up")
        self.assertEqual((facts["Used, by the last count"], facts["Data left"]), ("1.5 GB", "0 bytes"))
        self.open_session("hour", "b2")
        self.desk.desk.request_json(Routes.CLOSE, body={"session": 2})
        self.assertRegex(self.facts("/session?device=" + MAC)["State"], "^ended .*[0-9]: it was closed$")
        text = self.ask("/session?number=2")[1]
        self.assertEqual(re.findall('formaction="/([a-z-]+)"', text), ["replace-session"])
        details = {"device": MAC, "plan": "hour", "opened": 0, "used": 0, "session": 3, "ended": "time", "at": 3600}
        with mock.patch.object(Desk, "request_json", lambda *_, **__: details):
            self.assertEqual(self.facts("/session?number=3")["State"], "ended 1970-01-01 01:00: its time was over")

    def test_a_session_that_never_was(self) -> None:
        for query, words in (("number=7", "There is no session 7."), ("device=" + MAC, "This device has had no session yet.")):
            status, text = self.ask("/session?" + query)
            self.assertEqual((status, words in text, "Find a session" in text), (404, True, True))
        for query in ("", "number=x", "number=123456789012", "device=x"):
            self.assertEqual(self.ask("/session?" + query)[0], 400, query)

    def test_of_an_ended_session_the_list_leads_to_its_page(self) -> None:
        rows: list[dict[str, Any]] = [{"device": MAC, "session": 12, "used": 0}]
        (self.folder / "sessions.json").write_text(json.dumps({"at": int(time.time()), "sessions": rows}))
        self.assertIn('<a href="/session?number=12" aria-label="Session 12">12</a>', self.ask("/sessions")[1])
        for find, place in (("2", ""), ("12", ""), ("3", "/session?number=3"), (OTHER.upper(), "/session?device=22%3A33%3A44%3A55%3A66%3A77"), (MAC, ""), ("22:33", "")):
            self.assertEqual(self.leads(f"/sessions?find={find}"), place, find)

    def test_a_server_that_says_nothing(self) -> None:
        self.relay.drops = True
        for path in ("/session?number=1", "/session?device=" + MAC):
            status, text = self.ask(path)
            self.assertEqual((status, refusals.SILENT.cause in text), (504, True), path)
        self.assertEqual(self.ask("/voucher", code="some-batch")[0], 504)


if __name__ == "__main__":
    unittest.main()
