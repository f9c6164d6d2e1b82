"""The redemptions of a voucher on its page: when, by which device, in which session, and what became of that."""

from __future__ import annotations

import html
import re
import unittest
from typing import Any
from unittest import mock

from desk_process import NoAnswer, Refused, Routes
from test_counter import AtCounter

from portal_field.lib import refusals
from portal_field.lib.desk_client import Route

FIRST, SECOND = "02:00:00:00:00:01", "02:00:00:00:00:02"
COLUMNS = ("Redeemed", "Device", "Session", "Its session was", "State of the session")


class Redemptions(AtCounter):
    def cells(self, text: str, name: str) -> list[str]:
        """What a column of a page's table has, without marks."""
        return [html.unescape(re.sub("<[^>]*>", "", cell)) for cell in re.findall(f'<td data-label="{name}">(.*?)</td>', text)]

    def redeem(self, code: str, device: str) -> None:
        """Redeems one use of a voucher."""
        self.desk.desk.request_json(Routes.REDEEM, body={"code": code}, device=device)

    def page(self, code: str) -> str:
        """The page of a voucher."""
        return self.see("/voucher?code=" + code)[1]

    def test_each_redemption_is_listed_newest_first_and_leads_to_its_session(self) -> None:
        code, = self.desk.sell_codes("gigabyte", "b1")
        for device in (FIRST, SECOND):
            self.redeem(code, device)
        self.desk.desk.request_json(Routes.CLOSE, body={"session": 1})
        at = [self.counter.language.moment(one["at"]) for one in self.desk.desk.request_json(Routes.REDEMPTIONS, code)["redemptions"]]
        text = self.page(code)
        self.assertEqual([self.cells(text, name) for name in COLUMNS],
                         [at, [SECOND, FIRST], ["2", "1"], ["opened", "opened"], ["open", "ended"]])
        self.assertEqual(re.findall('<a href="(/session[^"]*)">', text), ["/session?number=2", "/session?number=1"])
        self.assertNotIn("there are older ones", text)

    def test_a_redemption_that_extended_a_session_says_so(self) -> None:
        first, second = self.desk.sell_codes("hour", "b1", 2)
        for code in (first, second):
            self.redeem(code, FIRST)
        self.assertEqual([self.cells(self.page(code), "Its session was") for code in (first, second)], [["opened"], ["extended"]])

    def test_a_voucher_that_was_not_redeemed_has_no_list_and_is_not_asked_for(self) -> None:
        code, = self.desk.sell_codes("hour", "b1")
        asked = self.enterContext(mock.patch.object(self.counter.desk, "request_json", wraps=self.counter.desk.request_json))
        self.assertNotIn("Redemptions", self.page(code))
        self.assertNotIn(Routes.REDEMPTIONS, [call.args[0] for call in asked.call_args_list])

    def answers(self, answer: Any) -> None:
        """The server answers so where it is asked for redemptions."""
        request_json = self.counter.desk.request_json

        def said(route: Route, *part: str, **more: Any) -> dict[str, Any]:
            if route is not Routes.REDEMPTIONS:
                return request_json(route, *part, **more)
            return answer()     # type: ignore[no-any-return]

        self.enterContext(mock.patch.object(self.counter.desk, "request_json", said))

    def test_older_redemptions_that_are_not_listed_are_said(self) -> None:
        code, = self.desk.sell_codes("gigabyte", "b1")
        self.redeem(code, FIRST)
        row = {"at": 1000, "device": FIRST, "extended": False, "open": True, "session": 1}
        self.answers(lambda: {"redemptions": [row] * 100, "more": True})
        text = self.page(code)
        self.assertEqual((len(self.cells(text, "Session")), "These are the last ones; there are older ones." in text), (100, True))

    def test_a_server_that_does_not_list_them_is_said_and_the_page_stays(self) -> None:
        code, = self.desk.sell_codes("gigabyte", "b1")
        self.redeem(code, FIRST)
        for fault, cause in ((Refused(404, "no_route"), refusals.of_word("no_route").cause), (NoAnswer("cut"), refusals.SILENT.cause)):
            with self.subTest(cause):
                self.answers(mock.Mock(side_effect=fault))
                text = self.page(code)
                self.assertEqual((f"<h2>{code}</h2>" in text, html.escape(cause) in text, "1 of 3" in text), (True, True, True))

    def test_the_list_in_german(self) -> None:
        self.conf.update(language="de")
        self.counter.__post_init__()
        code, = self.desk.sell_codes("gigabyte", "b1")
        self.redeem(code, FIRST)
        text = self.page(code)
        self.assertEqual((self.cells(text, "Seine Sitzung wurde"), self.cells(text, "Zustand der Sitzung")), (["geöffnet"], ["offen"]))


if __name__ == "__main__":
    unittest.main()
