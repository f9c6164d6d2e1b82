"""The guests' page with portal-give: free minutes by a button, and the end of a session by its question."""

from __future__ import annotations

import contextlib
import datetime
import io
import json
import pathlib
import re
import socket
import sqlite3
import tempfile
import time
import tomllib
import unittest
from typing import Any
from unittest import mock

from desk_process import PLANS, Desk, Routes
from fake_machine import SAMPLE, FakeMachine
from give_fixture import FREE_PLAN, NOON, PLACE, serve_in_test
from test_front import MAC, OTHER, Served

from portal_field.counter.clerk import Counter
from portal_field.counter.journal import Journal
from portal_field.doctor.findings import State
from portal_field.doctor.prices import free_minutes
from portal_field.give.budget import Budget
from portal_field.give.giver import Giver
from portal_field.give.record import Gift, Record
from portal_field.guests import gifts
from portal_field.lib import local_time
from portal_field.lib.language_names import GUESTS
from portal_field.settings.venue import BadSettings, Field


class Gifts(Served):
    """The page before a desk that has a free plan, beside the part that gives."""

    def setUp(self) -> None:
        super().setUp()
        self.enterContext(contextlib.redirect_stderr(io.StringIO()))
        self.enterContext(mock.patch.object(gifts, "LOOK", 60.0))
        folder = self.path.parent
        self.list, plans = folder / "sessions.json", folder / "plans.toml"
        plans.write_bytes(PLANS + FREE_PLAN.encode())
        self.desk.desk.request_json(Routes.PLANS, body=plans.read_bytes())
        self.give_conf: dict[str, Any] = {"network": "10.77.0.0/22", "snapshot": str(self.list), "plans": str(plans), "free_plan": "free",
                                          "free_daily": 9}
        self.conf.update(give=str(folder / "give"), free=True)
        self.head["X-Real-IP"] = PLACE
        self.part = Giver(Desk(self.relay.port, "desk-token"), Record(folder / "given.db"), lambda _: self.device, self.give_conf)
        serve_in_test(self, self.part, folder / "give")
        self.tells()

    def tells(self) -> None:
        """Writes the gateway's list, as its agent would."""
        rows = self.desk.gateway.request_json(Routes.SESSIONS)["sessions"]
        self.list.write_text(json.dumps({"at": int(time.time()), "sessions": rows}))

    def press(self, page: str, **form: str) -> tuple[int, str, str]:
        """Sends the form of a page that has an act."""
        act = re.search(r'<form[^>]*><input type="hidden" name="act".*?</form>', page, re.S)
        assert act, page
        self.fields = dict(re.findall(r'type="hidden" name="(\w+)" value="([^"]*)"', act[0]))
        return self.ask("POST", "/portal", **form, lang="en")

    def sessions(self) -> list[int]:
        """The numbers of the open sessions."""
        return [row["session"] for row in self.desk.gateway.request_json(Routes.SESSIONS)["sessions"]]

    def online(self) -> str:
        """The page of a device that is online, which the gateway has heard of."""
        self.press(self.ask("GET", "/portal")[1])
        self.tells()
        return self.ask("GET", "/portal")[1]


class FreeMinutes(Gifts):
    def test_one_press_and_the_device_is_online(self) -> None:
        text = self.ask("GET", "/portal")[1]
        for words in ("Free today: 30 minutes", "A phone with a new random address is a new device.", "Go online without a code", 'name="code"'):
            self.assertIn(words, text)
        status, _, where = self.press(text)
        self.assertEqual((status, where, self.sessions()), (303, "/portal?lang=en", [1]))
        self.assertEqual(self.knocks.recv(9), b"r")
        text = self.ask("GET", where)[1]
        self.assertIn("You are online.", text)
        self.assertNotIn("Your code is good", text)
        self.assertNotIn("Free today", text)

    def test_a_double_click_and_the_page_of_before_do_no_harm(self) -> None:
        page = self.ask("GET", "/portal")[1]
        self.assertEqual([self.press(page)[::2] for _ in range(3)], [(303, "/portal?lang=en")] * 3)
        self.assertEqual(self.sessions(), [1])

    def test_who_has_had_it_reads_so_once(self) -> None:
        page = self.ask("GET", "/portal")[1]
        self.press(page)
        self.desk.desk.request_json(Routes.CLOSE, body={"session": 1})
        text = self.ask("GET", "/portal")[1]
        self.assertIn(f"<p>{gifts.HAD}</p>", text)
        self.assertNotIn("Go online without a code", text)
        status, text, _ = self.press(page)
        self.assertEqual((status, text.count(gifts.HAD), self.sessions()), (409, 1, []))
        self.assertIn(f'<p class="bad" id="bad" role="alert">{gifts.HAD}</p>', text)
        self.assertNotIn("aria-invalid", text)
        self.device = OTHER
        self.assertIn("Go online without a code", self.ask("GET", "/portal")[1], "another device")

    def test_the_days_last_one_is_said(self) -> None:
        self.give_conf["free_daily"] = 0
        self.assertIn(f"<p>{gifts.NONE_LEFT}</p>", self.ask("GET", "/portal")[1])

    def test_who_has_to_wait_reads_from_when_on(self) -> None:
        """The minute at whose begin it is so, in each language of the page."""
        local_time.use_zone("UTC0")
        self.part.now = lambda: NOON + 30.0
        page = self.ask("GET", "/portal")[1]
        self.enterContext(mock.patch.object(local_time, "today", lambda: datetime.datetime.fromtimestamp(NOON, datetime.UTC).date()))
        self.part.record.begin_gift(Gift("02:00:00:00:00:09", self.part.today, "free"), Budget(4, 1.0, NOON))
        words = "A lot of free time was given out in the last hour. Your device can have it from 12:11 on. Please open this page again then."
        text = self.ask("GET", "/portal")[1]
        self.assertEqual((text.count(f"<p>{words}</p>"), "Go online without a code" in text, 'name="code"' in text), (1, False, True))
        status, text, _ = self.press(page)
        self.assertEqual((status, text.count("12:11"), self.sessions()), (409, 1, []))
        self.assertIn(f'<p class="bad" id="bad" role="alert">{words}</p>', text)
        for tag in GUESTS:
            self.assertIn("12:11", self.ask("GET", f"/portal?lang={tag}")[1], tag)
        self.part.now = lambda: NOON + 660.0
        self.assertEqual((self.press(self.ask("GET", "/portal")[1])[0], self.sessions()), (303, [1]))

    def test_a_venue_that_gives_nothing_has_no_button(self) -> None:
        page = self.ask("GET", "/portal")[1]
        for change in ({"free": False}, {"give": ""}, {"give": "/nowhere"}):
            with mock.patch.dict(self.conf, change):
                text = self.ask("GET", "/portal")[1]
                self.assertNotIn("Free today", text, change)
                self.assertIn('name="code"', text)
        with mock.patch.dict(self.conf, give=""):
            self.assertEqual(self.press(page)[0], 409)
        self.give_conf["free_plan"] = ""
        self.assertNotIn("Free today", self.ask("GET", "/portal")[1], "the part knows better than the page")
        self.assertEqual((self.press(page)[0], self.sessions()), (409, []))

    def test_a_part_that_hangs_holds_no_page(self) -> None:
        door = self.enterContext(socket.socket(socket.AF_UNIX))
        door.bind(str(self.path.with_name("hangs")))
        door.listen()
        self.conf["give"] = str(self.path.with_name("hangs"))
        with mock.patch.object(gifts, "LOOK", 0.1):
            status, text, _ = self.ask("GET", "/portal")
        self.assertEqual((status, "Free today" in text, 'name="code"' in text), (200, False, True))

    def test_a_form_is_for_the_device_that_its_page_showed(self) -> None:
        page = self.ask("GET", "/portal")[1]
        self.device = OTHER
        self.assertEqual(self.press(page)[0], 409)
        self.device = None
        self.assertEqual(self.press(page)[0], 403)
        self.assertEqual(self.ask("POST", "/portal", act="free", device=OTHER)[0], 403)
        self.assertEqual(self.sessions(), [])

    def test_the_terms_hold_for_it_too(self) -> None:
        self.conf.update(terms_version="2026-03", agreed=str(self.path.parent / "agreed.db"))
        self.start_helper("a key")
        page = self.ask("GET", "/portal")[1]
        self.assertEqual(page.count('name="terms"'), 2, "each form has its own")
        status, text, _ = self.press(page)
        self.assertEqual((status, self.sessions()), (400, []))
        form, = re.findall(r'<form[^>]*><input type="hidden" name="act".*?</form>', text, re.S)
        self.assertIn('aria-invalid="true" aria-describedby="bad"', form)
        self.assertEqual(text.count('aria-invalid="true"'), 1)
        self.assertEqual(self.press(page, terms="2026-03")[0], 303)
        with contextlib.closing(sqlite3.connect(self.conf["agreed"])) as link:
            self.assertEqual(link.execute("SELECT session, version FROM agreed").fetchall(), [(1, "2026-03")])

    def test_an_answer_that_is_lost_is_asked_for_again(self) -> None:
        page = self.ask("GET", "/portal")[1]
        self.relay.drops = True
        status, text, _ = self.press(page)
        self.assertEqual((status, text.count('role="alert"'), text.count(gifts.AGAIN)), (504, 1, 1))
        self.relay.drops = False
        self.assertEqual((self.press(text)[0], self.sessions()), (303, [1]), "the button is there")

    def test_a_server_that_waits_for_a_clerk_is_said_to_wait(self) -> None:
        page = self.ask("GET", "/portal")[1]
        self.front.notes.write("state", **{"is": "waits"})
        self.relay.drops = True
        status, text, _ = self.press(page)
        self.assertEqual((status, text.count('role="alert"')), (504, 1))
        self.assertIn("Our server waits until somebody at the counter", text)


class EndOfASession(Gifts):
    def test_it_is_asked_and_said_what_is_lost(self) -> None:
        text = self.online()
        self.assertIn('<a href="/portal?stop=1">End this session</a>', text)
        text = self.ask("GET", "/portal?stop=1")[1]
        for words in ("End this session?", "30 minutes|29 minutes", "Session number</dt><dd>1<", "What is left of this session is lost",
                      "A code that can be used once does not work again", 'name="session" value="1"'):
            self.assertRegex(text, words)
        self.assertEqual(self.sessions(), [1], "nothing was done yet")
        status, _, where = self.press(text)
        self.assertEqual((status, where, self.sessions()), (303, "/portal?ended=1&lang=en", []))
        self.assertIn("You have ended your session.", self.ask("GET", where)[1])

    def test_a_double_click_and_the_page_of_before_do_no_harm(self) -> None:
        self.online()
        page = self.ask("GET", "/portal?stop=1")[1]
        for _ in range(2):
            self.assertEqual(self.press(page)[::2], (303, "/portal?ended=1&lang=en"))
            self.tells()
        self.head.pop("Cookie", None)
        code, = self.desk.sell_codes("hour", "b1")
        self.desk.desk.request_json(Routes.REDEEM, body={"code": code}, device=MAC)
        self.tells()
        self.press(page)
        self.assertEqual(self.sessions(), [2], "a session of later")

    def test_a_device_that_is_not_online_is_asked_nothing(self) -> None:
        self.assertIn("You are not online yet.", self.ask("GET", "/portal?stop=1")[1])
        self.assertNotIn("End this session", self.ask("GET", "/portal")[1])

    def test_nothing_is_ended_for_another_device_or_another_session(self) -> None:
        self.online()
        page = self.ask("GET", "/portal?stop=1")[1]
        self.device = OTHER
        self.assertEqual((self.press(page)[0], self.sessions()), (409, [1]))
        self.device = MAC
        for session, status in (("2", 409), ("x", 400), ("", 400), ("9" * 18, 400)):
            self.assertEqual((self.press(page, session=session)[0], self.sessions()), (status, [1]), session)

    def test_a_session_that_the_part_does_not_know_is_said(self) -> None:
        self.press(self.ask("GET", "/portal")[1])
        for change in ({}, {"give": "/nowhere"}):
            with mock.patch.dict(self.conf, change):
                text = self.ask("GET", "/portal?stop=1")[1]
                self.assertIn("It cannot be ended just now.", text)
                self.assertNotIn("<form", text)

    def test_an_answer_that_is_lost_is_asked_for_again(self) -> None:
        self.online()
        page = self.ask("GET", "/portal?stop=1")[1]
        self.relay.drops = True
        status, text, _ = self.press(page)
        self.assertEqual((status, text.count('role="alert"'), text.count(gifts.AGAIN)), (504, 1, 1))
        self.relay.drops = False
        self.assertEqual((self.press(text)[0], self.sessions()), (303, []))

    def test_a_venue_of_before_has_no_link(self) -> None:
        """Its settings do not name the part."""
        self.online()
        del self.conf["give"]
        self.assertNotIn("End this session", self.ask("GET", "/portal")[1])
        self.assertIn("You are online.", self.ask("GET", "/portal?stop=1")[1])


class Named(unittest.TestCase):
    """The plan that field.toml names."""

    def test_lines_of_field_toml(self) -> None:
        self.assertEqual((Field.read(SAMPLE).free_plan, Field.read(SAMPLE).free_daily), ("", 200))
        for line in ('free_plan = "A"', "free_plan = 1", 'free_plan = "a b"'):
            with self.assertRaisesRegex(BadSettings, "free_plan"):
                Field.read(SAMPLE.replace('free_plan = ""', line))
        for line in ("free_daily = 0", "free_daily = true", "free_daily = 1.5"):
            with self.assertRaisesRegex(BadSettings, "free_daily"):
                Field.read(re.sub("free_daily = 200", line, SAMPLE))

    def test_the_doctor_looks_at_its_price(self) -> None:
        folder = pathlib.Path(self.enterContext(tempfile.TemporaryDirectory()))
        machine = FakeMachine(folder)
        self.assertEqual(list(free_minutes(machine)), [])
        text, found = SAMPLE.replace('free_plan = ""', 'free_plan = "free"'), []
        for plans in (b"", PLANS + FREE_PLAN.replace("price = 0", "price = 1").encode(), PLANS + FREE_PLAN.replace("uses = 1", "uses = 2").encode(),
                      PLANS + FREE_PLAN.encode()):
            machine = FakeMachine(folder, text)
            machine.put("/etc/portal/plans.toml", plans.decode())
            found += [(finding.state, bool(finding.do)) for finding in free_minutes(machine)]
        self.assertEqual(found, [(State.WRONG, True), (State.WRONG, True), (State.WARNING, True), (State.GOOD, False)])
        machine.path("/etc/portal/plans.toml").unlink()
        self.assertEqual([finding.state for finding in free_minutes(machine)], [State.WRONG], "the sample has none")
        self.assertEqual(tomllib.loads(SAMPLE)["free_plan"], "")


class CashUp(Gifts):
    def test_free_vouchers_are_no_difference_at_the_counter(self) -> None:
        folder = self.path.parent
        counter = Counter(Desk(self.desk.port, "desk-token"), {"house": "A", "language": "en", "free_days": str(folder / "days.json"),
                                                               "plans": str(folder / "plans.toml")}, Journal(folder / "journal.db"))
        self.press(self.ask("GET", "/portal")[1])
        sums = counter.cash_up(datetime.date.today())
        self.assertEqual((sums["server"].sold, sums["free"], sums["difference"]), (
            1, 1, ["The server's takings and the journal's sums are the same."]))
        for text in ("", "[]", '{"x": 1}'):
            (folder / "days.json").write_text(text)
            self.assertEqual(counter.cash_up(datetime.date.today())["free"], 0, text)


if __name__ == "__main__":
    unittest.main()
