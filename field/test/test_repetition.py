"""Forms that are sent again at the counter: what is a repetition, what is in doubt, and what no browser has shown."""

from __future__ import annotations

import datetime
import pathlib
import re
import threading
import time
import unittest
from typing import Any
from unittest import mock

from desk_process import Routes
from test_counter import AtCounter

from portal_field.counter.answers import Answers
from portal_field.lib.desk_client import Route

NAVIGATES = {"Sec-Fetch-Mode": "navigate", "X-User": "anna"}     # as a browser sends a form
TAKE_NOTHING, GIVE_NOTHING = "It is not a new one. Take nothing.", "It is not a new one. Give nothing back."


class Repeated(AtCounter):
    def setUp(self) -> None:
        super().setUp()
        self.commands: list[str] = []
        request_json = self.counter.desk.request_json

        def heard(route: Route, *part: str, **more: Any) -> Any:
            self.commands += [route.path] if route.acts else []
            return request_json(route, *part, **more)

        self.enterContext(mock.patch.object(self.counter.desk, "request_json", heard))

    def send(self, action: str, **form: str) -> str:
        return self.ask("/" + action, head={"X-User": "anna"}, **form)[1]

    def kind(self, text: str) -> str:
        """Of the notice: good, bad or repetition."""
        found = re.search(r'<p id="told" class="(\w+) screen" role="(\w+)"', text)
        assert found
        self.assertEqual(found[2], "status" if found[1] == "good" else "alert")
        return found[1]

    def forms(self) -> list[tuple[str, dict[str, str], str, tuple[str, ...]]]:
        """Each action with a form, what the first answer says, and what a repetition says."""
        codes = self.desk.issue_codes("hour", "b1", 2)
        whole, (used,) = self.desk.issue_codes("hour", "b2", 2), self.desk.sell_codes("gigabyte", "b3")
        self.desk.desk.request_json(Routes.REDEEM, body={"code": used}, device="02:00:00:00:00:01")
        sale = "This sale was made at "
        return [
            ("sell", {"code": codes[0]}, "Take 3.00.",
             (sale, TAKE_NOTHING, ">b1<", ">3.00<", f">Look up {codes[0]}</a>", "/voucher?look=")),
            ("now", {"batch": "one-1", "plan": "day"}, "Take 9.00.", (sale, TAKE_NOTHING, ">one-1<", ">9.00<")),
            ("sell-batch", {"batch": "b2", "count": str(len(whole))}, "Take 6.00.",
             (sale, TAKE_NOTHING, ">b2<", ">2<", ">6.00<")),
            ("refund", {"code": used}, "Give back 3.33.", ("This refund was made at ", GIVE_NOTHING, ">b3<", ">3.33<")),
            ("issue", {"batch": "b4", "plan": "hour", "count": "3"}, "Batch b4: 3 codes",
             ("This batch was issued at ", "It is not a new one.", ">b4<", ">3<")),
            ("close", {"session": "1"}, "Session 1 is closed.", ("This session was closed at ", "Nothing was done now."))]

    def test_what_was_done_is_said_to_be_no_new_one_and_is_not_done_again(self) -> None:
        day = time.strftime("%Y-%m-%d", time.gmtime())
        for number, (action, form, first, again) in enumerate(self.forms()):
            text = self.send(action, request=f"f{number}", **form)
            self.assertEqual((self.kind(text), first in text), ("good", True), action)
            before = self.desk.desk.request(Routes.TAKINGS, query={"from": day, "to": day})
            acts = len(self.journal.day(datetime.date.today()))
            self.commands.clear()
            for _ in range(2):
                text = self.send(action, request=f"f{number}", **form)
                self.assertEqual((self.kind(text), first in text), ("repetition", False), action)
                for words in (*again, ">anna<", time.strftime("%H:")):
                    self.assertIn(words, text, action)
            self.assertEqual(self.commands, [], action)
            self.assertEqual(self.desk.desk.request(Routes.TAKINGS, query={"from": day, "to": day}), before)
            self.assertEqual(len(self.journal.day(datetime.date.today())), acts)

    def test_it_says_when_and_the_day_where_that_was_not_today(self) -> None:
        code, = self.desk.issue_codes("hour", "b1")
        noon = time.mktime((*time.localtime()[:3], 12, 34, 56, 0, 0, -1))
        for number, (moment, words) in enumerate(((noon, "made at 12:34."), (
                noon - 86400, time.strftime("made at %Y-%m-%d 12:34.", time.localtime(noon - 86400))))):
            with mock.patch("portal_field.counter.journal.time.time", lambda moment=moment: moment):
                self.send("now", batch=f"one-{number}", plan="hour", request=f"n{number}")
            text = self.send("now", batch=f"one-{number}", plan="hour", request=f"n{number}")
            self.assertIn("This sale was " + words, text)

    def test_a_button_beside_it_sells_a_new_one_of_the_plan_that_is_chosen_now(self) -> None:
        form = {"batch": "one-1", "request": "n1"}
        first = self.send("now", plan="hour", **form)
        text = self.send("now", plan="day", **form)
        self.assertIn("Sell a new one: day, 9.00", text)
        self.assertNotIn("Sell a new one", self.send("now", plan="gone", **form))
        fields = dict(re.findall(r'<input type="hidden" name="([^"]*)" value="([^"]*)">', text))
        self.assertEqual((fields["plan"], fields["batch"] == "one-1", fields["request"] == "n1"), ("day", False, False))
        second = self.send("now", **fields)
        self.assertIn("Take 9.00.", second)
        codes = [re.findall(r"Sold: ([0-9A-Z-]+)\.", page)[0] for page in (first, second)]
        self.assertEqual([self.desk.voucher(code)["plan"] for code in codes], ["hour", "day"])

    def test_what_was_in_doubt_is_sent_again_and_is_no_repetition(self) -> None:
        code, = self.desk.issue_codes("hour", "b1")
        for action, form in (("sell", {"code": code}), ("now", {"batch": "one-1", "plan": "hour"})):
            self.relay.cuts = True
            text = self.send(action, request=action, **form)
            self.assertIn("Send it again", text)
            self.relay.cuts = False
            self.assertEqual(self.kind(text := self.send(action, request=action, **form)), "good")
            self.assertIn("Take 3.00.", text)
            self.assertEqual(self.kind(self.send(action, request=action, **form)), "repetition")

    def test_without_its_line_in_the_journal_it_is_shown_as_new(self) -> None:
        code, = self.desk.issue_codes("hour", "b1")
        form = {"code": code, "request": "s1"}
        self.assertEqual([self.kind(self.send("sell", **form)) for _ in range(2)], ["good", "repetition"])
        pathlib.Path(self.journal.path).unlink()
        self.assertEqual([self.kind(self.send("sell", **form)) for _ in range(2)], ["good", "repetition"])
        self.journal.path = str(self.folder / "nowhere/journal.db")
        text = self.send("sell", **form)
        self.assertEqual((self.kind(text), "The journal could not be written" in text), ("good", True))

    def test_a_form_with_the_number_of_one_of_other_words_is_none(self) -> None:
        """Nothing is said to be sold that was not."""
        codes = [*self.desk.issue_codes("hour", "b1", 2), *self.desk.issue_codes("hour", "b2", 2), "2222-2222-2222", "x"]
        self.send("sell", code=codes[0], request="s1")
        for code in codes[1:]:
            text = self.send("sell", code=code, request="s1")
            self.assertNotIn("This sale was made", text, code)
        self.send("issue", batch="b4", plan="hour", count="3", request="i1")
        text = self.send("issue", batch="b5", plan="hour", count="3", request="i1")
        self.assertIn("This form was sent before with other words", text)

    def test_a_repetition_is_shown_while_the_server_is_away(self) -> None:
        code, = self.desk.issue_codes("hour", "b1")
        forms: tuple[tuple[str, dict[str, str]], ...] = (
            ("sell", {"code": code}), ("now", {"batch": "one-1", "plan": "hour"}))
        for action, form in forms:
            self.send(action, request=action, **form)
        self.relay.drops = True
        for action, form in forms:
            self.assertIn(TAKE_NOTHING, self.send(action, request=action, **form))

    def test_the_counter_in_german(self) -> None:
        self.conf.update(language="de", currency="EUR")
        self.counter.__post_init__()
        texts = [self.send("now", batch="one-1", plan="hour", request="n1") for _ in range(2)]
        for words in ("Dieser Verkauf ist von ", "Es ist kein neuer. Kassieren Sie nichts.", "Nächster Kunde",
                      "Einen neuen verkaufen: hour, 3,00\xa0€"):
            self.assertIn(words, texts[1])

    # What no browser has shown

    def press(self, number: str, **form: str) -> str:
        return self.ask("/now", head=NAVIGATES, batch=f"one-{number}", plan="hour", request=number, **form)[1]

    def test_an_answer_that_no_browser_showed_is_given_again(self) -> None:
        """As of a double click, of which the browser shows the second answer alone."""
        texts = [self.press("n1") for _ in range(3)]
        self.assertEqual([(self.kind(text), "Take 3.00." in text) for text in texts], [("good", True)] * 3)
        picture = re.findall(r'<img src="([^"]*)" width="1" height="1" alt="">', texts[2])
        self.assertEqual(picture, ["/shown?request=n1"])
        self.assertEqual(self.ask(picture[0])[0], 204)
        self.assertEqual(self.kind(self.press("n1")), "repetition")
        self.assertEqual(len([act for act in self.commands if act == "/desk/batches"]), 3, "and no more")

    def test_after_a_minute_it_counts_as_shown(self) -> None:
        moments = [1000.0]
        self.counter.answers.now = lambda: moments[0]
        for later, kind in ((0, "good"), (59, "good"), (59, "good"), (60, "repetition")):
            moments[0] += later
            self.assertEqual(self.kind(text := self.press("n1")), kind)
        self.assertIn("Only if no page said so before, as after a lost connection: take 3.00.", text)

    def test_two_presses_at_once_are_answered_alike(self) -> None:
        texts: list[str] = []
        presses = [threading.Thread(target=lambda: texts.append(self.press("n1"))) for _ in range(4)]
        for press in presses:
            press.start()
        for press in presses:
            press.join()
        self.assertEqual([(self.kind(text), "Take 3.00." in text) for text in texts], [("good", True)] * 4)
        self.assertEqual(len({re.findall(r"Sold: ([0-9A-Z-]+)\.", text)[0] for text in texts}), 1)

    def test_enter_after_an_answer_leads_to_the_next_customer(self) -> None:
        code, = self.desk.issue_codes("hour", "b1")
        sales = [self.send("sell", code=code, request="s1") for _ in range(2)]
        for text in (*sales, self.press("n1")):
            form = text.partition('<form method="post" action="/next">')[2].partition("</form>")[0]
            self.assertRegex(form, 'id="code" name="code" [^>]*autofocus><button>Next customer</button>')
            self.assertEqual((text.count("autofocus"), " required" in text), (1, False))
        self.assertEqual([self.place_of("/next"), self.place_of("/next", code="")], ["/", "/"])
        self.assertIn(f"<title>{code} ", self.ask(self.place_of("/next", code=code))[1])


class Turns(unittest.TestCase):
    def test_forms_of_one_number_come_one_after_another_and_others_at_once(self) -> None:
        answers, order = Answers(), []
        inside, leave = threading.Event(), threading.Event()

        def first() -> None:
            with answers.turn("a"):
                inside.set()
                leave.wait(10)
                order.append("first")

        def second() -> None:
            with answers.turn("a"):
                order.append("second")

        jobs = [threading.Thread(target=job) for job in (first, second)]
        jobs[0].start()
        inside.wait(10)
        jobs[1].start()
        with answers.turn("b"):
            order.append("other")
        time.sleep(0.05)
        leave.set()
        for job in jobs:
            job.join()
        self.assertEqual((order, answers.at_work), (["other", "first", "second"], set()))

    def test_what_was_never_shown_is_forgotten(self) -> None:
        moments = [0.0]
        answers = Answers(lambda: moments[0])
        for number in range(5):
            moments[0] += 30
            answers.sent(str(number))
        self.assertEqual(sorted(answers.unseen), ["3", "4"])


if __name__ == "__main__":
    unittest.main()
