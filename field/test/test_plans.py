"""The files plans.toml and offers.toml, and what the counter offers of them."""

from __future__ import annotations

import contextlib
import io
import json
import pathlib
import re
import tempfile
import threading
import time
import unittest
from typing import Any
from unittest import mock

from desk_process import FIELD, Desk, DeskProcess, Refused, Routes
from test_counter import AtCounter

from portal_field.counter.clerk import Counter
from portal_field.counter.page import pages
from portal_field.lib import plans, web
from portal_field.lib.plans import BadFile
from portal_field.settings import samples
from test_front import serve_during_test

SHIPPED = (FIELD / "settings/plans.toml").read_text()
PLAN = '[[plan]]\nid = "{}"\nprice = {}\nuses = 1\nseconds = 3600\nbytes = 0\nshelf_days = 90\nextend = true\n'
# The sample of version 1.0.0 had another head, and the same plans.
OF_BEFORE = """\
# What the counter sells. price: hundredths. seconds or bytes 0: not limited so (not both 0). shelf_days: how long an
# unused voucher is good. A plan never changes: give new terms a new id, and start portal-counter.service anew.
""" + SHIPPED[SHIPPED.index("[[plan]]"):]


class Files(unittest.TestCase):
    def test_what_is_wrong_with_a_plans_file_is_named_where_the_server_refuses_it(self) -> None:
        good = PLAN.format("hour", 300)
        cases = (("[[plan]", "it is not TOML"), ("", "tables [[plan]]"), ("plan = 1", "tables [[plan]]"),
                 (good + "more = 1", "plan 'hour': unknown: more"), ("more = 1\n" + good, "unknown: more"),
                 (good.replace("price = 300\n", ""), "plan 'hour': missing: price"),
                 (good.replace("300", '"300"'), "plan 'hour': price is a number from 0 to 100000000"),
                 (good.replace("300", "3.00"), "price is a number"), (good.replace("300", "100000001"), "price is a number"),
                 (good.replace("300", "true"), "price is a number"), (good.replace("uses = 1", "uses = 0"), "uses is a number"),
                 (good.replace('"hour"', '"Hour"'), "id: 1 to 32 lower-case letters"), (good.replace('"hour"', "1"), "plan 1: id"),
                 (good.replace("true", "1"), "extend is true or false"), (good + good, "plan 'hour': this id is there twice"),
                 (good.replace("3600", "0"), "seconds and bytes are both 0"), (good, ""), (SHIPPED, ""), (OF_BEFORE, ""),
                 (PLAN.format("a", 0) + PLAN.format("b", 100_000_000), ""), ("plan = []", "tables [[plan]]"))
        with DeskProcess() as desk:
            for text, result in cases:
                try:
                    desk.desk.request_json(Routes.PLANS, body=text.encode())
                    word = ""
                except Refused as fault:
                    word = fault.word
                self.assertEqual(word, "bad_plans" if result else "", text)
                if result:
                    with self.assertRaisesRegex(BadFile, re.escape(result), msg=text):
                        plans.check_plans(text.encode())
                else:
                    plans.check_plans(text.encode())
        with self.assertRaisesRegex(BadFile, "UTF-8"):
            plans.check_plans(b"\xff")

    def test_the_plan_and_the_line_that_differ(self) -> None:
        loaded = plans.plans_in((PLAN.format("hour", 300) + PLAN.format("day", 900)).encode())
        given = PLAN.format("hour", 200).replace("extend = true", "extend = false") + PLAN.format("day", 900) + PLAN.format("new", 1)
        self.assertEqual([str(one) for one in plans.compare(plans.plans_in(given.encode()), loaded)], [
            "plan 'hour': price = 200 in the file, and loaded with 300",
            "plan 'hour': extend = false in the file, and loaded with true"])

    def test_what_is_offered(self) -> None:
        self.assertEqual(plans.read_offers(b"[hour]\noffered = false\n[day]\noffered = true\n"), {"hour": False, "day": True})
        for text in (b"[hour", b"hour = false", b"[hour]", b"[hour]\noffered = 0", b"[hour]\noffered = false\nname = 1", b"\xff"):
            with self.assertRaises(BadFile, msg=text):
                plans.read_offers(text)


class Samples(unittest.TestCase):
    def setUp(self) -> None:
        self.path = pathlib.Path(self.enterContext(tempfile.TemporaryDirectory())) / "plans.toml"

    def is_sample(self, text: str) -> bool:
        self.path.write_text(text)
        return samples.is_sample(self.path)

    def test_the_sample_of_each_version_is_one(self) -> None:
        """Whoever changes a sample adds its sum: a venue that has the one of before is to be asked, too."""
        self.assertEqual([self.is_sample(text) for text in (SHIPPED, OF_BEFORE)], [True, True])
        for name, sums in samples.BROUGHT.items():
            self.assertIn(samples.sum_of(FIELD / "settings" / name), sums, name)

    def test_what_was_changed_or_chosen_is_none(self) -> None:
        for text in (SHIPPED.replace("300", "200"), SHIPPED + "\n", samples.mark_as_chosen(SHIPPED), samples.mark_as_chosen(OF_BEFORE)):
            self.assertFalse(self.is_sample(text))
        for text in (SHIPPED, OF_BEFORE):
            self.assertEqual(plans.plans_in(samples.mark_as_chosen(text).encode()), plans.plans_in(text.encode()))
            self.assertNotIn("A sample", samples.mark_as_chosen(text))
            self.assertIn("# What the counter sells. price: hundredths.", samples.mark_as_chosen(text))


class Offered(AtCounter):
    """What the pages offer, whatever the files say."""

    def setUp(self) -> None:
        super().setUp()
        self.file, self.offers = self.folder / "plans.toml", self.folder / "offers.toml"
        self.file.write_text(SHIPPED)
        self.conf["plans"] = str(self.file)
        self.log = io.StringIO()
        self.enterContext(contextlib.redirect_stderr(self.log))
        self.starts()

    def starts(self) -> None:
        """The counter's page is started, as by systemctl."""
        self.counter = Counter(Desk(self.relay.port, "desk-token"), self.conf, self.journal)
        self.counter.load_plans()
        self.path = self.folder / f"socket-{time.monotonic_ns()}"
        serve_during_test(self, pages(self.counter), web.listening(str(self.path)))

    def menus(self) -> list[str]:
        """What can be chosen, in each of the two menus."""
        text = self.ask("/")[1] + self.ask("/vouchers")[1]
        both = re.findall(r'<select name="plan">(.*?)</select>', text, re.S)
        listed = [re.findall("<option [^>]*>([^<]*)</option>", one) for one in both]
        self.assertTrue(len(listed) in (0, 2) and listed[:1] == listed[1:], listed)
        self.assertEqual(text.count("There is no plan to sell."), 0 if listed else 2)
        return listed[0] if listed else []

    def issue(self, plan: str, batch: str) -> None:
        self.ask("/issue", plan=plan, batch=batch, count="2", request=f"i-{batch}")

    def another_database(self) -> None:
        """As an owner who begins anew."""
        self.desk = self.enterContext(DeskProcess())
        self.relay.goal = self.desk.port

    def warnings(self) -> list[str]:
        return [line for line in self.log.getvalue().splitlines() if line.startswith("<4>counter: ")]

    ALL = ["hour: 1 hour, 3.00", "day: 1 day, 9.00", "gigabyte: 1.0 GB, 3 times, 5.00"]

    def test_what_the_server_did_not_accept_is_not_offered(self) -> None:
        self.file.write_text(SHIPPED.replace("price = 300", "price = 200") + PLAN.format("week", 4000))
        self.starts()
        self.assertEqual(self.menus(), self.ALL, "of the last file that was accepted")
        text = self.ask("/")[1]
        for words in ("The plans file was not loaded.", "Plan hour: price is 200 in the file, and 300 is loaded.",
                      "A loaded plan never changes: give it a new id.", "The counter offers what the server accepted before."):
            self.assertIn(words, text)
        self.assertEqual(self.warnings(), [
            f"<4>counter: the server did not accept {self.file} (plan_differs): plan 'hour': price = 200 in the file, and "
            "loaded with 300. Do: a loaded plan never changes: give it a new id, then `systemctl restart portal-counter`"])
        self.assertIn("Take 3.00.", self.ask("/now", plan="hour", batch="one-1", request="n1")[1])
        self.file.write_text(SHIPPED + PLAN.format("hour-2", 200))
        self.starts()
        self.assertEqual(self.menus(), [*self.ALL, "hour-2: 1 hour, 2.00"])
        self.assertEqual(len(self.warnings()), 1)
        self.assertNotIn("not loaded", self.ask("/")[1])

    def test_a_file_that_does_not_read_says_where(self) -> None:
        for text, words in (("[[plan]", "it is not TOML: Expected"), (SHIPPED.replace("300", '"3.00"'), "plan &#39;hour&#39;: price is a"),
                            ("", "there is no such file")):
            self.file.write_text(text)
            self.starts()
            self.assertEqual(self.menus(), self.ALL)
            self.assertIn(words, self.ask("/")[1])
            self.assertIn("(bad_plans): ", self.warnings()[-1])
        self.file.unlink()
        self.starts()
        self.assertEqual(self.menus(), self.ALL)

    def test_without_an_answer_what_was_accepted_before_is_offered(self) -> None:
        self.relay.drops = True
        self.file.write_text(SHIPPED + PLAN.format("week", 4000))
        self.starts()
        self.assertEqual(self.menus(), self.ALL)
        self.assertEqual(self.warnings(), [], "no fault of the file")
        self.relay.drops = False
        self.assertEqual(self.menus(), [*self.ALL, "week: 1 hour, 40.00"])

    def test_a_server_that_is_short_of_memory_is_asked_again(self) -> None:
        """Also where it is by the second question, whether this is the database that took the kept file."""
        self.file.write_text(SHIPPED.replace("price = 300", "price = 200"))
        request_json = Desk.request_json

        def short(desk: Desk, route: Any, *part: str, **more: Any) -> Any:
            if route is Routes.CLOSE:
                raise Refused(503, "no_memory")
            return request_json(desk, route, *part, **more)

        with mock.patch.object(Desk, "request_json", short):
            self.starts()
            self.assertEqual((self.menus(), self.counter.offers.outcome.answer), (self.ALL, "no_answer"))
        self.assertEqual((self.menus(), self.counter.offers.outcome.answer), (self.ALL, "plan_differs"))

    def test_the_first_start_after_an_upgrade_with_a_file_that_differs(self) -> None:
        """No file was kept yet. What was sold goes on at the price that the server prints; what it says nothing of does not."""
        self.issue("hour", "b1")
        self.ask("/now", plan="gigabyte", batch="one-1", request="n1")
        (self.folder / "accepted-plans.toml").unlink()
        self.file.write_text(SHIPPED.replace("price = 300", "price = 200").replace("price = 900", "price = 800"))
        self.starts()
        self.assertEqual(self.menus(), ["hour, 3.00", "gigabyte, 5.00"])
        self.assertIn("Plan hour: price is 200 in the file, and 300 is loaded.", self.ask("/")[1])
        self.assertIn("Take 3.00.", self.ask("/now", plan="hour", batch="one-2", request="n2")[1])
        self.file.write_text(SHIPPED)
        self.assertEqual(self.menus(), self.ALL, "loaded once it is mended")

    def test_where_nothing_is_known_nothing_is_offered_and_codes_are_sold(self) -> None:
        code, = self.desk.issue_codes("hour", "b1")      # by another program: the journal does not have it
        (self.folder / "accepted-plans.toml").unlink()
        self.file.write_text(SHIPPED.replace("price = 300", "price = 200"))
        self.starts()
        self.assertEqual(self.menus(), [])
        text = self.ask("/")[1]
        for words in ("A plan of this id is loaded with other terms.", "Until then no new voucher can be sold or issued."):
            self.assertIn(words, text)
        self.assertIn("Take 3.00.", self.ask("/sell", code=code, request="s1")[1])

    def test_another_database_gets_nothing_of_the_file_of_before(self) -> None:
        """Its owner begins anew, with new prices and a mistake in them: the old prices would be its for good."""
        self.issue("hour", "b1")
        self.another_database()
        self.file.write_text(SHIPPED.replace("price = 300", 'price = "2.00"'))
        self.starts()
        self.assertEqual(self.menus(), [])
        with self.assertRaisesRegex(Refused, "unknown_plan"):
            self.desk.issue_codes("hour", "b2")
        self.file.write_text(SHIPPED.replace("price = 300", "price = 200"))
        self.assertEqual(self.menus(), ["hour: 1 hour, 2.00", *self.ALL[1:]])

    def test_a_refused_file_is_handed_over_once_for_each_start_of_the_server(self) -> None:
        self.file.write_text(SHIPPED.replace("price = 300", "price = 200"))
        self.starts()
        asked: list[str] = []
        request_json = self.counter.desk.request_json

        def heard(route: Any, **more: Any) -> Any:
            asked.append(route.path)
            return request_json(route, **more)

        with mock.patch.object(self.counter.desk, "request_json", heard):
            for _ in range(3):
                self.ask("/")
            self.assertEqual(asked, [])
            self.notes.write("state", **{"is": "serves", "since": 2})
            self.ask("/")
        self.assertEqual(asked.count("/desk/plans"), 1)
        self.assertEqual(len(self.warnings()), 1, "and said once")

    def test_the_file_that_was_accepted_is_kept_whole(self) -> None:
        kept = self.folder / "accepted-plans.toml"
        self.assertEqual(kept.read_text(), SHIPPED)
        self.file.write_text(SHIPPED + "# more\n")
        with mock.patch("pathlib.Path.replace", side_effect=OSError(28, "No space left on device")):
            self.starts()
        self.assertEqual((kept.read_text(), self.menus()), (SHIPPED, self.ALL))
        self.assertIn("No space left on device", self.warnings()[0])
        self.file.write_text("")
        kept.write_bytes(b"\xff")
        self.starts()
        self.assertEqual(self.menus(), [], "what does not read was not kept")

    def test_the_note_for_the_doctor(self) -> None:
        def note() -> dict[str, Any]:
            return json.loads((self.folder / "plans.json").read_text())

        self.assertEqual((note()["answer"], note()["reasons"], note()["count"]), ("done", [], 3))
        self.assertEqual(note()["plans"], samples.sum_of(self.file))
        self.file.write_text(SHIPPED.replace("uses = 3", "uses = 2"))
        self.offers.write_text("[huor]\noffered = false\n")
        self.starts()
        self.assertEqual((note()["answer"], note()["reasons"], note()["unknown_plans"]), (
            "plan_differs", ["plan 'gigabyte': uses = 2 in the file, and loaded with 3"], ["huor"]))
        self.assertEqual(note()["offers"], samples.sum_of(self.offers))

    def test_plans_are_loaded_without_anybody_who_asks_for_a_page(self) -> None:
        self.relay.drops = True
        self.starts()
        threading.Thread(target=self.counter.follow, daemon=True).start()
        with mock.patch("portal_field.counter.clerk.FOLLOWS", 0.02):
            self.relay.drops = False
            self.notes.write("state", **{"is": "serves", "since": 7})
            end = time.monotonic() + 20
            while self.counter.since != 7 and time.monotonic() < end:
                time.sleep(0.05)
        self.assertEqual((self.counter.since, self.counter.offers.prices["hour"]), (7, 300))

    # offers.toml

    def test_what_is_not_offered_is_in_no_menu_and_can_be_sold(self) -> None:
        self.issue("day", "b1")
        row = self.desk.desk.request(Routes.PRINT, "b1").decode().splitlines()[1]
        code = row.partition(",")[0]
        self.offers.write_text("[day]\noffered = false\n[hour]\noffered = true\n")
        self.starts()
        self.assertEqual(self.menus(), [self.ALL[0], self.ALL[2]])
        self.assertIn("Sell for 9.00", self.see(f"/voucher?code={code}")[1])
        self.assertIn("Take 9.00.", self.ask("/sell", code=code, request="s1")[1])
        self.offers.unlink()
        self.starts()
        self.assertEqual(self.menus(), self.ALL)

    def test_a_mistake_in_it_is_said_and_what_it_said_before_counts(self) -> None:
        self.offers.write_text("[day]\noffered = false\n")
        self.starts()
        for text, words in (("[day", "it is not TOML"), ("[day]\noffered = 0\n", "[day] has the lines offered = true or"),
                            ("[hour]\nofferd = false\n", "[hour] has the lines")):
            self.offers.write_text(text)
            self.starts()
            self.assertEqual(self.menus(), [self.ALL[0], self.ALL[2]])
            shown = self.ask("/")[1]
            self.assertIn("The file offers.toml has a mistake. What it said before counts.", shown)
            self.assertIn(words, shown)
            self.assertIn(f"<4>counter: {self.offers}: ", self.warnings()[-1])
        self.offers.write_text("")
        self.assertEqual(self.menus(), self.ALL, "mended")
        self.assertNotIn("mistake", self.ask("/")[1])

    def test_a_name_that_is_no_plan_is_said(self) -> None:
        self.offers.write_text("[huor]\noffered = false\n[day]\noffered = false\n")
        self.starts()
        self.assertEqual(self.menus(), [self.ALL[0], self.ALL[2]], "the rest counts")
        self.assertIn("The file offers.toml names huor, which is no plan.", self.ask("/")[1])
        self.assertEqual(self.warnings(), [f"<4>counter: {self.offers}: there is no plan huor"])

    def test_in_german(self) -> None:
        self.file.write_text(SHIPPED.replace("extend = true", "extend = false", 1))
        self.conf["language"] = "de"
        self.starts()
        text = self.ask("/")[1]
        self.assertIn("Tarif hour: extend ist in der Datei false, geladen ist true.", text)
        self.assertIn("Geben Sie ihm eine neue id.", text)


if __name__ == "__main__":
    unittest.main()
