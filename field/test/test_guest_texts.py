"""What a venue puts on the guests' page: its texts, prices, logo and colour, and terms that a guest accepts."""

from __future__ import annotations

import math
import pathlib
import re
import sqlite3
import tempfile
import time
import tomllib
import unittest
from typing import Any
from unittest import mock

from desk_process import FIELD, Desk, DeskProcess
from fake_machine import SAMPLE
from test_front import OTHER, Served

from portal_field.counter.clerk import Counter
from portal_field.counter.journal import Journal
from portal_field.guests.agreed import Agreed
from portal_field.guests.page import COOKIE_DAYS
from portal_field.lib import colours
from portal_field.lib.machine_time import Notes
from portal_field.settings.maker import Maker, lacks_terms
from portal_field.settings.venue import BadSettings, Field

HOSTILE = """# Title

<script>alert(1)</script> and <b onclick="x()">bold</b>, **strong**

[bad](javascript:alert(1)) [data](data:text/html,x) [good](https://venue.example/?a=1&b=2) <https://auto.example>

![picture](https://elsewhere.example/x.png)

- one
- two
"""


class Texts(Served):
    def setUp(self) -> None:
        super().setUp()
        self.texts = pathlib.Path(self.enterContext(tempfile.TemporaryDirectory()))
        self.conf.update(texts=str(self.texts), agreed=str(self.texts / "agreed.db"))

    def page(self, path: str = "/portal") -> str:
        return self.ask("GET", path)[1]

    def test_a_venue_without_texts_has_no_links_to_any(self) -> None:
        text = self.page()
        for words in ('href="/portal/', 'class="text"', "<img", 'name="terms"'):
            self.assertNotIn(words, text)
        for end in ("terms", "privacy", "prices"):
            self.assertEqual(self.ask("GET", f"/portal/{end}?lang=de")[::2], (302, "/portal?lang=de"))
        self.assertEqual(self.ask("GET", "/portal/others")[0], 404)

    def test_a_text_is_in_the_guests_language_or_else_in_the_venues(self) -> None:
        for name, words in (("terms.md", "Rules"), ("terms.de.md", "Regeln"), ("terms.zh-Hant.md", "規則"), ("greeting.en.md", "Hello")):
            (self.texts / name).write_text(words)
        for tag, words, attribute in (("de", "Regeln", ' lang="de"'), ("zh-Hant", "規則", ' lang="zh-Hant"'), ("fr", "Rules", ""), ("zh-Hans", "Rules", "")):
            self.assertIn(f'<div class="text"{attribute} dir="auto"><p>{words}</p>', self.page(f"/portal/terms?lang={tag}"))
        text = self.page("/portal?lang=de")
        self.assertIn('<div class="text" lang="en" dir="auto"><p>Hello</p>', text, "English, where there is no other")
        self.assertIn('<a href="/portal/terms?lang=de">Nutzungsbedingungen</a>', text)
        self.assertNotIn("/portal/privacy", text)
        (self.texts / "terms.md").write_text("Other rules")
        self.assertIn("Other rules", self.page("/portal/terms"), "a text that was changed")

    def test_markdown_makes_markup_and_nothing_that_is_typed_does(self) -> None:
        (self.texts / "privacy.md").write_text(HOSTILE)
        (self.texts / "greeting.md").write_text(HOSTILE)
        for text in (self.page("/portal/privacy"), self.page()):
            for words in ("<h2>Title</h2>", "<strong>strong</strong>", "<li>one</li>", "&lt;script&gt;alert(1)&lt;/script&gt;", "&lt;b onclick=",
                          '<a href="https://venue.example/?a=1&amp;b=2">good</a>', '<a href="https://auto.example">'):
                self.assertIn(words, text)
            self.assertEqual(text.count("<h1"), 1)
            for words in ("<script", "<img", "<b ", 'href="javascript:', 'href="data:'):
                self.assertNotIn(words, text)

    def test_the_sample_notice_names_what_is_kept_and_for_how_long(self) -> None:
        for tag in ("", ".de"):
            name = f"privacy{tag}.md"
            (self.texts / name).write_text((FIELD / "settings/texts" / name).read_text())
        for path, words in (("/portal/privacy", "MAC address"), ("/portal/privacy?lang=de", "MAC-Adresse")):
            text = self.page(path)
            self.assertIn(words, text)
            self.assertIn(f"[{Field.read(SAMPLE).terms_days}]", text)
            self.assertIn(f" {COOKIE_DAYS} ", text)
            self.assertNotIn("Copy it to", text, "what is for the venue alone")

    def test_prices_are_those_that_the_counter_offers(self) -> None:
        plans = FIELD / "settings/plans.toml"
        (self.texts / "plans.toml").write_bytes(plans.read_bytes())
        (self.texts / "offers.toml").write_text("[day]\noffered = false\n")
        conf: dict[str, Any] = {"house": "House", "plans": str(self.texts / "plans.toml"), "notes": str(self.texts),
                                "portal_url": "x", "snapshot": "x"}
        with DeskProcess() as desk:
            counter = Counter(Desk(desk.port, "desk-token"), conf, Journal(self.texts / "journal.db"))
            counter.load_plans()
            self.conf.update(notes=str(self.texts), currency="EUR")
            self.assertNotIn("/portal/prices", self.page(), "not before the venue wants it")
            self.conf["prices"] = True
            self.assertIn('<a href="/portal/prices?lang=de">Preise</a>', self.page("/portal?lang=de"))
            rows = re.findall("<dt>(.*?)</dt><dd>(.*?)</dd>", self.page("/portal/prices"))
            self.assertEqual(rows, [("1 hour", "€3.00"), ("1.0 GB, 3 times", "€5.00")])
            self.assertEqual((self.texts / "offers").stat().st_mode & 0o777, 0o644, "this page may read it")
            (self.texts / "plans.toml").write_text(plans.read_text().replace("price = 300", "price = 200"))
            counter.offers.load(since=1)
            self.assertEqual(re.findall("<dt>(.*?)</dt><dd>(.*?)</dd>", self.page("/portal/prices")), rows,
                             "a file that the server refused")
            (self.texts / "plans.toml").write_bytes(plans.read_bytes())
            (self.texts / "offers.toml").write_text('[gigabyte]\nname = "Big"\nnames = { de = "Groß" }\n')
            counter.offers.load(since=2)
            for lang, name in (("de", "Groß: "), ("fr", "Big: ")):
                rows = re.findall("<dt>(.*?)</dt>", self.page(f"/portal/prices?lang={lang}"))
                self.assertEqual([row.startswith(name) for row in rows], [False, True, False], "the name of a plan in a language")
        Notes(str(self.texts)).drop("offers")
        self.assertNotIn("/portal/prices", self.page())

    # Terms that a guest accepts

    def agreed(self) -> list[tuple[int, str]]:
        with sqlite3.connect(self.texts / "agreed.db") as link:
            return link.execute("SELECT session, version FROM agreed ORDER BY session, version").fetchall()

    def test_a_code_is_not_used_before_the_terms_are_accepted(self) -> None:
        (self.texts / "terms.md").write_text("Rules")
        self.conf["terms_version"] = "2026-03"
        self.start_helper("a key")
        code, = self.desk.sell_codes("gigabyte", "b1")
        text = self.page("/portal?lang=de")
        self.assertIn('<input type="checkbox" name="terms" value="2026-03" required> ', text)
        self.assertIn("Ich bin mit den Nutzungsbedingungen einverstanden.", text)
        ticks: tuple[dict[str, str], ...] = ({}, {"terms": "2025-01"}, {"terms": "on"})
        for ticked in ticks:
            status, text, _ = self.ask("POST", "/portal", code=code, request=self.number(text), **ticked)
            self.assertEqual((status, self.desk.voucher(code)["redeemed"]), (400, 0))
            self.assertIn("Please accept the terms of use first. Your code was not used.", text)
            self.assertIn(f'name="code" value="{code}"', text)
            self.assertIn('name="terms" value="2026-03" required', text)
            self.assertRegex(text, r'name="terms"[^>]* aria-invalid="true" aria-describedby="bad"')
            self.assertEqual(text.count("aria-invalid"), 1)
        self.assertEqual(self.agreed(), [])
        number = self.number(text)
        for _ in range(2):
            self.assertEqual(self.ask("POST", "/portal", code=code, request=number, terms="2026-03")[0], 303)
        self.assertEqual((self.desk.voucher(code)["redeemed"], self.agreed()), (1, [(1, "2026-03")]))

    def test_a_form_in_doubt_stays_accepted(self) -> None:
        self.conf["terms_version"] = "1"
        code, = self.desk.sell_codes("gigabyte", "b1")
        number = self.number(self.page())
        self.relay.cuts = True
        text = self.ask("POST", "/portal", code=code, request=number, terms="1")[1]
        self.assertIn('name="terms" value="1" required checked', text)

    def test_a_guest_is_online_where_the_version_cannot_be_kept(self) -> None:
        self.conf["terms_version"] = "1"
        self.front.agreed.path = str(self.texts / "nowhere/agreed.db")
        code, = self.desk.sell_codes("hour", "b1")
        with mock.patch("sys.stderr") as told:
            self.assertEqual(self.ask("POST", "/portal", code=code, request=self.number(self.page()), terms="1")[0], 303)
        self.assertIn("agreed.db", str(told.method_calls))

    def test_what_was_accepted_is_purged_after_its_days(self) -> None:
        agreed, now = Agreed(str(self.texts / "agreed.db"), 90), time.time()
        for session, days in ((1, 91), (2, 89), (3, 0)):
            with mock.patch.object(time, "time", lambda: now - days * 86_400):
                agreed.add(session, "1")
        self.assertEqual(self.agreed(), [(1, "1"), (2, "1"), (3, "1")][1:])
        Agreed(str(self.texts / "agreed.db"), 30)
        self.assertEqual(self.agreed(), [(3, "1")], "at a start")

    def test_the_greeting_is_for_who_is_not_online(self) -> None:
        (self.texts / "greeting.md").write_text("Hello")
        self.conf["logo"] = True
        self.assertIn("<p>Hello</p>", self.page())
        self.redeem("hour", "b1")
        text = self.page()
        self.assertNotIn("<p>Hello</p>", text)
        self.assertIn('<img class="logo" src="/logo" alt="">', text)
        self.device = OTHER
        self.assertIn("<p>Hello</p>", self.page())

    def test_a_picture_that_a_manager_chose_is_the_logo(self) -> None:
        self.conf["logo"], self.conf["picture"] = False, str(self.texts / "picture.png")
        self.assertNotIn("/logo", self.page())
        (self.texts / "picture.png").write_bytes(b"x")
        self.assertIn('<img class="logo" src="/logo" alt="">', self.page())


class Colours(unittest.TestCase):
    def contrast(self, one: str, other: str) -> float:
        """By WCAG 2.2, "contrast ratio", of two colours such as #123456."""
        def light(text: str) -> float:
            parts = [int(text[i:i + 2], 16) / 255 for i in (1, 3, 5)]
            red, green, blue = (part / 12.92 if part <= 0.04045 else math.pow((part + 0.055) / 1.055, 2.4) for part in parts)
            return 0.2126 * red + 0.7152 * green + 0.0722 * blue

        dark, bright = sorted((light(one), light(other)))
        return (bright + 0.05) / (dark + 0.05)

    def test_each_colour_can_be_read_in_light_and_dark(self) -> None:
        style = (FIELD / "guests/style.css").read_text()
        papers = [re.findall(r"--(?:paper|card): (#[0-9a-f]+);", part) for part in style.split("@media (prefers-color-scheme: dark)")[:2]]
        for colour in ("#000000", "#ffffff", "#ffff00", "#0b5d51", "#E30613", "#777777", "#00ffff", "#123456"):
            sets = re.findall("--act: (#[0-9a-f]{6}); --on-act: (#[0-9a-f]{6});", colours.lines(colour))
            self.assertEqual(len(sets), 2, colour)
            for (act, on_act), behind in zip(sets, papers):
                for paper in behind:
                    paper = "#" + paper[1:] * 2 if len(paper) == 4 else paper
                    self.assertGreaterEqual(round(self.contrast(act, paper), 2), 4.5, (colour, act, paper))
                self.assertGreaterEqual(round(self.contrast(act, on_act), 2), 4.5, (colour, act, on_act))
        self.assertIn("--act: #0b5d51;", colours.lines("#0b5d51"), "one that can be read stays")
        self.assertEqual(colours.lines(""), "")


def with_lines(*lines: str) -> str:
    """The sample with other lines of these keys."""
    text = SAMPLE
    for line in lines:
        text = re.sub(f"(?m)^{line.partition(' ')[0]} = .*$", lambda _: line, text)
    return text


class Settings(unittest.TestCase):
    def setUp(self) -> None:
        self.root = pathlib.Path(self.enterContext(tempfile.TemporaryDirectory()))
        self.etc = self.root / "etc/portal"

    def made(self, *lines: str) -> dict[str, Any]:
        """Makes a venue with these lines; the settings of the guests' page."""
        maker = Maker(Field.read(with_lines(*lines)), self.root, "/kit")
        maker.settings()
        maker.others()
        return tomllib.loads((self.etc / "front.toml").read_text())

    def test_a_venue_of_before_has_none_of_it(self) -> None:
        front = self.made()
        self.assertEqual((front["prices"], front["terms_version"], front["logo"]), (False, "", False))
        self.assertEqual((self.etc / "guests/style.css").read_text(), (FIELD / "guests/style.css").read_text())
        self.assertNotIn("venue_url", tomllib.loads((self.etc / "portal.toml").read_text()))

    def test_each_line_reaches_its_part(self) -> None:
        front = self.made('venue_url = "https://venue.example/?a=1"', 'guest_colour = "#E30613"', "guest_prices = true", 'terms_version = "2026-03"',
                          "terms_days = 30")
        self.assertEqual((front["prices"], front["terms_version"], front["terms_days"], front["texts"]),
                         (True, "2026-03", 30, str(self.etc / "texts")))
        self.assertTrue((self.etc / "texts").is_dir())
        self.assertEqual(tomllib.loads((self.etc / "portal.toml").read_text()).get("venue_url"), "https://venue.example/?a=1")
        self.assertIn("--act: #", (self.etc / "guests/style.css").read_text().rpartition("@media")[0].rpartition("}")[0][-200:])

    def test_a_bad_line_is_named(self) -> None:
        for line in ('venue_url = "venue.example"', 'venue_url = "https://a b/"', 'venue_url = 1', 'guest_colour = "red"', 'guest_colour = "#12345"',
                     'guest_prices = "yes"', 'terms_version = "a b"', f'terms_version = "{"x" * 33}"', "terms_version = 3", "terms_days = 0",
                     "terms_days = true", "terms_days = 3661"):
            with self.assertRaisesRegex(BadSettings, line.partition(" ")[0]):
                Field.read(with_lines(line))

    def test_terms_that_are_to_be_accepted_are_there(self) -> None:
        field = Field.read(with_lines('terms_version = "1"'))
        (self.etc / "texts").mkdir(parents=True)
        self.assertTrue(lacks_terms(field, self.etc))
        (self.etc / "texts/terms.de.md").write_text("Regeln")
        self.assertFalse(lacks_terms(field, self.etc))
        self.assertFalse(lacks_terms(Field.read(SAMPLE), self.etc))


if __name__ == "__main__":
    unittest.main()
