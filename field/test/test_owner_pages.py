"""What a manager does on the counter's pages: plans and prices, payments and contact, texts, the picture; with a writer behind them."""

from __future__ import annotations

import datetime
import html
import io
import re
import shutil
import sqlite3
import unittest
import uuid
from unittest import mock

from at_entrance import WORDS, Answer, ClerksBrowser
from desk_process import FIELD, NoAnswer
from PIL import Image
from test_writer import AtAccounts

from portal_field.counter import plan_changes
from portal_field.lib.forms import Form
from portal_field.lib.offers_file import Offer, OffersFile
from portal_field.lib.plans import plans_in
from portal_field.settings.kinds import fault_of_png


class AtSettings(AtAccounts):
    """A venue whose settings are in a folder that the writer writes."""

    def setUp(self) -> None:
        super().setUp()
        self.plans = self.folder / "plans.toml"
        shutil.copy(FIELD / "settings/plans.toml", self.plans)
        (self.folder / "texts").mkdir()
        self.conf["plans"] = str(self.plans)
        self.counter.venue_lines.folder = self.folder
        self.counter.load_plans()
        self.anna = self.browser("anna")

    def offers(self) -> OffersFile:
        path = self.folder / "offers.toml"
        return OffersFile.read(path.read_bytes() if path.exists() else b"")

    def fields(self, answer: Answer, action: str) -> dict[str, str]:
        """The fields of a form as a browser sends them, with what is typed or chosen in it."""
        body = next(found[1] for found in re.findall(r'<form method="post" action="/([a-z-]+)"[^>]*>(.*?)</form>', answer.text, re.S)
                    if found[0] == action and 'name="whole"' in found[1] + 'name="whole"' * (action != "plan"))
        found = {name: value for tag in re.findall("<input[^>]*>", body) if (name := self.attribute(tag, "name")) and
                 (self.attribute(tag, "type") != "checkbox" or " checked" in tag) for value in [self.attribute(tag, "value")]}
        found |= {name: self.attribute(next((tag for tag in re.findall("<option[^>]*>", options) if " selected" in tag), ""), "value")
                  for name, options in re.findall(r'<select id="[a-z_]+" name="([a-z_]+)"[^>]*>(.*?)</select>', body, re.S)}
        found |= {name: html.unescape(text) for name, text in re.findall(r'<textarea id="[a-z_]+" name="([a-z_]+)"[^>]*>(.*?)</textarea>', body, re.S)}
        found.pop("token")
        return found

    @staticmethod
    def attribute(tag: str, name: str) -> str:
        found = re.search(rf' {name}="([^"]*)"', tag)
        return html.unescape(found[1]) if found else ""

    def saves(self, page: str, action: str, word: str = WORDS["anna"], **changed: str) -> Answer:
        """Opens a page, types into its form, looks at it, and saves it."""
        looked = self.anna.post(f"/{action}", **self.fields(self.anna.ask(page), action) | changed)
        self.assertEqual((looked.status, "Save this?" in looked.text or "So guests read it" in looked.text), (200, True), looked.told)
        return self.anna.post(f"/{action}", **self.fields(looked, action) | {"password": word, "do": "save"})

    def sells(self, plan: str) -> str:
        """What the page says of a sale of a new voucher."""
        return self.anna.post("/now", plan=plan, batch=f"one-{uuid.uuid4().hex[:8]}", request=uuid.uuid4().hex[:30]).told

    def wrote(self) -> list[tuple[object, ...]]:
        return self.journal.asked("SELECT clerk, about, reason FROM reasons WHERE act = 'settings'")


class Plans(AtSettings):
    def test_prices_are_typed_and_shown_as_in_the_counters_language(self) -> None:
        self.conf.update(language="de", currency="EUR")
        self.counter.__post_init__()
        self.counter.venue_lines.folder = self.folder
        self.counter.load_plans()
        self.assertIn('value="3,00"', self.anna.ask("/plans").text, "the list of plans")
        looked = self.anna.post("/plan", **self.fields(self.anna.ask("/plan?plan=hour"), "plan") | {"price": "3,50"})
        self.assertIn("3,00\xa0€ → 3,50\xa0€", looked.text)
        self.assertEqual(self.fields(looked, "plan")["price"], "3,50")

    def test_a_new_price_is_a_new_plan_and_old_codes_keep_theirs(self) -> None:
        self.anna.post("/issue", plan="hour", batch="b1", count="5", request="i1")
        codes = [row["code"] for row in self.counter.batch(Form(batch="b1"))]
        self.assertIn("Take 3.00.", self.anna.post("/sell", code=codes[0], request="s1").told)
        looked = self.anna.post("/plan", plan="hour", price="3,50")
        for words in ("3.00 → 3.50", "4 codes of hour at 3.00 are not sold yet: they are sold at that price.", "Its plan is “hour”"):
            self.assertIn(words, looked.text)
        self.assertEqual(self.plans.read_text(), (FIELD / "settings/plans.toml").read_text(), "nothing is written by looking")
        answer = self.anna.post("/plan", **self.fields(looked, "plan") | {"password": WORDS["anna"], "do": "save"})
        self.assertEqual((answer.status, answer.told.strip()), (200, "hour-2 is saved, at 3.50. It counts from the next sale on."))
        self.assertIn("4 codes of hour at 3.00 are not sold yet", answer.text)
        self.assertIn("Take 3.50.", self.sells("hour-2"))
        self.assertIn("Take 3.00.", self.anna.post("/sell", code=codes[1], request="s2").told)
        self.assertEqual(list(self.counter.offers.offered_prices), ["day", "gigabyte", "hour-2"])
        self.assertEqual(self.wrote(), [("anna", "plans", "hour 3.00 > hour-2 3.50"), ("anna", "offers", "hour 3.00 > hour-2 3.50")])
        self.assertIn("settings written", self.anna.ask("/cash-up?details=1").text)

    def test_a_name_stays_at_a_new_price_and_is_shown_in_place_of_the_id(self) -> None:
        answer = self.saves("/plan?plan=hour", "plan", name="One hour", name_en="An hour", place="2", tax="19")
        self.assertEqual((answer.status, self.offers().of("hour")), (200, Offer("One hour", {"en": "An hour"}, 2, tax=19)))
        self.assertEqual(plans_in(self.plans.read_bytes()).keys(), {"hour", "day", "gigabyte"}, "a name makes no new plan")
        self.saves("/plan?plan=day", "plan", place="1")
        self.assertIn('<option value="day">day: 1 day, 9.00</option><option value="hour">An hour: 1 hour, 3.00</option>', self.anna.ask("/").text)
        self.saves("/plan?plan=hour", "plan", price="4")
        self.assertEqual(self.offers().of("hour-2"), Offer("One hour", {"en": "An hour"}, 2, "hour", tax=19))
        self.assertIn("An hour: 1 hour, 4.00", self.anna.ask("/vouchers").text)
        self.assertEqual(self.counter.offers.rate_of("hour-2"), 1900)

    def test_lists_name_the_plans_and_tell_two_of_one_name_apart(self) -> None:
        day = datetime.date.today()
        self.saves("/plan?plan=hour", "plan", name="One hour")
        self.sells("hour")
        self.sells("day")
        for page in ("/cash-up", f"/takings?from={day}&to={day}"):
            text = self.anna.ask(page).text
            self.assertEqual(["One hour" in text, "One hour (" in text], [True, False], page)
        self.saves("/plan?plan=hour", "plan", price="4")
        self.sells("hour-2")
        for page, times in (("/cash-up", 1), ("/cash-up?details=1", 2), (f"/takings?from={day}&to={day}", 1)):
            text = self.anna.ask(page).text
            for name in ("One hour (hour)", "One hour (hour-2)"):
                self.assertGreaterEqual(text.count(name), times, f"{name} on {page}")

    def test_a_price_that_is_taken_back_is_the_plan_of_before(self) -> None:
        for price, plan in (("3.50", "hour-2"), ("3.00", "hour"), ("4.00", "hour-3"), ("3.50", "hour-2")):
            now = next(name for name in self.counter.offers.offered_prices if name.startswith("hour"))
            self.saves(f"/plan?plan={now}", "plan", price=price)
            self.assertEqual([name for name in self.counter.offers.offered_prices if name.startswith("hour")], [plan])
        self.assertEqual(sorted(plans_in(self.plans.read_bytes())), ["day", "gigabyte", "hour", "hour-2", "hour-3"])
        self.assertEqual(self.counter.offers.outcome.answer, "done")

    def test_a_new_plan_and_one_that_is_not_offered_any_more(self) -> None:
        answer = self.saves("/plan", "plan", name="Ein Wochenende für Gäste", price="15", time="2", time_unit="d", data="5", data_unit="GB", uses="2")
        self.assertEqual(answer.status, 200, answer.told)
        self.assertIn('<option value="ein-wochenende-fur-gaste">Ein Wochenende für Gäste: 2 days + 5.0 GB, 2 times, 15.00</option>', self.anna.ask("/").text)
        form = self.fields(self.anna.ask("/plan?plan=day"), "plan")
        form.pop("offered")
        looked = self.anna.post("/plan", **form)
        self.assertIn("yes → no", looked.text)
        self.anna.post("/plan", **self.fields(looked, "plan") | {"password": WORDS["anna"], "do": "save"})
        self.assertNotIn("day", self.counter.offers.offered_prices)
        self.assertIn("Not offered", self.anna.ask("/plans").text)

    def test_what_is_refused_is_said_and_nothing_typed_is_lost(self) -> None:
        form = self.fields(self.anna.ask("/plan?plan=hour"), "plan") | {"name": "My name"}
        for changed, words, field in (({"price": "x"}, "an amount of money", "price"), ({"price": "1000001"}, "an amount of money", "price"),
                                      ({"time": "1.5"}, "The time is a number", "time"), ({"time": "367", "time_unit": "d"}, "The time is a number", "time"),
                                      ({"time": "0"}, "a time or an amount of data", "time"), ({"data": "-1"}, "The data is a number", "data"),
                                      ({"uses": "0"}, "from 1 to 100,000", "uses"), ({"shelf_days": "3661"}, "3,660 days", "shelf_days"),
                                      ({"place": "1000"}, "from 1 to 999", "place"), ({"tax": "x"}, "a rate in percent", "tax"),
                                      ({"name": "x" * 61}, "one line of at most 60", "name"), ({"name_en": "x" * 61}, "one line of at most 60", "name_en")):
            answer = self.anna.post("/plan", **form | changed | {"do": "save", "password": WORDS["anna"]})
            self.assertEqual((answer.status, words in answer.told), (400, True), (changed, answer.told))
            self.assertRegex(answer.text, rf'name="{field}"[^>]* aria-invalid="true"')
            self.assertEqual(self.fields(answer, "plan")["name"], changed.get("name", "My name"))
            self.assertNotIn(WORDS["anna"], answer.text)
        looked = self.anna.post("/plan", **form)
        answer = self.anna.post("/plan", **self.fields(looked, "plan") | {"do": "save", "password": "wrong"})
        self.assertEqual((answer.status, answer.told.strip()), (401, "This password is wrong."))
        self.assertRegex(answer.text, 'name="password"[^>]* aria-invalid="true"')
        self.assertEqual(self.fields(answer, "plan")["name"], "My name")
        self.assertFalse((self.folder / "offers.toml").exists())

    def test_a_change_by_hand_between_looking_and_saving_is_noticed(self) -> None:
        looked = self.anna.post("/plan", plan="hour", price="3.50")
        self.plans.write_text(self.plans.read_text() + "# by hand\n")
        answer = self.anna.post("/plan", **self.fields(looked, "plan") | {"do": "save", "password": WORDS["anna"]})
        self.assertEqual((answer.status, "changed after you looked" in answer.told, "3.00 → 3.50" in answer.text), (409, True, True))
        self.assertFalse((self.folder / "offers.toml").exists())
        typed = self.anna.post("/plan", **self.fields(answer, "plan") | {"price": "35", "do": "save", "password": WORDS["anna"]})
        self.assertEqual((typed.status, "3.00 → 35.00" in typed.text), (409, True), "what nobody looked at is not saved")
        answer = self.anna.post("/plan", **self.fields(answer, "plan") | {"do": "save", "password": WORDS["anna"]})
        self.assertEqual(answer.status, 200)
        self.assertIn("# by hand\n", self.plans.read_text())

    def test_a_clerk_sees_and_sends_nothing_of_it(self) -> None:
        ben = self.browser("ben")
        for path in ("/plans", "/plan?plan=hour", "/settings", "/texts", "/text?text=terms", "/picture", "/picture.png?number=x"):
            self.assertEqual(ben.ask(path).status, 403, path)
        for path in ("/plan", "/settings", "/text", "/picture"):
            self.assertEqual(ben.post(path, plan="hour", price="0", do="save", password=WORDS["ben"]).status, 403, path)
        self.assertNotIn("/plans", ben.ask("/venue").text)
        self.assertIn("/plans", self.anna.ask("/venue").text)

    def test_a_server_that_is_silent_and_files_that_cannot_be_read_are_said(self) -> None:
        with mock.patch.object(self.counter.offers, "send", mock.Mock(side_effect=NoAnswer("x"))):
            answer = self.saves("/plan?plan=hour", "plan", price="3.50")
        self.assertEqual((answer.status, "It is saved." in answer.told, "The plans file was not loaded." in answer.told), (200, True, True))
        self.anna.ask("/")
        self.assertIn("Take 3.50.", self.sells("hour-2"), "once the server answers")
        self.plans.write_text(self.plans.read_text() + '[[plan]]\nid = "x"\nprice = "3"\n')
        page = self.anna.ask("/plans")
        self.assertEqual((page.status, "hour-2" in page.text, "plan=x" in page.text), (200, True, False))
        (self.folder / "offers.toml").write_text("[")
        for path in ("/plans", "/plan?plan=hour", "/settings"):
            self.assertEqual(self.anna.ask(path).status, 500, path)

    def test_goodwill_stays_with_a_plan_of_other_terms(self) -> None:
        free = plan_changes.table_of("sorry", {"price": 0, "uses": 1, "seconds": 3600, "bytes": 0, "shelf_days": 9, "extend": True})
        (self.plans).write_text(self.plans.read_text() + free)
        (self.folder / "offers.toml").write_text('goodwill = "sorry"\n')
        self.saves("/plan?plan=sorry", "plan", time="2")
        self.assertEqual((self.offers().goodwill, self.counter.offers.goodwill), ("sorry-2", "sorry-2"))
        self.assertIn("for vouchers that are replaced", self.anna.ask("/plans").text)

    def test_codes_past_their_date_are_not_counted(self) -> None:
        self.anna.post("/issue", plan="hour", batch="b1", count="5", request="i1")
        now = sqlite3.connect(self.journal.path).execute("SELECT max(moment) FROM acts").fetchone()[0]
        counts = [plan_changes.unsold(self.journal, "hour", 90, now + days * 86_400) for days in (89, 91)]
        self.assertEqual(counts, [5, 0])

    def test_an_id_is_one_that_the_server_takes_and_no_plan_has(self) -> None:
        for wish, taken, name in (("hour", {"hour"}, "hour-2"), ("hour-2", {"hour", "hour-2"}, "hour-3"), ("Tag & Nacht", set[str](), "tag-nacht"),
                                  ("时", set[str](), "plan"), ("x" * 40, {"x" * 32}, "x" * 30 + "-2"), ("", {"plan"}, "plan-2")):
            self.assertEqual(plan_changes.new_id(wish, taken), name)


class Settings(AtSettings):
    def test_payments_tax_receipts_and_contact(self) -> None:
        answer = self.saves("/settings", "settings", payments="cash\ncard\n Invoice ", receipt_head="Main Street 1\n\nTax 7", owner_contact="Maria, 030 1", tax="8.1")
        self.assertEqual((answer.status, answer.told.strip()), (200, "It is saved."))
        self.assertEqual(tuple(map(self.conf.get, ("payments", "receipt_head", "owner_contact"))),
                         (["cash", "card", "Invoice"], ["Main Street 1", "Tax 7"], "Maria, 030 1"))
        self.assertEqual((self.offers().tax, self.counter.offers.rate_of("hour")), (8.1, 810))
        self.assertIn("Issue and sell one voucher: Invoice", self.anna.ask("/").text, "at once")
        self.assertEqual(self.fields(self.anna.ask("/settings"), "settings")["payments"], "cash\ncard\nInvoice")
        self.assertEqual(self.wrote(), [("anna", "venue", "venue"), ("anna", "offers", "offers")])
        for changed, field in (({"payments": "a\na"}, "payments"), ({"payments": "x" * 21}, "payments"), ({"receipt_head": "x" * 101}, "receipt_head"),
                               ({"tax": "101"}, "tax"), ({"owner_contact": "x" * 101}, "owner_contact")):
            answer = self.anna.post("/settings", **self.fields(self.anna.ask("/settings"), "settings") | changed)
            self.assertEqual(answer.status, 400, changed)
            self.assertRegex(answer.text, f'name="{field}"[^>]* aria-invalid="true"')
            self.assertEqual(self.fields(answer, "settings")[field], changed[field])

    def test_a_form_that_came_after_the_log_out_is_kept_without_its_password(self) -> None:
        self.anna.post("/logout")
        page = self.anna.post("/settings", payments="cash\nvoucher", do="save", password=WORDS["anna"])
        self.assertEqual((page.status, "payments=cash%0Avoucher" in page.text), (403, True))
        self.assertNotIn(WORDS["anna"], page.text)

    def test_it_shows_what_would_change(self) -> None:
        looked = self.anna.post("/settings", payments="cash\ncard", tax="19")
        for words in ("Cash → Cash, Card", "– → 19"):
            self.assertIn(words, looked.text)
        self.assertFalse((self.folder / "venue.toml").exists())


class Texts(AtSettings):
    def test_a_text_is_shown_as_guests_read_it_and_saved(self) -> None:
        looked = self.anna.post("/text", **self.fields(self.anna.ask("/text?text=terms&lang=de"), "text") | {"text": "# Regeln\r\n\r\n- <b>leise</b> & höflich"})
        self.assertIn('lang="de" dir="auto"><h2>Regeln</h2>', looked.text)
        self.assertIn("<li>&lt;b&gt;leise&lt;/b&gt; &amp; höflich</li>", looked.text)
        self.assertFalse((self.folder / "texts/terms.de.md").exists())
        answer = self.anna.post("/text", **self.fields(looked, "text") | {"do": "save", "password": WORDS["anna"]})
        self.assertEqual((answer.status, answer.told.strip()), (200, "It is saved. Guests read it from now on."))
        self.assertEqual((self.folder / "texts/terms.de.md").read_text(), "# Regeln\n\n- <b>leise</b> & höflich\n")
        self.assertIn('href="/text?text=terms.de"', self.anna.ask("/texts").text)
        self.assertIn("# Regeln", self.anna.ask("/text?text=terms.de").text)
        self.assertEqual(self.saves("/text?text=terms.de", "text", text="").status, 200)
        self.assertFalse((self.folder / "texts/terms.de.md").exists())

    def test_the_last_text_of_terms_that_guests_have_to_accept_stays(self) -> None:
        self.conf["terms_version"] = "1"
        for name in ("terms", "terms.de"):
            (self.folder / f"texts/{name}.md").write_text("# Rules\n")
        self.assertEqual(self.saves("/text?text=terms.de", "text", text="").status, 200)
        answer = self.anna.post("/text", kind="texts/terms", text="")
        self.assertEqual((answer.status, "terms_version" in answer.told), (409, True))
        self.conf["terms_version"] = ""
        self.assertEqual(self.saves("/text?text=terms", "text", text="").status, 200)

    def test_a_long_text_in_any_script_and_one_that_is_too_long(self) -> None:
        text = "时" * 5000
        self.assertEqual(self.saves("/text?text=greeting&lang=zh-Hans", "text", text=text).status, 200)
        self.assertEqual((self.folder / "texts/greeting.zh-Hans.md").read_text(), text + "\n")
        answer = self.anna.post("/text", kind="texts/greeting", text="x" * 17_000)
        self.assertEqual((answer.status, "at most 16384 bytes" in answer.told, "x" * 17_000 in answer.text), (413, True, True))
        for kind in ("plans", "texts/../plans", "texts/other", ""):
            self.assertEqual(self.anna.post("/text", kind=kind, text="x", do="save", password=WORDS["anna"]).text.count("<h2>Terms of use</h2>"), 1, kind)


class Picture(AtSettings):
    def picture(self, kind: str = "JPEG", size: tuple[int, int] = (1200, 800)) -> bytes:
        out = io.BytesIO()
        Image.new("RGB", size, "#0b5d51").save(out, kind)
        return out.getvalue()

    def sends(self, browser: ClerksBrowser, data: bytes) -> Answer:
        """Sends a file, as a browser does."""
        head = f'--xx\r\nContent-Disposition: form-data; name="token"\r\n\r\n{browser.token}\r\n'
        head += '--xx\r\nContent-Disposition: form-data; name="file"; filename="../../logo.png"\r\nContent-Type: image/png\r\n\r\n'
        body = head.encode() + data + b"\r\n--xx--\r\n"
        link = browser.link()
        link.request("POST", "/picture", body, {"Host": browser.host, "X-Real-IP": browser.place, "Cookie": browser.cookie,
                                                "Origin": f"https://{browser.host}", "Content-Type": "multipart/form-data; boundary=xx"})
        got = link.getresponse()
        answer = Answer(got.status, got.read().decode("utf-8", "replace"), got.headers)
        link.close()
        return answer

    def test_a_picture_is_shown_before_it_is_saved(self) -> None:
        self.assertEqual(self.anna.ask("/logo").status, 404)
        looked = self.sends(self.anna, self.picture())
        number = re.findall("/picture.png[?]number=([A-Za-z0-9-]+)", looked.text)[0]
        self.assertEqual((looked.status, self.anna.ask(f"/picture.png?number={number}").status, self.anna.ask("/logo").status), (200, 200, 404))
        answer = self.anna.post("/picture", number=number, do="save", password=WORDS["anna"])
        self.assertEqual((answer.status, self.anna.ask("/logo").status), (200, 200), answer.told)
        data = (self.folder / "picture.png").read_bytes()
        self.assertEqual((fault_of_png(data), Image.open(io.BytesIO(data)).size), ("", (600, 400)))
        self.assertEqual(self.anna.post("/picture", do="remove", password="wrong").status, 401)
        self.assertEqual((self.anna.post("/picture", do="remove", password=WORDS["anna"]).status, self.anna.ask("/logo").status), (200, 404))

    def test_what_is_no_picture_or_too_large_is_said(self) -> None:
        for data, status in ((b"", 400), (b"<svg xmlns='http://www.w3.org/2000/svg'/>", 400), (self.picture()[:200], 400), (self.picture("GIF"), 400),
                             (self.picture("PNG", (6001, 1)), 400)):
            answer = self.sends(self.anna, data)
            self.assertEqual(answer.status, status, data[:20])
            self.assertRegex(answer.text, 'name="file"[^>]* aria-invalid="true"')
        self.assertEqual(self.anna.post("/picture", number="none", do="save", password=WORDS["anna"]).status, 409)
        self.assertFalse((self.folder / "picture.png").exists())

    def test_texts_and_picture_need_no_server(self) -> None:
        self.relay.close()
        self.assertEqual((self.anna.ask("/texts").status, self.anna.ask("/picture").status), (200, 200))


if __name__ == "__main__":
    unittest.main()
