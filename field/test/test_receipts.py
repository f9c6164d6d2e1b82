"""Receipts: their numbers, their kinds of payment, the tax that is in them, and their paper."""

from __future__ import annotations

import datetime
import decimal
import html
import os
import pathlib
import random
import re
import shutil
import signal
import sqlite3
import subprocess
import sys
import tempfile
import time
import unittest
from unittest import mock

from desk_process import FIELD, NoAnswer, Routes
from test_several import ANNA, AtOnce, Killed

from portal_field.counter import report as daily_report
from portal_field.counter import receipt_text, roles
from portal_field.counter.journal import Act, Journal
from portal_field.counter.receipt_numbers import Till, letter_after
from portal_field.counter.receipts import Receipts, by_rate, tax_sum
from portal_field.lib import plans
from portal_field.lib.plans import BadFile
from portal_field.settings.accounts import CLERK

SALE = Act("sell", "", "done", "b1", "hour", 1, 300)
# Sells for ever: each line of its output is a receipt that was written.
SELLER = """
import sys
from portal_field.counter.journal import Act, Journal
from portal_field.counter.receipt_numbers import Till
journal, start = Journal(sys.argv[1]), sys.argv[2]
for number in range(10**6):
    form = f"{start}-{number}"
    journal.add("anna", "x", [Act("sell", form, "done", "b1", "hour", 1, 300)], Till(form, "cash", "", lambda _: None))
    print(form, flush=True)
"""


def till(form: str, payment: str = "cash", rate: int | None = None) -> Till:
    """What a receipt of this form has beside its lines."""
    return Till(form, payment, "", lambda _: rate)


class Numbers(unittest.TestCase):
    def setUp(self) -> None:
        self.folder = pathlib.Path(self.enterContext(tempfile.TemporaryDirectory()))
        self.path = self.folder / "journal.db"
        self.journal = Journal(self.path)

    def sell(self, *forms: str, journal: Journal | None = None) -> None:
        for form in forms:
            act = Act("sell", form, "done", "b1", "hour", 1, 300)
            (journal or self.journal).add("anna", "x", [act], till(form))

    def names(self) -> list[str]:
        return [one.name for one in Receipts(self.journal).where("1")]

    def test_numbers_have_no_gap_and_none_is_there_twice(self) -> None:
        self.sell("f1", "f2")
        self.journal.add("anna", "x", [Act("sell", "f3", "no_answer"), Act("look", "", "done", "b1", "hour", 1)], till("f3"))
        self.journal.add("anna", "x", [Act("sell", "f3", "sold_already", "b1", "hour", 1)], till("f3"))
        self.sell("f4", "f4")
        self.journal.add("anna", "x", [Act("refund", "f5", "done", "b1", "hour", 1, 300)], till("f5"))
        found = Receipts(self.journal).where("1")
        self.assertEqual([(one.name, one.form, one.total) for one in found], [
            ("1", "f1", 300), ("2", "f2", 300), ("3", "f4", 300), ("4", "f5", -300)])

    def test_a_kill_at_any_moment_leaves_no_gap_and_begins_no_series(self) -> None:
        draw, printed = random.Random(3), list[str]()
        for start in range(12):
            job = subprocess.Popen([sys.executable, "-c", SELLER, str(self.path), f"s{start}"], stdout=subprocess.PIPE,
                                   text=True, env={**os.environ, "PYTHONPATH": str(FIELD)})
            assert job.stdout
            lines = [job.stdout.readline()]
            time.sleep(draw.uniform(0, 0.05))       # the kill comes wherever it is by then
            job.send_signal(signal.SIGKILL)
            lines += job.stdout.read().splitlines()
            job.wait()
            job.stdout.close()
            printed += [line.strip() for line in lines if line.strip()]
        self.sell("last")
        found = Receipts(self.journal).where("1")
        self.assertEqual([one.name for one in found], [str(place + 1) for place in range(len(found))])
        self.assertEqual(self.journal.asked("SELECT count(*) FROM acts"), [(len(found),)], "one for each line")
        self.assertEqual([form for form in printed if form not in {one.form for one in found}], [])
        self.assertGreater(len(found), 12)

    def test_an_older_journal_begins_a_series_with_a_letter(self) -> None:
        self.sell("f1", "f2")
        copy = self.folder / "copy.db"
        shutil.copy(self.path, copy)
        self.sell("f3")
        shutil.copy(copy, self.path)
        self.sell("g3", "g4")
        self.assertEqual(self.names(), ["1", "2", "A1", "A2"])
        shutil.copy(copy, self.path)        # once more the same one
        self.sell("h3")
        self.assertEqual(self.names(), ["1", "2", "B1"])

    def test_so_does_a_new_journal_and_one_that_came_without_the_second_file(self) -> None:
        self.sell("f1")
        self.path.unlink()
        self.sell("g1")
        self.assertEqual(self.names(), ["A1"])
        (self.folder / "receipts.db").unlink()
        self.sell("h1", "h2")
        self.assertEqual(self.names(), ["A1", "B1", "B2"])

    def test_a_journal_of_before_begins_with_one(self) -> None:
        self.journal.add("anna", "x", [Act("sell", "f0", "done", "b1", "hour", 1, 300)])
        with self.journal.opened() as link:
            link.executescript("".join(f"DROP TABLE {name};" for name in (
                "receipts", "receipt_lines", "receipt_looks", "drawer_acts")))
        self.assertTrue(self.journal.asked("SELECT 1 FROM sqlite_master WHERE name = 'receipts'"))
        self.sell("f1")
        self.assertEqual(self.names(), ["1"])

    def test_letters(self) -> None:
        self.assertEqual([letter_after(series) for series in ("", "A", "Y", "Z", "AA", "AZ", "ZZ")],
                         ["A", "B", "Z", "AA", "AB", "BA", "AAA"])

    def test_what_is_written_is_changed_by_nobody(self) -> None:
        self.sell("f1")
        Receipts(self.journal).look(1, "anna")
        with self.journal.opened() as link:
            link.execute("INSERT INTO drawer_acts VALUES (1, 1, 'anna', 'x', 'o1', '', 'open', 1, 0, 0, '')")
        for table in ("receipts", "receipt_lines", "receipt_looks", "drawer_acts"):
            for text in (f"DELETE FROM {table}", f"UPDATE {table} SET rowid = rowid + 1"):
                with self.assertRaises(sqlite3.IntegrityError, msg=text):
                    self.journal.asked(text)

    def test_receipts_and_lines_are_written_together_or_not_at_all(self) -> None:
        self.sell("f1")
        (self.folder / "receipts.db").unlink()
        (self.folder / "receipts.db").mkdir()
        with self.assertRaises(sqlite3.Error):
            self.sell("f2")
        self.assertEqual((self.names(), len(self.journal.day(datetime.date.today()))), (["1"], 1))


class Taxes(unittest.TestCase):
    def test_net_and_tax_are_gross_and_the_tax_is_rounded_half_away_from_zero(self) -> None:
        """As Python's decimal module rounds."""
        draw = random.Random(5)
        for _ in range(3000):
            rate, gross = draw.choice((0, 250, 700, 770, 810, 1000, 1900, 2000, 2200, draw.randrange(10001))), draw.randrange(
                -10**draw.randrange(1, 9), 10**draw.randrange(1, 9))
            exact = decimal.Decimal(gross) * rate / (10000 + rate)
            tax = int(exact.quantize(decimal.Decimal(1), decimal.ROUND_HALF_UP))
            one = tax_sum(rate, gross)
            self.assertEqual((one.tax, one.net + one.tax, one.gross), (tax, gross, gross), (rate, gross))
        self.assertEqual([tax_sum(10000, gross).tax for gross in (1, 3, -1, -3)], [1, 2, -1, -2], "a half")
        self.assertEqual(tax_sum(None, 300).tax, 0)

    def test_rates_in_the_file(self) -> None:
        text = b'tax = 19\n[hour]\noffered = false\ntax = 8.1\n[day]\ntax = 0\n[tax]\noffered = true\n'
        with self.assertRaises(BadFile):
            plans.read_taxes(text)      # a name is there twice, says TOML
        text = text.replace(b"[tax]\noffered = true\n", b"")
        self.assertEqual((plans.read_taxes(text), plans.read_offers(text)), ({"": 1900, "hour": 810, "day": 0}, {"hour": False}))
        for fault in (b"tax = '19'", b"tax = -1", b"tax = 101", b"tax = true", b"tax = 8.125", b"[hour]\ntax = 'x'", b"tax = nan"):
            with self.assertRaisesRegex(BadFile, "rate in percent", msg=fault):
                plans.read_offers(fault)

    def test_a_receipt_and_sums_of_receipts(self) -> None:
        with tempfile.TemporaryDirectory() as folder:
            journal = Journal(pathlib.Path(folder) / "journal.db")
            rates = {"hour": 1900, "day": 700}
            acts = [Act("sell", f"f1-00{i}", "done", f"b-{plan}", plan, 1, price)
                    for i, (plan, price) in enumerate((("hour", 299), ("hour", 299), ("day", 901), ("gift", 100)), 1)]
            journal.add("anna", "x", acts, Till("f1", "cash", "", rates.get))
            rates["hour"] = 2000
            journal.add("anna", "x", [Act("refund", "r1", "done", "b-hour", "hour", 1, 299)], Till("r1", "cash", "", rates.get))
            sold, back = Receipts(journal).where("1")
            # 598 * 19 / 119 = 95.48, 901 * 7 / 107 = 58.94
            self.assertEqual([(one.rate, one.net, one.tax, one.gross) for one in sold.taxes], [
                (1900, 503, 95, 598), (700, 842, 59, 901), (None, 100, 0, 100)])
            # 299 * 19 / 119 = 47.74: the rate of the sale, though the plan has another one now
            self.assertEqual([(one.rate, one.net, one.tax, one.gross) for one in back.taxes], [(1900, -251, -48, -299)])
            self.assertEqual([(one.rate, one.net, one.tax, one.gross) for one in by_rate([sold, back])], [
                (1900, 252, 47, 299), (700, 842, 59, 901), (None, 100, 0, 100)])


class Rates(AtOnce):
    def test_the_rate_of_all_plans_and_that_of_one(self) -> None:
        for name in ("plans.toml", "offers.toml"):
            (self.folder / name).write_text((FIELD / "settings/plans.toml").read_text() if name == "plans.toml" else "tax = 19\n[day]\ntax = 8.1\n")
        self.conf["plans"] = str(self.folder / "plans.toml")
        self.assertIsNone(self.counter.offers.rate_of("hour"))
        self.counter.load_plans()
        self.assertEqual([self.counter.offers.rate_of(plan) for plan in ("hour", "day")], [1900, 810])
        (self.folder / "offers.toml").write_text("[dya]\ntax = 8.1\n")
        self.counter.load_plans()
        self.assertIn("The file offers.toml names dya, which is no plan.", self.ask("/")[1])


class Printed(AtOnce):
    def receipt(self, answer: str, more: str = "") -> str:
        """The text of the receipt to which an answer leads."""
        place, = re.findall(r'href="(/receipt\?number=\d+)"', answer)
        text = self.ask(place + more, head=ANNA)[1]
        return html.unescape(text.partition('<pre class="receipt">')[2].partition("</pre>")[0])

    def test_a_sale_leads_to_its_receipt(self) -> None:
        self.conf.update(receipt_head=["Main Street 1", "Tax number 12/345"], currency="EUR")
        self.counter.offers.taxes = {"hour": 1900, "day": 700}
        codes = [*self.desk.issue_codes("hour", "b1", 2), *self.desk.issue_codes("day", "b2")]
        answer = self.sell(self.listed(*codes))
        self.assertIn(">Print receipt 1</a>", answer)
        lines = [line.strip() for line in self.receipt(answer).splitlines()]
        self.assertEqual(lines[:3], ["House", "Main Street 1", "Tax number 12/345"])
        for words in ("Receipt 1 +....-..-.. ..:..", "Clerk: anna", "2 x hour, €3.00 +€6.00", "1 x day, €9.00 +€9.00", "Sum +€15.00",
                      "Paid by +Cash", "Tax 19% +€0.96", "Without tax +€5.04", "With tax +€6.00", "Tax 7% +€0.59"):
            self.assertRegex("\n".join(lines), words)
        self.assertNotIn(codes[0], "\n".join(lines))

    def test_it_leads_to_its_lines_in_the_journal_and_to_its_batches(self) -> None:
        codes = [*self.desk.issue_codes("hour", "b1", 2), *self.desk.issue_codes("day", "b2")]
        self.sell(self.listed(*codes))
        text = self.ask("/receipt?number=1", head=ANNA)[1]
        table = text.partition("<h2>In the journal</h2>")[2]
        self.assertEqual(re.findall('<td data-label="Batch"><a href="([^"]*)" aria-label="Batch b[12]">(b[12])</a></td>', table),
                         [("/batch?batch=b1", "b1"), ("/batch?batch=b2", "b2")])
        rows = [re.findall(f'<td data-label="{name}">([^<]*)</td>', table) for name in ("Clerk", "What", "Plan", "Codes", "Sum")]
        self.assertEqual(rows, [["anna"] * 2, ["sold"] * 2, ["hour", "day"], ["2", "1"], ["6.00", "9.00"]])
        self.assertIn(f'href="/cash-up?day={datetime.date.today()}&amp;details=1"', table)
        self.assertNotIn(codes[0], text)
        with mock.patch.object(roles, "role", lambda: CLERK):
            self.assertNotIn("/cash-up", self.ask("/receipt?number=1")[1])
        self.ask("/refund", head=ANNA, code=codes[2], request="r1", amount="900")
        table = self.ask("/receipt?number=2")[1].partition("<h2>In the journal</h2>")[2]
        self.assertEqual(table.count('<td data-label="What">refunded</td>'), 1)

    def test_it_is_a_copy_from_the_second_time_on(self) -> None:
        code, = self.desk.issue_codes("hour", "b1")
        answer = self.ask("/sell", head=ANNA, code=code, request="s1")[1]
        self.assertNotIn("COPY", self.receipt(answer))
        for more in ("", "&size=receipt58"):
            self.assertIn("COPY, printed ", self.receipt(answer, more))
        self.assertIn('href="/receipt?number=1"', self.ask("/sell", head=ANNA, code=code, request="s1")[1], "of a repetition, too")
        self.assertEqual(self.ask("/receipt?number=2")[0], 400)

    def test_each_line_fits_its_paper_which_is_as_long_as_they_are(self) -> None:
        self.conf.update(house="A very long name of a hostel that nobody would print", receipt_head=["利用規約の税番号" * 5], currency="EUR")
        codes = self.desk.issue_codes("gigabyte", "b1", 3)
        answer = self.sell(self.listed(*codes))
        for size, columns, paper in (("receipt80", 48, 80), ("receipt58", 32, 58)):
            lines = self.receipt(answer, f"&size={size}").splitlines()
            self.assertLessEqual(max(map(receipt_text.width, lines)), columns, lines)
            self.assertIn("nobody would print", " ".join(" ".join(lines).split()))
            style = self.ask(f"/receipt.css?size={size}&lines={len(lines)}")[1]
            high = float(re.findall(rf"@page {{ size: {paper}mm ([0-9.]+)mm", style)[0])
            self.assertTrue(len(lines) * 3.2 < high < len(lines) * 3.2 + 20, (high, len(lines)))
        self.conf["receipt_size"] = "receipt58"
        text = self.ask("/receipt?number=1")[1]
        self.assertIn("receipt.css?size=receipt58", text)
        self.assertIn('href="/counter.css"', text, "the page around it is a page of the counter")

    def test_a_form_that_broke_off_has_a_receipt_of_each_part(self) -> None:
        codes = self.desk.issue_codes("hour", "b1", 3)
        text = self.listed(*codes)
        with self.breaks(Routes.SELL, 1, NoAnswer("cut"), False):
            self.assertIn("Send it again", self.sell(text))
        answer = self.sell(text)
        self.assertEqual(re.findall(r">Print receipt (\d+)<", answer), ["1", "2"])
        self.assertEqual([(one.total, one.form) for one in Receipts(self.journal).where("1")], [
            (300, self.fields(text, "sell-several")["request"]), (600, self.fields(text, "sell-several")["request"])])

    def test_a_killed_counter_takes_no_number(self) -> None:
        codes = self.desk.issue_codes("hour", "b1", 2)
        text = self.listed(*codes)
        with self.breaks(Routes.SELL, 1, Killed()):
            self.killed("sell-several", self.fields(text, "sell-several"))
        self.assertEqual(Receipts(self.journal).where("1"), [])
        self.assertIn("Take 6.00.", self.sell(text))
        self.assertEqual([(one.name, one.total) for one in Receipts(self.journal).where("1")], [("1", 600)])

    def test_the_list_of_receipts(self) -> None:
        code, = self.desk.issue_codes("hour", "b1")
        self.assertIn("None.", self.ask("/receipts")[1])
        self.ask("/sell", head=ANNA, code=code, request="s1")
        text = self.ask("/receipts")[1]
        self.assertIn('href="/receipt?number=1" aria-label="Print receipt 1"', text)
        self.assertIn('<td data-label="Sum">3.00</td>', text)


class Payments(AtOnce):
    def setUp(self) -> None:
        super().setUp()
        self.conf["payments"] = ["cash", "card", "Voucher of the town"]

    def kinds(self) -> list[str]:
        return [one.payment for one in Receipts(self.journal).where("1")]

    def test_with_one_kind_nothing_is_asked(self) -> None:
        self.conf["payments"] = ["cash"]
        code, = self.desk.issue_codes("hour", "b1")
        for page in (self.see(f"/voucher?code={code}")[1], self.ask("/")[1], self.ask("/sell-batch?batch=b1")[1]):
            self.assertNotIn('name="payment"', page)
        self.ask("/sell", head=ANNA, code=code, request="s1")
        self.assertEqual(self.kinds(), ["cash"])

    def test_each_form_of_money_has_a_button_for_each_kind_the_first_for_enter(self) -> None:
        code, other, third = self.desk.issue_codes("hour", "b1", 3)
        sold, = self.desk.sell_codes("hour", "b2")
        wanted = ["cash", "card", "Voucher of the town"]
        for place, text in (("now", self.ask("/")[1]), ("sell", self.see(f"/voucher?code={code}")[1]), ("sell-several", self.listed(code, other)),
                            ("sell-batch", self.ask("/sell-batch?batch=b1")[1]), ("refund", self.see(f"/refund?code={sold}")[1]),
                            ("refund-batch", self.ask("/refund-batch?batch=b2")[1])):
            form = text.partition(f'action="/{place}"')[2].partition("</form>")[0]
            self.assertEqual(re.findall('<button name="payment" value="([^"]*)"', form), wanted, place)
            self.assertEqual(form.count("<button"), 3, place)
        self.assertNotIn('name="payment"', self.ask("/close?session=1")[1])

    def test_the_kind_is_kept_and_said(self) -> None:
        code, other = self.desk.issue_codes("hour", "b1", 2)
        text = self.ask("/sell", head=ANNA, code=code, request="s1", payment="card")[1]
        self.assertIn("Print receipt 1 (Card)", text)
        self.ask("/refund", head=ANNA, code=code, request="r1", payment="card")
        self.ask("/now", head=ANNA, plan="hour", batch="one-1", request="n1", payment="Voucher of the town")
        self.ask("/sell", head=ANNA, code=other, request="s2")
        self.assertEqual(self.kinds(), ["card", "card", "Voucher of the town", "cash"])

    def test_a_kind_that_the_venue_does_not_have_sells_nothing_and_the_code_stays(self) -> None:
        code, = self.desk.issue_codes("hour", "b1")
        status, text = self.ask("/sell", head=ANNA, code=code, request="s1", payment="seashells")
        self.assertEqual((status, "The venue has no kind of payment “seashells”." in text, f'value="{code}"' in text), (409, True, True))
        self.assertIsNone(self.desk.voucher(code)["sold"])

    def test_a_form_in_doubt_goes_on_with_its_kind_though_the_list_was_changed(self) -> None:
        code, = self.desk.issue_codes("hour", "b1")
        self.relay.cuts = True
        text = self.ask("/sell", head=ANNA, code=code, request="s1", payment="card")[1]
        self.relay.cuts = False
        self.conf["payments"] = ["cash"]
        self.assertIn("Take 3.00.", self.ask("/sell", head=ANNA, **self.fields(text, "sell"))[1])
        self.assertEqual(self.kinds(), ["card"])

    def test_a_second_press_of_another_kind_changes_nothing(self) -> None:
        code, = self.desk.issue_codes("hour", "b1")
        for kind in ("cash", "card"):
            self.ask("/sell", head={**ANNA, "Sec-Fetch-Mode": "navigate"}, code=code, request="s1", payment=kind)
        self.assertEqual(self.kinds(), ["cash"])


class CashUp(AtOnce):
    def test_a_day_by_kind_of_payment_and_rate(self) -> None:
        self.conf["payments"] = ["cash", "card"]
        self.counter.offers.taxes = {"hour": 1900}
        codes = self.desk.issue_codes("hour", "b1", 3)
        self.journal.add("anna", "x", [Act("sell", "old", "done", "b0", "day", 1, 900)])       # of an earlier version
        for i, kind in enumerate(("cash", "card", "card")):
            self.ask("/sell", head=ANNA, code=codes[i], request=f"s{i}", payment=kind)
        self.ask("/refund", head=ANNA, code=codes[2], request="r1", payment="cash")
        text = self.ask("/cash-up")[1]
        table = text.partition("By kind of payment")[2].partition("</table>")[0]
        rows = re.findall(r"<td[^>]*>(.*?)</td>", table)
        self.assertEqual([rows[i:i + 6] for i in range(0, len(rows), 6)], [
            ["Cash", "1", "3.00", "1", "3.00", "0.00"], ["Card", "2", "6.00", "0", "0.00", "6.00"],
            ["without a receipt", "1", "9.00", "0", "0.00", "9.00"]])
        rates = text.partition("By rate of tax")[2].partition("</table>")[0]
        # two receipts of 3.00 and their tax of 0.48 each stay
        self.assertEqual(re.findall(r"<td[^>]*>(.*?)</td>", rates), ["19%", "5.04", "0.96", "6.00"])

    def test_what_remains_of_several_kinds_is_not_all_in_the_drawer(self) -> None:
        self.conf["payments"] = ["cash", "card"]
        codes, day = self.desk.issue_codes("hour", "b1", 3), datetime.date.today()
        for i, kind in enumerate(("cash", "card", "card")):
            self.ask("/sell", head=ANNA, code=codes[i], request=f"s{i}", payment=kind)
        for text in (self.ask(f"/takings?from={day}&to={day}")[1], self.ask("/cash-up")[1], daily_report.report(self.counter, day)):
            self.assertIn("Remains", text)
            self.assertNotIn("In the drawer", text)
        text = daily_report.report(self.counter, day)
        for words in ("Payment +Vouchers sold", r"Cash +1 +3\.00 +0 +0\.00 +3\.00\n", r"Card +2 +6\.00 +0 +0\.00 +6\.00\n"):
            self.assertRegex(text, words)
        self.conf["payments"] = ["cash"]
        self.assertIn("In the drawer", self.ask(f"/takings?from={day}&to={day}")[1])

    def test_the_printed_page_has_venue_time_a_line_to_sign_and_sums_alone(self) -> None:
        code, = self.desk.issue_codes("hour", "b1")
        self.ask("/sell", head=ANNA, code=code, request="s1")
        text = self.ask("/cash-up", head=ANNA)[1]
        self.assertRegex(text, r'<p class="paper">House – printed \d{4}-\d\d-\d\d \d\d:\d\d by anna</p>')
        self.assertIn('<p class="paper signature">Date, signature</p>', text)
        self.assertNotIn('data-label="Answer"', text)
        place, = re.findall(r'href="(/cash-up\?[^"]*details=1)"', text)
        details = self.ask(html.unescape(place), head=ANNA)[1]
        self.assertEqual(('data-label="Answer"' in details, "s1" in re.findall(">([^<]*)</td>", details)), (True, False))

    def test_files_have_the_separator_of_the_venue(self) -> None:
        self.conf["payments"] = ["cash", "card"]
        code, = self.desk.issue_codes("hour", "b1")
        self.ask("/sell", head=ANNA, code=code, request="s1", payment="card")
        day = datetime.date.today()
        for language, named, cell, comma in (("en", "", "3.00", ","), ("de", "", "3,00", ";"), ("de", ",", "3.00", ","),
                                             ("en", ";", "3,00", ";"), ("en", "\t", "3.00", "\t")):
            self.conf.update(language=language, csv_separator=named)
            self.counter.__post_init__()
            text = self.ask(f"/takings.csv?from={day}&to={day}")[1]
            self.assertEqual(text.splitlines()[1].split(comma), [str(day), "1", cell, "0", cell.replace("3", "0"), cell])
            lines = self.ask(f"/cash-up.csv?day={day}")[1].removeprefix("\ufeff").splitlines()
            self.assertEqual(lines[0].split(comma), ["day", "group", "name", "what", "value"])
            self.assertIn(comma.join((str(day), "payment", {"en": "Card", "de": "Karte"}[language], "sales", cell)), lines)
            self.assertIn(comma.join((str(day), "server", "", "net", cell)), lines)


if __name__ == "__main__":
    unittest.main()
