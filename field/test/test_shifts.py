"""A drawer and its shifts: opened with a float, closed with what was counted, and what is in it between."""

from __future__ import annotations

import datetime
import html
import pathlib
import re
import tempfile
import threading
import unittest
from typing import Any

from desk_process import Routes
from test_front import UnixLink
from test_several import ANNA, AtOnce

from portal_field.counter.journal import Journal
from portal_field.counter.shifts import NotThen, Shifts, hundredths

BEN = {"X-User": "ben", "X-Real-IP": "10.88.0.3"}


class AtDrawer(AtOnce):
    """A counter with a drawer."""

    def shifts(self) -> Shifts:
        return Shifts(self.journal)

    def form(self, action: str, head: Any = None) -> dict[str, str]:
        """The hidden fields of a form of the drawer's page."""
        return self.fields(self.ask("/shift", head=head or ANNA)[1], action)

    def opens(self, amount: str, head: Any = None) -> None:
        """Opens a shift."""
        place = self.place_of("/shift-open", head or ANNA, **self.form("shift-open", head), float=amount)
        self.assertEqual(place, "/shift?said=open")

    def moves(self, move: str, amount: str, reason: str) -> None:
        """Puts money in, or takes it out."""
        place = self.place_of("/shift-move", ANNA, **self.form("shift-move"), move=move, amount=amount, reason=reason)
        self.assertEqual(place, f"/shift?said={move}")

    def compared(self, counted: str, head: Any = None) -> str:
        """The page that compares what was counted."""
        shift = re.findall('name="shift" value="([0-9]+)"', self.ask("/shift", head=head or ANNA)[1])[0]
        return self.ask(f"/shift-close?shift={shift}&counted={counted}", head=head or ANNA)[1]

    def closes(self, counted: str, note: str = "", head: Any = None) -> str:
        """Closes the shift; its paper."""
        form = self.fields(self.compared(counted, head), "shift-close")
        return self.ask(self.place_of("/shift-close", head or ANNA, **form, note=note), head=head or ANNA)[1]

    def facts(self, text: str) -> dict[str, str]:
        """The lines of a page's first table."""
        table = text.partition("<table>")[2].partition("</table>")[0]
        return {html.unescape(name): html.unescape(value) for name, value in re.findall(r'<th scope="row">(.*?)</th><td>(.*?)</td>', table)}

    def sells(self, plan: str, head: Any = None, **more: str) -> str:
        """Sells a voucher of a plan; its code."""
        batch = f"b{len(self.journal.asked('SELECT 1 FROM acts'))}"
        code, = self.desk.issue_codes(plan, batch)
        self.assertIn("Take ", self.ask("/sell", head=head or ANNA, code=code, request=f"s-{batch}", **more)[1])
        return code


class Shown(AtDrawer):
    def test_a_venue_that_opens_no_shift_sells_as_before_and_no_page_speaks_of_one(self) -> None:
        self.sells("hour")
        for path in ("/", "/vouchers", "/sessions"):
            self.assertNotIn("/shift", self.ask(path, head=ANNA)[1])
        self.assertEqual(self.journal.asked("SELECT drawer, shift FROM receipts"), [("", 0)])
        self.assertNotIn("<h3>Shifts</h3>", self.ask("/cash-up")[1])

    def test_a_shift_adds_up(self) -> None:
        self.conf["payments"] = ["cash", "card"]
        self.opens("100,50")
        self.assertIn("shift since ", self.ask("/", head=BEN)[1])
        hour = self.sells("hour")
        self.sells("day", BEN)
        self.sells("gigabyte", BEN, payment="card")
        self.ask("/refund", head=BEN, code=hour, request="r1", payment="cash")
        self.moves("in", "20", "coins from the bank")
        self.moves("out", "7.25", "milk")
        facts = self.facts(self.ask("/shift", head=ANNA)[1])
        self.assertEqual([facts[name] for name in ("Money in the drawer at the beginning", "Sold for cash", "Refunded in cash",
                                                   "Put in", "Taken out", "Should be there")],
                         ["100.50", "12.00", "-3.00", "20.00", "-7.25", "122.25"])
        text = self.compared("122.00", BEN)
        self.assertEqual([self.facts(text)[name] for name in ("Should be there", "Counted in the drawer", "Difference")],
                         ["122.25", "122.00", "0.25 missing"])
        text = self.closes("122", "a coin fell down", BEN)
        facts = self.facts(text)
        self.assertEqual((facts["Difference"], facts["Note"]), ("0.25 missing", "a coin fell down"))
        self.assertRegex(facts["Opened"] + "|" + facts["Closed"], r"^\S+ \S+, anna\|\S+ \S+, ben$")
        self.assertIn("Receipts 1 to 4", text)
        for words in ('class="paper signature"', ">Card<", "coins from the bank", "milk"):
            self.assertIn(words, text)
        shift, = self.shifts().newest()
        assert shift.closed
        self.assertEqual((shift.closed.sum, shift.closed.due, shift.difference), (12200, 12225, -25))
        self.assertIn("No shift is open", self.ask("/", head=ANNA)[1])
        self.assertIn('name="float" required inputmode="decimal" autocomplete="off" value="122.00"', self.ask("/shift")[1], "begins with it")

    def test_what_is_sold_between_shifts_is_in_none(self) -> None:
        self.opens("10")
        self.sells("hour")
        self.closes("13")
        self.sells("day")
        self.opens("13")
        self.sells("hour")
        self.assertEqual(self.journal.asked("SELECT shift FROM receipts ORDER BY number"), [(1,), (0,), (3,)])
        self.assertEqual(self.facts(self.ask("/shift")[1])["Should be there"], "16.00")
        rows = re.findall(r'<td data-label="Difference">(.*?)</td>', self.ask("/cash-up")[1])
        self.assertEqual(rows, ["0.00", "–"])
        lines = self.ask(f"/cash-up.csv?day={datetime.date.today()}")[1].splitlines()
        self.assertIn(f"{datetime.date.today()},shift,3,due,16.00", lines)

    def test_in_german(self) -> None:
        self.conf.update(language="de", currency="EUR")
        self.counter.__post_init__()
        self.opens("10,5")
        text = self.compared("10,50")
        self.assertEqual((self.facts(text)["Soll"], self.facts(text)["Differenz"]), ("10,50\xa0€", "keine"))
        self.assertEqual(self.place_of("/shift-close", ANNA, **self.fields(text, "shift-close")), "/slip?shift=1")
        self.assertIn('value="10,50"', self.ask("/shift", head=ANNA)[1])


class Refused(AtDrawer):
    def test_amounts(self) -> None:
        self.assertEqual([hundredths(text) for text in ("0", "12", "12.5", "12,50", "0,05", "1000000")], [0, 1200, 1250, 1250, 5, 10**8])
        for text in ("", "x", "-1", "1.234", "1,000.00", "1 000", "1000000.01", "12345678", "١", "1."):
            self.assertIsNone(hundredths(text), text)

    def test_an_amount_that_is_none_is_said_at_its_field_and_stays(self) -> None:
        status, text = self.ask("/shift-open", head=ANNA, **self.form("shift-open"), float="a lot")
        self.assertEqual((status, "Money in the drawer at the beginning: “a lot”." in text, "An amount of money such as" in text), (400, True, True))
        self.assertRegex(text, 'name="float" [^>]*value="a lot" aria-invalid="true"')
        self.opens("1")
        for amount, reason, words in (("0", "x", "Amount: “0”."), ("", "x", "Amount: nothing."), ("5", "", "Type the reason.")):
            form = {key: value for key, value in {**self.form("shift-move"), "move": "in", "amount": amount, "reason": reason}.items() if value}
            status, text = self.ask("/shift-move", head=ANNA, **form)
            self.assertEqual((status, words in text, "aria-invalid" in text), (400, True, True), (amount, reason))
            self.assertIn(f'name="amount" required inputmode="decimal" autocomplete="off" value="{amount}"', text)
        self.assertEqual(self.ask("/shift-close?shift=1&counted=x")[0], 400)
        self.assertEqual(len(self.journal.asked("SELECT 1 FROM drawer_acts")), 1)

    def test_a_code_is_no_reason_and_no_note(self) -> None:
        code, = self.desk.issue_codes("hour", "b1")
        self.opens("1")
        text = self.ask("/shift-move", head=ANNA, **self.form("shift-move"), move="in", amount="1", reason=code)[1]
        self.assertEqual(("This was scanned, and is no reason." in text, code in text), (True, False))
        form = self.fields(self.compared("1"), "shift-close")
        status, text = self.ask("/shift-close", head=ANNA, **form, note=code)
        self.assertEqual((status, code in text), (400, False))
        self.assertNotIn(code.encode(), pathlib.Path(self.journal.path).read_bytes())

    def test_a_sale_between_the_page_and_the_press_is_said(self) -> None:
        self.opens("10")
        form = self.fields(self.compared("10"), "shift-close")
        self.sells("hour", BEN)
        status, text = self.ask("/shift-close", head=ANNA, **form, note="all well")
        self.assertEqual((status, "Something was sold or refunded meanwhile." in text, self.facts(text).get("Difference")), (409, True, "3.00 missing"))
        self.assertIn('value="all well"', text)
        again = self.fields(text, "shift-close")
        self.assertEqual(self.place_of("/shift-close", ANNA, **again, note="all well"), "/slip?shift=1")

    def test_forms_that_are_sent_again_do_nothing_again(self) -> None:
        form = self.form("shift-open")
        for _ in range(2):
            self.assertEqual(self.place_of("/shift-open", ANNA, **form, float="10"), "/shift?said=open")
        other = {**form, "request": "another"}
        self.assertIn("This drawer has an open shift already.", self.ask("/shift-open", head=BEN, **other, float="20")[1])
        form = self.form("shift-move")
        for _ in range(2):
            self.place_of("/shift-move", ANNA, **form, move="in", amount="5", reason="coins")
        form, late = (self.fields(self.compared("15"), "shift-close") for _ in range(2))
        for _ in range(2):
            self.assertEqual(self.place_of("/shift-close", ANNA, **form), "/slip?shift=1")
        self.assertIn("This shift is not open any more.", self.ask("/shift-close", head=BEN, **late)[1])
        self.assertEqual(self.journal.asked("SELECT act, sum FROM drawer_acts ORDER BY number"), [
            ("open", 1000), ("in", 500), ("close", 1500)])

    def test_two_clerks_who_close_at_once_close_it_once(self) -> None:
        self.opens("10")
        forms, places = [self.fields(self.compared("10"), "shift-close") for _ in range(6)], list[str]()
        jobs = [threading.Thread(target=lambda form=form: places.append(self.place_of("/shift-close", ANNA, **form))) for form in forms]
        for job in jobs:
            job.start()
        for job in jobs:
            job.join()
        self.assertEqual(sorted(places), [""] * 5 + ["/slip?shift=1"])

    def test_a_journal_that_cannot_be_written_opens_none_and_says_so(self) -> None:
        form = self.form("shift-open")
        path = pathlib.Path(self.journal.path)
        path.unlink(missing_ok=True)
        self.journal.path = str(self.folder / "nowhere/journal.db")
        self.assertEqual(self.ask("/", head=ANNA)[0], 200)
        self.assertIn("The journal", self.ask("/shift-open", head=ANNA, **form, float="10")[1])
        self.journal.path = str(path)
        self.assertEqual(self.shifts().newest(), [])

    def test_what_is_not_there(self) -> None:
        for path in ("/slip", "/slip?shift=7", "/shift-close?shift=7&counted=1", "/receipt?number=x"):
            self.assertEqual(self.ask(path)[0], 400, path)


class Several(AtDrawer):
    def setUp(self) -> None:
        super().setUp()
        self.conf["drawers"] = ["Front desk", "Bär"]

    def chosen(self, name: str) -> dict[str, str]:
        """The headers of a browser beside a drawer."""
        link = UnixLink(self.path)
        link.request("POST", "/drawer", f"drawer={name}".encode(), {**ANNA, "Host": "counter.example", "Origin": "https://counter.example"})
        answer = link.getresponse()
        answer.read()
        link.close()
        cookie = str(answer.headers["Set-Cookie"])
        for words in ("HttpOnly", "Secure", "SameSite=Strict"):
            self.assertIn(words, cookie)
        return {**ANNA, "Cookie": cookie.partition(";")[0]}

    def test_each_computer_is_told_its_drawer_once_and_says_which(self) -> None:
        self.assertIn("No drawer is chosen", self.ask("/", head=ANNA)[1])
        text = self.ask("/shift", head=ANNA)[1]
        self.assertEqual((re.findall("<option>(.*?)</option>", text), 'action="/shift-open"' in text), (["Front desk", "Bär"], False))
        front, bar = self.chosen("Front desk"), self.chosen("Bär")
        self.opens("10", front)
        self.opens("20", bar)
        self.sells("hour", front)
        self.sells("day", bar)
        self.sells("gigabyte", ANNA)
        self.assertEqual(self.journal.asked("SELECT drawer, shift FROM receipts ORDER BY number"), [("Front desk", 1), ("Bär", 2), ("", 0)])
        self.assertIn("Bär: shift since", self.ask("/", head=bar)[1])
        self.assertEqual([self.facts(self.ask(f"/slip?shift={shift}")[1])["Should be there"] for shift in (1, 2)], ["13.00", "29.00"])
        self.assertEqual(self.facts(self.closes("29", head=bar))["Drawer"], "Bär")
        self.assertTrue(self.shifts().open_one("Front desk"))

    def test_a_drawer_that_the_venue_does_not_have_is_none(self) -> None:
        self.assertEqual(self.ask("/drawer", head=ANNA, drawer="Attic")[0], 400)
        self.assertIn("No drawer is chosen", self.ask("/", head={**ANNA, "Cookie": "drawer=Attic"})[1])
        self.assertEqual(self.ask("/shift-open", head=ANNA, float="1", request="o1")[0], 400)


class Written(unittest.TestCase):
    def test_a_shift_is_opened_and_closed_once(self) -> None:
        with tempfile.TemporaryDirectory() as folder:
            shifts = Shifts(Journal(pathlib.Path(folder) / "journal.db"))
            shifts.write("open", "", 100, "", ("anna", "x", "1"))
            for act, number, shift, due, word in (("open", "2", 0, None, "open"), ("close", "3", 9, 100, "closed"), ("close", "4", 1, 99, "due")):
                with self.assertRaises(NotThen) as fault:
                    shifts.write(act, "", 1, "", ("anna", "x", number), shift, due)
                self.assertEqual(fault.exception.word, word)
            shifts.write("close", "", 100, "", ("anna", "x", "5"), 1, 100)
            with self.assertRaises(NotThen):
                shifts.write("in", "", 100, "x", ("anna", "x", "6"), 1)


class Marks(AtDrawer):
    """What the pages say of codes of a batch that is marked as lost."""

    def test_the_list_the_table_and_the_page_of_a_voucher_say_it_before_the_sale(self) -> None:
        codes, other = self.desk.issue_codes("hour", "b1", 2), self.desk.issue_codes("day", "b2")
        self.ask("/issue", head=ANNA, batch="b3", plan="hour", count="1", request="i1")
        asks_first = "Enter asks first, since the batch is marked as lost; or scan the next code"
        sells = "Enter sells this voucher; or scan the next code to sell both"
        before = self.see(f"/voucher?code={codes[0]}")[1]
        self.assertEqual((asks_first in before, sells in before), (False, True))
        for batch in ("b1", "b3"):
            form = self.fields(self.ask(f"/lost?batch={batch}", head=ANNA)[1], "lost")
            self.ask("/lost", head=ANNA, **form, reason="left in the bus")
        text = self.see(f"/voucher?code={codes[0]}")[1]
        self.assertEqual((asks_first in text, sells in text), (True, False))
        self.assertEqual(self.rows(self.listed(codes[1], *other)), [
            (codes[1], "3.00. Marked as lost: its sale asks first."), (other[0], "9.00")])
        for page in ("/vouchers", "/batches"):
            cells = re.findall('<td data-label="Batch"[^>]*>(.*?)</td>', self.ask(page)[1])
            self.assertEqual([re.sub("<[^>]*>", "", cell) for cell in cells], ["b3 – Marked as lost", "b2", "b1 – Marked as lost"], page)
        self.desk.desk.request_json(Routes.SELL, body={"code": codes[0]})
        self.assertNotIn("Marked as lost: its sale", self.rows(self.listed(*other, codes[0]))[1][1])


if __name__ == "__main__":
    unittest.main()
