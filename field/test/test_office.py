"""The page of the office: what it shows of the view in PostgreSQL, who may see it, and that nothing else changes where there is
no PostgreSQL."""

from __future__ import annotations

import csv
import datetime
import html
import io
import json
import pathlib
import re
import socket
import tempfile
import time
import unittest
from collections.abc import Callable
from typing import Any
from unittest import mock

from at_entrance import Answer, ClerksBrowser, answer_each_in_test, put_accounts, quick_hash
from desk_process import FIELD
from needs import NEEDS, needs
from own_postgres import OwnPostgres
from test_logins import AtEntrance

from portal_field.counter import parts_client, roles, silent_reasons
from portal_field.counter.page import pages
from portal_field.lib import refusals
from portal_field.lib.languages import Language
from portal_field.settings import kinds
from portal_field.settings.accounts import CLERK, FILE, MANAGER, OFFICE, Account, Accounts
from portal_field.settings.venue import Field
from portal_field.venues import collect, files, office, report, table, view
from portal_field.venues.places import Machine

LINES = 'house = "{1}"\nname = "wifi.example"\ncounter_name = "{0}.example"\nzone = "UTC0"\ndesk_port = {2}\ncurrency = "{3}"\n'
WORD = "olgas-long-word"
VENUES = {"north": ("North Hostel", "EUR"), "south": ("South <Inn>", "EUR"), "east": ("East", "CZK")}
MONDAY = datetime.date(2026, 11, 16)
DAY = datetime.timedelta(1)


class Chain(OwnPostgres):
    """A view of three venues on two machines, filled by hand, and the role of the page."""

    @classmethod
    def setUpClass(cls) -> None:
        super().setUpClass()
        with view.opened(cls.machine("one")) as link:
            link.execute(f'CREATE ROLE "{office.ROLE}" LOGIN')

    @classmethod
    def machine(cls, name: str) -> Machine:
        """A machine of the chain."""
        return Machine("127.0.0.1", database=f"host={cls.folder} user=chain dbname=postgres", machine=name)

    def address(self, role: str = "chain") -> str:
        return f"host={type(self).folder} user={role} dbname=postgres"      # a test of the page has a folder of its own

    def setUp(self) -> None:
        super().setUp()
        with view.opened(self.machine("one")) as link:
            link.execute("TRUNCATE portal.venue, portal_view.reader")
            link.execute("TRUNCATE portal_view.venue CASCADE")
        for port, (name, words) in enumerate(VENUES.items(), 20001):
            table.add(self.machine("two" if name == "east" else "one"), name, LINES.format(name, words[0], port, words[1]))
        with view.opened(self.machine("one")) as link:
            view.venues_of(link, self.machine("one"))
            for name in VENUES:
                view.note_tried(link, name, "", True, ends=datetime.datetime(2027, 3, 1, tzinfo=datetime.UTC))
            rows: dict[str, list[tuple[Any, ...]]] = {
                "north": [(MONDAY - 3 * DAY, 2, 1000, 1, 100, True, False), (MONDAY, 3, 1500, 0, 0, True, False),
                          (MONDAY + 6 * DAY, 1, 250, 1, 500, True, True)],
                "south": [(MONDAY, 1, 700, 0, 0, True, False)]}
            for name, these in rows.items():
                view.put(link, "takings", name, these)
        self.read(view.ALL)

    def read(self, *venues: str) -> None:
        """Lets the role of the page read these venues and no other."""
        with view.opened(self.machine("one")) as link:
            view.set_reader(link, office.ROLE, venues)

    def change(self, query: str, *words: object) -> None:
        """Changes the view, as its owner."""
        with view.opened(self.machine("one")) as link:
            link.execute(query, words)

    def answer(self, role: str = office.ROLE, **question: object) -> dict[str, Any]:
        """What the unit answers to a question."""
        return office.answer(json.dumps(question).encode(), self.address(role))


@needs("postgresql", "python3-psycopg", *NEEDS["quick"])
class Reader(Chain):
    def test_a_week_has_every_venue_and_both_weeks(self) -> None:
        found = self.answer(ask="week", monday=str(MONDAY))
        self.assertEqual([row[0] for row in found["venues"]], ["east", "north", "south"], "by their houses")
        self.assertEqual([(row[0], row[3], row[8]) for row in found["takings"]],
                         [("north", "2026-11-13", 900), ("north", "2026-11-16", 1500), ("north", "2026-11-22", -250), ("south", "2026-11-16", 700)])
        self.assertEqual(found["certificates"], [["one", 1803859200], ["two", 1803859200]])
        self.assertEqual((found["silent"], found["older"], found["changed"]), ([], [], []))

    def test_the_rows_are_those_of_its_role(self) -> None:
        self.read("south")
        found = self.answer(ask="week", monday=str(MONDAY))
        self.assertEqual(([row[0] for row in found["venues"]], [row[0] for row in found["takings"]]), (["south"], ["south"]))
        self.read()
        self.assertIn("permission denied", self.answer(ask="week", monday=str(MONDAY))["fault"])
        self.assertIn("the role chain sees all rows", self.answer("chain", ask="week", monday=str(MONDAY)).get("fault", ""))

    def test_it_reads_alone(self) -> None:
        import psycopg
        with self.assertRaises(office.Fault) as caught, office.opened(self.address(office.ROLE)) as link:
            link.execute("CREATE TEMP TABLE x (y int)")
        self.assertIn("read-only transaction", str(caught.exception))
        self.assertTrue(issubclass(psycopg.errors.ReadOnlySqlTransaction, psycopg.Error))

    def test_questions_that_are_none(self) -> None:
        questions: list[dict[str, object]] = [
            {}, {"ask": "all"}, {"ask": "week"}, {"ask": "week", "monday": 1}, {"ask": "week", "monday": "x"},
            {"ask": "takings", "from": "2026-01-01"}, {"ask": "takings", "from": "2020-01-01", "to": "2026-01-01"}]
        for question in questions:
            self.assertEqual(list(office.answer(json.dumps(question).encode(), self.address())), ["fault"], question)
        for data in (b"", b"x", b"[]", b"\xff", b"[" * 100_000):
            self.assertEqual(list(office.answer(data, self.address())), ["fault"])

    def test_postgresql_that_is_away_is_said(self) -> None:
        self.assertIn("No such file", office.answer(b'{"ask": "week", "monday": "2026-11-16"}', "host=/nowhere")["fault"])


class Reasons(unittest.TestCase):
    """What the collector says of a silent venue, in German."""

    def german(self, silent: str = "", *faults: str) -> str:
        return silent_reasons.in_words(Language("de", "counter").say, collect.Result("north", silent=silent, faults=list(faults)).fault)

    def test_what_a_server_does_that_is_silent(self) -> None:
        for silent, words in (
                ("timed out", "sein Server hat nicht rechtzeitig geantwortet (timed out)"),
                ("Remote end closed connection without response",
                 "sein Server endete während der Antwort (Remote end closed connection without response)"),
                ("an answer that is no JSON", "an seinem Port antwortet ein anderes Programm (an answer that is no JSON)"),
                ("forbidden", Language("de", "counter").say(refusals.of_word("forbidden").cause).rstrip(".")),
                ("[Errno 24] Too many open files", "[Errno 24] Too many open files")):
            self.assertEqual(self.german(silent), f"es ist stumm: {words}")

    def test_what_is_not_read_and_what_nobody_translates(self) -> None:
        self.assertEqual(self.german("", "its database is not read: SQLite cannot read it: file is not a database"),
                         "seine Datenbank wird nicht gelesen: SQLite kann sie nicht lesen (SQLite cannot read it: file is not a database)")
        self.assertEqual(self.german("", "its settings are not on this machine: portal-venues apply"),
                         "seine Einstellungen sind nicht auf dieser Maschine: portal-venues apply")
        self.assertEqual((self.german("", "zone is missing"), self.german()), ("zone is missing", ""))

    def test_each_of_these_words_is_one_of_the_collector_or_of_the_view(self) -> None:
        said = pathlib.Path(collect.__file__).read_text() + (FIELD / "venues/view.sql").read_text()
        for words in (*silent_reasons.WHOLE, *silent_reasons.WITH_DETAIL):
            self.assertIn(words, said)


class Address(unittest.TestCase):
    """How the page reaches the view, by venues.toml."""

    def address(self, **lines: str) -> str:
        return files.office_address(Machine("127.0.0.1", **lines))     # type: ignore[arg-type]

    @needs("python3-psycopg")
    def test_it_is_a_role_of_its_own_without_the_owners_password(self) -> None:
        self.assertEqual(self.address(), "")
        self.assertEqual(self.address(office_database="host=x"), "", "no table of venues, no view")
        words = self.address(database="host=db.example user=root password=secret dbname=portal").split()
        self.assertEqual(set(words), {"host=db.example", "dbname=portal", "user=portal-office"})
        self.assertEqual(self.address(database="host=x", office_database="host=y user=z"), "host=y user=z")

    @needs("python3-psycopg")
    def test_its_file_is_there_while_there_is_a_view(self) -> None:
        with tempfile.TemporaryDirectory() as folder:
            root, path = pathlib.Path(folder), pathlib.Path(folder, "etc/portal/venues/office.toml")
            venue = Field.read((FIELD / "settings/field.toml").read_text())
            for database, is_there in (("host=x", True), ("", False)):
                files.make_shared({"north": venue}, Machine("127.0.0.1", database=database), root)
                self.assertEqual(path.exists(), is_there)
                if is_there:
                    self.assertEqual((path.stat().st_mode & 0o777, "portal-office" in path.read_text()), (0o640, True))


@needs("postgresql", "python3-psycopg", *NEEDS["quick"])
class Page(AtEntrance, Chain):
    """The counter's page before the view: Olga is of the office, Anna a manager, Ben a clerk."""

    def setUp(self) -> None:
        AtEntrance.setUp(self)
        Chain.setUp(self)
        put_accounts(self.folder, Account("olga", OFFICE, quick_hash(WORD)))
        self.conf["office"] = str(self.folder / "office")
        self.answers: list[bytes] = []      # instead of those of the unit
        answer_each_in_test(self, self.conf["office"], self.answer_of_unit)

    def answer_of_unit(self, data: bytes) -> bytes:
        """The answer of the unit to a question."""
        return self.answers.pop() if self.answers else json.dumps(office.answer(data, self.address(office.ROLE))).encode()

    def olga(self) -> ClerksBrowser:
        """A browser in which Olga is logged in."""
        browser = self.browser()
        self.assertEqual(browser.log_in("olga", WORD).status, 303)
        return browser

    def rows_of(self, page: Answer | str) -> list[list[str]]:
        """The cells of all rows of the page."""
        text = page if isinstance(page, str) else page.text
        return [[html.unescape(re.sub(r"\s+", " ", re.sub(r"<[^>]*>", "", cell))).strip() for cell in re.findall(r"<td.*?>(.*?)</td>", row, re.S)]
                for row in re.findall(r"<tr>(.*?)</tr>|<tr class=\"total\">(.*?)</tr>", text, re.S) for row in row if row]

    def test_an_account_of_the_office_sees_its_page_alone(self) -> None:
        """Every route: each that is no page of the log-in, the own account or the office is refused, and the server is asked for
        nothing."""
        code, = self.desk.issue_codes("hour", "b1")
        olga = self.olga()
        asked: list[object] = []
        exchange = self.counter.desk.exchange
        setattr(self.counter.desk, "exchange", lambda *words: [asked.append(words), exchange(*words)][1])      # type: ignore[func-returns-value]
        seen = set()
        for rule in self.app.url_map.iter_rules():
            name = rule.rule.strip("/")
            for method in sorted((rule.methods or set()) & {"GET", "POST"}):
                if name in ("login", *roles.FOR_ALL, *roles.FOR_OFFICE):
                    continue
                form = {"token": olga.token, "code": code, "request": "r1", "batch": "b1", "plan": "hour", "count": "1", "session": "1"}
                answer = olga.send(rule.rule, form if method == "POST" else None)
                seen.add(name)
                if (name, method) == ("", "GET"):
                    self.assertEqual((answer.status, answer.place), (303, "/office"))
                    continue
                self.assertEqual(answer.status, 403, (name, method, "no page of a counter"))
                self.assertIn("An account of the office sees the page of all venues alone.", answer.told)
        self.assertEqual(seen, roles.FOR_CLERKS | roles.FOR_MANAGERS)
        for path in ("/nothing", "/sell?x", "/office/x"):
            text = olga.ask(path).text
            self.assertNotIn('action="/voucher"', text, path)
        self.assertEqual((asked, self.sold(code)), ([], False))
        for path in ("/office", "/office.csv?from=2026-11-01&to=2026-11-30", "/account"):
            self.assertEqual(olga.ask(path).status, 200, path)
        text = olga.ask("/office").text
        self.assertEqual(re.findall(r'<nav class="screen sections".*?</nav>', text, re.S)[0].count("<a "), 1)
        self.assertNotIn('href="/shift"', text)

    def test_nobody_else_sees_it(self) -> None:
        for name in ("anna", "ben"):
            browser = self.browser(name, f"10.88.0.{len(name)}")
            for path in ("/office", "/office.csv?from=2026-11-01&to=2026-11-30"):
                answer = browser.ask(path)
                self.assertEqual((answer.status, "North Hostel" in answer.text), (403, False), (name, path))
                self.assertIn("Only an account of the office may see all venues.", answer.told)
            self.assertNotIn('href="/office"', browser.ask("/").text)
        self.assertTrue(self.browser().ask("/office").place.startswith("/login"))
        self.assertFalse(roles.is_for("", "office") or roles.is_for("office", "a-new-page"))

    def test_a_manager_makes_no_account_of_the_office_and_takes_none_over(self) -> None:
        anna = self.browser("anna")
        before = (self.folder / FILE).read_text()
        for path, form in (("/clerk", {"name": "eve", "role": "office", "new": "a-long-word", "again": "a-long-word"}),
                           ("/clerk", {"name": "ben", "role": "office"}),
                           ("/clerk", {"name": "olga", "new": "a-long-word", "again": "a-long-word"}),
                           ("/clerk", {"name": "olga", "role": "manager"}), ("/clerk-gone", {"gone": "olga", "word": "annas-long-word"})):
            answer = anna.post(path, **{"password": "annas-long-word", **form})
            self.assertEqual(answer.status, 409, form)
            self.assertIn("portal-venues clerk", answer.told)
        self.assertEqual((self.folder / FILE).read_text(), before)
        page = anna.ask("/clerks").text
        self.assertNotIn('value="office"', page)
        self.assertIn(">Office</td>", page)

    def test_the_part_that_writes_the_accounts_refuses_it_too(self) -> None:
        """A counter's page that an attacker controls, with a manager's password."""
        old = Accounts.read((self.folder / FILE).read_text())
        for new in (old.having(Account("eve", OFFICE, quick_hash(WORD))), old.having(Account("ben", OFFICE, old["ben"].password)),
                    old.having(Account("olga", OFFICE, old["anna"].password)), old.having(Account("olga", MANAGER, old["olga"].password)),
                    Accounts({name: one for name, one in old.items() if name != "olga"})):
            with self.assertRaises(kinds.Refusal) as caught:
                kinds.check_clerks(old["anna"], old.text, new.text)
            self.assertEqual(caught.exception.word, "not_allowed")
        own = old.having(Account("olga", OFFICE, quick_hash("another-word")))
        kinds.check_clerks(old["olga"], old.text, own.text)
        kinds.check_clerks(old["anna"], old.text, old.having(Account("new", CLERK, quick_hash(WORD))).text)

    def test_a_week_beside_the_one_before(self) -> None:
        page = self.olga().ask("/office?week=2026-11-19")
        self.assertEqual(page.status, 200)
        rows = self.rows_of(page)
        self.assertIn(["North Hostel (north)", "12.50", "9.00", "15.00", "–", "–", "–", "–", "–", "-2.50*"], rows)
        self.assertIn(["South <Inn> (south)", "7.00", "0.00", "7.00", *["–"] * 6], rows)
        self.assertIn(["East (east)", "0.00", "0.00", *["–"] * 7], rows)
        self.assertIn(["Sum", "19.50", "9.00", "22.00", *["0.00"] * 5, "-2.50"], rows)
        self.assertLess(page.text.index("Net takings in CZK"), page.text.index("Net takings in EUR"))
        self.assertIn("All venues answered.", page.text)
        self.assertEqual(page.text.count("* read from a copy of the database"), 1, "below the currency that has such a day")
        self.assertEqual(re.findall(r'dy="-.25em">(.*?)<', page.text), ["-5", "0", "5", "10", "15", "20", "25"], "without the currency")
        self.assertIn('<a href="/office?week=2026-11-09">', page.text)
        self.assertEqual(page.text.count("<rect"), 3, "bars of the days that are not nought, of both weeks")

    def test_what_the_office_should_know(self) -> None:
        self.change("UPDATE portal_view.venue SET fault = 'it is silent: <gone>', seen = '2026-11-20 10:00+00' WHERE venue = 'south'")
        self.change("UPDATE portal_view.venue SET certificate_ends = now() + interval '5 days 1 hour' WHERE machine = 'two'")
        self.change("UPDATE portal_view.takings SET sales = 1600 WHERE venue = 'north' AND day = %s", MONDAY)
        self.change("INSERT INTO portal_view.older_copy (venue, was_as_of, as_of) VALUES ('north', '2026-11-20 10:00+00', '2026-11-19 09:30+00')")
        page = self.olga().ask("/office?week=2026-11-16")
        rows, say = self.rows_of(page), Language("en", "counter")
        self.assertIn(["south", "one", "2026-11-20 10:00", "it is silent: <gone>"], rows)
        self.assertIn("1 venue is silent", page.text)
        self.assertIn("South <Inn> (south) silent", [row[0] for row in rows if row])
        self.assertEqual([row[0] for row in rows if len(row) == 3 and row[2] in ("5 days", "5 days, 1 hour")], ["two"])
        self.assertEqual(page.text.count('class="fault">5 days'), 1, "the certificate that ends soon, and no other")
        self.assertIn(["north", "2026-11-16", "€15.00", "€16.00"], [row[:4] for row in rows])
        self.assertIn(["north", "2026-11-20 10:00", "2026-11-19 09:30"], [row[:3] for row in rows])
        self.assertEqual(say.span(5 * 86400 + 3600), "5 days, 1 hour")

    def test_why_a_venue_is_silent_is_in_the_language_of_the_counter(self) -> None:
        result = collect.Result("south", silent="[Errno 111] Connection refused", faults=["its takings are not read: <x>"])
        self.change("UPDATE portal_view.venue SET fault = %s WHERE venue = 'south'", result.fault)
        self.change("UPDATE portal_view.venue SET tried = NULL WHERE venue = 'east'")
        self.change("UPDATE portal_view.venue SET tried = now() - interval '2 hours' WHERE venue = 'north'")
        rows = {row[0]: row[3] for row in self.rows_of(self.german()("/office?week=2026-11-16")) if len(row) == 4}
        self.assertEqual(rows, {
            "south": "es ist stumm: sein Server läuft nicht ([Errno 111] Connection refused); seine Einnahmen werden nicht gelesen: <x>",
            "east": "es wurde noch nie gelesen", "north": "seine Maschine hat es seit einer Stunde nicht gelesen"})

    def test_without_postgresql_a_page_says_so_and_the_counter_goes_on(self) -> None:
        olga, ben = self.olga(), self.browser("ben", "10.88.0.9")
        code, = self.desk.issue_codes("hour", "b1")
        self.stop()
        try:
            page = olga.ask("/office")
            self.assertEqual(page.status, 503)
            self.assertIn("The view of all venues cannot be read.", page.told)
            self.assertIn("The counters of the venues go on without it.", page.told)
            self.assertIn("Take 3.00", ben.post("/sell", code=code, request="s1").text)
        finally:
            self.start()
        self.assertEqual(olga.ask("/office").status, 200)

    def test_a_part_that_says_nothing_that_can_be_read(self) -> None:
        olga = self.olga()
        for data in (b"", b"x", b"[]", b'{"fault": "no <way>"}'):
            self.answers = [data]
            page = olga.ask("/office")
            self.assertEqual(page.status, 503, data)
        self.assertIn("Why: no <way>.", page.told)
        self.conf["office"] = str(self.folder / "nowhere")
        self.assertIn(".socket: [Errno 2]", olga.ask("/office").told)
        del self.conf["office"]
        self.assertIn("this one has no name", olga.ask("/office").told)

    def test_a_venue_that_no_reader_may_see(self) -> None:
        self.read("east")
        self.change("DELETE FROM portal_view.reader")
        page = self.olga().ask("/office")
        self.assertIn("portal-venues reader portal-office --office", page.text)

    def test_the_file_has_what_the_command_writes(self) -> None:
        olga = self.olga()
        answer = olga.ask("/office.csv?from=2026-11-01&to=2026-11-30")
        rows = list(csv.reader(io.StringIO(answer.text)))
        self.assertEqual(rows[0], list(report.CSV_HEAD))
        self.assertEqual(rows[1], ["north", "North Hostel", "EUR", "2026-11-13", "2", "10.00", "1", "1.00", "9.00", "0"])
        self.assertEqual(answer.text, report.as_csv(self.machine("one"), datetime.date(2026, 11, 1), datetime.date(2026, 11, 30)))
        self.assertEqual(answer.head["Content-Disposition"], 'attachment; filename="venues-2026-11-01-2026-11-30.csv"')
        for query in ("", "from=x&to=y", "from=2026-02-01&to=2026-01-01", "from=2020-01-01&to=2026-01-01"):
            self.assertEqual(olga.ask(f"/office.csv?{query}").status, 400, query)
        self.assertEqual(olga.ask("/office?week=x").status, 400)

    def german(self) -> Callable[[str], str]:
        """Asks for pages of the counter in German, as Olga."""
        self.counter.language = Language("de", "counter")
        self.counter.say = self.counter.language.say
        client, login = pages(self.counter, self.logins).test_client(use_cookies=False), self.logins
        cookie = login.begin(login.accounts.now["olga"], "10.88.0.2", "f1")
        return lambda path: str(client.get(path, headers={"Cookie": f"__Host-counter={cookie}"}).get_data(as_text=True))

    def test_in_the_counters_other_language(self) -> None:
        ask = self.german()
        text = ask("/office?week=2026-11-16")
        self.assertIn("Alle Häuser: die Woche ab 16.11.2026", text)
        self.assertIn("Nettoeinnahmen in EUR", text)
        file = ask("/office.csv?from=2026-11-16&to=2026-11-16")
        self.assertIn("north;North Hostel;EUR;2026-11-16;3;15,00;0;0,00;15,00;0", file)


@needs("postgresql", "python3-psycopg", *NEEDS["quick"])
class Slow(unittest.TestCase):
    def test_a_part_that_hangs_ends_within_its_time(self) -> None:
        with tempfile.TemporaryDirectory() as folder, socket.socket(socket.AF_UNIX) as door:
            door.bind(f"{folder}/s")
            door.listen()
            begin = time.monotonic()
            with mock.patch.object(parts_client, "PATIENCE", 0.2), self.assertRaises(parts_client.NoPart):
                parts_client.ask(f"{folder}/s", {})
            self.assertLess(time.monotonic() - begin, 5)


if __name__ == "__main__":
    unittest.main()
