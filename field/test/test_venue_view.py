"""The view of all venues in PostgreSQL: what is copied from desks that answer and from those that do not, what an older
copy and a past day do, who sees what, and the report of the office."""

from __future__ import annotations

import contextlib
import csv
import datetime
import io
import os
import pathlib
import re
import shlex
import shutil
import subprocess
import sys
import tempfile
import unittest
from typing import Any, ClassVar
from unittest import mock

from desk_process import FIELD, DeskProcess, Routes
from needs import NEEDS, needs
from own_postgres import OwnPostgres
from schema_versions import LATER, VERSIONS, make_database

from portal_field.backup.backup import held_still
from portal_field.backup.copies import BadCopy, copy_both, fold
from portal_field.venues import collect, command, ending, report, table, view
from portal_field.venues.collect import Collector, Result, key_of
from portal_field.venues.places import BadVenue, Machine, Places
from portal_field.venues.records import Head, hidden, read_records, time_of

LINES = ('house = "House {0}"\nname = "wifi.example"\ncounter_name = "{0}.example"\nzone = "UTC0"\ndesk_port = {1}\n'
         'currency = "EUR"\n')
DEVICES = "02:00:00:00:00:01", "02:00:00:00:00:02"
TABLES = ("venue", "takings", "plan", "batch", "voucher", "session")
KEY = b"a key"
# The counters of the rows of schema_versions.py: three redemptions of one voucher and one of another; a session of two
# gigabytes more, and one of an hour from 90000 on.
REDEEMED = {"2222-2222-223N": 3, "4444-4444-444A": 1}
COUNTERS = """
INSERT INTO portal_counts SELECT code, CASE code WHEN '2222-2222-223N' THEN 3 WHEN '4444-4444-444A' THEN 1 ELSE 0 END FROM portal_vouchers;
INSERT INTO portal_totals VALUES (1, NULL, 3000000000), (2, 93600, NULL);"""


@needs("postgresql", "python3-psycopg", "util-linux", "openssl", *NEEDS["quick"])
class View(OwnPostgres):
    """Two venues of one machine, each with a desk by the program of FIELD_PORTAL, or else the shipped one: the stand-in has
    other tables."""
    program: ClassVar[str]
    place: ClassVar[tempfile.TemporaryDirectory[str]]

    @classmethod
    def setUpClass(cls) -> None:
        cls.place = tempfile.TemporaryDirectory()
        cls.program, path = os.environ.get("FIELD_PORTAL", ""), f"{cls.place.name}/portal"
        if not cls.program:
            subprocess.run(f"{FIELD.parent}/deb/shipped {path} && {path} --version", shell=True, check=True, capture_output=True)
            cls.program = path
        super().setUpClass()

    @classmethod
    def tearDownClass(cls) -> None:
        super().tearDownClass()
        cls.place.cleanup()

    def setUp(self) -> None:
        self.root = pathlib.Path(self.enterContext(tempfile.TemporaryDirectory()))
        self.machine = self.of("one")
        self.desks: dict[str, DeskProcess] = {}
        with view.opened(self.machine) as link:
            link.execute("TRUNCATE portal.venue, portal_view.reader")
            link.execute("TRUNCATE portal_view.venue CASCADE")

    def put(self, *names: str, machine: Machine | None = None) -> None:
        """Adds venues, each with a desk that has loaded its plans."""
        for name in names:
            places = Places(name, self.root)
            for folder in (places.settings, places.database.parent, places.desk_token.parent, places.copies):
                folder.mkdir(parents=True, exist_ok=True)
            desk = self.enterContext(DeskProcess(places.database, self.program))
            places.desk_token.write_text("desk-token\n")
            places.field.write_text(LINES.format(name, desk.port))
            shutil.copy(desk.settings, places.settings / "portal.toml")
            table.add(machine or self.machine, name, places.field.read_text())
            desk.load()
            self.desks[name] = desk

    def hold(self, places: Places) -> contextlib.AbstractContextManager[None]:
        """Holds the desk of a venue still, as its unit is on a machine; one that was killed needs nothing."""
        desk = self.desks[places.name]
        return held_still(desk.job.pid if desk.job.poll() is None else None, desk.job.poll() is not None, desk.book)

    def collect(self, *names: str) -> dict[str, Result]:
        """Collects the venues of the machine."""
        collector = Collector(self.machine, self.root, self.hold, shlex.split(self.program))
        return {result.name: result for result in collector.run(names)}

    def ask(self, query: str, *words: object, role: str = "chain") -> list[tuple[Any, ...]]:
        """The rows of a query, as a role of PostgreSQL. PermissionError: it may not ask that."""
        import psycopg
        with psycopg.connect(self.address(role)) as link:
            try:
                return list(link.execute(query, words))
            except psycopg.errors.InsufficientPrivilege as fault:
                raise PermissionError(str(fault)) from fault

    def end(self, name: str) -> pathlib.Path:
        """Kills the desk of a venue; its database."""
        self.desks[name].job.kill()
        self.desks[name].job.wait()
        return self.desks[name].book

    def again(self, name: str) -> None:
        """Starts the desk of a venue again, at its port."""
        port = self.desks[name].port
        desk = DeskProcess(Places(name, self.root).database, self.program)
        desk.port = desk.desk.port = desk.gateway.port = port
        self.desks[name] = self.enterContext(desk)

    def copy_of(self, name: str, goal: pathlib.Path) -> None:
        """Makes a copy of a venue's database as one file."""
        with self.hold(Places(name, self.root)):
            copy_both(self.desks[name].book, goal)
        fold(goal)

    def day_at(self, name: str) -> list[str]:
        """Something of each kind at a desk: three codes of which one is redeemed and one refunded, one unsold, two sessions of
        which one is closed."""
        desk = self.desks[name]
        codes = desk.sell_codes("hour", "b1", 3)
        for code, device in zip(codes[:2], DEVICES):
            desk.desk.request_json(Routes.REDEEM, body={"code": code}, device=device)
        desk.desk.request_json(Routes.REFUND, body={"code": codes[2]})
        desk.desk.request_json(Routes.CLOSE, body={"session": 2})
        desk.gateway.request_json(Routes.REPORT, body={"session": 1, "bytes": 77})
        return [*codes, *desk.issue_codes("gigabyte", "b2")]

    def takings(self, name: str) -> str:
        """What a desk says of today."""
        today = str(datetime.datetime.now(datetime.UTC).date())
        return self.desks[name].desk.request(Routes.TAKINGS, query={"from": today, "to": today}).decode()

    def sums(self, name: str) -> tuple[Any, ...]:
        """What the view has of a venue's today, as a line of the desk's table."""
        row, = self.ask("SELECT sold, sales, refunded, refunds FROM portal_view.takings WHERE venue = %s AND day = "
                        "(now() AT TIME ZONE 'UTC')::date", name)
        return row

    def test_what_is_copied_is_what_the_desks_say(self) -> None:
        self.put("north", "south")
        codes = {name: self.day_at(name) for name in self.desks}
        self.desks["south"].sell_codes("day", "b3", 2)
        self.assertEqual({result.fault for result in self.collect().values()}, {""})
        key = key_of(self.root)
        for name, desk in self.desks.items():
            line = next(line.split() for line in self.takings(name).splitlines() if line.startswith("total"))
            self.assertEqual(list(self.sums(name)), [int(word.replace(".", "")) for word in line[1:]])
            for code in codes[name]:
                said = desk.voucher(code)
                row, = self.ask("SELECT batch, plan, uses, extract(epoch FROM expires)::bigint, extract(epoch FROM sold)::bigint, amount, redeemed "
                                "FROM portal_view.voucher WHERE venue = %s AND code = %s", name, hidden(key, "code", code))
                self.assertEqual(row, (said["batch"], said["plan"], said["uses"], said["expires"], said["sold"],
                                       said["refund"], said["redeemed"]))
            sessions = self.ask("SELECT number, device, used, closed IS NULL FROM portal_view.session WHERE venue = %s ORDER BY number", name)
            self.assertEqual(sessions, [(1, hidden(key, "device", DEVICES[0]), 77, True), (2, hidden(key, "device", DEVICES[1]), 0, False)])
            still = [row["session"] for row in desk.gateway.request_json(Routes.SESSIONS)["sessions"]]
            self.assertEqual(still, [number for number, _, _, is_open in sessions if is_open])
        self.assertEqual(self.ask("SELECT venue, batch, size FROM portal_view.batch ORDER BY 1, 2"),
                         [("north", "b1", 3), ("north", "b2", 1), ("south", "b1", 3), ("south", "b2", 1), ("south", "b3", 2)])
        self.assertEqual(self.ask("SELECT price FROM portal_view.plan WHERE venue = 'north' AND plan = 'hour'"),
                         self.ask("SELECT DISTINCT price FROM portal_view.voucher WHERE plan = 'hour'"))

    def rows(self) -> set[tuple[Any, ...]]:
        """Each row of the view, less that of its venue, with the transaction that wrote it."""
        return {(name, *row) for name in TABLES[1:] for row in self.ask(f"SELECT xmin, to_jsonb(t)::text FROM portal_view.{name} AS t")}

    def test_a_repetition_changes_no_row_and_a_sale_changes_two(self) -> None:
        self.put("north")
        *_, unsold = self.day_at("north")
        self.collect()
        before = self.rows()
        self.assertEqual(self.collect()["north"].rows, 0)
        with view.opened(self.machine) as link:
            link.execute("UPDATE portal_view.venue SET whole = NULL, stamp = ''")
        self.assertEqual(self.collect()["north"].rows, 0, "also where all of it is read again")
        self.assertEqual(self.rows(), before)
        self.desks["north"].desk.request_json(Routes.SELL, body={"code": unsold})
        self.assertEqual(self.collect()["north"].rows, 2)
        self.assertEqual({row[0] for row in self.rows() - before}, {"voucher", "takings"})

    def test_a_database_that_was_not_written_is_not_copied(self) -> None:
        self.put("north")
        self.day_at("north")
        self.collect()
        asked: list[str] = []
        hold = self.hold

        def noted(places: Places) -> contextlib.AbstractContextManager[None]:
            """Writes down which venue is held still."""
            asked.append(places.name)
            return hold(places)

        setattr(self, "hold", noted)
        self.collect()
        self.assertEqual(asked, [])
        self.desks["north"].issue_codes("hour", "b9")
        self.collect()
        self.assertEqual(asked, ["north"])

    def test_a_silent_venue_is_named_and_read_from_a_copy_and_hinders_no_other(self) -> None:
        self.put("north", "south")
        for name in self.desks:
            self.day_at(name)
        self.collect()
        *_, unsold = self.desks["north"].sell_codes("day", "b5", 2)
        said = self.takings("north").splitlines()
        self.end("north")
        self.desks["south"].sell_codes("day", "b5")
        results = self.collect()
        self.assertIn("is silent: [Errno 111] Connection refused", results["north"].lines[0])
        self.assertEqual(results["south"].fault, "")
        total = next(line.split() for line in said if line.startswith("total"))
        self.assertEqual(list(self.sums("north")), [int(word.replace(".", "")) for word in total[1:]])
        self.assertEqual(self.ask("SELECT venue, bool_or(from_copy) FROM portal_view.takings GROUP BY 1 ORDER BY 1"), [("north", True), ("south", False)])
        self.assertEqual(self.ask("SELECT count(*) FROM portal_view.voucher WHERE code = %s AND sold IS NOT NULL",
                                  hidden(key_of(self.root), "code", unsold)), [(1,)])
        found = self.ask("SELECT venue, venue.fault LIKE '%%Connection refused' AND venue.seen < tried FROM portal_view.silent "
                         "JOIN portal_view.venue USING (venue) WHERE %s", True)
        self.assertEqual(found, [("north", True)])
        self.again("north")
        self.assertEqual(self.collect()["north"].fault, "")
        self.assertEqual(self.ask("SELECT venue FROM portal_view.silent"), [])

    def test_a_venue_of_another_machine_that_nobody_collects_is_silent(self) -> None:
        self.put("north")
        table.add(self.of("two"), "east", LINES.format("east", 20001))
        self.assertEqual(list(self.collect()), ["north"])
        self.assertEqual(self.ask("SELECT venue, machine, fault FROM portal_view.silent"), [("east", "two", "it was never collected")])
        with view.opened(self.machine) as link:
            link.execute("UPDATE portal_view.venue SET tried = now() - interval '2 hours', seen = tried WHERE venue = 'north'")
        self.assertEqual(self.ask("SELECT fault FROM portal_view.silent WHERE venue = 'north'"), [("its machine has not collected it for an hour",)])

    def test_without_its_files_a_venue_is_read_from_its_nightly_copy(self) -> None:
        self.put("north")
        self.day_at("north")
        self.copy_of("north", Places("north", self.root).copies / "20260101T000000.0Z.db")
        said = self.takings("north")
        for end in ("", "-wal"):
            pathlib.Path(f"{self.end('north')}{end}").unlink()
        self.assertTrue(self.collect()["north"].silent)
        total = next(line.split() for line in said.splitlines() if line.startswith("total"))
        self.assertEqual(list(self.sums("north")), [int(word.replace(".", "")) for word in total[1:]])
        self.assertEqual(self.ask("SELECT count(*), count(sold) FROM portal_view.voucher"), [(4, 3)])

    def test_a_nightly_copy_that_is_older_than_what_was_read_is_not_taken(self) -> None:
        self.put("north")
        self.day_at("north")
        self.copy_of("north", Places("north", self.root).copies / "20260101T000000.0Z.db")
        code, = self.desks["north"].sell_codes("day", "b5")
        self.desks["north"].desk.request_json(Routes.REDEEM, body={"code": code}, device="02:00:00:00:00:09")
        self.collect()
        before = self.ask("SELECT count(*), count(sold) FROM portal_view.voucher"), self.sums("north")
        for end in ("", "-wal"):
            pathlib.Path(f"{self.end('north')}{end}").unlink()
        result = self.collect()["north"]
        self.assertEqual((self.ask("SELECT count(*), count(sold) FROM portal_view.voucher"), self.sums("north")), before)
        self.assertEqual((result.is_older, self.ask("SELECT * FROM portal_view.older_copy")), (False, []))

    def restored(self, *, goes_on: bool) -> tuple[list[str], str]:
        """A venue whose database went back to a copy, whether or not something was sold since: the codes of the copy, and the
        one that was sold after it."""
        self.put("north")
        codes = self.day_at("north")
        self.copy_of("north", self.root / "copy.db")
        undone, = self.desks["north"].sell_codes("day", "b5")
        if not goes_on:
            self.desks["north"].desk.request_json(Routes.REDEEM, body={"code": undone}, device="02:00:00:00:00:09")
        self.collect()
        book = self.end("north")
        pathlib.Path(f"{book}-wal").unlink(missing_ok=True)
        shutil.copy(self.root / "copy.db", book)
        self.again("north")
        if goes_on:
            self.desks["north"].desk.request_json(Routes.SELL, body={"code": codes[-1]})
        return codes, undone

    def check_older(self, result: Result, undone: str) -> None:
        """The older copy is noticed once, and the view has what the desk has now."""
        self.assertEqual((result.fault, "as after a restore" in result.lines[-1]), ("", True))
        self.assertEqual(self.ask("SELECT count(*) FROM portal_view.older_copy"), [(1,)])
        self.assertEqual(self.ask("SELECT * FROM portal_view.voucher WHERE code = %s", hidden(key_of(self.root), "code", undone)), [])
        self.assertEqual(self.ask("SELECT count(*) FROM portal_view.batch"), [(2,)])
        line = next(line.split() for line in self.takings("north").splitlines() if line.startswith("total"))
        self.assertEqual(list(self.sums("north")), [int(word.replace(".", "")) for word in line[1:]])
        self.assertFalse(self.collect()["north"].is_older, "it is noticed once")

    def test_an_older_copy_is_noticed_and_what_it_lost_is_taken_out(self) -> None:
        _, undone = self.restored(goes_on=False)
        result = self.collect()["north"]
        self.assertTrue(result.is_older)
        self.check_older(result, undone)

    def test_an_older_copy_that_has_gone_on_since_is_noticed(self) -> None:
        _, undone = self.restored(goes_on=True)
        result = self.collect()["north"]
        self.assertTrue(result.is_older)
        self.check_older(result, undone)

    def test_a_day_that_was_over_and_changes_keeps_both_values(self) -> None:
        self.put("north")
        self.day_at("north")
        self.collect()
        today = self.sums("north")
        self.assertEqual(self.ask("SELECT * FROM portal_view.takings_changed"), [])
        with view.opened(self.machine) as link:
            link.execute("UPDATE portal_view.takings SET sold = 3, sales = 900 WHERE day = (now() AT TIME ZONE 'UTC')::date - 1")
            link.execute("DELETE FROM portal_view.takings_changed")
        self.desks["north"].sell_codes("day", "b5")
        self.collect()
        self.assertNotEqual(self.sums("north"), today)
        rows = self.ask("SELECT venue, (now() AT TIME ZONE 'UTC')::date - day, was_sold, was_sales, was_refunded, sold, sales, seen > now() - interval '1 minute' "
                        "FROM portal_view.takings_changed")
        self.assertEqual(rows, [("north", 1, 3, 900, 0, 0, 0, True)], "yesterday, and not today, which goes on")

    def test_each_role_sees_its_own_rows_alone(self) -> None:
        self.put("north", "south")
        for name in self.desks:
            self.day_at(name)
        self.collect()
        with view.opened(self.machine) as link:
            for role in ("office", "north_manager", "of_two", "stranger"):
                link.execute(f"DROP ROLE IF EXISTS {role}")
                link.execute(f"CREATE ROLE {role} LOGIN")
            for role, venues in (("office", [view.ALL]), ("north_manager", ["north"]), ("of_two", ["north", "south"])):
                view.set_reader(link, role, venues)
            self.addCleanup(self.drop_roles)
        for role, seen in (("office", {"north", "south"}), ("north_manager", {"north"}), ("of_two", {"north", "south"})):
            for name in (*TABLES, "week"):
                found = {row[0] for row in self.ask(f"SELECT DISTINCT venue FROM portal_view.{name}", role=role)}
                self.assertEqual(found, seen, (role, name))
        self.assertEqual(self.ask("SELECT count(*) FROM portal_view.reader", role="north_manager"), [(1,)])
        for query in ("SELECT * FROM portal.venue", "UPDATE portal_view.takings SET sales = 0", "DELETE FROM portal_view.voucher",
                      "INSERT INTO portal_view.reader VALUES ('north_manager', '*')"):
            with self.subTest(query), self.assertRaises(PermissionError):
                self.ask(query, role="north_manager")
        with self.assertRaises(PermissionError):
            self.ask("SELECT * FROM portal_view.venue", role="stranger")
        with view.opened(self.machine) as link:
            view.set_reader(link, "of_two", [])
        with self.assertRaises(PermissionError):
            self.ask("SELECT * FROM portal_view.venue", role="of_two")

    def drop_roles(self) -> None:
        """Takes the roles of the test out of PostgreSQL, which keeps them beside the database."""
        with view.opened(self.machine) as link:
            for role in ("office", "north_manager", "of_two"):
                view.set_reader(link, role, [])

    def test_a_reader_is_a_role_that_rows_can_be_kept_from(self) -> None:
        self.put("north")
        self.collect()
        with view.opened(self.machine) as link:
            for role, venues, word in (("nobody_of_this_name", ["north"], "CREATE ROLE"), ("chain", ["north"], "sees all rows")):
                with self.assertRaises(BadVenue) as caught:
                    view.set_reader(link, role, venues)
                self.assertIn(word, str(caught.exception))
            link.execute("DROP ROLE IF EXISTS someone")
            link.execute("CREATE ROLE someone")
            with self.assertRaises(BadVenue):
                view.set_reader(link, "someone", ["nowhere"])

    def test_no_code_and_no_device_is_in_the_view(self) -> None:
        self.put("north")
        codes = self.day_at("north")
        self.collect()
        text = "\n".join(row[0] for name in TABLES for row in self.ask(f"SELECT to_jsonb(t)::text FROM portal_view.{name} AS t"))
        for secret in (*codes, *DEVICES):
            for form in (secret, secret.replace("-", ""), secret.replace(":", ""), secret.encode().hex()):
                self.assertNotIn(form.lower(), text.lower())
        key = self.root / "etc/portal/credentials/view_key"
        self.assertEqual((key.stat().st_mode & 0o777, key_of(self.root)), (0o600, key.read_text().strip().encode()))
        self.assertGreaterEqual(len(key_of(self.root)), 32)
        words = ["openssl", "dgst", "-sha256", "-hmac", key.read_text().strip(), "-r"]
        done = subprocess.run(words, input=f"device {DEVICES[0]}".encode(), capture_output=True, check=True)
        self.assertEqual(self.ask("SELECT encode(device, 'hex') FROM portal_view.session WHERE number = 1"), [(done.stdout[:32].decode(),)])
        self.assertNotEqual(hidden(b"1", "code", codes[0]), hidden(b"2", "code", codes[0]))
        self.assertNotEqual(hidden(b"1", "code", codes[0]), hidden(b"1", "device", codes[0]))

    def test_a_venue_that_cannot_be_read_is_said_and_hinders_no_other(self) -> None:
        self.put("north", "south")
        self.day_at("south")
        Places("north", self.root).field.write_text("house = ")
        results = self.collect()
        self.assertIn("field.toml", results["north"].fault)
        self.assertEqual(results["south"].fault, "")
        self.assertEqual(self.ask("SELECT venue FROM portal_view.venue WHERE fault <> ''"), [("north",)])
        table.retire(self.machine, "north")
        self.assertEqual(self.collect()["north"].lines, ["north: it is not in the table: portal-venues add north"])
        self.assertRaises(BadVenue, self.collect, "east")

    def test_a_database_that_cannot_be_read_is_said_and_the_takings_are_taken(self) -> None:
        self.put("north")
        self.day_at("north")

        def no_hold(places: Places) -> contextlib.AbstractContextManager[None]:
            """No server can be held still."""
            raise OSError(f"{places.name} is not held")

        setattr(self, "hold", no_hold)
        line = "its database is not read: north is not held"
        self.assertEqual(self.collect()["north"].faults, [line])
        self.assertEqual(self.ask("SELECT venue, fault FROM portal_view.silent"), [("north", line)])
        total = next(line.split() for line in self.takings("north").splitlines() if line.startswith("total"))
        self.assertEqual(list(self.sums("north")), [int(word.replace(".", "")) for word in total[1:]])
        delattr(self, "hold")
        self.assertEqual(self.collect()["north"].fault, "")
        self.assertEqual(self.ask("SELECT count(*) FROM portal_view.voucher"), [(4,)])

    def test_a_venue_that_is_retired_has_all_its_sales_in_the_view(self) -> None:
        self.put("north")
        self.day_at("north")
        self.collect()
        self.desks["north"].sell_codes("day", "b5", 2)
        total = next(line.split() for line in self.takings("north").splitlines() if line.startswith("total"))
        self.end("north")
        units, words = mock.Mock(), io.StringIO()
        collector = Collector(self.machine, self.root, self.hold, shlex.split(self.program))
        with mock.patch.object(ending, "backup", return_value=""), mock.patch.object(ending, "Collector", return_value=collector), \
                contextlib.redirect_stdout(words), contextlib.redirect_stderr(words):
            self.assertEqual(ending.retire(Places("north", self.root), self.machine, units), 0)
        self.assertEqual(list(self.sums("north")), [int(word.replace(".", "")) for word in total[1:]])
        self.assertEqual(self.ask("SELECT count(sold) FROM portal_view.voucher"), [(5,)])
        self.assertNotIn("not in the view", words.getvalue())
        self.collect()
        self.assertEqual(self.ask("SELECT venue FROM portal_view.silent"), [])
        self.assertEqual(self.ask("SELECT retired IS NULL FROM portal_view.venue"), [(False,)])

    def test_while_postgresql_is_away_nothing_is_asked(self) -> None:
        self.put("north")
        self.day_at("north")
        self.stop()
        try:
            self.assertRaises(table.Away, self.collect)
        finally:
            self.start()
        with self.assertRaises(BadVenue) as caught:
            collect.collect(Machine("127.0.0.1"), self.root)
        self.assertIn("names no database", str(caught.exception))

    def test_the_command_hears_once_that_postgresql_is_away_and_once_that_it_is_back(self) -> None:
        self.put("north")
        told = self.root / "told"
        told.mkdir()
        with mock.patch.dict(os.environ, STATE_DIRECTORY=str(told)), mock.patch.object(collect, "machine_of", return_value=self.machine), \
                mock.patch.object(collect, "collect", side_effect=[table.Away("gone"), table.Away("gone"), BadVenue("x"), 0, 3]), \
                mock.patch("portal_field.venues.collect.subprocess.run") as run, contextlib.redirect_stderr(io.StringIO()), \
                contextlib.redirect_stdout(io.StringIO()):
            self.assertEqual([collect.main() for _ in range(3)], [1, 4, 4])
            self.assertEqual(run.call_args_list, [])
            self.assertEqual([collect.main() for _ in range(2)], [0, 3])
            self.assertEqual([one.args[0] for one in run.call_args_list],
                             [["systemctl", "start", "--no-block", "portal-failed@portal-venues-collect.service:back.service"]])
        unit = (FIELD / "units/portal-venues-collect.service").read_text()
        self.assertIn("\nSuccessExitStatus=3 4\n", unit)

    def test_the_commands_of_the_office(self) -> None:
        self.put("north")
        self.day_at("north")
        self.collect()
        (self.root / "etc/portal/venues.toml").write_text(f'listen = "127.0.0.1"\nmachine = "one"\ndatabase = "{self.machine.database}"\n')
        goal, words = self.root / "takings.csv", io.StringIO()
        with view.opened(self.machine) as link:
            link.execute("DROP ROLE IF EXISTS auditor")
            link.execute("CREATE ROLE auditor LOGIN")
        for line in (["reader", "auditor", "--office"], ["report", "--csv", str(goal)], ["report", "--weeks", "3"], ["reader", "auditor", "--none"]):
            with mock.patch.object(command, "ROOT", self.root), mock.patch.object(sys, "argv", ["portal-venues", *line]), \
                    contextlib.redirect_stdout(words):
                self.assertEqual(command.run(command.read_words()), 0)
        self.assertIn("the role auditor reads: all venues\n", words.getvalue())
        self.assertIn("\nAll venues answered.\nthe role auditor reads: nothing\n", words.getvalue())
        self.assertEqual(len(list(csv.reader(goal.read_text().splitlines()))), 2)

    def test_the_document_has_each_column(self) -> None:
        """The table of docs/VIEW.md, less what it says is the collector's own."""
        self.put("north")
        with view.opened(self.machine):
            pass
        rows = self.ask("SELECT table_name::text, column_name::text FROM information_schema.columns WHERE table_schema = 'portal_view'")
        own = {("venue", name) for name in ("grants", "sessions", "stamp", "whole")} | {row for row in rows if row[0] == "reader"}
        lines = re.findall(r"^\| `(\w+)` \| [^|]+ \| (.+) \|$", (FIELD / "docs/VIEW.md").read_text(), re.MULTILINE)
        self.assertEqual({(name, column) for name, text in lines for column in re.findall(r"`(\w+)`", text)}, set(rows) - own)

    def test_the_report_has_week_beside_week_and_what_is_wrong(self) -> None:
        self.put("north", "south")
        for name in self.desks:
            self.day_at(name)
        cert = self.root / "etc/portal/tls/cert.pem"
        cert.parent.mkdir(parents=True)
        subprocess.run(["openssl", "req", "-x509", "-newkey", "ec", "-pkeyopt", "ec_paramgen_curve:P-256", "-nodes", "-subj", "/CN=x", "-days", "5",
                        "-keyout", cert.with_name("key.pem"), "-out", cert], check=True, capture_output=True)
        self.collect()
        today = datetime.datetime.now(datetime.UTC).date()
        self.end("north")
        self.collect()
        with view.opened(self.machine) as link:
            view.put(link, "takings", "south", [(today - datetime.timedelta(7), 2, 1250, 1, 200, True, False)])
        text = report.show(self.machine, 2, today)
        sold, sales, refunded, refunds = self.sums("south")
        lines = [line.split() for line in text.splitlines()]
        monday = today - datetime.timedelta(today.weekday())
        self.assertEqual(lines[0][3:], [str(monday), str(monday - datetime.timedelta(7))])
        net = f"{(sales - refunds) / 100:.2f}"
        self.assertEqual(lines[2], ["south", "EUR", net, "10.50", "House", "south"])
        self.assertEqual(lines[3], ["all", "EUR", f"{2 * (sales - refunds) / 100:.2f}", "10.50"])
        self.assertRegex(text, "\nnorth on one: it is silent: .*Connection refused; its server answered last: 20")
        self.assertRegex(text, "\nthe certificate of one ends: 20")
        self.assertIn(f"south: {today - datetime.timedelta(7)} was over and changed: net 0.00, and 10.50 since", text)
        rows = list(csv.reader(io.StringIO(report.as_csv(self.machine, today, today))))
        self.assertEqual(rows[0], list(report.CSV_HEAD))
        self.assertEqual(rows[2], ["south", "House south", "EUR", str(today), str(sold), f"{sales / 100:.2f}", str(refunded), f"{refunds / 100:.2f}", net, "0"])


class Versions(unittest.TestCase):
    """Databases whose counters are tables of their own, and those where they are columns of what they count."""

    def read(self, version: int) -> tuple[dict[bytes, int], dict[int, datetime.datetime | None], tuple[int, ...]] | str:
        """How often each voucher was redeemed, and when each session ends; the sums. Or why it cannot be read."""
        with tempfile.TemporaryDirectory() as folder:
            path = pathlib.Path(folder) / "book.db"
            make_database(path, version, LATER, COUNTERS)
            try:
                found = read_records(path, KEY, Head())
            except BadCopy as fault:
                return str(fault)
        return ({row[0]: row[9] for row in found.rows["voucher"] if row[9]},
                {row[0]: row[4] for row in found.rows["session"]}, found.sums)

    def test_the_counters_of_each_schema_version_are_read(self) -> None:
        redeemed = {hidden(KEY, "code", code): count for code, count in REDEEMED.items()}
        for version in VERSIONS[1:]:
            found = self.read(version)
            self.assertEqual(found, (redeemed, {1: None, 2: time_of(93600)}, (3, 6, 5, 1, 500, 4, 2, 0)), version)
