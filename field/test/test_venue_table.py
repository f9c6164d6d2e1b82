"""The table of venues in PostgreSQL: what is added, exported into files, retired, and that files count while it is
away."""

from __future__ import annotations

import contextlib
import io
import pathlib
import tempfile
import tomllib
import unittest

from needs import needs
from own_postgres import OwnPostgres

from portal_field.venues import table
from portal_field.venues.places import BadVenue, Places
from portal_field.venues.venue_settings import read_venue

TEXT = ('house = "House \\"{0}\\""\nname = "wifi.example"\ncounter_name = "{0}.example"\nzone = "UTC0"\ndesk_port = {1}\n'
        'payments = ["cash", "card"]\n[radius]\nlisten = "127.0.0.1"\n[radius.nas.lobby]\naddress = "10.9.0.1"\n')


@needs("postgresql", "python3-psycopg", "util-linux")
class Table(OwnPostgres):
    def setUp(self) -> None:
        self.root = pathlib.Path(self.enterContext(tempfile.TemporaryDirectory()))
        self.machine = self.of("one")
        self.words = self.enterContext(contextlib.redirect_stdout(io.StringIO()))
        with table.opened(self.machine) as link:
            link.execute("DELETE FROM portal.venue")

    def field(self, name: str) -> pathlib.Path:
        """The settings of a venue."""
        return Places(name, self.root).field

    def test_what_is_added_is_exported_as_it_was(self) -> None:
        table.add(self.machine, "north", TEXT.format("north", 20001))
        self.assertEqual(table.export(self.machine, self.root), ["north"])
        self.assertEqual(self.field("north").stat().st_mode & 0o777, 0o640, "it may have the password of the Wi-Fi")
        self.assertEqual(tomllib.loads(self.field("north").read_text()), tomllib.loads(TEXT.format("north", 20001)))
        self.assertEqual(read_venue(self.field("north").read_text()).payments, ["cash", "card"])
        self.assertEqual(table.differences(self.machine, self.root), [])

    def test_what_is_the_same_is_not_written_again(self) -> None:
        table.add(self.machine, "north", TEXT.format("north", 20001))
        table.export(self.machine, self.root)
        before = self.field("north").stat()
        self.field("north").write_text("# a word of the owner\n" + self.field("north").read_text())
        before = self.field("north").stat()
        self.assertEqual(table.export(self.machine, self.root), [])
        self.assertEqual((self.field("north").stat().st_ino, self.field("north").stat().st_mtime_ns), (before.st_ino, before.st_mtime_ns))

    def test_a_change_in_the_table_is_exported(self) -> None:
        for name, port in (("north", 20001), ("south", 20002)):
            table.add(self.machine, name, TEXT.format(name, port))
        table.export(self.machine, self.root)
        with table.opened(self.machine) as link:
            link.execute("""UPDATE portal.venue SET settings = settings || '{"currency": "EUR"}' WHERE name = 'south'""")
        self.assertEqual(table.differences(self.machine, self.root), ["the settings of south differ: portal-venues apply south"])
        self.assertEqual(table.export(self.machine, self.root), ["south"])
        self.assertEqual(read_venue(self.field("south").read_text()).currency, "EUR")

    def test_settings_that_are_not_valid_keep_the_file(self) -> None:
        table.add(self.machine, "north", TEXT.format("north", 20001))
        table.export(self.machine, self.root)
        before = self.field("north").read_text()
        with table.opened(self.machine) as link:
            link.execute("""UPDATE portal.venue SET settings = settings || '{"currency": "euro"}'""")
        self.assertEqual(table.export(self.machine, self.root), [])
        self.assertIn("north: the table's settings are not taken: currency = 'euro'", self.words.getvalue())
        self.assertEqual(self.field("north").read_text(), before)

    def test_one_name_one_page_and_one_port_for_one_venue(self) -> None:
        table.add(self.machine, "north", TEXT.format("north", 20001))
        for machine, name, text in (("one", "north", TEXT.format("x", 20002)), ("two", "north", TEXT.format("x", 20002)),
                                    ("two", "south", TEXT.format("north", 20002)), ("one", "south", TEXT.format("south", 20001))):
            with self.subTest(f"{machine} {name}"):
                self.assertRaises(BadVenue, table.add, self.of(machine), name, text)
        table.add(self.of("two"), "south", TEXT.format("south", 20001))
        self.assertEqual((table.ports(self.machine), table.export(self.machine, self.root)), ({20001}, ["north"]), "another machine has its own")

    def test_a_venue_that_is_retired_stays_in_the_table_and_can_come_back(self) -> None:
        table.add(self.machine, "north", TEXT.format("north", 20001))
        table.export(self.machine, self.root)
        for _ in range(2):
            table.retire(self.machine, "north")
        self.assertEqual(table.ports(self.machine), {20001}, "its port stays its own")
        self.assertEqual(table.differences(self.machine, self.root), ["north is retired in the table: portal-venues retire north"])
        self.assertEqual(table.export(self.machine, self.root), [])
        table.add(self.machine, "north", TEXT.format("north", 20001))
        self.assertEqual(table.differences(self.machine, self.root), [])

    def test_while_it_is_away_no_file_is_changed(self) -> None:
        table.add(self.machine, "north", TEXT.format("north", 20001))
        table.export(self.machine, self.root)
        before = self.field("north").stat()
        self.stop()
        try:
            self.assertRaises(table.Away, table.export, self.machine, self.root)
            self.assertEqual(len(table.differences(self.machine, self.root)), 1)
        finally:
            self.start()
        self.assertEqual(self.field("north").stat().st_mtime_ns, before.st_mtime_ns)

    def test_a_venue_that_the_table_has_not_is_named(self) -> None:
        self.field("north").parent.mkdir(parents=True)
        self.field("north").write_text(TEXT.format("north", 20001))
        self.assertEqual(table.differences(self.machine, self.root), ["north is not in the table: portal-venues add north"])


class Text(unittest.TestCase):
    def test_a_file_of_tables_within_tables_is_read_as_it_was(self) -> None:
        values = tomllib.loads(TEXT.format("nörth\\n", 20001) + "[radius.nas.hall]\naddress = \"10.9.0.2\"\n")
        self.assertEqual(tomllib.loads(table.toml_text(values)), values)


if __name__ == "__main__":
    unittest.main()
