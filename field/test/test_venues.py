"""Venues by name: their settings and files, what is carried out of them, and their counters in one process."""

from __future__ import annotations

import contextlib
import datetime
import http.client
import io
import os
import pathlib
import random
import re
import socket
import tempfile
import threading
import time
import unittest
from collections.abc import Mapping

from at_entrance import Answer, ClerksBrowser, put_accounts
from desk_process import FIELD, DeskProcess
from needs import NEEDS, needs

from portal_field.lib import doors, local_time, web
from portal_field.lib.machine_time import Notes
from portal_field.lib.zones import rule_of
from portal_field.server.accepted_steps import Steps
from portal_field.venues import copies, users
from portal_field.venues.apply import Apply
from portal_field.venues.clock import VenuesClock, Watch, newest_databases, take_word
from portal_field.venues.command import next_port
from portal_field.venues.counters import Counters, VenueCounter, open_counter
from portal_field.venues.files import VenueFiles, make_shared
from portal_field.venues.places import BadVenue, Machine, Places, check_name, machine_of, venues_in
from portal_field.venues.units import UnitFault, Units
from portal_field.venues.venue_settings import all_venues, read_venue

LINES = ('house = "House {0}"\nname = "wifi.example"\ncounter_name = "{0}.example"\nzone = "{1}"\n'
         'desk_port = {2}\n')
RADIUS = '[radius]\nlisten = "127.0.0.1"\n[radius.nas.lobby]\naddress = "10.9.0.{0}"\n'
MACHINE = Machine("127.0.0.1", clerks=["10.88.0.0/24"])
MIGRATION = 789     # MB, of a million vouchers (docs/BENCHMARKS.md)


class FakeUnits(Units):
    """Writes down what systemctl is asked; some units do not start."""

    def __init__(self, *broken: str) -> None:
        self.broken, self.asked = broken, list[tuple[str, ...]]()
        self.running: set[str] = set()

    def ctl(self, *words: str) -> str:
        self.asked.append(words)
        if any(unit in self.broken for unit in words) and words[0] in ("start", "restart"):
            raise UnitFault(f"systemctl {' '.join(words)}: no")
        if words[0] in ("start", "restart", "reload-or-restart"):
            self.running |= set(words[1:])
            if "portal-venues-clock.service" in words:
                self.running |= {f"portal@{name}.service" for name in ("north", "south")}
        return ""

    def make_users(self, root: pathlib.Path) -> None:
        self.asked.append(("users", users.text_for(root)))

    def is_active(self, unit: str) -> bool:
        return unit in self.running


class OnAMachine(unittest.TestCase):
    """A folder that stands for a machine with two venues."""

    def setUp(self) -> None:
        folder = tempfile.TemporaryDirectory()
        self.addCleanup(folder.cleanup)
        self.root = pathlib.Path(folder.name)
        self.ports = {"north": 20001, "south": 20002}

    def put(self, name: str, zone: str = "UTC0", more: str = "", port: int = 0) -> Places:
        """Writes the settings of a venue."""
        places = Places(name, self.root)
        places.settings.mkdir(parents=True, exist_ok=True)
        places.field.write_text(LINES.format(name, zone, port or self.ports[name]) + more)
        return places

    def make(self, name: str) -> list[str]:
        """Makes the files of a venue; the names of those that are new."""
        places = Places(name, self.root)
        return [path.name for path in VenueFiles(read_venue(places.field.read_text()), places).make()]


class Settings(OnAMachine):
    def test_a_name_is_short_and_plain(self) -> None:
        for name in ("a", "north", "north-1", "x" * 20):
            self.assertEqual(check_name(name), name)
        for name in ("", "-a", "a-", "A", "a_b", "a.b", "../x", "a/b", "x" * 21, "a\n", "ä"):
            self.assertRaises(BadVenue, check_name, name)

    def test_lines_of_a_gateway_and_of_the_machine_are_refused_in_words(self) -> None:
        text = LINES.format("north", "UTC0", 20001)
        for line, word in (('lan = "lan0"', "lan: a venue by name has no gateway"), ('clock = "host"', "clock: it is a line of"),
                           ('free_plan = "free"', "free_plan: a venue by name has no guests' page"), ("odd = 1", "unknown: odd"),
                           ('currency = "euro"', "currency"), ('desk_port = 1.5', "Cannot overwrite a value")):
            with self.subTest(line), self.assertRaises(BadVenue) as caught:
                read_venue(text + line + "\n")
            self.assertIn(word, str(caught.exception))
        with self.assertRaises(BadVenue) as caught:
            read_venue(text.replace("desk_port = 20001", ""))
        self.assertIn("missing: desk_port", str(caught.exception))
        self.assertEqual(read_venue(text + 'currency = "EUR"\n').currency, "EUR")

    def test_the_key_of_the_copies_is_one_of_the_machine(self) -> None:
        with self.assertRaisesRegex(BadVenue, "backup_key: it is a line of"):
            read_venue(LINES.format("north", "UTC0", 20001) + 'backup_key = ""\n')

    def test_of_two_venues_with_one_port_or_page_or_radius_port_the_first_has_it(self) -> None:
        for more, port, word in (("", 20001, "port 20001 of 127.0.0.1 is the venue north's"), (RADIUS.format(2), 20002, "port 1812"),
                                 ('counter_language = "de"\n', 20002, "")):
            self.put("north", more=RADIUS.format(1))
            self.put("south", more=more, port=port)
            venues, faults = all_venues(self.root)
            self.assertEqual((sorted(venues), word in faults.get("south", "")), (["north"] if word else ["north", "south"], True), word)
        self.put("south").field.write_text(LINES.format("north", "UTC0", 20002))
        self.assertIn("the name north.example is the venue north's", all_venues(self.root)[1]["south"])

    def test_a_venue_with_a_mistake_hinders_no_other(self) -> None:
        self.put("north")
        self.put("south").field.write_text("house = ")
        venues, faults = all_venues(self.root)
        self.assertEqual((list(venues), list(faults)), (["north"], ["south"]))
        self.assertIn(str(Places("south", self.root).field), faults["south"])

    def test_the_file_of_all_venues(self) -> None:
        with self.assertRaises(BadVenue) as caught:
            machine_of(self.root)
        self.assertIn("settings/venues.toml", str(caught.exception))
        self.assertEqual(Machine.read((FIELD / "settings/venues.toml").read_text()).clock, "kernel")
        for text in ("", 'listen = "x"', 'listen = "127.0.0.1"\nclock = "x"', 'listen = "127.0.0.1"\nclerks = ["10.0.0.1/8"]',
                     'listen = "127.0.0.1"\nodd = 1', 'listen = "127.0.0.1"\ncert = "; x"', 'listen = "127.0.0.1"\nmachine = "A"', "listen ="):
            self.assertRaises(BadVenue, Machine.read, text)

    def test_ports_are_the_lowest_that_are_free(self) -> None:
        self.assertEqual([next_port(set()), next_port({20001, 20003})], [20001, 20002])
        self.assertRaises(BadVenue, next_port, set(range(20001, 30000)))


class MadeFiles(OnAMachine):
    def test_a_file_that_is_the_same_is_not_written(self) -> None:
        self.put("north", more=RADIUS.format(1))
        first = self.make("north")
        self.assertLessEqual({"portal.toml", "server.env", "plans.toml", "counter.toml", "radius.toml", "clients.conf"}, set(first))
        before = {path: path.stat().st_ino for path in self.root.rglob("*") if path.is_file()}
        self.assertEqual(self.make("north"), [])
        self.assertEqual({path: path.stat().st_ino for path in before}, before)
        self.put("north", more='currency = "EUR"\n' + RADIUS.format(1))
        self.assertEqual(self.make("north"), ["counter.toml"])

    def test_each_venue_has_tokens_of_its_own_that_root_alone_reads(self) -> None:
        for name in self.ports:
            self.put(name)
            self.make(name)
        texts = [(Places(name, self.root).settings / "portal.toml").read_text() for name in self.ports]
        tokens = [line for text in texts for line in text.splitlines() if "token" in line]
        self.assertEqual((len(tokens), len(set(tokens))), (4, 4))
        secrets = [path for name in self.ports for path in (Places(name, self.root).desk_token, Places(name, self.root).settings / "portal.toml")]
        self.assertEqual({path.stat().st_mode & 0o777 for path in secrets}, {0o600})
        self.assertEqual(Places("north", self.root).desk_token.read_text().strip() in texts[0], True)
        self.assertEqual([path.read_text().strip() for path in self.root.rglob("credentials/desk_token")], [])

    def test_radius_has_the_paths_of_its_venue_which_are_those_of_the_unit(self) -> None:
        places = self.put("north", more=RADIUS.format(1))
        self.make("north")
        env = dict(line.split("=", 1) for line in (places.settings / "radius.env").read_text().splitlines())
        root, unit = str(self.root), (FIELD / "units/portal-radius@.service").read_text()
        for word, path, line in (("RADIUS_RUN", "/run/portal-venues-radius/north", "RuntimeDirectory=portal-venues-radius/%i\n"),
                                 ("RADIUS_RADACCT", "/var/lib/portal-venues-radius/north/radacct.db", "StateDirectory=portal-venues-radius/%i\n"),
                                 ("FIELD_SETTINGS", "/etc/portal/venues/north/radius.toml", "EnvironmentFile=/etc/portal/venues/%i/radius.env\n")):
            self.assertEqual((env[word], line in unit), (root + path, True), word)
        self.assertEqual((places.settings / "credentials/radius/clients.conf").stat().st_mode & 0o777, 0o600)
        self.assertIn(f"desk_port = {self.ports['north']}\n", (places.settings / "radius.toml").read_text())
        self.put("north")
        self.make("north")
        self.assertFalse((places.settings / "radius.toml").exists(), "without the table its units start nothing")

    def test_nginx_and_the_rules_know_all_venues(self) -> None:
        for name in self.ports:
            self.put(name)
        venues, _ = all_venues(self.root)
        self.assertEqual({path.name for path in make_shared(venues, MACHINE, self.root)}, {"nginx.conf", "venues.conf", "away.html", "busy.html", "desks.nft"})
        self.assertEqual(make_shared(venues, MACHINE, self.root), [])
        text = (self.root / "etc/portal/counter-nginx/venues.conf").read_text()
        self.assertIn("    north.example north;\n    south.example south;\n", text)
        self.assertIn('proxy_set_header X-Venue "$portal_venue";', text)
        self.assertIn("allow 10.88.0.0/24;\n    deny all;", text)
        self.assertNotRegex(text, "@[A-Z_]+@")
        rules = (self.root / "etc/portal/venues/desks.nft").read_text()
        self.assertIn("elements = { 20001, 20002 }", rules)
        make_shared({}, MACHINE, self.root)
        self.assertFalse((self.root / "etc/portal/counter-nginx/venues.conf").exists())

    def test_the_venue_without_a_name_takes_no_name_from_a_browser(self) -> None:
        self.assertIn('proxy_set_header X-Venue "@VENUE@";', (FIELD / "counter/nginx-counter.conf").read_text())

    def test_each_unit_of_a_venue_has_its_own_paths_alone(self) -> None:
        """No unit by name has a path of the venue without one, or of all."""
        for path in (FIELD / "units").glob("portal*@.service"):
            if path.name in ("portal@.service", "portal-settings@.service", "portal-radius@.service", "portal-radius-agent@.service"):
                for line in path.read_text().splitlines():
                    if line.startswith(("LoadCredential", "StateDirectory=", "ReadWritePaths", "EnvironmentFile", "RuntimeDirectory=")):
                        self.assertIn("%i", line, f"{path.name}: {line}")

    def test_a_desk_may_take_the_memory_of_a_migration(self) -> None:
        """That of a million vouchers, three times, since each may have been redeemed."""
        limit = re.search(r"(?m)^MemoryMax=(\d+)G$", (FIELD / "units/portal@.service").read_text())
        assert limit
        self.assertGreater(int(limit[1]) * 1024, 3 * MIGRATION)


class Applied(OnAMachine):
    def run_apply(self, units: FakeUnits, *names: str, as_shipped: bool = True) -> tuple[int, str]:
        """Applies the settings; the status, and what was printed."""
        venues, faults = all_venues(self.root)
        words = io.StringIO()
        with contextlib.redirect_stdout(words), contextlib.redirect_stderr(words):
            maker = Apply(MACHINE, self.root, units, prices_as_shipped=as_shipped)
            status = maker.run(venues, names or sorted({*venues, *faults}), faults)
        return status, words.getvalue()

    def test_nothing_is_started_before_prices_are_chosen(self) -> None:
        self.put("north")
        units = FakeUnits()
        status, words = self.run_apply(units, as_shipped=False)
        self.assertEqual(status, 1)
        self.assertIn("nobody has chosen the prices", words)
        self.assertIn("done: files; not done: prices, units", words)
        self.assertFalse([words for words in units.asked if "portal@north.service" in words])
        self.assertEqual(self.run_apply(units)[0], 0)
        self.assertIn(("enable", "portal-settings@north.socket", "portal@north.service"), units.asked)

    def test_a_step_that_fails_is_said_and_hinders_no_other_venue(self) -> None:
        for name in self.ports:
            self.put(name)
        units = FakeUnits("portal-settings@north.socket")
        status, words = self.run_apply(units)
        self.assertEqual(status, 1)
        self.assertIn("[1/2] north: FAILED: units: systemctl start portal-settings@north.socket: no\n    done: files, prices; not done: units", words)
        self.assertIn("[2/2] south: ready", words)
        self.assertEqual(self.run_apply(FakeUnits())[0], 0)

    def test_each_venue_has_a_user_of_its_own_before_it_starts(self) -> None:
        """Which the unit names; also one that was retired, whose database stays."""
        for name in self.ports:
            self.put(name)
        field = Places("south", self.root).field
        field.rename(field.with_name("field.toml.retired"))
        units = FakeUnits()
        self.run_apply(units)
        made = [words for words in units.asked if words[0] == "users"]
        self.assertTrue(made, "its user is made")
        self.assertLess(units.asked.index(made[0]), units.asked.index(("enable", "portal-settings@north.socket", "portal@north.service")))
        names = re.findall(r'(?m)^u (\S+) - "', made[0][1])
        self.assertEqual(names, ["portal_north", "portal_south"])
        user = re.findall("(?m)^User=(.*)", (FIELD / "units/portal@.service").read_text())
        self.assertEqual([user[0].replace("%i", name) for name in ("north", "south")], names)
        self.assertLess(len(user[0].replace("%i", 20 * "a")), 32, "the longest name that a user may have")

    def test_what_is_as_it_should_be_is_not_started_anew(self) -> None:
        self.put("north")
        units = FakeUnits()
        self.run_apply(units)
        units.asked.clear()
        status, words = self.run_apply(units)
        self.assertEqual((status, "north: ready, 0 files new" in words), (0, True))
        self.assertEqual([words for words in units.asked if words[0] in ("restart", "reload-or-restart")], [])
        self.put("north", zone="EST5")
        self.run_apply(units)
        self.assertIn(("restart", "portal@north.service"), units.asked)

    def test_a_venue_that_comes_back_is_started_though_its_files_are_the_same(self) -> None:
        for name in self.ports:
            self.put(name)
        units = FakeUnits()
        self.run_apply(units)
        text = self.put("south").field.read_text()
        Places("south", self.root).field.unlink()
        self.run_apply(units)
        for _ in range(2):
            units.asked.clear()
            Places("south", self.root).field.write_text(text)
            words = self.run_apply(units)[1]
            self.assertIn("south: ready, 0 files new", words)
            restarted = {words[1] for words in units.asked if words[0] == "restart"}
            self.assertEqual(restarted, {"portal-venues-clock.service", "portal-venues-counter.service"} if _ == 0 else set())

    def test_the_view_is_collected_where_a_database_is_named(self) -> None:
        self.put("north")
        of_the_table = "portal-venues-collect.timer", "portal-venues-plans.timer", "portal-office.socket"
        for database, words in (("", ("disable", "--now", *of_the_table)), ("dbname=portal", ("enable", "--now", *of_the_table))):
            units = FakeUnits()
            with contextlib.redirect_stdout(io.StringIO()):
                Apply(Machine("127.0.0.1", database=database), self.root, units, prices_as_shipped=True).run(all_venues(self.root)[0], ["north"], {})
            self.assertIn(words, units.asked)

    def test_without_venues_nothing_of_them_runs(self) -> None:
        units = FakeUnits()
        self.run_apply(units)
        self.assertEqual(units.asked[0][:2], ("disable", "--now"))

    def test_a_copy_needs_a_database(self) -> None:
        with contextlib.redirect_stdout(io.StringIO()) as words:
            self.assertTrue(copies.copy(Places("north", self.root)))
        self.assertIn("no database yet", words.getvalue())


class Zones(unittest.TestCase):
    def test_local_times_are_those_of_the_c_library(self) -> None:
        draw = random.Random(62)
        self.addCleanup(local_time.use_zone, "UTC0")
        for name in ("Europe/Berlin", "America/New_York", "Asia/Kathmandu", "Australia/Lord_Howe", "UTC0"):
            rule = rule_of(name)
            local_time.use_zone(rule)
            zone = local_time.zone_of(rule)
            for _ in range(400):
                moment = draw.randrange(1_700_000_000, 2_500_000_000)
                given = time.localtime(moment)
                day = datetime.date(*given[:3])
                begin = int(time.mktime((*given[:3], 0, 0, 0, 0, 0, -1)))
                local_time.use_zone("UTC0")
                with local_time.in_zone(zone):
                    self.assertEqual((local_time.local(moment).timetuple()[:6], local_time.begin_of(day)), (given[:6], begin), (name, moment))
                local_time.use_zone(rule)

    def test_no_rule(self) -> None:
        self.assertRaises(ValueError, local_time.zone_of, "nonsense")


@needs(*NEEDS["quick"])
class OneProcess(OnAMachine):
    """Both counters behind one socket, each with a desk of its own."""

    def setUp(self) -> None:
        super().setUp()
        self.desks: dict[str, DeskProcess] = {}
        pages: dict[str, VenueCounter] = {}
        for name, zone in (("north", "<+14>-14"), ("south", "<-12>12")):     # never of one day
            desk = self.enterContext(DeskProcess())
            desk.load()
            self.desks[name] = desk
            places = self.put(name, zone, port=desk.port)
            self.make(name)
            put_accounts(places.settings)
            pages[name] = open_counter(places, "desk-token")
            pages[name].counter.load_plans()
        self.counters = Counters(pages)
        path = str(self.root / "socket")
        server = web.server(self.counters, doors.listening(path), 4)
        threading.Thread(target=server.run, daemon=True).start()
        self.path = path

    def browser(self, name: str) -> ClerksBrowser:
        """A browser at the counter of a venue, by nginx's word of which that is."""
        class Here(ClerksBrowser):
            """Sends what nginx sends."""

            def send(self, path: str, form: Mapping[str, str] | None = None, /, **head: str) -> Answer:
                return super().send(path, form, **{"X-Venue": name, **head})

        return Here(self.connection, host=f"{name}.example")

    def connection(self) -> http.client.HTTPConnection:
        """A connection to the socket."""
        link = http.client.HTTPConnection("localhost", timeout=20)
        link.sock = socket.socket(socket.AF_UNIX)
        link.sock.connect(self.path)
        return link

    def test_each_venue_has_its_own_pages(self) -> None:
        for name in self.desks:
            browser = self.browser(name)
            browser.log_in("anna")
            self.assertIn(f"House {name}", browser.ask("/").text)

    def test_a_request_without_a_venue_reaches_none(self) -> None:
        for name in ("", "east", "north/", "../north"):
            self.assertEqual(self.browser(name).ask("/login").status, 404, name)

    def test_a_voucher_of_one_venue_is_unknown_to_the_other(self) -> None:
        code, = self.desks["north"].issue_codes("hour", "b1")
        south = self.browser("south")
        south.log_in("anna")
        self.assertNotEqual(south.post("/sell", code=code, request="s1").status, 200)
        self.assertIsNone(self.desks["north"].voucher(code)["sold"])
        north = self.browser("north")
        north.log_in("anna")
        self.assertIn(north.post("/sell", code=code, request="s1").status, (200, 303))
        self.assertIsNotNone(self.desks["north"].voucher(code)["sold"])

    def test_a_log_in_of_one_venue_acts_in_no_route_of_the_other(self) -> None:
        """Every route of the application, with the cookie and the token of the other venue's manager: each is
        refused as a stranger's is, and the desk is asked for nothing."""
        code, = self.desks["south"].issue_codes("hour", "b1")
        north = self.browser("north")
        north.log_in("anna")
        self.assertEqual(north.ask("/money").status, 200)
        stranger = self.browser("south")
        stranger.cookie = north.cookie
        rules = sorted((rule.rule, method) for rule in self.counters.venues["south"].app.url_map.iter_rules()      # type: ignore[attr-defined]
                       for method in rule.methods & {"GET", "POST"})
        self.assertGreater(len(rules), 40)
        asked: list[object] = []
        desk = self.counters.venues["south"].counter.desk
        exchange = desk.exchange

        def noted(*words: object) -> object:
            """The desk's answer to a request, which is written down."""
            asked.append(words)
            return exchange(*words)     # type: ignore[arg-type]

        setattr(desk, "exchange", noted)
        form = {"code": code, "request": "r1", "batch": "b1", "plan": "hour", "count": "1", "token": north.token, "name": "anna",
                "session": "1", "from": "2026-01-01", "to": "2026-01-02", "text": "x", "codes": code, "reason": "x", "password": "no-such-word"}
        for path, method in rules:
            if path == "/login":
                continue
            stranger.cookie = north.cookie
            answer = stranger.send(path, form if method == "POST" else None)
            self.assertIn(answer.status, (303, 403), (path, method))
            if answer.status == 303:
                self.assertRegex(answer.place, r"\A/login(\?|\Z)", (path, method))
            else:
                self.assertIn('action="/login"', answer.text, (path, method))
        self.assertEqual(asked, [])
        self.assertIsNone(self.desks["south"].voucher(code)["sold"])

    def test_local_times_are_those_of_each_venue(self) -> None:
        days = {}
        for name in self.desks:
            browser = self.browser(name)
            browser.log_in("anna")
            page = browser.ask("/vouchers").text
            days[name] = page.partition('name="batch" ')[2].partition('value="b-')[2][:8]
        now = datetime.datetime.now(datetime.UTC)
        self.assertEqual(days, {"north": f"{now + datetime.timedelta(hours=14):%Y%m%d}", "south": f"{now - datetime.timedelta(hours=12):%Y%m%d}"})

    def test_a_venue_whose_desk_is_away_hinders_no_other(self) -> None:
        self.desks["north"].job.kill()
        self.desks["north"].job.wait()
        for name in self.desks:
            notes = Notes(str(Places(name, self.root).notes))
            notes.folder.mkdir(parents=True)
            notes.write("state", **{"is": "serves", "since": 7})
        self.counters.look()
        self.assertEqual(self.counters.venues["south"].counter.since, 7)
        south = self.browser("south")
        south.log_in("anna")
        self.assertEqual(south.ask("/vouchers").status, 200)


class OneClock(OnAMachine):
    def test_the_clock_is_compared_with_the_latest_entry_of_all(self) -> None:
        moments = {}
        with DeskProcess() as desk:
            desk.load()
            desk.issue_codes("hour", "b1")
            moments["now"] = int(time.time())
            clock = VenuesClock("kernel", Notes(str(self.root)), lambda: [desk.folder / "none.db", desk.book], Steps())
            if "desk_stand_in" not in " ".join(desk.portal):
                fault, last = clock.compared_with()
                self.assertLess(abs((last or 0) - moments["now"]), 60, fault)
        clock = VenuesClock("kernel", Notes(str(self.root)), lambda: [], Steps())
        self.assertEqual(clock.compared_with()[1], None)

    def test_a_clerks_word_of_any_venue_counts_once(self) -> None:
        notes = [Notes(str(self.root / name)) for name in ("a", "b")]
        for note in notes:
            note.folder.mkdir()
        notes[1].write("word", origin=5.0, who="a clerk")
        shared = Notes(str(self.root))
        take_word(notes, shared)
        self.assertEqual((shared.read("word"), notes[1].read("word")), ({"origin": 5.0, "who": "a clerk"}, {}))

    def test_the_databases_that_were_written_last(self) -> None:
        for number in range(7):
            name = f"v{number}"
            self.put(name, port=20001 + number)
            places = Places(name, self.root)
            places.database.parent.mkdir(parents=True)
            places.database.write_text("")
            os.utime(places.database, (1000 + number, 1000 + number))
        self.assertEqual([path.parent.name for path in newest_databases(self.root)], ["v6", "v5", "v4", "v3", "v2"])
        self.assertEqual(venues_in(self.root), [f"v{number}" for number in range(7)])

    def test_a_desk_that_is_silent_three_times_is_started_anew(self) -> None:
        restarted: list[str] = []
        watch = Watch({"north": 1, "south": 2}, restarted.append)
        setattr(watch, "answers", lambda port: port == 2)
        for _ in range(3):
            self.assertEqual(restarted, [])
            watch.look()
        self.assertEqual(restarted, ["portal@north.service"])
        watch.look()
        self.assertEqual(restarted, ["portal@north.service"], "and then has time to start")


if __name__ == "__main__":
    unittest.main()
