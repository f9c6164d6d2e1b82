"""The plans of a chain: brought to all venues or some, safe to repeat, and what differs is named by venue."""

from __future__ import annotations

import contextlib
import io
import pathlib
import tempfile
import tomllib
from unittest import mock

from desk_process import FIELD, PLANS, DeskProcess, Refused, Routes
from needs import NEEDS, needs
from own_postgres import OwnPostgres

from portal_field.counter.offers import ACCEPTED
from portal_field.lib.plans import plans_in
from portal_field.venues import chain_plans, report, table, view
from portal_field.venues.chain_plans import ChainPlans
from portal_field.venues.places import BadVenue, Machine, Places
from portal_field.venues.units import UnitFault, Units

LINES = 'house = "House {0}"\nname = "wifi.example"\ncounter_name = "{0}.example"\nzone = "UTC0"\ndesk_port = {1}\n'
NIGHT = '[[plan]]\nid = "night"\nprice = 700\nuses = 1\nseconds = 36000\nbytes = 0\nshelf_days = 30\nextend = true\n'
OWN = "# of this venue\n" + NIGHT.replace("night", "pool")
HOUR = PLANS.decode()[:PLANS.decode().index("[[plan]]", PLANS.decode().index("[[plan]]") + 1)]
CHAIN = ChainPlans(HOUR + NIGHT, '[night]\nname = "One night"\nplace = 1\n')


class NotedUnits(Units):
    """Writes down what systemctl is asked."""

    def __init__(self) -> None:
        self.asked: list[tuple[str, ...]] = []

    def ctl(self, *words: str) -> str:
        self.asked.append(words)
        return ""


@needs("postgresql", "python3-psycopg", "util-linux", *NEEDS["quick"])
class Pushed(OwnPostgres):
    """Two venues of one machine, each with a desk that has the sample's plans and a file of its own."""

    def setUp(self) -> None:
        self.root = pathlib.Path(self.enterContext(tempfile.TemporaryDirectory()))
        self.machine, self.units = self.of("one"), NotedUnits()
        self.words = self.enterContext(contextlib.redirect_stdout(io.StringIO()))
        self.errors = self.enterContext(contextlib.redirect_stderr(io.StringIO()))
        with chain_plans.opened(self.machine) as link:
            link.execute("TRUNCATE portal.venue, portal.plan_file, portal.plan_push")
            link.execute("TRUNCATE portal_view.venue CASCADE")
        self.desks: dict[str, DeskProcess] = {}
        for name in ("north", "south"):
            self.add(Places(name, self.root), self.machine)

    def add(self, places: Places, machine: Machine) -> None:
        """Adds a venue of a machine."""
        for folder in (places.settings, places.desk_token.parent, places.counter_state):
            folder.mkdir(parents=True, exist_ok=True)
        desk = self.desks[places.name] = self.enterContext(DeskProcess())
        places.desk_token.write_text("desk-token\n")
        places.field.write_text(LINES.format(places.name, desk.port))
        (places.settings / "plans.toml").write_text(OWN)
        table.add(machine, places.name, places.field.read_text())

    def places(self, name: str) -> Places:
        """The files of a venue."""
        return Places(name, self.root)

    def file(self, name: str, file: str = "plans.toml") -> pathlib.Path:
        """A file of a venue's owner."""
        return self.places(name).settings / file

    def push(self, chain: ChainPlans | None = CHAIN, *names: str, looks: bool = False, machine: Machine | None = None) -> int:
        """Brings the plans to the venues of the machine; the status."""
        return chain_plans.push(machine or self.machine, self.root, self.units, chain, names, looks)

    def accept(self, name: str, text: str) -> None:
        """Notes a file of plans as the counter does that had it accepted."""
        (self.places(name).counter_state / ACCEPTED).write_text(text)

    def test_all_venues_get_them_and_keep_their_own(self) -> None:
        self.assertEqual(self.push(), 0)
        for name, desk in self.desks.items():
            self.assertEqual(list(plans_in(self.file(name).read_bytes())), ["hour", "night", "pool"])
            self.assertEqual(tomllib.loads(self.file(name, "offers.toml").read_text())["night"], {"name": "One night", "place": 1})
            self.assertEqual(self.file(name, "plans.toml.before").read_text(), OWN)
            for plan in ("night", "pool"):
                self.assertEqual(len(desk.issue_codes(plan, f"b-{plan}")), 1)
        self.assertEqual(self.units.asked, [("try-restart", "portal-venues-counter.service")])
        self.assertEqual(chain_plans.behind(self.machine), [])

    def test_a_repetition_changes_nothing(self) -> None:
        self.push()
        for name in self.desks:
            self.accept(name, self.file(name).read_text())
        before = {path: (path.read_bytes(), path.stat().st_ino) for path in self.root.rglob("*.toml*")}
        self.units.asked.clear()
        self.assertEqual(self.push(None), 0)
        self.assertEqual({path: (path.read_bytes(), path.stat().st_ino) for path in self.root.rglob("*.toml*")}, before)
        self.assertEqual(self.units.asked, [])
        self.assertTrue(self.words.getvalue().endswith("north: has them\nsouth: has them\n"))

    def test_counters_that_did_not_take_them_are_started_anew(self) -> None:
        """As where the push ended before that."""
        self.push()
        self.units.asked.clear()
        self.push()
        self.assertEqual(self.units.asked, [("try-restart", "portal-venues-counter.service")])

    def test_a_venue_that_differs_is_named_and_gets_nothing_of_it(self) -> None:
        dear = HOUR.replace("price = 300", "price = 350")
        self.desks["south"].desk.request_json(Routes.PLANS, body=dear.encode())
        self.assertEqual(self.push(), 1)
        self.assertIn("south: it has not got them: its server says plan_differs: a plan of this id is loaded there with other terms", self.errors.getvalue())
        self.accept("south", dear)
        self.assertEqual(self.push(None), 1)
        line = "plan 'hour': price = 300 in the file, and loaded with 350"
        self.assertIn(f"south: it has not got them: {line}\n", self.errors.getvalue())
        self.assertEqual((self.file("south").read_text(), self.file("south", "offers.toml").exists()), (OWN, False))
        with self.assertRaises(Refused):
            self.desks["south"].issue_codes("night", "b1")
        self.assertEqual(len(self.desks["north"].issue_codes("night", "b1")), 1)
        self.assertEqual(chain_plans.behind(self.machine), [f"south has not got the plans of the chain: {line}"])

    def test_a_difference_is_known_by_the_view(self) -> None:
        with view.opened(self.machine) as link:
            view.venues_of(link, self.machine)
            view.put(link, "plan", "north", [("night", 650, 1, 36000, 0, 30, True)])
        self.assertEqual(self.push(), 1)
        self.assertIn("north: it has not got them: plan 'night': price = 700 in the file, and loaded with 650", self.errors.getvalue())

    def test_a_silent_venue_is_named_and_its_files_stay(self) -> None:
        self.desks["north"].job.kill()
        self.desks["north"].job.wait()
        self.assertEqual(self.push(), 1)
        self.assertRegex(self.errors.getvalue(), r"\Anorth: it has not got them: it is silent: .*Connection refused\n\Z")
        self.assertEqual((self.file("north").read_text(), "night" in self.file("south").read_text()), (OWN, True))

    def test_some_venues_and_then_all(self) -> None:
        self.assertEqual(self.push(CHAIN, "south"), 0)
        self.assertEqual((self.file("north").read_text(), "night" in self.file("south").read_text()), (OWN, True))
        self.assertEqual(list(chain_plans.kept(self.machine)), ["south"])
        later = ChainPlans(CHAIN.plans + NIGHT.replace("night", "week"))
        self.assertEqual(self.push(later), 0)
        self.assertEqual(list(chain_plans.kept(self.machine)), ["*"])
        for name in self.desks:
            self.assertIn("week", plans_in(self.file(name).read_bytes()))
        self.assertRaises(BadVenue, self.push, CHAIN, "east")

    def test_a_look_changes_nothing(self) -> None:
        self.assertEqual(self.push(looks=True), 0)
        self.assertEqual(self.words.getvalue(), "north: would get new plans and offers\nsouth: would get new plans and offers\n")
        self.assertEqual((self.file("north").read_text(), chain_plans.kept(self.machine), self.units.asked), (OWN, {}, []))
        with self.assertRaises(Refused):
            self.desks["north"].issue_codes("night", "b1")

    def test_a_machine_that_has_not_brought_them_yet_is_named(self) -> None:
        table.add(self.of("two"), "east", LINES.format("east", 20001))
        self.push()
        line = ("east has not got the plans of the chain yet: two fetches them each quarter of an hour, or at once by "
                "portal-venues plans")
        self.assertEqual(chain_plans.behind(self.machine), [line])
        with view.opened(self.machine) as link:
            view.venues_of(link, self.machine)
            today, = link.execute("SELECT current_date").fetchone()
        self.assertIn(line + "\n", report.show(self.machine, 2, today))

    def test_another_machine_fetches_them_once(self) -> None:
        two, east = self.of("two"), Places("east", self.root / "two")
        self.add(east, two)
        self.push()
        self.units.asked.clear()
        self.assertEqual(chain_plans.fetch(two, east.root, self.units), 0)
        self.assertEqual(list(plans_in((east.settings / "plans.toml").read_bytes())), ["hour", "night", "pool"])
        self.assertEqual(len(self.desks["east"].issue_codes("night", "b1")), 1)
        self.assertEqual((self.units.asked, chain_plans.behind(two)), ([("try-restart", "portal-venues-counter.service")], []))
        for desk in self.desks.values():
            desk.job.kill()
            desk.job.wait()
        for machine, root in ((self.machine, self.root), (two, east.root)):
            self.assertEqual(chain_plans.fetch(machine, root, self.units), 0, "who has them is not asked again")
        self.assertEqual(len(self.units.asked), 1)

    def test_a_silent_venue_gets_them_at_a_later_time(self) -> None:
        self.desks["north"].job.kill()
        self.desks["north"].job.wait()
        self.push()
        self.assertEqual(chain_plans.fetch(self.machine, self.root, self.units), 1)
        self.assertIn("it has not got them: it is silent", self.errors.getvalue())
        self.desks["north"].__enter__()
        self.assertEqual(chain_plans.fetch(self.machine, self.root, self.units), 0)
        self.assertIn("night", self.file("north").read_text())

    def test_a_file_that_comes_while_another_is_brought_is_fetched_too(self) -> None:
        self.push()
        before = chain_plans.kept(self.machine)
        later = ChainPlans(CHAIN.plans, CHAIN.offers.replace("One night", "A night"))
        chain_plans.keep(self.machine, later, ())
        with mock.patch.object(chain_plans, "kept", return_value=before):
            chain_plans.fetch(self.machine, self.root, self.units)
        self.assertEqual(len(chain_plans.behind(self.machine)), 2)
        self.assertEqual(chain_plans.fetch(self.machine, self.root, self.units), 0)
        self.assertIn("A night", self.file("south", "offers.toml").read_text())
        self.assertEqual(chain_plans.behind(self.machine), [])

    def test_venues_count_as_behind_until_their_counters_have_them(self) -> None:
        with mock.patch.object(self.units, "ctl", side_effect=UnitFault("no")):
            self.assertRaises(UnitFault, self.push)
        self.assertEqual(len(chain_plans.behind(self.machine)), 2)
        self.assertEqual(chain_plans.fetch(self.machine, self.root, self.units), 0)
        self.assertEqual(self.units.asked, [("try-restart", "portal-venues-counter.service")])

    def test_the_timer_fails_for_nothing_that_another_unit_says(self) -> None:
        """3: a venue has not got them; 4: PostgreSQL is away, or the settings are not what they must be."""
        for database, outcome, status in (("", [], 0), ("dbname=x", [0], 0), ("dbname=x", [1], 3),
                                          ("dbname=x", [table.Away("gone")], 4), ("dbname=x", [UnitFault("no")], 4)):
            machine = Machine("127.0.0.1", database=database)
            with mock.patch.object(chain_plans, "machine_of", return_value=machine), \
                    mock.patch.object(chain_plans, "fetch", side_effect=outcome):
                self.assertEqual(chain_plans.main(), status, outcome)
        with mock.patch.object(chain_plans, "machine_of", side_effect=BadVenue("no file")):
            self.assertEqual(chain_plans.main(), 4)
        unit = (FIELD / "units/portal-venues-plans.service").read_text()
        self.assertIn("\nSuccessExitStatus=3 4\n", unit)
        self.assertIn(f"ExecStart=/usr/bin/python3 -P -m {chain_plans.__name__}\n", unit)

    def test_a_chain_without_plans_has_no_table_of_them(self) -> None:
        with view.opened(self.machine) as link:
            link.execute("DROP TABLE portal.plan_file, portal.plan_push")
        self.assertEqual(chain_plans.fetch(self.machine, self.root, self.units), 0)
        with view.opened(self.machine) as link:
            self.assertEqual(link.execute("SELECT to_regclass('portal.plan_file')").fetchone(), (None,))

    def test_a_file_with_a_mistake_reaches_no_venue(self) -> None:
        path = self.root / "chain.toml"
        for text in ("[[plan]]", NIGHT + NIGHT, "plan = 1"):
            path.write_text(text)
            self.assertRaises(BadVenue, chain_plans.read_files, path, None)
        path.write_text(CHAIN.plans)
        offers = self.root / "offers.toml"
        offers.write_text("[night]\nodd = 1\n")
        self.assertRaises(BadVenue, chain_plans.read_files, path, offers)
        offers.write_text(CHAIN.offers)
        self.assertEqual(chain_plans.read_files(path, offers), CHAIN)
        self.assertRaises(BadVenue, self.push, None)

    def test_without_postgresql_the_files_are_for_the_venues_of_the_machine(self) -> None:
        alone = Machine("127.0.0.1")
        self.assertEqual(self.push(CHAIN, "north", machine=alone), 0)
        self.assertEqual(("night" in self.file("north").read_text(), self.file("south").read_text()), (True, OWN))
        self.assertRaises(BadVenue, self.push, None, machine=alone)
        self.assertRaises(BadVenue, self.push, CHAIN, "east", machine=alone)
