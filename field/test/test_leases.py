"""The binder of leased addresses, over a table of the test's own."""

from __future__ import annotations

import contextlib
import io
import ipaddress
import math
import pathlib
import tempfile
import unittest
import unittest.mock
from dataclasses import dataclass, field
from typing import Any

from needs import needs

from portal_field.gateway import bound, leases as lease_service
from portal_field.gateway.bound import Pair
from portal_field.gateway.leases import Binder, Lease, Service, leases_in

try:
    from portal_field.lib import neighbours
except ModuleNotFoundError:
    neighbours = None       # type: ignore[assignment]

ONE, TWO = "02:00:00:00:00:01", "02:00:00:00:00:02"
HERE, THERE = "10.77.0.50", "10.77.0.51"
NETWORK = ipaddress.IPv4Network("10.77.0.0/22")
FILE = (f"1700000000 {ONE} {HERE} phone 01:{ONE}\n"
        f"0 {TWO} {THERE} * *\n")


@dataclass(frozen=True)
class Entry:
    mac: str | None
    state: str
    is_ours: bool = False

    @property
    def device(self) -> str | None:
        return self.mac if self.state == "permanent" else None

    @property
    def is_asked(self) -> bool:
        return self.state == "probe"

    @property
    def has_failed(self) -> bool:
        return self.state == "failed"


@dataclass
class Table:
    """What a kernel does, but for packets."""
    rows: dict[str, Entry] = field(default_factory=dict)
    away: bool = False
    changes: int = 0

    def there(self) -> None:
        if self.away:
            raise OSError("no such device")

    def entry(self, address: str) -> Entry | None:
        self.there()
        return self.rows.get(address)

    def entries(self) -> dict[str, Entry]:
        self.there()
        return dict(self.rows)

    def put(self, address: str, entry: Entry) -> Entry:
        self.there()
        self.rows[address], self.changes = entry, self.changes + 1
        return entry

    def bind(self, address: str, mac: str) -> Entry:
        return self.put(address, Entry(mac, "permanent", True))

    def probe(self, address: str, mac: str) -> Entry:
        return self.put(address, Entry(mac, "probe", True))

    def drop(self, address: str) -> None:
        self.there()
        self.rows.pop(address, None)

    def devices(self) -> dict[str, str]:
        return {address: entry.device for address, entry in self.rows.items() if entry.device}


@dataclass
class Rules:
    """The set `bound` as a kernel has it."""
    pairs: frozenset[Pair] = frozenset()
    filled_by: str = ""
    are_gone: bool = False
    sent: list[Any] = field(default_factory=list)

    def mark(self) -> str:
        if self.are_gone:
            raise OSError("no rules")
        return self.filled_by

    def read(self) -> set[Pair]:
        return set(self.pairs)

    def holds(self, pairs: frozenset[Pair]) -> bool:
        return self.pairs == pairs

    def change(self, gone: frozenset[Pair], come: frozenset[Pair]) -> None:
        self.sent.append(("change", gone, come))
        self.pairs = self.pairs - gone | come

    def fill(self, pairs: frozenset[Pair], mark: str) -> None:
        self.sent.append(("fill", pairs))
        self.pairs, self.filled_by = pairs, mark


class Files(unittest.TestCase):
    def test_leases_of_dnsmasqs_file(self) -> None:
        self.assertEqual(leases_in(FILE, NETWORK, 1.0),
                         {HERE: Lease(ONE, 1700000000.0), THERE: Lease(TWO, math.inf)})
        self.assertEqual(leases_in(FILE, NETWORK, 1700000000.0), {THERE: Lease(TWO, math.inf)}, "it has run out")

    def test_what_is_no_lease(self) -> None:
        for line in ("", "\n", FILE[:40], "duid 00:01\n", f"1700000000 {ONE} 10.99.0.50 * *\n",
                     f"1700000000 {ONE} x * *\n", f"1700000000 06-{ONE} {HERE} * *\n", f"-1 {ONE} {HERE} * *\n",
                     f"1700000000 {ONE} {HERE} * *", f"1700000000 {ONE} {HERE}\n"):
            self.assertEqual(leases_in(line, NETWORK, 1.0), {}, line)


class Bound(unittest.TestCase):
    def setUp(self) -> None:
        self.now, self.set_by = 1000.0, 0.0
        self.table = Table()
        self.binder = self.fresh()

    def fresh(self) -> Binder:
        binder = Binder(self.table, lambda: self.now + self.set_by, lambda: self.now)
        binder.look()
        return binder

    def follow(self, *leases: tuple[str, str], until: float = 4600.0, after: float = 0.0) -> None:
        self.now += after
        self.binder.follow({address: Lease(mac, until) for address, mac in leases})

    def test_a_lease_is_bound_and_stays_so(self) -> None:
        self.follow((HERE, ONE), (THERE, TWO))
        self.follow((HERE, ONE), (THERE, TWO), after=1800.0)
        self.assertEqual((self.table.devices(), self.table.changes), ({HERE: ONE, THERE: TWO}, 2))

    def test_an_entry_that_others_changed_is_bound_again(self) -> None:
        self.follow((HERE, ONE))
        for entry in (Entry(ONE, "stale"), Entry(TWO, "reachable"), Entry(TWO, "permanent")):
            self.table.rows[HERE] = entry
            self.binder.note_change(HERE)
            self.assertEqual(self.table.devices(), {HERE: ONE})
        del self.table.rows[HERE]
        self.binder.note_change(HERE)
        self.assertEqual(self.table.devices(), {HERE: ONE})
        self.table.rows[THERE] = Entry(TWO, "stale")        # no lease, so none of its business
        self.binder.note_change(THERE)
        self.assertEqual(self.table.rows[THERE], Entry(TWO, "stale"))

    def test_an_entry_goes_with_the_end_of_its_lease(self) -> None:
        """dnsmasq takes a lease that has ended out of its file; nobody is asked."""
        self.follow((HERE, ONE), until=self.now + 60)
        self.follow((THERE, TWO), after=60.0)
        self.follow((THERE, TWO), after=1.0)
        self.assertEqual((self.table.rows.keys(), self.table.devices()), ({THERE}, {THERE: TWO}))

    def test_a_released_lease_keeps_its_entry_while_its_device_answers(self) -> None:
        self.follow((HERE, ONE), (THERE, TWO))
        for after in (0.0, 0.9):
            self.follow((THERE, TWO), after=after)
            self.assertEqual(self.table.devices(), {HERE: ONE, THERE: TWO}, "nobody is asked yet")
        self.follow((THERE, TWO), after=0.1)
        for _ in range(3):
            self.assertEqual(self.table.rows[HERE], Entry(ONE, "probe", True))
            self.assertEqual(self.binder.devices(), {(ONE, HERE), (TWO, THERE)}, "its packets pass meanwhile")
            self.give_answer(HERE, Entry(ONE, "reachable", True))
            self.assertEqual(self.table.devices(), {HERE: ONE, THERE: TWO})
            for _ in range(4):
                self.follow((THERE, TWO), after=2.0)
                self.assertEqual(self.table.devices(), {HERE: ONE, THERE: TWO}, "and it is not asked at each look")
            self.follow((THERE, TWO), after=2.0)
        self.give_answer(HERE, Entry(None, "failed", True))
        self.follow((THERE, TWO))
        self.assertEqual((self.table.rows.keys(), self.binder.devices()), ({THERE}, {(TWO, THERE)}))

    def give_answer(self, address: str, entry: Entry) -> None:
        """What the kernel says once a device was asked."""
        self.table.rows[address] = entry
        self.binder.note_change(address)

    def test_a_released_lease_keeps_its_entry_until_it_would_have_ended(self) -> None:
        self.follow((HERE, ONE), until=self.now + 60)
        self.follow(after=1.0)
        self.follow(after=1.0)
        self.give_answer(HERE, Entry(ONE, "reachable", True))
        self.follow(after=57.9)
        self.assertEqual(self.binder.devices(), {(ONE, HERE)})
        self.follow(after=0.1)
        self.assertEqual((self.table.rows, self.binder.devices()), ({}, set()))

    def test_a_clock_that_is_set_takes_no_address_away(self) -> None:
        """Where it goes ahead, dnsmasq takes all leases for ended; each device renews its own after half of its time."""
        self.follow((HERE, ONE), (THERE, TWO))
        self.set_by = 10 * 365 * 86400.0
        self.follow()
        self.follow(after=1.0)
        for address, mac in ((HERE, ONE), (THERE, TWO)):
            self.give_answer(address, Entry(mac, "reachable", True))
        self.follow((HERE, ONE), until=self.now + self.set_by + 3600, after=1800.0)
        self.give_answer(THERE, Entry(TWO, "reachable", True))
        self.assertEqual(self.binder.devices(), {(ONE, HERE), (TWO, THERE)})
        self.follow((HERE, ONE), until=self.now + self.set_by + 3600, after=1800.0)
        self.assertEqual(self.binder.devices(), {(ONE, HERE)}, "an hour is over")

    def test_a_device_is_asked_only_while_arp_of_others_is_dropped(self) -> None:
        """Else whoever answers first would have the address."""
        self.binder.is_guarded = lambda mac, address: False
        self.follow((HERE, ONE))
        for _ in range(20):
            self.follow(after=1.0)
            self.follow((HERE, TWO), after=1.0)
        self.assertEqual((self.table.devices(), self.table.changes), ({HERE: ONE}, 1))

    def test_a_file_that_is_just_being_written_takes_nothing_away(self) -> None:
        self.follow((HERE, ONE), (THERE, TWO))
        for _ in range(5):
            self.follow(after=0.5)
            self.follow((HERE, ONE), (THERE, TWO), after=0.5)
        self.assertEqual((self.table.devices(), self.table.changes), ({HERE: ONE, THERE: TWO}, 2))

    def test_what_others_made_permanent_is_left_alone(self) -> None:
        self.table.rows[THERE] = Entry(TWO, "permanent")
        self.binder = self.fresh()
        for _ in range(3):
            self.follow((HERE, ONE), after=5.0)
        self.assertEqual(self.table.devices(), {HERE: ONE, THERE: TWO})

    def test_an_address_changes_hands_once_its_device_does_not_answer(self) -> None:
        self.follow((HERE, ONE))
        for before in ((), ((HERE, TWO),)):     # after a release, and without one
            self.follow(*before, after=2.0)
        self.assertEqual((self.table.rows[HERE], self.table.devices()), (Entry(ONE, "probe", True), {}))
        self.give_answer(HERE, Entry(ONE, "reachable", True))
        self.follow((HERE, TWO), after=1.0)
        self.assertEqual(self.table.devices(), {HERE: ONE}, "it has the address as before")
        self.follow((HERE, TWO), after=10.0)                # and is asked again
        self.assertEqual(self.table.rows[HERE], Entry(ONE, "probe", True))
        self.give_answer(HERE, Entry(None, "failed", True))
        self.assertEqual((self.table.devices(), self.binder.devices()), ({HERE: TWO}, {(TWO, HERE)}))

    def test_so_it_does_where_another_device_answers_in_its_place(self) -> None:
        self.follow((HERE, ONE))
        self.follow((HERE, TWO), after=2.0)
        for _ in range(9):
            self.give_answer(HERE, Entry(TWO, "reachable", True))
            self.follow((HERE, TWO), after=6.0)
            self.assertNotIn(TWO, self.table.devices().values())
            self.assertEqual(self.binder.devices(), {(ONE, HERE)})

    def test_an_address_changes_hands_at_once_after_the_end_of_its_lease(self) -> None:
        self.follow((HERE, ONE), until=1100.0)
        self.follow((HERE, TWO), after=100.0)
        self.assertEqual(self.table.devices(), {HERE: TWO})

    def test_the_same_device_comes_back_at_once(self) -> None:
        self.follow((HERE, ONE))
        self.follow(after=0.5)
        self.follow(after=2.0)
        self.assertEqual(self.table.devices(), {}, "it is asked")
        self.follow((HERE, ONE), after=1.0)
        self.assertEqual(self.table.devices(), {HERE: ONE})

    def test_started_again_it_goes_on(self) -> None:
        self.follow((HERE, ONE), (THERE, TWO))
        self.binder = self.fresh()
        self.follow((HERE, TWO))        # while it was away one lease moved, and one was released
        self.follow((HERE, TWO), after=1.0)
        self.assertEqual(self.table.rows, {HERE: Entry(ONE, "probe", True), THERE: Entry(TWO, "probe", True)})
        self.assertEqual(self.binder.devices(), {(ONE, HERE), (TWO, THERE)})
        self.give_answer(HERE, Entry(None, "failed", True))
        self.give_answer(THERE, Entry(None, "failed", True))
        self.follow((HERE, TWO), after=3.0)
        self.assertEqual(self.table.rows, {HERE: Entry(TWO, "permanent", True)})

    def test_started_again_while_it_asked_it_believes_the_rules(self) -> None:
        """The entry may be anybody's by then, if ARP of others was not dropped."""
        self.table.rows = {HERE: Entry(ONE, "reachable", True), THERE: Entry(ONE, "stale", True)}
        self.binder = Binder(self.table, lambda: self.now, lambda: self.now, lambda mac, address: address == HERE)
        self.binder.look()
        self.assertEqual(self.table.rows, {HERE: Entry(ONE, "permanent", True)})
        self.follow()
        self.follow(after=1.0)
        self.assertEqual(self.table.rows, {HERE: Entry(ONE, "probe", True)})

    def test_it_waits_until_the_next_lease_ends_at_most(self) -> None:
        self.follow((HERE, ONE))
        self.assertEqual(self.binder.wait(), lease_service.WHOLE)
        self.follow((HERE, ONE), until=self.now + 3.0)
        self.assertEqual(self.binder.wait(), 3.0)
        self.follow()
        self.assertLess(self.binder.wait(), lease_service.SETTLED)
        self.follow(after=1.0)          # it is asked, and answers
        self.give_answer(HERE, Entry(ONE, "reachable", True))
        self.assertEqual(self.binder.wait(), 2.0, "the end of the lease that was released")

    def test_an_entry_made_by_hand_counts_at_once(self) -> None:
        for entry, devices in ((Entry(TWO, "permanent"), {(TWO, THERE)}), (None, set())):
            self.table.rows = {THERE: entry} if entry else {}
            self.assertTrue(self.binder.note_change(THERE, entry is not None))
            self.assertEqual(self.binder.devices(), devices)
        self.table.rows = {THERE: Entry(TWO, "stale")}
        self.assertFalse(self.binder.note_change(THERE), "ARP of anybody is of no matter")


class Served(unittest.TestCase):
    def setUp(self) -> None:
        folder = pathlib.Path(self.enterContext(tempfile.TemporaryDirectory()))
        self.path, self.table = folder / "leases", Table()
        self.now, self.rules = 1.0, Rules()
        binder = Binder(self.table, lambda: 1.0, lambda: 1.0)
        self.service = Service(binder, bound.Bound(self.rules, lambda: self.now, "this one"), lambda: 7, self.path, NETWORK)

    def test_a_file_that_is_not_there_yet_has_no_lease(self) -> None:
        self.assertTrue(self.service.step({}, True, True))
        self.path.write_text(FILE)
        self.assertTrue(self.service.step({}, False, True))
        self.assertEqual(self.table.devices(), {HERE: ONE, THERE: TWO})

    def test_a_device_that_comes_again_gets_its_entries_again(self) -> None:
        self.path.write_text(FILE)
        self.assertTrue(self.service.step({}, True, True))
        self.table.away, self.table.rows = True, {}
        with contextlib.redirect_stderr(io.StringIO()) as events:
            for _ in range(3):
                self.assertFalse(self.service.step({}, True, True))
        self.assertEqual(events.getvalue(), "leases: no such device\n", "once")
        self.table.away = False
        self.assertTrue(self.service.step({}, True, True))
        self.assertEqual(self.table.devices(), {HERE: ONE, THERE: TWO})

    def test_changes_at_other_devices_are_not_its_business(self) -> None:
        self.path.write_text(FILE)
        self.service.step({}, True, True)
        self.table.rows[HERE] = Entry(TWO, "stale")
        self.service.step({(8, HERE): False}, False, False)
        self.assertEqual(self.table.rows[HERE], Entry(TWO, "stale"))
        self.service.step({(7, HERE): False}, False, False)
        self.assertEqual(self.table.rows[HERE].device, ONE)

    def test_what_is_bound_is_in_the_rules(self) -> None:
        self.path.write_text(FILE)
        self.service.step({}, True, True)
        self.assertEqual(self.rules.sent, [("fill", {(ONE, HERE), (TWO, THERE)})])
        self.table.rows["10.77.0.9"] = Entry(ONE, "permanent")
        self.service.step({(7, "10.77.0.9"): True}, False, False)
        self.assertEqual(self.rules.sent[1:], [("change", set(), {(ONE, "10.77.0.9")})], "only what changed")

    def test_rules_that_were_loaded_anew_are_filled_within_a_poll(self) -> None:
        self.path.write_text(FILE)
        self.service.step({}, True, True)
        for mark in ("", "carried"):
            self.rules.filled_by, self.rules.pairs = mark, frozenset()
            self.service.step({}, False, False)
            self.assertEqual(self.rules.pairs, set(), "it does not look at each step")
            self.now += 1.0
            self.assertTrue(self.service.step({}, False, False))
            self.assertEqual((self.rules.pairs, self.rules.filled_by), ({(ONE, HERE), (TWO, THERE)}, "this one"))

    def test_what_others_changed_in_the_rules_is_mended(self) -> None:
        self.path.write_text(FILE)
        self.service.step({}, True, True)
        self.rules.pairs = frozenset({(TWO, HERE)})
        self.now += 10.0
        self.service.step({}, False, False)
        self.assertEqual(self.rules.pairs, {(ONE, HERE), (TWO, THERE)})

    def test_without_rules_addresses_are_bound_all_the_same(self) -> None:
        self.path.write_text(FILE)
        self.rules.are_gone = True
        with contextlib.redirect_stderr(io.StringIO()) as events:
            for _ in range(3):
                self.now += 1.0
                self.assertFalse(self.service.step({}, True, True))
        self.assertEqual((self.table.devices(), events.getvalue()), ({HERE: ONE, THERE: TWO}, "leases: no rules\n"))
        self.rules.are_gone = False
        self.assertTrue(self.service.step({}, False, False))
        self.assertEqual(self.rules.pairs, {(ONE, HERE), (TWO, THERE)})

    def test_without_the_device_the_rules_stay_as_they_are(self) -> None:
        """As a process before this one left them."""
        self.rules.pairs, self.rules.filled_by, self.table.away = frozenset({(ONE, HERE)}), "another", True
        self.service.sets.look()
        with contextlib.redirect_stderr(io.StringIO()):
            self.assertFalse(self.service.step({}, True, True))
        self.assertEqual((self.rules.pairs, self.rules.sent), ({(ONE, HERE)}, []))
        self.assertTrue(self.service.sets.holds(ONE, HERE))


@needs("python3-pyroute2")
class Neighbours(unittest.TestCase):
    def test_a_device_is_one_that_no_arp_can_change(self) -> None:
        message = {"state": 0x80, "flags": 0x10, "attrs": [("NDA_DST", HERE), ("NDA_LLADDR", ONE.upper())]}
        self.assertEqual(neighbours.Entry.of(message).device, ONE)
        for state in (0x01, 0x02, 0x04, 0x08, 0x10, 0x20, 0x40):
            self.assertIsNone(neighbours.Entry.of({**message, "state": state}).device, state)
        for mac in (ONE + ";x", "", None):
            attrs = [("NDA_DST", HERE), ("NDA_LLADDR", mac)]
            self.assertIsNone(neighbours.Entry.of({**message, "attrs": attrs}).device, mac)
        self.assertIsNone(neighbours.Entry.of({**message, "attrs": [("NDA_DST", HERE)]}).device)


if __name__ == "__main__":
    unittest.main()
