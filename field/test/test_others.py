"""What else nginx, dnsmasq and nftables do on the venue's machine: which of it set-up refuses, and what it goes beside."""

from __future__ import annotations

import json
import pathlib
import tempfile
import unittest
from typing import Any

from fake_machine import FakeMachine

from portal_field.doctor.findings import CannotTell, Finding, State
from portal_field.doctor.optional import venue_lines
from portal_field.doctor.others import others

Row = dict[str, Any]


def chain(hook: str, policy: str = "drop", table: str = "filter") -> Row:
    return {"chain": {"family": "inet", "table": table, "name": hook, "type": "filter", "hook": hook, "prio": 0,
                      "policy": policy}}


def rule(device: str) -> Row:
    match = {"match": {"op": "==", "left": {"meta": {"key": "iifname"}}, "right": device}}
    return {"rule": {"family": "inet", "table": "filter", "chain": "forward", "expr": [match, {"accept": None}]}}


class OfAManager(unittest.TestCase):
    def test_lines_with_a_mistake_are_named(self) -> None:
        with tempfile.TemporaryDirectory() as folder:
            machine = FakeMachine(pathlib.Path(folder))
            self.assertEqual(list(venue_lines(machine)), [], "a venue need not have the file")
            for text, state, word in (('owner_contact = "Maria"\n', State.GOOD, "whole"), ("owner_contact = 1\n", State.WRONG, "owner_contact"),
                                      ("x = 1\n", State.WRONG, "unknown: x"), ("x =", State.WRONG, "no TOML"[3:])):
                machine.put("/etc/portal/venue.toml", text)
                found, = venue_lines(machine)
                self.assertEqual((found.state, word in found.what), (state, True), found.what)


class Others(unittest.TestCase):
    def setUp(self) -> None:
        folder = tempfile.TemporaryDirectory()
        self.addCleanup(folder.cleanup)
        self.machine = FakeMachine(pathlib.Path(folder.name), is_installed=False)
        self.rules()

    def rules(self, *rows: Row) -> None:
        self.machine.says["nft -j list ruleset"] = json.dumps({"nftables": [{"metainfo": {}}, *rows]})

    def findings(self) -> list[Finding]:
        return list(others(self.machine))

    def assert_refused(self, *words: str) -> None:
        bad = [finding for finding in self.findings() if finding.state is State.WRONG]
        self.assertEqual(len(bad), 1, bad)
        for word in words:
            self.assertIn(word, bad[0].what + bad[0].do)

    def assert_taken(self) -> None:
        self.assertNotIn(State.WRONG, [finding.state for finding in self.findings()])

    def test_a_machine_of_its_own(self) -> None:
        self.machine.put("/etc/dnsmasq.conf", "# all of it\n#interface=\n")
        self.machine.put("/etc/dnsmasq.d/README", "# nothing\n")
        self.machine.put("/etc/dnsmasq.d/portal.conf", "interface=lan0\nbind-dynamic\n")
        self.machine.put("/etc/dnsmasq.d/shop.conf.dpkg-old", "bind-interfaces\n")
        self.assertEqual([finding.state for finding in self.findings()], [State.GOOD] * 2)

    def test_lines_of_dnsmasq_that_do_not_go_with_the_venues(self) -> None:
        for line, word in (("bind-interfaces", "bind-dynamic"), ("dhcp-leasefile=/tmp/x", "once"), ("port=0", "no names"),
                           ("dhcp-lease-max=5", "once"), ("no-dhcp-interface=eth9,lan0", "lan0"),
                           ("except-interface=lan0", "lan0"), ("dhcp-range=10.77.1.5,10.77.1.9,1h", "guests' network")):
            self.machine.put("/etc/dnsmasq.d/shop.conf", f"interface=shop0\n  {line}  # as it was\n")
            self.assert_refused("/etc/dnsmasq.d/shop.conf", line, word)

    def test_a_dnsmasq_for_every_network(self) -> None:
        self.machine.put("/etc/dnsmasq.conf", "server=192.0.2.1\n")
        self.assert_refused("/etc/dnsmasq.conf", "interface=DEVICE")

    def test_a_dnsmasq_for_other_networks_goes_on(self) -> None:
        self.machine.put("/etc/dnsmasq.d/shop.conf", "interface=shop0\nbind-dynamic\ndhcp-range=10.9.0.5,10.9.0.9,1h\nport=53\n")
        self.assert_taken()
        self.assertIn("/etc/dnsmasq.d/shop.conf", self.findings()[0].what)

    def test_a_machine_that_asks_its_own_dnsmasq(self) -> None:
        self.machine.put("/etc/resolv.conf", "nameserver 127.0.0.1\n")
        self.assert_refused("resolv.conf")
        self.machine.put("/etc/resolv.conf", "nameserver 127.0.0.53\n")     # systemd-resolved
        self.assert_taken()

    def test_rules_that_drop_guests(self) -> None:
        for hook, word in (("forward", "oifname wan0 accept"), ("input", "iifname lan0 accept")):
            self.rules(chain(hook))
            self.assert_refused(f"chain {hook}", word)

    def test_rules_that_know_the_guests_device(self) -> None:
        self.rules(chain("forward"), rule("lan0"))
        self.assert_taken()
        self.rules(chain("forward"), rule("lan1"))
        self.assert_refused("chain forward")

    def test_rules_that_are_not_in_the_way(self) -> None:
        self.rules(chain("forward", policy="accept"), chain("output"), chain("forward", table="portal"))
        self.assert_taken()

    def test_without_root_the_rules_are_not_seen(self) -> None:
        self.machine.root_user = False
        with self.assertRaises(CannotTell):
            self.findings()
