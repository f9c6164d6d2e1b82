"""Which device holds the lease of an address: the question to the kernel, and the answer to nginx."""

from __future__ import annotations

import json
import os
import pathlib
import socket
import struct
import subprocess
import sys
import tempfile
import unittest
from typing import Any
from unittest import mock

from needs import NAMESPACES, ROOT, needs
from test_front import UnixLink, serve_during_test

from portal_field.guests import lookup
from portal_field.lib import devices, doors

FIELD = pathlib.Path(__file__).resolve().parent.parent
HERE, ONE = "10.77.0.50", "02:00:00:00:00:01"
# Run in a network namespace of its own: the answers of both ways for each address, as JSON.
BOTH = """
import json, sys
from portal_field.lib.devices import Devices
from portal_field.lib.neighbours import Neighbours
table, lan = Neighbours("one"), Devices("one")
entries = {address: table.entry(address) for address in sys.argv[1:]}
print(json.dumps({address: [lan.holder(address), entry and entry.device] for address, entry in entries.items()}))
"""
STATES = ("permanent", "reachable", "stale", "noarp", "delay", "probe", "failed", "incomplete", "none")


def answer(state: int, *attributes: tuple[int, bytes], kind: int = 28) -> bytes:
    """A message of the kernel, as linux/neighbour.h and linux/rtnetlink.h have it."""
    body = struct.pack("=BxxxiHBB", socket.AF_INET, 3, state, 0, 1)
    for name, data in attributes:
        body += struct.pack("=HH", 4 + len(data), name) + data + bytes(-len(data) % 4)
    return struct.pack("=IHHII", 16 + len(body), kind, 0, 1, 0) + body


class Message(unittest.TestCase):
    mac = (2, bytes.fromhex(ONE.replace(":", "")))
    address = (1, socket.inet_aton(HERE))

    def test_a_device_is_one_that_no_arp_can_change(self) -> None:
        self.assertEqual(devices.holder_in(answer(0x80, self.address, self.mac)), ONE)
        for state in (0x00, 0x01, 0x02, 0x04, 0x08, 0x10, 0x20, 0x40):
            self.assertIsNone(devices.holder_in(answer(state, self.address, self.mac)), state)

    def test_an_answer_without_a_device_is_none(self) -> None:
        for data in (b"", bytes(7), answer(0x80), answer(0x80, self.address), answer(0x80, (2, b"\x02")), answer(0x80, (2, bytes(20))),
                     answer(0x80, self.mac, kind=2), answer(0x80, self.mac)[:-3], struct.pack("=IHHIIi", 36, 2, 0, 1, 0, -2) + bytes(16),
                     answer(0x80) + bytes(4), answer(0x80, (9, b"x")) + struct.pack("=HH", 0, 2) * 3):
            self.assertIsNone(devices.holder_in(data), data)

    def test_an_address_that_is_none_asks_nobody(self) -> None:
        with mock.patch("socket.socket") as link:
            for address in ("", "x", "10.77.0.50; id", "::1", "-all", "10.77.0.050"):
                self.assertIsNone(devices.Devices("lo").holder(address), address)
            link.assert_not_called()
        self.assertIsNone(devices.Devices("no-such-dev").holder(HERE))

    def test_a_kernel_that_is_silent_or_refuses_names_nobody(self) -> None:
        for fault in (TimeoutError(), PermissionError()):
            with mock.patch("socket.socket") as link:
                link.return_value.__enter__.return_value.recv.side_effect = fault
                self.assertIsNone(devices.Devices("lo").holder(HERE))

    @needs(ROOT, NAMESPACES, "python3-pyroute2", "iproute2")
    def test_the_kernel_says_what_pyroute2_reads(self) -> None:
        lines = [f"ip neigh replace 10.77.0.{at} lladdr 02:00:00:00:00:{at:02} dev one nud {state}" for at, state in enumerate(STATES, 10)]
        lines += ["ip neigh replace 10.77.1.1 lladdr 02:00:00:00:0a:01 dev two nud permanent",
                  "ip neigh replace 10.77.1.2 lladdr 02:00:00:00:0a:02 dev one nud permanent extern_learn"]
        addresses = [*(f"10.77.0.{at}" for at in range(10, 10 + len(STATES))), "10.77.1.1", "10.77.1.2", "10.77.1.3"]
        script = "; ".join(["set -e", "ip link add one type veth peer name two", "ip link set one up", "ip link set two up", *lines,
                            f"exec {sys.executable} -c '{BOTH}' {' '.join(addresses)}"])
        done = subprocess.run(["unshare", "-n", "sh", "-c", script], capture_output=True, text=True,
                              env={**os.environ, "PYTHONPATH": str(FIELD)})
        self.assertEqual(done.returncode, 0, done.stderr)
        found = json.loads(done.stdout)
        self.assertEqual({address: pair[0] for address, pair in found.items() if pair[0]},
                         {"10.77.0.10": "02:00:00:00:00:10", "10.77.1.2": "02:00:00:00:0a:02"})
        for address, (ours, other) in found.items():
            self.assertEqual(ours, other, address)


class Answers(unittest.TestCase):
    """The answers to nginx."""

    def setUp(self) -> None:
        self.path = pathlib.Path(self.enterContext(tempfile.TemporaryDirectory())) / "1"
        self.asked: list[str] = []
        self.found: list[str | None] = []
        serve_during_test(self, lookup.lookup(self.holder), doors.listening(str(self.path)))

    def holder(self, address: str) -> str | None:
        """Notes the address; the next of what was found, and then nobody."""
        self.asked.append(address)
        return self.found.pop(0) if self.found else None

    def ask(self, **head: str) -> tuple[int, Any, bytes]:
        """The answer to a request, as nginx sends it."""
        link = UnixLink(self.path)
        self.addCleanup(link.close)
        link.request("GET", "/device", headers={"X-Real-IP": HERE, **head})
        reply = link.getresponse()
        return reply.status, reply.headers["Portal-Device"], reply.read()

    def test_the_device_is_named_to_nginx(self) -> None:
        self.found = [ONE]
        self.assertEqual(self.ask(), (200, ONE, b""))
        self.assertEqual(self.asked, [HERE])
        self.assertEqual(self.ask(), (403, None, b""))

    def test_a_device_that_comes_a_moment_later_is_found(self) -> None:
        self.found = [None, ONE]
        self.assertEqual(self.ask(), (200, ONE, b""))

    def test_a_request_names_no_device(self) -> None:
        self.assertEqual(self.ask(**{"Portal-Device": ONE}), (403, None, b""))

    def test_it_loads_neither_flask_nor_pyroute2(self) -> None:
        """Each process would have their memory: some 20 and 26 MB."""
        code = "import sys, portal_field.guests.lookup; print(*sorted({'flask', 'jinja2', 'babel', 'pyroute2', 'http.client'} & sys.modules.keys()))"
        done = subprocess.run([sys.executable, "-c", code], check=True, capture_output=True, text=True, env={**os.environ, "PYTHONPATH": str(FIELD)})
        self.assertEqual(done.stdout, "\n")

    def loaded(self, module: str, *names: str) -> list[str]:
        """Which of these modules a process has that has imported that one."""
        code = f"import sys, {module}; print(*sorted({set(names)} & sys.modules.keys()))"
        return subprocess.run([sys.executable, "-c", code], check=True, capture_output=True, text=True,
                              env={**os.environ, "PYTHONPATH": str(FIELD)}).stdout.split()

    @needs("python3-pyroute2")
    def test_who_needs_pyroute2_loads_parts_of_it_alone(self) -> None:
        names = "pyroute2.ndb.main", "pyroute2.iproute.linux", "pyroute2.nftables.main"
        self.assertEqual(self.loaded("portal_field.lib.neighbours", *names), ["pyroute2.iproute.linux"])
        self.assertEqual(self.loaded("portal_field.gateway.kernel_elements", *names, "pyroute2.netlink.nfnetlink.nftsocket"),
                         ["pyroute2.netlink.nfnetlink.nftsocket"])

    @needs("python3-nftables")
    def test_the_gateways_agent_loads_it_where_it_reads_one_count(self) -> None:
        self.assertEqual(self.loaded("portal_field.gateway.kernel_gate", "pyroute2", "nftables"), ["nftables"])


if __name__ == "__main__":
    unittest.main()
