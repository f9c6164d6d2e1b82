"""The doctor with the programs that are really there, in a network namespace."""

from __future__ import annotations

import json
import os
import pathlib
import subprocess
import sys
import tempfile
import unittest

from desk_process import FIELD
from needs import NAMESPACES, ROOT, needs


@needs("iproute2", "nftables", "procps", ROOT, NAMESPACES)
class InANamespace(unittest.TestCase):
    """The programs that are really there, in a network namespace of the test's own."""

    def setUp(self) -> None:
        self.name = f"doctor{os.getpid()}"
        self.folder = pathlib.Path(self.enterContext(tempfile.TemporaryDirectory()))
        subprocess.run(["ip", "netns", "add", self.name], check=True)
        self.addCleanup(lambda: subprocess.run(["ip", "netns", "del", self.name], check=True))
        for device, address in (("lan0", "10.77.0.1/22"), ("wan0", "203.0.113.1/24"), ("ctr0", "10.88.0.1/24")):
            self.sh("ip", "link", "add", device, "type", "veth", "peer", "name", f"{device}-far")
            self.sh("ip", "address", "add", address, "dev", device)
            for end in (device, f"{device}-far"):
                self.sh("ip", "link", "set", end, "up")
        self.sh("ip", "route", "add", "default", "via", "203.0.113.2")

    def sh(self, *words: object) -> str:
        line = ["ip", "netns", "exec", self.name, *map(str, words)]
        return subprocess.run(line, check=True, capture_output=True, text=True).stdout

    def findings_of(self, check: str) -> list[tuple[str, str]]:
        line = ["ip", "netns", "exec", self.name, sys.executable, str(FIELD / "doctor"), "--json", "--portal",
                "/bin/true", str(FIELD / "settings/field.toml")]
        rows = json.loads(subprocess.run(line, capture_output=True, text=True).stdout)["findings"]
        return [(row["state"], row["what"]) for row in rows if row["check"] == check]

    def wrong(self, check: str) -> str:
        return "; ".join(what for state, what in self.findings_of(check) if state == "wrong")

    def test_devices_and_addresses(self) -> None:
        self.assertEqual({state for state, _ in self.findings_of("devices") + self.findings_of("addresses")}, {"good"})
        self.sh("ip", "link", "set", "lan0-far", "down")
        self.assertEqual(self.wrong("devices"), "lan: lan0 has no link")
        self.sh("ip", "link", "set", "lan0", "down")
        self.assertEqual(self.wrong("devices"), "lan: lan0 is down")
        self.sh("ip", "address", "del", "10.88.0.1/24", "dev", "ctr0")
        self.assertEqual(self.wrong("addresses"), 'counter = "10.88.0.1/24": no network device has this address')
        self.sh("ip", "link", "del", "wan0")
        self.assertIn("wan = 'wan0': this machine has no such network device", self.wrong("devices"))

    def test_another_program_on_port_80(self) -> None:
        line = ["ip", "netns", "exec", self.name, sys.executable, "-c", "import socket\ns = socket.create_server(('', 80))\n"
                "print(flush=True)\ns.accept()"]
        job = subprocess.Popen(line, stdout=subprocess.PIPE)
        self.addCleanup(job.wait)
        self.addCleanup(job.kill)
        assert job.stdout
        job.stdout.readline()
        self.addCleanup(job.stdout.close)
        self.assertRegex(self.wrong("ports"), r"tcp port 80 of 10\.77\.0\.1: python3[^;]* listens there \(process [0-9]+\)")

    def test_rules(self) -> None:
        self.assertIn("not loaded (inet, netdev)", self.wrong("rules"))
        rules = (FIELD / "settings/rules.nft").read_text().replace("@OWN_NAME@@LET_OUT@@LISTED@", "").replace("@PORT@", "8080")
        rules = rules.replace('keepers { "portal", "portal-gateway" }', "keepers { 0 }")
        rules = rules.replace("@GUESTS@", "10.77.0.1").replace("@COUNTER@", "10.88.0.1")
        rules = rules.replace("@LAN@", "lan0").replace("@WAN@", "wan0").replace("@FIELD@", str(FIELD))
        path = self.folder / "rules.nft"
        path.write_text("".join("define desk_users = { 0 }\n" if line.startswith("define desk_users") else line + "\n"
                                for line in rules.splitlines()))
        self.sh("nft", "-f", path)
        self.assertEqual(self.wrong("rules").count("; ") + 1, 4)       # no timer, nobody is bound, no forwarding, IPv6 is on
        self.sh("sysctl", "-q", "-w", "net.ipv4.ip_forward=1", "net.ipv6.conf.lan0.disable_ipv6=1")
        self.assertIn("the grace timer does not run", self.wrong("rules"))
        self.sh("nft", "add element inet portal alive { \"lan0\" timeout 60s }")
        self.sh("nft", "add element inet portal bound_ready { \"lan0\" }")
        self.assertEqual({state for state, _ in self.findings_of("rules")}, {"good"})
        self.sh("ip", "neigh", "replace", "10.77.0.9", "lladdr", "02:00:00:00:00:09", "dev", "lan0", "nud", "permanent")
        self.assertIn("1 devices are blocked, as their addresses are not in the set `bound`: 10.77.0.9", self.wrong("rules"))
        self.sh("nft", "add element inet portal bound { 02:00:00:00:00:09 . 10.77.0.9 }")
        self.assertEqual({state for state, _ in self.findings_of("rules")}, {"good"})
        self.sh("nft", "flush", "ruleset")
        self.assertIn("packets are forwarded", self.wrong("rules"))


if __name__ == "__main__":
    unittest.main()
