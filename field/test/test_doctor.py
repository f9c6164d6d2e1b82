"""The doctor: each check good and wrong, on a machine of files and of answers, and in a network namespace where root is."""

from __future__ import annotations

import contextlib
import hashlib
import http.server
import json
import os
import pathlib
import re
import shutil
import sqlite3
import subprocess
import sys
import tempfile
import threading
import time
import unittest
from collections.abc import Iterator
from typing import Any
from unittest import mock

from desk_process import FIELD, DeskProcess, free_port
from fake_machine import (
    LISTENERS, NETWORKS, NGINX, SAMPLE, Certificates, FakeMachine, as_ip_prints, as_nft_prints, as_nft_prints_set,
    as_systemd_prints, in_days)
from needs import needs

from portal_field.doctor import base, certificates, network, prices, running
from portal_field.doctor import command as doctor
from portal_field.doctor.findings import Finding, Look, Machine, State, findings_of, good
from portal_field.settings.maker import BEFORE
from portal_field.settings.venue import Field

GOOD, NOTE, WARNING, WRONG, OVER = State.GOOD, State.NOTE, State.WARNING, State.WRONG, State.PASSED_OVER


class Case(unittest.TestCase):
    look: Look

    def setUp(self) -> None:
        self.folder = pathlib.Path(self.enterContext(tempfile.TemporaryDirectory()))
        self.machine = FakeMachine(self.folder / "machine")

    def findings_by(self, look: Look) -> list[Finding]:
        return [finding for _, finding in findings_of((look,), self.machine)]

    def all_good(self, look: Look) -> None:
        findings_by = self.findings_by(look)
        self.assertEqual({finding.state for finding in findings_by}, {GOOD}, findings_by)

    def only_fault(self, look: Look, state: State, *words: str) -> Finding:
        """The one finding that is not good: its state, what it says; and what to do stands beside what is wrong."""
        findings_by = [finding for finding in self.findings_by(look) if finding.state is not GOOD]
        self.assertEqual([finding.state for finding in findings_by], [state], findings_by)
        for word in words:
            self.assertIn(word, findings_by[0].what)
        self.assertEqual(bool(findings_by[0].do), state is not OVER)
        return findings_by[0]


class Networks(Case):
    def devices(self, **changed: tuple[list[str], list[str]] | None) -> None:
        rows: dict[str, tuple[list[str], list[str]] | None] = {**NETWORKS, **changed}
        self.machine.says["ip -j address show"] = as_ip_prints({name: row for name, row in rows.items() if row})

    def test_a_good_machine(self) -> None:
        for look in (network.devices, network.addresses, network.limits, network.ports):
            self.all_good(look)

    def test_devices_that_are_not_there(self) -> None:
        self.devices(lan0=None)
        self.only_fault(network.devices, WRONG, "lan = 'lan0': this machine has no such network device")
        self.devices(wan0=None)
        self.only_fault(network.devices, WRONG, "wan = 'wan0': this machine has no such network device")

    def test_devices_that_are_down_or_have_no_link(self) -> None:
        for name, key in (("lan0", "lan"), ("wan0", "wan"), ("ctr0", "counter")):
            own = NETWORKS[name][1]
            self.devices(**{name: (["BROADCAST"], own)})
            self.only_fault(network.devices, WRONG, f"{key}: {name} is down")
            self.devices(**{name: (["NO-CARRIER", "BROADCAST", "UP"], own)})
            self.only_fault(network.devices, WRONG, f"{key}: {name} has no link")
        self.machine.is_installed = False
        self.only_fault(network.devices, WARNING, "has no link")

    def test_the_counters_address_on_the_guests_device(self) -> None:
        self.devices(ctr0=None, lan0=(NETWORKS["lan0"][0], ["10.77.0.1/22", "10.88.0.1/24"]))
        self.only_fault(network.devices, WRONG, "this address is on lan0")

    def test_addresses_that_are_not_there(self) -> None:
        up = NETWORKS["lan0"][0]
        self.devices(lan0=(up, []))
        self.only_fault(network.addresses, WRONG, 'guests = "10.77.0.1/22": no network device has this address')
        self.devices(lan0=(up, []), eth9=(up, ["10.77.0.1/22"]))
        self.only_fault(network.addresses, WRONG, "eth9 has this address, and not lan0")
        self.devices(lan0=(up, ["10.77.0.1/24"]))
        self.only_fault(network.addresses, WRONG, "lan0 has it as 10.77.0.1/24")
        self.devices(ctr0=None)
        self.only_fault(network.addresses, WRONG, 'counter = "10.88.0.1/24": no network device has this address')

    def test_the_way_out(self) -> None:
        self.devices(wan0=(NETWORKS["wan0"][0], []))
        self.only_fault(network.addresses, WRONG, "wan0 has no address")
        self.machine.is_installed = False
        self.only_fault(network.addresses, WARNING, "wan0 has no address")
        self.devices(wan0=(NETWORKS["wan0"][0], ["10.77.2.9/24"]))
        self.only_fault(network.addresses, WRONG, "10.77.2.9/24 on wan0 overlaps 10.77.0.0/22")
        self.devices()
        self.machine.says["ip -j route show default"] = '[{"dst":"default","dev":"eth9"}]'
        self.only_fault(network.addresses, WRONG, "the way out leads through eth9 and not through wan0")
        for nothing in ("[]", ""):
            self.machine.says["ip -j route show default"] = nothing
            self.only_fault(network.addresses, WARNING, "no default route")

    def lease(self, count: int, end: float) -> None:
        """As dnsmasq writes them: the end, the device, the address, its name, its own id."""
        rows = [f"{end:.0f} 02:aa:00:00:00:{n % 100:02} 10.77.{(50 + n) // 256}.{(50 + n) % 256} phone 01:02" for n in range(count)]
        self.machine.put("/var/lib/misc/dnsmasq.leases", "\n".join([*rows, "duid 00:01", f"{end:.0f} 7 fd00::1 x 00"]) + "\n")

    def test_leases_that_are_given(self) -> None:
        """10.77.0.50 to 10.77.3.250 are 969."""
        later = self.machine.now + 60
        for count, state, word in ((969, WRONG, "all 969 leases are given"), (873, WARNING, "873 of 969 leases")):
            self.lease(count, later)
            self.only_fault(network.limits, state, word)
        self.lease(872, later)
        self.all_good(network.limits)
        self.lease(969, self.machine.now - 60)      # they are over
        self.all_good(network.limits)

    def test_neighbours_that_the_kernel_keeps(self) -> None:
        name = "/proc/sys/net/ipv4/neigh/default/gc_thresh3"
        self.machine.put(name, "968\n")
        self.only_fault(network.limits, WRONG, "the kernel keeps 968 neighbours at most, and there are 969 leases")
        self.machine.path(name).unlink()
        self.only_fault(network.limits, OVER, "is not shown here")


class Ports(Case):
    def test_nobody_listens(self) -> None:
        doors = {"10.77.0.1:53   0.0.0.0:* users:((\"dnsmasq\",pid=53,fd=6))": "udp port 53 of 10.77.0.1: nobody",
                 "0.0.0.0%lan0:67": "udp port 67 of 10.77.0.1: nobody listens there, and dnsmasq should",
                 "fd=7))\ntcp LISTEN 0 511        10.77.0.1:80": "tcp port 80 of 10.77.0.1: nobody listens there, and nginx",
                 "10.77.0.1:443": "tcp port 443 of 10.77.0.1: nobody", "10.88.0.1:443": "tcp port 443 of 10.88.0.1: nobody",
                 "127.0.0.1:8080": "tcp port 8080 of 127.0.0.1: nobody listens there, and portal should"}
        for words, shown in doors.items():
            words = words.rpartition("\n")[2]
            lines = [line for line in LISTENERS.splitlines() if words not in line]
            self.assertEqual(len(lines), len(LISTENERS.splitlines()) - 1, words)
            self.machine.says["ss "] = "\n".join(lines) + "\n"
            found = self.only_fault(network.ports, WRONG, shown)
            self.assertEqual(found.do == "`systemctl status portal-counter-nginx`", "10.88.0.1" in words)
            self.machine.is_installed = False
            self.all_good(network.ports)        # before an installation nobody needs to listen
            self.machine.is_installed = True

    def test_another_program_in_the_way(self) -> None:
        for row, shown in (('tcp LISTEN 0 5 0.0.0.0:80 0.0.0.0:* users:(("apache2",pid=7,fd=3))', "tcp port 80 of 10.77.0.1: apache2"),
                           ('tcp LISTEN 0 5 10.77.0.1:53 0.0.0.0:* users:(("named",pid=7,fd=3))', "tcp port 53 of 10.77.0.1: named"),
                           ('udp UNCONN 0 0 0.0.0.0:67 0.0.0.0:* users:(("dhcpd",pid=7,fd=3))', "udp port 67 of 10.77.0.1: dhcpd"),
                           ('tcp LISTEN 0 5 127.0.0.1:8080 0.0.0.0:* users:(("java",pid=7,fd=3))', "tcp port 8080 of 127.0.0.1: java")):
            self.machine.says["ss "] = LISTENERS + row + "\n"
            for self.machine.is_installed in (True, False):
                self.only_fault(network.ports, WRONG, shown, "process 7")

    def test_a_port_of_another_part_is_refused_by_its_name(self) -> None:
        """Before an installation nobody listens yet, so that no listener is the reason."""
        metrics = 'metrics = "{}:9808"'
        for port, more, shown in ((80, "", "this is the port of nginx"), (443, "", "this is the port of nginx"),
                                  (53, "", "this is the port of dnsmasq"), (900, "", "only root may listen on a port below 1024"),
                                  (9808, metrics.format("127.0.0.1"), "this is the port of the metrics"),
                                  (9808, metrics.format("0.0.0.0"), "this is the port of the metrics"),
                                  (9808, metrics.format("10.88.0.1"), ""), (1024, "", "")):
            text = SAMPLE.replace("desk_port = 8080", f"desk_port = {port}")
            self.machine.field_or_none = Field.read(text.replace('metrics = ""', more or 'metrics = ""'))
            for self.machine.is_installed, heard in ((False, ""), (True, LISTENERS.replace("127.0.0.1:8080", f"127.0.0.1:{port}"))):
                self.machine.says["ss "] = heard
                if shown:
                    found = self.only_fault(network.ports, WRONG, f"desk_port = {port}: {shown}")
                    self.assertIn("choose another in field.toml, from 1024 on", found.do)
                else:
                    self.all_good(network.ports)
        self.machine.put("/proc/sys/net/ipv4/ip_unprivileged_port_start", "0\n")
        self.machine.field_or_none, self.machine.is_installed = Field.read(SAMPLE.replace("8080", "900")), False
        self.all_good(network.ports)

    def test_what_is_not_in_the_way(self) -> None:
        """systemd-resolved on an address of its own, a program on another device, on another port."""
        for row in ('udp UNCONN 0 0 127.0.0.53%lo:53 0.0.0.0:* users:(("systemd-resolve",pid=7,fd=3))',
                    'udp UNCONN 0 0 0.0.0.0%wan0:67 0.0.0.0:* users:(("dhcpd",pid=7,fd=3))',
                    'tcp LISTEN 0 5 0.0.0.0:8443 0.0.0.0:* users:(("java",pid=7,fd=3))',
                    'tcp LISTEN 0 5 203.0.113.1:443 0.0.0.0:* users:(("apache2",pid=7,fd=3))'):
            self.machine.says["ss "] = LISTENERS + row + "\n"
            self.all_good(network.ports)

    def test_one_nginx_for_guests_and_counter(self) -> None:
        """As of versions before, which an upgrade must not stop at."""
        self.machine.says["ss "] = LISTENERS.replace("pid=84", "pid=80").replace("pid=85", "pid=81")
        found = self.only_fault(network.ports, WRONG, "one nginx (process 80) serves guests and the counter")
        self.assertIn("portal-setup", found.do)
        self.machine.is_installed = False
        self.all_good(network.ports)

    def test_a_site_on_every_address_has_the_counters_port(self) -> None:
        """nginx can have a site on every address beside the guests' page; another nginx cannot have one of them then."""
        row = 'tcp LISTEN 0 511 0.0.0.0:443 0.0.0.0:* users:(("nginx",pid=81,fd=9),("nginx",pid=80,fd=9))\n'
        lines = [line for line in LISTENERS.splitlines(keepends=True) if "10.88.0.1:443" not in line]
        self.machine.says["ss "] = "".join(lines) + row
        for self.machine.is_installed in (True, False):
            found = self.only_fault(network.ports, WRONG, "tcp port 443 of 10.88.0.1: nginx listens there at every address (process 80)")
            self.assertIn("`listen 443`", found.do)
        self.assertTrue(network.is_on_every_address(self.machine, 443))
        for row in (row.replace(":443", ":80"), row.replace("0.0.0.0", "0.0.0.0%lan0"), row.replace("tcp LISTEN", "udp UNCONN")):
            self.machine.says["ss "] = LISTENERS + row
            self.machine.is_installed = True
            self.all_good(network.ports)
            self.assertFalse(network.is_on_every_address(self.machine, 443))

    def test_without_root_the_programs_are_not_seen(self) -> None:
        self.machine.root_user = False
        self.machine.says["ss "] = "\n".join(line.partition(" users:")[0] for line in LISTENERS.splitlines()) + "\n"
        self.only_fault(network.ports, OVER, "only root")


@needs("openssl")
class Certificate(Case):
    def setUp(self) -> None:
        super().setUp()
        self.cert, self.key = (self.machine.path(f"/etc/portal/tls/{name}.pem") for name in ("cert", "key"))
        self.cert.parent.mkdir(parents=True)
        self.made = Certificates(self.folder)
        self.made.sign(self.cert, self.key)
        self.enterContext(mock.patch.dict(os.environ, SSL_CERT_FILE=str(self.made.authority)))
        self.machine.now = time.time() + 60     # later than what a test signs

    def test_a_good_one(self) -> None:
        self.all_good(certificates.certificate)

    def test_files_that_are_not_there(self) -> None:
        for path, key in ((self.cert, "cert"), (self.key, "key")):
            text = path.read_text()
            path.unlink()
            self.only_fault(certificates.certificate, WRONG, f"{key} = '/etc/portal/tls/{key}.pem': there is no such file")
            path.write_text(text)

    def test_a_key_that_everybody_reads(self) -> None:
        self.key.chmod(0o644)
        self.only_fault(certificates.certificate, WARNING, "every user of this machine can read the key")

    def test_another_key(self) -> None:
        self.made.sign(self.folder / "other.pem", self.key)
        self.only_fault(certificates.certificate, WRONG, "is not the key of")

    def test_a_key_with_a_passphrase(self) -> None:
        self.made.openssl("pkey", "-in", self.key, "-aes128", "-passout", "pass:x", "-out", self.folder / "shut.pem")
        shutil.move(self.folder / "shut.pem", self.key)
        self.key.chmod(0o600)
        self.only_fault(certificates.certificate, WRONG, "passphrase")

    def test_what_is_no_certificate(self) -> None:
        self.cert.write_text("x")
        self.only_fault(certificates.certificate, WRONG, "is not PEM")

    def test_names_that_are_not_in_it(self) -> None:
        for hosts, shown in ((("wifi.example",), "does not name counter.example"),
                             (("counter.example",), "does not name wifi.example")):
            self.made.sign(self.cert, self.key, hosts)
            self.assertIn(shown, self.only_fault(certificates.certificate, WRONG).what)
        self.made.sign(self.cert, self.key, ("*.example",))
        self.machine.field_or_none = None
        self.assertEqual([finding.state for finding in self.findings_by(certificates.certificate)], [OVER])

    def test_its_days(self) -> None:
        """It is good for 90 days from now."""
        for days, state, word in ((90.1, WRONG, "expired on"), (-1, WRONG, "is not valid before"),
                                  (69.1, WARNING, "20 days left"), (89.5, WARNING, "0 days left")):
            self.machine.now = in_days(days)
            self.only_fault(certificates.certificate, state, word)
        self.machine.now = in_days(68.9)        # 21 days
        self.all_good(certificates.certificate)

    def test_an_authority_that_nobody_knows(self) -> None:
        other = self.folder / "other"
        other.mkdir()
        os.environ["SSL_CERT_FILE"] = str(Certificates(other).authority)
        self.only_fault(certificates.certificate, WARNING, "no authority that this machine knows")
        os.environ["SSL_CERT_FILE"] = "/dev/null"
        with mock.patch.dict(os.environ, SSL_CERT_DIR=str(other / "none")):
            self.only_fault(certificates.certificate, OVER, "who signed it")


class Base(Case):
    def program(self, takes: str) -> None:
        path = self.folder / "portal"
        path.write_text(f'#!/bin/sh\ngrep -q \'{takes}\' "$3" || {{ echo "portal: settings" >&2; exit 3; }}\n')
        path.chmod(0o755)
        self.machine.portal = str(path)

    def test_the_zone(self) -> None:
        self.program('zone = "UTC0"')
        self.all_good(base.zone)
        self.machine.field_or_none = Field.read(SAMPLE.replace("UTC0", "CET-1CEST,M13.5.0"))
        self.only_fault(base.zone, WRONG, "zone = 'CET-1CEST,M13.5.0': the program takes a POSIX rule")
        self.program("nothing")
        self.only_fault(base.zone, WRONG, "does not take these settings: portal: settings")
        self.machine.portal = "/no/such/portal"
        self.only_fault(base.zone, WRONG, "/no/such/portal")

    def test_a_clock_that_nobody_sets(self) -> None:
        self.all_good(base.clock)
        self.machine.says["timedatectl "] = "no\n"
        self.assertIn('clock = "clerk" in field.toml', self.only_fault(base.clock, WRONG, "it is not synchronised").do)
        self.machine.says["timedatectl "] = (1, "System has not been booted with systemd as init system (PID 1).\n")
        self.only_fault(base.clock, OVER, "System has not been booted")
        self.machine.says["timedatectl "] = None
        self.only_fault(base.clock, OVER, "cannot be run")
        for believed, synchronised, state in (("clerk", "no\n", WARNING), ("clerk", "yes\n", GOOD), ("host", "no\n", GOOD)):
            self.machine.field_or_none = Field.read(SAMPLE.replace('clock = "kernel"', f'clock = "{believed}"'))
            self.machine.says["timedatectl "] = synchronised
            self.assertEqual([finding.state for finding in self.findings_by(base.clock)], [state], believed)

    def test_a_clock_that_a_time_service_moved(self) -> None:
        path = self.machine.path(Machine.DATABASE).with_name("clock-steps.json")
        path.parent.mkdir(parents=True, exist_ok=True)
        for moves, state in (([[0, 86_399]], GOOD), ([[0, 200_000], [5, 350_000]], WARNING), ([[-31 * 86_400, 500_000]], GOOD)):
            path.write_text(json.dumps({"boot": "b", "seen": 1.0, "moves": moves}))
            if state is GOOD:
                self.all_good(base.clock)
            else:
                self.assertIn("moved it forward by 6.4 days", self.only_fault(base.clock, WARNING, "more than 7 the server waits").what)

    def database(self, moment: float) -> sqlite3.Connection:
        """Its last moment is in the log alone, and it is locked, as under a server that runs."""
        path = self.machine.path(Machine.DATABASE)
        path.parent.mkdir(parents=True, exist_ok=True)
        link = sqlite3.connect(path, isolation_level=None)
        link.executescript("PRAGMA locking_mode = EXCLUSIVE; PRAGMA journal_mode = WAL; CREATE TABLE IF NOT EXISTS "
                           "portal_head (layout INTEGER, last_moment INTEGER); DELETE FROM portal_head;")
        link.execute("INSERT INTO portal_head VALUES (5, ?)", (int(moment),))
        return link

    def test_a_database_of_a_later_time(self) -> None:
        for ahead, state in ((-60, GOOD), (59, GOOD), (3600, WRONG)):
            with contextlib.closing(self.database(self.machine.now + ahead)):
                if state is GOOD:
                    self.all_good(base.clock)
                else:
                    self.only_fault(base.clock, WRONG, "the last command in the database is of", "later than now")
        self.machine.path(Machine.DATABASE).write_bytes(b"no database" * 99)
        self.only_fault(base.clock, OVER, "the database's last time cannot be read")

    def disk(self, free: int, total: int = 1 << 34) -> None:
        usage = mock.Mock(free=free, total=total)
        self.enterContext(mock.patch("portal_field.doctor.base.shutil.disk_usage", return_value=usage))

    def test_room_for_a_copy(self) -> None:
        """A database of 40 MiB: three times as much and 64 MiB are the least, eight times that is enough."""
        path = self.machine.put(Machine.DATABASE, "")
        os.truncate(path, 40 << 20)
        need = (3 * 40 + 64) << 20
        for free, state in ((need - 1, WRONG), (need, WARNING), (8 * need - 1, WARNING), (8 * need, GOOD)):
            self.disk(free, total=8 * need)
            found, = self.findings_by(base.disk)
            self.assertEqual(found.state, state, free)
            self.assertIn(f"{free >> 20} MiB are free for the database, the copies, the logs", found.what)

    def test_a_disk_that_fills(self) -> None:
        """A tenth of it is free, or 2 GiB: enough. The database is small."""
        for total, enough in ((16_000, 1600), (1_000_000, 2048)):
            for free, state in ((enough - 1, WARNING), (enough, GOOD)):
                self.disk(free << 20, total << 20)
                found, = self.findings_by(base.disk)
                self.assertEqual((found.state, "du -xh" in found.do), (state, state is WARNING), (total, free))

    def test_a_log_that_is_not_rotated(self) -> None:
        self.disk(1 << 40)
        path = self.machine.put("/var/log/portal/counter.log", "")
        for size, state in ((100 << 20, GOOD), ((100 << 20) + 1, WARNING)):
            os.truncate(path, size)
            found = self.findings_by(base.disk)[-1]
            self.assertEqual((found.state, "counter.log has 100 MiB" in found.what), (state, state is WARNING), size)

    def copy(self, age: float, text: str = "a copy", said: str | None = None) -> None:
        shutil.rmtree(self.machine.path(Machine.COPIES), ignore_errors=True)
        path = self.machine.put(f"{Machine.COPIES}/20260101T033000.000000Z.db", text, age)
        done = subprocess.run(["sha256sum", path], capture_output=True, text=True, check=True).stdout.split()[0]
        self.machine.put(f"{Machine.COPIES}/{path.name}.sha256", f"{said or done}  {path.name}\n")

    def test_the_last_copy(self) -> None:
        self.copy(35 * 3600)
        self.all_good(base.backup)
        self.copy(37 * 3600)
        self.only_fault(base.backup, WRONG, "is 37 hours old")
        self.copy(0, said="0" * 64)
        self.only_fault(base.backup, WRONG, "is not what its SHA-256 says")
        self.copy(0)
        for sums in self.machine.path(Machine.COPIES).glob("*.sha256"):
            sums.unlink()
        self.only_fault(base.backup, WARNING, "has no SHA-256 beside it")

    def test_backup_of_the_whole_venue(self) -> None:
        self.copy(3600)
        self.all_good(base.backup)
        copy = self.machine.put(f"{Machine.VENUES}/venue-20260101T033000.000000Z.tar.gz", "whole", 37 * 3600)
        beside = f"{Machine.VENUES}/{copy.name}.sha256"
        self.machine.put(beside, f"{hashlib.sha256(b'whole').hexdigest()}  {copy.name}\n")
        self.only_fault(base.backup, WRONG, "of the whole venue, venue-20260101T033000.000000Z.tar.gz, is 37 hours old")
        os.utime(copy)
        self.all_good(base.backup)
        self.machine.put(beside, f"{'0' * 64}  {copy.name}\n")
        self.only_fault(base.backup, WRONG, "is not what its SHA-256 says")

    def test_no_copy_is_a_fault_after_the_first_night(self) -> None:
        token = "/etc/portal/credentials/desk_token"
        self.machine.put(token, "x", 35 * 3600)
        self.only_fault(base.backup, WARNING, "there is no copy")
        self.machine.put(token, "x", 37 * 3600)
        self.only_fault(base.backup, WRONG, "there is no copy")

    def test_versions(self) -> None:
        self.all_good(base.versions)
        installed = self.machine.says["dpkg-query "]
        for line, shown, word in (("uname -r", "5.15.0-1-amd64\n", "Linux 5.15.0-1-amd64"),
                                  ("dpkg-query ", installed.replace("python3-qrencode", "python3-other"), "python3-qrencode"),
                                  ("dpkg-query ", installed.replace("python3-babel", "python3-other"), "python3-babel"),
                                  ("nginx -v", None, "`nginx` cannot be run"),
                                  ("/usr/bin/portal --version", None, "`/usr/bin/portal` cannot be run")):
            before = self.machine.says[line]
            self.machine.says[line] = shown
            self.only_fault(base.versions, WRONG, word)
            self.machine.says[line] = before
        self.machine.put("/var/lib/portal/schema", "6\n")
        self.all_good(base.versions)
        self.machine.put("/var/lib/portal/schema", "7\n")
        self.only_fault(base.versions, WRONG, "schema version 7", "none after 6")


class Running(Case):
    def test_rules(self) -> None:
        self.all_good(running.rules)
        forward, switch = "/proc/sys/net/ipv4/ip_forward", "/proc/sys/net/ipv6/conf/lan0/disable_ipv6"
        self.machine.says["nft -j list set"] = self.machine.says.pop("nft -j list set inet portal alive")
        for path, text, back, word in ((forward, "0\n", "1\n", "packets are not forwarded"),
                                       (switch, "0\n", "1\n", "IPv6 is on at lan0")):
            self.machine.put(path, text)
            self.only_fault(running.rules, WRONG, word)
            self.machine.put(path, back)
        for shown in (as_nft_prints(), as_nft_prints("lan1")):
            self.machine.says["nft -j list set"] = shown
            self.only_fault(running.rules, WRONG, "the grace timer does not run")

    def test_sessions_that_go_on_without_the_server(self) -> None:
        closed = as_nft_prints_set("desk_closed", {"elem": {"val": "lo", "timeout": 60, "expires": 41}})
        self.machine.says["nft -j list set inet portal desk_closed"] = closed
        self.only_fault(running.rules, NOTE, "the sessions go on without it for a minute at most")
        del self.machine.says["nft -j list set inet portal desk_closed"]
        self.all_good(running.rules)

    def test_devices_that_are_not_bound(self) -> None:
        self.assertIn("the set `bound` has the 1 devices of the neighbour table",
                      [finding.what for finding in self.findings_by(running.rules)])
        command, other = "nft -j list set inet portal bound", {"concat": ["02:00:00:00:00:51", "10.77.0.50"]}
        for elements in ((), (other,)):
            self.machine.says[command] = as_nft_prints_set("bound", *elements)
            self.only_fault(running.rules, WRONG, "1 devices are blocked", "10.77.0.50")
        self.machine.says["nft -j list set inet portal bound_ready"] = as_nft_prints_set("bound_ready")
        self.only_fault(running.rules, WRONG, "`bound` was not filled since the rules were loaded", "all guests are blocked")
        self.machine.says["nft list set inet portal bound"] = (1, "Error: No such file or directory\n")
        self.only_fault(running.rules, WRONG, "of an earlier version", "no set `bound`")

    def test_rules_that_are_gone(self) -> None:
        for family in ("inet", "netdev"):
            before = dict(self.machine.says)
            self.machine.says[f"nft list table {family} portal"] = (1, "Error: No such file or directory\n")
            self.only_fault(running.rules, WRONG, f"the table portal is not loaded ({family})", "packets are forwarded")
            self.machine.says = before
        self.machine.root_user = False
        self.only_fault(running.rules, OVER, "only root")

    def test_services(self) -> None:
        self.all_good(running.services)
        changes = {"portal_front_service": ("failed", "portal-front.service has failed (exit-code)"),
                   "portal_backup_timer": ("inactive", "portal-backup.timer is not active: inactive"),
                   "portal_leases_service": ("inactive", "portal-leases.service is not active: inactive"),
                   "portal_restarts_timer": ("inactive", "portal-restarts.timer is not active: inactive"),
                   "portal_counter_nginx_service": ("inactive", "portal-counter-nginx.service is not active: inactive"),
                   "portal_service": ("activating", "portal.service is not active: activating"),
                   "portal_rules_lan0_service": ("inactive", "portal-rules@lan0.service is not active")}
        for unit, (state, shown) in changes.items():
            self.machine.says["systemctl show "] = as_systemd_prints(**{unit: {"ActiveState": state, "Result": "exit-code"}})
            self.only_fault(running.services, WRONG, shown)
        self.machine.says["systemctl show "] = as_systemd_prints(dnsmasq_service={"LoadState": "not-found", "ActiveState": "inactive"})
        self.only_fault(running.services, WRONG, "dnsmasq.service is not there")
        self.machine.says["systemctl show "] = as_systemd_prints(nginx_service={"UnitFileState": "disabled"})
        self.only_fault(running.services, WARNING, "nginx.service does not start at boot")

    def test_a_unit_that_failed_and_that_nobody_needs_each_moment(self) -> None:
        more = "\nId=portal-backup.service\nLoadState=loaded\nActiveState=failed\nResult=exit-code\n"
        self.machine.says["systemctl show "] = as_systemd_prints() + more
        self.only_fault(running.services, WRONG, "portal-backup.service has failed")
        self.machine.says["systemctl show "] = as_systemd_prints() + more.replace("failed", "inactive")
        self.all_good(running.services)
        self.machine.says["systemctl show "] = as_systemd_prints() + more.replace("failed", "inactive") + "UnitFileState=enabled\n"
        self.only_fault(running.services, WRONG, "portal-backup.service is not active: inactive")

    def test_restarts_in_the_last_hour(self) -> None:
        rows = [{"UNIT": unit} for unit in ("portal.service", "portal.service", "nginx.service", "other.service")]
        self.machine.says["journalctl "] = "".join(json.dumps(row) + "\n" for row in rows)
        shown = [finding.what for finding in self.findings_by(running.services) if finding.state is WARNING]
        self.assertEqual(shown, ["nginx.service ended by itself and was started again once in the last hour",
                                 "portal.service ended by itself and was started again 2 times in the last hour"])

    def test_how_many_connections_nginx_takes(self) -> None:
        self.all_good(running.connections)
        for old, new, shown in (("2048", "2047", "nginx takes 4094 connections of guests (2 workers, 2047 each)"),
                                ("\tworker_connections 2048;\n", "", "nginx takes 1024 connections of guests (2 workers, 512 each)"),
                                ("worker_processes 2;\n", "", "nginx takes 2048 connections of guests (1 workers, 2048 each)")):
            self.assertIn(old, NGINX)
            self.machine.says["nginx -T"] = NGINX.replace(old, new)
            self.assertIn("worker_connections 4096;", self.only_fault(running.connections, NOTE, shown).do)
        self.machine.says["nginx -T"] = NGINX.replace("2048", "383")
        self.only_fault(running.connections, WARNING, "nginx takes 766 connections of guests (2 workers, 383 each): few")
        self.machine.says["nginx -T"] = NGINX.replace("2048", "384")
        self.only_fault(running.connections, NOTE, "enough for a small venue")
        for processors, state in ((3, GOOD), (1, NOTE)):
            self.machine.says["nginx -T"] = NGINX.replace("processes 2", "processes auto")
            with mock.patch("os.cpu_count", return_value=processors):
                self.assertEqual([finding.state for finding in self.findings_by(running.connections)], [state])
        self.machine.root_user = False
        self.only_fault(running.connections, OVER, "only root")

    def test_the_server_answers(self) -> None:
        self.machine.put("/run/portal-clock/state", json.dumps({"is": "serves"}))
        with DeskProcess() as desk:
            self.machine.field_or_none = Field.read(SAMPLE.replace("8080", str(desk.port)))
            self.all_good(running.server)
        self.machine.field_or_none = Field.read(SAMPLE.replace("8080", str(free_port())))
        self.only_fault(running.server, WRONG, "does not answer")
        for state, shown in (("waits", "it waits, as the time may be wrong: because"), ("failed", "it does not start: because")):
            self.machine.put("/run/portal-clock/state", json.dumps({"is": state, "why": "because"}))
            self.only_fault(running.server, WRONG, shown)
        self.machine.root_user = False
        self.only_fault(running.server, OVER, "only root")

    def test_a_server_that_has_stopped(self) -> None:
        class Stopped(http.server.BaseHTTPRequestHandler):
            def do_GET(self) -> None:
                self.send_response(503)
                self.end_headers()
                self.wfile.write(b'{"error":"stopped"}')

            def log_message(self, *_: object) -> None:
                pass

        with http.server.HTTPServer(("127.0.0.1", 0), Stopped) as door:
            threading.Thread(target=door.handle_request, daemon=True).start()
            self.machine.field_or_none = Field.read(SAMPLE.replace("8080", str(door.server_port)))
            self.only_fault(running.server, WRONG, "it refuses: stopped")

    def test_the_logo(self) -> None:
        self.all_good(base.logo)
        name = "/etc/portal/logo.svg"
        self.machine.field_or_none = Field.read(SAMPLE.replace('logo = ""', f'logo = "{name}"'))
        self.only_fault(base.logo, WARNING, "logo = '/etc/portal/logo.svg': there is no such file")
        self.machine.put(name, "<svg/>", mode=0o640)
        self.only_fault(base.logo, WARNING, "logo = '/etc/portal/logo.svg': the counter's page cannot read it")
        self.machine.put(name, "<svg/>", mode=0o644)
        self.all_good(base.logo)

    def test_clerks(self) -> None:
        name, before = "/etc/portal/clerks.toml", "/etc/portal/counter.passwords"
        text = '[[clerk]]\nname = "clerk"\nrole = "manager"\npassword = "$6$x$y"\n'
        self.only_fault(running.clerks, WRONG, "no clerk has a password")
        self.machine.put(before, "clerk:$6$x$y\nleft:$6$x$z\n", mode=0o640)
        found = self.only_fault(running.clerks, WRONG, "there is no /etc/portal/clerks.toml, only the /etc/portal/counter.passwords")
        self.assertIn("portal-setup", found.do)
        self.machine.put(name, text, mode=0o640)
        self.only_fault(running.clerks, WARNING, "/etc/portal/counter.passwords, which is not read any more, still has left")
        self.machine.put(before, "clerk:$6$x$y\n", mode=0o640)
        self.all_good(running.clerks)
        self.machine.put(name, text, mode=0o644)
        self.only_fault(running.clerks, WARNING, "every user of this machine can read")
        self.machine.put(name, "# nobody\n", mode=0o640)
        self.only_fault(running.clerks, WRONG, "no clerk has a password")
        self.machine.put(name, text.replace("manager", "clerk", 1), mode=0o640)
        self.only_fault(running.clerks, WRONG, "nobody is a manager")
        self.machine.put(name, text.replace("role", "roles"), mode=0o640)
        found = self.only_fault(running.clerks, WRONG, "/etc/portal/clerks.toml: each [[clerk]] has name, role and password")
        self.assertIn("the accounts of before count", found.do)


class Prices(Case):
    PLANS, OFFERS, STATE = "/etc/portal/plans.toml", "/etc/portal/offers.toml", "/var/lib/portal-counter/"
    SAMPLE = (FIELD / "settings/plans.toml").read_text()

    def note(self, plans: str, since: int = 1, **more: Any) -> None:
        """As the counter writes it."""
        sum_of = hashlib.sha256(plans.encode()).hexdigest()
        self.machine.put(self.STATE + "plans.json", json.dumps({
            "since": since, "plans": sum_of, "answer": "done", "reasons": [], "count": 3, "is_offered": {}, "unknown_plans": [], **more}))

    def serves(self, since: int = 1) -> None:
        self.machine.put("/run/portal-clock/state", json.dumps({"is": "serves", "since": since}))

    def test_before_an_installation_somebody_has_chosen_them(self) -> None:
        self.machine.is_installed = False
        for _ in range(2):      # without the file, and with the sample
            found = self.only_fault(prices.plans, WRONG, "are a sample's: hour 3.00, day 9.00, gigabyte 5.00", self.PLANS)
            self.assertIn("--prices-as-shipped", found.do)
            self.machine.put(self.PLANS, self.SAMPLE)
        self.machine.prices_as_shipped = True
        self.all_good(prices.plans)
        self.machine.prices_as_shipped = False
        self.machine.put(Machine.DATABASE, "x")         # a venue that runs
        self.all_good(prices.plans)
        self.machine.path(Machine.DATABASE).unlink()
        self.machine.put(self.PLANS, self.SAMPLE.replace("300", "200"))
        self.all_good(prices.plans)

    def test_a_file_that_was_accepted(self) -> None:
        self.machine.put(self.PLANS, self.SAMPLE)
        self.note(self.SAMPLE)
        self.serves()
        self.all_good(prices.plans)
        self.machine.root_user = False
        self.only_fault(prices.plans, OVER, "only root")

    def test_a_file_that_was_refused(self) -> None:
        self.machine.put(self.PLANS, self.SAMPLE)
        self.serves()
        self.note(self.SAMPLE, answer="plan_differs", reasons=["plan 'hour': price = 200 in the file, and loaded with 300"])
        found = self.only_fault(prices.plans, WRONG, "the server did not accept /etc/portal/plans.toml (plan_differs): plan 'hour': price")
        self.assertEqual(found.do, "a loaded plan never changes: give it a new id, then `systemctl restart portal-counter`")
        self.note(self.SAMPLE, answer="bad_plans", reasons=["plan 'hour': missing: price"])
        self.assertIn("correct the file, then", self.only_fault(prices.plans, WRONG, "missing: price").do)

    def test_a_counter_that_has_not_asked_this_server(self) -> None:
        self.machine.put(self.PLANS, self.SAMPLE)
        self.serves(since=2)
        self.only_fault(prices.plans, WRONG, "has not sent /etc/portal/plans.toml to the server")
        self.note(self.SAMPLE)
        self.only_fault(prices.plans, WRONG, "has not sent /etc/portal/plans.toml to the server")
        self.machine.put("/run/portal-clock/state", json.dumps({"is": "waits"}))
        self.all_good(prices.plans)
        self.note(self.SAMPLE, answer="no_answer")
        self.only_fault(prices.plans, WARNING, "the server has not been asked about /etc/portal/plans.toml yet")

    def test_a_file_that_was_changed_since(self) -> None:
        """What the server will say is foreseen, before it is asked: what it takes stays for good."""
        self.serves()
        self.note(self.SAMPLE)
        self.machine.put(self.STATE + "accepted-plans.toml", self.SAMPLE)
        self.machine.put(Machine.DATABASE, "x")
        self.machine.put(self.PLANS, self.SAMPLE + "# more\n")
        self.only_fault(prices.plans, WARNING, "was changed after it was loaded")
        for old, new, shown in (("300", "200", "plan 'hour': price = 200 in the file, and loaded with 300"),
                                ("price = 300", "prize = 300", "plan 'hour': missing: price"), ("[[plan]]", "[[plan]", "not TOML")):
            self.machine.put(self.PLANS, self.SAMPLE.replace(old, new, 1))
            self.only_fault(prices.plans, WRONG, "the server will not accept /etc/portal/plans.toml: ", shown)
        self.machine.put(self.PLANS, self.SAMPLE.replace("300", "200"))
        self.machine.path(Machine.DATABASE).unlink()    # its owner begins anew
        self.only_fault(prices.plans, WARNING, "was changed after it was loaded")
        self.machine.path(self.PLANS).unlink()
        self.assertIn("accepted-plans.toml", self.only_fault(prices.plans, WRONG, "there is no /etc/portal/plans.toml").do)

    def test_what_is_offered(self) -> None:
        self.machine.put(self.PLANS, self.SAMPLE)
        self.serves()
        cases: tuple[tuple[str, dict[str, Any], State, str], ...] = (
                ("[day]\noffered = false\n", {"is_offered": {"day": False}}, GOOD, "each accepted plan is offered but day"),
                ("[day]\noffered = false\n", {}, WARNING, "/etc/portal/offers.toml was changed after it was loaded"),
                ("[huor]\noffered = true\n", {"is_offered": {"huor": True}, "unknown_plans": ["huor"]}, WARNING, "names huor, which is no plan"),
                ('goodwill = "sorry"\n', {"is_offered": {}, "goodwill": "sorry"}, GOOD, "each accepted plan is offered but sorry"),
                ('goodwill = "sorry"\n', {"is_offered": {}}, WARNING, "/etc/portal/offers.toml was changed after it was loaded"),
                ('goodwill = "day"\n', {"is_offered": {}, "goodwill": "day", "priced_goodwill": "day"}, WARNING, "day as goodwill, and that plan has a price"),
                ("[day]\noffered = 0\n", {}, WRONG, "/etc/portal/offers.toml: [day] has the lines"))
        for text, more, state, shown in cases:
            self.machine.put(self.OFFERS, text)
            self.note(self.SAMPLE, **more)
            found = self.findings_by(prices.plans)
            self.assertEqual([finding.state for finding in found], [GOOD, state], text)
            self.assertIn(shown, found[1].what)


class Command(Case):
    """`doctor` itself, with the commands of a good machine on its path."""

    def setUp(self) -> None:
        super().setUp()
        self.field = self.folder / "field.toml"
        self.field.write_text(SAMPLE)
        os.utime(self.field, (time.time() - 60,) * 2)
        self.machine.put("/etc/portal/gateway.toml", "x")
        self.bin = self.folder / "bin"
        self.bin.mkdir()

    def ask(self, *words: str) -> subprocess.CompletedProcess[str]:
        line = [sys.executable, str(FIELD / "doctor"), "--root", str(self.machine.root), *words, str(self.field)]
        env = {**os.environ, "PATH": self.machine.on_path(self.bin)}
        return subprocess.run(line, capture_output=True, text=True, env=env)

    def findings(self) -> list[dict[str, str]]:
        done = self.ask("--json")
        self.assertEqual(done.stderr, "")
        shown = json.loads(done.stdout)
        self.assertEqual(set(shown), {"state", "at", "findings"})
        is_wrong = any(row["state"] == "wrong" for row in shown["findings"])
        self.assertEqual((shown["state"], done.returncode), ("wrong", 1) if is_wrong else ("good", 0))
        for row in shown["findings"]:
            self.assertEqual(set(row), {"check", "state", "what", "do", "follows"})
            self.assertIn(row["state"], ("good", "note", "warning", "wrong", "passed over"))
        rows: list[dict[str, str]] = shown["findings"]
        return rows

    def test_each_check_has_its_name(self) -> None:
        names = list(dict.fromkeys(row["check"] for row in self.findings()))
        self.assertEqual(names, ["settings", "set up", "devices", "addresses", "limits", "certificate", "zone", "clock", "ports",
                                 "others", "rules", "services", "connections", "server", "clerks", "plans", "logo", "backup",
                                 "disk", "versions"])

    def test_the_page_has_a_row_for_each_check(self) -> None:
        rows = re.findall(r"^\| ([a-z ]+?)( \*)? \|", (FIELD / "docs/DOCTOR.md").read_text(), re.M)
        before, after = ({look.__name__.replace("_", " ") for look in looks} for looks in (BEFORE, doctor.CHECKS))
        self.assertEqual({name for name, _ in rows}, {"settings", *after})
        self.assertEqual({name for name, star in rows if star}, before)

    def test_what_is_wrong_is_in_words_and_the_exit_code_is_1(self) -> None:
        self.machine.says["timedatectl "] = "no\n"
        self.assertIn("clock", [row["check"] for row in self.findings() if row["state"] == "wrong"])
        done = self.ask()
        self.assertEqual(done.returncode, 1)
        self.assertRegex(done.stdout, r"(?m)^WRONG +clock: it is not synchronised.*\n +do: ")
        self.assertRegex(done.stdout, r"[0-9]+ wrong, [0-9]+ warnings, [0-9]+ good, [0-9]+ passed over; [0-9]+ follow\n\Z")
        self.assertNotRegex(done.stdout, r"(?m)^good ")
        self.assertRegex(self.ask("--all").stdout, r"(?m)^good +devices: lan: lan0 is up$")

    def test_warnings_alone_are_no_fault(self) -> None:
        def status_with(*found: Finding) -> int:
            def look(_: Machine) -> Iterator[Finding]:
                yield from found
            words = ["doctor", "--root", str(self.machine.root), str(self.field)]
            with mock.patch.object(doctor, "CHECKS", (look,)), mock.patch.object(sys, "argv", words), \
                    contextlib.redirect_stdout(None):
                status: int = doctor.main()
                return status
        self.assertEqual(status_with(good("x")), 0)
        self.assertEqual(status_with(good("x"), Finding(WARNING, "x", "y"), Finding(OVER, "z")), 0)
        self.assertEqual(status_with(Finding(WRONG, "x", "y"), good("x")), 1)

    def test_a_settings_file_that_cannot_be_read(self) -> None:
        self.field.write_text(SAMPLE.replace("desk_port = 8080", "desk_port = 0"))
        found = {(row["check"], row["state"]): row["what"] for row in self.findings()}
        self.assertIn("desk_port = 0: from 1 to 65535", found.get(("settings", "wrong"), ""))
        self.assertIn("it needs the settings", found["devices", "passed over"])
        self.assertIn(("clock", "good"), found)         # what needs no settings is looked at all the same

    def test_settings_that_root_alone_can_read_are_no_fault(self) -> None:
        with mock.patch.object(pathlib.Path, "read_bytes", side_effect=PermissionError(13, "Permission denied")):
            found = list(doctor.settings(self.machine, self.field))
        self.assertEqual([(finding.state, finding.what) for finding in found], [(OVER, f"{self.field} only root can read")])
        self.machine.field_or_none, self.machine.says["timedatectl "] = None, "no\n"
        self.only_fault(base.clock, OVER, "no time service keeps it", "which only root can read")
        self.only_fault(network.devices, OVER, "it needs the settings, which only root can read")

    def test_settings_with_the_password_of_the_wifi_are_not_for_every_user(self) -> None:
        wifi = SAMPLE.replace('wifi = ""', 'wifi = "Guests"').replace('_password = ""', '_password = "a long word"')
        for text, mode, states in ((SAMPLE, 0o644, {"good"}), (wifi, 0o640, {"good"}), (wifi, 0o644, {"good", "warning"})):
            self.field.write_text(text)
            self.field.chmod(mode)
            os.utime(self.field, (time.time() - 60,) * 2)
            rows = [row for row in self.findings() if row["check"] == "settings"]
            self.assertEqual({row["state"] for row in rows}, states)
        self.assertIn("which has the password of the Wi-Fi", " ".join(row["what"] for row in rows))

    def test_settings_that_were_changed_after_set_up(self) -> None:
        self.assertIn(("settings", "good"), {(row["check"], row["state"]) for row in self.findings()})
        os.utime(self.field, (time.time() + 60,) * 2)
        self.assertIn(("settings", "warning"), {(row["check"], row["state"]) for row in self.findings()})
        self.machine.path("/etc/portal/gateway.toml").unlink()
        self.assertIn(("set up", "wrong"), {(row["check"], row["state"]) for row in self.findings()})

    def test_one_check_that_breaks_does_not_stop_the_others(self) -> None:
        self.machine.says["ip -j address show"] = "no JSON"
        found = {(row["check"], row["state"]) for row in self.findings()}
        self.assertTrue({("devices", "passed over"), ("addresses", "passed over"), ("ports", "good")} <= found, found)


if __name__ == "__main__":
    unittest.main()
