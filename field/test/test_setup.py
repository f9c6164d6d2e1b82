"""The set-up: what it refuses, what it makes, and the units as far as they can be looked at without systemd."""

from __future__ import annotations

import configparser
import datetime
import os
import pathlib
import re
import shutil
import subprocess
import sys
import tempfile
import time
import tomllib
import unittest
import zoneinfo
from typing import Any
from unittest import mock

from desk_process import FIELD, PORTAL
from fake_machine import LISTENERS, NETWORKS, Certificates, FakeMachine, as_ip_prints, as_root_reads
from needs import NAMESPACES, ROOT, needs

from portal_field.doctor import running
from portal_field.settings import maker as setup
from portal_field.settings.samples import is_sample
from portal_field.settings.venue import BadSettings, Field

SAMPLE, PLANS = ((FIELD / f"settings/{name}.toml").read_text() for name in ("field", "plans"))
OWN_NAMES = SAMPLE.replace("wifi.example", "wifi.venue.lan").replace("counter.example", "counter.venue.lan")
LATER = ("desk_port", "poll_seconds", "grace_seconds", "quiet_seconds", "time_quiet_seconds",
         "without_browser", "clock", "on_failure", "currency", "wifi", "wifi_password", "logo", "voucher_size",
         "voucher_barcode", "daily_report", "owner_contact", "counter_language", "voucher_languages", "payments",
         "drawers", "receipt_size", "receipt_head", "csv_separator", "counter_internet",
         "metrics", "metrics_takings")     # keys with a default
SERVICES = ("portal", "portal-gateway", "portal-leases", "portal-front", "portal-counter")
SECRETS = ("desk_token", "gateway_token", "form_key")


class Lines(unittest.TestCase):
    def test_payments_drawers_and_receipts(self) -> None:
        good = (('payments = ["cash", "card", "Voucher of the town"]', "payments"), ('drawers = ["Front desk", "Bär"]', "drawers"),
                ('receipt_size = "receipt58"', "receipt_size"), ('csv_separator = ";"', "csv_separator"))
        for line, key in good:
            self.assertTrue(getattr(Field.read(re.sub(rf"(?m)^{key} = .*$", line, SAMPLE)), key))
        for key, value, words in (("payments", "[]", "payments: 1 to 8 texts"), ("payments", '["cash", "cash"]', "a name is there twice"),
                                  ("payments", '"cash"', "payments: 1 to 8"), ("drawers", '["a", "a"]', "a name is there twice"),
                                  ("drawers", '["a\\nb"]', "drawers: 0 to 20 texts of one line"), ("drawers", '[" a"]', "drawers: 0 to 20"),
                                  ("receipt_size", '"a4"', "receipt_size = 'a4': receipt80"), ("receipt_head", "[1]", "receipt_head: 0 to 10"),
                                  ("csv_separator", '"|"', "csv_separator = '|': a comma")):
            with self.assertRaisesRegex(BadSettings, words):
                Field.read(re.sub(rf"(?m)^{key} = .*$", lambda _: f"{key} = {value}", SAMPLE))

    def test_the_sample_reads(self) -> None:
        self.assertEqual(Field.read(SAMPLE).guests, "10.77.0.1/22")

    def test_what_is_refused(self) -> None:
        for old, new in (('name = "wifi.example"', 'name = "wifi.example;"'),
                         ('name = "wifi.example"', 'name = "wifi"'), ('lan = "lan0"', 'lan = "lan0 { }"'),
                         ('lan = "lan0"', 'lan = 1'), ('zone = "UTC0"', 'zone = ""'),
                         ('cert = "/etc', 'cert = "etc'), ("desk_port = 8080", "desk_port = 0"),
                         ("desk_port = 8080", 'desk_port = "8080"'), ("desk_port = 8080", "desk_port = true"),
                         ("grace_seconds = 5", "grace_seconds = 5.5"), ("poll_seconds = 1.0", "poll_seconds = 4.0"),
                         ('guests = "10.77.0.1/22"', 'guests = "10.77.0.1"'), ('"10.77.0.50"', '"10.99.0.50"'),
                         ('"10.77.0.50"', '"10.77.3.251"'), ('"1h"', '"1 h"'), ('"1h"]', '"1h", "x"]'),
                         ('counter = "10.88.0.1/24"', 'counter = "10.77.1.1/24"'),
                         ("\nquiet_seconds", "\nquit_seconds"),
                         ("_browser = []", '_browser = ["02:00:00:00:00"]'), ("_browser = []", "_browser = [1]"),
                         ("_browser = []", '_browser = ["01:00:5e:00:00:01"]'), ("_browser = []", '_browser = "x"'),
                         ('wan = "wan0"', 'wan = "lan0"'), ('"counter.example"', '"wifi.example"'),
                         ('"10.77.0.50"', '"10.77.0.1"'), ('"10.77.0.50"', '"10.77.0.0"'), ('"1h"', "1"),
                         ('"10.77.3.250"', '"10.77.3.255"'), ('"10.77.0.1/22"', '"10.77.2.7/22"'),
                         ('"10.88.0.1/24"', '"10.88.0.0/24"'), ('"10.88.0.1/24"', '"10.88.0.1/32"'),
                         ('clock = "kernel"', 'clock = "ntp"'), ("on_failure = []", "on_failure = [1]"),
                         ('logo = ""', 'logo = "logo.svg"'), ('logo = ""', 'logo = "/etc/portal/logo.html"'),
                         ('size = "a4"', 'size = "a5"'), ("report = []", 'report = "lp"'), ("report = []", "report = [1]"),
                         ('currency = ""', 'currency = "€"'), ('wifi = ""', 'wifi = 1'), ('wifi = ""', f'wifi = "{"x" * 33}"'),
                         ('wifi_password = ""', 'wifi_password = "short"'), ('_language = "en"', '_language = "fr"'),
                         ('_languages = ["en"]', '_languages = []'), ('_languages = ["en"]', '_languages = ["xx"]'),
                         ('contact = ""', 'contact = 1'), ('contact = ""', f'contact = "{"x" * 101}"'),
                         ('contact = ""', 'contact = "a\\nb"'),
                         ("on_failure = []", 'on_failure = "mail"'), ("on_failure = []", 'on_failure = [""]'),
                         ("wan = ", "more = 1\nwan = "), ("house = ", "house ")):
            self.assertIn(old, SAMPLE)
            with self.assertRaises(BadSettings, msg=new):
                Field.read(SAMPLE.replace(old, new))

    def test_the_words_name_what_is_wrong(self) -> None:
        for old, new, word in (('wan = "wan0"', 'wan = "lan0"', "lan and wan are the same: lan0"),
                               ('"10.77.0.50"', '"10.77.0.1"', "leases: 10.77.0.1 is this machine's own address"),
                               ('house = "Sample Library"', "", "missing: house"),
                               ('desk_port = 8080', "desk_prt = 8080", "unknown: desk_prt")):
            with self.assertRaisesRegex(BadSettings, word):
                Field.read(SAMPLE.replace(old, new))

    def test_a_file_of_before_lacks_what_came_later(self) -> None:
        for key in LATER:
            old, count = re.subn(f"(?m)^{key} = .*\n", "", SAMPLE)
            self.assertEqual(count, 1, key)
            try:
                self.assertEqual(Field.read(old), Field.read(SAMPLE))
            except BadSettings as fault:
                self.fail(str(fault))


class Zones(unittest.TestCase):
    """A zone by name; Python's own reader of these files says what each one's local times are."""
    DAYS = [datetime.datetime(year, month, 15, 12, tzinfo=datetime.UTC) for year in (2030, 2035) for month in range(1, 13)]

    def setUp(self) -> None:
        self.addCleanup(time.tzset)
        self.enterContext(mock.patch.dict(os.environ))

    def test_a_name_is_taken_as_its_rule(self) -> None:
        for name in ("Europe/Berlin", "Europe/Dublin", "America/St_Johns", "Asia/Kathmandu", "Etc/GMT+5", "UTC", "EST5EDT",
                     "America/Argentina/Ushuaia", "Australia/Lord_Howe"):
            os.environ["TZ"] = zone = Field.read(SAMPLE.replace("UTC0", name)).zone
            time.tzset()
            self.assertNotEqual(zone, name)
            for day in self.DAYS:
                there = day.astimezone(zoneinfo.ZoneInfo(name)).strftime("%F %T")
                self.assertEqual(time.strftime("%F %T", time.localtime(day.timestamp())), there, (name, zone))

    def test_the_programs_settings_have_the_rule(self) -> None:
        with tempfile.TemporaryDirectory() as folder:
            setup.Maker(Field.read(SAMPLE.replace("UTC0", "Europe/Berlin")), pathlib.Path(folder), "/kit").settings()
            for name in ("portal", "counter", "server"):
                settings = tomllib.loads(pathlib.Path(folder, f"etc/portal/{name}.toml").read_text())
                self.assertEqual(settings["zone"], "CET-1CEST,M3.5.0,M10.5.0/3", name)

    def test_a_rule_stays_as_it_is(self) -> None:
        for rule in ("UTC0", "CET-1CEST,M3.5.0,M10.5.0/3", "<+0545>-5:45", "CET-1CEST,M13.5.0"):
            self.assertEqual(Field.read(SAMPLE.replace("UTC0", rule)).zone, rule)

    def test_what_is_no_zone_is_said(self) -> None:
        for zone, fault in (("Europe/Berln", "no time zone of this name in /usr/share/zoneinfo"), ("Europe", "no time zone"),
                            ("../../../etc/passwd", "no time zone"), ("/etc/localtime", "no time zone"),
                            ("tzdata.zi", "no time zone"), ("leapseconds", "is no time zone with a rule"),
                            ("Europe/Berlin ", "zone = 'Europe/Berlin '"), ("", "zone = ''")):
            with self.assertRaisesRegex(BadSettings, fault, msg=zone):
                Field.read(SAMPLE.replace("UTC0", zone))


class Looked(unittest.TestCase):
    """The doctor's checks before an installation; each check by itself is in test_doctor.py."""

    def setUp(self) -> None:
        self.folder = pathlib.Path(self.enterContext(tempfile.TemporaryDirectory()))

    def run_setup(self, text: str, *more: object, path: str = os.environ["PATH"], typed: str = "") -> tuple[int, str]:
        settings, root = self.folder / "field.toml", self.folder / "root"
        settings.write_text(text)
        words = [sys.executable, FIELD / "setup", "--root", root, *more, settings]
        env = {**os.environ, "PATH": path, "SSL_CERT_FILE": str(self.folder / "ca.pem")}
        done = subprocess.run([str(word) for word in words], input=typed, capture_output=True, text=True, env=env)
        self.printed = done.stdout
        self.assertEqual(root.exists(), done.returncode == 0, "files are made where nothing is wrong alone")
        shutil.rmtree(root, ignore_errors=True)
        return done.returncode, as_root_reads(done.stderr)

    def wrong(self, machine: FakeMachine, text: str = SAMPLE) -> str:
        """The one thing that set-up finds wrong and stops at, in its first line."""
        status, errors = self.run_setup(text, "--machine", machine.root, "--portal", "/bin/true",
                                        path=machine.on_path(self.folder))
        lines = errors.splitlines()
        self.assertEqual((status, len(lines)), (1, 2), errors)
        self.assertRegex(lines[1], "^    do: ")
        return lines[0].removeprefix(f"setup: {self.folder}/field.toml: ")

    def good_machine(self) -> FakeMachine:
        machine = FakeMachine(self.folder / "machine")
        tls = machine.path("/etc/portal/tls")
        tls.mkdir(parents=True)
        Certificates(self.folder).sign(tls / "cert.pem", tls / "key.pem")
        machine.put("/etc/portal/plans.toml", PLANS.replace("price = 300", "price = 200"))
        return machine

    @needs("openssl")
    def test_what_the_machine_does_not_have(self) -> None:
        machine = self.good_machine()
        self.assertEqual(self.run_setup(SAMPLE, "--machine", machine.root, "--portal", "/bin/true",
                                        path=machine.on_path(self.folder)), (0, ""))
        good, left = dict(machine.says), dict(NETWORKS)
        for name, key in (("wan0", "wan"), ("lan0", "lan")):
            machine.says["ip -j address show"] = as_ip_prints({**left, name: ([], ["192.0.2.9/24"])}).replace(name, "eth7")
            status, errors = self.run_setup(SAMPLE, "--machine", machine.root, path=machine.on_path(self.folder))
            self.assertEqual(status, 1)
            self.assertIn(f"{key} = '{name}': this machine has no such network device", errors)
        machine.says = good
        for name, key in (("cert", "cert"), ("key", "key")):
            path = machine.path(f"/etc/portal/tls/{name}.pem")
            path.rename(self.folder / "gone")
            self.assertEqual(self.wrong(machine, OWN_NAMES), f"{key} = '/etc/portal/tls/{name}.pem': there is no such file")
            (self.folder / "gone").rename(path)

    @needs("openssl")
    def test_names_that_nobody_can_have_a_certificate_for(self) -> None:
        """Those of RFC 2606, as the sample has them: the certificate that is missing follows. Who has one goes on."""
        machine = self.good_machine()
        words = ("--machine", machine.root, "--portal", "/bin/true")
        self.assertEqual(self.run_setup(SAMPLE, *words, path=machine.on_path(self.folder)), (0, ""))
        shutil.rmtree(machine.path("/etc/portal/tls"))
        for name in ("wifi.example", "a.example.com", "wifi.test", "a.b.invalid", "x.localhost"):
            text = OWN_NAMES.replace('name = "wifi.venue.lan"', f'name = "{name}"', 1)
            status, errors = self.run_setup(text, *words, path=machine.on_path(self.folder))
            lines = errors.removeprefix(f"setup: {self.folder}/field.toml: ").splitlines()
            self.assertEqual((status, lines[0]), (1, f"name = '{name}': nobody can have a certificate for it (RFC 2606)"))
            self.assertIn("--first-look", lines[1])
            self.assertEqual(lines[2:], ["    2 more follow from this: portal-doctor --all shows them"])

    @needs("openssl")
    def test_a_logo_that_is_not_there(self) -> None:
        machine = self.good_machine()
        text = SAMPLE.replace('logo = ""', 'logo = "/etc/portal/logo.svg"')
        self.assertEqual(self.wrong(machine, text), "logo = '/etc/portal/logo.svg': there is no such file")
        machine.put("/etc/portal/logo.svg", "<svg/>", mode=0o600)
        self.assertEqual(self.wrong(machine, text), "logo = '/etc/portal/logo.svg': the counter's page cannot read it")

    @needs("openssl")
    def test_what_follows_is_counted(self) -> None:
        """The address of a device that is not there."""
        machine = self.good_machine()
        machine.says["ip -j address show"] = as_ip_prints({name: row for name, row in NETWORKS.items() if name != "lan0"})
        status, errors = self.run_setup(SAMPLE, "--machine", machine.root, "--portal", "/bin/true", path=machine.on_path(self.folder))
        self.assertEqual((status, errors.splitlines()[2:]), (1, ["    1 more follows from this: portal-doctor --all shows it"]))

    @needs("openssl")
    def test_a_clerk_is_made_last(self) -> None:
        """A check that fails, or a password that is refused: nothing is changed, and nothing more is said."""
        machine = self.good_machine()
        words = ("--machine", machine.root, "--portal", "/bin/true", "--clerk", "ann")
        good, done = "a-long-password\n", []
        for clock, password in (("no\n", good), ("yes\n", "short\n"), ("yes\n", good)):
            machine.says["timedatectl "] = clock
            done.append(self.run_setup(SAMPLE, *words, path=machine.on_path(self.folder), typed=password))
            self.assertEqual("ann is a manager" in self.printed, done[-1][0] == 0)
        self.assertEqual([status for status, _ in done], [1, 1, 0])
        self.assertEqual([len(errors.splitlines()) for _, errors in done], [2, 1, 0])
        self.assertIn("at least 10 characters", done[1][1])

    @needs("openssl")
    def test_what_else_stops_it(self) -> None:
        """A clock that nobody sets, a program in the way, an address that is not there."""
        machine = self.good_machine()
        good = dict(machine.says)
        in_the_way = LISTENERS + 'tcp LISTEN 0 5 0.0.0.0:80 0.0.0.0:* users:(("apache2",pid=7,fd=3))\n'
        lan = as_ip_prints({**NETWORKS, "lan0": (NETWORKS["lan0"][0], [])})
        for line, errors, word in (("timedatectl ", "no\n", "it is not synchronised"), ("ss ", in_the_way, "apache2 listens there"),
                                   ("ip -j address show", lan, 'guests = "10.77.0.1/22": no network device has this address')):
            machine.says = {**good, line: errors}
            self.assertIn(word, self.wrong(machine))
        machine.says = {**good, "ss ": "", "ip -j route show default": "[]"}     # nothing runs yet; the line comes later
        status, errors = self.run_setup(SAMPLE, "--machine", machine.root, "--portal", "/bin/true",
                                        path=machine.on_path(self.folder))
        self.assertEqual(status, 0, errors)
        self.assertRegex(errors, r"\Asetup: warning: addresses: there is no default route.*\n\Z")

    @needs("openssl")
    def test_prices_that_nobody_chose(self) -> None:
        """Nothing is made, unless they are taken as they are."""
        machine = self.good_machine()
        plans, database = machine.path("/etc/portal/plans.toml"), machine.path("/var/lib/portal/book.db")
        words = ("--machine", machine.root, "--portal", "/bin/true")
        path = machine.on_path(self.folder)
        plans.write_text(PLANS)
        self.assertIn("are a sample's: hour 3.00", self.wrong(machine))
        self.assertEqual(self.run_setup(SAMPLE, *words, "--prices-as-shipped", path=path), (0, ""))
        machine.put("/var/lib/portal/book.db", "x")
        self.assertEqual(self.run_setup(SAMPLE, *words, path=path), (0, ""), "a venue that runs goes on")
        database.unlink()
        plans.unlink()
        self.assertIn("the prices that would be put into /etc/portal/plans.toml", self.wrong(machine))

    def test_a_zone_that_the_program_does_not_take(self) -> None:
        """The program is asked; here it is a script that takes UTC0 alone, and then the one under test."""
        program = self.folder / "portal"
        program.write_text('#!/bin/sh\n[ "$1 $2 $4 $6 $#" = "answer --settings --now --seed 7" ] && grep -q \'zone = "UTC0"\' "$3" || '
                           '{ echo "portal: settings" >&2; exit 3; }\n')
        program.chmod(0o755)
        for portal in (str(program), *([PORTAL] if "FIELD_PORTAL" in os.environ else [])):
            self.assertEqual(self.run_setup(SAMPLE, "--portal", portal), (0, ""))
            status, errors = self.run_setup(SAMPLE.replace("UTC0", "CET-1CEST,M13.5.0"), "--portal", portal)
            self.assertEqual(status, 1)
            self.assertIn("zone = 'CET-1CEST,M13.5.0': the program takes a POSIX rule, such as UTC0", errors)

    def test_a_program_that_is_not_there_is_named(self) -> None:
        status, errors = self.run_setup(SAMPLE, "--portal", "/no/such/portal")
        self.assertEqual((status, "/no/such/portal" in errors), (1, True))


# Which of these questions, to a port of this machine, the rules take for the portal's own name: 1 for each that they do.
ASKED = """
table inet portal {
    chain other_names { }
    chain asked {
        type filter hook input priority 0; policy drop;
        udp dport 53 jump other_names
        udp dport 53 accept
    }
}
"""
ASK = """import socket, subprocess, sys
subprocess.run(["ip", "link", "set", "lo", "up"], check=True)
subprocess.run(["nft", "-f", "-"], input=sys.argv[1], text=True, check=True)
door = socket.socket(socket.AF_INET, socket.SOCK_DGRAM)
door.bind(("127.0.0.1", 53))
door.settimeout(0.3)
for name in sys.argv[2:]:
    asked = b"".join(bytes([len(label)]) + label.encode() for label in name.split(".")) + bytes([0, 0, 65, 0, 1])
    with socket.socket(socket.AF_INET, socket.SOCK_DGRAM) as s:
        head, more = bytes([7, 7, 1, 0, 0, 1, 0, 0, 0, 0, 0, 1]), bytes([0, 0, 41, 4, 208, 0, 0, 0, 0, 0, 0])
        s.sendto(head + asked + more, door.getsockname())
    try:
        door.recv(999)
        print(1, end="")
    except TimeoutError:
        print(0, end="")
"""


@needs("nftables", "iproute2", ROOT, NAMESPACES)
class OwnName(unittest.TestCase):
    """The rules that know questions for the portal's own name (RFC 1035 section 4.1), tried on a kernel."""

    def answers_of(self, name: str, *asked: str) -> str:
        rules = ASKED + Field.read(SAMPLE.replace('name = "wifi.example"', f'name = "{name}"', 1)).own_name()
        self.assertLessEqual(max(map(int, re.findall(r"@th,(\d+)", rules))), 8 * 255, "Debian's kernel reaches no further")
        done = subprocess.run(["unshare", "-n", sys.executable, "-c", ASK, rules, *asked], capture_output=True, text=True)
        self.assertEqual(done.stderr, "")
        return done.stdout

    def test_in_any_case_and_no_other_name(self) -> None:
        self.assertEqual(self.answers_of("wifi.example", "wifi.example", "WiFi.EXAMPLE", "wifi.examplf", "wifi.example.net", "wifi",
                                         "a.wifi.example", "wifi-example"), "1100000")

    def test_longer_names(self) -> None:
        name = "wifi-2.the-library-of-the-town.example"
        self.assertEqual(self.answers_of(name, name, name.upper(), name.replace("2", "3"), name[:-1] + "f", name + ".net"), "11000")
        name = ".".join(["b" * 63, "c-" * 31 + "c", "d" * 63, "e" * 57, "net"])     # 253 signs, as long as a name may be
        self.assertEqual(self.answers_of(name, name, name.upper(), "x" + name[1:], name.replace("d.e", "e.e")), "1100")


class Made(unittest.TestCase):
    def setUp(self) -> None:
        self.root = pathlib.Path(self.enterContext(tempfile.TemporaryDirectory()))
        self.make()

    def make(self, *more: str) -> None:
        words = [sys.executable, FIELD / "setup", "--root", self.root, "--field", "/usr/share/portal/field", *more,
                 FIELD / "settings/field.toml"]
        subprocess.run([str(word) for word in words], check=True, capture_output=True)

    def files(self) -> dict[str, bytes]:
        return {str(p.relative_to(self.root)): p.read_bytes() for p in self.root.rglob("*") if p.is_file()}

    def test_made_again_nothing_changes(self) -> None:
        before = self.files()
        self.make()
        self.assertEqual(self.files(), before)

    def test_the_counter_has_a_page_for_when_it_is_away(self) -> None:
        """Its nginx serves it; and the page itself knows whom to call, and where a copy leaves its time."""
        sample = (FIELD / "settings/field.toml").read_text()
        venue = Field.read(sample.replace('owner_contact = ""', 'owner_contact = "Maria, 030 1234567"'))
        maker = setup.Maker(venue, self.root, "/usr/share/portal/field")
        maker.settings()
        maker.others()
        path = re.findall(r"alias (\S+away\.html);", (self.root / "etc/portal/counter-nginx/page.conf").read_text())
        self.assertEqual(path, [str(self.root / "etc/portal/counter-nginx/away.html")])
        text = (pathlib.Path(path[0]).read_text() if pathlib.Path(path[0]).exists() else "")
        for words in ("Whom to call: Maria, 030 1234567.", "/away.css"):
            self.assertIn(words, text)
        conf = tomllib.loads((self.root / "etc/portal/counter.toml").read_text())
        self.assertEqual((conf["owner_contact"], conf["copied"]), ("Maria, 030 1234567", str(self.root / "var/lib/portal-backup/copied")))

    def test_prices_that_were_taken_are_no_sample_any_more(self) -> None:
        """So that a set-up after this one asks no more, and finds the same plans."""
        plans = self.root / "etc/portal/plans.toml"
        self.assertTrue(is_sample(plans))
        self.make("--prices-as-shipped")
        taken = plans.read_text()
        self.assertFalse(is_sample(plans))
        self.assertEqual(tomllib.loads(taken), tomllib.loads(PLANS))
        self.make("--prices-as-shipped")
        self.assertEqual(plans.read_text(), taken)

    def test_a_database_gets_no_plans_of_a_sample(self) -> None:
        """Where the venue's own file is lost; the counter and the doctor say that it is."""
        plans, database = self.root / "etc/portal/plans.toml", self.root / "var/lib/portal/book.db"
        self.assertEqual(plans.read_text(), PLANS)
        plans.unlink()
        database.parent.mkdir(parents=True)
        database.touch()
        self.make()
        self.assertFalse(plans.exists())

    def test_a_write_that_ends_early_leaves_what_was_there(self) -> None:
        """As on a full disk: the text's end cannot be written."""
        maker, path = setup.Maker(Field.read(SAMPLE), self.root, "/kit"), self.root / "etc/portal/front.toml"
        before = self.files()
        with self.assertRaises(UnicodeEncodeError):
            maker.write(path, "x" * 100_000 + "\udc80")
        self.assertEqual(self.files(), before)

    def test_secrets_are_apart_and_shut(self) -> None:
        etc = self.root / "etc/portal"
        tokens = [(etc / "credentials" / name).read_text().strip() for name in SECRETS]
        self.assertTrue(len(set(tokens)) == 3 and all(len(token) == 43 for token in tokens))
        for path in (*(etc / "credentials" / name for name in SECRETS), etc / "portal.toml"):
            self.assertEqual(path.stat().st_mode & 0o777, 0o600)
        for name, text in self.files().items():
            for token in tokens:
                if token.encode() in text:
                    self.assertIn(name, ("etc/portal/portal.toml", *(f"etc/portal/credentials/{key}" for key in SECRETS)))

    def test_the_password_of_the_wifi_is_for_the_counters_group_alone(self) -> None:
        path, asked = self.root / "etc/portal/counter.toml", list[tuple[str, str]]()
        field = Field.read(SAMPLE.replace('wifi_password = ""', 'wifi_password = "a word of the venue"'))
        path.chmod(0o644)       # as an earlier version made it
        with mock.patch("shutil.chown", lambda file, group: asked.append((pathlib.Path(file).name, group))):
            setup.Maker(field, self.root, "/kit").settings()
        self.assertEqual([name for name, text in self.files().items() if b"a word of the venue" in text], ["etc/portal/counter.toml"])
        self.assertEqual(path.stat().st_mode & 0o777, 0o640)
        self.assertEqual(asked, [(".counter.toml.part", "portal-counter")])

    def test_the_desks_settings_are_as_the_desk_reads_them(self) -> None:
        settings = tomllib.loads((self.root / "etc/portal/portal.toml").read_text())
        self.assertEqual(settings.keys(), {"zone", "portal_url", "desk_token", "gateway_token"})
        self.assertEqual(settings["portal_url"], "https://wifi.example/portal")

    def test_devices_without_a_browser_are_in_the_rules(self) -> None:
        rules = self.root / "etc/portal/rules.nft"
        self.assertNotIn("portal listed", rules.read_text())
        self.assertIn("\nadd element inet portal own_addresses { 10.77.0.1, 10.88.0.1 }\n", rules.read_text())
        listed = '_browser = ["02:AA:00:00:00:09", "02:aa:00:00:00:08"]'
        field = Field.read(SAMPLE.replace("_browser = []", listed))
        setup.Maker(field, self.root, "/usr/share/portal/field").others()
        self.assertEqual(rules.read_text().splitlines()[-2:],
                         [f"add element {family} portal listed {{ 02:aa:00:00:00:08, 02:aa:00:00:00:09 }}"
                          for family in ("inet", "netdev")])

    def test_limits_follow_the_networks_size(self) -> None:
        """10.77.0.50 to 10.77.3.250 are 969 addresses of 1,024; a network of 65,536 has room for each device, too."""
        wide = SAMPLE.replace("10.77.0.1/22", "10.77.0.1/16").replace("10.77.3.250", "10.77.255.250")
        for text, leases, limits in ((SAMPLE, 969, [1024, 2048, 4096]), (wide, 65481, [65536, 131072, 262144])):
            setup.Maker(Field.read(text), self.root, "/usr/share/portal/field").others()
            self.assertIn(f"\ndhcp-lease-max={leases}\n", (self.root / "etc/dnsmasq.d/portal.conf").read_text())
            limits_text = (self.root / "etc/sysctl.d/60-portal.conf").read_text()
            found = re.findall(r"(?m)^net.ipv4.neigh.default.gc_thresh. = (.*)$", limits_text)
            self.assertEqual([int(number) for number in found], limits)

    def test_addresses_are_bound_by_the_file_that_dnsmasq_writes(self) -> None:
        settings = tomllib.loads((self.root / "etc/portal/leases.toml").read_text())
        self.assertEqual((settings["lan"], settings["network"]), ("lan0", "10.77.0.0/22"))
        self.assertIn(f"\ndhcp-leasefile={settings['leases']}\n", (self.root / "etc/dnsmasq.d/portal.conf").read_text())

    def test_no_word_is_left_to_fill_in(self) -> None:
        for name, text in self.files().items():
            self.assertIsNone(re.search(rb"@[A-Z_0-9]+@", text), name)

    def test_a_bad_line_makes_nothing(self) -> None:
        with tempfile.TemporaryDirectory() as folder:
            path = pathlib.Path(folder) / "field.toml"
            path.write_text(SAMPLE.replace("desk_port = 8080", "desk_port = 0"))
            words = [sys.executable, FIELD / "setup", "--root", pathlib.Path(folder) / "root", path]
            done = subprocess.run([str(word) for word in words], capture_output=True, text=True)
            self.assertEqual((done.returncode, (pathlib.Path(folder) / "root").exists()), (1, False))
            self.assertIn("desk_port = 0: from 1 to 65535", done.stderr)

    def unit(self, name: str) -> configparser.ConfigParser:
        unit = configparser.ConfigParser(strict=False, interpolation=None)
        unit.optionxform = str      # type: ignore[assignment]
        unit.read(self.root / "etc/systemd/system" / name)
        return unit

    @needs("systemd")
    def test_no_service_has_more_of_the_machine_than_it_needs(self) -> None:
        """systemd's own sum of what a unit may do, at most 3.0 of 10, or the unit says why not."""
        units = sorted((self.root / "etc/systemd/system").glob("portal*.service"))
        self.assertGreater(len(units), 12)
        above = [path for path in units if "\n# Above 3.0 in `systemd-analyze security`: " in path.read_text()]
        self.assertEqual([path.name for path in above], ["portal-failed@.service", "portal-report.service", "portal-restarts.service"])
        for path in units:
            if path in above:
                continue
            words = ["systemd-analyze", "security", "--offline=true", "--threshold=30", "--no-pager", str(path)]
            done = subprocess.run(words, capture_output=True, text=True)
            lines = [line for line in done.stdout.splitlines() if "exposure level" in line]
            self.assertEqual((done.returncode, len(lines)), (0, 1), (lines, done.stderr))

    def module_of(self, service: Any) -> pathlib.Path:
        """The file of the module that a service runs, of the package where the kit stands."""
        self.assertEqual(service["Environment"], "PYTHONPATH=/usr/share/portal/field PYTHONDONTWRITEBYTECODE=1")
        self.assertEqual(service["ExecStart"].split()[:3], ["/usr/bin/python3", "-P", "-m"])
        module: str = service["ExecStart"].split()[3]
        return FIELD / (module.replace(".", "/") + ".py")

    def test_each_service_has_a_user_and_at_most_one_secret(self) -> None:
        secrets = {"portal": "settings:/etc/portal/portal.toml", "portal-leases": None,
                   "portal-front": "form_key:/etc/portal/credentials/form_key",
                   "portal-gateway": "gateway_token:/etc/portal/credentials/gateway_token",
                   "portal-counter": "desk_token:/etc/portal/credentials/desk_token"}
        users = (self.root / "etc/sysusers.d/portal.conf").read_text()
        for name in SERVICES:
            service = self.unit(name + ".service")["Service"]
            self.assertEqual((service["User"], service.get("LoadCredential")), (name, secrets[name]))
            self.assertIn(f"u {name} -", users)
            self.assertEqual((service["Restart"], service["IPAddressDeny"]), ("always", "any"))
            self.assertEqual(self.unit(name + ".service")["Unit"]["StartLimitIntervalSec"], "0")
            capabilities = "CAP_NET_ADMIN" if name in ("portal-gateway", "portal-leases") else ""
            self.assertEqual(service["CapabilityBoundingSet"], capabilities)
            self.assertTrue(self.module_of(service).is_file(), service["ExecStart"])

    def test_the_server_is_started_again_but_where_that_cannot_help(self) -> None:
        service = self.unit("portal.service")["Service"]
        self.assertEqual((service["Restart"], service["RestartPreventExitStatus"]), ("always", "78"))
        # the kernel is asked about its clock, and nobody may set it
        self.assertEqual(service["SystemCallFilter"], "@system-service adjtimex clock_adjtime")
        self.assertEqual((service["CapabilityBoundingSet"], "ProtectClock" in service), ("", False))
        users = re.search(r"define desk_users = \{(.*)\}", (self.root / "etc/portal/rules.nft").read_text())
        self.assertIn('"portal",', users[1].split() if users else [])
        settings = tomllib.loads((self.root / "etc/portal/server.toml").read_text())
        self.assertEqual(settings, {"clock": "kernel", "zone": "UTC0"})

    def test_both_ends_of_the_notes_on_the_clock_are_in_their_folder(self) -> None:
        for folder, line in (("tmpfiles", "d /run/portal-clock 2771 portal portal-clock"),
                             ("sysusers", "g portal-clock -")):
            self.assertIn(line, (self.root / f"etc/{folder}.d/portal.conf").read_text().splitlines())
        for name in ("portal", "portal-counter"):
            service = self.unit(name + ".service")["Service"]
            self.assertIn("portal-clock", service["SupplementaryGroups"].split())
            self.assertEqual(service["ReadWritePaths"], "-/run/portal-clock")

    def test_a_part_that_fails_is_reported(self) -> None:
        for name in (*SERVICES, "portal-counter-nginx", "portal-backup", "portal-rules@"):
            self.assertEqual(self.unit(name + ".service")["Unit"]["OnFailure"], "portal-failed@%n.service", name)
        self.assertTrue(self.module_of(self.unit("portal-failed@.service")["Service"]).is_file())
        self.assertEqual(tomllib.loads((self.root / "etc/portal/failed.toml").read_text()), {"on_failure": []})

    def test_a_part_that_is_started_again_and_again_is_reported(self) -> None:
        self.assertEqual(self.unit("portal.service")["Unit"].get("Wants"), "portal-restarts.timer")
        self.assertEqual(self.unit("portal-restarts.timer")["Timer"]["OnUnitActiveSec"], "1min")
        program = self.module_of(self.unit("portal-restarts.service")["Service"])
        for name in (*SERVICES, "portal-counter-nginx", "nginx", "dnsmasq"):
            self.assertIn(f'"{name}.service"', program.read_text())

    def test_nginx_and_dnsmasq_are_started_again(self) -> None:
        for name in ("nginx", "dnsmasq"):
            unit = self.unit(f"{name}.service.d/portal.conf")
            self.assertEqual((unit["Service"]["Restart"], unit["Unit"]["StartLimitIntervalSec"]), ("on-failure", "0"))

    def test_the_counters_page_has_an_nginx_of_its_own(self) -> None:
        """It listens at the counter's address alone, and nginx of the guests' page does not; what renews the certificate
        reloads both."""
        text = {name: (self.root / name).read_text() for name in (
            "etc/nginx/conf.d/portal-guests.conf", "etc/portal/counter-nginx/nginx.conf", "etc/portal/counter-nginx/page.conf")}
        listens = {name: re.findall(r"(?m)^ *listen (\S+?)[ ;]", words) for name, words in text.items()}
        self.assertEqual(list(listens.values()), [["10.77.0.1:80", "10.77.0.1:443"], [], ["10.88.0.1:443"]])
        main = text["etc/portal/counter-nginx/nginx.conf"]
        includes = re.findall(r"(?m)^    include (/\S+);", main)
        folder = f"{self.root}/etc/portal/counter-nginx"
        self.assertEqual(includes, [f"{folder}/page.con[f]", f"{folder}/venues.con[f]"], "patterns: either file may be missing")
        unit = self.unit("portal-counter-nginx.service")
        self.assertIn("/etc/portal/counter-nginx/nginx.conf", unit["Service"]["ExecStart"].split())
        self.assertTrue(re.findall("pid (.*);", main)[0].endswith(unit["Service"]["PIDFile"]))
        self.assertEqual((unit["Unit"].get("ReloadPropagatedFrom"), unit["Service"].get("Restart"), unit["Unit"]["StartLimitIntervalSec"]),
                         ("nginx.service", "on-failure", "0"))
        wants = re.findall("(?m)^Wants=(.*)$", (self.root / "etc/systemd/system/portal-counter.service").read_text())
        self.assertIn("portal-counter-nginx.service", wants, "it starts with the page")
        self.assertIn("--kill-who=main portal-counter-nginx.service", (self.root / "etc/logrotate.d/portal").read_text())
        connections, files = int(re.findall(r"worker_connections (\d+);", main)[0]), int(unit["Service"]["LimitNOFILE"])
        self.assertGreater(files, 2 * connections)

    def test_the_gateway_is_asked_before_the_server_is_stopped(self) -> None:
        """By the server's parent, which alone gets systemd's signal."""
        service = self.unit("portal.service")["Service"]
        stops = tomllib.loads((self.root / "etc/portal/gateway.toml").read_text())["stops"]
        gateway = re.findall(r"--gateway (\S+)", service["ExecStart"])
        self.assertEqual((gateway, service.get("KillMode")), ([stops.removeprefix(str(self.root))], "mixed"))
        self.assertIn("portal-gateway", service["SupplementaryGroups"].split())

    def test_a_log_that_grows_is_rotated_within_the_hour(self) -> None:
        self.assertRegex((self.root / "etc/logrotate.d/portal").read_text(), r"(?m)^ +maxsize 50M$")
        timer = self.root / "etc/systemd/system/logrotate.timer.d/portal.conf"
        self.assertIn("OnCalendar=hourly", timer.read_text().splitlines())

    def test_the_counters_file_of_earlier_versions_goes(self) -> None:
        old = self.root / "etc/nginx/conf.d/portal-counter.conf"
        old.write_text("server { listen 10.88.0.1:443; }\n")
        self.make()
        self.assertFalse(old.exists())

    def test_the_counters_page_may_stay_where_earlier_versions_have_it(self) -> None:
        """Where another site has its port, too: then its own nginx is not started."""
        apart, together = self.root / setup.APART, self.root / "etc/nginx/conf.d/portal-counter.conf"
        text = apart.read_text()
        maker = setup.Maker(Field.read(SAMPLE), self.root, "/usr/share/portal/field")
        maker.counter_is_apart = False
        maker.others()
        self.assertEqual((apart.exists(), together.exists()), (False, True))
        self.assertEqual(self.unit("portal-counter.socket.d/together.conf")["Socket"]["SocketGroup"], "www-data", "whose user opens the socket then")
        self.assertEqual(together.read_text(), text)
        unit = (self.root / "etc/systemd/system/portal-counter-nginx.service").read_text()
        self.assertEqual(re.findall("(?m)^ConditionPathExists=(.*)$", unit),
                         ["|/etc/portal/counter-nginx/page.conf", "|/etc/portal/counter-nginx/venues.conf"], "one of both is enough")
        maker.counter_is_apart = True
        maker.others()
        self.assertEqual((apart.read_text(), together.exists(), (self.root / setup.OPEN_TO_BOTH).exists()), (text, False, False))

    def may_open(self, owner: str) -> set[str]:
        """The users who open a service's socket: its owner, and those in its group, by their units and by sysusers."""
        door = self.unit(owner + ".socket")["Socket"]
        group = door["SocketGroup"]
        lines = (self.root / "etc/sysusers.d/portal.conf").read_text().splitlines()
        users = {line.split()[1] for line in lines if line.startswith("m ") and line.split()[2] == group}
        for name in SERVICES:
            service = self.unit(name + ".service")["Service"]
            groups = [service.get("Group", name), *service.get("SupplementaryGroups", "").split()]
            users |= {service["User"]} if group in groups else set()
        return users | {group, door["SocketUser"]}      # each user is in the group of its name

    def test_a_pages_socket_is_open_to_nginx_and_to_no_other_page(self) -> None:
        """The nginx of the guests' page and that of the counter's are two users, neither of which is in another's group."""
        main = (self.root / "etc/portal/counter-nginx/nginx.conf").read_text()
        user = re.findall("(?m)^user (.*);", main)[0]
        self.assertIn(f"u {user} -", (self.root / "etc/sysusers.d/portal.conf").read_text())
        for name, nginx in (("portal-front", "www-data"), ("portal-counter", user)):
            self.assertEqual(self.may_open(name), {name, nginx}, name)
            unit, door = self.unit(name + ".service"), self.unit(name + ".socket")["Socket"]
            self.assertEqual((unit["Unit"]["Requires"], door["SocketUser"], door["SocketMode"]), (name + ".socket", name, "0660"))
            conf = tomllib.loads((self.root / f"etc/portal/{name.removeprefix('portal-')}.toml").read_text())
            self.assertTrue(conf["socket"].endswith(door["ListenStream"]), "it listens where nginx looks")

    def test_several_processes_look_devices_up_which_nginx_alone_asks(self) -> None:
        """They have neither secret nor network; the guests' page wants those which nginx asks."""
        unit, door = self.unit("portal-lookup@.service"), self.unit("portal-lookup@.socket")["Socket"]
        service = unit["Service"]
        self.assertEqual((self.may_open("portal-lookup@"), door["SocketUser"], door["SocketMode"]),
                         ({"portal-lookup", "www-data"}, service["User"], "0660"), "its watchdog asks it there, too")
        self.assertEqual((service["User"], service.get("LoadCredential"), service["CapabilityBoundingSet"], service["IPAddressDeny"],
                          service["RestrictAddressFamilies"]), ("portal-lookup", None, "", "any", "AF_UNIX AF_NETLINK"))
        self.assertIn("u portal-lookup -", (self.root / "etc/sysusers.d/portal.conf").read_text())
        self.assertEqual((unit["Unit"]["Requires"], unit["Unit"]["OnFailure"], service["Restart"], service["WatchdogSec"]),
                         ("portal-lookup@%i.socket", "portal-failed@%n.service", "always", "20"))
        self.assertEqual(self.module_of(service), FIELD / "portal_field/guests/lookup.py")
        self.assertEqual((service["EnvironmentFile"], (self.root / "etc/portal/lookup.env").read_text()), ("/etc/portal/lookup.env", "PORTAL_LAN=lan0\n"))
        self.assertEqual(service["ExecStart"].split()[4:], ["${PORTAL_LAN}", door["ListenStream"]])
        asked = re.findall(r"server unix:(\S+)/run/portal-lookup/(\S+) ", (self.root / "etc/nginx/conf.d/portal-guests.conf").read_text())
        wanted = [f"portal-lookup@{number}.service" for _, number in asked]
        self.assertGreater(len(wanted), 1)
        self.assertLessEqual(set(wanted), set(self.unit("portal-front.service")["Unit"]["Wants"].split()))
        self.assertLessEqual(set(wanted), set(running.PARTS), "the doctor looks at each")

    def test_sheets_are_made_by_a_unit_that_has_nothing(self) -> None:
        """It reads what guests and clerks typed, and has neither network nor secret; the counter's page alone asks it."""
        service, door = self.unit("portal-paper@.service")["Service"], self.unit("portal-paper.socket")
        self.assertEqual((service["DynamicUser"], service["PrivateNetwork"], service["CapabilityBoundingSet"],
                          service["RestrictAddressFamilies"], service.get("LoadCredential")), ("yes", "yes", "", "none", None))
        self.assertEqual(self.module_of(service), FIELD / "portal_field/paper/pdf.py")
        self.assertEqual((door["Socket"]["SocketUser"], door["Socket"]["SocketMode"], door["Socket"]["Accept"]),
                         ("portal-counter", "0600", "yes"))
        self.assertEqual(door["Unit"]["ConditionPathExists"], "/usr/bin/weasyprint")
        self.assertIn("\nWants=portal-paper.socket\n", (self.root / "etc/systemd/system/portal-counter.service").read_text())
        conf = tomllib.loads((self.root / "etc/portal/counter.toml").read_text())
        self.assertTrue(conf["paper"].endswith(door["Socket"]["ListenStream"]), "it listens where the page asks")

    def test_free_minutes_are_given_by_a_part_that_the_guests_page_alone_asks(self) -> None:
        """It has the counter's token, and the page that guests reach has not; nginx cannot open its socket."""
        unit, door = self.unit("portal-give.service"), self.unit("portal-give.socket")["Socket"]
        service = unit["Service"]
        self.assertEqual((door["SocketUser"], door["SocketMode"]), ("portal-front", "0600"))
        self.assertEqual((service["User"], service["LoadCredential"], service["CapabilityBoundingSet"], service["IPAddressDeny"]),
                         ("portal-give", "desk_token:/etc/portal/credentials/desk_token", "", "any"))
        self.assertEqual((service["StateDirectory"], service["UMask"], service["SupplementaryGroups"]), ("portal-give", "0077", "portal-gateway"))
        self.assertEqual((unit["Unit"]["Requires"], unit["Unit"]["OnFailure"]), ("portal-give.socket", "portal-failed@%n.service"))
        self.assertEqual(self.module_of(service), FIELD / "portal_field/give/giver.py")
        self.assertIn("portal-give.service", self.unit("portal-front.service")["Unit"]["Wants"].split())
        self.assertIn("u portal-give -", (self.root / "etc/sysusers.d/portal.conf").read_text())
        self.assertIn('"portal-give",', (self.root / "etc/portal/rules.nft").read_text())
        conf, front, counter = (tomllib.loads((self.root / f"etc/portal/{name}.toml").read_text()) for name in ("give", "front", "counter"))
        self.assertEqual((conf["front_user"], conf["free_plan"], conf["network"], front["free"]), ("portal-front", "", "10.77.0.0/22", False))
        self.assertEqual(pathlib.Path(conf["record"]).with_name("days.json"), pathlib.Path(counter["free_days"]))
        for name in (conf["socket"], front["give"]):
            self.assertTrue(name.endswith(door["ListenStream"]), name)

    def test_packets_are_forwarded_while_the_rules_stand(self) -> None:
        text = (self.root / "etc/systemd/system/portal-rules@.service").read_text()
        orders = [line for line in text.splitlines() if line.startswith("Exec")]
        forward = "/usr/sbin/sysctl -q -w net.ipv4.ip_forward="
        load = "/usr/bin/python3 -P -m portal_field.gateway.rules %I /etc/portal/rules.nft"
        self.assertEqual(orders, [f"ExecStart={load}", f"ExecStart={forward}1", f"ExecReload={load}", f"ExecStop={forward}0"])
        self.assertIn("\nBindsTo=sys-subsystem-net-devices-%i.device\n", text)

    def test_a_copy_is_made_each_night_and_checked(self) -> None:
        self.assertEqual(self.unit("portal-backup.timer")["Timer"]["OnCalendar"], "*-*-* 03:30:00")
        order = self.unit("portal-backup.service")["Service"]["ExecStart"].replace("\\\n", "").split()
        self.assertEqual(order[1:], ["--check", "/etc/portal/portal.toml", "--keep", "60", "--journal",
                                     "/var/lib/portal-counter/journal.db", "--whole", "/var/backups/portal-whole", "/var/lib/portal/book.db",
                                     "/var/backups/portal"])

    def test_a_report_of_the_day_before_is_made_each_morning(self) -> None:
        self.assertEqual(self.unit("portal-counter.service")["Unit"].get("Wants"), "portal-report.timer")
        self.assertEqual(self.unit("portal-report.timer")["Timer"]["OnCalendar"], "*-*-* 06:00:00")
        service = self.unit("portal-report.service")["Service"]
        self.assertEqual(self.module_of(service), FIELD / "portal_field/counter/report.py")
        self.assertEqual((service["User"], service["LoadCredential"]),
                         ("portal-counter", "desk_token:/etc/portal/credentials/desk_token"))

    def test_the_journal_is_the_counters_alone(self) -> None:
        for unit in ("portal-counter.service", "portal-report.service"):
            service = self.unit(unit)["Service"]
            self.assertEqual((service["User"], service["StateDirectory"], service["StateDirectoryMode"]),
                             ("portal-counter", "portal-counter", "0700"), unit)

    @needs("systemd")
    def test_systemd_reads_the_units(self) -> None:
        """`verify` without a running systemd, under a root in which the units' programs stand: it says nothing."""
        folder = self.root / "etc/systemd/system"
        shutil.copy(folder / "portal-rules@.service", folder / "portal-rules@lan0.service")
        shutil.copy(folder / "portal-failed@.service", folder / "portal-failed@portal.service.service")
        shutil.copy(folder / "portal-paper@.service", folder / "portal-paper@1.service")
        for name in ("portal@.service", "portal-settings@.service", "portal-settings@.socket", "portal-radius@.service",
                     "portal-radius-agent@.service", "portal-office@.service", "portal-sign-in@.service"):
            shutil.copy(folder / name, folder / name.replace("@", "@north"))
        shutil.copytree("/lib/systemd/system", self.root / "lib/systemd/system", symlinks=True)
        shutil.copytree(FIELD, self.root / "usr/share/portal/field", ignore=shutil.ignore_patterns("__pycache__"))
        (self.root / "lib/systemd/system/freeradius.service").unlink(missing_ok=True)   # Debian's own, in older words
        (self.root / "bin").symlink_to("usr/bin")
        for name in ("bin/portal", "bin/sh", "bin/python3", "bin/touch", "sbin/nft", "sbin/nginx", "sbin/sysctl", "sbin/freeradius"):
            path = self.root / "usr" / name
            path.parent.mkdir(exist_ok=True)
            path.write_text("#!/bin/sh\n")
            path.chmod(0o755)
        units = [path.name for path in sorted(folder.iterdir()) if path.is_file() and "@." not in path.name]
        done = subprocess.run(["systemd-analyze", "verify", "--man=no", f"--root={self.root}", *units],
                              capture_output=True, text=True)
        self.assertEqual((len(units), done.returncode, done.stdout + done.stderr), (46, 0, ""))

    def test_an_installation_by_hand_has_every_unit(self) -> None:
        made = {path.name for path in (self.root / "etc/systemd/system").glob("portal*") if path.is_file()}
        self.assertEqual(made, {path.name for path in (FIELD / "units").glob("portal*")})


if __name__ == "__main__":
    unittest.main()
