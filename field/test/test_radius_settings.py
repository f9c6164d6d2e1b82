"""The table [radius] and the metrics of field.toml: what is refused, what set-up makes, and that both are off without it."""

from __future__ import annotations

import pathlib
import re
import stat
import subprocess
import sys
import tempfile
import tomllib
import unittest

from desk_process import FIELD, DeskProcess

from portal_field.doctor.findings import Machine
from portal_field.doctor.optional import optional
from portal_field.lib.counts import Counts
from portal_field.lib.languages import Language
from portal_field.radius.classes import device_of
from portal_field.radius.logins import Logins
from portal_field.radius.open_sessions import OpenSessions
from portal_field.settings.venue import BadSettings, Field

SAMPLE = (FIELD / "settings/field.toml").read_text()
TABLE = '[radius]\nlisten = "10.88.0.1"\n[radius.nas.lobby]\naddress = "10.88.0.20"\n'
METRICS = ('metrics = ""', 'metrics = "127.0.0.1:9808"')


class Lines(unittest.TestCase):
    def test_without_the_table_there_is_none(self) -> None:
        self.assertIsNone(Field.read(SAMPLE).access_servers)

    def test_the_lines_that_stand_in_comments_are_good(self) -> None:
        radius = Field.read(re.sub(r"(?m)^#(\[radius|listen|address)", r"\1", SAMPLE)).access_servers
        assert radius
        server, = radius.nas
        self.assertEqual((radius.listen, server.name, str(server.network), server.disconnect_port,
                          server.message_authenticator), ("10.88.0.1", "lobby", "10.88.0.20/32", 3799, True))

    def test_what_is_refused_and_why(self) -> None:
        for old, new, words in (
                ('listen = "10.88.0.1"\n', "", "missing: listen"), ('"10.88.0.1"', '"here"', "radius: listen"),
                ('"10.88.0.20"', '"10.88.0.20/24"', "lobby: address"), ('address = "10.88.0.20"\n', "", "lobby: it has an address"),
                ("lobby]", "Lobby]", "a name of a-z"), ("lobby]", '"x }"]', "a name of a-z"),
                ('"10.88.0.20"\n', '"10.88.0.20"\nsecret = "x"\n', "unknown: secret"),
                ('"10.88.0.20"\n', '"10.88.0.20"\ndisconnect_port = 70000\n', "disconnect_port = 70000"),
                ('"10.88.0.20"\n', '"10.88.0.20"\nmessage_authenticator = 1\n', "true or false"),
                ("[radius]\n", "[radius]\nkeep_days = 0\n", "keep_days = 0"),
                ("[radius]\n", "[radius]\ninterim_seconds = true\n", "interim_seconds = True"),
                ("[radius]\n", "[radius]\nacct_port = 1812\n", "are the same"),
                ("[radius]\n", '[radius]\nlanguage = "xx"\n', "one of en, de"),
                ("[radius]\n", "[radius]\nport = 1\n", "radius: unknown: port"),
                ('[radius.nas.lobby]\naddress = "10.88.0.20"\n', "", "no access server is named"),
                ('"10.88.0.20"\n', '"10.88.0.20"\n[radius.nas.bar]\naddress = "10.88.0.0/24"\n', "addresses in common")):
            self.assertIn(old, TABLE)
            with self.assertRaisesRegex(BadSettings, words, msg=new):
                Field.read(SAMPLE + TABLE.replace(old, new))
        with self.assertRaisesRegex(BadSettings, "radius is a table"):
            Field.read("radius = 1\n" + SAMPLE)

    def test_metrics_have_an_address_and_a_port(self) -> None:
        for bad in ('"9808"', '"127.0.0.1"', '"127.0.0.1:0"', '"host:9808"', "9808", '"127.0.0.1:x"'):
            with self.assertRaises(BadSettings, msg=bad):
                Field.read(SAMPLE.replace('metrics = ""', f"metrics = {bad}"))
        with self.assertRaises(BadSettings):
            Field.read(SAMPLE.replace("metrics_takings = false", "metrics_takings = 1"))


class Installed(unittest.TestCase):
    """The doctor's check, which set-up asks first."""

    def setUp(self) -> None:
        self.root = pathlib.Path(self.enterContext(tempfile.TemporaryDirectory()))

    def findings_of(self, text: str) -> list[tuple[str, str]]:
        return [(f.state.value, f.what) for f in optional(Machine(self.root, Field.read(text)))]

    def test_a_part_that_is_set_and_not_installed_is_wrong(self) -> None:
        both = SAMPLE.replace(*METRICS) + TABLE
        self.assertEqual(self.findings_of(SAMPLE), [])
        findings = self.findings_of(both)
        self.assertEqual([state for state, _ in findings], ["wrong", "wrong"])
        self.assertIn("freeradius, freeradius-python3, freeradius-utils is not installed", findings[0][1])
        self.assertIn("python3-prometheus-client is not installed", findings[1][1])
        for name in ("usr/sbin/freeradius", "usr/lib/freeradius/rlm_python3.so", "usr/bin/radclient",
                     "usr/lib/python3/dist-packages/prometheus_client/x"):
            (self.root / name).parent.mkdir(parents=True, exist_ok=True)
            (self.root / name).touch()
        self.assertEqual([state for state, _ in self.findings_of(both)], ["good", "good"])


class Words(unittest.TestCase):
    """What a guest reads of a login that is refused."""

    def test_a_refusal_is_in_the_language_of_the_settings_and_fits_into_an_attribute(self) -> None:
        with DeskProcess() as desk:
            for tag, name, words in (("en", "x", "1 of 16 signs"), ("de", "x", "1 von 16 Zeichen"), ("uk", "x", "1 із 16"),
                                     ("en", "dux8.a3eq.ubn8", "That is no code of ours"), ("en", "0", "There is no 0 in a code"),
                                     ("uk", "0 1 O I L", "7, J чи T."), ("ja", "x", "")):
                sessions = OpenSessions(desk.gateway, desk.gateway, lambda rows: None)
                rules = Logins(desk.gateway, sessions, lambda *words: "", 60, Language(tag), Counts())
                accepted, reply = rules.decide(name, "02-00-00-00-00-01", "lobby")
                text = dict(reply)["Reply-Message"]
                self.assertFalse(accepted)
                self.assertIn(words, text)
                self.assertLessEqual(len(text.encode()), 253)
                self.assertEqual(dict(rules.decide("x", "none", "lobby")[1]).keys(), {"Reply-Message"})

    def test_a_device_in_its_usual_spellings_and_nothing_else(self) -> None:
        for text in ("02-00-00-00-00-0A", "02:00:00:00:00:0a", "0200.0000.000a", "02000000000A"):
            self.assertEqual(device_of(text), "02:00:00:00:00:0a")
        for other in ("", None, "02-00-00-00-00", "02-00-00-00-00-0g", "02-00-00-00-00-0a-0b", "10.0.0.1"):
            self.assertIsNone(device_of(other))


class Made(unittest.TestCase):
    def setUp(self) -> None:
        self.root = pathlib.Path(self.enterContext(tempfile.TemporaryDirectory()))
        self.etc, self.secrets = self.root / "etc/portal", self.root / "etc/portal/credentials/radius"

    def make(self, text: str) -> None:
        path = self.root / "field.toml"
        path.write_text(text)
        words = [sys.executable, FIELD / "setup", "--root", self.root, "--field", "/usr/share/portal/field", path]
        subprocess.run([str(word) for word in words], check=True, capture_output=True)

    def unit(self, name: str) -> str:
        return (self.root / f"etc/systemd/system/{name}.service").read_text()

    def test_off_until_it_is_set_up_and_again_when_the_table_goes(self) -> None:
        paths = [self.etc / name for name in ("radius.toml", "radius.env", "credentials/radius/clients.conf")]
        for text, there in ((SAMPLE, False), (SAMPLE + TABLE, True), (SAMPLE, False)):
            self.make(text)
            self.assertEqual([path.exists() for path in paths], [there] * 3)
        for name in ("portal-radius", "portal-radius-agent"):
            self.assertIn("\nConditionPathExists=/etc/portal/radius.toml\n", self.unit(name))
            self.assertIn("\nUser=portal-radius\n", self.unit(name))
        self.assertIn("\nConditionPathExists=/etc/portal/metrics.toml\n", self.unit("portal-metrics"))

    def test_secrets_are_drawn_once_and_those_of_a_new_one_beside_them(self) -> None:
        self.make(SAMPLE + TABLE)
        first = (self.secrets / "lobby").read_text()
        self.make(SAMPLE + TABLE + '[radius.nas.bar]\naddress = "10.88.0.21"\nmessage_authenticator = false\n')
        second = (self.secrets / "bar").read_text()
        self.assertEqual((self.secrets / "lobby").read_text(), first)
        self.assertRegex(first + second, r"\A[0-9a-f]{32}\n[0-9a-f]{32}\n\Z")
        self.assertNotEqual(first, second)
        for path in self.secrets.iterdir():
            self.assertEqual(stat.S_IMODE(path.stat().st_mode), 0o600, path)
        clients = (self.secrets / "clients.conf").read_text()
        self.assertEqual(re.findall(r"client (\S+) \{\n\tipaddr = (\S+)\n\tsecret = (\S+)\n.*\n\trequire_message_authenticator = (\S+)\n\}",
                                    clients), [("lobby", "10.88.0.20/32", first.strip(), "yes"),
                                               ("bar", "10.88.0.21/32", second.strip(), "no")])
        conf = tomllib.loads((self.etc / "radius.toml").read_text())
        self.assertEqual(conf["nas"]["lobby"], {"address": "10.88.0.20/32", "disconnect_port": 3799, "extend_by_coa": False})

    def test_the_key_of_class_is_drawn_once_and_the_radius_server_alone_has_it(self) -> None:
        path = self.etc / "credentials/class_key"
        self.make(SAMPLE)
        self.assertFalse(path.exists())
        self.make(SAMPLE + TABLE)
        first = path.read_text()
        self.assertRegex(first, r"\A[0-9a-f]{32}\n\Z")
        self.assertNotEqual(first, (self.secrets / "lobby").read_text())
        self.assertEqual(stat.S_IMODE(path.stat().st_mode), 0o600)
        for text in (SAMPLE, SAMPLE + TABLE):
            self.make(text)
            self.assertEqual(path.read_text(), first)
        keys = {unit.name: re.findall(r"LoadCredential=(\S*/class_key)", unit.read_text())
                for unit in (self.root / "etc/systemd/system").glob("*.service") if "class_key" in unit.read_text()}
        self.assertEqual(keys, {     # of a venue by name its own
            "portal-radius.service": ["class_key:/etc/portal/credentials/class_key"],
            "portal-radius@.service": ["class_key:/etc/portal/venues/%i/credentials/class_key"]})

    def test_the_services_may_ask_the_server_and_are_users_of_their_own(self) -> None:
        self.make(SAMPLE)
        rules, users = (self.etc / "rules.nft").read_text(), (self.root / "etc/sysusers.d/portal.conf").read_text()
        for name in ("portal-radius", "portal-metrics"):
            self.assertRegex(rules, f'define desk_users = {{.*"{name}".*}}')
            self.assertIn(f"\nu {name} - ", users)

    def test_metrics_are_off_until_they_are_set_up(self) -> None:
        token = self.etc / "credentials/metrics/desk_token"
        on = SAMPLE.replace(*METRICS)
        takings = on.replace("metrics_takings = false", "metrics_takings = true")
        for text, has in ((SAMPLE, (False, False)), (on, (True, False)), (takings, (True, True)), (on, (True, False)),
                          (SAMPLE, (False, False))):
            self.make(text)
            self.assertEqual(((self.etc / "metrics.toml").exists(), token.exists()), has)
        self.make(takings)
        self.assertEqual(stat.S_IMODE(token.stat().st_mode), 0o600)

    def test_what_the_metrics_read_is_where_the_units_put_it(self) -> None:
        self.make(SAMPLE.replace(*METRICS) + TABLE)
        settings = tomllib.loads((self.etc / "metrics.toml").read_text())
        front, radius = (tomllib.loads((self.etc / name).read_text()) for name in ("front.toml", "radius.toml"))
        gateway = tomllib.loads((self.etc / "gateway.toml").read_text())
        self.assertEqual((settings["page"], settings["radius"]), (front["refusals"], radius["refusals"]))
        self.assertEqual(pathlib.Path(settings["gate"]).parent, pathlib.Path(gateway["snapshot"]).parent)
        for name, folder in (("portal-front", settings["page"]), ("portal-radius", settings["radius"])):
            self.assertIn(f"\nRuntimeDirectory={pathlib.Path(folder).parent.name}\n", self.unit(name))
        copied = "/" + str(pathlib.Path(settings["copied"]).relative_to(self.root))
        self.assertIn(f"\nExecStartPost=/usr/bin/touch {copied}\n", self.unit("portal-backup"))
        self.assertIn(f"\nStateDirectory={pathlib.Path(copied).parent.name}\n", self.unit("portal-backup"))


if __name__ == "__main__":
    unittest.main()
