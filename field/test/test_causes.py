"""Causes before effects: the doctor names the cause, and counts what follows from it."""

from __future__ import annotations

import contextlib
import hashlib
import io
import json
import os
import pathlib
import shutil
import tempfile
import time
import unittest
from unittest import mock

from fake_machine import (
    FIELD, LISTENERS, NETWORKS, SAMPLE, UNITS, Certificates, FakeMachine, as_ip_prints, as_nft_prints, as_systemd_prints)
from needs import needs

from portal_field.doctor import causes, running
from portal_field.doctor import command as doctor
from portal_field.doctor.findings import Finding, State, passed_over, warning, wrong
from portal_field.lib.desk_client import NoAnswer

CLERKS = '[[clerk]]\nname = "clerk"\nrole = "manager"\npassword = "$6$x$y"\n'
NOTE, FAILED = "/run/portal-clock/state", {"ActiveState": "failed", "Result": "exit-code"}


class Traces(unittest.TestCase):
    """What follows from what, by the table alone."""

    def trace(self, *findings: tuple[str, Finding]) -> list[int | None]:
        return [row.cause for row in causes.trace(findings)]

    def test_the_table_ends_at_something_that_stands_on_nothing(self) -> None:
        def below(subject: str, above: tuple[str, ...]) -> None:
            self.assertNotIn(subject, above)
            for need in causes.STANDS_ON.get(subject, causes.OTHERS):
                below(need, (*above, subject))
        for subject in causes.STANDS_ON:
            below(subject, ())

    def test_the_first_cause_is_named(self) -> None:
        fault = wrong("x", "y")
        self.assertEqual(self.trace(("settings", fault), ("set up", fault), ("rules", fault)), [None, 0, 0])

    def test_what_is_good_hides_what_is_below_it(self) -> None:
        """A slip in field.toml explains no server that failed while set-up has run."""
        self.assertEqual(self.trace(("settings", wrong("x", "y")), ("set up", Finding(State.GOOD, "z")), ("server", wrong("x", "y")),
                                    ("rules", passed_over("x", "without settings"))), [None, None, None, 0])

    def test_what_was_not_seen_explains_no_fault(self) -> None:
        """As without root: what is wrong all the same is said."""
        self.assertEqual(self.trace(("settings", passed_over("x")), ("set up", passed_over("x")), ("rules", passed_over("x")),
                                    ("limits", warning("x", "y")), ("server", wrong("x", "y"))), [None, 0, 0, None, None])

    def test_a_warning_explains_nothing(self) -> None:
        self.assertEqual(self.trace(("set up", warning("x", "y")), ("server", wrong("x", "y"))), [None, None])

    def test_good_findings_follow_from_nothing(self) -> None:
        self.assertEqual(self.trace(("set up", wrong("x", "y")), ("server", Finding(State.GOOD, "z"))), [None, None])


@needs("openssl")
class Faults(unittest.TestCase):
    """A machine on which all is good, and then one thing is not, with all that comes of it."""
    tls: pathlib.Path

    @classmethod
    def setUpClass(cls) -> None:
        cls.tls = pathlib.Path(cls.enterClassContext(tempfile.TemporaryDirectory()))
        made = Certificates(cls.tls)
        made.sign(cls.tls / "cert.pem", cls.tls / "key.pem")
        cls.enterClassContext(mock.patch.dict(os.environ, SSL_CERT_FILE=str(made.authority)))

    def setUp(self) -> None:
        self.folder = pathlib.Path(self.enterContext(tempfile.TemporaryDirectory()))
        self.field, program = self.folder / "field.toml", self.folder / "portal"
        program.write_text("#!/bin/sh\necho 'portal 1.0.0 (database schema version 6)'\n")
        program.chmod(0o755)
        self.machine = FakeMachine(self.folder / "machine")
        self.machine.portal, self.machine.now = str(program), time.time() + 60      # later than what is signed
        self.put_all()
        self.enterContext(mock.patch("portal_field.doctor.base.shutil.disk_usage", return_value=mock.Mock(free=1 << 40, total=1 << 41)))
        self.desk = self.enterContext(mock.patch.object(running, "Desk"))

    def put_all(self) -> None:
        self.field.write_text(SAMPLE)
        os.utime(self.field, (self.machine.now - 120,) * 2)
        for name in ("cert", "key"):
            self.machine.put(f"/etc/portal/tls/{name}.pem", (self.tls / f"{name}.pem").read_text(), mode=0o600)
        self.machine.put("/etc/portal/gateway.toml", "")
        self.machine.put("/etc/portal/clerks.toml", CLERKS, mode=0o640)
        plans = (FIELD / "settings/plans.toml").read_text()
        self.machine.put("/etc/portal/plans.toml", plans)
        self.machine.put(NOTE, json.dumps({"is": "serves", "since": 1}))
        self.machine.put("/var/lib/portal-counter/plans.json", json.dumps({
            "since": 1, "plans": hashlib.sha256(plans.encode()).hexdigest(), "answer": "done", "reasons": [], "count": 3,
            "is_offered": {}, "unknown_plans": []}))
        copy = self.machine.put("/var/backups/portal/20260101T033000.000000Z.db", "x")
        self.machine.put(f"/var/backups/portal/{copy.name}.sha256", hashlib.sha256(b"x").hexdigest() + "  x\n")

    def findings(self) -> list[causes.Traced]:
        return [row for row in causes.trace(doctor.find_all(self.machine, self.field)) if row.finding.state is not State.GOOD]

    def only_cause(self, words: str, *followers: str) -> None:
        """One finding names the fault, and findings of these checks follow from it."""
        rows = self.findings()
        self.assertEqual([(row.check, row.finding.what) for row in rows if row.cause is None and words not in row.finding.what], [])
        self.assertEqual({row.check for row in rows if row.cause is not None}, set(followers))

    def no_table(self) -> None:
        self.machine.says = {"nft list table": (1, "Error: No such file or directory\n"), **self.machine.says}

    def nobody_listens(self, *programs: str) -> None:
        self.machine.says["ss "] = "".join(line for line in LISTENERS.splitlines(True) if not any(f'"{name}"' in line for name in programs))

    def test_all_is_good(self) -> None:
        self.assertEqual(self.findings(), [])

    def test_set_up_has_not_run(self) -> None:
        """As the package leaves a machine: none of the venue's devices, addresses, files and units is there."""
        for name in ("etc", "run", "var"):
            shutil.rmtree(self.machine.path(f"/{name}"))
        off = {"".join(sign if sign.isalnum() else "_" for sign in unit): {"ActiveState": "inactive"} for unit in UNITS}
        self.machine.says |= {"ip -j address show": as_ip_prints({"eth0": NETWORKS["wan0"]}), "ss ": "",
                              "systemctl show ": as_systemd_prints(**off), "timedatectl ": "no\n"}
        self.no_table()
        self.desk.return_value.request_json.side_effect = NoAnswer("refused")
        self.only_cause("set-up has not run: there is no /etc/portal/gateway.toml", "devices", "addresses", "certificate", "clock", "ports",
                        "rules", "services", "server", "clerks", "plans", "backup")

    def test_settings_that_are_not_there(self) -> None:
        """Their path, and the sample's; what needs them could not be looked at."""
        self.field.unlink()
        self.machine.field_or_none = None
        self.only_cause(f"{self.field}: there is no such file", "devices", "addresses", "limits", "certificate", "zone", "ports", "others",
                        "rules", "services", "server", "free minutes", "logo", "optional")

    def test_settings_with_a_slip_while_the_server_is_down(self) -> None:
        """Two causes."""
        self.field.write_text(SAMPLE.replace("grace_seconds", "grace_second"))
        self.machine.field_or_none = None
        self.machine.put("/var/lib/portal/schema", "7\n")
        self.assertEqual([row.check for row in self.findings() if row.cause is None], ["settings", "versions"])

    def test_a_certificate_that_is_gone(self) -> None:
        """Neither nginx starts, so nobody listens at five doors, and its configuration is not read."""
        self.machine.path("/etc/portal/tls/cert.pem").unlink()
        self.nobody_listens("nginx")
        self.machine.says["nginx -T"] = (1, "nginx: [emerg] cannot load certificate\n")
        self.machine.says["systemctl show "] = as_systemd_prints(nginx_service=FAILED, portal_counter_nginx_service=FAILED)
        self.only_cause("cert = '/etc/portal/tls/cert.pem': there is no such file", "ports", "services", "connections")

    def test_another_program_on_port_80(self) -> None:
        self.machine.says["ss "] = "".join(line for line in LISTENERS.splitlines(True) if "pid=80" not in line) + \
            'tcp LISTEN 0 5 0.0.0.0:80 0.0.0.0:* users:(("apache2",pid=7,fd=3))\n'
        self.machine.says["systemctl show "] = as_systemd_prints(nginx_service=FAILED)
        self.only_cause("tcp port 80 of 10.77.0.1: apache2 listens there", "ports", "services")

    def test_a_device_that_is_gone(self) -> None:
        """Its address, the rules, the agents and dnsmasq go with it."""
        self.machine.says["ip -j address show"] = as_ip_prints({name: row for name, row in NETWORKS.items() if name != "lan0"})
        self.no_table()
        self.machine.says["systemctl show "] = as_systemd_prints(portal_rules_lan0_service={"ActiveState": "inactive"},
                                                                 portal_gateway_service=FAILED, dnsmasq_service=FAILED)
        self.nobody_listens("dnsmasq")
        self.only_cause("lan = 'lan0': this machine has no such network device", "addresses", "rules", "services", "ports")

    def test_a_server_that_failed(self) -> None:
        """What it says itself is the cause: its unit, its port, the grace timer and the plans follow."""
        self.machine.put(NOTE, json.dumps({"is": "failed", "why": "it ended with status 3, `portal: file`"}))
        self.machine.put("/var/lib/portal-counter/plans.json", "{}")
        self.machine.says["systemctl show "] = as_systemd_prints(portal_service=FAILED)
        self.nobody_listens("portal")
        self.machine.says["nft -j list set inet portal alive"] = as_nft_prints()
        self.only_cause("it does not start: it ended with status 3, `portal: file`", "services", "ports", "rules", "plans")

    def test_a_program_that_is_gone(self) -> None:
        pathlib.Path(self.machine.portal).unlink()
        self.machine.says["systemctl show "] = as_systemd_prints(portal_service=FAILED)
        self.machine.path(NOTE).unlink()
        self.desk.return_value.request_json.side_effect = NoAnswer("refused")
        self.only_cause("cannot be run: No such file or directory", "zone", "services", "server")

    def test_a_backup_that_fails(self) -> None:
        self.machine.put("/var/backups/portal/20260101T033000.000000Z.db", "x", 40 * 3600)
        more = "\nId=portal-backup.service\nLoadState=loaded\nActiveState=failed\nResult=exit-code\n"
        self.machine.says["systemctl show "] = as_systemd_prints() + more
        self.only_cause("portal-backup.service has failed", "backup")

    def test_two_faults_are_two_causes(self) -> None:
        """An old copy follows from no server that is down."""
        self.machine.put("/var/backups/portal/20260101T033000.000000Z.db", "x", 40 * 3600)
        self.desk.return_value.request_json.side_effect = NoAnswer("refused")
        self.assertEqual([(row.check, row.cause) for row in self.findings()], [("server", None), ("backup", None)])

    def test_what_is_printed(self) -> None:
        """The cause, its command and how many follow; with --all each of these says what it follows from."""
        self.machine.path("/etc/portal/gateway.toml").unlink()
        self.machine.says["timedatectl "] = "no\n"
        rows = causes.trace(doctor.find_all(self.machine, self.field))
        printed = []
        for everything in (False, True):
            with contextlib.redirect_stdout(io.StringIO()) as shown:
                doctor.print_findings(rows, everything)
            printed.append(shown.getvalue())
        first, last = printed[0].split("do: `portal-setup`\n")
        self.assertEqual(first, "WRONG       set up: set-up has not run: there is no /etc/portal/gateway.toml\n                ")
        self.assertRegex(last, r"\A {16}1 more follows from this: portal-doctor --all shows it\n1 wrong, 0 warnings, [0-9]+ good, "
                               r"0 passed over; 1 follow\n\Z")
        self.assertRegex(printed[1], r"(?m)^WRONG +clock: it is not synchronised.*\n +do: .*\n +follows from: set up$")

    def test_the_status_and_the_report_have_all(self) -> None:
        """What follows is in --json, with the check that it follows from."""
        self.machine.path("/etc/portal/gateway.toml").unlink()
        self.machine.says["timedatectl "] = "no\n"
        with contextlib.redirect_stdout(io.StringIO()) as shown:
            doctor.print_json(causes.trace(doctor.find_all(self.machine, self.field)), True)
        rows = [row for row in json.loads(shown.getvalue())["findings"] if row["state"] != "good"]
        self.assertEqual([(row["check"], row["state"], row["follows"]) for row in rows],
                         [("set up", "wrong", ""), ("clock", "wrong", "set up")])


if __name__ == "__main__":
    unittest.main()
