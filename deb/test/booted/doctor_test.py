"""The doctor on a venue that runs: content, and after each fault it names that fault."""

from __future__ import annotations

from collections.abc import Iterator
from dataclasses import dataclass

import pytest
from machine import COPIES, all_run, findings, passes, run_doctor, sh, until

pytestmark = pytest.mark.container
# what the kernel says is this machine's
FIELD, TIME = "/etc/portal/field.toml", "/usr/local/bin/timedatectl"
TLS, HELD, RUN = "/etc/portal/tls", "/run/held", "/run/systemd/system/portal-backup.service.d"
NEW = "openssl req -x509 -newkey ec -pkeyopt ec_paramgen_curve:P-256 -nodes -subj /CN=wifi.example"
NAMES = "-addext subjectAltName=DNS:wifi.example,DNS:counter.example"
LISTEN = "import socket, time; s = socket.create_server(('', 80)); time.sleep(3600)"


@dataclass(frozen=True)
class Fault:
    what: str
    check: str          # by the doctor's name
    word: str           # of what it says
    begin: str
    end: str


FAULTS = (
    Fault("dnsmasq stopped", "services", "dnsmasq.service is not active", "systemctl stop dnsmasq",
          "systemctl start dnsmasq"),
    Fault("dnsmasq stopped, by its port", "ports",
          "udp port 67 of 10.77.0.1: nobody listens there, and dnsmasq should",
          "systemctl stop dnsmasq", "systemctl start dnsmasq"),
    Fault("the rules flushed, and the agent stopped", "rules",
          "the table portal is not loaded (inet, netdev)",
          "systemctl stop portal-gateway; nft flush ruleset",
          "systemctl restart portal-rules@lan0; systemctl start portal-gateway"),
    Fault("the agent stopped", "rules", "the grace timer does not run",
          "systemctl stop portal-gateway; sleep 6",
          "systemctl start portal-gateway"),
    Fault("a certificate that expired", "certificate", "expired on 2020-01-03",
          f"cp -a {TLS} {HELD}; faketime 2020-01-01 {NEW} {NAMES} -days 2 -keyout {TLS}/key.pem -out "
          f"{TLS}/cert.pem",
          f"cp -a {HELD}/. {TLS}; rm -r {HELD}"),
    Fault("a disk that is nearly full", "disk", f"{COPIES}: 1 MiB are free for the copies",
          f"mount -t tmpfs -o size=1m tmpfs {COPIES}", f"umount {COPIES}"),
    Fault("a clock that nobody keeps", "clock", "it is not synchronised",
          f"cp -p {FIELD} /run/; sed -i 's/clock = \"clerk\"/clock = \"kernel\"/' {FIELD}; "
          f"printf '#!/bin/sh\\necho no\\n' > {TIME}; chmod 755 {TIME}",
          f"cp -p /run/field.toml {FIELD}; rm {TIME}"),
    Fault("a unit that failed", "services", "portal-backup.service has failed (exit-code)",
          f"mkdir -p {RUN}; printf '[Service]\\nExecStart=\\nExecStart=/bin/false\\n' > {RUN}/fails.conf; "
          "systemctl daemon-reload; systemctl start portal-backup",
          f"rm -r {RUN}; systemctl daemon-reload; systemctl reset-failed portal-backup"),
    Fault("another program on port 80", "ports", "tcp port 80 of 10.77.0.1: python3",
          f'systemctl stop nginx; systemd-run -q --unit=in-the-way python3 -c "{LISTEN}"; sleep 1',
          "systemctl stop in-the-way; systemctl start nginx"),
)


def test_content(venue: None) -> None:
    status, report = run_doctor()
    wrong, warned = findings(report, "wrong"), findings(report, "warning")
    assert (status, report["state"], wrong) == (0, "good", []), (
        "the doctor finds nothing wrong on a venue that runs")
    assert any(line.startswith("certificate: ") and "days left" in line for line in warned), (
        f"it warns of a certificate with few days left  [{warned}]")
    print(f"note the doctor passes over: {findings(report, 'passed over')}")


def test_without_root(venue: None) -> None:
    status, report = run_doctor("setpriv", "--reuid=65534", "--regid=65534", "--clear-groups")
    over = {line.partition(":")[0] for line in findings(report, "passed over") if "root" in line}
    assert status == 0 and {"certificate", "ports", "rules", "server", "backup"} <= over, (
        f"without root it says what only root can see, and that is not wrong  [{over} "
        f"{findings(report, 'wrong')}]")


@pytest.fixture
def fault(venue: None, request: pytest.FixtureRequest) -> Iterator[Fault]:
    """A fault that there is, and that is mended afterwards."""
    fault: Fault = request.param
    sh(fault.begin)
    yield fault
    sh(fault.end)
    until(lambda: all_run() and passes(), 15)


@pytest.mark.parametrize("fault", FAULTS, indirect=True,
                         ids=[fault.what.replace(" ", "_") for fault in FAULTS])
def test_fault(fault: Fault) -> None:
    status, report = run_doctor()
    wrong = findings(report, "wrong")
    assert (status == 1
            and any(line.startswith(fault.check + ": ") and fault.word in line for line in wrong)), (
        f"the doctor names {fault.what}  [{wrong}]")


def test_mended(venue: None) -> None:
    took = until(lambda: run_doctor()[0] == 0, 10)
    assert took is not None, f"and nothing once they are mended  [{findings(run_doctor()[1], 'wrong')}]"
