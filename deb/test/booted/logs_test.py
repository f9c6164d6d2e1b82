"""Logs rotate and have no code in them; a certificate that is renewed."""

from __future__ import annotations

import contextlib
import gzip
import json
import os
import pathlib
import re
import shutil
import sqlite3
import tempfile

import pytest
from machine import (
    COUNTER, DATABASE, LOG, as_clerk, captive, code, counter, curl, log_in, put_certificate, send_as_clerk, sh, show,
    until, within)

pytestmark = pytest.mark.container
LOGS = pathlib.Path("/var/log/portal")


def log_sizes() -> dict[str, int]:
    send_as_clerk("sell", code="2222-2222-2222-2222")
    return {path.name: path.stat().st_size for path in LOGS.glob("counter.log*")}


def test_logs_rotate(venue: None) -> None:
    done = sh("logrotate -d /etc/logrotate.conf 2>&1")
    faults = [line for line in done.stdout.splitlines() if line.startswith("error")]
    assert faults == [], "log rotation reads every file"
    sh("systemctl start logrotate.service")
    result = show("logrotate", "Result")
    calendar = sh("systemctl show --property TimersCalendar logrotate.timer").stdout
    assert "*-*-* *:00:00" in calendar, f"it runs each hour  [{calendar}]"
    sh(f"truncate -s 51M {LOGS}/counter.log; systemctl start logrotate.service")
    assert log_sizes().get("counter.log", 0) < 1 << 20, f"a log of 51 MB is rotated before its week is over  [{log_sizes()}]"
    sh("logrotate -f /etc/logrotate.conf 2>&1")
    took = until(lambda: log_sizes().get("counter.log", 0) > 0, 5)
    sh("systemctl reset-failed logrotate")
    assert result == "success", "logrotate.service does not fail"
    assert took is not None, f"after a rotation nginx writes to the new file  [{log_sizes()}]"


def fingerprint(space: str, address: str) -> str:
    """Of the certificate that a guest or a clerk is shown."""
    line = (f"openssl s_client -connect {address}:443 </dev/null 2>/dev/null | "
            "openssl x509 -noout -fingerprint -sha256")
    return within(space, "sh", "-c", line).stdout.strip()


def test_certificate_is_renewed(venue: None) -> None:
    """What renews it says `systemctl reload nginx`."""
    ends = (("guest", "10.77.0.1"), ("clerk", "10.88.0.1"))
    before = {fingerprint(*end) for end in ends}
    sh("openssl req -x509 -newkey ec -pkeyopt ec_paramgen_curve:P-256 -nodes -subj /CN=wifi.example -days 9 "
       "-keyout /run/new.pem -out /etc/portal/tls/cert.pem; cat /run/new.pem > /etc/portal/tls/key.pem")
    sh("systemctl reload nginx")
    took = until(lambda: all(fingerprint(*end) not in before for end in ends), 5)
    after = {fingerprint(*end) for end in ends}
    put_certificate()
    sh("systemctl reload nginx")
    until(lambda: counter("")[0] == 200 and captive().get("captive") is not None, 10)
    assert took is not None and len(before) == len(after) == 1, (
        f"after `systemctl reload nginx` guests and clerks are shown the new certificate  [{before} {after}]")


def codes_of(database: pathlib.Path) -> set[str]:
    """Out of a copy, as the server has it locked."""
    with tempfile.TemporaryDirectory() as folder:
        for end in ("", "-wal"):
            if os.path.exists(f"{database}{end}"):
                shutil.copy(f"{database}{end}", f"{folder}/copy.db{end}")
        with contextlib.closing(sqlite3.connect(f"{folder}/copy.db")) as base:
            return {row[0] for row in base.execute("SELECT code FROM portal_vouchers")}


def what_logs_have() -> dict[str, str]:
    """Each file of /var/log, and what systemd's journal has of each unit but this test's."""
    texts = {str(path): (gzip.decompress(path.read_bytes()) if path.suffix == ".gz"
                         else path.read_bytes()).decode("latin-1")
             for path in pathlib.Path("/var/log").rglob("*")
             if path.is_file() and "journal" not in path.parts and path != LOG}
    for line in sh("journalctl", "--no-pager", "-q", "-o", "json", "--all").stdout.splitlines():
        entry = json.loads(line)
        unit = str(entry.get("_SYSTEMD_UNIT", "no unit"))
        if unit != "venue-test.service":
            texts[unit] = f"{texts.get(unit, '')}\n{entry.get('MESSAGE')}"
    return texts


def test_no_log_has_a_code(venue: None) -> None:
    """After all that was done in this boot: sales, kills, restores; and with the counter's page stopped."""
    text = [code() for _ in range(3)][-1]
    curl("clerk", f"https://{COUNTER}/voucher?code={text}", *as_clerk())
    log_in(text, text)      # a scan into the fields of the log-in
    sh("systemctl stop portal-counter.socket portal-counter; mv /run/portal-counter/socket "
       "/run/portal-counter/away")
    for path in ("voucher", f"voucher?code={text}"):
        send_as_clerk(path, code=text)
        curl("clerk", f"https://{COUNTER}/{path}", *as_clerk())
    sh("rm -f /run/portal-counter/away; systemctl start portal-counter.socket portal-counter")
    until(lambda: counter("")[0] == 200, 20)
    replaced = DATABASE.parent.glob(f"{DATABASE.name}.before-*/{DATABASE.name}")       # by a restore
    codes, logs = set[str]().union(*map(codes_of, (DATABASE, *replaced))), what_logs_have()
    plain = {name: re.sub("[^0-9A-Z]", "", words.upper()) for name, words in logs.items()}
    leaks = [(name, len(words)) for name, words in plain.items()
             if any(each.replace("-", "") in words for each in codes)]
    needed = {"/var/log/portal/counter.log", "portal-counter.service", "portal.service"}
    assert len(codes) > 2 and text in codes and not leaks and needed <= logs.keys(), (
        f"no file of /var/log and no line of systemd's journal has a code  [{len(codes)} codes, {leaks}]")
