"""What the metrics say against what the test did; alerts and dashboard against the metrics."""

from __future__ import annotations

import json
import os
import pathlib
import re
import subprocess
import time
import urllib.request

import pytest
from scripted_nas import ACCEPT
from venue_lab import FAULTS, MADE_UP, Venue, open_venue

PROMTOOL = "/usr/bin/promtool"
SAMPLE = re.compile(r'(?m)^(portal_[a-z_]+)(?:\{(.*)\})? (\S+)$')
NAMES = re.compile(r"\bportal_[a-z_]+")
Figures = dict[tuple[str, str], float]

pytestmark = [pytest.mark.radius, pytest.mark.venue("metrics")]


def figures(venue: Venue) -> Figures:
    """Each sample by its name and its labels as they stand."""
    with urllib.request.urlopen(f"http://127.0.0.1:{venue.metrics_port}/metrics", timeout=15) as answer:
        text = answer.read().decode()
    return {(name, labels): float(value) for name, labels, value in SAMPLE.findall(text)}


def refusals(found: Figures) -> dict[str, float]:
    return {labels: value for (name, labels), value in found.items() if name == "portal_refusals_total"}


def of(where: str, word: str) -> str:
    return f'where="{where}",word="{word}"'


def worked_day(venue: Venue) -> None:
    """9 vouchers sold of 3.00 each, one refunded; 3 sessions open, one closed; 4 refusals at the page, 6 at the access
    server."""
    nas, sold = venue.nas(), venue.codes("hour", 9)
    unsold, = venue.codes("hour", 1, sell=False)
    venue.refund(sold[0])
    devices = [venue.device() for _ in range(4)]
    for code, device in zip(sold[1:4], devices):
        nas.login(code, device)
    nas.login(sold[1], devices[0])                      # again: no refusal, no sale
    venue.page(devices[3]).type(sold[4])
    venue.close_session(devices[0])
    stranger = venue.device()
    for code in (MADE_UP, MADE_UP, unsold, sold[0], sold[1]):
        nas.login(code, stranger)
    nas.login(stranger, stranger)
    page = venue.page(stranger)
    for code in (MADE_UP, MADE_UP, "X", sold[0]):
        page.type(code)


def test_metrics(portal: str) -> None:
    """In a venue of this test's own, of which all was done by it."""
    with open_venue(portal, "page", "metrics", lines="metrics_takings = true\n") as venue:
        worked_day(venue)
        found = figures(venue)
        assert found.get(("portal_sessions_open", "")) == 3, (
            "open sessions: the three that this test left open")
        sums = [found.get((f"portal_today_{name}", "")) for name in ("sales", "sales_amount", "refunds", "refunds_amount")]
        assert sums == [9, 27, 1, 3], "takings: nine sales of 3.00 and a refund"
        wanted = {of("radius", "unknown_code"): 2, of("radius", "not_sold"): 1, of("radius", "refunded"): 1,
                  of("radius", "used_up"): 1, of("radius", "no_session"): 1,
                  of("page", "unknown_code"): 2, of("page", "bad_code"): 1, of("page", "refunded"): 1}
        assert refusals(found) == wanted, "refusals: each that this test was shown, by its word"
        seconds = {labels: value for (name, labels), value in found.items() if name == "portal_request_seconds"}
        kinds = {f'what="{what}"' for what in ("captive", "sessions", "commit", "takings")}
        assert seconds.keys() == kinds and all(0 < v < 3 for v in seconds.values()), (
            "the time of each kind of answer")
        assert found.get(("portal_up", "")) == 1, "the server is up"
        files(venue)
        server_gone(venue)


def files(venue: Venue) -> None:
    """What other parts leave in files: the gateway's agent, and the unit of the nightly copy."""
    gate, copied = venue.made_root / "run/portal-gateway/gate.json", venue.made_root / "var/lib/portal-backup/copied"
    found = figures(venue)
    assert not {("portal_gate_open", ""), ("portal_last_copy_timestamp_seconds", "")} & found.keys(), (
        "without a gateway and without a copy there are no figures of them")
    result = []
    for is_open, age in ((True, 0), (True, 6), (False, 0)):
        gate.write_text(json.dumps({"at": time.time() - age, "open": is_open}))
        result.append(figures(venue).get(("portal_gate_open", "")))
    assert result == [1, 0, 0], "gate: open, shut once its grace of 5 s is over, and shut"
    copied.parent.mkdir(parents=True, exist_ok=True)
    copied.touch()
    os.utime(copied, (1_000_000_000, 1_000_000_000))
    time_of_copy = figures(venue).get(("portal_last_copy_timestamp_seconds", ""))
    assert time_of_copy == 1_000_000_000, "the last copy: its time"


def server_gone(venue: Venue) -> None:
    """The server is gone: metrics are still there, and a login of this time is counted."""
    venue.stop("desk")
    venue.nas().login(MADE_UP, venue.device())
    found = figures(venue)
    assert (found.get(("portal_up", "")) == 0
            and not {name for name, _ in found} & {"portal_sessions_open", "portal_today_sales"}), (
        "the server is gone: it is not up, and there are no old figures")
    assert refusals(found).get(of("radius", "no_answer")) == 1, "and the login without an answer is counted"


def test_without_takings(venue: Venue) -> None:
    assert not list((venue.etc / "credentials/metrics").iterdir()), (
        "the counter's token is not passed on unless the venue says so")
    found = figures(venue)
    assert (not any(name.startswith("portal_today") for name, _ in found)
            and found.get(("portal_up", "")) == 1), (
        "and then there are no takings")
    device, code = venue.device(), venue.codes("hour", 1)[0]
    was = found[("portal_sessions_open", "")]
    assert (venue.nas().login(code, device).code == ACCEPT
            and figures(venue)[("portal_sessions_open", "")] == was + 1), (
        "a session more is one more")
    venue.close_session(device)


def names_in(path: pathlib.Path) -> set[str]:
    """The metrics in the expressions of a dashboard or of rules."""
    if path.suffix == ".json":
        panels = json.loads(path.read_text())["panels"]
        return {name for panel in panels for target in panel["targets"] for name in NAMES.findall(target["expr"])}
    return {name for line in re.findall(r"(?m)^ +expr: (.*)$", path.read_text()) for name in NAMES.findall(line)}


def test_alerts(venue: Venue) -> None:
    folder = venue.kit / "metrics"
    for words in (["check", "rules", "alerts.yml"], ["test", "rules", "alerts_test.yml"]):
        done = subprocess.run([PROMTOOL, *words], cwd=folder, capture_output=True, text=True, check=False)
        assert done.returncode == 0, (
            f"promtool {' '.join(words)}  [{done.stdout[-1500:]}{done.stderr[-500:]}]")
    source = (venue.kit / "portal_field/metrics/exporter.py").read_text()
    exported = {name.replace("portal_refusals", "portal_refusals_total")
                for name in re.findall(r'"(portal_[a-z_]+)"', source)}
    assert names_in(folder / "dashboard.json") == exported, (
        "the dashboard has each metric that there is, and no other  "
        f"[{names_in(folder / 'dashboard.json') ^ exported}]")
    assert names_in(folder / "alerts.yml") <= exported, (
        f"alerts name no metric that there is not  [{names_in(folder / 'alerts.yml') - exported}]")
    rules = set(re.findall(r"alert: (\w+)", (folder / "alerts.yml").read_text()))
    tried = set(re.findall(r"alertname: (\w+)\n +exp_alerts", (folder / "alerts_test.yml").read_text()))
    assert rules == tried, f"each alert is seen to fire in its test  [{rules ^ tried}]"
    done = subprocess.run([PROMTOOL, "check", "metrics"], input=exposition(venue), capture_output=True, text=True, check=False)
    assert done.returncode == 0, f"promtool check metrics  [{done.stderr}]"


def exposition(venue: Venue) -> str:
    with urllib.request.urlopen(f"http://127.0.0.1:{venue.metrics_port}/metrics", timeout=15) as answer:
        return str(answer.read().decode())


def test_no_fault_in_a_log(venue: Venue) -> None:
    assert venue.faults_in_logs(*FAULTS) == {}, "no fault in a log"
