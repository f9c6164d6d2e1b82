"""Metrics for Prometheus; settings in /etc/portal/metrics.toml, or the file that FIELD_SETTINGS names.

They are read at each scrape: two requests to the server, and files of the other parts. How long a commit
takes is looked at each five minutes, by a report of 0 bytes for a session that is open, which changes nothing
and is synced to the disk. The takings need the counter's token, which also sells and refunds: they are there
only where the venue hands it over.
"""

from __future__ import annotations

import datetime
import json
import os
import pathlib
import re
import threading
import time
from collections.abc import Iterator
from typing import Any

from prometheus_client import start_http_server
from prometheus_client.core import (
    REGISTRY, CounterMetricFamily, GaugeMetricFamily, Metric)
from prometheus_client.gc_collector import GC_COLLECTOR
from prometheus_client.platform_collector import PLATFORM_COLLECTOR
from prometheus_client.registry import Collector as Registered

from portal_field.lib.desk_client import Desk, NoAnswer, Refused, Route, Routes, credential, settings
from portal_field.lib.local_time import use_zone

NOBODY = "02:00:00:00:00:00"    # a device that has no session
COMMITS = 300.0                 # seconds between two looks at a commit
TOTAL = re.compile(r"(?m)^total +(\d+) +(-?[\d.]+) +(\d+) +(-?[\d.]+) *$")
TODAY = (("portal_today_sales", "Vouchers sold on the venue's day"),
         ("portal_today_sales_amount", "What they brought, in the venue's currency"),
         ("portal_today_refunds", "Vouchers refunded on the venue's day"),
         ("portal_today_refunds_amount", "What they cost, in the venue's currency"))


class NoMetrics(Exception):
    """The server did not answer what was asked."""


def read_state(path: str) -> dict[str, Any]:
    """What a part wrote into its file; nothing where it has not."""
    try:
        state = json.loads(pathlib.Path(path).read_text())
    except (OSError, ValueError):
        return {}
    return state if isinstance(state, dict) else {}


class Collector(Registered):
    """Asks the server and the parts at each scrape."""

    def __init__(self, conf: dict[str, Any], gateway: Desk, counter: Desk | None) -> None:
        self.conf, self.gateway, self.counter = conf, gateway, counter
        self.lock = threading.Lock()
        self.seconds: dict[str, float] = {}
        self.commit_at = 0.0

    def request_timed(self, what: str, desk: Desk, route: Route, **more: Any) -> bytes:
        """The bytes of an answer, whose time is kept."""
        start = time.monotonic()
        reply = desk.request(route, **more)
        self.seconds[what] = time.monotonic() - start
        return reply

    def sessions(self) -> list[dict[str, Any]]:
        """The open sessions; now and then with a commit, whose time is kept too."""
        self.request_timed("captive", self.gateway, Routes.CAPTIVE, device=NOBODY)
        rows: list[dict[str, Any]] = json.loads(self.request_timed("sessions", self.gateway,
                                                                   Routes.SESSIONS))["sessions"]
        if rows and time.monotonic() >= self.commit_at:
            self.request_timed("commit", self.gateway, Routes.REPORT,
                               body={"session": rows[0]["session"], "bytes": 0})
            self.commit_at = time.monotonic() + COMMITS
        return rows

    def takings(self) -> Iterator[Metric]:
        """The sales and refunds of today, where the venue wants them."""
        if self.counter is None:
            return
        day = datetime.date.today().isoformat()
        body = self.request_timed("takings", self.counter, Routes.TAKINGS, query={"from": day, "to": day})
        total = TOTAL.search(body.decode())
        if total is None:
            raise NoMetrics("takings without a total")
        for (name, what), value in zip(TODAY, total.groups()):
            yield GaugeMetricFamily(name, what, value=float(value))

    def of_the_server(self) -> Iterator[Metric]:
        """What the server answers, and how long that took."""
        metrics: list[Metric] = []
        up = 1.0
        try:
            metrics.append(GaugeMetricFamily("portal_sessions_open", "Open sessions",
                                             value=len(self.sessions())))
            metrics += self.takings()
        except (NoAnswer, Refused, NoMetrics, OSError, ValueError, KeyError, TypeError):
            up = 0.0
        yield GaugeMetricFamily("portal_up", "Whether the server answered all that was asked", value=up)
        seconds = GaugeMetricFamily("portal_request_seconds", "Time of the last answer of its kind",
                                    labels=["what"])
        for what, value in self.seconds.items():
            seconds.add_metric([what], value)
        yield seconds
        yield from metrics

    def of_the_parts(self) -> Iterator[Metric]:
        """What the parts write into files: errors that were shown, the gate, the last copy."""
        refusals = CounterMetricFamily("portal_refusals", "Refusals that guests read",
                                       labels=["where", "word"])
        for where in ("page", "radius"):
            for word, count in read_state(self.conf[where]).items():
                refusals.add_metric([where, word], count)
        yield refusals
        gate = read_state(self.conf["gate"])
        if {"open", "at"} <= gate.keys():
            is_open = gate["open"] and time.time() - gate["at"] < self.conf["grace_seconds"]
            yield GaugeMetricFamily("portal_gate_open", "Whether guests with a session pass",
                                    value=float(is_open))
        copied = pathlib.Path(self.conf["copied"])
        if copied.exists():
            yield GaugeMetricFamily("portal_last_copy_timestamp_seconds",
                                    "When the last good copy of the night was made",
                                    value=copied.stat().st_mtime)

    def collect(self) -> Iterator[Metric]:
        """All metrics, of one scrape at a time."""
        with self.lock:
            yield from self.of_the_server()
            yield from self.of_the_parts()


def main() -> None:
    """Serves the metrics at the address of the settings."""
    conf = settings("/etc/portal/metrics.toml")
    use_zone(conf["zone"])
    port, counter = conf["desk_port"], None
    if (pathlib.Path(os.environ["CREDENTIALS_DIRECTORY"]) / "metrics_desk_token").exists():
        counter = Desk(port, credential("metrics_desk_token"), timeout=3.0)
    for collector in (GC_COLLECTOR, PLATFORM_COLLECTOR):
        REGISTRY.unregister(collector)
    REGISTRY.register(Collector(conf, Desk(port, credential("gateway_token"), timeout=3.0), counter))
    start_http_server(conf["port"], addr=conf["address"])
    threading.Event().wait()


if __name__ == "__main__":
    main()
