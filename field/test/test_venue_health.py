"""What Prometheus reads of the venues by name: their metrics, the machines as targets, the alerts."""

from __future__ import annotations

import json
import os
import pathlib
import re
import subprocess
import tempfile
import unittest

from desk_process import FIELD, DeskProcess, free_port
from needs import needs
from own_postgres import OwnPostgres

from portal_field.venues import health, table
from portal_field.venues.clock import Watch
from portal_field.venues.places import Places

LINES = 'house = "House {0}"\nname = "wifi.example"\ncounter_name = "{0}.example"\nzone = "UTC0"\ndesk_port = {1}\n'
SAMPLE = re.compile(r'(?m)^(portal_[a-z_]+)\{venue="(.*)"\} (\S+)$')


class Metrics(unittest.TestCase):
    def setUp(self) -> None:
        self.root = pathlib.Path(self.enterContext(tempfile.TemporaryDirectory()))
        (self.root / health.FILE).parent.mkdir(parents=True)

    def read(self) -> dict[tuple[str, str], float]:
        """Each sample of the file by its name and its venue."""
        return {(name, venue): float(value) for name, venue, value in SAMPLE.findall((self.root / health.FILE).read_text())}

    def test_who_answers_who_does_not_and_how_old_the_copies_are(self) -> None:
        restarted: list[str] = []
        with DeskProcess() as desk:
            watch = Watch({"north": desk.port, "south": free_port()}, restarted.append)
            watch.look()
            copied = Places("north", self.root).copies / "copied"
            copied.parent.mkdir(parents=True)
            copied.touch()
            os.utime(copied, (1_700_000_000, 1_700_000_000))
            health.write_metrics(self.root, {name: seconds and seconds + 7 for name, seconds in watch.seconds_silent().items()})
            found = self.read()
            self.assertEqual((found["portal_venue_up", "north"], found["portal_venue_up", "south"]), (1, 0))
            self.assertEqual(found["portal_venue_silent_seconds", "north"], 0)
            self.assertGreaterEqual(found["portal_venue_silent_seconds", "south"], 7)
            copies = {venue: value for (name, venue), value in found.items() if name == "portal_venue_copy_timestamp_seconds"}
            self.assertEqual(copies, {"north": 1_700_000_000})
            desk.job.kill()
            desk.job.wait()
            watch.look()
            health.write_metrics(self.root, watch.seconds_silent())
            self.assertEqual(self.read()["portal_venue_up", "north"], 0)
        self.assertEqual((restarted, (self.root / health.FILE).stat().st_mode & 0o777), ([], 0o644))

    @needs("prometheus")
    def test_prometheus_takes_metrics_and_alerts(self) -> None:
        health.write_metrics(self.root, {"north": 0, "south": 12.5})
        done = subprocess.run(["promtool", "check", "metrics"], input=(self.root / health.FILE).read_text(), text=True, capture_output=True)
        self.assertEqual((done.returncode, done.stdout + done.stderr), (0, ""))
        done = subprocess.run(["promtool", "test", "rules", "alerts_venues_test.yml"], cwd=FIELD / "metrics", text=True, capture_output=True)
        self.assertEqual(done.returncode, 0, done.stdout + done.stderr)
        known = set(health.HEADS) | {"node_textfile_mtime_seconds", "up"}
        used = set(re.findall(r"\b(?:portal_venue_\w+|node_\w+|up)\b(?=[{ ])", "".join(re.findall("expr: (.*)", (FIELD / "metrics/alerts_venues.yml").read_text()))))
        self.assertLessEqual(used, known)

    def queries(self) -> list[str]:
        """The queries of the dashboard of all venues, with a machine chosen."""
        board = json.loads((FIELD / "metrics/dashboard_venues.json").read_text())
        asked = [target["expr"] for panel in board["panels"] for target in panel["targets"]]
        return [query.replace("$machine", ".*") for query in asked]

    def test_the_dashboard_has_each_metric_that_there_is_and_no_other(self) -> None:
        used = {name for query in self.queries() for name in re.findall(r"\b(?:portal_venue_\w+|node_\w+|up)\b(?=[{ )])", query)}
        self.assertEqual(used, set(health.HEADS) | {"node_textfile_mtime_seconds", "up"})
        self.assertTrue(all('machine=~".*"' in query for query in self.queries()), "each is of the machines that are chosen")

    @needs("prometheus")
    def test_prometheus_takes_the_queries_of_the_dashboard(self) -> None:
        rules = [{"record": f"of_panel_{number}", "expr": query} for number, query in enumerate(self.queries())]
        path = self.root / "rules.yml"
        path.write_text(json.dumps({"groups": [{"name": "dashboard", "rules": rules}]}))
        done = subprocess.run(["promtool", "check", "rules", path], text=True, capture_output=True)
        self.assertEqual(done.returncode, 0, done.stdout + done.stderr)
        self.assertIn(f"SUCCESS: {len(rules)} rules found", done.stdout)


@needs("postgresql", "python3-psycopg", "util-linux", "prometheus")
class Targets(OwnPostgres):
    def test_prometheus_takes_the_machines_of_the_table(self) -> None:
        for port, (machine, name) in enumerate((("one", "north"), ("one", "south"), ("two", "east"), ("three", "west")), 20001):
            table.add(self.of(machine), name, LINES.format(name, port))
        table.retire(self.of("three"), "west")
        folder = pathlib.Path(self.enterContext(tempfile.TemporaryDirectory()))
        (folder / "venues.json").write_text(table.targets(self.of("one"), 9100, "chain.example"))
        self.assertEqual(json.loads((folder / "venues.json").read_text()),
                         [{"targets": ["one.chain.example:9100"], "labels": {"machine": "one"}},
                          {"targets": ["two.chain.example:9100"], "labels": {"machine": "two"}}])
        self.assertIn('"one:9808"', table.targets(self.of("one"), 9808, ""))
        (folder / "prometheus.yml").write_text('scrape_configs:\n  - job_name: portal-venues\n    file_sd_configs: [{files: [venues.json]}]\n')
        done = subprocess.run(["promtool", "check", "config", "prometheus.yml"], cwd=folder, text=True, capture_output=True)
        self.assertEqual(done.returncode, 0, done.stdout + done.stderr)
