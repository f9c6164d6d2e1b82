#!/usr/bin/python3
"""The processor time of the counter's page for a sheet of 500 vouchers, of this kit and of an earlier one, which take turns in
one run. Needs the Debian package python3-segno where the earlier one does.

    PYTHONPATH=field:field/test sheet_cost.py [--turns N] FIELD ..

FIELD: the folder `field` of a checkout. `git worktree add FOLDER COMMIT` makes one of an earlier commit.
"""

from __future__ import annotations

import argparse
import os
import pathlib
import statistics
import subprocess
import sys
import tempfile

from desk_process import FIELD, DeskProcess, Routes

ONE = """
import pathlib, sys, time
from portal_field.counter.clerk import Counter
from portal_field.counter.journal import Journal
from portal_field.counter.page import pages
from portal_field.lib.desk_client import Desk
conf = {"house": "House", "plans": "/nowhere", "portal_url": "https://wifi.example/portal", "snapshot": "/nowhere",
        "notes": "/nowhere", "wifi": "Guests", "wifi_password": "correct horse", "currency": "EUR", "voucher_languages": ["en", "de"]}
counter = Counter(Desk(int(sys.argv[1]), "desk-token"), conf, Journal(pathlib.Path(sys.argv[2])))
client = pages(counter).test_client()
client.get("/sheet?batch=b1")
start = time.process_time()
answer = client.get("/sheet?batch=b500")
took = time.process_time() - start
assert answer.get_data(as_text=True).count("<svg") == 1000, answer.status
print(took, len(answer.get_data()))
"""


def main() -> None:
    words = argparse.ArgumentParser(description="Compares what a sheet of 500 vouchers costs.")
    words.add_argument("--turns", type=int, default=7)
    words.add_argument("fields", nargs="+", type=pathlib.Path, metavar="FIELD")
    args = words.parse_args()
    found: dict[pathlib.Path, list[float]] = {field: [] for field in args.fields}
    size: dict[pathlib.Path, int] = {}
    with DeskProcess() as desk, tempfile.TemporaryDirectory() as folder:
        desk.desk.request_json(Routes.PLANS, body=(FIELD / "settings/plans.toml").read_bytes())
        for batch, count in (("b1", 1), ("b500", 500)):
            desk.issue_codes("hour", batch, count)
        for _ in range(args.turns):
            for field in args.fields:
                line = subprocess.run([sys.executable, "-c", ONE, str(desk.port), f"{folder}/journal.db"], check=True, text=True,
                                      stdout=subprocess.PIPE, stderr=subprocess.DEVNULL,
                                      env={**os.environ, "PYTHONPATH": str(field.resolve())}).stdout
                took, bytes_ = line.split()
                found[field].append(float(took))
                size[field] = int(bytes_)
    for field, times in found.items():
        print(f"{field}: median {statistics.median(times):.2f} s of processor time ({min(times):.2f} to {max(times):.2f}), "
              f"{size[field] / 1e6:.1f} MB, load {os.getloadavg()[0]:.0f}")


if __name__ == "__main__":
    main()
