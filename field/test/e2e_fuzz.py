"""10,000 requests from a seed that nobody means, over nginx and both pages, while a guest and a clerk do their work.

Another --seed gives other requests; the number of a request that got an answer 500 is in what fails, and `fuzzer.py` with
that number sends it again.
"""

from __future__ import annotations

import contextlib
import json
import re
import sqlite3
import subprocess
import tempfile
import time
from typing import Any

import pytest
from lab import Lab
from network import COUNTER, FIELD, MACS, PYTHON

FUZZER = FIELD / "test/fuzzer.py"
REQUESTS = {"guests": 6_500, "counter": 3_500}
ADDRESSES = 60      # of one guest: one alone would get 429 for most
TURNS = 10          # of a usual guest and clerk meanwhile
# What no request may change, of each voucher of the batches of the fuzz.
KEPT = """
SELECT v.code, v.sold, v.refunded, v.amount, (SELECT count(*) FROM portal_grants AS g WHERE g.code = v.code)
FROM portal_vouchers AS v ORDER BY v.code"""


class FuzzLab(Lab):
    def more_addresses(self) -> list[str]:
        """Entries that somebody made by hand count as leases."""
        found = [f"10.77.1.{i + 1}" for i in range(ADDRESSES)]
        for address in found:
            self.within("guest2", "ip", "addr", "add", f"{address}/22", "dev", "eth0")
            self.within("gw", "ip", "neigh", "replace", address, "lladdr", MACS["guest2"], "dev", "lan0", "nud", "permanent")
        time.sleep(2)       # portal-leases sees them
        return found

    def beside_the_counter(self) -> list[str]:
        """Addresses of the counter's network: from one alone most would get 429."""
        found = [f"10.88.0.{i + 100}" for i in range(ADDRESSES)]
        for address in found:
            self.within("clerk", "ip", "addr", "add", f"{address}/24", "dev", "eth0")
        return found

    def read_copy(self) -> tuple[list[Any], list[Any], int]:
        """Each voucher, each batch, and how many sessions there are; out of a copy."""
        with tempfile.TemporaryDirectory() as folder:
            for end in ("", "-wal"):
                with contextlib.suppress(FileNotFoundError):
                    data = (self.root / f"book/book.db{end}").read_bytes()
                    with open(f"{folder}/copy.db{end}", "wb") as file:
                        file.write(data)
            with contextlib.closing(sqlite3.connect(f"{folder}/copy.db")) as base:
                batches = base.execute("SELECT id, size FROM portal_batches ORDER BY id").fetchall()
                return base.execute(KEPT).fetchall(), batches, base.execute("SELECT count(*) FROM portal_sessions").fetchone()[0]

    def fuzz(self, site: str, address: str, seed: int, sources: list[str]) -> subprocess.Popen[str]:
        space = "guest2" if site == "guests" else "clerk"
        return self.begin(space, PYTHON, FUZZER, site, address, seed, 0, REQUESTS[site], self.root / "codes", *sources)


pytestmark = [pytest.mark.packets, pytest.mark.lab(kind=FuzzLab)]


def prepare_codes(lab: FuzzLab) -> dict[str, list[str]]:
    """Unsold and sold codes for the fuzz, and codes of usual guests, of batches of their own."""
    lab.send_as_clerk("issue", plan="hour", batch="unsold", count=5)
    unsold = re.findall(r"<b>([0-9A-Z-]{19})</b>", lab.curl("clerk", f"https://{COUNTER}/sheet?batch=unsold", *lab.as_clerk())[1])
    codes = {"fuzz": unsold + lab.codes("hour", 5), "honest": lab.codes("gigabyte", TURNS)}
    (lab.root / "codes").write_text("\n".join(codes["fuzz"]))
    _, cookie = lab.log_in("clerk", "clerk")
    page = lab.curl("clerk", f"https://{COUNTER}/account", "-H", f"Cookie: {cookie}")[1]
    (lab.root / "login").write_text(f"{cookie}\n{re.findall('name=.token. value=.([0-9a-f]+)', page)[0]}")
    return codes


def honest(lab: FuzzLab, code: str) -> list[int]:
    """What a guest and a clerk do while others send the requests: the statuses."""
    return [lab.redeem("guest1", code)[0], lab.send_as_clerk("now", plan="day", batch=f"honest-{code[:4].lower()}")[0], lab.look_up(code)[0]]


@pytest.fixture
def seed(request: pytest.FixtureRequest) -> int:
    return int(request.config.getoption("--seed"))


def test_pages(lab: FuzzLab, seed: int) -> None:
    codes, sources = prepare_codes(lab), lab.more_addresses()
    before, start = lab.read_copy(), time.monotonic()
    jobs = {"guests": lab.fuzz("guests", "10.77.0.1", seed, sources), "counter": lab.fuzz("counter", "10.88.0.1", seed, lab.beside_the_counter())}
    work = [honest(lab, code) for code in codes["honest"]]
    result = {site: json.loads(job.communicate(timeout=600)[0]) for site, job in jobs.items()}
    took = time.monotonic() - start
    assert [row for row in work if row != [303, 200, 200]] == [], (
        f"a guest and a clerk who do their work meanwhile are answered  [{work}]")
    for site, found in result.items():
        counts, total = found["counts"], sum(found["counts"].values())
        answered = total - counts.get("none", 0) - counts.get("429", 0)
        assert total == REQUESTS[site] and answered > 0.5 * total and not found["bad"], (
            f"{REQUESTS[site]} requests to the {site} page from the seed {seed}: most are answered, and "
            f"by no fault of a server  [{counts} {found['bad'][:2]}]")
    after = lab.read_copy()
    mine = set(codes["honest"])
    read_copy = [[row for row in result[0] if row[0] not in mine and row[0] in {row[0] for row in before[0]}] for result in (before, after)]
    assert read_copy[0] == read_copy[1], (
        "nothing was sold, refunded or redeemed but by them  "
        f"[{[row for row in read_copy[1] if row not in read_copy[0]]}]")
    more = [row for row in after[1] if row not in before[1]]
    assert ([size for _, size in more] == [1] * TURNS
            and all(name.startswith("honest-") for name, _ in more)), (
        f"no batch was issued but theirs  [{more}]")
    assert after[2] - before[2] <= TURNS, "no session was opened but the guest's"
    acts = [row for row in lab.journal() if row[2] not in ("look", "print")]
    done = [row for row in acts if row[-1] == "done" and row[3] not in ("", "unsold", "hour-1", "gigabyte-2") and not str(row[3]).startswith("honest-")]
    assert not done, f"the counter's journal has no other command that was done  [{done[:3]}]"
    assert (lab.curl("clerk", f"https://{COUNTER}/", *lab.as_clerk())[0] == 200
            and lab.captive("guest1").get("captive") is False
            and all(job.poll() is None for job in lab.jobs.values())), (
        "both pages stand, and all programs run  "
        f"[{[name for name, job in lab.jobs.items() if job.poll() is not None]}]")
    print(f"note pages: {sum(REQUESTS.values())} requests in {took:.0f} s")


def test_no_fault_in_a_log(lab: FuzzLab) -> None:
    alarms = ("Traceback", "[alert]", "[emerg]", "panicked", "worker_connections are not enough")
    assert lab.faults_in_logs(*alarms) == {}, "no log has a traceback or an alarm"
