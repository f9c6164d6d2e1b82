#!/usr/bin/env python3
"""What a command writes, call by call.

writes.py PROGRAM, with tests/outside and tests/cases in PYTHONPATH, sends 40 commands of each kind to a
server over a new file, looks at its system calls with strace, and prints the mean of each command: the frames
of the log that it writes (4,120 bytes each, with a page of 4,096), how many of them hold no page of the
database, the bytes of zeros by which the log was made longer before, the bytes that were copied from the log
into the database, and the syncs. Then the queue of the socket that listens. Needs strace and iproute2 (Debian
packages). No part of ./test."""

import json
import os
import re
import struct
import subprocess
import sys
import tempfile
import time
from pathlib import Path

from desk import DESK, GATEWAY, PLANS, Desk, codes_of, guest

TIMES, HEADER, FRAME = 40, 32, 4120
MOST_PAGES = 1 << 24                           # that a database may have here
CALL = re.compile(r"(pwrite64|fdatasync|fsync)\(\d+<([^>]*)>(?:.*, (\d+), (\d+)\) += \d+)?")


def commands(codes):
    """The commands of each kind, with what they are sent."""
    coded = [json.dumps({"code": code}) for code in codes[:TIMES]]
    return {
        "sale": [("POST", "/desk/sales", DESK, body) for body in coded],
        "redemption": [("POST", "/portal/redeem", guest(at), body) for at, body in enumerate(coded)],
        "report": [("POST", "/gateway/reports", GATEWAY, json.dumps({"session": 1 + at, "bytes": 1000}))
                   for at in range(TIMES)],
        "issue of 1": [("POST", "/desk/batches", DESK, f'{{"batch":"n{at}","plan":"hour","count":1}}')
                       for at in range(TIMES)],
    }


def traced(desk, requests):
    """The lines that strace says while the server answers."""
    said = Path(desk.folder, "strace")
    words = ["strace", "-f", "-y", "-s", "0", "-e", "trace=pwrite64,fdatasync,fsync", "-o", said]
    words += ["-p", str(desk.process.pid)]
    with subprocess.Popen(words, stderr=subprocess.PIPE, text=True) as strace:
        line = strace.stderr.readline() if strace.stderr else ""
        assert "attached" in line, line
        for request in requests:
            desk.answer_to(*request)
        time.sleep(0.2)
        strace.terminate()
    return said.read_text(encoding="utf-8").splitlines()


def strange(log, places):
    """How many of the frames at these places of the log hold no page of the database."""
    with open(log, "rb") as file:
        pages = []
        for place in places:
            file.seek(place)
            pages.append(struct.unpack(">I", file.read(4))[0])
    return sum(page > MOST_PAGES for page in pages)


def look(desk, requests):
    """The figures of one kind, each for one command."""
    log = os.path.join(desk.folder, "portal.db-wal")
    calls = [found.groups() for found in map(CALL.search, traced(desk, requests)) if found]
    written = [(path, int(length), int(at)) for name, path, length, at in calls if name == "pwrite64"]
    end = max(at + length for path, length, at in written if path == log and length % FRAME == 0)
    frames, zeros = set(), 0
    for path, length, at in written:
        if path == log and length % FRAME == 0:
            frames.update((at - HEADER) // FRAME + n for n in range(length // FRAME))
        elif path == log and length > FRAME:
            zeros += length
    places = [HEADER + FRAME * frame for frame in frames]
    copied = sum(length for path, length, _ in written if path != log)
    syncs = sum(name != "pwrite64" for name, *_ in calls)
    assert os.path.getsize(log) >= end, "the log began anew: send fewer commands"
    figures = len(frames), strange(log, places), zeros, copied, syncs
    return [figure / len(requests) for figure in figures]


def main():
    with tempfile.TemporaryDirectory() as folder:
        desk = Desk(str(Path(sys.argv[1]).resolve()), folder)
        desk.start()
        try:
            desk.answer_to("POST", "/desk/plans", DESK, PLANS)
            desk.answer_to("POST", "/desk/batches", DESK, '{"batch":"b0","plan":"hour","count":500}')
            print("of one command".ljust(15), "  frames  without a page   zeros  copied  syncs")
            for kind, requests in commands(codes_of(desk, "b0")).items():
                frames, none, zeros, copied, syncs = look(desk, requests)
                print(f"{kind:15} {frames:>8.1f} {none:>15.1f} {zeros:>7.0f} {copied:>7.0f} {syncs:>6.1f}")
            words = ["ss", "-ltnH", f"sport = :{desk.port}"]
            listening = subprocess.run(words, capture_output=True, text=True, check=True)
            print(f"connections that may wait: {listening.stdout.split()[2]}")
        finally:
            desk.kill()


if __name__ == "__main__":
    main()
