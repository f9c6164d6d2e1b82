#!/usr/bin/python3
"""What an open session costs the gateway agent, of this kit and of an earlier one, which take turns in one run: microseconds of
processor time for each session and poll, with the kernel's sets in a network namespace of its own. Needs root, and the
Debian packages python3-nftables and python3-pyroute2.

    PYTHONPATH=field:field/test agent_cost.py [--sessions N] [--ended N] [--turns N] [--polls N] FIELD ..

FIELD: the folder `field` of a checkout. `git worktree add FOLDER COMMIT` makes one of an earlier commit. --ended: how many
sessions end at each poll, and as many begin.
"""

from __future__ import annotations

import argparse
import http.server
import json
import os
import pathlib
import statistics
import subprocess
import sys
import tempfile
import threading
import time
from typing import Any

RULES = """
add table inet portal
add set inet portal up { type ether_addr; counter; }
add set inet portal listed { type ether_addr; counter; }
add set inet portal alive { type ifname; flags timeout; }
add set inet portal barred { type ifname; }
add set inet portal bound_ready { type ifname; }
add element inet portal bound_ready { "lan0" comment "1 1" }
add table netdev portal
add set netdev portal down { type ether_addr; counter; }
add set netdev portal listed { type ether_addr; counter; }
"""
AGENT = """
import pathlib, sys, time
try:
    from portal_field.gateway.agent import Agent
    from portal_field.gateway.kernel_gate import KernelGate
    from portal_field.lib.desk_client import Desk
except ModuleNotFoundError:     # a kit of before the package portal_field
    from portal_gateway import Agent
    from kernel_gate import KernelGate
    from desk_client import Desk
port, many, polls, folder = int(sys.argv[1]), int(sys.argv[2]), int(sys.argv[3]), pathlib.Path(sys.argv[4])
gate = KernelGate("lan0", 60, "/nowhere")
status, _, fault = gate.nft.cmd(pathlib.Path(sys.argv[5]).read_text())
assert status == 0, fault
agent = Agent(Desk(port, "token"), gate, str(folder / "sessions.json"), 30.0, 600.0)
while len(gate.passing()) < many:
    assert agent.try_poll()
end = time.monotonic() + 1
while time.monotonic() < end:
    assert agent.try_poll()
start = time.process_time()
for _ in range(polls):
    began = time.monotonic()
    assert agent.try_poll()
    time.sleep(max(0.0, 1 - (time.monotonic() - began)))
print((time.process_time() - start) / polls / many * 1e6)
"""


class Sessions:
    """The open sessions of a server that has no other: each of a device, for an hour from now on."""

    def __init__(self, many: int, ended: int) -> None:
        self.many, self.ended, self.first = many, ended, 1
        self.is_full = False        # whether all were let in, so that some may end

    def answer(self) -> dict[str, Any]:
        """The list; from the second one after all were let in on some have ended, and others begun."""
        if self.is_full:
            self.first += self.ended
        left = 3600 - int(time.monotonic()) % 3600
        return {"sessions": [{"device": device(number), "seconds-remaining": left, "session": number}
                             for number in range(self.first, self.first + self.many)]}


def device(number: int) -> str:
    """A MAC address of the session with that number."""
    return "02:" + ":".join(f"{byte:02x}" for byte in number.to_bytes(5, "big"))


class Handler(http.server.BaseHTTPRequestHandler):
    """Answers as the server does."""
    sessions: Sessions

    def reply(self, value: dict[str, Any]) -> None:
        """A JSON answer."""
        text = json.dumps(value, separators=(",", ":")).encode()
        self.send_response(200)
        self.send_header("Content-Length", str(len(text)))
        self.end_headers()
        self.wfile.write(text)

    def do_GET(self) -> None:
        """The list of the open sessions."""
        self.reply(self.sessions.answer())

    def do_POST(self) -> None:
        """A report."""
        order = json.loads(self.rfile.read(int(self.headers["Content-Length"])))
        self.sessions.is_full = self.sessions.is_full or order["session"] >= self.sessions.many
        self.reply({"open": True, "session": order["session"], "used": order["bytes"]})

    def log_message(self, format: str, *args: Any) -> None:
        """Says nothing."""


def measure(field: pathlib.Path, sessions: Sessions, polls: int) -> float:
    """Microseconds of a kit's agent for each session and poll."""
    handler = type("OneHandler", (Handler,), {"sessions": sessions})
    folders = [field.resolve() / name for name in ("", "gateway", "lib")]
    server = http.server.ThreadingHTTPServer(("127.0.0.1", 0), handler)
    threading.Thread(target=server.serve_forever, daemon=True).start()
    with tempfile.TemporaryDirectory() as folder:
        rules = pathlib.Path(folder) / "rules.nft"
        rules.write_text(RULES)
        words = [sys.executable, "-c", AGENT, str(server.server_port), str(sessions.many), str(polls), folder, str(rules)]
        try:
            done = subprocess.run(words, env={**os.environ, "PYTHONPATH": ":".join(map(str, folders))}, check=True,
                                  stdout=subprocess.PIPE, text=True)
        finally:
            server.shutdown()
            subprocess.run(["nft", "flush ruleset"], check=True)
    return float(done.stdout)


def main() -> None:
    """Compares the kits."""
    words = argparse.ArgumentParser(description="Compares what an open session costs the gateway agent.")
    words.add_argument("--sessions", type=int, default=1000)
    words.add_argument("--ended", type=int, default=0, help="sessions that end at each poll, and as many begin")
    words.add_argument("--turns", type=int, default=3)
    words.add_argument("--polls", type=int, default=20)
    words.add_argument("fields", nargs="+", type=pathlib.Path, metavar="FIELD")
    args = words.parse_args()
    if os.environ.get("AGENT_COST_INSIDE") != "1":
        inside = ["unshare", "-n", "sh", "-c", 'ip link set lo up && exec "$@"', "sh", sys.executable, *sys.argv]
        os.execvpe(inside[0], inside, {**os.environ, "AGENT_COST_INSIDE": "1"})
    found: dict[pathlib.Path, list[float]] = {field: [] for field in args.fields}
    for _ in range(args.turns):
        for field in args.fields:
            found[field].append(measure(field, Sessions(args.sessions, args.ended), args.polls))
    for field, costs in found.items():
        print(f"{field}: {args.sessions} sessions, {args.ended} ended a poll: median {statistics.median(costs):.1f} µs a session and "
              f"poll, {min(costs):.1f} to {max(costs):.1f}, {len(costs)} times, load {os.getloadavg()[0]:.0f}", flush=True)


if __name__ == "__main__":
    main()
