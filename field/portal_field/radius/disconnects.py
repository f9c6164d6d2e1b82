"""Disconnect-Requests and CoA-Requests (RFC 5176) to the access servers, by FreeRADIUS's radclient, which
signs each with a Message-Authenticator. (pyrad 2.1, which Debian 12 has, neither sends nor checks one.)

Nobody waits for radclient: an access server that does not answer holds up no other one. Whether a request
worked is seen by the Stop that comes.
"""

from __future__ import annotations

import ipaddress
import pathlib
import re
import sqlite3
import subprocess
import sys
import tempfile
import time
from collections.abc import Iterable
from dataclasses import dataclass
from typing import Any

Row = sqlite3.Row
Pairs = list[tuple[str, object]]
TRIES = 6               # after 1, 2, 4, .. 32 s
LONGEST = 60.0          # seconds that radclient may take for all packets to one access server
QUOTED = re.compile(r"=([0-9A-F]{2})")


def complain(text: str) -> None:
    """Writes a fault into the journal of the service."""
    print("portal-radius-agent:", text, file=sys.stderr, flush=True)


@dataclass(frozen=True)
class Server:
    """An access server, or a network of them, as the settings have it. `port` 0: it takes no such
    requests."""
    name: str
    network: ipaddress.IPv4Network
    port: int
    extend_by_coa: bool

    @classmethod
    def all(cls, conf: dict[str, Any]) -> list[Server]:
        """The access servers of the settings."""
        return [cls(name, ipaddress.IPv4Network(lines["address"]), lines["disconnect_port"],
                    lines["extend_by_coa"])
                for name, lines in conf["nas"].items()]


def server_at(servers: list[Server], address: str) -> Server | None:
    """The access server of an address; None where there is none."""
    return next((server for server in servers if ipaddress.IPv4Address(address) in server.network), None)


def plain(text: str) -> str:
    """A value as it came in the packet: rlm_sql writes signs that are not safe as =XX."""
    return QUOTED.sub(lambda found: chr(int(found[1], 16)), str(text))


def line(name: str, value: object) -> str:
    """An attribute as radclient reads it."""
    text = "".join(f"\\{sign}" if sign in '"\\' else sign for sign in plain(str(value)) if sign.isprintable())
    return f'{name} = "{text}"\n'


def packet(row: Row, more: Pairs) -> str:
    """A request's attributes, of which the first name the session to the access server (RFC 5176 section
    3)."""
    attributes: Pairs = [("Acct-Session-Id", row["acctsessionid"]), ("User-Name", row["username"]),
                         ("Calling-Station-Id", row["callingstationid"]),
                         ("Framed-IP-Address", row["framedipaddress"])]
    return "".join(line(name, value) for name, value in attributes + more
                   if value != "") + "Message-Authenticator = 0x00\n"


class Requests:
    """`secrets`: the folder that has a file `radius_NAME` for each access server."""

    def __init__(self, servers: list[Server], secrets: pathlib.Path) -> None:
        self.servers, self.secrets = servers, secrets
        self.tries: dict[str, tuple[int, float]] = {}
        self.running: list[tuple[subprocess.Popen[bytes], float]] = []
        self.unknown: set[str] = set()

    def server_at(self, address: str) -> Server | None:
        """The access server of an address; where an address is unknown, None and a complaint, once."""
        server = server_at(self.servers, address)
        if server is None and address not in self.unknown:
            self.unknown.add(address)
            complain(f"no access server of the settings has the address {address}: its sessions cannot be "
                     f"ended")
        return server

    def is_time(self, uid: str) -> bool:
        """Whether a request may be sent now: some times in all, and each later than the one before."""
        count, when = self.tries.get(uid, (0, 0.0))
        if count >= TRIES or time.monotonic() < when:
            return False
        self.tries[uid] = (count + 1, time.monotonic() + 2 ** count)
        return True

    def end(self, rows: list[Row]) -> None:
        """Sends Disconnect-Requests for these accounting sessions, each again after a while, TRIES times in
        all."""
        self.send("disconnect", [(row, []) for row in rows if self.is_time(row["uid"])])
        here = {row["uid"] for row in rows}
        self.tries = {uid: tries for uid, tries in self.tries.items() if uid in here}

    def send(self, what: str, wanted: Iterable[tuple[Row, Pairs]]) -> None:
        """Sends these requests: one radclient for each access server, with all its packets."""
        packets: dict[str, list[str]] = {}
        for row, more in wanted:
            packets.setdefault(row["nasipaddress"], []).append(packet(row, more))
        for address, texts in packets.items():
            server = self.server_at(address)
            if server and server.port:
                self.start(server, address, what, "\n".join(texts))
        self.reap()

    def start(self, server: Server, address: str, what: str, text: str) -> None:
        """Sends a request by radclient, and does not wait for its answer."""
        with tempfile.TemporaryFile() as file:
            file.write(text.encode())
            file.seek(0)
            words = ["radclient", "-q", "-r", "1", "-t", "1", "-p", "20", "-S",
                     str(self.secrets / f"radius_{server.name}"), f"{address}:{server.port}", what]
            job = subprocess.Popen(words, stdin=file, stdout=subprocess.DEVNULL, stderr=subprocess.DEVNULL)
        self.running.append((job, time.monotonic() + LONGEST))

    def reap(self) -> None:
        """Ends what runs for too long, and forgets what has ended."""
        for job, until in self.running:
            if job.poll() is None and time.monotonic() > until:
                job.kill()
                job.wait()
        self.running = [(job, until) for job, until in self.running if job.poll() is None]
