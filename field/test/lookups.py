"""The device look-up as a guest's phone meets it; each runs within a guest's namespace.

    lookups.py ask CA COUNT         times GET /captive over one TLS connection: milliseconds, sorted, one a line
    lookups.py many CA COUNT        the same over so many connections at once, for ten seconds
    lookups.py idle CA COUNT        opens so many connections that say nothing, prints so, and holds them until its input ends
"""

from __future__ import annotations

import http.client
import multiprocessing
import resource
import socket
import ssl
import sys
import threading
import time

GATEWAY, NAME = "10.77.0.1", "wifi.example"
SECONDS, PROCESSES = 10.0, 4


class Link(http.client.HTTPSConnection):
    """A connection to the portal's name at the gateway's address."""

    def __init__(self, authority: str) -> None:
        self.trusted = ssl.create_default_context(cafile=authority)
        super().__init__(NAME, context=self.trusted)

    def connect(self) -> None:
        self.sock = self.trusted.wrap_socket(socket.create_connection((GATEWAY, 443), 10), server_hostname=NAME)


def time_one(link: Link) -> float:
    """Milliseconds to the answer of one question."""
    start = time.perf_counter()
    link.request("GET", "/captive")
    answer = link.getresponse()
    if answer.status != 200 or b"captive" not in answer.read():
        sys.exit(f"answer {answer.status}")
    return (time.perf_counter() - start) * 1e3


def ask(authority: str, count: int) -> None:
    link = Link(authority)
    print("\n".join(f"{ms:.3f}" for ms in sorted(time_one(link) for _ in range(count))))


def some(authority: str, count: int) -> list[float]:
    """Milliseconds to each answer within SECONDS, over so many connections at once."""
    times: list[float] = []
    end = time.perf_counter() + SECONDS

    def one() -> None:
        link = Link(authority)
        while time.perf_counter() < end:
            times.append(time_one(link))

    threads = [threading.Thread(target=one) for _ in range(count)]
    for thread in threads:
        thread.start()
    for thread in threads:
        thread.join()
    return times


def many(authority: str, count: int) -> None:
    with multiprocessing.Pool(PROCESSES) as pool:
        lists = pool.starmap(some, [(authority, count // PROCESSES)] * PROCESSES)
    print("\n".join(f"{ms:.3f}" for ms in sorted(sum(lists, []))))


def idle(_: str, count: int) -> None:
    resource.setrlimit(resource.RLIMIT_NOFILE, (count + 100, count + 100))
    links = [socket.create_connection((GATEWAY, 443), 10) for _ in range(count)]
    print(len(links), flush=True)
    sys.stdin.read()


if __name__ == "__main__":
    {"ask": ask, "many": many, "idle": idle}[sys.argv[1]](sys.argv[2], int(sys.argv[3]))
