"""The desk as a process of a test's own, on a free port of loopback, over a file in a folder that goes with it."""

from __future__ import annotations

import contextlib
import os
import pathlib
import secrets
import shlex
import socket
import subprocess
import sys
import tempfile
import threading
import time
from typing import Any

from portal_field.lib.desk_client import Desk, NoAnswer, Refused, Routes

FIELD = pathlib.Path(__file__).resolve().parent.parent
# FIELD_PORTAL names the program; else it is the stand-in, and then a test says nothing of the program.
PORTAL = os.environ.get("FIELD_PORTAL") or f"{sys.executable} {FIELD / 'test/desk_stand_in.py'}"
SETTINGS = ('zone = "UTC0"\nportal_url = "https://wifi.example/portal"\n'
            'desk_token = "desk-token"\ngateway_token = "gate-token"\n')
PLANS = (FIELD / "settings/plans.toml").read_bytes()
PORTS = range(20_000, 32_768)       # below those that the kernel gives to connections


def free_port() -> int:
    """A port of loopback that nothing has now. Neither a connection nor, but by chance, another test takes it meanwhile."""
    while True:
        port = secrets.choice(PORTS)
        with contextlib.suppress(OSError), socket.create_server(("127.0.0.1", port)):
            return port


class DeskProcess:
    def __init__(self, book: pathlib.Path | None = None, portal: str = PORTAL) -> None:
        self.portal = shlex.split(portal)
        self.place = tempfile.TemporaryDirectory()
        self.folder = pathlib.Path(self.place.name)
        self.book = book or self.folder / "book.db"
        self.settings = self.folder / "settings.toml"
        self.settings.write_text(SETTINGS)
        self.port = free_port()
        self.desk, self.gateway = Desk(self.port, "desk-token"), Desk(self.port, "gate-token")

    def __enter__(self) -> DeskProcess:
        words = [*self.portal, "serve", "--port", str(self.port), "--db", str(self.book),
                 "--settings", str(self.settings)]
        self.job = subprocess.Popen(words, stdout=subprocess.DEVNULL)
        for _ in range(600):
            try:
                self.gateway.request_json(Routes.SESSIONS)
                return self
            except NoAnswer:
                time.sleep(0.05)
        self.__exit__()
        raise TimeoutError("the desk does not answer")

    def __exit__(self, *_: object) -> None:
        self.job.kill()
        self.job.wait()
        self.place.cleanup()

    def load(self) -> None:
        """Loads the plans of the settings."""
        self.desk.request_json(Routes.PLANS, body=PLANS)

    def issue_codes(self, plan: str, batch: str, count: int = 1) -> list[str]:
        """Issues a new batch. Its codes, as the print file has them."""
        self.desk.request_json(Routes.ISSUE, body={"batch": batch, "plan": plan, "count": count})
        lines = self.desk.request(Routes.PRINT, batch).decode().splitlines()[1:]
        return [line.partition(",")[0] for line in lines]

    def sell_codes(self, plan: str, batch: str, count: int = 1) -> list[str]:
        """Issues a new batch and sells each of its codes. The codes."""
        codes = self.issue_codes(plan, batch, count)
        for code in codes:
            self.desk.request_json(Routes.SELL, body={"code": code})
        return codes

    def voucher(self, code: str) -> dict[str, Any]:
        """What the desk says of a voucher."""
        return self.desk.request_json(Routes.VOUCHER, code)


class Relay:
    """Hands requests on to the desk, one at a time. `cuts`: the answer is lost on its way; `drops`: the request is."""

    def __init__(self, port: int) -> None:
        self.goal, self.cuts, self.drops = port, False, False
        self.door = socket.create_server(("127.0.0.1", 0))
        self.port = self.door.getsockname()[1]
        threading.Thread(target=self.work, daemon=True).start()

    def work(self) -> None:
        """Hands requests on, one after another, until the socket is closed."""
        while True:
            try:
                link, _ = self.door.accept()
            except OSError:
                return
            with link, contextlib.suppress(OSError):        # of a desk that was killed, too
                request = self.whole(link)
                if self.drops or not request:
                    continue
                with socket.create_connection(("127.0.0.1", self.goal)) as far:
                    far.sendall(request)
                    answer = b"".join(iter(lambda: far.recv(65536), b""))
                if not self.cuts:
                    link.sendall(answer)

    def whole(self, link: socket.socket) -> bytes:
        """The bytes of a request, once its head and its whole body are there; nothing where it ended before."""
        data = b""
        while True:
            head, end, body = data.partition(b"\r\n\r\n")
            sizes = [line for line in head.lower().split(b"\r\n") if line.startswith(b"content-length:")]
            if end and len(body) >= int(sizes[0].split(b":")[1] if sizes else 0):
                return data
            piece = link.recv(65536)
            if not piece:
                return b""
            data += piece

    def close(self) -> None:
        """Stops listening."""
        self.door.close()


__all__ = ["FIELD", "Desk", "DeskProcess", "NoAnswer", "Refused", "Relay", "Routes", "PLANS", "PORTAL"]
