"""The one client of the desk: one request, one connection, one answer, all within a time limit."""

from __future__ import annotations

import http.client
import json
import os
import pathlib
import re
import secrets
import tomllib
import urllib.parse
from dataclasses import dataclass
from enum import Enum
from typing import Any


@dataclass(frozen=True)
class Route:
    """A request of the API: its method, its path and who may send it."""
    method: str
    path: str
    caller: str             # guest, desk or gateway
    acts: bool = False      # a command: it may carry an idempotency key, and then it takes effect once


class Routes(Route, Enum):
    """All routes of the desk. `{}` stands for the one parameter of a path. One path has two methods."""
    CAPTIVE = "GET", "/captive", "guest"
    REDEEM = "POST", "/portal/redeem", "guest", True
    OWN_SESSION = "GET", "/portal/session", "guest"
    PLANS = "POST", "/desk/plans", "desk", True
    ISSUE = "POST", "/desk/batches", "desk", True
    BATCH_LIST = "GET", "/desk/batches", "desk"
    BATCH = "GET", "/desk/batches/{}", "desk"
    PRINT = "GET", "/desk/batches/{}/print", "desk"
    SELL = "POST", "/desk/sales", "desk", True
    REFUND = "POST", "/desk/refunds", "desk", True
    CLOSE = "POST", "/desk/closes", "desk", True
    VOUCHERS = "GET", "/desk/vouchers", "desk"
    VOUCHER = "GET", "/desk/vouchers/{}", "desk"
    REDEMPTIONS = "GET", "/desk/vouchers/{}/redemptions", "desk"
    LAST_SESSION = "GET", "/desk/sessions", "desk"
    SESSION = "GET", "/desk/sessions/{}", "desk"
    TAKINGS = "GET", "/desk/takings", "desk"
    REPORT = "POST", "/gateway/reports", "gateway", True
    SESSIONS = "GET", "/gateway/sessions", "gateway"
    SESSION_DETAILS = "GET", "/gateway/sessions/details", "gateway"


class NoAnswer(Exception):
    """The desk did not answer whole and in time. A command may have been carried out or not."""


class Refused(Exception):
    """The desk answered with a refusal; `word` is its word."""

    def __init__(self, status: int, word: str) -> None:
        super().__init__(word)
        self.status, self.word = status, word

    @property
    def in_doubt(self) -> bool:
        """Whether the command may have been kept all the same."""
        return self.word == "stopped"


REQUEST_NUMBER = re.compile(r"[A-Za-z0-9-]{1,36}")


def new_number() -> str:
    """An idempotency key that nobody drew before: 128 random bits."""
    return secrets.token_hex(16)


@dataclass
class Desk:
    """The server on loopback, for one caller."""
    port: int = 8080
    token: str | None = None
    timeout: float = 5.0

    def request(self, route: Route, *part: str, query: dict[str, str] | None = None, body: Any = None,
                device: str | None = None, number: str | None = None) -> bytes:
        """The bytes of a 200 answer. `body`: bytes as they stand, or a value that is sent as JSON."""
        headers = {"Portal-Token": self.token, "Portal-Device": device, "Portal-Request": number}
        path = route.path.format(*(urllib.parse.quote(word, safe="") for word in part))
        if query:
            path += "?" + urllib.parse.urlencode(query, safe=":")       # the desk decodes no query
        if body is not None and not isinstance(body, bytes):
            body = json.dumps(body).encode()
        status, text = self.exchange(route.method, path, body, {k: v for k, v in headers.items() if v})
        if status == 200:
            return text
        try:
            word = json.loads(text)["error"]
        except (ValueError, KeyError, TypeError):
            raise NoAnswer(f"answer {status} that the desk does not give") from None
        raise Refused(status, str(word))

    def exchange(self, method: str, path: str, body: bytes | None,
                 headers: dict[str, str]) -> tuple[int, bytes]:
        """Sends one request; status, type and bytes of the answer. http.client refuses line ends in fields
        and targets, and never sends a request twice."""
        link = http.client.HTTPConnection("127.0.0.1", self.port, timeout=self.timeout)
        try:
            link.request(method, path, body, headers)
            answer = link.getresponse()
            return answer.status, answer.read()
        except (OSError, http.client.HTTPException) as fault:
            raise NoAnswer(str(fault) or type(fault).__name__) from fault
        finally:
            link.close()

    def request_json(self, route: Route, *part: str, **more: Any) -> dict[str, Any]:
        """A JSON answer. What is no JSON object is no answer of the desk."""
        text = self.request(route, *part, **more)
        try:
            reply = json.loads(text)
        except ValueError as fault:
            raise NoAnswer("an answer that is no JSON") from fault
        if not isinstance(reply, dict):
            raise NoAnswer("an answer that is no JSON object")
        return reply


def settings(default: str) -> dict[str, Any]:
    """The settings in the TOML file that FIELD_SETTINGS names, or else in the one at the default path."""
    return tomllib.loads(pathlib.Path(os.environ.get("FIELD_SETTINGS", default)).read_text())


def credential(name: str) -> str:
    """A secret that systemd gives by LoadCredential=; it is never in arguments or environment."""
    return (pathlib.Path(os.environ["CREDENTIALS_DIRECTORY"]) / name).read_text().strip()
