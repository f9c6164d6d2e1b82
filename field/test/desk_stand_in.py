#!/usr/bin/python3
"""A stand-in for the desk, for the field kit's tests alone: it answers as the program is to answer.

    desk_stand_in.py serve --db FILE --settings FILE [--port N]
    desk_stand_in.py answer --now N --seed HEX --db FILE --settings FILE < REQUEST
    desk_stand_in.py check --db FILE --settings FILE

It keeps the list of accepted commands in one SQLite table, and everything else in memory, drawn again at each start.
It reads heads with CRLF alone, and knows the zone UTC0 alone. Nothing in it is proved.
"""

from __future__ import annotations

import argparse
import datetime
import email.utils
import json
import pathlib
import re
import secrets
import socket
import sqlite3
import sys
import time
import tomllib
from dataclasses import dataclass
from typing import Any

from desk_model import (ID, Json, Model, No, Plan, found_vouchers, listed_batches, need, print_file,
                        read_code, takings, values_in, with_check_character)

from portal_field.lib.refusals import BY_WORD

NUMBER = re.compile(r"[A-Za-z0-9-]{1,36}")
DEVICE = re.compile(r"[0-9a-f]{2}([:-])[0-9a-f]{2}(\1[0-9a-f]{2}){4}", re.I)
PHRASES = {200: "OK", 400: "Bad Request", 403: "Forbidden", 404: "Not Found", 405: "Method Not Allowed",
           409: "Conflict", 410: "Gone", 413: "Payload Too Large", 501: "Not Implemented", 503: "Service Unavailable"}
ROUTES = {  # path: of each method its caller and kind
    "/captive": {"GET": ("guest", "")}, "/portal/redeem": {"POST": ("guest", "redeem")},
    "/desk/plans": {"POST": ("desk", "plans")},
    "/desk/batches": {"GET": ("desk", ""), "POST": ("desk", "issue")},
    "/desk/batches/{}": {"GET": ("desk", "")}, "/desk/batches/{}/print": {"GET": ("desk", "")},
    "/desk/sales": {"POST": ("desk", "sell")}, "/desk/refunds": {"POST": ("desk", "refund")},
    "/desk/closes": {"POST": ("desk", "close")}, "/desk/vouchers": {"GET": ("desk", "")},
    "/desk/vouchers/{}": {"GET": ("desk", "")}, "/desk/vouchers/{}/redemptions": {"GET": ("desk", "")},
    "/desk/takings": {"GET": ("desk", "")},
    "/gateway/reports": {"POST": ("gateway", "report")}, "/gateway/sessions": {"GET": ("gateway", "")},
    "/desk/sessions": {"GET": ("desk", "")}, "/desk/sessions/{}": {"GET": ("desk", "")},
    "/portal/session": {"GET": ("guest", "")}, "/gateway/sessions/details": {"GET": ("gateway", "")},
}
PATHS = {re.compile(path.replace("{}", "([^/]+)")): path for path in ROUTES}
REQUEST_LINE = re.compile(rb"([!#-'*+.^-`|~0-9A-Za-z-]+) ([!-~\x80-\xff]+) HTTP/1\.([01])")
FIELD_LINE = re.compile(rb"([!#-'*+.^-`|~0-9A-Za-z-]+):[ \t]*([\t -~\x80-\xff]*?)[ \t]*")


@dataclass
class Request:
    """A request whose shape is good."""
    method: str
    target: bytes
    fields: list[tuple[str, str]]
    body: bytes

    @classmethod
    def read(cls, data: bytes) -> Request:
        """A request of these bytes. No: it is malformed."""
        head, end, _ = data[:8192].partition(b"\r\n\r\n")
        first, *lines = head.split(b"\r\n")
        line, found = REQUEST_LINE.fullmatch(first), [FIELD_LINE.fullmatch(text) for text in lines]
        need(bool(end and all(found) and len(found) <= 32), "bad_request")
        if not line:
            raise No("bad_request")
        fields = [(m[1].decode().lower(), m[2].decode("latin-1")) for m in found if m]
        request = cls(line[1].decode(), line[2], fields, b"")
        hosts = len(request.values("host"))
        need(hosts == 1 or hosts == 0 and line[3] == b"0", "bad_request")
        need(not request.values("transfer-encoding"), "not_supported")
        sizes = request.values("content-length") or ["0"]
        need(len(sizes) == 1 and sizes[0].isascii() and sizes[0].isdecimal(), "bad_request")
        need(len(sizes[0].lstrip("0")) <= 5 and int(sizes[0]) <= 65_536, "too_large")
        request.body = data[len(head) + 4:][:int(sizes[0])]
        need(len(request.body) == int(sizes[0]), "bad_request")
        return request

    def values(self, name: str) -> list[str]:
        """The values of all header fields of this name."""
        return [value for key, value in self.fields if key == name]

    @property
    def query(self) -> str:
        """The query, in which nothing is decoded."""
        return self.target.decode("latin-1").partition("?")[2]

    def parameters(self, name: str) -> list[str]:
        """The values of a key of the query."""
        return values_in(self.query, name)


def whole(given: Json, key: str, low: int, high: int) -> int:
    """A number of the request's body, within these limits. No: it is none."""
    need(type(given.get(key)) is int and low <= given[key] <= high, "bad_request")
    return int(given[key])


def text(given: Json, key: str, shape: re.Pattern[str]) -> str:
    """A text of the request's body that has this shape. No: it has not."""
    need(isinstance(given.get(key), str) and shape.fullmatch(given[key]) is not None, "bad_request")
    return str(given[key])


def command(kind: str, body: bytes, device: str) -> Json:
    """The values of the command that a body asks for. No: the body is not what it must be."""
    if kind == "plans":
        try:
            rows = tomllib.loads(body.decode())
        except ValueError:
            raise No("bad_plans") from None
        need(rows.keys() == {"plan"} and isinstance(rows["plan"], list) and 1 <= len(rows["plan"]) <= 500, "bad_plans")
        plans = [Plan.read(row) for row in rows["plan"]]
        need(len({plan.id for plan in plans}) == len(plans), "bad_plans")
        return {"plans": [vars(plan) for plan in plans]}
    try:
        given = json.loads(body.decode())
    except ValueError:
        raise No("bad_request") from None
    need(isinstance(given, dict), "bad_request")
    if kind == "issue":
        count = whole(given, "count", 1, 500)
        codes = [with_check_character([secrets.randbits(32) % 31 for _ in range(15)]) for _ in range(count)]
        return {"batch": text(given, "batch", ID), "plan": text(given, "plan", ID), "codes": codes}
    if kind in ("report", "close"):
        more = {"bytes": whole(given, "bytes", 0, 2**63 - 1)} if kind == "report" else {}
        return {"session": whole(given, "session", 0, 2**63 - 1), **more}
    code = read_code(text(given, "code", re.compile(".*", re.S)))
    return {"code": code, **({"device": device} if kind == "redeem" else {})}


def response(status: int, kind: str, body: bytes, now: int, allow: str = "") -> bytes:
    """A response of HTTP/1.1, with its headers."""
    allowed = f"Allow: {allow}\r\n" if allow else ""
    return (f"HTTP/1.1 {status} {PHRASES[status]}\r\nDate: {email.utils.formatdate(now, usegmt=True)}\r\n"
            f"Content-Type: {kind}\r\nContent-Length: {len(body)}\r\nCache-Control: no-store\r\n{allowed}"
            "Connection: close\r\n\r\n").encode() + body


def compact(value: Json) -> bytes:
    """A value as JSON without blanks, its keys sorted."""
    return json.dumps(value, sort_keys=True, separators=(",", ":")).encode()


class StandIn:
    def __init__(self, db: str, settings: Json) -> None:
        self.settings, self.model = settings, Model()
        self.kept: dict[tuple[str, str | None], tuple[list[Any], Json]] = {}
        self.book = sqlite3.connect(db, isolation_level=None)
        for pragma in ("locking_mode=EXCLUSIVE", "journal_mode=WAL", "synchronous=FULL"):
            self.book.execute("PRAGMA " + pragma)
        self.book.execute("CREATE TABLE IF NOT EXISTS accepted (n INTEGER PRIMARY KEY, at INTEGER, kind, words, mark)")
        # as in the program's database, the batches, and the time of the last entry
        self.book.execute("CREATE VIEW IF NOT EXISTS portal_batches AS SELECT json_extract(words, '$.batch') AS id, "
                          "at AS issued FROM accepted WHERE kind = 'issue'")
        self.book.execute("CREATE TABLE IF NOT EXISTS portal_head AS SELECT 0 AS layout, 0 AS last_moment")
        self.book.execute("CREATE TRIGGER IF NOT EXISTS goes_on AFTER INSERT ON accepted "
                          "BEGIN UPDATE portal_head SET last_moment = NEW.at; END")
        for at, kind, words, mark in self.book.execute("SELECT at, kind, words, mark FROM accepted ORDER BY n"):
            self.keep(json.loads(mark), self.model.act(kind, json.loads(words), at))

    def keep(self, mark: list[Any] | None, answer: Json) -> None:
        """Keeps the answer of a request that has an idempotency key."""
        if mark:
            self.kept[mark[0], mark[1]] = mark[2:], answer

    def respond(self, now: int, data: bytes) -> bytes:
        """The bytes of the response to a request at this moment."""
        allow = ""
        try:
            request = Request.read(data)
            path = request.target.partition(b"?")[0].decode("utf-8", "replace")
            found = [(ROUTES[PATHS[p]], PATHS[p], m.groups()) for p in PATHS if (m := p.fullmatch(path))]
            need(bool(found), "no_route")
            methods, route, part = found[0]
            allow = ", ".join(methods)
            need(request.method in methods, "bad_method")
            allow, (caller, kind) = "", methods[request.method]
            who, number = self.caller(request, caller, kind)
            if kind:
                mark = [number, request.method, path, request.body.hex()]
                words = command(kind, request.body, who)
                answer = self.act(kind, words, max(now, self.model.last), who, mark)
                return response(200, "application/json", compact(answer), now)
            return response(200, *self.answer_to(route, part, request, who, max(now, self.model.last)), now)
        except No as no:
            return response(BY_WORD[str(no)].status, "application/json", compact({"error": str(no)}), now, allow)

    def caller(self, request: Request, caller: str, kind: str) -> tuple[str, str | None]:
        """Who asks, and with which idempotency key."""
        if caller == "guest":
            who = read_device(request.values("portal-device"))
        else:
            need(request.values("portal-token") == [self.settings[caller + "_token"]], "forbidden")
            who = caller
        numbers = request.values("portal-request") if kind else []
        need(len(numbers) <= 1 and all(NUMBER.fullmatch(number) for number in numbers), "bad_request")
        return who, numbers[0] if numbers else None

    def act(self, kind: str, words: Json, at: int, who: str, mark: list[Any]) -> Json:
        """Carries out a command, or gives the kept answer where the key was used for it."""
        number, *what = mark
        if (who, number) in self.kept:
            was, answer = self.kept[who, number]
            need(was == what, "id_reused")
            return answer
        answer = self.model.act(kind, words, at)
        held = [who, number, *what] if number else None
        self.book.execute("INSERT INTO accepted (at, kind, words, mark) VALUES (?, ?, ?, ?)",
                          (at, kind, json.dumps(words), json.dumps(held)))
        self.keep(held, answer)
        return answer

    def answer_to(self, route: str, part: tuple[str, ...], request: Request, who: str, at: int) -> tuple[str, bytes]:
        """The type and the body of the answer to a request for what the desk holds."""
        model = self.model
        if route == "/captive":
            s = model.of_device.get(who)
            result = {"captive": True, "user-portal-url": self.settings["portal_url"]}
            if "venue_url" in self.settings:
                result["venue-info-url"] = self.settings["venue_url"]
            if s and s.is_open(at):
                result |= {"captive": False, "can-extend-session": s.plan.extend, **s.remaining(at)}
            return "application/captive+json", compact(result)
        if "/session" in route:
            return "application/json", compact(self.answer_of_sessions(route, part, request, who, at))
        if route == "/desk/vouchers/{}":
            return "application/json", compact(model.voucher_details(read_code(part[0])))
        if route == "/desk/vouchers/{}/redemptions":
            return "application/json", compact(model.redemptions_of(read_code(part[0]), at))
        if route == "/desk/vouchers":
            return "application/json", compact(found_vouchers(model, request.query))
        if route == "/desk/batches":
            return "application/json", compact(listed_batches(model, request.query))
        if route == "/desk/batches/{}":
            return "application/json", compact(model.batch_details(part[0]))
        if route == "/desk/batches/{}/print":
            return "text/csv; charset=utf-8", print_file(model, part[0]).encode()
        days = [[read_day(value) for value in request.parameters(name)] for name in ("from", "to")]
        need(all(len(found) == 1 for found in days), "bad_request")
        (first,), (last,) = days
        need(0 <= (last - first).days <= 365, "bad_request")
        return "text/plain; charset=utf-8", takings(model, first, last).encode()

    def answer_of_sessions(self, route: str, part: tuple[str, ...], request: Request, who: str, at: int) -> Json:
        """The answer to a question about sessions, open or ended."""
        model = self.model
        if route == "/gateway/sessions":
            return {"sessions": [s.entry(at) for s in model.open_sessions(at)]}
        if route == "/gateway/sessions/details":
            return {"sessions": [s.entry_with_terms(at) for s in model.open_sessions(at)]}
        if route == "/portal/session":
            return model.own_details(who, at)
        if route == "/desk/sessions":
            return model.last_session(read_device(request.parameters("device"))).details(at)
        return model.session(read_number(part[0])).details(at)


def read_device(texts: list[str]) -> str:
    """The device that one text spells, as it is printed. No: it spells none, or there is not exactly one."""
    need(len(texts) == 1 and DEVICE.fullmatch(texts[0]) is not None, "bad_device")
    return texts[0].lower().replace("-", ":")


def read_number(text: str) -> int:
    """The number of a session in a path. No: it is none."""
    digits = text.lstrip("0") or "0"
    need(re.fullmatch("[0-9]+", text) is not None and len(digits) <= 19 and int(digits) <= 2**63 - 1, "bad_request")
    return int(digits)


def read_day(text: str) -> datetime.date:
    """A day of a query. No: it is none."""
    need(re.fullmatch(r"\d{4}-\d\d-\d\d", text, re.A) is not None, "bad_request")
    try:
        return datetime.date.fromisoformat(text)
    except ValueError:
        raise No("bad_request") from None


def receive(link: socket.socket) -> bytes:
    """The bytes of a request: until the head and as many bytes as it declares are there, or the input
    ends."""
    data = b""
    while len(data) < 73_728:
        head, end, body = data.partition(b"\r\n\r\n")
        size = re.search(rb"(?i)\r\ncontent-length:[ \t]*(\d{1,5})[ \t]*(\r|$)", head)
        if end and len(body) >= (int(size[1]) if size else 0) or not end and len(data) > 8192:
            break
        piece = link.recv(4096)
        if not piece:
            break
        data += piece
    return data


def serve(desk: StandIn, port: int) -> None:
    """Serves one connection at a time, as the desk does it, with no time limit."""
    with socket.create_server(("127.0.0.1", port), backlog=128) as door:
        print(f"listening 127.0.0.1:{port}", flush=True)
        while True:
            link, _ = door.accept()
            with link:
                try:
                    link.sendall(desk.respond(int(time.time()), receive(link)))
                except OSError:
                    print("portal: cut", file=sys.stderr, flush=True)


def main() -> int:
    """Serves, answers one request, checks the database or prints takings, with the words of the program's command line."""
    words = argparse.ArgumentParser()
    words.add_argument("what", choices=("serve", "answer", "check", "takings"))
    words.add_argument("days", nargs="*", type=datetime.date.fromisoformat, help="of `takings`: the first and the last")
    words.add_argument("--db", required=True)
    words.add_argument("--settings", required=True, type=pathlib.Path)
    words.add_argument("--port", type=int, default=8080)
    words.add_argument("--now", type=int, help="of `answer`: the time of the request")
    words.add_argument("--seed", help="of `answer`; the stand-in draws its codes without it")
    args = words.parse_args()
    try:
        desk = StandIn(args.db, tomllib.loads(args.settings.read_text()))
    except (No, sqlite3.Error):
        print("portal: file", file=sys.stderr)
        return 3
    if args.what == "answer":
        said = desk.respond(args.now, sys.stdin.buffer.read())
        sys.stdout.buffer.write(said)
        return int(not said.startswith(b"HTTP/1.1 200 "))
    if args.what != "serve":
        sys.stdout.write("ok\n" if args.what == "check" else takings(desk.model, *args.days))
        return 0
    try:
        serve(desk, args.port)
    except sqlite3.Error:
        print("portal: stopped", file=sys.stderr)
    return 3


if __name__ == "__main__":
    sys.exit(main())
