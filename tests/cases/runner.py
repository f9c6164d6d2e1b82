"""Runs a case with the built program: files in a folder of their own, and a process for each request, or a server."""

from __future__ import annotations

import difflib
import re
import socket
import sqlite3
import subprocess
import tempfile
import threading
import time
from contextlib import closing
from datetime import datetime, timedelta, timezone
from pathlib import Path

from reader import Answer, Ask, Call, Case, File, Serve, Sql, Step

SECONDS = 60
PHRASES = {
    200: "OK",
    400: "Bad Request",
    403: "Forbidden",
    404: "Not Found",
    405: "Method Not Allowed",
    409: "Conflict",
    410: "Gone",
    413: "Payload Too Large",
    501: "Not Implemented",
    503: "Service Unavailable",
}
GET_PATHS = ("/captive", "/portal/session", "/desk/batches/{}", "/desk/batches/{}/print", "/desk/vouchers", "/desk/vouchers/{}",
             "/desk/vouchers/{}/redemptions", "/desk/takings", "/desk/sessions", "/desk/sessions/{}", "/gateway/sessions", "/gateway/sessions/details")
DAYS = ("Mon", "Tue", "Wed", "Thu", "Fri", "Sat", "Sun")
MONTHS = ("Jan", "Feb", "Mar", "Apr", "May", "Jun", "Jul", "Aug", "Sep", "Oct", "Nov", "Dec")
MASKED = b"Date: (the clock's)"


class Differs(Exception):
    """What came is not what a step expects."""

    def __init__(self, wanted: list[str], came: list[str]) -> None:
        super().__init__("differs")
        self.lines = list(difflib.unified_diff(wanted, came, "expected", "came", lineterm="", n=20))


def path_of(sent: bytes) -> str:
    words = sent.lstrip(b"\r\n").split(b" ")
    return words[1].split(b"?")[0].decode("utf-8", "replace") if len(words) > 1 else ""


def has_path(path: str, route: str) -> bool:
    return re.fullmatch(route.replace("{}", "[^/]+"), path) is not None


def kind_of(status: int, path: str) -> str:
    """The media type of a response."""
    if status == 200 and path == "/captive":
        return "application/captive+json"
    if status == 200 and has_path(path, "/desk/batches/{}/print"):
        return "text/csv; charset=utf-8"
    if status == 200 and path == "/desk/takings":
        return "text/plain; charset=utf-8"
    return "application/json"


def date_line(now: int) -> bytes:
    moment = datetime(1970, 1, 1, tzinfo=timezone.utc) + timedelta(seconds=now)
    day = f"{DAYS[moment.weekday()]}, {moment.day:02} {MONTHS[moment.month - 1]} {moment.year:04}"
    return f"Date: {day} {moment:%H:%M:%S} GMT".encode()


def response(ask: Ask) -> bytes:
    """All bytes of the expected response: the status and the body of the case, and the fields by rule."""
    wanted: Answer = ask.wanted
    if wanted.whole is not None:
        return wanted.whole
    path = path_of(ask.sent)
    lines = [
        f"HTTP/1.1 {wanted.status} {PHRASES.get(wanted.status, '?')}".encode(),
        MASKED if ask.now is None else date_line(ask.now),
        f"Content-Type: {kind_of(wanted.status, path)}".encode(),
        f"Content-Length: {len(wanted.body)}".encode(),
        b"Cache-Control: no-store",
    ]
    if wanted.status == 405 and path == "/desk/batches":
        lines.append(b"Allow: GET, POST")
    elif wanted.status == 405:
        lines.append(b"Allow: GET" if any(has_path(path, route) for route in GET_PATHS) else b"Allow: POST")
    return b"\r\n".join([*lines, b"Connection: close", b"", wanted.body])


def shown(data: bytes) -> list[str]:
    """Bytes as lines. The end of a line of a head is not shown, all else that is no text is."""
    head, gap, body = data.partition(b"\r\n\r\n")
    lines = head.split(b"\r\n") + ([b"", *body.split(b"\n")] if gap else [])
    return [text_of(line) for line in lines]


def text_of(data: bytes) -> str:
    return data.decode("utf-8", "backslashreplace").replace("\r", "\\r").replace("\t", "\\t")


def compare(wanted: list[str], came: list[str]) -> None:
    if wanted != came:
        raise Differs(wanted, came)


def compare_bytes(wanted: bytes, came: bytes, wanted_end: list[str], came_end: list[str]) -> None:
    """Bytes as lines, and the lines that follow them."""
    compare([*shown(wanted), *wanted_end], [*shown(came), *came_end])
    if wanted != came:
        raise Differs([repr(wanted)], [repr(came)])


def outcome(done: subprocess.CompletedProcess[bytes], output: list[str]) -> list[str]:
    """The exit code of a process, its output and its errors."""
    return [f"exit {done.returncode}", *output, *(f"! {line}" for line in lines_of(done.stderr))]


class Server:
    """`portal serve` over the files of the case, on a port that was free."""

    def __init__(self, program: str, folder: Path, count: int | None) -> None:
        self.errors, self.count = folder / "errors-of-serve", count
        for _ in range(5):
            self.process, self.port, line = self.start(program, folder)
            if line == f"listening 127.0.0.1:{self.port}\n":
                return
            self.end()
        raise Differs(["listening 127.0.0.1:PORT"], [line.rstrip("\n"), *lines_of(self.errors.read_bytes())])

    def start(self, program: str, folder: Path) -> tuple[subprocess.Popen[str], int, str]:
        with socket.socket() as free:
            free.bind(("127.0.0.1", 0))
            port = int(free.getsockname()[1])
        words = [program, "serve", "--db", "portal.db", "--settings", "settings.toml", "--port", str(port)]
        if self.count is not None:
            words += ["--count", str(self.count)]
        with open(self.errors, "w", encoding="utf-8") as errors:
            process = subprocess.Popen(words, cwd=folder, stdout=subprocess.PIPE, stderr=errors, text=True)
        assert process.stdout is not None
        too_late = threading.Timer(SECONDS, process.kill)
        too_late.start()
        line = process.stdout.readline()
        too_late.cancel()
        return process, port, line

    def ask(self, sent: bytes) -> bytes:
        """The response, its Date masked where it is the clock's."""
        before = time.time()
        with socket.create_connection(("127.0.0.1", self.port), timeout=SECONDS) as peer:
            peer.sendall(sent)
            peer.shutdown(socket.SHUT_WR)
            came = b"".join(iter(lambda: peer.recv(65536), b""))
        for now in range(int(before), int(time.time()) + 1):
            came = came.replace(b"\r\n" + date_line(now) + b"\r\n", b"\r\n" + MASKED + b"\r\n", 1)
        return came

    def code(self) -> int:
        """The exit code of a server that ends by itself."""
        return self.process.wait(SECONDS)

    def end(self) -> None:
        self.process.kill()
        self.process.wait()
        if self.process.stdout:
            self.process.stdout.close()


class Run:
    """A case in its folder."""

    def __init__(self, program: str, case: Case, folder: Path) -> None:
        self.program, self.case, self.folder = program, case, folder
        self.server: Server | None = None
        (folder / "settings.toml").write_text(case.settings, encoding="utf-8")

    def load_plans(self) -> None:
        """The plans of the case, loaded at the moment 0."""
        if self.case.plans is None:
            return
        body = self.case.plans.encode()
        fields = f"Host: api\r\nPortal-Token: {self.token()}\r\nContent-Length: {len(body)}\r\n"
        head = f"POST /desk/plans HTTP/1.1\r\n{fields}\r\n"
        count = self.case.plans.count("[[plan]]")
        wanted = Answer(200, b'{"plans":%d}' % count)
        self.ask(Ask(1, [], 0, "00" * 32, head.encode() + body, wanted))

    def token(self) -> str:
        match = re.search(r'^desk_token = "(.*)"$', self.case.settings, re.M)
        return match[1] if match else ""

    def do(self, step: Step) -> None:
        if isinstance(step, Ask):
            self.ask(step)
        elif isinstance(step, Call):
            self.call(step)
        elif isinstance(step, Sql):
            self.sql(step)
        elif isinstance(step, File):
            (self.folder / step.name).write_text(step.text, encoding="utf-8")
        elif isinstance(step, Serve):
            self.serve(step)

    def process(self, words: list[str], sent: bytes) -> subprocess.CompletedProcess[bytes]:
        return subprocess.run(
            [self.program, *words], cwd=self.folder, input=sent, capture_output=True, timeout=SECONDS, check=False
        )

    def ask(self, ask: Ask) -> None:
        wanted = response(ask)
        if self.server is not None and ask.now is None:
            compare_bytes(wanted, self.server.ask(ask.sent), [], [])
            return
        files = [] if self.case.in_memory else ["--db", "portal.db", "--settings", "settings.toml"]
        done = self.process(["answer", "--now", str(ask.now), "--seed", ask.seed, *files], ask.sent)
        code = 0 if wanted.startswith(b"HTTP/1.1 200 ") else 1
        compare_bytes(wanted, done.stdout, [f"exit {code}"], outcome(done, []))

    def call(self, call: Call) -> None:
        before = {name: self.bytes_in(name) for name in call.same}
        done = self.process(call.words, b"")
        output, errors = lines_of(done.stdout), cover(call.errors, lines_of(done.stderr))
        wanted = [f"exit {call.code}", *cover(call.output, output), *(f"! {line}" for line in errors)]
        changed = [f"{name} has changed" for name, data in before.items() if self.bytes_in(name) != data]
        compare(wanted, [*outcome(done, output), *changed])

    def bytes_in(self, name: str) -> bytes | None:
        path = self.folder / name
        return path.read_bytes() if path.exists() else None

    def sql(self, sql: Sql) -> None:
        try:
            with closing(sqlite3.connect(self.folder / "portal.db", isolation_level=None)) as db:
                if sql.rows is None:
                    db.executescript(sql.text)
                    return
                rows = ["|".join(value_text(value) for value in row) for row in db.execute(sql.text)]
        except sqlite3.Error as fault:
            raise Differs(sql.rows or ["a change"], [f"{type(fault).__name__}: {fault}"]) from fault
        compare(sql.rows, rows)

    def serve(self, step: Serve) -> None:
        if step.starts:
            self.server = Server(self.program, self.folder, step.count)
        elif self.server is not None:
            if self.server.count is not None:
                compare(["exit 0"], [f"exit {self.server.code()}"])
            self.server.end()
            compare([], lines_of(self.server.errors.read_bytes()))
            self.server = None


def lines_of(data: bytes) -> list[str]:
    """Output as lines; one that does not end is shown so."""
    lines = text_of(data).split("\n")
    return lines[:-1] if lines[-1] == "" else [*lines[:-1], lines[-1] + " (no end of line)"]


def cover(wanted: list[str], came: list[str]) -> list[str]:
    """Lines of three dots stand for one line or more, whatever they say; words behind the dots stand in one of them."""
    words = [line[4:] for line in wanted if line == "..." or line.startswith("... ")]
    is_covered = len(words) == len(wanted) > 0 and all(any(word in line for line in came) for word in words)
    return came if is_covered else wanted


def value_text(value: object) -> str:
    if value is None:
        return "null"
    return f"x'{value.hex()}'" if isinstance(value, bytes) else str(value)


def fault_text(case: Case, path: Path, step: Step | None, lines: list[str]) -> str:
    """A failure as it is printed: the case, the step as it stands in the file, and the difference."""
    line = step.line if step else 1
    head = [f"FAILED {path}:{line}", f"  {case.sentence}"]
    text = step.shown if step else ["the plans, loaded at 0 by the desk"]
    rows = [row if len(row) < 2000 else row[:2000] + " .." for row in [*text[:40], *lines]]
    return "\n".join([*head, *("    " + row for row in rows)])


def failure_of(program: str, path: Path, case: Case) -> str | None:
    """What is wrong with the first step that fails."""
    step: Step | None = None
    with tempfile.TemporaryDirectory(prefix="portal-case-") as folder:
        run = Run(program, case, Path(folder))
        try:
            run.load_plans()
            for step in case.steps:
                run.do(step)
        except Differs as fault:
            return fault_text(case, path, step, fault.lines)
        except (OSError, subprocess.TimeoutExpired) as fault:
            return fault_text(case, path, step, [f"{type(fault).__name__}: {fault}"])
        finally:
            if run.server is not None:
                run.server.end()
    return None
