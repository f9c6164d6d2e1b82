"""Histories drawn at random: what the desk answers to each command, and to each question about sessions,
batches and vouchers, is what the model says.

    [FIELD_PORTAL=PROGRAM] [FIELD_QUESTIONS=batches] python3 -m unittest test_histories

FIELD_QUESTIONS names the questions that are asked, `sessions` or `batches` (with those about vouchers by the
first characters of their codes, and about redemptions); without it both are.
Of the program that FIELD_PORTAL names there are 300 histories over one server, 300 by a process for each request, and 300 over
servers that are killed; of the stand-in, whose answers are the model's, there are a few.
"""

from __future__ import annotations

import copy
import datetime
import email.utils
import http.client
import itertools
import json
import os
import pathlib
import random
import re
import shlex
import subprocess
import tempfile
import threading
import time
import unittest
from collections import Counter
from concurrent import futures
from typing import Any, Protocol

from desk_model import SIGNS, Json, Model, No, found_vouchers, in_groups, listed_batches, read_code
from desk_process import PORTAL, SETTINGS, DeskProcess, NoAnswer, Routes
from fast_clock import FastClock
from needs import lacks

from portal_field.lib.desk_client import Route, new_number
from portal_field.lib.refusals import BY_WORD

BY_SERVER, BY_PROCESSES, BY_KILLS = (300, 300, 300) if "FIELD_PORTAL" in os.environ else (10, 1, 6)
QUESTIONS = os.environ.get("FIELD_QUESTIONS", "sessions batches").split()
SEED, ACTS = 1, 12
SPEED, SPEED_OF_KILLS = 200, 60     # of the servers' clocks
GROUP, LANES = 30, 4        # of histories over one database, where servers are killed; so many groups at a time
LACKS = lacks("gcc")
TERMS = {"minute": (60, 0, True), "cup": (0, 100, True), "both": (60, 100, True), "more": (30, 7, True), "fixed": (90, 50, False)}
PLANS = [{"id": name, "price": 100, "uses": 2, "seconds": seconds, "bytes": size, "shelf_days": 1, "extend": extend}
         for name, (seconds, size, extend) in TERMS.items()]
PLANS_FILE = "".join("[[plan]]\n" + "".join(f"{key} = {json.dumps(value)}\n" for key, value in plan.items()) for plan in PLANS).encode()
BYTES = (0, 1, 7, 50, 99, 100, 101, 107, 150, 200, 2**63 - 1)
STEPS = (0, 0, 1, 7, 29, 30, 31, 59, 60, 61, 90, 200, -1, -60, -5000, 3600)      # of the clock, from one request to the next
KINDS = {"issue": Routes.ISSUE, "sell": Routes.SELL, "redeem": Routes.REDEEM, "report": Routes.REPORT,
         "close": Routes.CLOSE, "refund": Routes.REFUND}
LIKELY = {"redeem": 8, "report": 4, "close": 2, "refused": 1, "sell": 1, "refund": 1}
NO_SESSION = ("0", "99999999", "9223372036854775807")
# Each end of a session, and each answer to a question about batches or vouchers, is in some history.
ENDS = {"null", "closed", "time", "bytes"}
ANSWERS = {"unknown_batch", "unknown_code", "bad_request", "bad_code", "true", "false", "none", "found", "sold",
           "refunded", "used-up", "not redeemed", "opened", "extended", "open", "over"}
NO_BATCH = ("", "b-0", "b-00", "B-1", "b_1", "b-1%20", "b-99999999", "b" * 33)
LIMITS = ("1", "20", "2", "3", "19", "07")
BAD_LIMITS = ("", "0", "21", "100", "-1", "+1", "1x", "1.0", "%31", "9" * 30)
NO_CODES = ("2222-2222-2222", "2222-2222-2223", "x", "2222%2D2222-2222", "2" * 13)
BAD_STARTS = ("", "2", "22-2", "2220", "222I", "22L22", "2222%2D2", "2222+2", "2222.2", "2" * 16, "2" * 40)
TOKENS = {"desk": "desk-token", "gateway": "gate-token"}


class Reply:
    """An answer, and the time of its request."""

    def __init__(self, at: int, status: int, text: bytes) -> None:
        self.at, self.status, self.text = at, status, text


class Answerer(Protocol):
    """What answers requests."""

    def exchange(self, method: str, path: str, body: bytes | None, headers: dict[str, str]) -> Reply:
        """The answer to one request. NoAnswer: none came."""


class ByServer:
    """A server; the time of a request is the answer's Date."""

    def __init__(self, port: int) -> None:
        self.port = port

    def exchange(self, method: str, path: str, body: bytes | None, headers: dict[str, str]) -> Reply:
        """Sends a request over a connection of its own."""
        link = http.client.HTTPConnection("127.0.0.1", self.port, timeout=30)
        try:
            link.request(method, path, body, headers)
            answer = link.getresponse()
            text, date = answer.read(), email.utils.parsedate_to_datetime(str(answer.headers["Date"]))
            return Reply(int(date.timestamp()), answer.status, text)
        except (OSError, http.client.HTTPException) as fault:
            raise NoAnswer(str(fault)) from fault
        finally:
            link.close()


class ByProcesses:
    """A process for each request, over one database; its time is set."""

    def __init__(self, folder: pathlib.Path) -> None:
        (folder / "settings.toml").write_text(SETTINGS)
        self.words = ["--db", str(folder / "book.db"), "--settings", str(folder / "settings.toml")]
        self.now, self.turn = 1_000_000, 0

    def exchange(self, method: str, path: str, body: bytes | None, headers: dict[str, str]) -> Reply:
        """Has `answer` answer a request."""
        self.turn += 1
        fields = {"Host": "desk", **headers, **({"Content-Length": str(len(body))} if body else {})}
        head = f"{method} {path} HTTP/1.1\r\n" + "".join(f"{name}: {value}\r\n" for name, value in fields.items()) + "\r\n"
        words = [*shlex.split(PORTAL), "answer", "--now", str(self.now), "--seed", f"{self.turn:064x}", *self.words]
        done = subprocess.run(words, input=head.encode() + (body or b""), capture_output=True, check=False)
        if not done.stdout:
            raise NoAnswer(done.stderr.decode())
        head_of_answer, _, text = done.stdout.partition(b"\r\n\r\n")
        return Reply(self.now, int(head_of_answer.split()[1]), text)


class Histories:
    """Histories over one database, one after another, beside the model. Where a command was sent twice, the time of what was done
    is one of several: then there is a model for each that agrees with all answers so far."""

    def __init__(self, answerer: Answerer, draw: random.Random) -> None:
        self.answerer, self.draw, self.models = answerer, draw, [Model()]
        self.batches, self.opened, self.seen = 0, list[str](), Counter[str]()
        self.command("plans", Routes.PLANS, PLANS_FILE, {"plans": PLANS})

    # Requests

    def send(self, route: Route, part: str = "", query: str = "", body: bytes | None = None, device: str = "", number: str = "") -> Reply:
        """The answer to a request."""
        fields = {"Portal-Token": TOKENS.get(route.caller, ""), "Portal-Device": device, "Portal-Request": number}
        return self.answerer.exchange(route.method, route.path.format(part) + query, body, {name: value for name, value in fields.items() if value})

    def again(self, attempts: int) -> None:
        """Makes an answer possible where none came. Here each request has one."""
        raise AssertionError(f"nobody killed what answers  [{attempts}]")

    def keep_those_that_say(self, what: str, found: Reply, said: list[tuple[Model, int, bytes]]) -> None:
        """Keeps the models that give this answer."""
        left = {asked_of(model) if len(said) > 1 else "": model for model, status, text in said
                if (status, text) == (found.status, found.text)}
        assert left, f"the answer is the model's  [{what} at {found.at}: {found.status} {found.text!r}, not {[row[1:] for row in said]}]"
        self.models = list(left.values())       # of those that answer all questions alike one does

    def command(self, kind: str, route: Route, body: bytes, words: Json, device: str = "") -> Reply:
        """Sends a command until it is answered, with one key, and carries it out in the models."""
        first, number = self.now(), new_number()
        reply, attempts = self.until_answered(route, body=body, device=device, number=number)
        if kind == "issue":
            words = words | {"codes": self.codes_of(words["batch"])}
        moments = range(first, reply.at + 1) if attempts > 1 else range(reply.at, reply.at + 1)
        said = [tried(copy.deepcopy(model) if attempts > 1 else model, kind, words, at) for model in self.models for at in moments]
        self.keep_those_that_say(f"{kind} {words}", reply, said)
        if attempts > 1:
            self.settle(words)
        return reply

    def settle(self, words: Json) -> None:
        """Asks for the times of a command that was sent twice."""
        if "device" in words:
            self.ask(("device", words["device"]))
        if "session" in words:
            self.ask(("number", str(words["session"])))
        if "code" in words and "batches" in QUESTIONS:
            self.ask(("batch", self.models[0].voucher(words["code"]).batch))
            self.ask(("redemptions", words["code"]))

    def now(self) -> int:
        """The time before a request, where it may be sent again."""
        return 0

    def codes_of(self, batch: str) -> list[str]:
        """The codes of a batch, as its print file has them."""
        text = self.until_answered(Routes.PRINT, batch)[0].text.decode()
        return [line.partition(",")[0] for line in text.splitlines()[1:]]

    def until_answered(self, route: Route, part: str = "", query: str = "", **more: Any) -> tuple[Reply, int]:
        """The answer to a request, which is sent until there is one, and how often it was."""
        for attempts in itertools.count(1):
            try:
                return self.send(route, part, query, **more), attempts
            except NoAnswer:
                self.again(attempts)
        raise AssertionError

    def ask(self, question: tuple[str, str]) -> None:
        """Asks a question, and compares the answer with the models'."""
        kind, word = question
        if kind in ("list of batches", "vouchers"):
            route = Routes.VOUCHERS if kind == "vouchers" else Routes.BATCH_LIST
            reply, _ = self.until_answered(route, query="?" + word if word else "")
        elif kind in ("number", "batch", "redemptions"):
            routes = {"number": Routes.SESSION, "batch": Routes.BATCH, "redemptions": Routes.REDEMPTIONS}
            reply, _ = self.until_answered(routes[kind], word)
        elif kind == "device":
            reply, _ = self.until_answered(Routes.LAST_SESSION, query="?device=" + self.draw.choice((word, word.upper(), word.replace(":", "-"))))
        elif kind == "own":
            reply, _ = self.until_answered(Routes.OWN_SESSION, device=word)
        else:
            reply, _ = self.until_answered(Routes.SESSION_DETAILS if kind == "details" else Routes.SESSIONS)
        said = [(model, *answer_to(model, kind, word, max(reply.at, model.last))) for model in self.models]
        self.keep_those_that_say(f"{kind} {word}", reply, said)
        self.seen.update(seen_in(reply.text.decode()))

    def ask_of_sessions(self, device: str, devices: list[str]) -> None:
        """Some questions about sessions: that of this device, or of another."""
        self.ask(("number", self.draw.choice(self.sessions or NO_SESSION)))
        self.ask(("number", self.draw.choice(self.opened or NO_SESSION)))
        self.ask((self.draw.choice(("device", "own")), self.draw.choice((device, self.draw.choice(devices)))))
        if self.draw.random() < 0.3:
            self.ask((self.draw.choice(("details", "details", "list")), ""))

    def ask_of_batches(self, codes: list[str]) -> None:
        """Some questions about batches, and about vouchers by the first characters of their codes."""
        self.ask(("batch", self.batch() if self.draw.random() < 0.8 else self.draw.choice(NO_BATCH[1:])))
        self.ask(("list of batches", self.query_of_batches()))
        self.ask(("vouchers", self.query_of_vouchers(self.draw.choice(codes))))
        self.ask(("redemptions", self.spelling(self.draw.choice(codes))))

    def spelling(self, code: str) -> str:
        """A code as it may be typed, or sometimes one that is refused."""
        if self.draw.random() < 0.1:
            return self.draw.choice(NO_CODES)
        return self.draw.choice((code, code.lower(), code.replace("-", ""), f"-{code}-"))

    def batch(self) -> str:
        """A batch: the first one, the last one, or another."""
        listed = sorted(self.models[0].issues.values(), key=lambda batch: batch.place)
        some = self.draw.choice(listed), self.draw.choice(listed[-4:])
        return self.draw.choice((listed[0], listed[-1], *some)).id

    def query_of_batches(self) -> str:
        """A query of the list of batches, sometimes one that is refused."""
        pairs = [("limit", self.draw.choice(LIMITS))] if self.draw.random() < 0.5 else []
        pairs += [("before", self.batch())] if self.draw.random() < 0.5 else []
        pairs += [("before", self.draw.choice(NO_BATCH))] if self.draw.random() < 0.1 else []
        pairs += [("limit", self.draw.choice(BAD_LIMITS))] if self.draw.random() < 0.1 else []
        others = ("Limit", "0"), ("x", ""), ("befor", "b-1"), ("prefix", "2")
        pairs += [self.draw.choice(others)] if self.draw.random() < 0.2 else []
        self.draw.shuffle(pairs)
        return "&".join(f"{key}={value}" for key, value in pairs)

    def query_of_vouchers(self, code: str) -> str:
        """A query for the vouchers whose codes begin as this one, or nearly; sometimes one to refuse."""
        signs = code.replace("-", "")[:self.draw.randint(4, 15)]
        kind = self.draw.random()
        if kind < 0.1:
            twice = "prefix=2222&prefix=2222", f"prefix={signs}&prefix"
            return self.draw.choice(("", "x=1", "prefix", "Prefix=2222", *twice))
        if kind < 0.2:
            return "prefix=" + self.draw.choice(BAD_STARTS)
        if kind < 0.4:
            signs = signs[:-1] + self.draw.choice(SIGNS)
        start = self.draw.choice((signs, "-".join(signs), in_groups(signs), f"-{signs}--"))
        start = self.draw.choice((start, start.lower(), start.title()))
        return f"prefix={start}" + self.draw.choice(("", "", "&x=1", "&Prefix=2"))

    # A history

    def history(self, name: int) -> None:
        """One history: three devices, some vouchers, and what happens to them and to the sessions, with
        questions after each command."""
        devices = [f"02:00:{name >> 8:02x}:{name & 255:02x}:00:{place:02x}" for place in (10, 11, 12)]
        self.sessions: list[str] = []
        codes = [code for plan in self.draw.sample(sorted(TERMS), 3) for code in self.issued(plan)]
        for _ in range(ACTS):
            self.pause()
            device = self.draw.choice(devices)
            self.act(self.draw.choices(list(LIKELY), list(LIKELY.values()))[0], device, codes)
            self.pause()
            if "sessions" in QUESTIONS:
                self.ask_of_sessions(device, devices)
            if "batches" in QUESTIONS:
                self.ask_of_batches(codes)
        self.check(devices, codes)

    def check(self, devices: list[str], codes: list[str]) -> None:
        """All questions about the sessions and the batches of a history."""
        if "sessions" in QUESTIONS:
            self.check_sessions(devices)
        if "batches" in QUESTIONS:
            self.check_batches(codes)

    def check_batches(self, codes: list[str]) -> None:
        """All questions about the batches of a history and their vouchers."""
        batches = sorted({self.models[0].voucher(code).batch for code in codes})
        for batch in batches:
            self.ask(("batch", batch))
            self.ask(("list of batches", f"before={batch}&limit={self.draw.choice(LIMITS)}"))
        for query in ("", "limit=1", "limit=20"):
            self.ask(("list of batches", query))
        for code in codes:
            self.ask(("vouchers", f"prefix={code[:self.draw.randint(4, 18)]}"))
            self.ask(("redemptions", code))

    def check_sessions(self, devices: list[str]) -> None:
        """All questions about the sessions of a history."""
        for word in (*self.sessions, self.draw.choice(NO_SESSION)):
            self.ask(("number", word))
        for device in (*devices, "02:ff:00:00:00:00"):
            self.ask(("device", device))
            self.ask(("own", device))
        self.ask(("details", ""))
        self.ask(("list", ""))

    def issued(self, plan: str) -> list[str]:
        """Three new codes of a plan, of which two are sold."""
        self.batches += 1
        words: Json = {"batch": f"b-{self.batches}", "plan": plan}
        self.command("issue", Routes.ISSUE, json.dumps({**words, "count": 3}).encode(), words)
        codes = self.codes_of(words["batch"])
        for code in self.draw.sample(codes, 2):
            self.command("sell", Routes.SELL, json.dumps({"code": code}).encode(), {"code": code})
        return codes

    def act(self, kind: str, device: str, codes: list[str]) -> None:
        """One command, that may be refused."""
        if kind in ("sell", "refund"):
            words_of_sale = {"code": self.draw.choice(codes)}
            self.command(kind, KINDS[kind], json.dumps(words_of_sale).encode(), words_of_sale)
            return
        if kind == "redeem" or not self.sessions:
            words: Json = {"code": self.draw.choice(codes)}
            reply = self.command("redeem", Routes.REDEEM, json.dumps(words).encode(), words | {"device": device}, device)
            if reply.status == 200 and not json.loads(reply.text)["extended"]:
                self.sessions.append(str(json.loads(reply.text)["session"]))
                self.opened.append(self.sessions[-1])
            return
        words = {"session": int(self.draw.choice(NO_SESSION if kind == "refused" else self.sessions))}
        if kind == "report":
            words["bytes"] = self.draw.choice(BYTES)
        kind = "report" if kind == "report" else "close"
        self.command(kind, KINDS[kind], json.dumps(words).encode(), words)

    def pause(self) -> None:
        """Time goes by."""
        time.sleep(self.draw.choice((0, 0, 0, 0.005, 0.02)))


class OfProcesses(Histories):
    """Histories at times that are set, also back."""

    def pause(self) -> None:
        """Sets the time of what comes next."""
        assert isinstance(self.answerer, ByProcesses)
        self.answerer.now = max(0, self.answerer.now + self.draw.choice(STEPS))


class OfKills(Histories):
    """Histories over a server that is killed in each of them, and started again over its files."""

    def __init__(self, folder: pathlib.Path, clock: FastClock, draw: random.Random) -> None:
        self.book, self.clock, self.kills = folder / "book.db", clock, 0
        self.desk = self.start()
        super().__init__(ByServer(self.desk.port), draw)

    def start(self) -> DeskProcess:
        """Starts a server over the files."""
        return DeskProcess(self.book, at_clock(self.clock)).__enter__()

    def now(self) -> int:
        """The time of the servers' clock."""
        return int(self.clock.now())

    def again(self, attempts: int) -> None:
        """Starts the server that was killed again."""
        assert attempts == 1 and self.desk.job.wait(30) is not None
        self.close()
        self.desk = self.start()
        self.answerer = ByServer(self.desk.port)

    def pause(self) -> None:
        """Kills the server now and then, so that it is away for what comes next, or goes in the middle of it."""
        super().pause()
        if self.draw.random() < 0.04:
            self.kill(self.draw.choice((0, 0.001, 0.002, 0.004)))

    def kill(self, wait: float = 0) -> None:
        """Kills the server, at once or in a moment."""
        self.kills += 1
        if wait:
            threading.Timer(wait, self.desk.job.kill).start()
            return
        self.desk.job.kill()
        self.desk.job.wait()

    def check(self, devices: list[str], codes: list[str]) -> None:
        """All questions, once more after a kill."""
        super().check(devices, codes)
        self.kill()
        super().check(devices, codes)

    def close(self) -> None:
        """Ends the server."""
        self.desk.__exit__()


def at_clock(clock: FastClock) -> str:
    """The command of a desk at this clock."""
    return shlex.join(["env", *(f"{name}={value}" for name, value in clock.environment.items()), *shlex.split(PORTAL)])


def compact(value: Json) -> bytes:
    """A value as the desk writes it."""
    return json.dumps(value, sort_keys=True, separators=(",", ":")).encode()


def asked_of(model: Model) -> str:
    """What all answers of a model follow from, but for the times of sales where nobody asks for them."""
    return repr((model.sessions, model.issues, model.vouchers) if "batches" in QUESTIONS else model.sessions)


def seen_in(text: str) -> list[str]:
    """Which kinds of answers are in the text of one."""
    found = re.findall(r'"(?:ended|error|more)":"?([a-z_]+)', text)
    found += re.findall(r'"(sold|refunded|used-up)":[1-9][0-9]{0,2},', text)
    lists = [("none", '"vouchers":[]'), ("found", '"vouchers":[{'), ("not redeemed", '"redemptions":[]')]
    lists += [("opened", '"extended":false,"open"'), ("extended", '"extended":true,"open"')]
    lists += [("open", '"open":true,"session"'), ("over", '"open":false,"session"')]
    return found + [word for word, start in lists if start in text]


def tried(model: Model, kind: str, words: Json, at: int) -> tuple[Model, int, bytes]:
    """A model after a command, and its answer."""
    try:
        return model, 200, compact(model.act(kind, words, max(at, model.last)))
    except No as no:
        return model, BY_WORD[str(no)].status, compact({"error": str(no)})


def answer_to(model: Model, kind: str, word: str, at: int) -> tuple[int, bytes]:
    """The answer of a model to a question."""
    try:
        if kind == "number":
            return 200, compact(model.session(int(word)).details(at))
        if kind == "device":
            return 200, compact(model.last_session(word).details(at))
        if kind == "own":
            return 200, compact(model.own_details(word, at))
        if kind == "list of batches":
            return 200, compact(listed_batches(model, word))
        if kind == "batch":
            return 200, compact(model.batch_details(word))
        if kind == "vouchers":
            return 200, compact(found_vouchers(model, word))
        if kind == "redemptions":
            return 200, compact(model.redemptions_of(read_code(word), at))
        sessions = model.open_sessions(at)
        return 200, compact({"sessions": [s.entry_with_terms(at) if kind == "details" else s.entry(at) for s in sessions]})
    except No as no:
        return BY_WORD[str(no)].status, compact({"error": str(no)})


@unittest.skipIf(bool(LACKS), LACKS)
class Drawn(unittest.TestCase):
    """Histories by their seed."""

    def setUp(self) -> None:
        self.folder = pathlib.Path(self.enterContext(tempfile.TemporaryDirectory()))

    def clock(self, speed: int) -> FastClock:
        """A clock that goes so many times as fast."""
        return FastClock(self.folder, datetime.datetime(2026, 5, 1, 12, tzinfo=datetime.UTC), speed)

    def assert_each_answer(self, seen: Counter[str]) -> None:
        """In many histories sessions ended in each way, some were open, and batches had each answer."""
        if "FIELD_PORTAL" in os.environ:
            for name, wanted in (("sessions", ENDS), ("batches", ANSWERS)):
                self.assertEqual(wanted - set(seen) if name in QUESTIONS else set(), set())

    def test_over_one_server(self) -> None:
        with DeskProcess(portal=at_clock(self.clock(SPEED))) as desk:
            histories = Histories(ByServer(desk.port), random.Random(f"{SEED} server"))
            for name in range(BY_SERVER):
                histories.history(name)
        self.assert_each_answer(histories.seen)

    def one_of_processes(self, name: int) -> Counter[str]:
        folder = self.folder / str(name)
        folder.mkdir()
        histories = OfProcesses(ByProcesses(folder), random.Random(f"{SEED} processes {name}"))
        histories.history(name)
        return histories.seen

    def test_by_a_process_for_each_request(self) -> None:
        with futures.ThreadPoolExecutor(LANES) as pool:
            self.assert_each_answer(sum(pool.map(self.one_of_processes, range(BY_PROCESSES)), Counter[str]()))

    def some_of_kills(self, clock: FastClock, first: int) -> OfKills:
        folder = self.folder / str(first)
        folder.mkdir()
        histories = OfKills(folder, clock, random.Random(f"{SEED} kills {first}"))
        try:
            for name in range(first, min(first + GROUP, BY_KILLS)):
                histories.history(name)
        finally:
            histories.close()
        return histories

    def test_over_servers_that_are_killed(self) -> None:
        clock = self.clock(SPEED_OF_KILLS)
        with futures.ThreadPoolExecutor(LANES) as pool:
            all_histories = list(pool.map(lambda first: self.some_of_kills(clock, first), range(0, BY_KILLS, GROUP)))
        self.assertGreaterEqual(sum(histories.kills for histories in all_histories), BY_KILLS)
        self.assert_each_answer(sum((histories.seen for histories in all_histories), Counter[str]()))


if __name__ == "__main__":
    unittest.main()
