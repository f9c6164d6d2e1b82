"""Openings that end early, and openings in which a call fails: what was acknowledged stands, nothing else.

    openings.py PROGRAM [--each] [--calls NAME,..] [SITUATION ..]

--each: of a full log each call, in place of each tenth. --calls: those of these names alone.

`strace` lists the calls that a start of `serve` makes on the database file, its log and their folder, until
it listens. The start is then made again over the same files for each call: with an error (EIO) of that call;
and where the call writes, syncs or truncates, also with a kill. SIGKILL comes as the call is entered, and the
call does nothing: a kill after a call is one before the next, and the listed start is killed as it listens.
`check` and `answer` are tried alike, to their ends. What a disk forgets as the power fails is not tried.

A copy of the files that are left is asked by `takings` and `check`; then `serve` starts over them, is sent a
request with a number once more, and asked for each voucher. All say what was acknowledged, nothing beyond;
so does a start that goes on after an error, and a `check` with one says nothing but ok. Files with the same
bytes as some before are judged once.

Where strace is not installed or may not trace, all is passed over. The last line is 'openings: N passed,
M failed', in situations."""

from __future__ import annotations

import argparse
import concurrent.futures
import contextlib
import datetime
import functools
import hashlib
import itertools
import json
import os
import queue
import random
import re
import shutil
import signal
import socket
import sqlite3
import subprocess
import sys
import tempfile
import threading
from collections.abc import Callable, Iterable, Iterator
from dataclasses import dataclass, field
from pathlib import Path
from typing import NamedTuple, TypeVar

from desk import DESK, GATEWAY, PLANS, Broken, Desk, codes_of, guest, request
from reader import Sql, read_case

CASE = Path(__file__).resolve().parents[2] / "tests/cases/fourth_version_migrated.txt"
NAMES = ("portal.db", "portal.db-wal")
WRITES = ("pwrite64", "ftruncate", "fdatasync", "fsync")
READS = ("pread64", "statx", "openat", "fcntl", "readlink", "getcwd", "fadvise64")
KILLED, FAILED = "signal=SIGKILL", "error=EIO"
SEED = "0" * 64
# The bytes of a full log, at least; the vouchers that are sold for it, at most.
FULL, MOST = 3_300_000, 500
# Runs at a time; seconds in which a server listens, and a subcommand ends.
LANES, PATIENCE = 2, 60
LISTENS = "listen("


class Wrong(Exception):
    """An answer is another than what was acknowledged, or a call was not reached."""


def expect(what: str, came: object, wanted: object) -> None:
    if came != wanted:
        raise Wrong(f"{what}\n  expected: {wanted}\n  came:     {came}")


class Fault(NamedTuple):
    """What happens at the call of this name and number, which counts all calls of the name from 1."""

    name: str
    number: int
    what: str

    def __str__(self) -> str:
        return f"{'killed before' if self.what == KILLED else 'an error of'} {self.name} {self.number}"


Made = TypeVar("Made")
# Of a voucher: whether it is sold and refunded, and how often it was redeemed.
State = tuple[bool, bool, int]


@dataclass(frozen=True)
class Ledger:
    """What was acknowledged: the vouchers of these batches; the last line of the takings of these days; and
    of a redemption its number, the field that names its device, its code, and its answer (None: any 200)."""

    batches: tuple[str, ...]
    vouchers: dict[str, State]
    days: tuple[str, str]
    net: str
    redeemed: tuple[str, str, str]
    answer: str | None = None


@dataclass(frozen=True)
class Situation:
    """The files of a folder, and a call of the program over them, with the bytes of its standard input.
    `also`: an error in each run. Where no database `is_there`, its file is empty in each run, and is put back
    before anything is asked. Of the calls of one name each `step`-th is tried."""

    name: str
    files: Path
    ledger: Ledger
    words: tuple[str, ...] = ("serve",)
    data: bytes = b""
    also: tuple[Fault, ...] = ()
    is_there: bool = True
    step: int = 1
    judged: set[bytes] = field(default_factory=set)


def content(folder: Path, name: str) -> bytes:
    """The bytes of a file; none where it is missing."""
    path = folder / name
    return path.read_bytes() if path.exists() else b""


def copy_files(source: Path, target: Path) -> None:
    for name in NAMES:
        (target / name).write_bytes(content(source, name))


class Run(NamedTuple):
    """A run under strace: the lines of its calls, whether it listened, its status (below 0: a signal), and
    its standard output."""

    lines: list[str]
    is_listening: bool
    status: int
    output: str


def kill_child(tracer: subprocess.Popen[str]) -> None:
    """Kills the program that strace runs, which then ends with it."""
    children = Path(f"/proc/{tracer.pid}/task/{tracer.pid}/children")
    with contextlib.suppress(OSError):
        for child in children.read_text(encoding="ascii").split():
            os.kill(int(child), signal.SIGKILL)


def trace(words: list[str], folder: Path, data: bytes, listens: Callable[[], None]) -> Run:
    """Runs a program until it ends or listens; then `listens` is called, and the program killed."""
    words = ["strace", "-f", "-qqq", "-y", "-s", "0", *words]
    pipe = subprocess.PIPE
    with subprocess.Popen(words, cwd=folder, stdin=pipe, stdout=pipe, stderr=pipe, text=True) as tracer:
        assert tracer.stdin and tracer.stdout and tracer.stderr
        late, lines, said = threading.Timer(PATIENCE, kill_child, [tracer]), list[str](), tracer.stderr
        late.start()
        rest = threading.Thread(target=lambda: lines.extend(said))
        try:
            with contextlib.suppress(BrokenPipeError), tracer.stdin as sent:
                sent.write(data.decode())
            lines += until_it_listens(said)
            is_listening = "".join(lines[-1:]).startswith(LISTENS)
            rest.start()
            if is_listening:
                listens()
        finally:
            is_late = late.finished.is_set()
            late.cancel()
            kill_child(tracer)
            if rest.ident:
                rest.join()
        output, status = tracer.stdout.read(), tracer.wait()
    expect(f"it ends, or listens, within {PATIENCE} s", is_late, False)
    return Run(lines, is_listening, status, output)


def until_it_listens(said: Iterable[str]) -> Iterator[str]:
    """The lines up to that call, or all."""
    for line in said:
        yield line
        if line.startswith(LISTENS):
            return


class Trial:
    """The program with two folders, for the files that it opens and for a copy that is asked, and a port."""

    def __init__(self, program: str, room: Path, port: int) -> None:
        self.opened, self.copy = room / "opened", room / "copy"
        for folder in (self.opened, self.copy):
            folder.mkdir(parents=True)
        self.desk, self.asked = Desk(program, str(self.opened)), Desk(program, str(self.copy))
        self.desk.port = port
        path = re.escape(str(self.opened)) + r"(?:/portal\.db[^>\"]*)?"
        self.ours = re.compile(rf'\w+\((?:\d+<{path}>|(?:AT_FDCWD<[^>]*>, )?"{path}")')

    def run(self, situation: Situation, *faults: Fault, is_listed: bool = False) -> Run:
        """Makes the situation's call over its files, with these faults, each of which has to be reached. The
        lines are of these calls alone, unless it is listed."""
        copy_files(situation.files, self.opened)
        if not situation.is_there:
            (self.opened / "portal.db").write_bytes(b"")
        is_killed, words = any(it.what == KILLED for it in faults), list[str]()
        if not is_listed:
            words += ["-e", f"trace={','.join(sorted({it.name for it in faults} | {'listen'}))}"]
        if not is_listed and not is_killed:
            words.append("--seccomp-bpf")       # (faster; it sends no signal before a call)
        for it in faults:
            words += ["-e", f"inject={it.name}:{it.what}:when={it.number}"]
        words += self.desk.words(*situation.words)
        if situation.words == ("serve",):
            words += ["--port", str(self.desk.port)]
        run = trace(words, self.opened, situation.data, lambda: self.tell(situation.ledger))
        failed = sum(" = -1 EIO (" in it and "(INJECTED)" in it for it in run.lines)
        expect("errors that were injected", failed, sum(it.what == FAILED for it in faults))
        if is_killed:
            expect("it was killed", (run.status, run.is_listening), (-signal.SIGKILL, False))
        if situation.words == ("check",):
            expect("check says nothing but ok", run.output.removesuffix("ok\n"), "")
        return run

    def calls(self, situation: Situation) -> list[tuple[str, int]]:
        """The name and the number of each call on the files, in a run without another fault than the
        situation's. What that leaves is judged too."""
        run = self.run(situation, *situation.also, is_listed=True)
        numbers, found = dict[str, int](), list[tuple[str, int]]()
        if situation.is_there and situation.words == ("serve",):
            expect("it listens", run.is_listening, True)
        self.judge(situation)
        for line in itertools.takewhile(lambda it: not it.startswith(LISTENS), run.lines):
            name = line.partition("(")[0]
            numbers[name] = numbers.get(name, 0) + 1
            if self.ours.match(line) and name != "close":
                expect("a call that this test knows", name if name not in WRITES + READS else "", "")
                found.append((name, numbers[name]))
        return found

    def tell(self, ledger: Ledger) -> None:
        """Asks the server. What is sent again has no second effect."""
        number, device, code = ledger.redeemed
        answer = self.desk.answer_to("POST", "/portal/redeem", device, body_of(code), number=number)
        expect("the answer to a request that is sent again", answer, ledger.answer or answer)
        told: dict[str, State] = {}
        for batch in ledger.batches:
            for it in json.loads(self.desk.answer_to("GET", f"/desk/batches/{batch}", DESK))["vouchers"]:
                told[it["code"]] = it["sold"] is not None, it["refund"] is not None, it["redeemed"]
        of_all = {*told, *ledger.vouchers}
        differ = sorted(it for it in of_all if told.get(it) != ledger.vouchers.get(it))[:3]
        expect("vouchers (sold, refunded, how often redeemed)", {it: told.get(it) for it in differ},
               {it: ledger.vouchers.get(it) for it in differ})

    def judge(self, situation: Situation) -> None:
        """Asks what is left of the files, as a copy and after the next start."""
        if not situation.is_there:
            shutil.copyfile(situation.files / "portal.db", self.opened / "portal.db")
        sums = b"".join(hashlib.sha256(content(self.opened, it)).digest() for it in NAMES)
        if sums in situation.judged:
            return
        ledger = situation.ledger
        copy_files(self.opened, self.copy)
        days = self.asked.run("takings", *ledger.days)
        expect("takings of what is left", (days.stdout.splitlines()[-1:], days.stderr), ([ledger.net], ""))
        is_right(self.asked, "what is left")
        self.desk.start(patience=PATIENCE)
        try:
            self.tell(ledger)
        finally:
            self.desk.kill()
        is_right(self.desk, "what the next start left")
        situation.judged.add(sums)


def is_right(desk: Desk, what: str) -> None:
    audit = desk.run("check")
    expect(f"check of {what}", (audit.returncode, audit.stdout, audit.stderr), (0, "ok\n", ""))


def make_day(program: str, folder: Path, count: int, length: int = 0) -> Ledger:
    """The files of a server that was killed. Of a batch of so many vouchers the first is sold and redeemed,
    by a request with a number, the second sold and refunded, the third sold; and of the others so many are
    sold that the log has this length, in bytes."""
    folder.mkdir()
    desk, log, vouchers = Desk(program, str(folder)), folder / "portal.db-wal", dict[str, State]()
    desk.start()
    try:
        desk.answer_to("POST", "/desk/plans", DESK, PLANS)
        order = {"batch": "b1", "plan": "hour", "count": count}
        desk.answer_to("POST", "/desk/batches", DESK, json.dumps(order))
        first, second, third, *others = codes_of(desk, "b1")
        for code in (first, second, third, *others):
            is_sold = code not in others or log.stat().st_size < length
            if is_sold:
                desk.answer_to("POST", "/desk/sales", DESK, body_of(code))
            vouchers[code] = is_sold, False, 0
        answer = desk.answer_to("POST", "/portal/redeem", guest(1), body_of(first), number="n1")
        desk.answer_to("POST", "/desk/refunds", DESK, body_of(second))
    finally:
        desk.kill()
    assert log.stat().st_size >= length, log.stat()
    vouchers |= {first: (True, False, 1), second: (True, True, 0)}
    today, day = datetime.datetime.now(datetime.timezone.utc).date(), datetime.timedelta(1)
    net = 3 * sum(is_sold - is_refunded for is_sold, is_refunded, _ in vouchers.values())
    days = str(today - day), str(today + day)
    return Ledger(("b1",), vouchers, days, f"net {net}.00", ("n1", guest(1), first), answer)


def body_of(code: str) -> str:
    return json.dumps({"code": code}, separators=(",", ":"))


def make_fourth_version(folder: Path) -> Ledger:
    """The files of a server of schema version 4 that was killed: a sale and a refund are in the log alone."""
    folder.mkdir()
    with tempfile.TemporaryDirectory(dir=folder.parent) as made:
        with contextlib.closing(sqlite3.connect(Path(made, "portal.db"), isolation_level=None)) as base:
            base.executescript(next(it for it in read_case(CASE).steps if isinstance(it, Sql)).text)
            base.executescript("PRAGMA journal_mode = WAL; PRAGMA wal_autocheckpoint = 0")
            base.execute("UPDATE portal_vouchers SET sold = 1000 WHERE code = '2222-2222-2249'")
            base.execute("UPDATE portal_vouchers SET refunded = 1000, amount = 300"
                         " WHERE code = '2222-2222-2222'")
            copy_files(Path(made), folder)
    assert (folder / "portal.db-wal").stat().st_size > 0
    vouchers = {"2222-2222-223N": (True, False, 1), "2222-2222-2249": (True, False, 0),
                "3N55-WA4S-KH5V-JR49": (True, False, 1), "2222-2222-2222": (True, True, 0)}
    days = "1970-01-01", "1970-01-02"
    return Ledger(("b1", "b2"), vouchers, days, "net 13.00", ("r1", guest(1), "3N55-WA4S-KH5V-JR49"))


class Trials:
    """Those that run at a time, each with a folder and a port."""

    def __init__(self, program: str, room: Path) -> None:
        self.program, self.free = program, queue.SimpleQueue[Trial]()
        for number, port in enumerate(free_ports(LANES)):
            self.free.put(Trial(program, room / f"lane{number}", port))

    @contextlib.contextmanager
    def one(self) -> Iterator[Trial]:
        trial = self.free.get()
        try:
            yield trial
        finally:
            self.free.put(trial)

    def calls(self, situation: Situation) -> list[tuple[str, int]]:
        with self.one() as trial:
            return named(situation, "its own run", lambda: trial.calls(situation))

    def try_fault(self, situation: Situation, fault: Fault) -> bool:
        """Makes one run, and judges what it left. Whether it came to listen."""
        with self.one() as trial:
            run = named(situation, str(fault), lambda: trial.run(situation, *situation.also, fault))
            named(situation, str(fault), lambda: trial.judge(situation))
        return run.is_listening

    def try_all(self, situation: Situation, names: list[str]) -> None:
        """Tries each call of these names, and says what was tried."""
        calls = self.calls(situation)
        faults = [it for it in faults_of(situation, calls) if it.name in names]
        with concurrent.futures.ThreadPoolExecutor(LANES) as pool:
            ends = [pool.submit(self.try_fault, situation, it) for it in faults]
            try:
                went_on = sum(it.result() for it in ends)
            finally:
                pool.shutdown(cancel_futures=True)
        errors = sum(it.what == FAILED for it in faults)
        tried = f"{len(faults) - errors} kills and {errors} errors, {went_on} of which do not stop it"
        right = f"{len(situation.judged)} states of the files are right"
        print(f"outside: openings: {situation.name}: {len(calls)} calls, {tried}; {right}", flush=True)


def named(situation: Situation, what: str, does: Callable[[], Made]) -> Made:
    """Does it; what goes wrong names the situation and what was tried."""
    try:
        return does()
    except (Wrong, Broken, AssertionError, OSError, subprocess.TimeoutExpired) as fault:
        raise Wrong(f"{situation.name}: {what}: {fault}") from fault


def faults_of(situation: Situation, calls: list[tuple[str, int]]) -> list[Fault]:
    """What is tried of these calls, after the error that the situation has already."""
    after = max((calls.index((it.name, it.number)) for it in situation.also), default=-1)
    found: list[Fault] = []
    for name in (*WRITES, *READS):
        if name not in {it.name for it in situation.also}:
            for _, number in [it for it in calls[after + 1:] if it[0] == name][::situation.step]:
                found += [Fault(name, number, what) for what in (KILLED, FAILED)[name in READS:]]
    return found


def went_on(trials: Trials, situation: Situation) -> tuple[Fault, ...]:
    """The first length of a file that cannot be had without stopping the start; or none."""
    for fault in faults_of(situation, trials.calls(situation)):
        if fault.name == "statx" and trials.try_fault(situation, fault):
            return (fault,)
    return ()


def situations(trials: Trials, room: Path, step: int) -> dict[str, Callable[[], Situation]]:
    """small: a log of a few sales. twice: the same, where the length of a file cannot be had and the start
    goes on: it leaves the log to the opening of the database, which it then closes and opens again. check,
    answer: the small log, asked. lost: the small log without its database. migration: schema version 4, with
    a log. full: a day's log."""
    small, old, full = (room / it for it in ("small", "old", "full"))
    day = functools.cache(lambda: make_day(trials.program, small, 4))
    answer, asks = ("answer", "--now", "0", "--seed", SEED), request("GET", "/gateway/sessions", GATEWAY)
    first = lambda: went_on(trials, Situation("twice, its first error", small, day()))
    return {
        "small": lambda: Situation("small", small, day()),
        "twice": lambda: Situation("twice", small, day(), also=first()),
        "check": lambda: Situation("check", small, day(), ("check",)),
        "answer": lambda: Situation("answer", small, day(), answer, asks),
        "lost": lambda: Situation("lost", small, day(), is_there=False),
        "migration": lambda: Situation("migration", old, make_fourth_version(old)),
        "full": lambda: Situation("full", full, make_day(trials.program, full, MOST, FULL), step=step),
    }


def free_ports(count: int) -> list[int]:
    """Ports below those that the system gives to whoever asks for any: each stays free between two starts."""
    with contextlib.ExitStack() as held:
        found: list[int] = []
        for port in random.sample(range(20000, 32768), 1000):
            probe = held.enter_context(socket.socket())
            with contextlib.suppress(OSError):
                probe.bind(("127.0.0.1", port))
                found.append(port)
            if len(found) == count:
                return found
    raise OSError("no port is free")


def why_not() -> str:
    """Why nothing can be tried here."""
    if not shutil.which("strace"):
        return "not installed: strace"
    ran = subprocess.run(["strace", "-f", "-qqq", "-o", os.devnull, "true"], capture_output=True)
    return "it needs ptrace" if ran.returncode else ""


def main() -> None:
    words = argparse.ArgumentParser(description=__doc__, formatter_class=argparse.RawDescriptionHelpFormatter)
    words.add_argument("program", type=str)
    words.add_argument("situations", nargs="*", metavar="SITUATION")
    words.add_argument("--each", action="store_true")
    words.add_argument("--calls", default=",".join(WRITES + READS), metavar="NAME,..")
    args = words.parse_intermixed_args()
    if why := why_not():
        print(f"passed over: openings: {why}\nopenings: 0 passed, 0 failed")
        return
    base = "/dev/shm" if os.access("/dev/shm", os.W_OK) else None
    with tempfile.TemporaryDirectory(dir=base) as folder:
        room = Path(folder).resolve()
        trials = Trials(os.path.realpath(args.program), room)
        all_of_them = situations(trials, room, 1 if args.each else 10)
        for name in args.situations or all_of_them:
            trials.try_all(all_of_them[name](), args.calls.split(","))
    print(f"openings: {len(args.situations or all_of_them)} passed, 0 failed")


if __name__ == "__main__":
    try:
        main()
    except Wrong as fault:
        sys.exit(f"outside: openings: {fault}")
