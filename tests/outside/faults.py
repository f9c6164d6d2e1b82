"""Each word and each exit code of the program, on files that are made for it: settings, database files of others, counters
that differ, a disk that is full, little memory. In the end each word of the tables of docs/CLI.md must have been printed, and no other.

    faults.py PROGRAM [--list]      --list: a line for each word and status, with a call that ended so
"""

from __future__ import annotations

import os
import re
import resource
import socket
import sqlite3
import subprocess
import sys
import tempfile
from collections.abc import Iterator
from typing import Any

from desk import DESK, PLANS, SETTINGS, guest, request

SEED = "0" * 64
DOCUMENT = os.path.join(os.path.dirname(os.path.abspath(__file__)), "../../docs/CLI.md")
VERSION = os.path.join(os.path.dirname(DOCUMENT), "../VERSION")
MEBIBYTE = 1 << 20
NONE = "No such file or directory (os error 2)"
DATE = "a date as YYYY-MM-DD, of the years 1969 to 9999"
NO_TOML = 'is not TOML in UTF-8: a line is KEY = "VALUE", and no key occurs twice'
ZONE = ("a POSIX TZ rule of 1 to 64 bytes, such as CET-1CEST,M3.5.0,M10.5.0/3, "
        "which is the last line of /usr/share/zoneinfo/Europe/Berlin")
# Settings that are refused, by the name of their file: its text (in Latin-1), and the cause that is printed. No value is in it.
REFUSED = {
    "open": (SETTINGS.replace("https:", "http:"), "portal_url is not a URL that begins with https:// and has 9 to 2048 bytes of visible ASCII"),
    "named": (re.sub('zone = .*', 'zone = "Europe/Berlin"', SETTINGS), f"zone is not {ZONE}"),
    "bare": (SETTINGS.replace(' = "desk-token"', " = desk-token"), f"line 3 {NO_TOML}"),
    "unended": (SETTINGS.replace('"gate-token"', '"gate-token'), f"line 4 {NO_TOML}"),
    "twice": (SETTINGS + 'desk_token = "other-token"\n', f"line 5 {NO_TOML}"),
    "latin": (SETTINGS + "# f\xfcr G\xe4ste\n", f"line 5 {NO_TOML}"),
    "short": (SETTINGS.replace("gate-token", "secret"), "gateway_token is not a text of 8 to 128 bytes of visible ASCII"),
    "number": (SETTINGS.replace('"desk-token"', "12345678"), "desk_token is not a text of 8 to 128 bytes of visible ASCII"),
    "misspelt": (SETTINGS.replace("desk_token", "desk-token"), "desk_token is missing"),
    "further": (SETTINGS + 'venue = "https://wifi.example/"\n', "there is a key other than zone, portal_url, venue_url, desk_token and gateway_token"),
    "same": (SETTINGS.replace("gate-token", "desk-token"), "desk_token and gateway_token are the same"),
}
NO_DATABASE = "there is no database here: only serve and answer create one"
Said = tuple[int, str, str]
Wanted = tuple[int, str | None, str | None]
Limit = tuple[int, int]


def run(program: str, folder: str, *words: str | bytes, data: bytes = b"", source: int | None = None,
        output: Any = subprocess.PIPE, limit: Limit | None = None) -> Said:
    """The status, standard output and standard error. `limit`: a resource and how much of it the program may have."""
    how: dict[str, Any] = {"cwd": folder, "stdout": output, "stderr": subprocess.PIPE, "check": False, "timeout": 60}
    how["stdin" if source else "input"] = source or data
    if limit:       # the signal of a file that grows too long stays ignored, as it is in this process
        how |= {"restore_signals": False, "preexec_fn": lambda: resource.setrlimit(limit[0], (limit[1], limit[1]))}
    done = subprocess.run([program, *words], **how)
    return done.returncode, (done.stdout or b"").decode(), done.stderr.decode()


def free_port() -> str:
    with socket.socket() as free:
        free.bind(("127.0.0.1", 0))
        return str(free.getsockname()[1])


def files(folder: str) -> None:
    """The files that the cases name."""
    texts = {"settings": SETTINGS, "text": "no database"} | {name: text for name, (text, _) in REFUSED.items()}
    for name, text in texts.items():
        with open(os.path.join(folder, name), "w", encoding="latin-1") as file:
            file.write(text)
    os.mkdir(os.path.join(folder, "folder"))
    for name, orders in (("other.db", "CREATE TABLE portal_plans (id TEXT)"),
                         ("later.db", "CREATE TABLE portal_head (layout INTEGER); INSERT INTO portal_head VALUES (99)")):
        with sqlite3.connect(os.path.join(folder, name)) as made:
            made.executescript(orders)
        made.close()


def make_files(program: str, folder: str) -> None:
    """A database file with a batch of one code, and a copy in which a counter is another."""
    answer = ("answer", "--db", "portal.db", "--settings", "settings", "--seed", SEED, "--now")
    run(program, folder, *answer, "0", data=request("POST", "/desk/plans", DESK, PLANS))
    order = '{"batch":"b1","plan":"hour","count":1}'
    assert run(program, folder, *answer, "1000", data=request("POST", "/desk/batches", DESK, order))[0] == 0
    with sqlite3.connect(os.path.join(folder, "portal.db")) as source, sqlite3.connect(os.path.join(folder, "off.db")) as copy:
        source.backup(copy)
        copy.execute("UPDATE portal_vouchers SET redeemed = 1")
    source.close()
    copy.close()


def at(db: str = "portal.db", settings: str = "settings") -> tuple[str, ...]:
    return ("--db", db, "--settings", settings)


def file_at(path: str, text: str) -> str:
    """The message for a file that is of no use, with what the system says."""
    return f"portal: file\n  {path}: {text}\n"


def usage(text: str) -> str:
    """The message for a value on the command line."""
    return f"portal: usage\n  {text}\n"


def cases() -> Iterator[tuple[tuple[str | bytes, ...], Wanted]]:
    """The words, and what they come to: status, standard output (None: any), standard error (None: any)."""
    moment = ("--now", "1583125693", "--seed", SEED)
    yield ("--help",), (0, None, "")
    yield ("check", "--help"), (0, None, "")
    yield ("check",), (2, "", None)
    yield ("sell",), (2, "", None)
    yield ("serve", *at(), "--port", "0"), (2, "", None)
    yield ("answer", "--now", "253370764800", "--seed", SEED), (2, "", usage("--now: 0 to 253370764799"))
    for seed in (SEED[1:], SEED[1:] + "g"):
        yield ("answer", "--now", "0", "--seed", seed), (2, "", usage("--seed: 64 hexadecimal digits"))
    yield ("print", b"b\xff", *at()), (2, "", usage("arguments: text in UTF-8"))
    yield ("takings", "2020-02-30", "2020-03-01", *at(settings="none")), (2, "", usage(f"FROM: {DATE}"))
    yield ("takings", "2020-03-01", "2020-02-30", *at(settings="none")), (2, "", usage(f"TO: {DATE}"))
    for days in (("2020-03-02", "2020-03-01"), ("2020-03-01", "2021-03-02")):
        yield ("takings", *days, *at(settings="none")), (2, "", usage("FROM and TO: the first and the last of 1 to 366 days"))
    yield ("takings", "2020-03-01", "2021-03-01", *at()), (0, None, "")
    yield ("check", *at(settings="none")), (3, "", file_at("none", NONE))
    yield ("check", *at(settings="folder")), (3, "", file_at("folder", "Is a directory (os error 21)"))
    for name, (_, cause) in REFUSED.items():
        yield ("check", *at(db="text", settings=name)), (3, "", f"portal: settings\n  {name}: {cause}\n")
    for db, said in (("text", file_at("text", "file is not a database that obeys its schema")), ("folder", file_at("folder", "unsupported")),
                     ("other.db", "portal: not_ours\n"), ("later.db", "portal: newer\n")):
        yield ("check", *at(db=db)), (3, "", said)
        yield ("print", "b1", *at(db=db)), (3, "", said)
        yield ("takings", "2020-03-01", "2020-03-01", *at(db=db)), (3, "", said)
        yield ("answer", *moment, *at(db=db)), (3, "", said)
        yield ("serve", *at(db=db)), (3, "", said)
    yield ("answer", *moment, *at(db="none/portal.db")), (3, "", file_at("none/portal.db", NONE))
    yield ("serve", *at(db="none/portal.db")), (3, "", file_at("none/portal.db", NONE))
    for db in ("none/portal.db", "none.db"):
        yield ("check", *at(db=db)), (3, "", file_at(db, NO_DATABASE))
        yield ("print", "b1", *at(db=db)), (3, "", file_at(db, NO_DATABASE))
        yield ("takings", "2020-03-01", "2020-03-01", *at(db=db)), (3, "", file_at(db, NO_DATABASE))
    yield ("print", "b9", *at()), (1, "", "portal: unknown_batch\n")
    yield ("print", "B 1", *at()), (1, "", "portal: unknown_batch\n")
    yield ("print", "b1", *at()), (0, None, "")
    yield ("check", *at()), (0, "ok\n", "")
    yield ("check", *at(db="off.db")), (1, "differs\n", "")
    yield ("answer", *moment), (1, None, "")
    yield ("answer", "--now", "253370764799", "--seed", SEED), (1, None, "")


def is_as(said: Said, wanted: Wanted) -> bool:
    return all(want is None or want == got for got, want in zip(said, wanted))


class Shown:
    """The calls that were made, and the words that they ended with, each with its status."""

    def __init__(self, program: str, folder: str) -> None:
        self.program, self.folder, self.count = program, folder, 0
        self.words: dict[tuple[int, str], str] = {}
        self.messages: set[str] = set()

    def call(self, words: tuple[str | bytes, ...], wanted: Wanted, **more: Any) -> Said:
        said = run(self.program, self.folder, *words, **more)
        if not is_as(said, wanted):
            sys.exit(f"outside: {words}\n  expected: {wanted}\n  came:     {said}\n  (exit code, output, errors; None: any)")
        self.note(words, said)
        return said

    def note(self, words: tuple[str | bytes, ...], said: Said) -> None:
        self.count += 1
        status, output, errors = said
        reasons = [line.removeprefix("portal: ") for line in errors.splitlines() if line.startswith("portal: ")]
        answer_word = (reasons or [""])[0]
        if answer_word:
            self.messages.add(answer_word)
        if output == "differs\n":
            answer_word = "differs"
        if '"error":' in output:
            answer_word = output.split('"')[-2]
        self.words.setdefault((status, answer_word), " ".join(str(word) for word in words))


def version(shown: Shown) -> None:
    """The release is that of the file VERSION, and the schema version that of the database that the program has made."""
    with open(VERSION, encoding="utf-8") as file:
        release = file.read().strip()
    with sqlite3.connect(os.path.join(shown.folder, "off.db")) as made:
        [(schema,)] = made.execute("SELECT layout FROM portal_head")
    made.close()
    for word in ("--version", "-V"):
        shown.call((word,), (0, f"portal {release} (database schema version {schema})\n", ""))


def everything(shown: Shown) -> None:
    for words, wanted in cases():
        shown.call(words, wanted)


def answer_statuses(shown: Shown) -> None:
    """The status of `answer` is 0 with a 200 and 1 with a refusal."""
    words = ("answer", "--now", "1000", "--seed", SEED, *at())
    for body, status in (('{"code":"3N55-WA4S-KH5V-JR49"}', 0), ('{"code":"2222-2222-2222"}', 1)):
        shown.call(words, (status, None, ""), data=request("POST", "/desk/sales", DESK, body))


def cut(shown: Shown) -> None:
    """What is printed goes nowhere, and what is read is a folder."""
    answer = ("answer", "--now", "1", "--seed", SEED)
    day = ("takings", "2020-03-01", "2020-03-01", *at())
    for words in (("check", *at()), ("check", *at(db="off.db")), ("print", "b1", *at()), day, answer,
                  ("serve", *at(), "--port", free_port())):
        with open("/dev/full", "wb") as full:
            shown.call(words, (3, "", "portal: cut\n"), output=full, data=request("GET", "/captive", guest(1)))
    folder = os.open(shown.folder, os.O_RDONLY)
    shown.call(answer, (3, "", "portal: cut\n"), source=folder)
    os.close(folder)


def port_and_file_in_use(shown: Shown) -> None:
    """A port that another program holds, and a file that another process holds."""
    with socket.socket() as other:
        other.bind(("127.0.0.1", 0))
        other.listen()
        port = str(other.getsockname()[1])
        result = f"portal: network\n  port {port}: Address already in use (os error 98)\n"
        shown.call(("serve", *at(), "--port", port), (3, "", result))
    how: dict[str, Any] = {"cwd": shown.folder, "stdout": subprocess.PIPE, "stderr": subprocess.DEVNULL}
    with subprocess.Popen([shown.program, "serve", *at(), "--port", free_port()], **how) as holds:
        assert holds.stdout
        holds.stdout.readline()
        for words in (("check", *at()), ("print", "b1", *at()), ("takings", "2020-03-01", "2020-03-01", *at()),
                      ("answer", "--now", "1", "--seed", SEED, *at()), ("serve", *at(), "--port", free_port())):
            shown.call(words, (3, "", file_at("portal.db", "the database is in use")))
        holds.kill()


def length_of(shown: Shown, name: str) -> int:
    return max(os.path.getsize(os.path.join(shown.folder, name + end)) for end in ("", "-wal")
               if os.path.exists(os.path.join(shown.folder, name + end)))


def full_disk(shown: Shown) -> None:
    """A full disk, here a limit to the length of files: the desk stops and says so, and its file is good afterwards."""
    seed = ("--now", "1000", "--seed", "1" * 64, *at("full.db"))
    order = request("POST", "/desk/batches", DESK, '{"batch":"b1","plan":"hour","count":500}')
    shown.call(("answer", *seed), (3, "", file_at("full.db", "disk I/O error")), limit=(resource.RLIMIT_FSIZE, 0))
    shown.call(("check", *at("full.db")), (3, "", file_at("full.db", NO_DATABASE)))
    shown.call(("answer", *seed), (0, None, ""), data=request("POST", "/desk/plans", DESK, PLANS))
    limit = (resource.RLIMIT_FSIZE, length_of(shown, "full.db") + 4096)
    said = shown.call(("answer", *seed), (3, None, ""), data=order, limit=limit)
    assert said[1].startswith("HTTP/1.1 503 ") and said[1].endswith('{"error":"stopped"}'), said
    shown.call(("check", *at("full.db")), (0, "ok\n", ""))
    serves_until_it_stops(shown, order, limit)
    shown.call(("check", *at("full.db")), (0, "ok\n", ""))
    shown.call(("answer", *seed), (0, None, ""), data=order)


def serves_until_it_stops(shown: Shown, order: bytes, limit: Limit) -> None:
    port = free_port()
    words = ("serve", *at("full.db"), "--port", port)
    how: dict[str, Any] = {"cwd": shown.folder, "stdout": subprocess.PIPE, "stderr": subprocess.PIPE, "restore_signals": False,
                           "preexec_fn": lambda: resource.setrlimit(limit[0], (limit[1], limit[1]))}
    with subprocess.Popen([shown.program, *words], **how) as desk:
        assert desk.stdout and desk.stderr
        desk.stdout.readline()
        with socket.create_connection(("127.0.0.1", int(port)), timeout=10) as peer:
            peer.sendall(order)
            got = b"".join(iter(lambda: peer.recv(65536), b""))
        assert got.endswith(b'{"error":"stopped"}'), got
        said = desk.wait(timeout=10), "", desk.stderr.read().decode()
    assert said == (3, "", "portal: stopped\n"), said
    shown.note(words, said)


def little_memory(shown: Shown) -> None:
    """With ever less memory a call does what it does with enough, or says `no_memory`, or `cut` once it has begun."""
    words = ("answer", "--now", "1000", "--seed", SEED, *at())
    ends = [(0, ""), (3, "portal: no_memory\n"), (3, "portal: cut\n")]
    for size in range(4, 160, 2):
        limit = (resource.RLIMIT_AS, size * MEBIBYTE)
        said = run(shown.program, shown.folder, *words, data=request("GET", "/captive", guest(1)), limit=limit)
        if said[0] != 127:      # with too little even the machine's loader gives up
            assert (said[0], said[2]) in ends and (said[0] == 0 or said[1] == ""), (size, said)
            shown.note(words, said)
    assert said[0] == 0, said


def documented_words() -> tuple[set[tuple[int, str]], set[str]]:
    """The words of the document's table of exit codes, each with its code (the word of an error stands for all), and those of its
    table of messages."""
    with open(DOCUMENT, encoding="utf-8") as file:
        text = file.read()
    rows = re.findall(r"^\| ([0-3]) \| (.*) \|$", text, re.M)
    if [status for status, _ in rows] != list("0123"):
        sys.exit(f"outside: docs/CLI.md, table of exit codes\n  expected: rows 0, 1, 2, 3\n  came:     {rows}")
    words = {(3, word) for word in re.findall(r"`([a-z_]+)`", rows[3][1])}
    messages = set(re.findall(r"^\| `portal: ([a-z_]+)` \|", text, re.M))
    return words | {(2, "usage"), (1, "differs"), (1, "unknown_batch"), (1, "unknown_code"), (0, "")}, messages


def compare(shown: Shown) -> int:
    """What the document names and what came up are the same words."""
    words, messages = documented_words()
    threes = {pair for pair in shown.words if pair[0] == 3 and pair[1]}
    faults = [f"named in docs/CLI.md, and not printed: exit code {status}, word {word!r}"
              for status, word in sorted(words - set(shown.words))]
    faults += [f"came up, and is not in the table of exit codes of docs/CLI.md: {status} {word!r}"
               for status, word in sorted(threes - words)]
    faults += [f"came up, and is not in the table of messages of docs/CLI.md: {word!r}"
               for word in sorted(shown.messages - messages)]
    faults += [f"in the table of messages of docs/CLI.md, and not printed: {word!r}"
               for word in sorted(messages - shown.messages)]
    if faults:
        sys.exit("\n".join(f"outside: {fault}" for fault in faults))
    return len(words) + len(messages)


def main() -> None:
    with tempfile.TemporaryDirectory() as folder:
        shown = Shown(sys.argv[1], folder)
        files(folder)
        make_files(shown.program, folder)
        before = [open(os.path.join(folder, name), "rb").read() for name in ("other.db", "later.db", "text")]
        for part in (version, everything, answer_statuses, cut, port_and_file_in_use, full_disk, little_memory):
            part(shown)
        assert before == [open(os.path.join(folder, name), "rb").read() for name in ("other.db", "later.db", "text")]
    if "--list" in sys.argv:
        for (status, word), call in sorted(shown.words.items()):
            print(status, word or "-", ":", call)
    print(f"outside: {shown.count} calls, each with its words and its exit code, and the files of others unchanged; "
          f"the {compare(shown)} words of the tables of CLI.md came up, and no other")


main()
