"""The two files of a database: after each end that is no kill the database file holds everything alone, a log is never lost beside a
database that is missing or blank, nothing is made where no database is, and the message for a file that is of no use, and of
connections that fail.

    whole.py PROGRAM
"""

from __future__ import annotations

import hashlib
import json
import os
import resource
import shutil
import sqlite3
import subprocess
import sys
import tempfile
import time

from desk import DESK, PLANS, Desk, codes_of, request

SEED = "0" * 64
SALES = 200
DAY = "1970-01-01"
ASKING: list[tuple[str, ...]] = [("check",), ("print", "b1"), ("takings", DAY, DAY)]
NO_DATABASE = "there is no database here: only serve and answer create one"


def expect(what: str, came: object, wanted: object) -> None:
    if came != wanted:
        sys.exit(f"outside: {what}\n  expected: {wanted}\n  came:     {came}")


def answer(desk: Desk, now: int, data: bytes) -> None:
    done = desk.run("answer", "--now", str(now), "--seed", SEED, data=data)
    expect("answer", (done.returncode, done.stderr), (0, ""))


def sale(code: str) -> bytes:
    return request("POST", "/desk/sales", DESK, json.dumps({"code": code}))


def batch() -> bytes:
    return request("POST", "/desk/batches", DESK, json.dumps({"batch": "b1", "plan": "hour", "count": SALES}))


def printed_codes(desk: Desk) -> list[str]:
    return [line.split(",")[0] for line in desk.run("print", "b1").stdout.splitlines()[1:]]


def is_whole_alone(desk: Desk, day: str, what: str) -> None:
    """The database file, copied elsewhere without its log, has all sales: by the program and by SQLite."""
    with tempfile.TemporaryDirectory() as folder:
        alone = Desk(desk.program, folder)
        shutil.copy(os.path.join(desk.folder, "portal.db"), folder)
        with sqlite3.connect(os.path.join(folder, "portal.db")) as file:
            [(sold,)] = file.execute("SELECT count(*) FROM portal_vouchers WHERE sold IS NOT NULL")
        file.close()
        expect(f"{what}: sales in portal.db alone, by SQLite", sold, SALES)
        total = alone.run("takings", day, day).stdout.splitlines()[-1]
        expect(f"{what}: takings of portal.db alone", total, f"net {SALES * 3}.00")


def sold_by_answer(program: str, folder: str) -> Desk:
    desk = Desk(program, folder)
    answer(desk, 0, request("POST", "/desk/plans", DESK, PLANS))
    answer(desk, 0, batch())
    for code in printed_codes(desk):
        answer(desk, 60, sale(code))
    return desk


def answers_leave_it_whole(program: str) -> None:
    with tempfile.TemporaryDirectory() as folder:
        desk = sold_by_answer(program, folder)
        is_whole_alone(desk, DAY, "answer")
        for words in (("print", "b1"), ("takings", DAY, DAY), ("check",)):
            expect(f"{words[0]} of a database that is there", (desk.run(*words).returncode, desk.run(*words).stderr), (0, ""))
            is_whole_alone(desk, DAY, words[0])


def sell_all(desk: Desk, ends: int) -> None:
    """All vouchers are sold by a server, which ends by itself after so many connections, or goes on."""
    desk.start("--count", str(ends))
    desk.answer_to("POST", "/desk/plans", DESK, PLANS)
    desk.answer_to("POST", "/desk/batches", DESK, json.dumps({"batch": "b1", "plan": "hour", "count": SALES}))
    for code in codes_of(desk, "b1"):
        desk.answer_to("POST", "/desk/sales", DESK, json.dumps({"code": code}))


def today() -> str:
    return time.strftime("%Y-%m-%d", time.gmtime())


def serving_leaves_it_whole(program: str) -> None:
    with tempfile.TemporaryDirectory() as folder:
        desk, day = Desk(program, folder), today()
        sell_all(desk, SALES + 3)
        expect("serve --count", desk.process.wait(timeout=30), 0)
        desk.process.stdout.close()
        if day == today():
            is_whole_alone(desk, day, "serve --count")


def starting_makes_it_whole(program: str) -> None:
    """A server that was killed leaves its sales in the log; the next one copies them as it starts, and may be killed at once."""
    with tempfile.TemporaryDirectory() as folder:
        desk, day = Desk(program, folder), today()
        sell_all(desk, 1000000)
        desk.kill()
        desk.start()
        desk.kill()
        if day == today():
            is_whole_alone(desk, day, "serve, after a kill")


def read_at_start(desk: Desk) -> int:
    """How many bytes a server that starts reads. It is then killed."""
    desk.start()
    with open(f"/proc/{desk.process.pid}/io", encoding="ascii") as counts:
        [read] = [int(line.split()[1]) for line in counts if line.startswith("rchar:")]
    desk.kill()
    return read


def clean_end_is_read_once(program: str) -> None:
    """A start opens a database once whose log has nothing to copy. An opening reads some 2.7 times what the file has; two read 5.3 times that."""
    with tempfile.TemporaryDirectory() as folder:
        desk = database_with_log(program, folder)
        desk.start()
        desk.kill()
        times = read_at_start(desk) / len(content(desk, "portal.db"))
        expect("a start with nothing in the log opens the file once", times < 4, True)


def kill_is_read_once(program: str) -> None:
    """A start after a kill opens the database once too. Beside one opening it reads some 1.8 times what the log of 2 MB has; with a second
    opening of the file, which has 2.5 MB, that is 6 times."""
    with tempfile.TemporaryDirectory() as folder:
        desk = Desk(program, folder)
        desk.start("--count", "1000000")
        desk.answer_to("POST", "/desk/plans", DESK, PLANS)
        for number in range(30):
            desk.answer_to("POST", "/desk/batches", DESK, json.dumps({"batch": f"b{number}", "plan": "hour", "count": 500}))
        codes = codes_of(desk, "b1")
        desk.kill()
        desk.start("--count", "1000000")
        while len(content(desk, "portal.db-wal")) < 2 << 20:
            desk.answer_to("POST", "/desk/sales", DESK, json.dumps({"code": codes.pop()}))
        desk.kill()
        log = len(content(desk, "portal.db-wal"))
        after_the_kill, after_that = read_at_start(desk), read_at_start(desk)
        expect("a start after a kill opens the file once", after_the_kill - after_that < 4 * log, True)


def database_with_log(program: str, folder: str) -> Desk:
    """A database whose sales are in its log."""
    desk = Desk(program, folder)
    sell_all(desk, 1000000)
    desk.kill()
    return desk


def content(desk: Desk, name: str) -> bytes:
    with open(os.path.join(desk.folder, name), "rb") as file:
        return file.read()


def write(desk: Desk, name: str, data: bytes) -> None:
    with open(os.path.join(desk.folder, name), "wb") as file:
        file.write(data)


def log_is_kept(program: str) -> None:
    """A log that holds commits beside a database that is missing or blank is `portal: file`, and stays as it is. What asks makes no
    database file either."""
    with tempfile.TemporaryDirectory() as folder:
        desk = database_with_log(program, folder)
        database, log = content(desk, "portal.db"), content(desk, "portal.db-wal")
        text = "  portal.db: the database is empty or missing, and its log holds commits\n"
        for blank in (False, True):
            for words in (*ASKING, ("serve", "--count", "1", "--port", str(desk.port)), ("answer", "--now", "1", "--seed", SEED)):
                if os.path.exists(os.path.join(folder, "portal.db")):
                    os.remove(os.path.join(folder, "portal.db"))
                if blank:
                    write(desk, "portal.db", b"")
                done = desk.run(*words, data=request("GET", "/gateway/sessions", "Portal-Token: gate-token"))
                expect(f"{words[0]} over a log alone", (done.returncode, done.stdout, done.stderr), (3, "", "portal: file\n" + text))
                is_there = os.path.exists(os.path.join(folder, "portal.db"))
                expect(f"{words[0]} over a log alone: a database file is there", is_there, blank or words not in ASKING)
                expect(f"{words[0]} over a log alone: the database", content(desk, "portal.db") if is_there else b"", b"")
                expect(f"{words[0]} over a log alone: the log is as it was", content(desk, "portal.db-wal") == log, True)
        write(desk, "portal.db", database)
        done = desk.run("check")
        expect("check, with the database put back", (done.returncode, done.stdout, done.stderr), (0, "ok\n", ""))
        if today() == time.strftime("%Y-%m-%d", time.gmtime(os.path.getmtime(os.path.join(folder, "settings.toml")))):
            is_whole_alone(desk, today(), "check, with the database put back")


def state_of(folder: str) -> list[tuple[str, int, int, int, bytes]]:
    """Name, mode, size, time of the last change and bytes of each file in a folder, and of what a link there leads to."""
    found = []
    for name in sorted(os.listdir(folder)):
        path, data = os.path.join(folder, name), b""
        if os.path.isfile(path):
            with open(path, "rb") as file:
                data = file.read()
        status = os.lstat(path)
        found.append((name, status.st_mode, status.st_size, status.st_mtime_ns, data))
    return found


def asking_makes_nothing(program: str) -> None:
    """Where no database was made, what asks says so, and leaves everything as it was: bytes, names, modes and times of the last change.
    `answer` makes a database there, which is then asked."""
    for log in (None, b"", b"no log" * 999):
        for name in ("none.db", "none/none.db", "link.db", "empty.db", "to_empty.db"):
            with tempfile.TemporaryDirectory() as folder:
                desk = Desk(program, folder)
                os.symlink("none.db", os.path.join(folder, "link.db"))
                os.symlink("empty.db", os.path.join(folder, "to_empty.db"))
                write(desk, "empty.db", b"")
                if log is not None:
                    write(desk, "none.db-wal", log)
                    write(desk, "empty.db-wal", log)
                before = state_of(folder)
                for words in ASKING:
                    done = subprocess.run([program, *words, "--db", name, "--settings", "settings.toml"], cwd=folder, capture_output=True,
                                          text=True, check=False)
                    what = f"{words[0]} of {name}, with {'no' if log is None else len(log)} bytes in the logs"
                    expect(what, (done.returncode, done.stdout, done.stderr), (3, "", f"portal: file\n  {name}: {NO_DATABASE}\n"))
                    expect(f"{what}: what is there", state_of(folder), before)
    with tempfile.TemporaryDirectory() as folder:
        desk = Desk(program, folder)
        answer(desk, 0, request("POST", "/desk/plans", DESK, PLANS))
        for words in ASKING:
            status, word = (1, "portal: unknown_batch\n") if words[0] == "print" else (0, "")
            done = desk.run(*words)
            expect(f"{words[0]} of a database that answer made", (done.returncode, done.stderr), (status, word))


def database_in_use_is_named(program: str) -> None:
    """A database that a server has just made is in use, whatever of it is in the file yet."""
    with tempfile.TemporaryDirectory() as folder:
        desk = Desk(program, folder)
        desk.start()
        for words in ASKING:
            done = desk.run(*words)
            expect(f"{words[0]} beside a server", (done.returncode, done.stderr), (3, "portal: file\n  portal.db: the database is in use\n"))
        desk.kill()
        done = desk.run("check")
        expect("check after a server that was killed", (done.returncode, done.stdout, done.stderr), (0, "ok\n", ""))


def file_is_explained(program: str) -> None:
    """The line of `portal: file` is followed by one that has the path and what the system says."""
    with tempfile.TemporaryDirectory() as folder:
        Desk(program, folder)
        words = [program, "check", "--settings", "settings.toml", "--db"]
        cases = [("none/portal.db", NO_DATABASE), ("settings.toml", "file is not a database that obeys its schema"),
                 ("settings.toml/portal.db", "Not a directory (os error 20)"), (".", "unsupported"), ("/dev/null", "unsupported"),
                 (":memory:", "unable to open database file"), ("file:portal.db", "unable to open database file")]
        for path, text in cases:
            done = subprocess.run([*words, path], cwd=folder, capture_output=True, text=True, check=False)
            expect(f"check --db {path}", (done.returncode, done.stderr), (3, f"portal: file\n  {path}: {text}\n"))
        done = subprocess.run([program, "check", "--db", "portal.db", "--settings", "none.toml"], cwd=folder, capture_output=True, text=True,
                              check=False)
        expect("check --settings none.toml", (done.returncode, done.stderr),
               (3, "portal: file\n  none.toml: No such file or directory (os error 2)\n"))
        done = subprocess.run([*words, "two\nlines/portal.db"], cwd=folder, capture_output=True, text=True, check=False)
        expect("check --db with a line feed", (done.returncode, done.stderr), (3, "portal: file\n"))


def order_of(batch: str, count: int) -> bytes:
    return request("POST", "/desk/batches", DESK, json.dumps({"batch": batch, "plan": "hour", "count": count}))


def issue(desk: Desk, batch: str, count: int, length: int = resource.RLIM_INFINITY) -> tuple[int, str]:
    """The exit code and the errors of `answer`, which issues a batch and may make no file longer than that. (SIGXFSZ stays ignored.)"""
    seed = hashlib.sha256(batch.encode()).hexdigest()
    done = subprocess.run(desk.words("answer", "--now", "0", "--seed", seed), cwd=desk.folder, input=order_of(batch, count),
                          capture_output=True, check=False, restore_signals=False,
                          preexec_fn=lambda: resource.setrlimit(resource.RLIMIT_FSIZE, (length, length)))
    return done.returncode, done.stderr.decode()


def failed_close_keeps_the_files(program: str) -> None:
    """A batch is answered, and then the close fails, as the database file may not grow: all batches are there at the next opening. So many
    batches are there before that a log, which grows by 128 KiB, has room within the length of the file."""
    with tempfile.TemporaryDirectory() as folder:
        desk = Desk(program, folder)
        answer(desk, 0, request("POST", "/desk/plans", DESK, PLANS))
        issued = {f"a{number}": 500 for number in range(8)}
        for name, count in issued.items():
            expect("a batch, with files of any length", issue(desk, name, count), (0, ""))
        length = len(content(desk, "portal.db"))
        ends = (0, "portal: file\n  portal.db: disk I/O error\n")
        for count in range(1, 41):
            end = issue(desk, f"b{count}", count, length)
            if end[0] == 0:
                issued[f"b{count}"] = count
            if end == ends:
                break
        expect("a batch that is answered, and a close that fails", end, ends)
        for name, count in issued.items():
            done = desk.run("print", name)
            expect(f"codes of {name} after a failed close", (done.stderr, len(done.stdout.splitlines())), ("", count + 1))
        expect("check after a failed close", desk.run("check").stdout, "ok\n")


def is_named_without_descriptors(desk: Desk) -> None:
    """Lets the server have no more descriptors than it has, while peers come, and then more again."""
    used = len(os.listdir(f"/proc/{desk.process.pid}/fd"))
    resource.prlimit(desk.process.pid, resource.RLIMIT_NOFILE, (used, 256))
    peers = [desk.connect() for _ in range(8)]
    time.sleep(2)
    lines = content(desk, "errors").decode().splitlines()
    expect("lines in 2 s", (1 <= len(lines) <= 4, set(lines)), (True, {"portal: network"}))
    resource.prlimit(desk.process.pid, resource.RLIMIT_NOFILE, (256, 256))
    for peer in peers:
        peer.close()
    expect("a request afterwards", desk.ask("GET", "/gateway/sessions", "Portal-Token: gate-token")[0], 200)


def accepts_without_descriptors(program: str) -> None:
    """With no descriptors left the server prints failed connections, at most 4 times in the first 2 seconds, and then serves on."""
    with tempfile.TemporaryDirectory() as folder:
        desk = Desk(program, folder)
        with open(os.path.join(folder, "errors"), "wb") as errors:
            desk.process = subprocess.Popen(desk.words("serve", "--port", str(desk.port)), cwd=folder, stdout=subprocess.PIPE,
                                            stderr=errors, text=True)
        try:
            assert desk.process.stdout
            desk.process.stdout.readline()
            is_named_without_descriptors(desk)
        finally:
            desk.kill()


def main() -> None:
    parts = (answers_leave_it_whole, serving_leaves_it_whole, starting_makes_it_whole, clean_end_is_read_once, kill_is_read_once,
             log_is_kept, asking_makes_nothing, database_in_use_is_named, file_is_explained, failed_close_keeps_the_files,
             accepts_without_descriptors)
    chosen = [part for part in parts if not sys.argv[2:] or part.__name__ in sys.argv[2:]]
    for part in chosen:
        part(sys.argv[1])
    print(f"outside: the database file is whole at each end, and a log is never lost ({len(chosen)} parts)")


main()
