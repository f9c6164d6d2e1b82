"""What portal-backup and portal-restore share: one file out of a database and its log, and what is checked of
it.

    python3 -m portal_field.backup.copies DATABASE GOAL     copies both files as they are, for the package
"""

from __future__ import annotations

import contextlib
import fcntl
import hashlib
import os
import pathlib
import shutil
import sqlite3
import subprocess
import sys
import urllib.parse
from collections.abc import Iterator

from portal_field.lib.owned_files import NoPlainFile, held, number_of

UNIT = "portal.service"
MIB = 1 << 20
MAKE_ROOM = "make room where it is short (`du -xh --max-depth=2 / | sort -h | tail`), then run it again"
ENDS = ("", "-wal")             # the database and its log belong together
SHARED, SIZE = 0x40000002, 510  # the bytes of a database file that SQLite locks


class BadCopy(Exception):
    """No copy that a venue could go on with, and why."""


class InUse(Exception):
    """The server runs, or another process has the database open."""


class NotCopied(OSError):
    """A file is not copied, why, and what to do."""

    def __init__(self, why: str, do: str) -> None:
        super().__init__(f"{why}\n    do: {do}")


def words_of(fault: Exception) -> str:
    """What is said of a fault: of one of the system's its file, and why."""
    if isinstance(fault, PermissionError) and os.geteuid() != 0:
        return f"{fault.filename}: only root can read it\n    do: run it as root"
    is_of_a_file = isinstance(fault, OSError) and fault.filename and fault.strerror
    return f"{fault.filename}: {fault.strerror}" if is_of_a_file else str(fault)  # type: ignore[attr-defined]


def say_step(words: str) -> None:
    """Says what begins now, where somebody looks on: standard error is a terminal."""
    if sys.stderr.isatty():
        print(f"{words} ..", file=sys.stderr, flush=True)


def server_state(unit: str = UNIT) -> str:
    """systemd's word for the server: active, activating (also between two starts), inactive, failed; or
    nothing."""
    with contextlib.suppress(OSError):
        words = ["systemctl", "show", "-p", "ActiveState", "--value", unit]
        return subprocess.run(words, capture_output=True, text=True).stdout.strip()
    return ""


@contextlib.contextmanager
def nobody_has_it_open(database: pathlib.Path) -> Iterator[None]:
    """Keeps everybody from opening the database inside: a server that is started meanwhile ends, and systemd
    starts it again. InUse: another process has it open."""
    with held(database) as address, open(address, "rb") as file:
        try:
            fcntl.lockf(file, fcntl.LOCK_SH | fcntl.LOCK_NB, SIZE, SHARED)
        except BlockingIOError as fault:
            raise InUse(f"another process has {database} open") from fault
        yield


def copy_both(database: pathlib.Path, goal: pathlib.Path) -> None:
    """Copies the database and its log, as they are."""
    say_step(f"copying {database}")
    if not database.exists():
        raise BadCopy(f"there is no file {database}")
    for end in ENDS:
        if os.path.lexists(f"{database}{end}"):
            copy_file(pathlib.Path(f"{database}{end}"), f"{goal}{end}")


def copy_file(source: pathlib.Path, goal: str) -> None:
    """Copies a file, with blocks in common where the file system can. NotCopied: in one sentence why not."""
    env = {**os.environ, "LC_ALL": "C"}
    with held(source) as address:
        words = ["cp", "--reflink=auto", "--preserve=timestamps", address, goal]
        done = subprocess.run(words, capture_output=True, text=True, timeout=120, env=env,
                              pass_fds=[number_of(address)])
    if done.returncode != 0:
        why = done.stderr.strip().rpartition(": ")[2] or f"cp ended with status {done.returncode}"
        folder = next(path for path in pathlib.Path(goal).parents if not path.name.startswith("."))
        size, free = (number / MIB for number in (os.path.getsize(source), shutil.disk_usage(folder).free))
        raise NotCopied(f"{source} ({size:.1f} MiB) is not copied to {folder} ({free:.1f} MiB are free): "
                        f"{why}", MAKE_ROOM)


def fold(path: pathlib.Path) -> None:
    """Brings the log into the database, so that one file holds all."""
    say_step("SQLite checks the copy")
    try:
        with contextlib.closing(sqlite3.connect(path, isolation_level=None)) as base:
            busy = base.execute("PRAGMA wal_checkpoint(TRUNCATE)").fetchone()[0]
    except sqlite3.Error as fault:
        raise BadCopy(f"SQLite cannot read it: {fault}") from fault
    log = pathlib.Path(f"{path}-wal")
    if busy or (log.exists() and log.stat().st_size > 0):
        raise BadCopy("SQLite did not fold the log in")
    for end in ("-wal", "-shm"):
        pathlib.Path(f"{path}{end}").unlink(missing_ok=True)
    path.chmod(0o600)


def address_of(path: pathlib.Path) -> str:
    """SQLite's address of a file that has no log and that nobody writes, to read it."""
    return f"file:{urllib.parse.quote(str(path))}?mode=ro&immutable=1"


def read_only(path: pathlib.Path) -> sqlite3.Connection:
    """A connection to a database that changes neither its file nor its log."""
    return sqlite3.connect(address_of(path), uri=True)


def copy_open(database: pathlib.Path, goal: pathlib.Path) -> None:
    """Copies a database that others write to, at one moment between two of their transactions."""
    for end in ("", "-wal", "-shm", "-journal"):
        if os.path.lexists(f"{database}{end}"):
            with held(pathlib.Path(f"{database}{end}")):
                pass
    try:
        address = f"file:{urllib.parse.quote(str(database))}?mode=ro"
        with contextlib.closing(sqlite3.connect(address, uri=True, timeout=30)) as base, \
                contextlib.closing(sqlite3.connect(goal)) as copy:
            base.backup(copy)
    except sqlite3.Error as fault:
        raise BadCopy(f"SQLite cannot read it: {fault}") from fault
    goal.chmod(0o600)


def look(path: pathlib.Path) -> None:
    """BadCopy: SQLite finds no whole database in this file; one without tables is a database whose log was
    lost."""
    try:
        with contextlib.closing(read_only(path)) as base:
            answer = base.execute("PRAGMA integrity_check").fetchone()[0]
            tables = base.execute("SELECT count(*) FROM sqlite_master").fetchone()[0]
    except sqlite3.Error as fault:
        raise BadCopy(f"SQLite cannot read it: {fault}") from fault
    if answer != "ok":
        raise BadCopy(f"SQLite's integrity check says {answer}")
    if tables == 0:
        raise BadCopy("the database is empty: its log is missing")


def ask_portal(portal: list[str], settings: pathlib.Path, path: pathlib.Path, *words: str) -> str:
    """What the program says over a copy of the copy, as opening writes."""
    trial = path.with_name("trial.db")
    shutil.copy(path, trial)
    try:
        line = [*portal, *words, "--db", str(trial), "--settings", str(settings)]
        done = subprocess.run(line, capture_output=True, text=True)
    finally:
        for file in path.parent.glob("trial.db*"):
            file.unlink()
    if done.returncode != 0:
        raise BadCopy(f"`portal {words[0]}` says {(done.stdout + done.stderr).strip() or done.returncode}")
    return done.stdout


def check_by_portal(portal: list[str], settings: pathlib.Path, path: pathlib.Path) -> None:
    """The program's own check of a copy. BadCopy: it finds something."""
    say_step("the program checks the copy")
    answer = ask_portal(portal, settings, path, "check")
    if answer != "ok\n":
        raise BadCopy(f"`portal check` says {answer.strip()}")


def sum_of(path: pathlib.Path) -> str:
    """The SHA-256 of a file."""
    with open(path, "rb") as file:
        return hashlib.file_digest(file, "sha256").hexdigest()


def head_of(path: pathlib.Path) -> tuple[int, int] | None:
    """The schema version and the last moment that the database holds."""
    try:
        with contextlib.closing(read_only(path)) as base:
            row: tuple[int,
                       int] | None = base.execute("SELECT layout, last_moment FROM portal_head").fetchone()
            return row
    except sqlite3.Error:
        return None


def to_disk(*paths: pathlib.Path) -> None:
    """Has the kernel write files or folders to the disk."""
    for path in paths:
        handle = os.open(path, os.O_RDONLY)
        try:
            os.fsync(handle)
        finally:
            os.close(handle)


def main() -> int:
    """Copies a database that no server has open; 1 where that cannot be done. One that is no plain file is
    none that a server goes on with: that is said, and hinders no upgrade."""
    database, goal = map(pathlib.Path, sys.argv[1:])
    try:
        copy_both(database, goal)
    except NoPlainFile as fault:
        print(f"portal: {words_of(fault)}; no copy of the database is made", file=sys.stderr)
        for end in ENDS:
            pathlib.Path(f"{goal}{end}").unlink(missing_ok=True)
    except (BadCopy, OSError, subprocess.SubprocessError) as fault:
        print("portal:", words_of(fault), file=sys.stderr)
        return 1
    return 0


if __name__ == "__main__":
    sys.exit(main())
