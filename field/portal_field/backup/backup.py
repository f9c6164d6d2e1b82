"""A copy of the database while the server serves, as one file; prints its path.

    portal-backup [--pid PID | --still] [--unit UNIT] [--check SETTINGS] [--portal "CMD .."] [--keep N]
    [--name NAME] [--journal FILE] [--whole FOLDER]
        DATABASE FOLDER

The server holds its file locked, so sqlite3's own backup gets "database is locked". Two plain copies one
after the other are no copy: between them the log may be written to the database and begun anew. So the server
is held still for as long as copying both files takes. Then the log is folded into the copy, SQLite and the
program check it, its SHA-256 is written beside it, and it is renamed into place. A server that does not run
is not held, nor one whose database is in a btrfs subvolume of its own: a snapshot of that is one moment of
both files. The counter's journal gets a copy of its own beside that, `journal-NAME.db`: nothing restores it,
as what clerks did stays done. With --whole another folder gets a copy of the whole venue (venue_copy.py).
"""

from __future__ import annotations

import argparse
import contextlib
import datetime
import os
import pathlib
import re
import shlex
import shutil
import signal
import subprocess
import sys
import tempfile
import time
from collections.abc import Iterator

from portal_field.backup import venue_copy
from portal_field.backup.copies import (
    UNIT, BadCopy, InUse, check_by_portal, copy_both, copy_open, fold, look, nobody_has_it_open,
    say_step, server_state, sum_of, to_disk, words_of)

# Waits until its standard input ends, as it does however the backup ends; then the server goes on.
GUARD = "trap '' HUP INT TERM; read -r _; exec %s"


AGAIN = 75                              # of sysexits.h, TEMPFAIL: the next try may go well
JOURNAL = "journal-"                    # begins the names of copies of the counter's journal
TOP_OF_SUBVOLUME = 256                  # the inode's number
# capabilities: to make a snapshot of another user's folder, and to delete it
FOWNER_AND_SYS_ADMIN = 1 << 3 | 1 << 21


class CannotHold(Exception):
    """The server could not be frozen, or not thawed."""


def state_of(pid: int) -> str:
    """The kernel's state letter of each thread of a process, together."""
    tasks = pathlib.Path(f"/proc/{pid}/task").glob("*/stat")
    return "".join(task.read_text().rpartition(")")[2].split()[0] for task in tasks)


def stop_process(pid: int) -> None:
    """Stops a process, and waits until each of its threads has stopped. CannotHold: it did not."""
    os.kill(pid, signal.SIGSTOP)
    end = time.monotonic() + 5
    while set(state_of(pid)) != {"T"}:      # the signal is sent at once, but a write in the kernel ends first
        if time.monotonic() > end:
            raise CannotHold(f"process {pid} did not stop")
        time.sleep(0.001)


@contextlib.contextmanager
def goes_on_after(line: str) -> Iterator[None]:
    """Has the server go on at the end of the block, whatever happens: this program may even be killed
    inside."""
    words = ["sh", "-c", GUARD % line]
    guard = subprocess.Popen(words, stdin=subprocess.PIPE, stdout=subprocess.DEVNULL, start_new_session=True)
    assert guard.stdin
    try:
        yield
    finally:
        guard.stdin.close()
        status = guard.wait()
    if status != 0:
        raise CannotHold(f"`{line}` ended with {status}")


@contextlib.contextmanager
def held_still(pid: int | None, still: bool, database: pathlib.Path, unit: str = UNIT) -> Iterator[None]:
    """Holds the server still inside, so that it writes nothing."""
    if pid is not None:
        with goes_on_after(f"kill -CONT {pid}"):
            stop_process(pid)
            yield
    elif still or server_state(unit) in ("inactive", "failed"):      # nobody writes
        with nobody_has_it_open(database):
            yield
    else:
        with goes_on_after(f"systemctl thaw {unit}"):
            subprocess.run(["systemctl", "freeze", unit], check=True)
            yield


def snapshots_work(folder: pathlib.Path) -> bool:
    """Whether the folder is a btrfs subvolume of its own, and this process may make a snapshot of it beside
    it, and delete that."""
    kinds = subprocess.run(["stat", "--file-system", "--format=%T", folder, folder.parent],
                           capture_output=True, text=True).stdout
    if kinds != "btrfs\nbtrfs\n" or folder.stat().st_ino != TOP_OF_SUBVOLUME or not shutil.which("btrfs"):
        return False
    rights = re.search(r"CapEff:\s*([0-9a-f]+)", pathlib.Path("/proc/self/status").read_text())
    return rights is not None and int(rights[1], 16) & FOWNER_AND_SYS_ADMIN == FOWNER_AND_SYS_ADMIN


def btrfs(*words: object) -> None:
    """Runs `btrfs subvolume`."""
    subprocess.run(["btrfs", "subvolume", *map(str, words)], check=True, stdout=subprocess.DEVNULL)


@contextlib.contextmanager
def snapshot(database: pathlib.Path) -> Iterator[pathlib.Path]:
    """The database in a read-only snapshot of its folder, while the server writes on. It is beside that
    folder, where the server cannot put a link to another one."""
    place = database.parent.with_name(f".{database.parent.name}.snapshot")
    if place.exists():          # by a backup that was killed
        btrfs("delete", place)
    btrfs("snapshot", "-r", database.parent, place)
    try:
        yield place / database.name
    finally:
        btrfs("delete", place)


def make(args: argparse.Namespace, part: pathlib.Path) -> pathlib.Path:
    """Makes the copy in a folder of its own, and checks it. Its path."""
    one = part / "copy.db"
    if args.pid is None and not args.still and snapshots_work(args.database.parent):
        with snapshot(args.database) as moment:
            copy_both(moment, one)
    else:
        with held_still(args.pid, args.still, args.database, args.unit):
            copy_both(args.database, one)
    fold(one)
    look(one)
    if args.check:
        check_by_portal(shlex.split(args.portal), args.check, one)
    return one


def copy_journal(journal: pathlib.Path | None, part: pathlib.Path, goal: pathlib.Path) -> int:
    """Copies the journal as a whole, while the counter's page goes on; the status. A counter that did
    nothing yet has no journal."""
    if journal is None or not journal.exists():
        return 0
    one = part / "journal.db"
    try:
        copy_open(journal, one)
        look(one)
        put(one, goal)
    except (BadCopy, OSError) as fault:
        print(f"portal-backup: the counter's journal, {journal}, is not copied: {words_of(fault)}",
              file=sys.stderr)
        return 1
    return 0


def copy_venue(args: argparse.Namespace, database: pathlib.Path) -> int:
    """Makes the copy of the whole venue, with this copy of its database; the status."""
    folder: pathlib.Path = args.whole
    say_step("packing the whole venue")
    folder.mkdir(parents=True, exist_ok=True, mode=0o700)
    for rest in folder.glob(".part-*"):         # by a backup that was killed
        shutil.rmtree(rest, ignore_errors=True)
    try:
        settings = venue_copy.Settings.read(args.root / venue_copy.SETTINGS)
        with tempfile.TemporaryDirectory(prefix=".part-", dir=folder) as part:
            one = pathlib.Path(part) / f"{venue_copy.BEGIN}{database.stem}{venue_copy.END}"
            venue_copy.pack(one, args.root, database, settings.paths, version_of(shlex.split(args.portal)))
            if settings.key:
                one = venue_copy.seal(one, settings.key)
            put(one, folder / one.name)
    except (BadCopy, OSError, subprocess.SubprocessError) as fault:
        print(f"portal-backup: the whole venue is not copied to {folder}: {words_of(fault)}", file=sys.stderr)
        return 1
    venue_copy.drop_old(folder)
    return 0


def version_of(portal: list[str]) -> str:
    """The version that the program says it is; nothing where it says none."""
    words = subprocess.run([*portal, "--version"], capture_output=True, text=True).stdout.split()
    return words[1] if len(words) > 1 else ""


def put(one: pathlib.Path, goal: pathlib.Path) -> None:
    """Moves a copy to its place, the sum first: a copy in its place has one."""
    sums = one.with_name(f"{one.name}.sha256")
    sums.write_text(f"{sum_of(one)}  {goal.name}\n")
    to_disk(one, sums)
    sums.rename(f"{goal}.sha256")
    one.rename(goal)
    to_disk(goal.parent)


def drop_old(folder: pathlib.Path, keep: int) -> None:
    """Removes all copies but the newest, by the times with which their names begin. Copies that an earlier
    portal-backup made are folders."""
    copies = [path for path in sorted(folder.glob("[0-9]*Z*")) if path.suffix != ".sha256"]
    for old in (*copies[:-keep], *sorted(folder.glob(f"{JOURNAL}[0-9]*Z.db"))[:-keep]):
        if old.is_dir():
            shutil.rmtree(old)
        else:
            old.unlink()
    for sums in folder.glob("*.db.sha256"):     # also one whose copy did not come
        if not sums.with_suffix("").exists():
            sums.unlink()


def read_words() -> argparse.Namespace:
    """The words of the command line."""
    words = argparse.ArgumentParser(
        description="A copy of the database while the server serves, as one file.")
    words.add_argument("--pid", type=int, help="the server's process; without it the unit is frozen")
    words.add_argument("--unit", default=UNIT, help="the server's unit, as portal@NAME.service")
    words.add_argument("--still", action="store_true", help="nobody writes to this database: hold no server")
    words.add_argument("--check", type=pathlib.Path, metavar="SETTINGS",
                       help="the server's settings: check the copy")
    words.add_argument("--portal", default="/usr/bin/portal", help="the program, as a command line")
    words.add_argument("--keep", type=int, default=0, metavar="N", help="keep the N newest copies alone")
    words.add_argument("--journal", type=pathlib.Path, metavar="FILE", help="copy the counter's journal too")
    words.add_argument("--whole", type=pathlib.Path, metavar="FOLDER",
                       help="keep a copy of the whole venue in this folder, too")
    # of the venue, for tests
    words.add_argument("--root", type=pathlib.Path, default="/", help=argparse.SUPPRESS)
    words.add_argument("--name", help="the copy's name without .db; else the time")
    words.add_argument("database", type=pathlib.Path)
    words.add_argument("folder", type=pathlib.Path)
    return words.parse_args()


def main() -> int:
    """Makes one copy, and prints its path; 0 where it is good, and those of the journal and the venue too."""
    args = read_words()
    for number in (signal.SIGTERM, signal.SIGHUP):
        signal.signal(number, lambda got, _: sys.exit(128 + got))       # so that the folder below is removed
    args.folder.mkdir(parents=True, exist_ok=True, mode=0o700)
    for rest in args.folder.glob(".part-*"):    # by a backup that was killed
        shutil.rmtree(rest, ignore_errors=True)
    name = args.name or datetime.datetime.now(datetime.UTC).strftime("%Y%m%dT%H%M%S.%fZ")
    goal = args.folder / f"{name}.db"
    try:
        with tempfile.TemporaryDirectory(prefix=".part-", dir=args.folder) as part:
            put(make(args, pathlib.Path(part)), goal)
            status = copy_journal(args.journal, pathlib.Path(part), goal.with_name(JOURNAL + goal.name))
        if args.whole:
            status = copy_venue(args, goal) or status
    except BadCopy as fault:
        print("portal-backup: the copy is not kept:", fault, file=sys.stderr)
        return 1
    except (CannotHold, InUse, OSError, subprocess.SubprocessError) as fault:
        print("portal-backup:", words_of(fault), file=sys.stderr)
        return AGAIN
    if args.keep > 0:
        drop_old(args.folder, args.keep)
    print(goal)
    return status
