"""Puts a copy in the database's place. The server must not run.

    portal-restore FILE [DATABASE]
    portal-restore --whole [--key KEY] FILE     makes a new machine the venue of a whole copy
    portal-restore --drill [--key KEY] [FILE]   restores into a scratch folder, and prints the takings of the
                                                last day; with --key the newest whole copy, or FILE

FILE is a copy that portal-backup made, or a folder, from an earlier one. With --venue NAME all is of a venue
by name.

The copy is checked before anything is replaced, and what was there is kept beside the database. Everything
after the copy is lost: vouchers redeemed or refunded since are good again, those sold since are not, and
numbers of sessions are given anew. So the gateway's counts are dropped too, or they would be counted on other
devices' sessions. Counts and sums of what was sold, refunded and redeemed since are printed, and a list with
the codes is kept beside what was replaced.
"""

from __future__ import annotations

import argparse
import contextlib
import datetime
import os
import pathlib
import shlex
import shutil
import subprocess
import sys
import tempfile
import time
import tomllib
from collections.abc import Iterator

from portal_field.backup.copies import (
    UNIT, BadCopy, InUse, ask_portal, check_by_portal, copy_both, fold, head_of, look, nobody_has_it_open,
    server_state, sum_of, words_of)
from portal_field.backup.undone_entries import undone_entries, write_list
from portal_field.backup.venue_copy import BEGIN, copies_in
from portal_field.backup.venue_restore import check, restore_venue, unpack
from portal_field.lib.nearest import with_nearest
from portal_field.lib.owned_files import is_plain, names_to_disk, opened_folder, own_folder, put
from portal_field.venues.places import Places

COPIES, COPIES_OF_VENUE = "/var/backups/portal", "/var/backups/portal-whole"
ANOTHER = f"take another one: `ls {COPIES} {COPIES_OF_VENUE}`"
SCRATCH = ".restore-"       # begins the names of folders that a restore works in
FLUSH = "flush set inet portal alive; flush set inet portal up; flush set netdev portal down"


@contextlib.contextmanager
def server_stopped(database: pathlib.Path, unit: str = UNIT) -> Iterator[None]:
    """InUse: the server runs, or another process has the database open; nobody opens it inside. `activating`
    is a server that systemd starts again each second. What is no plain file is no database that a server
    has."""
    if server_state(unit) not in ("", "inactive", "failed"):
        raise InUse(f"stop {unit} first")
    with nobody_has_it_open(database) if is_plain(database) else contextlib.nullcontext():
        yield


@contextlib.contextmanager
def scratch_folder(folder: pathlib.Path) -> Iterator[pathlib.Path]:
    """A folder that this user alone changes: in that of the database, or where that is another user's in
    /var/tmp."""
    place = folder if folder.stat().st_uid == os.geteuid() else pathlib.Path("/var/tmp")
    for rest in (*folder.glob(SCRATCH + "*"), *place.glob(SCRATCH + "*")):      # by a restore that was killed
        if rest.lstat().st_uid == os.geteuid():
            shutil.rmtree(rest, ignore_errors=True)
    with tempfile.TemporaryDirectory(prefix=SCRATCH, dir=place) as scratch:
        yield pathlib.Path(scratch)


def scratch_copy(args: argparse.Namespace, scratch: pathlib.Path) -> pathlib.Path:
    """The copy as one file in a scratch folder, checked as it came there."""
    source = args.file / "book.db" if args.file.is_dir() else args.file
    sums = pathlib.Path(f"{source}.sha256")
    one = scratch / "restored.db"
    copy_both(source.resolve(), one)        # a link that somebody names counts
    if sums.exists() and sum_of(one) != sums.read_text().split()[0]:
        raise BadCopy(f"its SHA-256 is not that of {sums.name}")
    fold(one)
    look(one)
    # the program would make its tables beside those of another, as of the counter's journal
    if not head_of(one):
        raise BadCopy("it is no copy of the server's database")
    check_by_portal(shlex.split(args.portal), args.settings, one)
    return one


def keep_what_is_there(database: pathlib.Path) -> pathlib.Path:
    """Gives the database's files a second name in a folder of their own, which needs no room on a disk that
    is full."""
    aside = pathlib.Path(f"{database}.before-{datetime.datetime.now(datetime.UTC):%Y%m%dT%H%M%S.%fZ}")
    with opened_folder(database.parent) as folder:
        os.mkdir(aside.name, 0o700, dir_fd=folder)
        with own_folder(aside) as kept:
            for name in (f"{database.name}{end}" for end in ("", "-wal", "-shm")):
                with contextlib.suppress(FileNotFoundError):
                    os.link(name, name, src_dir_fd=folder, dst_dir_fd=kept, follow_symlinks=False)
            names_to_disk(kept)
        names_to_disk(folder)
    return aside


def replace(database: pathlib.Path, one: pathlib.Path) -> None:
    """Puts a copy in the database's place; it belongs to whom the folder belongs to."""
    with open(one, "rb") as file:       # the old log over the new database would damage it
        put(database, file, f"{database.name}-wal", f"{database.name}-shm")
    mark, head = database.with_name("schema"), head_of(one)
    if os.path.lexists(mark) and head:  # the package compares it with what the program knows
        put(mark, f"{head[0]}\n".encode())


def drop_counts() -> None:
    """Empties the gateway's sets, whose counts belong to sessions of the replaced database."""
    if not shutil.which("nft"):
        return
    if subprocess.run(["nft", "list", "set", "inet", "portal", "up"], capture_output=True).returncode == 0:
        subprocess.run(["nft", FLUSH], check=True)


def use_zone(settings: pathlib.Path) -> None:
    """Takes the venue's zone from the server's settings for local times."""
    os.environ["TZ"] = tomllib.loads(settings.read_text())["zone"]
    time.tzset()


def list_what_is_undone(args: argparse.Namespace, one: pathlib.Path, aside: pathlib.Path) -> list[str]:
    """Writes the list of what the copy undoes beside what it replaces; the lines to print."""
    if not os.listdir(aside):
        return []
    try:
        use_zone(args.settings)
        undone = undone_entries(args.database, one, one.parent)
        lines = [undone.counts(), f"each with its code: {write_list(undone, aside)}"]
    except Exception as fault:      # whatever is wrong with what is replaced hinders no restore
        return [f"what this undid is not known: what was there before cannot be read: {fault}"]
    if undone.damage:
        lines.append(f"more may be undone: what was there before is damaged: {undone.damage}")
    return lines


def restore(args: argparse.Namespace) -> None:
    """Puts a checked copy in the database's place, and prints what that undid."""
    with server_stopped(args.database, args.unit), scratch_folder(args.database.parent) as scratch:
        one = scratch_copy(args, scratch)
        aside = keep_what_is_there(args.database)
        lines = list_what_is_undone(args, one, aside)
        replace(args.database, one)
    if args.unit == UNIT:
        drop_counts()
    print(f"restored; what was there before is in {aside}", *lines, sep="\n")


def last_day(path: pathlib.Path, settings: pathlib.Path) -> str:
    """The day of the last command that the database holds, in the venue's zone."""
    head = head_of(path)
    if not head:
        raise BadCopy("it holds no last moment")
    use_zone(settings)
    return time.strftime("%Y-%m-%d", time.localtime(head[1]))


def drill(args: argparse.Namespace) -> None:
    """Restores into a scratch folder, and prints the takings of the copy's last day."""
    portal = shlex.split(args.portal)
    with tempfile.TemporaryDirectory() as scratch:
        one, settings = pathlib.Path(scratch), args.settings
        if is_of_venue(args.file):
            venue = unpack(args.file, args.key, one)
            check(venue, portal)
            one, settings = venue.database, venue.settings
        else:
            one = scratch_copy(args, one)
        day = last_day(one, settings)
        takings = ask_portal(portal, settings, one, "takings", day, day)
    print(f"{args.file} restores and checks; the takings of its last day:")
    print(takings, end="")


def is_of_venue(file: pathlib.Path) -> bool:
    """Whether a copy is one of a whole venue, by its name."""
    return file.name.startswith(BEGIN)


def become_venue(args: argparse.Namespace) -> None:
    """Makes this machine the venue of a whole copy."""
    if os.geteuid() != 0:
        raise InUse("it needs root")
    with scratch_folder(args.database.parent) as scratch:
        print(*restore_venue(args.file, args.key, shlex.split(args.portal), scratch), sep="\n")


def newest(folder: pathlib.Path, venue: bool) -> pathlib.Path:
    """The newest copy of a folder, of the database or of the whole venue. BadCopy: there is none. OSError:
    the folder cannot be read."""
    os.scandir(folder).close()      # a glob finds nothing where it may not look
    copies = copies_in(folder) if venue else [path for path in sorted(folder.glob("[0-9]*Z*"))
                                              if path.suffix != ".sha256"]
    if not copies:
        raise BadCopy(f"there is none in {folder}\n    do: `systemctl start portal-backup`, which makes one")
    return copies[-1]


def check_places(args: argparse.Namespace) -> None:
    """BadCopy: there is no such copy. InUse: there is no folder for the database. OSError: this user may not
    look."""
    file, folder = args.file, args.database.parent
    if not file.exists():
        names = os.listdir(file.parent) if file.parent.is_dir() else []
        near = with_nearest(file.name, (name for name in names if not name.endswith(".sha256")))
        raise BadCopy(f"there is no file {file.parent / near}")
    if not args.drill and not folder.is_dir():
        raise InUse(f"there is no folder {folder} for the database: no venue is set up here\n    do: "
                    "`portal-setup` first; or `portal-restore --whole` with a copy of the whole venue")


def of_venue(args: argparse.Namespace) -> None:
    """Takes the paths of a venue by name for those that the command line does not say."""
    places = Places(args.venue)
    args.unit, args.settings, args.folder = places.unit, places.settings / "portal.toml", places.copies
    args.database = places.database


def main() -> int:
    """Restores, or tries to with --drill; 0 where that was done."""
    words = argparse.ArgumentParser(description="Puts a copy in the database's place. The server must not "
                                                "run.")
    words.add_argument("--drill", action="store_true",
                       help="only try it: print the takings of the copy's last day")
    words.add_argument("--whole", action="store_true",
                       help="make this machine the venue of a whole copy; none was set up on it")
    words.add_argument("--key", type=pathlib.Path, help="the file with the secret key of an encrypted copy")
    words.add_argument("--settings", type=pathlib.Path, default="/etc/portal/portal.toml",
                       help="the server's settings")
    words.add_argument("--portal", default="/usr/bin/portal", help="the program, as a command line")
    words.add_argument("--folder", type=pathlib.Path,
                       help="where --drill takes the newest: /var/backups/portal, with --key "
                            "/var/backups/portal-whole")
    words.add_argument("--unit", default=UNIT, help="the server's unit, as portal@NAME.service")
    words.add_argument("--venue", metavar="NAME",
                       help="of the venue of this name: its unit, settings, copies and database")
    words.add_argument("file", type=pathlib.Path, nargs="?", metavar="FILE")
    words.add_argument("database", type=pathlib.Path, nargs="?", default="/var/lib/portal/book.db",
                       metavar="DATABASE")
    args = words.parse_args()
    if args.venue:
        of_venue(args)
    if not args.file and not args.drill:
        words.error("which FILE?")
    try:
        whole = args.key is not None
        folder = args.folder or pathlib.Path(COPIES_OF_VENUE if whole else COPIES)
        args.file = args.file or newest(folder, whole)
        check_places(args)
        if args.drill:
            drill(args)
        else:
            become_venue(args) if args.whole else restore(args)
    except BadCopy as fault:
        do = "" if "\n    do: " in str(fault) else f"\n    do: {ANOTHER}"
        print(f"portal-restore: the copy is not used: {fault}{do}", file=sys.stderr)
        return 1
    except (InUse, OSError, LookupError, subprocess.SubprocessError) as fault:
        print("portal-restore:", words_of(fault), file=sys.stderr)
        return 1
    return 0
