"""A copy of a whole venue in one file, with which another machine becomes that venue: the database, what the
parts keep (venue_state.py), /etc/portal with its secrets, and files that field.toml names elsewhere, as the
certificate.

It is root's alone. Where field.toml has a `backup_key` it is encrypted to that key by `age`, and can leave
the machine; only who has the other half of the key reads it.
"""

from __future__ import annotations

import datetime
import io
import pathlib
import shutil
import subprocess
import tarfile
import tomllib
from collections.abc import Sequence
from dataclasses import dataclass

from portal_field.backup.copies import BadCopy, copy_open, look, read_only
from portal_field.backup.venue_state import COPIES, DATABASE, DATABASES, kept_below
from portal_field.lib.owned_files import held

ETC, STATE = "etc/portal", "var/lib"        # below the root
SETTINGS = "etc/portal/backup.toml"
LABEL = "venue.toml"                        # the first member: what this is
FORMAT = 1
BEGIN, END, SEALED = "venue-", ".tar.gz", ".age"
KEPT = 7                                    # each has the whole database
SQLITE = b"SQLite format 3\0"


@dataclass(frozen=True)
class Settings:
    """backup.toml: the key that copies are encrypted to, or nothing, and paths outside of /etc/portal."""
    key: str = ""
    paths: tuple[str, ...] = ()

    @classmethod
    def read(cls, path: pathlib.Path) -> Settings:
        """The settings in a file; without a file nothing is encrypted. BadCopy: it cannot be read."""
        try:
            lines = tomllib.loads(path.read_text())
        except FileNotFoundError:
            return cls()
        except (OSError, ValueError) as fault:
            raise BadCopy(f"{path} cannot be read: {fault}") from fault
        return cls(str(lines.get("key", "")), tuple(map(str, lines.get("paths", ()))))


def label(version: str) -> bytes:
    """The text of the first member."""
    now = datetime.datetime.now(datetime.UTC)
    return f'format = {FORMAT}\nversion = "{version}"\nmade = {now:%Y-%m-%dT%H:%M:%SZ}\n'.encode()


def add_text(tar: tarfile.TarFile, name: str, text: bytes) -> None:
    """Adds a file of this text."""
    member = tarfile.TarInfo(name)
    member.size, member.mode, member.mtime = len(text), 0o600, int(datetime.datetime.now().timestamp())
    tar.addfile(member, io.BytesIO(text))


def copy_state(path: pathlib.Path, goal: pathlib.Path) -> None:
    """Copies a file that a part keeps, a database at one moment between two of its transactions. BadCopy: it
    is no whole database."""
    with held(path) as address:
        with open(address, "rb") as file:
            is_database = file.read(len(SQLITE)) == SQLITE
        if not is_database and path.suffix != ".db":
            shutil.copyfile(address, goal)
            return
    try:
        copy_open(path, goal)
    except BadCopy:     # one that keeps a log cannot be opened where nobody has it open, and all is read-only
        if pathlib.Path(f"{path}-wal").exists():
            raise
        read_only(path).close()
        with held(path) as address:
            shutil.copyfile(address, goal)
    look(goal)


def newest_copy(root: pathlib.Path, database: pathlib.Path) -> pathlib.Path:
    """The newest copy of the database of a venue by name, whose server runs. BadCopy: there is none."""
    folder = root / COPIES / database.parent.name
    if copies := sorted(folder.glob("[0-9]*Z.db")):
        return copies[-1]
    raise BadCopy(f"{folder} has no copy: systemctl start portal-venues-backup")


def add_state(tar: tarfile.TarFile, root: pathlib.Path, database: pathlib.Path,
              scratch: pathlib.Path) -> None:
    """Adds what the parts keep, in its place: of the server's database this copy, and of each venue by name
    its newest. BadCopy: one is damaged, or has no copy."""
    state, one = root / STATE, scratch / "state"
    tar.add(database, f"{STATE}/portal/{DATABASE}")
    for _, path in kept_below(state):
        if path == state / "portal" / DATABASE:
            continue
        try:
            by_name = path.match(DATABASES)
            copy_state(newest_copy(root, path) if by_name else path, one)
        except (BadCopy, OSError) as fault:
            raise BadCopy(f"{path} is not copied: {fault}") from fault
        one.chmod(path.lstat().st_mode & 0o777)
        tar.add(one, str(path.relative_to(root)))
        one.unlink()


def without_parts(member: tarfile.TarInfo) -> tarfile.TarInfo | None:
    """Leaves out what is being written at this moment."""
    is_kept = member.isreg() or member.isdir() or member.issym()
    return None if member.name.endswith(".part") or not is_kept else member


def pack(goal: pathlib.Path, root: pathlib.Path, database: pathlib.Path, paths: Sequence[str],
         version: str) -> None:
    """Makes the file `goal`, readable by root alone, of the venue below `root`, with this copy of its
    database. BadCopy: what a part keeps is damaged."""
    goal.touch(mode=0o600)
    with tarfile.open(goal, "w:gz", compresslevel=6) as tar:
        add_text(tar, LABEL, label(version))
        for name in (ETC, *(path.lstrip("/") for path in paths)):
            if (root / name).exists():
                tar.add(root / name, name, filter=without_parts)
        add_state(tar, root, database, goal.parent)


def seal(path: pathlib.Path, key: str) -> pathlib.Path:
    """Encrypts a file to a key, and removes it; the path of what was made. BadCopy: age refuses, or is
    missing."""
    goal = path.with_name(path.name + SEALED)
    try:
        done = subprocess.run(["age", "--encrypt", "--recipient", key, "--output", goal, path],
                              capture_output=True, text=True, timeout=600)
    except FileNotFoundError as fault:
        raise BadCopy("backup_key is set, and the Debian package age is not installed") from fault
    if done.returncode != 0:
        raise BadCopy(f"age says: {done.stderr.strip()}")
    goal.chmod(0o600)
    path.unlink()
    return goal


def copies_in(folder: pathlib.Path) -> list[pathlib.Path]:
    """The whole copies of a folder, the oldest first."""
    return sorted(path for path in folder.glob(f"{BEGIN}*") if path.name.endswith((END, END + SEALED)))


def drop_old(folder: pathlib.Path) -> None:
    """Removes all whole copies but the newest ones, each with its sum."""
    for old in copies_in(folder)[:-KEPT]:
        old.unlink()
        pathlib.Path(f"{old}.sha256").unlink(missing_ok=True)
