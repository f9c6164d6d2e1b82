"""Makes a machine the venue of a whole copy (venue_copy.py): its settings, secrets, certificate, what the
parts kept, and the database. The package is installed there, and no venue was set up. What a purge of the
package kept there is later than the copy, and stays."""

from __future__ import annotations

import contextlib
import os
import pathlib
import shutil
import subprocess
import tarfile
import time
import tomllib
from dataclasses import dataclass

from portal_field.backup.copies import (
    BadCopy, InUse, check_by_portal, copy_both, fold, head_of, look, read_only, say_step, sum_of)
from portal_field.backup.venue_copy import ETC, FORMAT, LABEL, SEALED, STATE
from portal_field.backup.venue_state import DATABASE, DATABASES, kept_below
from portal_field.lib.owned_files import is_plain, opened_folder, own_folder, put

WITHOUT_IT = "To restore without it put its folder elsewhere"


@dataclass(frozen=True)
class Venue:
    """A whole copy, unpacked below a folder, and checked."""
    folder: pathlib.Path
    version: str            # of the package that made it
    paths: tuple[str, ...]  # outside of /etc/portal

    @property
    def database(self) -> pathlib.Path:
        """The copy of the server's database."""
        return self.folder / STATE / "portal" / DATABASE

    @property
    def settings(self) -> pathlib.Path:
        """The server's settings."""
        return self.folder / ETC / "portal.toml"

    def settings_for(self, database: pathlib.Path) -> pathlib.Path:
        """The settings of a database of the copy: its own, or the server's."""
        own = settings_of(self.folder, database)
        return own if own.exists() else self.settings


def opened(file: pathlib.Path, key: pathlib.Path | None, scratch: pathlib.Path) -> pathlib.Path:
    """The copy as a file that tar reads. BadCopy: its sum is another one, or the key does not open it."""
    beside = pathlib.Path(f"{file}.sha256")
    if beside.exists() and sum_of(file) != beside.read_text().split()[0]:
        raise BadCopy(f"its SHA-256 is not that of {beside.name}")
    if file.suffix != SEALED:
        return file
    if key is None:
        raise BadCopy("it is encrypted: give --key FILE, the file with the secret key")
    goal = scratch / "venue.tar.gz"
    goal.touch(mode=0o600)
    try:
        done = subprocess.run(["age", "--decrypt", "--identity", key, "--output", goal, file],
                              capture_output=True, text=True)
    except FileNotFoundError as fault:
        raise BadCopy("it is encrypted, and the Debian package age is not installed") from fault
    if done.returncode != 0:
        raise BadCopy(f"the key does not open it: {done.stderr.strip().partition(chr(10))[0]}")
    return goal


def checked(tar: tarfile.TarFile) -> list[tarfile.TarInfo]:
    """The members of a copy. BadCopy: one would go elsewhere than below the folder that it is unpacked in."""
    members, links = tar.getmembers(), set[pathlib.PurePosixPath]()
    for member in members:
        path = pathlib.PurePosixPath(member.name)
        if path.is_absolute() or ".." in path.parts or links & set(path.parents) or not (
                member.isreg() or member.isdir() or member.issym()):
            raise BadCopy(f"it has {member.name}, which no copy of a venue has")
        if member.issym():
            links.add(path)
        member.uid = member.gid = 0     # where this machine has no user or group of its name
        member.uname = "root"
    return members


def read_to_end(tar: tarfile.TarFile) -> None:
    """Reads what is behind the last member, where gzip has its sum (RFC 1952, section 2.3.1). OSError: it is
    another one than that of what was read."""
    while tar.fileobj and tar.fileobj.read(2**20):
        pass


def unpack(file: pathlib.Path, key: pathlib.Path | None, scratch: pathlib.Path) -> Venue:
    """Unpacks a copy below a folder that root alone reads. BadCopy: it is no whole copy of a venue."""
    folder = scratch / "venue"
    say_step(f"unpacking {file}")
    folder.mkdir(mode=0o700)
    try:
        with tarfile.open(opened(file, key, scratch)) as tar:
            members = checked(tar)
            tar.extractall(folder, members)
            read_to_end(tar)
        about = tomllib.loads((folder / LABEL).read_text())
    except (tarfile.TarError, EOFError, OSError, ValueError) as fault:
        raise BadCopy(f"it is no copy of a venue: {fault}") from fault
    if about.get("format") != FORMAT:
        raise BadCopy(f"it is of a later version, {about.get('version')}: install that one")
    tops = {"/".join(member.name.split("/")[:2]) for member in members if "/" in member.name}
    return Venue(folder, str(about.get("version")), tuple(sorted(tops - {ETC, STATE})))


def check(venue: Venue, portal: list[str]) -> None:
    """BadCopy: the copy has no settings, or no database that this machine's program goes on with, or one of a
    venue by name."""
    if not venue.settings.exists() or not venue.database.exists():
        raise BadCopy("it has no settings or no database")
    check_database(venue, portal, venue.settings, venue.database)
    for database in sorted((venue.folder / STATE).glob(DATABASES)):
        try:
            check_database(venue, portal, venue.settings_for(database), database)
        except (BadCopy, OSError) as fault:
            raise BadCopy(f"of the venue {database.parent.name}: {fault}") from fault


def check_database(venue: Venue, portal: list[str], settings: pathlib.Path, database: pathlib.Path) -> None:
    """BadCopy: this database is none that this machine's program goes on with."""
    fold(database)
    look(database)
    if not head_of(database):
        raise BadCopy("it has no copy of the server's database")
    try:
        check_by_portal(portal, settings, database)
    except BadCopy as fault:
        raise BadCopy(f"{fault} (it was made by version {venue.version})") from fault


def databases_in(root: pathlib.Path) -> list[pathlib.Path]:
    """The databases below a root: the server's, and those of venues by name."""
    state = root / STATE
    return [path for path in (state / "portal" / DATABASE, *sorted(state.glob(DATABASES))) if path.exists()]


def settings_of(root: pathlib.Path, database: pathlib.Path) -> pathlib.Path:
    """Where the settings of a database below a root are."""
    is_by_name = database.relative_to(root / STATE).match(DATABASES)
    return root / ETC / (f"venues/{database.parent.name}/portal.toml" if is_by_name else "portal.toml")


def batches(database: pathlib.Path) -> set[tuple[str, int]]:
    """The batches of a database that nobody has open, each with the moment of its issue."""
    with contextlib.closing(read_only(database)) as base:
        return set(base.execute("SELECT id, issued FROM portal_batches"))


def check_what_stays(venue: Venue, portal: list[str], root: pathlib.Path, scratch: pathlib.Path) -> None:
    """BadCopy: a database that a purge kept here is damaged, or does not go on from that of the copy."""
    for database in databases_in(venue.folder):
        here, one = root / database.relative_to(venue.folder), scratch / "here.db"
        if not is_plain(here):
            continue
        try:
            copy_both(here, one)
            check_database(venue, portal, venue.settings_for(database), one)
        except BadCopy as fault:
            raise BadCopy(f"{here} does not check: {fault}. {WITHOUT_IT}") from fault
        if batches(database) - batches(one):
            raise BadCopy(f"{here} is of another venue, or older than the copy. {WITHOUT_IT}")


def make_folder(folder: pathlib.Path, user: str) -> None:
    """Makes a folder of state that its user alone reads. One above it, as the units make it, is open, or that
    of the counters' pages, whose folders are the venues'."""
    above = folder.parent
    if not above.exists():
        above.mkdir(parents=True)
        if above.name == "portal-venues-counter":
            above.chmod(0o700)
            shutil.chown(above, user, user)
    with opened_folder(above) as number:
        os.mkdir(folder.name, 0o700, dir_fd=number)
        with own_folder(folder) as made:
            shutil.chown(f"/proc/self/fd/{made}", user, user)


def place_state(venue: Venue, root: pathlib.Path) -> list[str]:
    """Puts what the parts kept in its place, the database last; lines that say what was there, and stays."""
    lines = list[str]()
    for user, path in sorted(kept_below(venue.folder / STATE), key=lambda kept: kept[1] == venue.database):
        goal = root / path.relative_to(venue.folder)
        if is_plain(goal):
            lines.append(f"{goal} was there, and stays")
            continue
        if not goal.parent.exists():
            make_folder(goal.parent, user)
        with open(path, "rb") as file:
            put(goal, file, mode=path.stat().st_mode & 0o777)
    return lines


def place_settings(venue: Venue, root: pathlib.Path) -> list[str]:
    """Puts settings and certificate in their places; lines that say where is what was there before."""
    etc, lines = root / ETC, list[str]()
    if etc.exists():
        aside = etc.with_name(f"portal.before-{time.strftime('%Y%m%dT%H%M%SZ', time.gmtime())}")
        etc.rename(aside)
        lines.append(f"the settings that were there are in {aside}")
    for name in (ETC, *venue.paths):
        goal = root / name
        goal.parent.mkdir(parents=True, exist_ok=True)
        subprocess.run(["cp", "-a", "--backup=simple", "--suffix=.before", "-T", venue.folder / name, goal],
                       check=True)
    os.sync()
    return lines


def is_venue(root: pathlib.Path) -> bool:
    """Whether a venue is set up on a machine, also one by name: a purge keeps a database without settings."""
    return any(settings_of(root, database).exists() for database in databases_in(root))


def restore_venue(file: pathlib.Path, key: pathlib.Path | None, portal: list[str], scratch: pathlib.Path,
                  root: pathlib.Path = pathlib.Path("/")) -> list[str]:
    """Makes the machine below `root` the venue of a copy; the lines to print. BadCopy: it is not used.
    InUse: this machine is a venue already. Nothing was changed then."""
    if is_venue(root):
        raise InUse(f"this machine has a venue already, with a database below {root / STATE}. A copy of one "
                    f"database goes there by `portal-restore FILE`, or with `--venue NAME`")
    venue = unpack(file, key, scratch)
    check(venue, portal)
    check_what_stays(venue, portal, root, scratch)
    has_database = is_plain(root / STATE / "portal" / DATABASE)
    lines = [*place_settings(venue, root), *place_state(venue, root)]
    if (head := head_of(venue.database)) and not has_database:
        put(root / STATE / "portal/schema", f"{head[0]}\n".encode())
    by_name = [path.parent.name for path in sorted((root / STATE).glob(DATABASES))]
    more = [f"and the venues {', '.join(by_name)}, each as of its own newest copy: after portal-setup run "
            f"portal-venues apply"] if by_name else []
    return ["this machine has the venue of the copy now", *lines, *more, "next: portal-setup"]
