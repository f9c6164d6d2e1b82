"""What each part of a venue keeps below /var/lib: the one list of it. A whole copy has what no part can make
again."""

from __future__ import annotations

import pathlib
from collections.abc import Iterator
from dataclasses import dataclass


@dataclass(frozen=True)
class Folder:
    """A folder of /var/lib: the user whose files they are, the names of those that no part can make again,
    and patterns (as of fnmatch) of those that a part makes again or nobody needs on another machine. In
    names %i is each venue by name, as in a unit."""
    user: str
    kept: tuple[str, ...]
    made_again: tuple[str, ...] = ()


OF_SQLITE = ("*.db-wal", "*.db-shm", "*.db-journal")
DATABASE = "book.db"        # of the server: copied by itself, and placed last
FOLDERS = {
    # the mark of the schema is written with the database; what a restore replaced stays where it was
    "portal": Folder("portal", (DATABASE, "clock-steps.json"),
                     (*OF_SQLITE, "schema", "book.db.before-*", ".snapshot", ".restore-*")),
    # Beside the journal the last plans file that the server accepted. Not the newest number of a receipt:
    # some were given after the copy, and without it the journal begins another series. Nor who is logged in.
    "portal-counter": Folder("portal-counter", ("journal.db", "accepted-plans.toml", "plans.json"),
                             (*OF_SQLITE, "logins.db", "receipts.db")),
    "portal-front": Folder("portal-front", ("agreed.db",), OF_SQLITE),
    "portal-give": Folder("portal-give", ("given.db",), (*OF_SQLITE, "days.json")),
    # accounting, and which access server logged which session in
    "portal-radius": Folder("portal-radius", ("radacct.db", "logins.db"), OF_SQLITE),
    # when the last good copy was made
    "portal-backup": Folder("root", (), ("copied",)),
    # the same of the venues by name; systemd gives the first to its venue's own user at the start
    "portal-venues/%i": Folder("portal", (DATABASE,), (*OF_SQLITE, "book.db.before-*", ".restore-*")),
    "portal-venues-counter": Folder(
        "portal-counter", ("%i/journal.db", "%i/accepted-plans.toml", "%i/plans.json"),
        tuple(f"%i/{name}" for name in (*OF_SQLITE, "logins.db", "receipts.db"))),
    "portal-venues-clock": Folder("root", ("clock-steps.json",)),
    # the report that PostgreSQL is away
    "portal-venues-collect": Folder("root", (), ("told",)),
    "portal-venues-radius/%i": Folder("portal-radius", ("radacct.db", "logins.db"), OF_SQLITE),
}
# The database of a venue by name, below /var/lib, and the folder of its copies
DATABASES, COPIES = f"portal-venues/*/{DATABASE}", "var/backups/portal-venues"


def kept_below(state: pathlib.Path) -> Iterator[tuple[str, pathlib.Path]]:
    """The files below a folder of state that no part can make again, each with the user whose file it is."""
    for name, folder in FOLDERS.items():
        for file in folder.kept:
            pattern = f"{name}/{file}".replace("%i", "*")
            yield from ((folder.user, path) for path in sorted(state.glob(pattern)))
