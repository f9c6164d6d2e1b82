"""Makes what FreeRADIUS's rlm_sql needs, before each start, from the files that Debian's freeradius-config
brings.

    python3 -m portal_field.radius.prepare FOLDER RADACCT       the folder for queries.conf, and the database
    of accounting

The stock queries keep the column `class` once three lines of them are taken out of comments. The database
gets the stock tables, and beside them two indexes, and a trigger: a late packet with a lower count takes
nothing away. Beside it stands logins.db: which access server logged which session in.
"""

from __future__ import annotations

import os
import pathlib
import re
import sqlite3
import sys

from portal_field.radius import session_servers

STOCK = pathlib.Path("/etc/freeradius/3.0/mods-config/sql/main/sqlite")
CLASS = re.compile(r"(?m)^(\t(?:column_name|packet_xlat|reply_xlat) =\t)# ")
MORE = """
PRAGMA journal_mode = WAL;
CREATE INDEX IF NOT EXISTS portal_class ON radacct (class);
CREATE INDEX IF NOT EXISTS portal_stop ON radacct (acctstoptime);
CREATE TRIGGER IF NOT EXISTS portal_greatest AFTER UPDATE OF acctinputoctets, acctoutputoctets ON radacct
WHEN coalesce(new.acctinputoctets, 0) < coalesce(old.acctinputoctets, 0)
  OR coalesce(new.acctoutputoctets, 0) < coalesce(old.acctoutputoctets, 0)
BEGIN
  UPDATE radacct SET
    acctinputoctets = max(coalesce(new.acctinputoctets, 0), coalesce(old.acctinputoctets, 0)),
    acctoutputoctets = max(coalesce(new.acctoutputoctets, 0), coalesce(old.acctoutputoctets, 0))
  WHERE radacctid = new.radacctid;
END;
"""


def queries(text: str) -> str:
    """FreeRADIUS's queries with the column `class`."""
    changed_text, count = CLASS.subn(r"\1", text)
    if count != 3:
        raise SystemExit(f"prepare: {STOCK}/queries.conf is not as it was in FreeRADIUS 3.2: {count} lines "
                         f"for `class`")
    return changed_text


def make_database(path: pathlib.Path) -> None:
    """Makes the database of accounting, or adds what an earlier one lacks."""
    os.umask(0o077)
    book = sqlite3.connect(path)
    try:
        if not book.execute("SELECT 1 FROM sqlite_master WHERE name = 'radacct'").fetchone():
            book.executescript(f"BEGIN;\n{(STOCK / 'schema.sql').read_text()}\nCOMMIT;")
        book.executescript(MORE)
    finally:
        book.close()


def main() -> None:
    """Makes queries.conf and both databases."""
    folder, database = (pathlib.Path(word) for word in sys.argv[1:])
    (folder / "queries.conf").write_text(queries((STOCK / "queries.conf").read_text()))
    is_new = not database.exists()
    make_database(database)
    session_servers.make(str(database), is_new)


if __name__ == "__main__":
    main()
