"""A venue sells, serves and is copied as the documents say, before its machine is lost. What had left it is in
/srv/venue/kept."""

from __future__ import annotations

import json
import os
import re
import shutil
import time

import pytest
from machine import FIELD, HERE, code, output, sh, until
from new_machine import KEPT, KEY, commands, facts, follow, remarks, unlisted_files

pytestmark = pytest.mark.container


def test_key_and_copy(venue: None) -> None:
    """Tokens of a venue are older than a night."""
    code()
    first, second, _ = commands("Before it happens")
    faults = follow(first)
    public = re.search(r"public key: (age1\w+)", KEY.read_text())
    assert public and not faults, f"the commands of the page make a pair of keys  [{faults}]"
    FIELD.write_text(re.sub(r'(?m)^backup_key = ""', f'backup_key = "{public[1]}"', FIELD.read_text()))
    done = sh("portal-setup")
    assert done.returncode == 0, f"set-up takes the public key  [{output(done)}]"
    old = time.time() - 90 * 86400
    os.utime("/etc/portal/credentials/desk_token", (old, old))
    faults = follow(second)
    assert not faults, f"a copy is made, and the drill opens it with the key  [{faults}]"


def test_list_of_what_is_kept(venue: None) -> None:
    left, counted = unlisted_files(), os.listdir("/var/lib/portal-counter")
    assert not left and "receipts.db" in counted, (
        f"no file below /var/lib is unknown to the list, on a machine that sold  [{left}; {counted}]")


def test_what_left_the_machine(venue: None) -> None:
    """By a copy of files: what rsync does is tested elsewhere."""
    KEPT.mkdir()
    copies = sorted(path for path in os.listdir("/var/backups/portal-whole") if path.endswith(".age"))
    modes = sh("stat -c %U:%a /var/backups/portal-whole /var/backups/portal-whole/*").stdout.split()
    assert copies and set(modes) == {"root:700", "root:600"}, f"root alone reads the copies  [{modes}]"
    shutil.copy(f"/var/backups/portal-whole/{copies[-1]}", KEPT)
    shutil.copy(KEY, KEPT)
    until(lambda: facts()["sessions"], 10)
    (KEPT / "facts.json").write_text(json.dumps({**facts(), "remarks": remarks()}))
    (HERE / "lost").touch()
    os.sync()
