"""Restores that are refused, copies without a server, a full disk, and a restore."""

from __future__ import annotations

import contextlib
import os
import pathlib
import re
from collections.abc import Iterator

import pytest
from machine import (
    DATABASE, captive, code, copies, is_online, journal, look_up, output, passes, sh, show, until)

pytestmark = pytest.mark.container
ASIDE = pathlib.Path("/run/kept")


@pytest.fixture
def copy(venue: None) -> str:
    """The oldest copy of a database with the session of the guest."""
    if not copies():
        sh("systemctl start portal-backup.service")
    return copies()[0]


@pytest.fixture
def stopped_server(copy: str) -> Iterator[None]:
    """The server is stopped, and serves afterwards."""
    sh("systemctl stop portal")
    yield
    sh("systemctl start portal")
    until(lambda: captive().get("captive") is not None, 10)
    until(passes, 10)


@contextlib.contextmanager
def damaged_database() -> Iterator[None]:
    sh(f"mkdir -p {ASIDE}; mv {DATABASE}* {ASIDE}/; head -c 8192 /dev/urandom > {DATABASE}; chown portal: "
       f"{DATABASE}")
    try:
        yield
    finally:
        sh(f"systemctl stop portal; rm -f {DATABASE}*; mv {ASIDE}/{DATABASE.name}* {DATABASE.parent}/")


def test_restore_under_a_server(copy: str) -> None:
    done = sh("portal-restore", copy)
    assert done.returncode == 1 and "stop portal.service first" in done.stderr, (
        f"a restore under a running server is refused  [{output(done)}]")


def test_restore_under_a_server_that_ends(copy: str, stopped_server: None) -> None:
    """The case that a restore is for: the database is damaged, the server ends at once, systemd starts it
    every second."""
    with damaged_database():
        sh("systemctl start portal")
        until(lambda: show("portal", "SubState") == "auto-restart", 10)
        state = f"{show('portal', 'ActiveState')}/{show('portal', 'SubState')}"
        done = sh("portal-restore", copy)
    assert done.returncode == 1, (
        f"a restore under a server that is started again and again is refused  [the server is {state}; "
        f"{output(done)}]")


def test_copies_without_a_server(stopped_server: None) -> None:
    before = copies()
    with damaged_database():
        done = sh("systemctl start portal-backup.service")
    assert done.returncode != 0 and copies() == before, (
        "with the server stopped a damaged database is not kept as a copy, and said to be  "
        f"[{journal('portal-backup')[-4:]}]")
    done = sh("systemctl start portal-backup.service")
    assert done.returncode == 0 and len(copies()) == len(before) + 1, (
        f"with the server stopped a copy is made all the same  [{journal('portal-backup')[-4:]}]")


def test_restore_onto_a_full_disk(copy: str, stopped_server: None) -> None:
    small = pathlib.Path("/run/small")
    small.mkdir()
    sh("mount", "-t", "tmpfs", "-o", "size=48k", "tmpfs", small)
    (small / "book.db").write_bytes(b"what was there" * 1000)
    before = {path.name: path.read_bytes() for path in small.iterdir()}
    done = sh("portal-restore", copy, small / "book.db")
    after = {path.name: path.read_bytes() for path in small.iterdir() if path.is_file()}
    names = os.listdir(small)
    sh("umount", small)
    assert done.returncode == 1 and "No space" in done.stderr and after == before and len(names) == 1, (
        f"a restore onto a full disk says so, and leaves what was there  [{output(done)}; {names}]")


def test_restore(copy: str) -> None:
    """A voucher that is sold after the copy is unknown once it is restored."""
    text = code()
    sh("systemctl stop portal")
    done = sh("portal-restore", copy)
    sh("systemctl start portal")
    until(lambda: captive().get("captive") is not None, 10)
    look, took = look_up(text)[0], until(passes, 10)
    assert done.returncode == 0 and is_online() and look == 404 and took is not None, (
        "after a restore the session of before the copy goes on, a voucher of after it is unknown  "
        f"[{output(done)}; voucher {look}]")
    lists = list(DATABASE.parent.glob(f"{DATABASE.name}.before-*/undone.csv"))
    modes = [sh("stat", "-c", "%U:%a", path).stdout.strip() for path in lists]
    words = re.search(r"sold [1-9]\d* \(\d+\.00\), refunded 0 ", done.stdout)
    assert (words and text not in done.stdout and modes == ["root:600"]
            and f",{text}," in lists[0].read_text()), (
        "the restore prints how many vouchers it undid, without codes, and lists that one for root alone  "
        f"[{output(done)}; {modes}]")
    own = sh("stat", "-c", "%U:%G:%a", DATABASE).stdout.strip()
    print(f"note restored database: {own}, beside it: {' '.join(os.listdir(DATABASE.parent))}")
