"""What keeps the counter from its work, as the first page says it: a server that is silent, a disk that is
full, copies that are old."""

from __future__ import annotations

import os
import pathlib
import shutil
import time
from collections.abc import Callable
from dataclasses import replace

from portal_field.lib.desk_client import Desk, NoAnswer, Refused, Routes

PATIENCE = 2.0          # seconds that the first page waits for the server
NOBODY = "02:00:00:00:00:00"        # a device that has no session
LEAST_ROOM, LEAST_FILES = 64 * 1024**2, 100     # bytes and files of the disk, as portal-doctor has them
OLDEST_COPY = 3         # days: one is made each night
DAY = 86400
Say = Callable[..., str]


def answers(desk: Desk) -> bool:
    """Whether the server answers a question that costs it nothing."""
    try:
        replace(desk, timeout=PATIENCE).request_json(Routes.CAPTIVE, device=NOBODY)
    except NoAnswer:
        return False
    except Refused as fault:
        return fault.word != "stopped"
    return True


def of_server(desk: Desk, say: Say) -> list[str]:
    """What is said of a server that does not answer."""
    return [] if answers(desk) else [
        say("The server does not answer: nothing can be sold, and no voucher is taken."),
        say("It starts again by itself. If this page says so for more than a minute, call for help.")]


def of_disk(folder: pathlib.Path, say: Say) -> list[str]:
    """What is said of the disk that the journal is on, which is the database's, too."""
    try:
        free, files = shutil.disk_usage(folder).free, os.statvfs(folder)
    except OSError:
        return []
    if free >= LEAST_ROOM and (not files.f_files or files.f_favail >= LEAST_FILES):
        return []
    return [say("The disk of this machine is full, so the server will stop soon. Call for help.")]


def copied_at(path: str) -> float:
    """When the last good copy was made; 0 where nothing says so."""
    try:
        return os.stat(path).st_mtime
    except OSError:
        return 0.0


def of_copies(path: str, say: Say) -> list[str]:
    """What is said of the last copy, by the time of the file that each good copy touches; without such a
    file nothing, as before the first night."""
    copied = copied_at(path)
    days = int((time.time() - copied) // DAY)
    return [say("The last copy of the database is %(days)s days old. Call for help.", days=days)
            ] if copied and days >= OLDEST_COPY else []
