"""A built program of which one request for memory is refused. Standard library alone."""

import os
import shutil
import sqlite3
import subprocess
import tempfile

LIBRARY = {"path": ""}
ROOM = "/dev/shm" if os.access("/dev/shm", os.W_OK) else None


def folder():
    return tempfile.TemporaryDirectory(dir=ROOM)


def environment(at, said):
    """What refuses the request for memory of that number."""
    return None if at is None else {**os.environ, "LD_PRELOAD": LIBRARY["path"], "REFUSE_AT": str(at), "REFUSE_SAID": said}


def run(words, room, data=b"", at=None):
    """Status, output, errors, and whether a request for memory was refused."""
    said = os.path.join(room, "said")
    done = subprocess.run(words, cwd=room, input=data, capture_output=True, env=environment(at, said), check=False, timeout=60)
    is_refused = os.path.exists(said)
    if is_refused:
        os.remove(said)
    return done.returncode, done.stdout, done.stderr, is_refused


def copy_files(source, target):
    """The database file and what lies beside it."""
    for name in os.listdir(target):
        os.remove(os.path.join(target, name))
    for name in os.listdir(source):
        shutil.copyfile(os.path.join(source, name), os.path.join(target, name))


def bytes_of(room):
    """The bytes of each file that a database has."""
    files = {}
    for name in sorted(os.listdir(room)):
        with open(os.path.join(room, name), "rb") as file:
            files[name] = file.read()
    return files


def rows(room):
    """All that the database file holds, read by SQLite over a copy; nothing where there is no file."""
    if not os.path.exists(os.path.join(room, "portal.db")):
        return []
    with folder() as copy:
        copy_files(room, copy)
        book = sqlite3.connect(os.path.join(copy, "portal.db"))
        try:
            return list(book.iterdump())
        finally:
            book.close()
