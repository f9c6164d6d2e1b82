"""A PostgreSQL of a test's own, on a socket in a folder, with the table of venues."""

from __future__ import annotations

import os
import pathlib
import shutil
import subprocess
import tempfile
import unittest
from typing import Any, ClassVar

from portal_field.venues.places import Machine

PROGRAMS = pathlib.Path("/usr/lib/postgresql/15/bin")


def as_owner(*words: object, **more: Any) -> None:
    """Runs a program of PostgreSQL, which refuses root, by its own user."""
    before = ["setpriv", "--reuid=postgres", "--regid=postgres", "--clear-groups"] if os.geteuid() == 0 else []
    subprocess.run([*before, *map(str, words)], check=True, stdout=subprocess.DEVNULL, **more)


class OwnPostgres(unittest.TestCase):
    """One PostgreSQL for the tests of a class."""
    folder: ClassVar[pathlib.Path]

    @classmethod
    def setUpClass(cls) -> None:
        cls.folder = pathlib.Path(tempfile.mkdtemp(dir="/tmp"))
        if os.geteuid() == 0:
            shutil.chown(cls.folder, "postgres", "postgres")
        as_owner(PROGRAMS / "initdb", "-D", cls.folder / "data", "-A", "trust", "-U", "chain", "--no-sync", "--locale=C.UTF-8")
        cls.start()

    @classmethod
    def tearDownClass(cls) -> None:
        cls.stop()
        shutil.rmtree(cls.folder)

    @classmethod
    def start(cls) -> None:
        """Starts PostgreSQL, and waits until it answers."""
        as_owner(PROGRAMS / "pg_ctl", "-w", "-D", cls.folder / "data", "-l", cls.folder / "log", "-o",
                 f"-k {cls.folder} -c listen_addresses= -c fsync=off", "start")

    @classmethod
    def stop(cls) -> None:
        """Stops it."""
        as_owner(PROGRAMS / "pg_ctl", "-w", "-D", cls.folder / "data", "-m", "fast", "stop")

    def address(self, role: str = "chain") -> str:
        """How a role of PostgreSQL reaches it."""
        return f"host={self.folder} user={role} dbname=postgres"

    def of(self, name: str) -> Machine:
        """A machine of the chain."""
        return Machine("127.0.0.1", database=self.address(), machine=name)
