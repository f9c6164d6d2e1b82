"""What the package's scripts do over a folder of the server, which could put a link, a pipe or a device under any name there. The
scripts run over folders of this test."""

from __future__ import annotations

import os
import pathlib
import stat
import subprocess

import pytest
from planted import KEPT, KINDS, outside_file, plant, service_folder, within
from schema_versions import make_database
from tree import DEB, TOP, Done, output, run

pytestmark = pytest.mark.package
LIMIT = 120     # seconds for a script, whose files go to the disk
# What the scripts ask of the machine; of a copy is kept what it is made from.
COMMANDS = {"systemd-sysusers": "", "gpasswd": "", "systemd-tmpfiles": "", "deb-systemd-invoke": "", "chown": "",
            "portal-backup": 'timeout 5 head -c 9M "$4" >"$5/$3.db"'}


class Machine:
    """Folders of a machine on which the package is installed."""

    def __init__(self, folder: pathlib.Path) -> None:
        self.folder = folder
        (folder / "lib").mkdir()
        (folder / "etc").mkdir()
        self.state, self.outside = service_folder(folder / "lib", "portal"), outside_file(folder)
        self.database, self.copies = self.state / "book.db", folder / "backups/portal"
        for name in ("field", "plans"):
            (folder / "etc" / f"{name}.toml").write_text("")
        for name, line in COMMANDS.items():
            path = folder / "bin" / name
            path.parent.mkdir(exist_ok=True)
            path.write_text(f"#!/bin/sh\n{line}\n")
            path.chmod(0o755)

    def run(self, script: str, *words: str) -> Done:
        """What a script of the package says here."""
        text = (DEB / "debian" / script).read_text()
        for old, new in (("@SCHEMA@", "6"), ("@VERSION@", "2.0.0"), ("@STATE@", "portal"), ("/usr/share/portal/field", f"{TOP}/field"),
                         ("/usr/share/debconf", f"{self.folder}/debconf"), ("/var/lib/", f"{self.folder}/lib/"),
                         ("/var/backups/", f"{self.folder}/backups/"), ("/var/log/", f"{self.folder}/log/"),
                         ("/etc/", f"{self.folder}/etc/"), ("/run/", f"{self.folder}/run/"), (f"{self.folder}/etc/portal/", f"{self.folder}/etc/")):
            text = text.replace(old, new)
        path = self.folder / script
        path.write_text(text)
        with within(LIMIT):
            return run("sh", path, *words, env={**os.environ, "PATH": f"{self.folder}/bin:{os.environ['PATH']}"})


@pytest.fixture
def machine(tmp_path: pathlib.Path) -> Machine:
    return Machine(tmp_path)


def test_upgrade(machine: Machine) -> None:
    make_database(machine.folder / "made.db", 6)
    subprocess.run(["cp", machine.folder / "made.db", machine.database], check=True)
    done = machine.run("postinst", "configure", "1.0.0")
    copy, = machine.copies.glob("before-2.0.0-*.db")
    assert done.returncode == 0 and copy.read_bytes() == machine.database.read_bytes(), (
        f"the database of before is copied, whoever owns its folder  [{output(done)}]")
    mark = machine.state / "schema"
    assert (mark.read_text(), mark.stat().st_uid) == ("6\n", machine.state.stat().st_uid), (
        "the schema version is beside the database, and the folder's owner's")
    assert os.listdir(machine.copies) == [copy.name], "and nothing else is left"


@pytest.mark.parametrize("kind", KINDS)
def test_mark_that_is_planted(machine: Machine, kind: str) -> None:
    for name in ("schema", ".schema.part"):
        plant(kind, machine.state / name, machine.outside)
    done = machine.run("postinst", "configure", "1.0.0")
    mark = machine.state / "schema"
    assert done.returncode == 0 and stat.S_ISREG(mark.lstat().st_mode) and mark.read_text() == "6\n", (
        f"the package is installed, and the schema version is in a plain file  [{output(done)}]")
    assert machine.outside.read_text() == KEPT, "nothing is written through a link"


@pytest.mark.parametrize("name", ("book.db", "book.db-wal"))
@pytest.mark.parametrize("kind", sorted(KINDS.keys() - {"link to nothing"}))
def test_database_that_is_planted(machine: Machine, kind: str, name: str) -> None:
    machine.database.write_bytes(b"of the server")
    plant(kind, machine.state / name, machine.outside)
    done = machine.run("postinst", "configure", "1.0.0")
    assert done.returncode == 0 and f"{machine.state / name}: it is no plain file" in done.stderr, (
        f"it is said that there is no copy, and the package is installed  [{output(done)}]")
    assert os.listdir(machine.copies) == [], "no copy is made of what is outside, or of half a database"


@pytest.mark.parametrize("kind", KINDS)
def test_purge(machine: Machine, kind: str) -> None:
    machine.database.write_bytes(b"of the server")
    machine.outside.chmod(0o644)
    plant(kind, machine.state / "planted", machine.outside)
    done = machine.run("postrm", "purge")
    assert done.returncode == 0 and machine.database.exists(), f"the package is purged, and the database stays  [{output(done)}]"
    assert (machine.outside.read_text(), stat.S_IMODE(machine.outside.stat().st_mode)) == (KEPT, 0o644), (
        "what a link leads to stays as it was")
