"""mistakes.toml: each mistake is made, and what is printed is what stands there."""

from __future__ import annotations

import os
import pathlib
import re
import shlex
import shutil
import subprocess
import sys
import tempfile
import tomllib
import traceback
import unittest
from collections.abc import Callable
from typing import Any, NoReturn

import demo
from fake_machine import FIELD, SAMPLE, Certificates, FakeMachine, as_root_reads
from needs import lacks, needs

from portal_field.backup import backup, restore
from portal_field.doctor import command as doctor
from portal_field.settings import maker

ROWS: list[dict[str, Any]] = tomllib.loads((FIELD / "test/mistakes.toml").read_text())["mistake"]
# The commands that are run in a copy of this process, since Python takes longer to start than they do; with options.
HERE: dict[str, tuple[Callable[[], int], tuple[str, ...]]] = {
    "setup": (maker.main, ("--root", "out", "--machine", "machine", "--portal", "portal")),
    "portal-doctor": (doctor.main, ("--root", "machine", "--portal", "portal")),
    "portal-restore": (restore.main, ()), "portal-backup": (backup.main, ()), "demo": (demo.main, ())}
COMMANDS = {
    "portal-restore": f'exec /usr/bin/python3 -B {FIELD}/portal-restore "$@"',
    "portal": "echo 'portal 1.0.0 (database schema version 6)'",
    "unprivileged": '[ "$(id -u)" != 0 ] || exec unshare --user "$@"\nexec "$@"'}
CLERKS = '[[clerk]]\nname = "clerk"\nrole = "manager"\npassword = "$6$x$y"\n'
NAMES = ("wifi.venue.lan", "counter.venue.lan")


def pattern_of(text: str) -> str:
    """The pattern of an answer in which `..` stands for a part of a line, and a line of it alone for any lines."""
    lines = ("(?:.*\n)*?" if line == ".." else ".*".join(map(re.escape, line.split(".."))) + "\n"
             for line in text.lstrip("\n").splitlines())
    return "".join(lines)


@needs("openssl")
class Mistakes(unittest.TestCase):
    tls: pathlib.Path

    @classmethod
    def setUpClass(cls) -> None:
        cls.tls = pathlib.Path(cls.enterClassContext(tempfile.TemporaryDirectory()))
        Certificates(cls.tls).sign(cls.tls / "cert.pem", cls.tls / "key.pem", NAMES)

    def test_each_mistake_has_its_answer(self) -> None:
        for row in ROWS:
            with self.subTest(row["is"]), tempfile.TemporaryDirectory() as folder:
                if why := lacks(*row.get("needs", ())):
                    self.skipTest(why)
                self.fill(pathlib.Path(folder))
                self.look(row)

    def fill(self, folder: pathlib.Path) -> None:
        """Makes what each row finds in its folder."""
        self.folder = folder
        (self.folder / "bin").mkdir()
        (self.folder / "field.toml").write_text(SAMPLE.replace("wifi.example", NAMES[0]).replace("counter.example", NAMES[1]))
        shutil.copy(FIELD / "settings/plans.toml", self.folder / "sample-plans.toml")
        machine = FakeMachine(self.folder / "machine")
        machine.says = {"systemctl show -p ActiveState": "inactive\n", **machine.says}
        for name in ("cert", "key"):
            machine.put(f"/etc/portal/tls/{name}.pem", (self.tls / f"{name}.pem").read_text(), mode=0o600)
        machine.put("/etc/portal/gateway.toml", "")
        machine.put("/etc/portal/plans.toml", (FIELD / "settings/plans.toml").read_text().replace("price = 300", "price = 200"))
        machine.put("/etc/portal/clerks.toml", CLERKS, mode=0o640)
        machine.put("/var/lib/portal/x", "")
        machine.on_path(self.folder / "bin")
        for name, line in COMMANDS.items():
            (self.folder / "bin" / name).write_text(f"#!/bin/sh\n{line}\n")
            (self.folder / "bin" / name).chmod(0o755)

        self.env = {**os.environ, "PATH": f"{self.folder}/bin:{os.environ['PATH']}", "SSL_CERT_FILE": str(self.tls / "ca.pem"),
                    "PYTHONPATH": str(FIELD)}

    def sh(self, line: str) -> tuple[int, str]:
        done = subprocess.run(["sh", "-c", line], cwd=self.folder, env=self.env, stdin=subprocess.DEVNULL, stdout=subprocess.PIPE,
                              stderr=subprocess.STDOUT, text=True, timeout=60)
        return done.returncode, done.stdout

    def run_line(self, line: str) -> tuple[int, str]:
        """The status of a command, which may read what another one prints, and all that it prints."""
        before, _, command = line.rpartition(" | ")
        name, *words = shlex.split(command)
        if name not in HERE:
            return self.sh(line)
        (self.folder / "typed").write_text(self.sh(before)[1] if before else "")
        job = os.fork()
        if job == 0:
            self.become(name, words)
        status = os.waitstatus_to_exitcode(os.waitpid(job, 0)[1])
        return status, (self.folder / "printed").read_text()

    def become(self, name: str, words: list[str]) -> NoReturn:
        """Makes this process the command, as it would be in the folder."""
        status: object = 99
        try:
            os.chdir(self.folder)
            os.environ.update(self.env)
            sys.stdin, sys.stdout = open("typed"), open("printed", "w")
            sys.stderr = sys.stdout
            main, options = HERE[name]
            sys.argv = [name, *options, *words]
            status = main()
        except SystemExit as end:
            status = end.code
            if isinstance(status, str):
                print(status)
                status = 1
        except BaseException:
            traceback.print_exc()
        sys.stdout.flush()
        os._exit(status if isinstance(status, int) else 0)

    def look(self, row: dict[str, Any]) -> None:
        """Makes the mistake, and compares the answer."""
        self.assertEqual(self.sh(row.get("make", "")), (0, ""), "it is made")
        status, text = self.run_line(row["run"])
        self.assertRegex(as_root_reads(text), rf"\A{pattern_of(row['says'])}\Z")
        self.assertEqual(status, row["status"], text)
        self.assertEqual(self.sh(row.get("then", "")), (0, ""), "afterwards")


class Table(unittest.TestCase):
    def test_each_answer_has_the_next_step(self) -> None:
        for row in ROWS:
            self.assertRegex(row["says"], r"\n +do: |give another one|\Ausage: ", row["is"])

    def test_the_pattern(self) -> None:
        for text, good, bad in (("a\n", "a\n", "ab\n"), ("a .. c\n", "a b c\n", "a b\n"), ("..\nb\n", "x\ny\nb\n", "x\n"), ("a.b\n", "a.b\n", "axb\n")):
            self.assertRegex(good, rf"\A{pattern_of(text)}\Z")
            self.assertNotRegex(bad, rf"\A{pattern_of(text)}\Z")


if __name__ == "__main__":
    unittest.main()
