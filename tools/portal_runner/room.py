"""How a step of ./test runs: in a folder that has a copy of its inputs and nothing else, and in an
environment of its own. This file is a part of each step's digest."""

from __future__ import annotations

import os
import shutil
import subprocess
import sys
import threading
import time
from pathlib import Path
from typing import NamedTuple

from . import processes
from .folders import remove
from .machine import Machine
from .results import Result, result_of
from .steps import Step, Table

PATH = "/usr/local/sbin:/usr/local/bin:/usr/sbin:/usr/bin:/sbin:/bin"


class Ran(NamedTuple):
    """A step that ran: what it said, the seconds of the processor, and those of the clock."""

    result: Result
    processor: float
    clock: float


class Room:
    """The folder of one run, with one for each step that runs; all users can read it."""

    def __init__(self, table: Table, machine: Machine, folder: Path, groups: processes.Groups) -> None:
        self.table, self.machine, self.folder, self.groups = table, machine, folder, groups
        self.number, self.lock = 0, threading.Lock()
        os.umask(0o022)
        folder.chmod(0o755)

    def environment(self, step: Step, room: Path) -> dict[str, str]:
        """What a step finds in its environment, whatever that of this process is."""
        path = PATH
        if sys.executable != "/usr/bin/python3":
            path = f"{os.path.dirname(sys.executable)}:{path}"
        rt = shutil.which("rt")
        if rt and os.path.dirname(rt) not in path.split(":"):
            path += f":{os.path.dirname(rt)}"
        env = {"HOME": str(room / "home"), "TMPDIR": str(room / "tmp")}
        env |= {"PATH": path, "LANG": "C.UTF-8", "PYTHONDONTWRITEBYTECODE": "1"}
        if self.machine.program and step.needs_program():
            env["PORTAL"] = str(self.machine.program)
        return env | dict(step.env)

    def make(self, step: Step) -> Path:
        """The folder of a step, with its inputs. Its name is short: sockets are made below it."""
        with self.lock:
            self.number += 1
            room = self.folder / str(self.number)
        for name in ("home", "tmp", "tree"):
            (room / name).mkdir(parents=True)
        (room / "tmp").chmod(0o1777)
        repository, tree = self.table.repository, room / "tree"
        repository.copy(self.table.files_of(step), tree)
        lines = repository.lines_of_crates(step.inputs)
        if lines:
            (tree / "crates.txt").write_text(lines, encoding="utf-8")
        if "history" in step.uses and self.machine.has_first_release:
            self.give_history(tree)
        return room

    def give_history(self, tree: Path) -> None:
        """A repository of git that has what the clone has, but no names: a commit is found by its sum."""
        words = ["git", "rev-parse", "--path-format=absolute", "--git-path", "objects"]
        top, home = self.table.repository.top, str(tree.parent / "home")
        objects = subprocess.run(words, cwd=top, check=True, capture_output=True, text=True).stdout.strip()
        subprocess.run(["git", "init", "-q", str(tree)], check=True, env={"PATH": PATH, "HOME": home})
        (tree / ".git/objects/info/alternates").write_text(f"{objects}\n", encoding="utf-8")

    def run(self, step: Step, test: str = "") -> Ran:
        """Runs a step, or one test of it. InterruptedError: all is stopped."""
        begin, program = time.monotonic(), str(self.machine.program or "")
        words = ["nice", "-n", str(step.nice)]
        words += [it.replace("{program}", program) for it in step.command(test)]
        room = self.make(step)
        try:
            env, tree = self.environment(step, room), room / "tree"
            status, used = processes.run(self.groups, words, room / "out", cwd=tree, env=env)
            if self.groups.is_stopped:
                raise InterruptedError("stopped")
            text = (room / "out").read_text(encoding="utf-8", errors="replace")
        finally:
            remove(room)
        return Ran(result_of(text, status), used, time.monotonic() - begin)
