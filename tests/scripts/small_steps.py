"""A small repository with a table of steps of its own, for what tries ./test."""

from __future__ import annotations

import os
import shutil
import signal
import subprocess
import tempfile
import time
import unittest
from pathlib import Path

from portal_runner.inputs import Repository
from portal_runner.kept import Store
from portal_runner.machine import Machine
from portal_runner.processes import Groups
from portal_runner.report import Report
from portal_runner.results import Reasons
from portal_runner.room import Room
from portal_runner.run import Chosen, Options, Run
from portal_runner.steps import Step, Table
from small_tree import TOP, put

STEPS = """
[sets]
both = ["one", "two"]

[[reads]]
module = "kit/page.py"
files = ["kit/page.html"]

[[step]]
part = "quick"
when = "first"
run = "tests/quick"
inputs = ["tests/quick", "@both"]

[[step]]
part = "each"
when = "field"
each = "kit/test_*.py"
but = ["test_off"]
run = "tests/each {name}"
test = "::{test}"
inputs = ["tests/each", "imports {file}"]

[[step]]
part = "last"
when = "all"
run = "tests/last"
test = "--only {test}"
inputs = ["tests/last", "one"]
carries = ["three"]
"""
# It writes down that it ran and what is there, and does what the file did/NAME says.
SCRIPT = """#!/usr/bin/env bash
echo "NAME $*" >>'ROOM/ran'
find . -type f | sort >'ROOM/seen-NAME'
[[ ! -f 'ROOM/did/NAME' ]] || source 'ROOM/did/NAME'
echo 'NAME: 2 passed, 0 failed'
"""


class SmallSteps(unittest.TestCase):
    """A test has `tree`, the repository, and `store`; after `call` there are `status` and `said`, its lines."""

    def setUp(self) -> None:
        folder = tempfile.TemporaryDirectory(prefix="scripts-")
        self.addCleanup(folder.cleanup)
        self.room = Path(folder.name)
        self.tree, self.cache = self.room / "a tree", self.room / "cache"
        (self.room / "did").mkdir()
        for name in ("quick", "each", "last"):
            put(self.tree / "tests" / name, SCRIPT.replace("NAME", name).replace("ROOM", str(self.room)))
        for name in ("one", "two", "three", "kit/page.html", "kit/test_off.py", "kit/data.txt"):
            self.write(name, f"the file {name}\n" if "." not in name or "html" in name else "")
        self.write("kit/test_page.py", "import page\nFILE = HERE / 'data.txt'\n")
        self.write("kit/test_other.py", "import os\n")
        self.write("kit/page.py", "def page():\n    import words\n")
        self.write("kit/words.py", "")
        self.write("tests/steps.toml", STEPS)
        self.write("tests/budgets.txt", "# what each takes\nmachine 100\nquick 1\n")
        self.write("tests/usage.txt", "usage: ./test\n")
        for name in ("test", "field/test/needs.py"):
            (self.tree / name).parent.mkdir(parents=True, exist_ok=True)
            shutil.copy(TOP / name, self.tree / name)
        ignored = shutil.ignore_patterns("__pycache__")
        shutil.copytree(TOP / "tools/portal_runner", self.tree / "tools/portal_runner", ignore=ignored)
        self.env = os.environ | {"XDG_CACHE_HOME": str(self.cache), "TMPDIR": str(self.room)}

    def write(self, name: str, text: str) -> None:
        path = self.tree / name
        path.parent.mkdir(parents=True, exist_ok=True)
        path.write_text(text, encoding="utf-8")

    def does(self, name: str, *lines: str) -> None:
        """What a step does beside; nothing without lines."""
        (self.room / "did" / name).write_text("\n".join(lines) + "\n")

    def table(self) -> Table:
        return Table(Repository(self.tree))

    def begin(self, *words: str) -> subprocess.Popen[str]:
        (self.room / "ran").write_text("")
        out = subprocess.PIPE
        return subprocess.Popen(
            [str(self.tree / "test"), *words], env=self.env, stdin=subprocess.DEVNULL, stdout=out, stderr=subprocess.STDOUT, text=True
        )

    def call(self, *words: str) -> None:
        process = self.begin(*words)
        self.said = process.communicate(timeout=100)[0].splitlines()
        self.status = process.returncode

    def ran(self) -> list[str]:
        return sorted((self.room / "ran").read_text().splitlines())

    def assert_ran(self, *names: str) -> None:
        self.assertEqual(self.ran(), sorted(names), "\n".join(self.said))

    def assert_ended(self, status: int, last: str) -> None:
        self.assertEqual((self.status, self.said[-1]), (status, last), "\n".join(self.said))

    def left(self) -> list[str]:
        """The folders of runs that are still there."""
        return [it.name for it in self.room.iterdir() if it.name.startswith("portal-test.")]

    def is_running(self, name: str) -> bool:
        """Whether the process runs whose number a step has written to a file."""
        try:
            state = Path(f"/proc/{(self.room / name).read_text().strip()}/stat").read_text()
        except OSError:
            return False
        return state.rpartition(")")[2].split()[0] != "Z"

    def interrupt(self, process: subprocess.Popen[str], name: str) -> None:
        """Interrupts a run once a step has written its number to a file."""
        file = self.room / name
        for _ in range(400):
            if file.exists() and file.read_text():
                break
            time.sleep(0.05)
        process.send_signal(signal.SIGINT)
        self.said = process.communicate(timeout=60)[0].splitlines()
        self.status = process.returncode


class SmallRun(SmallSteps):
    """Runs in this process, of which a test sees how steps are chosen and side by side."""

    def run_steps(self, steps: list[Step], processors: float = 4.0, options: Options = Options()) -> Run:
        table = self.table()
        self.printed: list[str] = []

        def say(*lines: str) -> None:
            self.printed += lines

        folder = Path(tempfile.mkdtemp(dir=self.room))
        machine = Machine(table.repository, {})
        report = Report(table, Reasons(self.tree), say)
        run = Run(table, machine, Store(self.cache), Room(table, machine, folder, Groups()), options, report)
        run.processors = processors
        run.all([Chosen(it) for it in steps])
        self.status = report.finish()
        return run
