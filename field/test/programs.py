"""What a test starts: programs, in a folder of the test's own, and waiting for what they do."""

from __future__ import annotations

import os
import pathlib
import shutil
import socket
import subprocess
import tempfile
from collections.abc import Callable, Sequence
from typing import Any

from steady import wait_until


def accepts(path: pathlib.Path) -> bool:
    """Whether a program listens at a socket in the file system."""
    with socket.socket(socket.AF_UNIX) as link:
        return link.connect_ex(str(path)) == 0


class Programs:
    """Each program by its name, with a log of that name in the folder."""

    def __init__(self, prefix: str) -> None:
        self.root = pathlib.Path(tempfile.mkdtemp(prefix=prefix))
        self.jobs: dict[str, subprocess.Popen[bytes]] = {}

    def start_program(self, name: str, words: Sequence[object], **more: Any) -> None:
        """Starts a program; it writes to the log of its name."""
        with open(self.root / f"{name}.log", "ab") as log:
            self.jobs[name] = subprocess.Popen([str(word) for word in words], stdin=subprocess.DEVNULL, stdout=log,
                                               stderr=log, **more)

    def stop(self, name: str, kill: bool = False) -> None:
        """Ends a program that was started, if it runs; by SIGKILL where `kill` is set."""
        job = self.jobs.pop(name, None)
        if job is None:
            return
        if kill:
            job.kill()
        else:
            job.terminate()
        try:
            job.wait(5)
        except subprocess.TimeoutExpired:
            job.kill()
            job.wait()

    def stop_all(self, kill: bool = False) -> None:
        """Ends all programs that were started."""
        for name in list(self.jobs):
            self.stop(name, kill)

    def remove_folder(self) -> None:
        """Removes the folder with logs and settings, unless KEEP_LAB is set."""
        if not os.environ.get("KEEP_LAB"):
            shutil.rmtree(self.root, ignore_errors=True)

    def comes(self, true: Callable[[], object], seconds: float = 4.0) -> bool:
        """Waits until it is so, at most that time or longer while the machine is held up. Whether it came about."""
        return wait_until(true, seconds)

    def until(self, true: Callable[[], object], seconds: float = 30.0, what: str = "something") -> None:
        """Waits until it is so. TimeoutError: it did not come about in that time."""
        if not self.comes(true, seconds):
            raise TimeoutError("waited in vain for " + what)

    def faults_in_logs(self, *words: str) -> dict[str, str]:
        """The end of each log that has a line with one of these words; of those in the folder `log` too."""
        logs = sorted((*self.root.glob("*.log"), *self.root.glob("log/*.log")))
        texts = {str(log.relative_to(self.root)): log.read_text(errors="replace") for log in logs}
        return {name: text[-1500:] for name, text in texts.items()
                if any(word in line and not self.is_no_fault(line) for line in text.splitlines() for word in words)}

    def is_no_fault(self, line: str) -> bool:
        """Whether a line of a log says nothing of a fault, whatever words it has."""
        return False
