"""Processes in sessions of their own, so that each can be stopped with all that it started, and Linux shares
the processors among them (sched(7), autogroup)."""

from __future__ import annotations

import io
import os
import resource
import signal
import subprocess
import sys
import threading
import time
from collections.abc import Callable
from pathlib import Path
from typing import IO, Any

TRIES, SWEEPS = 100, 5


class Groups:
    """The groups that run now. All can be stopped at once."""

    def __init__(self) -> None:
        self.running: dict[int, subprocess.Popen[str]] = {}
        self.is_stopped, self.lock = False, threading.RLock()

    def start(self, words: list[str], **more: Any) -> subprocess.Popen[str]:
        """Begins a command, with no input unless one is given. After a stop nothing begins any more."""
        more = {"stdin": subprocess.DEVNULL, "stderr": subprocess.STDOUT} | more
        with self.lock:
            if self.is_stopped:
                raise InterruptedError("stopped")
            process: subprocess.Popen[str]
            more |= {"start_new_session": True, "encoding": "utf-8", "errors": "replace"}
            process = subprocess.Popen(words, **more)
            self.running[process.pid] = process
        return process

    def wait(self, process: subprocess.Popen[str]) -> tuple[int, resource.struct_rusage]:
        """How it ended, as a shell says it, and what it used with all that it waited for."""
        try:
            _, status, used = os.wait4(process.pid, 0)
        except ChildProcessError:  # (after a stop somebody else has seen its end)
            status, used = signal.SIGTERM, resource.struct_rusage((0,) * 16)
        code = os.waitstatus_to_exitcode(status)
        process.returncode = code
        self.running.pop(process.pid, None)
        return (128 - code if code < 0 else code), used

    def kill(self, process: subprocess.Popen[str], number: int = signal.SIGTERM) -> None:
        try:
            os.killpg(process.pid, number)
        except ProcessLookupError:
            pass

    def stop(self) -> None:
        """Stops all, and waits until they have ended, but not for long."""
        with self.lock:
            self.is_stopped = True
        for process in list(self.running.values()):
            self.kill(process)
        for _ in range(TRIES):
            self.running = {number: it for number, it in list(self.running.items()) if it.poll() is None}
            if not self.running:
                return
            time.sleep(0.1)


def run(groups: Groups, words: list[str], out: Path, **more: Any) -> tuple[int, float]:
    """Runs a command with what it says in a file: how it ended, and the seconds of the processor. One that
    cannot be begun says so there. What it leaves running is ended."""
    file: IO[str]
    with out.open("w", encoding="utf-8") as file:
        try:
            process = groups.start(words, stdout=file, **more)
        except OSError as fault:
            if isinstance(fault, InterruptedError):
                raise
            file.write(f"{words[0]}: {fault.strerror}\n")
            return 126, 0.0
        status, used = groups.wait(process)
        groups.kill(process, signal.SIGKILL)
        return status, used.ru_utime + used.ru_stime


def print_all() -> None:
    """Has this process print whatever text there is, in any locale."""
    for stream in (sys.stdout, sys.stderr):
        if isinstance(stream, io.TextIOWrapper):
            stream.reconfigure(errors="replace")


def seconds(since: float) -> int:
    return int(time.monotonic() - since)


def run_until_stopped(work: Callable[[], int], groups: Groups, clean: Callable[[], None]) -> int:
    """What the work answers. It is cleaned up after the work, and where a signal ends it: then the groups are
    stopped, which is said, and the status is 130."""

    def stop(*_signal: Any) -> None:
        groups.stop()
        for _ in range(SWEEPS):  # (a thread may be putting files there still)
            clean()
            time.sleep(0.1)
        print("test: interrupted; what passed before is kept", flush=True)
        os._exit(130)  # (threads run still)

    for number in (signal.SIGHUP, signal.SIGINT, signal.SIGTERM):
        signal.signal(number, stop)
    try:
        return work()
    finally:
        clean()
