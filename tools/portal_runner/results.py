"""What a part of ./test printed, and how it ended: its counts, what failed, and what it passed over."""

from __future__ import annotations

import os
import re
import subprocess
from pathlib import Path
from typing import NamedTuple

COUNTS = re.compile(r"([0-9]+) passed, ([0-9]+) failed$")
# Lines of what passed, and of how long things took.
GOOD = re.compile(r"ok   |note |$|=+ slowest |[0-9.]+s (?:call|setup|teardown) |\([0-9]+ durations ")
NOTE = re.compile(r"note (.*: once more)$")
TOOK = re.compile(r"ok   (\S+)  \[([0-9.]+) s\]$")
OVER = "passed over: "
LINES_OF_A_PART, COLUMNS, SLOWEST = 10, 300, 10


class Counts(NamedTuple):
    passed: int = 0
    failed: int = 0


class Result(NamedTuple):
    """The text that a part printed, and its counts."""

    text: str = ""
    counts: Counts = Counts()

    def lines(self) -> list[str]:
        return self.text.removesuffix("\n").split("\n")

    def failures(self) -> list[str]:
        """What it said, but for what passed, and for how long things took."""
        return [it for it in self.lines() if not GOOD.match(it)]

    def notes(self) -> list[str]:
        """The measurements that were made once more, as the machine was held up."""
        return [found[1] for it in self.lines() if (found := NOTE.match(it))]

    def failed_lines(self) -> list[str]:
        found = [it[:COLUMNS] for it in self.failures() if "FAIL" in it or "ERROR" in it]
        return found[:LINES_OF_A_PART]

    def passed_over(self) -> list[str]:
        """Its lines of this form that stand directly before its last one. Elsewhere such a line is quoted."""
        lines = self.lines()
        while lines and lines[-1].startswith(OVER):
            lines.pop()
        found: list[str] = []
        for line in reversed(lines[:-1]):
            if not line.startswith(OVER):
                break
            found.insert(0, line.removeprefix(OVER))
        return found


def counts_of(text: str, status: int) -> Counts:
    """What the last line says; one that says nothing there has failed, and so has one with a status."""
    found = COUNTS.search(text.removesuffix("\n").split("\n")[-1])
    passed, failed = (int(found[1]), int(found[2])) if found else (0, 1)
    return Counts(passed, max(failed, int(status != 0)))


def result_of(text: str, status: int) -> Result:
    return Result(text, counts_of(text, status))


def slowest(results: list[Result]) -> list[str]:
    """The tests that took longest, of those that say how long each took."""
    lines = [line for result in results for line in result.lines()]
    found = [(float(it[2]), it[2], it[1]) for line in lines if (it := TOOK.match(line))]
    return [f"{name}, {text} s" for _, text, name in sorted(found, key=lambda it: -it[0])[:SLOWEST]]


class Reasons:
    """What a skip may name as its reason, and whether it is so here."""

    def __init__(self, top: Path) -> None:
        self.top = top

    def is_root(self) -> bool:
        return os.geteuid() == 0

    def succeeds(self, *words: str) -> bool:
        try:
            ran = subprocess.run(words, cwd=self.top, stdin=subprocess.DEVNULL, capture_output=True)
        except OSError:
            return False
        return ran.returncode == 0

    def has_package(self, name: str) -> bool:
        words = ["dpkg-query", "-W", "-f", "${db:Status-Status}", name]
        try:
            return subprocess.run(words, capture_output=True, text=True).stdout == "installed"
        except OSError:
            return False

    def lacks_packets(self) -> bool:
        words = ["./field/test/run", "--lacks", "packets"]
        return subprocess.run(words, cwd=self.top, capture_output=True, text=True).stdout.strip() != ""

    def holds(self, line: str) -> bool:
        """Whether the reason at the end of such a line is one of those that there may be, and holds."""
        reason = line.rpartition(": not installed: ")
        if reason[1]:
            return not all(self.has_package(it) for it in reason[2].split(", "))
        match line.rpartition(": ")[2]:
            case "it needs root":
                return not self.is_root()
            case "it needs loop devices":
                return not os.path.exists("/dev/loop-control")
            case "it needs network namespaces with nftables":
                return self.lacks_packets()
            case "it needs the commit of version 1.0.0 in the history of git":
                return not self.succeeds("git", "cat-file", "-e", "9140408^{commit}")
            case "it needs ptrace":
                return not self.succeeds("strace", "-f", "-qqq", "-o", os.devnull, "true")
            case "it needs network namespaces":
                return not self.succeeds("unshare", "-n", *"ip link add one type veth peer name two".split())
        return False
