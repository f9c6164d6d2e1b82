"""What a check finds: a state, what it saw, what to do. And the machine as the checks look at it."""

from __future__ import annotations

import os
import pathlib
import subprocess
import time
from collections.abc import Callable, Iterable, Iterator
from dataclasses import dataclass, replace
from enum import Enum

from portal_field.settings.venue import Field

Done = subprocess.CompletedProcess[str]
WITHOUT_SETTINGS = "without settings"       # what cannot be looked at for want of them


class State(str, Enum):
    """How a finding is judged."""
    GOOD = "good"
    NOTE = "note"                   # it hinders nothing, and somebody may want it otherwise
    WARNING = "warning"
    WRONG = "wrong"
    PASSED_OVER = "passed over"     # it could not be looked at: neither good nor wrong


@dataclass(frozen=True)
class Finding:
    """What a check found, what to do, and what it is about where that is a part of the check: a name of
    causes.py, which has what that stands on."""
    state: State
    what: str
    do: str = ""
    about: str = ""


class CannotTell(Exception):
    """Why a check, or the rest of it, cannot be made."""

    def __init__(self, why: str, about: str = "") -> None:
        super().__init__(why)
        self.about = about


def good(what: str) -> Finding:
    """A finding that is as it must be."""
    return Finding(State.GOOD, what)


def note(what: str, do: str) -> Finding:
    """A finding that is good enough, and how to have it otherwise."""
    return Finding(State.NOTE, what, do)


def warning(what: str, do: str, about: str = "") -> Finding:
    """A finding that hinders nothing yet."""
    return Finding(State.WARNING, what, do, about)


def wrong(what: str, do: str, about: str = "") -> Finding:
    """A finding that must be mended."""
    return Finding(State.WRONG, what, do, about)


def passed_over(what: str, about: str = "") -> Finding:
    """A finding that could not be made."""
    return Finding(State.PASSED_OVER, what, "", about)


def all_about(about: str, findings: Iterable[Finding]) -> Iterator[Finding]:
    """Findings of which each is about this part of its check."""
    for finding in findings:
        yield replace(finding, about=about)


class Machine:
    """Files below a root, commands, the time, the settings. `installed`: the venue should already run.
    `prices_as_shipped`: whoever sets it up takes the prices as they are."""
    DATABASE, COPIES = "/var/lib/portal/book.db", "/var/backups/portal"
    VENUES = "/var/backups/portal-whole"

    def __init__(self, root: pathlib.Path = pathlib.Path("/"), field: Field | None = None,
                 portal: str = "/usr/bin/portal", is_installed: bool = True,
                 prices_as_shipped: bool = False) -> None:
        self.root, self.field_or_none, self.portal, self.is_installed = root, field, portal, is_installed
        self.prices_as_shipped = prices_as_shipped
        self.unread = "cannot be read"      # of settings that are not given
        self.now = time.time()

    @property
    def field(self) -> Field:
        """The settings. CannotTell: they could not be read."""
        if self.field_or_none is None:
            raise CannotTell(f"it needs the settings, which {self.unread}", WITHOUT_SETTINGS)
        return self.field_or_none

    def is_root(self) -> bool:
        """Whether root asks."""
        return os.geteuid() == 0

    def needs_root(self, what: str) -> None:
        """CannotTell: this user is not root, who alone can see it."""
        if not self.is_root():
            raise CannotTell(f"{what} only root can see")

    def path(self, name: str) -> pathlib.Path:
        """The path of a file of that machine."""
        return self.root / name.lstrip("/")

    def read(self, name: str) -> str:
        """The text of a file of that machine. CannotTell: it cannot be read."""
        try:
            return self.path(name).read_text(encoding="utf-8", errors="replace")
        except PermissionError:
            raise CannotTell(f"{name} only root can read") from None
        except OSError as fault:
            raise CannotTell(f"{name} cannot be read: {fault.strerror}") from fault

    def run(self, *words: str) -> Done:
        """What a command says, in plain English and in UTC."""
        env = {**os.environ, "LC_ALL": "C.UTF-8", "PATH": os.environ.get("PATH", "") + ":/usr/sbin:/sbin"}
        try:
            return subprocess.run(words, capture_output=True, text=True, timeout=20, env=env,
                                  errors="replace")
        except subprocess.TimeoutExpired:
            raise CannotTell(f"`{words[0]}` did not answer within 20 s") from None
        except OSError as fault:
            raise CannotTell(f"`{words[0]}` cannot be run: {fault.strerror}") from fault

    def output_of(self, *words: str) -> str:
        """What a command prints; nothing if it fails."""
        done = self.run(*words)
        if done.returncode != 0:
            why = (done.stderr or done.stdout).strip().partition("\n")[0]
            raise CannotTell(f"`{' '.join(words[:3])}` says: {why or done.returncode}")
        return done.stdout


Look = Callable[[Machine], Iterator[Finding]]


def findings_of(checks: Iterable[Look], machine: Machine) -> Iterator[tuple[str, Finding]]:
    """Each check's name and findings. What one check cannot see does not stop the others."""
    for look in checks:
        name = look.__name__.replace("_", " ")
        try:
            for finding in look(machine):
                yield name, finding
        except CannotTell as why:
            yield name, passed_over(str(why), why.about)
        except (OSError, ValueError) as fault:
            yield name, passed_over(f"it cannot be made: {fault!r}")
