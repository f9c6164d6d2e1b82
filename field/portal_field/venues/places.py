"""Where the files of a venue are that has a name, and the file of what all such venues of a machine share."""

from __future__ import annotations

import ipaddress
import pathlib
import re
import socket
import tomllib
from dataclasses import dataclass, fields
from dataclasses import field as listing
from typing import Any

from portal_field.lib.nearest import unknown

NAME = re.compile(r"[a-z0-9]([a-z0-9-]{0,18}[a-z0-9])?")
PATH = re.compile(r"/[A-Za-z0-9/._-]+")
CLOCKS = ("kernel", "host", "clerk")     # as portal_field/server/right_time.py has them
FIRST_PORT, LAST_PORT = 20001, 29999     # of desks; a machine bears fewer venues than this has ports


class BadVenue(Exception):
    """A venue's name or a line of its settings is not what it must be, in words."""


@dataclass(frozen=True)
class Places:
    """Folders and files of a venue."""
    name: str
    root: pathlib.Path = pathlib.Path("/")

    @property
    def settings(self) -> pathlib.Path:
        """The folder of its settings."""
        return self.root / "etc/portal/venues" / self.name

    @property
    def field(self) -> pathlib.Path:
        """The file that its owner edits, or that the table of venues writes."""
        return self.settings / "field.toml"

    @property
    def desk_token(self) -> pathlib.Path:
        """The token of its counter, in one folder with those of the other venues of this machine."""
        return self.root / "etc/portal/credentials/venues" / self.name

    @property
    def database(self) -> pathlib.Path:
        """The desk's database."""
        return self.root / "var/lib/portal-venues" / self.name / "book.db"

    @property
    def copies(self) -> pathlib.Path:
        """The folder of its copies."""
        return self.root / "var/backups/portal-venues" / self.name

    @property
    def counter_state(self) -> pathlib.Path:
        """What its counter's page keeps: the journal and the log-ins."""
        return self.root / "var/lib/portal-venues-counter" / self.name

    @property
    def notes(self) -> pathlib.Path:
        """Notes about the clock, and of what its desk does."""
        return self.root / "run/portal-venues" / self.name

    @property
    def unit(self) -> str:
        """The unit of its desk."""
        return f"portal@{self.name}.service"


def check_name(name: str) -> str:
    """The name of a venue, as it is. BadVenue: it is none."""
    if not NAME.fullmatch(name):
        raise BadVenue(f"{name!r} is no name of a venue: a-z, 0-9 and hyphens within, at most 20")
    return name


def venues_in(root: pathlib.Path) -> list[str]:
    """The names of the venues that have settings on this machine, sorted."""
    folder = root / "etc/portal/venues"
    return sorted(path.parent.name for path in folder.glob("*/field.toml")
                  if NAME.fullmatch(path.parent.name))


@dataclass(frozen=True)
class Machine:
    """The lines of /etc/portal/venues.toml: what the venues of this machine share."""
    listen: str
    cert: str = "/etc/portal/tls/cert.pem"
    key: str = "/etc/portal/tls/key.pem"
    clerks: list[str] = listing(default_factory=list)
    clock: str = "kernel"
    database: str = ""
    machine: str = ""
    office_database: str = ""

    @classmethod
    def read(cls, text: str) -> Machine:
        """The settings in a text. BadVenue: a line is not valid, unknown or missing."""
        try:
            lines: dict[str, Any] = tomllib.loads(text)
        except tomllib.TOMLDecodeError as fault:
            raise BadVenue(str(fault)) from fault
        if words := unknown(lines, (line.name for line in fields(cls))):
            raise BadVenue(words)
        if "listen" not in lines:
            raise BadVenue("missing: listen, this machine's address at which the counters' pages answer")
        machine = cls(**lines)
        machine.check()
        return machine

    def check(self) -> None:
        """BadVenue: a line is not valid."""
        try:
            ipaddress.IPv4Address(self.listen)
            for network in self.clerks:
                ipaddress.IPv4Network(network)
        except (ValueError, TypeError) as fault:
            raise BadVenue(f"listen or clerks: {fault}") from fault
        for key in ("cert", "key"):
            if not isinstance(path := getattr(self, key), str) or not PATH.fullmatch(path):
                raise BadVenue(f"{key} = {path!r}: the path of a file")
        if self.clock not in CLOCKS:
            raise BadVenue(f"clock = {self.clock!r}: one of {', '.join(CLOCKS)}")
        if not all(isinstance(text, str) for text in (self.database, self.machine, self.office_database)):
            raise BadVenue("database, machine and office_database are texts")
        if self.machine and not NAME.fullmatch(self.machine):
            raise BadVenue(f"machine = {self.machine!r}: a-z, 0-9 and hyphens within, at most 20")

    @property
    def own_name(self) -> str:
        """This machine's name in the table of venues."""
        return self.machine or socket.gethostname().partition(".")[0].lower()


def machine_of(root: pathlib.Path) -> Machine:
    """What the venues of this machine share. BadVenue: the file is not there, or not what it must be."""
    path = root / "etc/portal/venues.toml"
    try:
        return Machine.read(path.read_text(encoding="utf-8"))
    except FileNotFoundError as fault:
        raise BadVenue(f"there is no {path}: copy /usr/share/portal/field/settings/venues.toml there, and "
                       "edit it") from fault
    except (OSError, ValueError, BadVenue) as fault:
        raise BadVenue(f"{path}: {fault}") from fault
