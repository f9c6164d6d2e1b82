"""On whose session an accounting packet counts: the session that its access server logged in, and no other.

A Class that the access server was given says so by itself. One of version 1.0.0, and a packet with none, are
held against what is known of logins (`session_servers`). All else is kept in radacct without a Class, and
then nobody counts it.
"""

from __future__ import annotations

import sqlite3
from collections.abc import Callable, Iterable
from dataclasses import dataclass, field

from portal_field.lib.desk_client import NoAnswer, Refused
from portal_field.radius.classes import ClassKey, SessionClass
from portal_field.radius.open_sessions import OpenSessions
from portal_field.radius.session_servers import SessionServers


@dataclass
class Counting:
    """`warn` writes a line into FreeRADIUS's log."""
    key: ClassKey
    servers: SessionServers
    sessions: OpenSessions
    warn: Callable[[str], None]
    named_servers: set[str] = field(default_factory=set)

    def class_of_login(self, session: int, device: str, server: str) -> str:
        """The Class that a login gets."""
        try:
            self.servers.note(session, device, server)
        except sqlite3.Error as fault:
            self.warn(f"logins.db: {fault}")    # a Class that comes back is good without it
        return str(self.key.class_of(session, device, server))

    def class_to_count(self, classes: Iterable[str], device: str | None, server: str) -> str | None:
        """The Class under which a packet of this access server is kept: the good one in it, or that of the
        session which is open for the device now."""
        session_classes = [one for one in map(SessionClass.read, classes) if one]
        good = next((one for one in session_classes if self.is_its_own(one, server)), None)
        if good:
            return str(good)
        number = self.open_number(device) if device else 0
        if device and number and self.servers.may_count(number, device, server):
            return str(self.key.class_of(number, device, server))
        if (session_classes or number) and server not in self.named_servers:
            self.named_servers.add(server)
            self.warn(f"{server} counts for a session that it did not log in: that is not counted. If it "
                      f"logs in from one "
                      "address and counts from another, give it one table [radius.nas] with a network")
        return None

    def is_its_own(self, session_class: SessionClass, server: str) -> bool:
        """Whether an access server may count a session: it logged the device in."""
        if session_class.tag:
            return self.key.is_good(session_class, server)
        self.open_number(session_class.device)       # its list takes over what version 1.0.0 logged in
        return self.servers.may_count(session_class.session, session_class.device, server)

    def open_number(self, device: str) -> int:
        """The number of a device's open session, or 0."""
        try:
            return self.sessions.number(device) if self.sessions.captive_answer(device) else 0
        except (Refused, NoAnswer, OSError, KeyError, TypeError):
            return 0
