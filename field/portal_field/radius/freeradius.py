"""The module of FreeRADIUS's rlm_python3: hands logins to the rules in `logins`, accounting packets to those
in `counting`.

It runs within the server's process. Settings: /etc/portal/radius.toml, or the file that FIELD_SETTINGS names;
the gateway's token and the key of Class are credentials of the unit. The site's FreeRADIUS-Client-Shortname
is the access server's name in the settings.
"""

from __future__ import annotations

import sqlite3
from typing import Any

import radiusd  # (FreeRADIUS's own)

from portal_field.lib.counts import Counts
from portal_field.lib.desk_client import Desk, credential, settings
from portal_field.lib.languages import Language
from portal_field.radius.classes import ClassKey, device_of
from portal_field.radius.counting import Counting
from portal_field.radius.disconnects import Server
from portal_field.radius.logins import Logins
from portal_field.radius.open_sessions import OpenSessions
from portal_field.radius.session_servers import SessionServers

WAIT = 3.0      # seconds for one answer: a NAS gives up after some seconds
SERVER = "FreeRADIUS-Client-Shortname"
CLASS = "Tmp-String-0"      # which the site makes the packet's one Class
Lists = dict[str, Any]


def warn(text: str) -> None:
    """Writes a warning into FreeRADIUS's log."""
    radiusd.radlog(radiusd.L_WARN, f"portal-radius: {text}")


def make_rules() -> tuple[Logins, Counting]:
    """What answers logins and counts, by the settings."""
    conf, token = settings("/etc/portal/radius.toml"), credential("gateway_token")
    guests, gateway = Desk(conf["desk_port"], timeout=WAIT), Desk(conf["desk_port"], token, timeout=WAIT)
    servers = SessionServers(conf["radacct"], Server.all(conf), warn)
    sessions = OpenSessions(guests, gateway, servers.note_open)
    counting = Counting(ClassKey(credential("class_key")), servers, sessions, warn)
    return Logins(guests, sessions, counting.class_of_login, conf["interim_seconds"],
                  Language(conf["language"]), Counts(conf["refusals"])), counting


LOGINS, COUNTING = make_rules()


def authorize(lists: Lists) -> tuple[int, Lists]:
    """FreeRADIUS's question whether a login is accepted."""
    request, server = dict(lists["request"]), dict(lists["config"])[SERVER]
    accepted, reply = LOGINS.decide(request.get("User-Name", ""), request.get("Calling-Station-Id"), server)
    lists_back: Lists = {"reply": tuple((name, ":=", value) for name, value in reply)}
    if not accepted:
        return radiusd.RLM_MODULE_REJECT, lists_back
    lists_back["config"] = (("Auth-Type", ":=", "Accept"),)
    return radiusd.RLM_MODULE_OK, lists_back


def preacct(lists: Lists) -> Any:
    """FreeRADIUS's question for the Class under which an accounting packet is kept. Where that cannot be
    found out the packet gets no answer, and the NAS sends it again."""
    request, server = dict(lists["request"]), dict(lists["config"])[SERVER]
    classes = [value for name, value in lists["request"] if name == "Class"]
    try:
        klass = COUNTING.class_to_count(classes, device_of(request.get("Calling-Station-Id")), server)
    except sqlite3.Error as fault:
        warn(f"logins.db: {fault}")
        return radiusd.RLM_MODULE_FAIL
    if klass is None:
        return radiusd.RLM_MODULE_NOOP
    return radiusd.RLM_MODULE_UPDATED, {"config": ((CLASS, ":=", klass),)}
