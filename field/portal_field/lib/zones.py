"""A time zone by its name: the POSIX rule in its file, which is what the program and the pages take."""

from __future__ import annotations

import pathlib
import re

ZONES = pathlib.Path("/usr/share/zoneinfo")
NAME = re.compile(r"[A-Za-z0-9_+-]+(/[A-Za-z0-9_+-]+)*")
RULE = re.compile(r"[!-~]{1,64}")
BEGINS_AS_RULE = re.compile(r"(<[A-Za-z0-9+-]{3,}>|[A-Za-z]{3,})[+-]?[0-9]")


class NoZone(ValueError):
    """A text that is neither the name of a time zone nor the beginning of a rule, in words."""


def rule_in(path: pathlib.Path) -> str:
    """The rule in the last line of a time zone's file (RFC 8536 section 3.3); nothing where it has none.
    OSError: it cannot be read."""
    data = path.read_bytes()
    rule = data.rstrip(b"\n").rpartition(b"\n")[2].decode("ascii", "replace")
    return rule if data.startswith(b"TZif") and RULE.fullmatch(rule) else ""


def rule_of(zone: str) -> str:
    """The rule of the time zone of that name; a text that begins as a rule stays as it is, for the program to
    judge. NoZone: it is neither."""
    path = ZONES / zone
    if NAME.fullmatch(zone) and path.is_file():
        rule = rule_in(path)
        if rule:
            return rule
        raise NoZone(f"{path} is no time zone with a rule")
    if BEGINS_AS_RULE.match(zone):
        return zone
    raise NoZone(f"there is no time zone of this name in {ZONES}; a name is such as Europe/Berlin, a POSIX "
                 "rule such as UTC0 or CET-1CEST,M3.5.0,M10.5.0/3")
