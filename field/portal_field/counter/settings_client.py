"""Asks portal-settings.service to write a file of settings."""

from __future__ import annotations

import hashlib
from dataclasses import dataclass

from portal_field.lib import doors

SOCKET = "/run/portal-settings/socket"
PATIENCE = 20.0     # seconds: a hash takes some of the machine's time


@dataclass(frozen=True)
class Written:
    """What came of it: `done`, or the word of a refusal with its reason in English, or the seconds to
    wait."""
    word: str
    why: str = ""
    seconds: int = 0


def write(path: str, kind: str, before: str, after: str, who: str, password: str) -> Written:
    """Sends a whole new file of a kind, made from the text before, with a person's name and password. A part
    that does not answer is the word `no_answer`."""
    fields = {"kind": kind, "text": after, "was": hashlib.sha256(before.encode()).hexdigest(), "who": who,
              "password": password}
    try:
        answer = doors.exchange(path, fields, PATIENCE)
        return Written(str(answer["answer"]), str(answer.get("why", "")), int(answer.get("seconds", 0)))
    except (OSError, ValueError, KeyError, TypeError) as fault:
        return Written("no_answer", str(fault))
