"""Asks a part that systemd starts for each connection to its socket: a question and an answer, as JSON."""

from __future__ import annotations

from typing import Any

from portal_field.lib import doors

PATIENCE = 20.0     # seconds: less than nginx waits


class NoPart(Exception):
    """Why there is no answer, in English."""


def ask(path: str, question: dict[str, str]) -> dict[str, Any]:
    """The answer to a question. NoPart: there is none, or the part says why it has none."""
    name = path.split("/")[-2] if path.count("/") > 1 else path
    try:
        answer = doors.exchange(path, question, PATIENCE)
    except OSError as fault:
        raise NoPart(f"{name}.socket: {fault}") from fault
    except ValueError as fault:
        raise NoPart(f"{name}@.service gave no answer") from fault
    if not isinstance(answer, dict) or "fault" in answer:
        raise NoPart(str(answer["fault"]) if isinstance(answer, dict) else "the answer is no object")
    return answer
