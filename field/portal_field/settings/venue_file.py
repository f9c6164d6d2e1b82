"""venue.toml: the lines of field.toml that a manager changes on the counter's page. A line that is there
counts in place of that of field.toml.

    owner_contact = "Maria, 030 1234567"
    payments = ["cash", "card"]
    receipt_head = ["Main Street 1", "Tax number 1"]
"""

from __future__ import annotations

import json
import pathlib
import tomllib
from typing import Any

from portal_field.lib.nearest import unknown

FILE, MODE, GROUP = "venue.toml", 0o640, "portal-counter"
# texts of a list: at least and at most so many, of so many signs
LISTS = {"payments": (1, 8, 20), "drawers": (0, 20, 20), "receipt_head": (0, 10, 100)}
KEYS = ("owner_contact", "payments", "receipt_head")
MOST_CONTACT = 100      # signs
HEAD = """\
# What a manager wrote on the counter's page. A line here counts in place of that of field.toml; without this
# file those of field.toml count. The page writes this file anew: comments are not kept.
"""


class BadVenueFile(Exception):
    """What is wrong with the file, in English."""


def fault_of_contact(value: Any) -> str:
    """Why nobody can be called by this, or nothing."""
    good = isinstance(value, str) and value.isprintable() and len(value) <= MOST_CONTACT
    return "" if good else (f"owner_contact: whom clerks call, in one line of at most {MOST_CONTACT} signs, "
                            "or nothing")


def fault_of_list(key: str, words: Any) -> str:
    """What is wrong with one of `LISTS`, or nothing."""
    least, most, signs = LISTS[key]
    if not isinstance(words, list) or not least <= len(words) <= most or not all(
            isinstance(word, str) and word.isprintable() and word == word.strip() and 1 <= len(word) <= signs
            for word in words):
        return f"{key}: {least} to {most} texts of one line and at most {signs} signs"
    return f"{key}: a name is there twice" if key != "receipt_head" and len(set(words)) < len(words) else ""


def fault_of(key: str, value: Any) -> str:
    """What is wrong with a line of the file, or nothing."""
    return fault_of_contact(value) if key == "owner_contact" else fault_of_list(key, value)


def read(text: str) -> dict[str, Any]:
    """The lines of the file. BadVenueFile: it is not what it must be."""
    try:
        values = tomllib.loads(text)
    except tomllib.TOMLDecodeError as fault:
        raise BadVenueFile(f"it is not TOML: {fault}") from fault
    if words := unknown(values, KEYS):
        raise BadVenueFile(words)
    for key, value in values.items():
        if why := fault_of(key, value):
            raise BadVenueFile(why)
    return values


def text_of(values: dict[str, Any]) -> str:
    """The file that has these lines."""
    return HEAD + "".join(f"{key} = {json.dumps(values[key], ensure_ascii=False)}\n" for key in KEYS
                          if key in values)


def in_folder(folder: pathlib.Path) -> dict[str, Any]:
    """The lines of a venue's file; none where there is no file. BadVenueFile: it is not what it must be."""
    try:
        return read((folder / FILE).read_text(encoding="utf-8"))
    except FileNotFoundError:
        return {}
    except (OSError, ValueError) as fault:
        raise BadVenueFile(str(fault)) from fault
