"""Why a venue is silent, in the language of the office. The view keeps the collector's words, in English.

A detail that is none of those below, as a fault of a file, stays as it is.
"""

from __future__ import annotations

import re
from collections.abc import Callable

from portal_field.lib import refusals
from portal_field.lib.message_marks import clerk_words

Say = Callable[..., str]
BETWEEN = "; "
# What the collector or the view of PostgreSQL says, up to the detail where it has one.
WHOLE = (clerk_words("it was never collected"),
         clerk_words("its machine has not collected it for an hour"),
         clerk_words("its settings are not on this machine: portal-venues apply"))
WITH_DETAIL = {"it is silent: ": clerk_words("it is silent: %(reason)s"),
               "its database is not read: ": clerk_words("its database is not read: %(reason)s"),
               "its takings are not read: ": clerk_words("its takings are not read: %(reason)s")}
DETAILS = ((re.compile(r"timed out"), clerk_words("its server gave no answer in time")),
           (re.compile(r"\[Errno 111\] .*"), clerk_words("its server does not run")),
           (re.compile(r"Remote end closed connection without response|\[Errno 104\] .*"),
            clerk_words("its server ended during the answer")),
           (re.compile(r"an answer that is no JSON( object)?|answer \d+ that the desk does not give"),
            clerk_words("another program answers at its port")),
           (re.compile(r"another process has .* open"), clerk_words("another process has its database open")),
           (re.compile(r"SQLite .*"), clerk_words("SQLite cannot read it")))


def detail(say: Say, text: str) -> str:
    """A detail: in words where it is one of those above, or a refusal of the server."""
    if text in refusals.BY_WORD:
        return say(refusals.of_word(text).cause).rstrip(".")
    words = next((words for pattern, words in DETAILS if pattern.fullmatch(text)), "")
    return f"{say(words)} ({text})" if words else text


def part(say: Say, text: str) -> str:
    """One of the faults of a venue, in the language of `say`."""
    if text in WHOLE:
        return say(text)
    for head, words in WITH_DETAIL.items():
        if text.startswith(head):
            return say(words, reason=detail(say, text.removeprefix(head)))
    return text


def in_words(say: Say, fault: str) -> str:
    """All that the view says of a venue, in the language of `say`."""
    return BETWEEN.join(part(say, text) for text in fault.split(BETWEEN))
