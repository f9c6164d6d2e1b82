"""What the guests' page has portal-give do for a device: free minutes, and the end of its session."""

from __future__ import annotations

import math
from dataclasses import dataclass
from typing import Any

from portal_field.guests.prices import worth
from portal_field.lib import doors, refusals
from portal_field.lib.languages import Language
from portal_field.lib.message_marks import guest_words
from portal_field.lib.refusals import Refusal

LOOK, ACT = 2.0, 15.0       # seconds that the page waits: nginx waits for it 20
DONE = "done"
NO_ANSWER, BUSY = "no_answer", "busy"
HAD = guest_words("This device has had its free time for today.")
NONE_LEFT = guest_words("All free time of today is given out. Please ask at the counter.")
WAIT = guest_words("A lot of free time was given out in the last hour. Your device can have it from "
                   "%(time)s on. Please open this page again then.")
AGAIN = guest_words("We got no answer. Please press the button again: it counts once.")
# What portal-give refuses, as a guest reads it.
REFUSALS = {refusal.word: refusal for refusal in (
    Refusal(0, "had", 409, "", "", HAD),
    Refusal(0, "none_left", 409, "", "", NONE_LEFT),
    Refusal(0, "wait", 409, "", "", WAIT),
    Refusal(0, "off", 409, "", "", guest_words("There is no free time here now. Please ask at the counter.")),
    Refusal(0, "not_open", 409, "", "", guest_words(
        "That session of this device is over already. Nothing was done.")),
    Refusal(0, "many_ends", 429, "", "", guest_words(
        "Too many sessions were ended today. Please ask at the counter.")),
    Refusal(0, "not_this_device", 409, "", "", refusals.OTHER_DEVICE.guest),
    Refusal(0, BUSY, 503, "", "", refusals.BY_WORD["no_memory"].guest),
    Refusal(0, "no_record", 503, "", "", AGAIN),
    Refusal(0, NO_ANSWER, 504, "", "", AGAIN))}


def refusal_of(word: str) -> Refusal:
    """The refusal of a word of portal-give."""
    return REFUSALS.get(word) or refusals.of_word(word)


def begin_of(reply: dict[str, Any], language: Language) -> dict[str, str]:
    """The value of a message that says from when on: the minute at whose begin that is so."""
    return {"time": language.until(math.ceil(reply["begin"] / 60) * 60)} if "begin" in reply else {}


@dataclass(frozen=True)
class Offer:
    """What a device that is not online reads of free minutes: what it can have, or why it has none."""
    worth: str = ""
    why_not: str = ""


@dataclass(frozen=True)
class Gifts:
    """The part at this socket; without a socket nothing is offered."""
    path: str

    def ask(self, act: str, address: str, device: str, session: int = 0) -> dict[str, Any]:
        """The answer to one question."""
        return doors.ask(self.path, {"act": act, "address": address, "device": device, "session": session},
                         LOOK if act == "look" else ACT)

    def offer(self, address: str, device: str, language: Language) -> Offer | None:
        """What the device can have for nothing now; nothing where the venue gives nothing, or the part does
        not say so."""
        reply = self.ask("look", address, device)
        reason = {"had": HAD, "none_left": NONE_LEFT, "wait": WAIT}.get(reply.get("free", ""))
        if reply["answer"] == DONE and reply.get("free") == "yes":
            return Offer(worth({"seconds": reply["seconds"], "bytes": reply["bytes"], "uses": 1}, language))
        return Offer(why_not=language.say(reason, **begin_of(reply, language))) if reason else None

    def session(self, address: str, device: str) -> int:
        """The number of the device's open session; 0 where the part does not say it."""
        return int(self.ask("look", address, device).get("session", 0))
