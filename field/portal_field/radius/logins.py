"""What a RADIUS login gets: User-Name is a voucher's code, Calling-Station-Id the device. The device's open
session decides, not the code.

1. A device whose session is open is accepted on it; a code that may have opened it takes nothing more.
2. A code is redeemed with the number of `one_use`: a packet sent twice, a second RADIUS server, the venue's
own page take
   effect once. Where the session of that number is over, the code's next use is taken.
3. A User-Name that is the device's own address (MAC authentication) asks and never redeems.
4. Without an answer, a device or a code the login is rejected, in words that a guest can read.

Nothing that is asked for at each login costs more where more sessions are open: what is left is the device's
state, and the session's number that of the redemption's answer or of a list that serves for half a second
(`open_sessions`).
"""

from __future__ import annotations

import time
from collections.abc import Callable
from dataclasses import dataclass
from typing import Any

from portal_field.lib.counts import Counts
from portal_field.lib.desk_client import Desk, NoAnswer, Refused, Routes
from portal_field.lib.guest_refusals import refusal_text
from portal_field.lib.languages import Language
from portal_field.lib.message_marks import guest_words
from portal_field.lib.one_use import numbers
from portal_field.lib.refusals import NO_ANSWER, Refusal, of_word
from portal_field.lib.typed_codes import plain_code
from portal_field.radius.classes import device_of
from portal_field.radius.open_sessions import OpenSessions

Row = dict[str, Any]
Pairs = list[tuple[str, str]]
# Refusals of a code that may have opened the open session: the guest keeps the code, and is let in again.
MAY_BE_ITS_OWN = {"used_up", "expired", "refunded", "no_extend", "shape_differs", "allowance_full"}
TYPE_A_CODE = Refusal(0, "no_session", 409, "", "", guest_words("Type the code from your voucher"))
WORD_32 = 2 ** 32 - 1
LONGEST_TIME = 2 ** 31 - 1
LONGEST_WORDS = 253         # bytes of an attribute (RFC 2865 section 5)
SLOW, PAUSE = 1.0, 2.0      # seconds: an answer that did not come so long, and how long nobody asks then


def limits(answer: Row, interim: int) -> Pairs:
    """The attributes that limit a session at the NAS. A count that does not fit is sent as the greatest that
    fits: the NAS then asks again."""
    reply = [("Acct-Interim-Interval", str(interim))]
    if "seconds-remaining" in answer:
        reply.append(("Session-Timeout", str(min(answer["seconds-remaining"], LONGEST_TIME))))
    if "bytes-remaining" in answer:
        count = answer["bytes-remaining"]
        reply += [("Mikrotik-Total-Limit", str(count & WORD_32)),
                  ("Mikrotik-Total-Limit-Gigawords", str(count >> 32)),
                  ("ChilliSpot-Max-Total-Octets", str(min(count, WORD_32))),
                  ("pfSense-Max-Total-Octets", str(min(count, WORD_32)))]
    return reply


@dataclass(frozen=True)
class Open:
    """A device's open session. `left`: the answer of `GET /captive`."""
    session: int
    answer: Row


Answer = tuple[Open | None, Refusal | None]


@dataclass
class Logins:
    """`guests` asks as a guest. `given` makes the Class of a session, a device and an access server's
    name."""
    guests: Desk
    sessions: OpenSessions
    class_of: Callable[[int, str, str], str]
    interim: int
    language: Language
    counts: Counts
    silent_until: float = 0.0

    def open_session(self, device: str, answered: int = 0) -> Open | None:
        """The open session of a device; None where it has none. `answered`: the session in the answer to a
        redemption by the device; it may be over."""
        answer = self.sessions.captive_answer(device)
        session = self.sessions.number(device, answered) if answer else 0
        return Open(session, answer) if answer and session else None

    def by_device(self, device: str) -> Answer:
        """The answer to a login with MAC authentication: the open session, or that a code is needed."""
        session = self.open_session(device)
        return (session, None) if session else (None, TYPE_A_CODE)

    def redeem(self, device: str, code: str) -> Answer:
        """The open session, and a refusal that the guest reads; no session where the device is not let in."""
        for number in numbers(device, code):
            try:
                reply = self.guests.request_json(Routes.REDEEM, body={"code": code}, device=device,
                                                 number=number)
            except Refused as fault:
                own = self.open_session(device) if fault.word in MAY_BE_ITS_OWN else None
                return own, of_word(fault.word)
            session = self.open_session(device, reply["session"])
            if session:
                return session, None
        return None, of_word("used_up")

    def answer_to(self, name: str, device: str) -> Answer:
        """The answer to a login with this name from this device. FreeRADIUS's Python makes one call at a
        time. So behind a silent server one login waits for the time limit, and for a moment the others are
        rejected at once."""
        start = time.monotonic()
        try:
            if start < self.silent_until:
                raise NoAnswer("there was no answer a moment ago")
            if device_of(name) == device:
                return self.by_device(device)
            return self.redeem(device, plain_code(name))
        except Refused as fault:        # of the list: a wrong token, a server that stopped
            return None, of_word(fault.word)
        except (NoAnswer, OSError, KeyError, TypeError):
            if time.monotonic() - start > SLOW:
                self.silent_until = time.monotonic() + PAUSE
            return None, NO_ANSWER

    def decide(self, name: str, calling: str | None, server: str) -> tuple[bool, Pairs]:
        """Whether the login at the access server of this name is accepted, and the attributes of the
        reply."""
        device, reply = device_of(calling), Pairs()
        session, refusal = self.answer_to(name, device) if device else (None, of_word("bad_device"))
        if device and session:
            reply = [("Class", self.class_of(session.session, device, server)),
                     *limits(session.answer, self.interim)]
        if refusal:
            self.counts.add(refusal.word)
            reply.append(("Reply-Message", self.in_words(refusal, name)))
        return session is not None, reply

    def in_words(self, refusal: Refusal, name: str) -> str:
        """What a guest reads of a login with this name, as long as a packet can carry it."""
        words = refusal_text(refusal, self.language, plain_code(name))
        return words.encode()[:LONGEST_WORDS].decode(errors="ignore")
