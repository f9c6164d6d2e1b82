"""Class (RFC 2865 section 5.25): what an access server is given with a login, and gives back with each
accounting packet.

It has the session's number, its device, and an HMAC over both and the access server's name. So bytes count
from the access server that logged the session in, and from no other; and after the restore of an older copy,
where numbers are given anew, nobody's bytes count on another device's session.
"""

from __future__ import annotations

import hashlib
import hmac
import re
from typing import NamedTuple

TEXT = re.compile(r"portal-([0-9]{1,16})-([0-9a-f]{12})(?:-([0-9a-f]{32}))?")


def device_of(text: str | None) -> str | None:
    """The device in a text of six octets in the usual spellings: 00-11-.., 00:11:.., 0011.2233.4455,
    001122334455."""
    digits = re.sub(r"[-:. ]", "", text or "").lower()
    if not re.fullmatch(r"[0-9a-f]{12}", digits):
        return None
    return ":".join(digits[i:i + 2] for i in range(0, 12, 2))


def beginning(session: int, device: str) -> str:
    """What all Classes of a session begin with."""
    return f"portal-{session}-{device.replace(':', '')}"


def in_radacct(session: int, device: str) -> tuple[str, str]:
    """From which text on, and below which, the column `class` is of this session: FreeRADIUS writes it in
    hexadecimal."""
    first = "0x" + beginning(session, device).encode().hex()
    return first, first + "g"       # which comes after all digits


class SessionClass(NamedTuple):
    """A Class that was read. `tag`: the HMAC in hexadecimal; empty in a Class of version 1.0.0, which had
    none."""
    session: int
    device: str
    tag: str

    @classmethod
    def read(cls, text: str | None) -> SessionClass | None:
        """What a Class says, as FreeRADIUS writes it; None where it is another program's."""
        try:
            match = TEXT.fullmatch(bytes.fromhex((text or "")[2:]).decode("ascii"))
        except ValueError:
            return None
        return cls(int(match[1]), device_of(match[2]) or "", match[3] or "") if match else None

    def __str__(self) -> str:
        return beginning(self.session, self.device) + (f"-{self.tag}" if self.tag else "")


class ClassKey:
    """`key`: drawn once by set-up. With another key the Classes that access servers hold are none of ours."""

    def __init__(self, key: str) -> None:
        self.key = key.encode()

    def class_of(self, session: int, device: str, server: str) -> SessionClass:
        """The Class of a session that the access server of this name logged in."""
        text = f"{session} {device} {server}".encode()
        return SessionClass(session, device, hmac.new(self.key, text, hashlib.sha256).hexdigest()[:32])

    def is_good(self, session_class: SessionClass, server: str) -> bool:
        """Whether a Class was made for the access server that gives it back."""
        own = self.class_of(session_class.session, session_class.device, server)
        return hmac.compare_digest(session_class.tag, own.tag)
