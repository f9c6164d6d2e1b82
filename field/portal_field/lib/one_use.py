"""One use of a code, wherever it is typed: the number (idempotency key) of a redemption.

It is made of the device, the code, and how many sessions of these two are over, and of nothing else. So a
form that is sent twice, a RADIUS packet that comes twice, the venue's page and each RADIUS server send the
same number, and the request takes effect once. Who has the answer to a number looks whether the device has an
open session. If it has none, the session of that answer is over, and the code's next use has the next number.
"""

from __future__ import annotations

import hashlib
import threading
from collections import OrderedDict
from collections.abc import Iterator

from portal_field.lib.typed_codes import plain_code

MOST_SESSIONS = 400     # of one code and device
MOST_FORMS = 4096       # that are remembered


def number_of(device: str, code: str, over: int) -> str:
    """The idempotency key for the use of a code by a device, of which so many sessions with this code are
    over."""
    text = f"{device.lower().replace('-', ':')} {plain_code(code)} {over}"
    return hashlib.sha256(text.encode()).hexdigest()[:36]


def numbers(device: str, code: str) -> Iterator[str]:
    """The idempotency keys for a code on a device, in the order in which they are sent."""
    return (number_of(device, code, over) for over in range(MOST_SESSIONS))


class Forms:
    """The forms of late, each with its code and the number that was sent last for it: a form sent again sends
    that number alone, also where its session is over by now."""

    def __init__(self) -> None:
        self.entries: OrderedDict[tuple[str, str], tuple[str, str]] = OrderedDict()
        self.lock = threading.Lock()

    def remember(self, form: str, device: str, code: str, number: str) -> None:
        """Notes a form before its number is sent."""
        with self.lock:
            self.entries[form, device] = (code, number)
            self.entries.move_to_end((form, device))
            if len(self.entries) > MOST_FORMS:
                self.entries.popitem(last=False)

    def forget(self, form: str, device: str) -> None:
        """Drops a form after a refusal, which keeps no number."""
        with self.lock:
            self.entries.pop((form, device), None)

    def is_of_another_code(self, form: str, device: str, code: str) -> bool:
        """Whether this form was sent before with another code."""
        return self.entries.get((form, device), (code, ""))[0] != code

    def again(self, form: str, device: str, code: str, in_doubt: str) -> list[str]:
        """The one number that a form sent before is to send, or none. It is in this memory, or on the page
        that showed that the form is in doubt (`in_doubt`), which outlives the helper."""
        entry = self.entries.get((form, device))
        if entry:
            return [entry[1]]
        return [in_doubt] if in_doubt and in_doubt in numbers(device, code) else []
