"""The codes that were looked up last, each by a number: an address of the page has that number, and no
code."""

from __future__ import annotations

import threading
from collections import OrderedDict

from portal_field.lib.desk_client import new_number


class Looks:
    """In memory: after a restart of the page a code is scanned again. What was typed is kept as it was
    typed."""

    MOST = 2000

    def __init__(self) -> None:
        self.lock, self.codes = threading.Lock(), OrderedDict[str, str]()

    def keep(self, code: str, number: str = "") -> str:
        """The number that stands for the code; a new one each time, where none is given."""
        number = number or new_number()
        with self.lock:
            self.codes[number] = code
            if len(self.codes) > self.MOST:
                self.codes.popitem(last=False)
        return number

    def code(self, number: str) -> str:
        """Empty where it is not kept, or no longer."""
        return self.codes.get(number, "")
