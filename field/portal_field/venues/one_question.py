"""A part that systemd starts for each connection of the counters' pages: it answers one question, as JSON,
and ends."""

from __future__ import annotations

import json
import sys
from collections.abc import Callable
from typing import Any


def run(name: str, most: int, answer: Callable[[bytes], dict[str, Any]]) -> int:
    """Answers the question of the standard input, of at most so many bytes. A fault also goes to the journal,
    after the name of the part, in one line of ASCII: it may quote what others say. The status of the
    process."""
    data = sys.stdin.buffer.read(most + 1)
    found = answer(data) if len(data) <= most else {"fault": f"at most {most} bytes"}
    if why := found.get("fault"):
        print(f"{name}: {ascii(why)}", file=sys.stderr, flush=True)
    sys.stdout.write(json.dumps(found))
    return 0
