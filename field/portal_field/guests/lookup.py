"""portal-lookup@N.service: names to nginx, for each request of a program, the device that it comes from.

    python3 -m portal_field.guests.lookup LAN SOCKET

It asks the kernel and nobody else, and has no page and no secret. Several of these processes answer, each on
a socket of its own: where one is silent, nginx asks the next.
"""

from __future__ import annotations

import sys
from collections.abc import Callable
from typing import Any

from portal_field.lib import doors, serving
from portal_field.lib.devices import Devices, Holders, look_twice

THREADS = 32        # requests at a time: a device without a lease holds one for a moment


def lookup(holder: Holders) -> serving.Application:
    """The application: 200 with the device that has the address, or 403 where none has it."""
    def answer(environ: dict[str, Any], start: Callable[..., Any]) -> serving.Answer:
        """The answer to one request. nginx takes the head alone; without a length waitress would hang up."""
        device = look_twice(holder, environ.get("HTTP_X_REAL_IP", ""))
        head = [("Content-Length", "0")]
        if device is None:
            start("403 Forbidden", head)
        else:
            start("200 OK", [*head, ("Portal-Device", device)])
        return []

    return answer


def main() -> None:
    """Serves the look-up of a network's devices."""
    lan, path = sys.argv[1:]
    serving.serve(lookup(Devices(lan).holder), doors.listening(path), THREADS)


if __name__ == "__main__":
    main()
