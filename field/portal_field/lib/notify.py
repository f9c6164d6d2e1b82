"""What a service reports to systemd about itself."""

from __future__ import annotations

import os
import socket


def notify_systemd(word: bytes) -> None:
    """Sends one datagram to systemd: READY=1, WATCHDOG=1 or STATUS=..; nothing where no systemd asked for
    it."""
    path = os.environ.get("NOTIFY_SOCKET", "")
    if path:
        with socket.socket(socket.AF_UNIX, socket.SOCK_DGRAM) as s:
            s.sendto(word, "\0" + path[1:] if path.startswith("@") else path)
