"""Gives the sockets that systemd holds for the parts the owner, the group and the mode of their units, while
they stay open: systemd itself does it where it opens them."""

from __future__ import annotations

import pathlib
import shutil
from collections.abc import Callable, Iterator

SOCKETS = "portal-*.socket"
KEYS = ("Listen", "SocketUser", "SocketGroup", "SocketMode")


def sockets_in(shown: str) -> Iterator[dict[str, str]]:
    """The properties of each socket unit, out of what `systemctl show` prints of several."""
    for block in shown.strip().split("\n\n"):
        values = dict(line.split("=", 1) for line in block.splitlines() if "=" in line)
        if set(KEYS) <= values.keys():
            yield values


def renew(show: Callable[[str, str], str], root: pathlib.Path = pathlib.Path("/")) -> None:
    """Changes the files of the sockets that are open. `show` gives what systemctl prints of the properties
    of units, both as it takes them. OSError, LookupError: one cannot be changed."""
    for values in sockets_in(show(",".join(KEYS), SOCKETS)):
        path = root / values["Listen"].removesuffix(" (Stream)").lstrip("/")
        if path.is_socket():
            shutil.chown(path, values["SocketUser"], values["SocketGroup"])
            path.chmod(int(values["SocketMode"], 8))
