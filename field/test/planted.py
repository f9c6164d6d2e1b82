"""A folder of a service that an attacker controls, and what that can put under any name there."""

from __future__ import annotations

import contextlib
import os
import pathlib
import signal
import socket
import stat
from collections.abc import Callable, Iterator

NOBODY = 65534      # Debian's user and group of services that own nothing
KEPT = "9: nobody but root changes this\n"
KINDS: dict[str, Callable[[pathlib.Path, pathlib.Path], object]] = {
    "link": lambda path, outside: path.symlink_to(outside),
    "link to nothing": lambda path, outside: path.symlink_to(outside.with_name("nothing")),
    "link to a device": lambda path, outside: path.symlink_to(device(outside)),
    "pipe": lambda path, _: os.mkfifo(path),
    "socket": lambda path, _: bound(path)}


def bound(path: pathlib.Path) -> None:
    """A socket that nobody listens on."""
    folder = os.open(path.parent, os.O_PATH)
    with socket.socket(socket.AF_UNIX) as link:
        link.bind(f"/proc/self/fd/{folder}/{path.name}")     # the path itself may be too long
    os.close(folder)


def device(outside: pathlib.Path) -> pathlib.Path:
    """A device that gives bytes without end. Root has one of its own beside that file: what goes wrong in a test is done to no device
    of the machine."""
    path = outside.with_name("zero")
    if os.geteuid() != 0:
        return pathlib.Path("/dev/zero")
    if not path.exists():
        os.mknod(path, stat.S_IFCHR | 0o666, os.makedev(1, 5))
    return path


def service_folder(place: pathlib.Path, name: str = "service") -> pathlib.Path:
    """A folder of another user than the one who runs the test; where that is not root, who cannot make one, a folder that every
    user may change."""
    folder = place / name
    folder.mkdir(parents=True)
    if os.geteuid() == 0:
        os.chown(folder, NOBODY, NOBODY)
        folder.chmod(0o700)
    else:
        folder.chmod(0o777)
    return folder


def outside_file(place: pathlib.Path) -> pathlib.Path:
    """A file outside of the folder, which a link leads to."""
    path = place / "outside.conf"
    path.write_text(KEPT)
    return path


def plant(kind: str, path: pathlib.Path, outside: pathlib.Path) -> None:
    """Puts something of a kind under a name, whatever is there."""
    path.unlink(missing_ok=True)
    KINDS[kind](path, outside)


@contextlib.contextmanager
def within(seconds: int) -> Iterator[None]:
    """TimeoutError: what is inside stands still, as over a pipe that nobody writes to."""
    def end(*_: object) -> None:
        raise TimeoutError("it stands still")

    before = signal.signal(signal.SIGALRM, end)
    signal.alarm(seconds)
    try:
        yield
    finally:
        signal.alarm(0)
        signal.signal(signal.SIGALRM, before)
