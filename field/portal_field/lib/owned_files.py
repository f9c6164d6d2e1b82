"""Files in folders that belong to a service, as root reads and writes them.

Whoever owns a folder can put a link, a pipe, a device or another's file under any name there. So root looks
at what is there before it opens it, and what is to lie there is written by the folder's owner.

    python3 -m portal_field.lib.owned_files FILE    writes FILE with what comes on standard input
"""

from __future__ import annotations

import contextlib
import errno
import os
import pathlib
import stat
import subprocess
import sys
from collections.abc import Iterator
from typing import IO, Any

MOST = 1 << 20      # bytes that are read of a file
FOLDER = os.O_PATH | os.O_DIRECTORY | os.O_CLOEXEC
FILE = os.O_PATH | os.O_CLOEXEC     # of a pipe or a device it opens nothing
# In the folder: its name, its mode, and the names of files that belong to the file of before. Nothing is
# written through what is there, and whatever happens the old file or the new one is there as a whole.
PUT = '''umask 077
rm -rf -- ".$1.part"
dd of=".$1.part" conv=excl,fsync oflag=nofollow bs=1M status=none && chmod "$2" ".$1.part" || exit
name=$1
shift 2
rm -rf -- "$@" && mv -fT -- ".$name.part" "$name" && sync .'''


class NoPlainFile(OSError):
    """Under a name there is something else than a file of its folder."""


def is_of_others(folder: int) -> bool:
    """Whether another user than root and this one can put something into an open folder."""
    found = os.fstat(folder)
    return found.st_uid not in (0, os.geteuid()) or bool(found.st_mode & 0o022)


def open_in(folder: int, name: str, flags: int) -> int:
    """The descriptor of what is in an open folder. A link counts where no other user could make it."""
    return os.open(name, flags | (os.O_NOFOLLOW if is_of_others(folder) else 0), dir_fd=folder)


@contextlib.contextmanager
def opened_folder(folder: pathlib.Path) -> Iterator[int]:
    """The descriptor of a folder, to which no link leads that another user could make."""
    top, *names = pathlib.Path(os.path.abspath(folder)).parts
    number = os.open(top, FOLDER)
    try:
        for name in names:
            outer, number = number, open_in(number, name, FOLDER)
            os.close(outer)
        yield number
    finally:
        os.close(number)


@contextlib.contextmanager
def own_folder(folder: pathlib.Path) -> Iterator[int]:
    """The descriptor of a folder that this user made, and alone changes. NoPlainFile: it is another's."""
    with opened_folder(folder) as number:
        if os.fstat(number).st_uid != os.geteuid() or os.fstat(number).st_mode & 0o022:
            raise NoPlainFile(errno.EINVAL, "it is another user's folder", str(folder))
        yield number


def names_to_disk(folder: int) -> None:
    """Has the kernel write the names in a folder to the disk."""
    number = os.open(".", os.O_RDONLY | os.O_DIRECTORY | os.O_CLOEXEC, dir_fd=folder)
    try:
        os.fsync(number)
    finally:
        os.close(number)


@contextlib.contextmanager
def held(path: pathlib.Path) -> Iterator[str]:
    """The address below /proc/self/fd of a file that this process holds and has not opened: it is that file
    whatever gets its name meanwhile, and a lock on it stays. NoPlainFile: it is a link that another user
    could make, no regular file, or another's that has a second name here."""
    with opened_folder(path.parent) as folder:
        number = open_in(folder, path.name, FILE)
        has_others, owner = is_of_others(folder), os.fstat(folder).st_uid
    try:
        found = os.fstat(number)
        is_its_own = not has_others or found.st_nlink == 1 or found.st_uid == owner
        if not stat.S_ISREG(found.st_mode) or not is_its_own:
            raise NoPlainFile(errno.EINVAL, "it is no plain file of its folder", str(path))
        yield f"/proc/self/fd/{number}"
    finally:
        os.close(number)


def number_of(address: str) -> int:
    """The descriptor of an address that `held` gives, for a command to inherit."""
    return int(address.rpartition("/")[2])


def is_plain(path: pathlib.Path) -> bool:
    """Whether there is a file that `held` takes. OSError: this user may not look."""
    try:
        with held(path):
            return True
    except (FileNotFoundError, NoPlainFile):
        return False


def read(path: pathlib.Path) -> bytes:
    """The first bytes of a file, up to MOST. OSError: it cannot be read; NoPlainFile: it is none."""
    with held(path) as address, open(address, "rb") as file:
        return file.read(MOST)


def put(path: pathlib.Path, source: bytes | IO[bytes], *gone: str, mode: int = 0o600) -> None:
    """Writes a file as the owner of its folder does, with a mode: readable by that user alone. Files of the
    names `gone` are removed from the folder just before it gets its name. OSError: it was not written."""
    with opened_folder(path.parent) as folder:
        owner = os.fstat(folder)
        user = ["setpriv", f"--reuid={owner.st_uid}", f"--regid={owner.st_gid}", "--clear-groups", "--"]
        words = [*(user if owner.st_uid != os.geteuid() else []), "sh", "-c", PUT, "sh", path.name,
                 f"{mode:o}", *gone]
        given: dict[str, Any] = {"input": source} if isinstance(source, bytes) else {"stdin": source}
        done = subprocess.run(words, cwd=f"/proc/{os.getpid()}/fd/{folder}", stdout=subprocess.DEVNULL,
                              stderr=subprocess.PIPE, env={**os.environ, "LC_ALL": "C"}, **given)
    if done.returncode != 0:
        why = done.stderr.decode(errors="replace").strip().rpartition(": ")[2]
        raise OSError(errno.EIO, f"it is not written: {why or done.returncode}", str(path))


def main() -> int:
    """Writes a file for a script of the package; 0 where it was written."""
    path = pathlib.Path(sys.argv[1])
    try:
        put(path, sys.stdin.buffer)
    except OSError as fault:
        print(f"portal: {path}: {fault.strerror}", file=sys.stderr)
        return 1
    return 0


if __name__ == "__main__":
    sys.exit(main())
