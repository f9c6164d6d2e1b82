"""What a process of a unit can use, as systemd puts it into its sandbox: sockets, ports and processes, the files that it can write
anywhere, and those that it can read in some folders. systemd runs it in place of the unit's own program.

    probe.py [USER]     reads what there is on this machine from standard input, as JSON: sockets, ports, and the numbers of the
                        processes of each unit; writes what it can use of that to standard output. USER: it becomes that user first,
                        as nginx does.
"""

from __future__ import annotations

import errno
import grp
import json
import os
import pwd
import socket
import stat
import sys
from collections.abc import Iterator

READ_BELOW = ("/etc/portal", "/run", "/var", "/tmp", "/dev")
PASSED_OVER = ("/proc", "/sys", "/srv")     # the kernel's, but for its settings; and the test's own files
SETTINGS = "/proc/sys"
KINDS = (socket.SOCK_STREAM, socket.SOCK_DGRAM, socket.SOCK_SEQPACKET)
ANSWERS = (0, errno.EAGAIN, errno.EINPROGRESS)
PATIENCE = 2.0      # seconds for a connection


def name_of(group: int) -> str:
    """The name of a group, or its number where it has none here."""
    try:
        return grp.getgrgid(group).gr_name
    except KeyError:
        return str(group)


def become(name: str) -> None:
    """Takes a user's number and groups, and no capability, as a worker of nginx does."""
    user = pwd.getpwnam(name)
    os.initgroups(name, user.pw_gid)
    os.setgid(user.pw_gid)
    os.setuid(user.pw_uid)


def is_open(family: int, kind: int, address: str | tuple[str, int]) -> int:
    """The error of a connection; 0: it can be opened."""
    try:
        with socket.socket(family, kind) as link:
            link.settimeout(PATIENCE)
            return link.connect_ex(address)
    except OSError as fault:        # the family or the kind is not allowed
        return fault.errno or errno.EPERM


def connects(sockets: list[str]) -> Iterator[str]:
    """The sockets in the file system, or by an abstract name, that it can open."""
    for path in sockets:
        address = path.replace("@", "\0", 1) if path.startswith("@") else path
        for kind in KINDS:
            error = is_open(socket.AF_UNIX, kind, address)
            if error in ANSWERS:
                yield path
            if error != errno.EPROTOTYPE:
                break


def reaches(ports: list[str]) -> Iterator[str]:
    """The ports of this machine that it can connect to."""
    for port in ports:
        host, _, number = port.rpartition(":")
        if is_open(socket.AF_INET, socket.SOCK_STREAM, (host, int(number))) == 0:
            yield port


def may_signal(process: int) -> bool:
    """Whether it can end a process."""
    try:
        os.kill(process, 0)
    except OSError:
        return False
    return True


def reads_memory(process: int) -> bool:
    """Whether it can open the memory of a process."""
    try:
        os.close(os.open(f"/proc/{process}/mem", os.O_RDONLY))
    except OSError:
        return False
    return True


def may(path: str, how: int) -> bool:
    """Whether the kernel lets it use a file so, with all its groups and capabilities, where it is mounted."""
    return os.access(path, how, effective_ids=True)


def all_files(top: str) -> Iterator[tuple[str, os.stat_result]]:
    """All that is in a folder, and what is in that, as far as it may look; nothing behind a link."""
    try:
        entries = sorted(os.scandir(top), key=lambda entry: entry.name)
    except OSError:
        return
    for entry in entries:
        if entry.path in PASSED_OVER or entry.is_symlink():
            continue
        try:
            found = entry.stat(follow_symlinks=False)
        except OSError:
            continue
        yield entry.path, found
        if stat.S_ISDIR(found.st_mode):
            yield from all_files(entry.path)


def look_at_files() -> tuple[list[str], list[str]]:
    """The files that it can write, with folders in which it can make some, and those that it can read."""
    writes, reads = list[str](), list[str]()
    for top in ("/", SETTINGS):
        for path, found in all_files(top):
            if stat.S_ISSOCK(found.st_mode):
                continue
            if stat.S_ISDIR(found.st_mode):
                writes += [path + "/"] if may(path, os.W_OK | os.X_OK) else []
                continue
            writes += [path] if may(path, os.W_OK) else []
            is_there = path.startswith(tuple(folder + "/" for folder in READ_BELOW))
            reads += [path] if is_there and may(path, os.R_OK) else []
    return writes, reads


def take_connections() -> None:
    """Takes those that it made to its own socket, so that systemd does not start it again for them."""
    if os.environ.get("LISTEN_PID") != str(os.getpid()):
        return
    with socket.socket(fileno=3) as door:
        door.setblocking(False)
        try:
            while True:
                door.accept()[0].close()
        except OSError:
            pass


def main() -> None:
    there = json.load(sys.stdin)
    if len(sys.argv) > 1:
        become(sys.argv[1])
    writes, reads = look_at_files()
    units = there["processes"].items()
    found = {"user": os.geteuid(), "groups": sorted(map(name_of, {os.getegid(), *os.getgroups()})),
             "writes": writes, "reads": reads, "connects": list(connects(there["sockets"])), "reaches": list(reaches(there["ports"])),
             "signals": [unit for unit, numbers in units if any(map(may_signal, numbers))],
             "reads_memory": [unit for unit, numbers in units if any(map(reads_memory, numbers))]}
    take_connections()
    json.dump(found, sys.stdout)


if __name__ == "__main__":
    main()
