"""portal-settings.service: writes whole files of /etc/portal as root, for the counter's page, which cannot
write there.

A request comes with the password of a person, which is checked here against the accounts on the disk: a
counter's page that an attacker controls has nothing to write with until somebody types it. A file is one of
the kinds of `kinds.py`, and no other path is known. Its content is checked as set-up checks it. The file of
before is kept beside it, as NAME.before.

A request is a JSON object of one connection, up to its end: `kind`, `text` (the new file; of a picture in
Base64; an empty one takes a file away that a venue need not have), `was` (SHA-256 of the text that it is made
from, or of nothing where such a file is not there), `who` and `password`. The answer is an object with
`answer`: `done`, or the word of a refusal, and `why` in English, or `seconds`.
"""

from __future__ import annotations

import contextlib
import grp
import hashlib
import json
import os
import pathlib
import pwd
import socket
import stat
import struct
import sys
import time
from collections.abc import Callable
from typing import Any

from portal_field.lib import passwords
from portal_field.lib.tries import Tries
from portal_field.settings.accounts import FILE, Account, Accounts, BadAccounts
from portal_field.settings.kinds import CLERKS, KINDS as KINDS, MOST_PICTURE, Kind, Refusal

ETC, SOCKET = pathlib.Path("/etc/portal"), "/run/portal-settings/socket"
MOST_REQUEST = 2 * MOST_PICTURE     # bytes: a text in JSON is longer than in its file
PATIENCE = 10.0     # seconds for the whole of a request
IDLE = 300.0        # seconds without a request, after which the writer of a venue by name ends
KEYS = {"kind", "text", "was", "who", "password"}
COUNTER = "portal-counter"  # the user who may ask
FLAGS = os.O_NOFOLLOW | os.O_CLOEXEC


def read_request(data: bytes) -> dict[str, str]:
    """The fields of a request. Refusal: it is none."""
    try:
        fields = json.loads(data.decode())
    except (ValueError, RecursionError) as fault:
        raise Refusal("bad_request", "it is no JSON") from fault
    if not isinstance(fields, dict) or fields.keys() != KEYS or {*map(type, fields.values())} != {str}:
        raise Refusal("bad_request", f"it has the texts {', '.join(sorted(KEYS))}")
    if fields["kind"] not in KINDS:
        raise Refusal("unknown_kind", f"one of {', '.join(KINDS)}")
    try:
        size = len(fields["text"].encode())
    except UnicodeError as fault:
        raise Refusal("bad_request", "the text is no UTF-8") from fault
    if size > (most := KINDS[fields["kind"]].most):
        raise Refusal("too_large", f"at most {most} bytes")
    return fields


class Writer:
    """Writes the files of a folder."""

    def __init__(self, folder: pathlib.Path = ETC, now: Callable[[], float] = time.monotonic) -> None:
        self.folder, self.tries = folder, Tries(now)

    def answer(self, data: bytes) -> dict[str, Any]:
        """The answer to a request."""
        who = "?"
        try:
            fields = read_request(data)
            who = self.write(fields)
            result: dict[str, Any] = {"answer": "done"}
        except Refusal as refusal:
            result = {"answer": refusal.word, "why": refusal.why, "seconds": round(refusal.seconds)}
        except OSError as fault:
            result = {"answer": "not_written", "why": str(fault)}
        line = f"settings: {who}: {result['answer']} {result.get('why', '')}"
        print(line.rstrip(), file=sys.stderr, flush=True)
        return result

    def write(self, fields: dict[str, str]) -> str:
        """Writes the file of a request; whose it is. Refusal: it is not written."""
        who = self.person(fields["who"], fields["password"])
        kind, text = KINDS[fields["kind"]], fields["text"]
        before = self.read(kind)
        if hashlib.sha256(before.encode()).hexdigest() != fields["was"]:
            raise Refusal("changed_meanwhile", f"{kind.name} is not the one that this was made from")
        kind.check(who, before, text)
        self.put(kind, f"{kind.name}.before", before)
        self.put(kind, kind.name, text, lambda: self.read(kind) == before)
        return f"{who.name}, {fields['kind']}"

    def person(self, name: str, word: str) -> Account:
        """The account of a name and its password, by the file on the disk. Refusal: it is not that."""
        if seconds := self.tries.wait(name):
            raise Refusal("wait", "too many wrong passwords", seconds)
        try:
            account = Accounts.read(self.read(KINDS[CLERKS])).get(name)
        except BadAccounts as fault:
            raise Refusal("bad_file", f"{FILE} on the disk: {fault}") from fault
        is_right = passwords.fits(word, account.password if account else passwords.of_nobody())
        if account is None or not is_right:
            self.tries.add(name)
            raise Refusal("wrong_password")
        return account

    @contextlib.contextmanager
    def opened(self, kind: Kind) -> Any:
        """The folder of a kind. Neither it nor the one that it is in is a link."""
        number = os.open(self.folder, os.O_RDONLY | os.O_DIRECTORY | FLAGS)
        try:
            if kind.folder:
                outer = number
                number = os.open(kind.folder, os.O_RDONLY | os.O_DIRECTORY | FLAGS, dir_fd=outer)
                os.close(outer)
            yield number
        finally:
            os.close(number)

    def read(self, kind: Kind) -> str:
        """The text of a file, which is no link; an empty one of a file that need not be there. Refusal: there
        is none, or it is no such file."""
        with self.opened(kind) as folder:
            try:
                number = os.open(kind.name, os.O_RDONLY | os.O_NONBLOCK | FLAGS, dir_fd=folder)
            except FileNotFoundError as fault:
                if kind.is_optional:
                    return ""
                raise Refusal("no_file", f"{kind.name}: {fault.strerror}") from fault
            except OSError as fault:
                raise Refusal("no_file", f"{kind.name}: {fault.strerror}") from fault
            if not stat.S_ISREG(os.fstat(number).st_mode):
                os.close(number)
                raise Refusal("no_file", f"{kind.name} is no file")
            with open(number, "rb") as file:
                data = file.read(kind.most + 1)
        try:
            return kind.text_of(data)
        except UnicodeError as fault:
            raise Refusal("bad_file", f"{kind.name} on the disk is no text in UTF-8") from fault

    def put(self, kind: Kind, name: str, text: str, may: Callable[[], bool] = lambda: True) -> None:
        """Writes a file as a whole: under another name, to the disk, and then renamed. Of an empty text,
        where a file need not be there, none is left. Refusal: it may not be any more."""
        part = f".{name}.part"
        with self.opened(kind) as folder:
            with contextlib.suppress(FileNotFoundError):
                os.unlink(part, dir_fd=folder)
            number = os.open(part, os.O_WRONLY | os.O_CREAT | os.O_EXCL | FLAGS, 0o600, dir_fd=folder)
            try:
                with open(number, "wb") as file:
                    own_by(number, kind)
                    file.write(kind.data_of(text))
                    file.flush()
                    os.fsync(number)
                if not may():
                    raise Refusal("changed_meanwhile", f"{name} was changed just now")
                if text or not kind.is_optional:
                    os.rename(part, name, src_dir_fd=folder, dst_dir_fd=folder)
                else:
                    with contextlib.suppress(FileNotFoundError):
                        os.unlink(name, dir_fd=folder)
                os.fsync(folder)
            finally:
                with contextlib.suppress(FileNotFoundError):
                    os.unlink(part, dir_fd=folder)


def own_by(number: int, kind: Kind) -> None:
    """Gives an open file its group and mode. Where there is no such group it is root's alone."""
    with contextlib.suppress(KeyError, PermissionError):
        os.fchown(number, -1, grp.getgrnam(kind.group).gr_gid)
    os.fchmod(number, kind.mode)


# The socket

def may_ask(link: socket.socket) -> bool:
    """Whether this is root or the counter's page."""
    _, user, _ = struct.unpack("3i", link.getsockopt(socket.SOL_SOCKET, socket.SO_PEERCRED, 12))
    with contextlib.suppress(KeyError):
        if user == pwd.getpwnam(COUNTER).pw_uid:
            return True
    return bool(user in (0, os.geteuid()))


def receive(link: socket.socket) -> bytes:
    """The bytes of a request, within its time. Refusal: they are too many, or too slow."""
    end, data = time.monotonic() + PATIENCE, b""
    while True:
        link.settimeout(max(0.01, end - time.monotonic()))
        try:
            piece = link.recv(65536)
        except TimeoutError as fault:
            raise Refusal("bad_request", "it did not end in time") from fault
        if not piece:
            return data
        data += piece
        if len(data) > MOST_REQUEST:
            raise Refusal("too_large", f"at most {MOST_REQUEST} bytes")


def serve(writer: Writer, door: socket.socket) -> None:
    """Answers one request after another, for ever. TimeoutError: none came within the time of the socket."""
    while True:
        link, _ = door.accept()
        link.setblocking(True)
        with link, contextlib.suppress(OSError):
            try:
                if not may_ask(link):
                    raise Refusal("not_allowed", "another user's process")
                result = writer.answer(receive(link))
            except Refusal as refusal:
                result = {"answer": refusal.word, "why": refusal.why}
            link.settimeout(PATIENCE)
            link.sendall(json.dumps(result).encode())


def main() -> None:
    """Serves on the socket that systemd holds."""
    if os.environ.get("LISTEN_PID") != str(os.getpid()):
        sys.exit("settings: it is started by portal-settings.socket")
    os.umask(0o077)
    door, folder = socket.socket(fileno=3), os.environ.get("SETTINGS_FOLDER")
    if folder:      # of a venue by name: systemd starts it anew at the next request
        door.settimeout(IDLE)
    with contextlib.suppress(TimeoutError):
        serve(Writer(pathlib.Path(folder) if folder else ETC), door)


if __name__ == "__main__":
    main()
