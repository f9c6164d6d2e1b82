"""Sockets in the file system at which one part of the venue asks another: who may ask, and one JSON object
each way on each connection."""

from __future__ import annotations

import contextlib
import json
import os
import pathlib
import pwd
import socket
import struct
import threading
import time
import traceback
from collections.abc import Callable
from typing import Any

PATIENCE = 5.0      # seconds for the whole of a request
STOP = b"stop"      # what the server's parent says to the gateway agent
Answer = dict[str, Any]


class BadRequest(Exception):
    """Nothing is done with this request; the word of the answer."""


def listening(path: str) -> socket.socket:
    """The socket that systemd holds for this service; without it a new one, which its user and group alone
    may open."""
    if os.environ.get("LISTEN_PID") == str(os.getpid()):
        return socket.socket(fileno=3)
    pathlib.Path(path).unlink(missing_ok=True)
    door, mask = socket.socket(socket.AF_UNIX), os.umask(0o117)
    try:
        door.bind(path)
    finally:
        os.umask(mask)
    door.listen(64)
    return door


def is_asked_by(link: socket.socket, user: str) -> bool:
    """Whether the process at the other end is of this user, by name or number, or of root, or of the own
    user."""
    _, number, _ = struct.unpack("3i", link.getsockopt(socket.SOL_SOCKET, socket.SO_PEERCRED, 12))
    if user.isdecimal():
        return number in (0, os.geteuid(), int(user))
    with contextlib.suppress(KeyError):
        return number in (0, os.geteuid(), pwd.getpwnam(user).pw_uid)
    return number in (0, os.geteuid())


def receive(link: socket.socket, most: int, patience: float = PATIENCE) -> bytes:
    """The bytes of a request, up to its end, within its time. BadRequest: they are too many, or too slow."""
    end, data = time.monotonic() + patience, b""
    while True:
        link.settimeout(max(0.01, end - time.monotonic()))
        try:
            piece = link.recv(4096)
        except TimeoutError as fault:
            raise BadRequest("bad_request") from fault
        if not piece:
            return data
        data += piece
        if len(data) > most:
            raise BadRequest("too_large")


class Door:
    """Answers requests on a socket: those of one user alone, each of so many bytes at most."""

    def __init__(self, door: socket.socket, user: str, most: int, answer: Callable[[bytes], Answer]) -> None:
        self.door, self.user, self.most, self.answer = door, user, most, answer

    def answer_one(self, link: socket.socket) -> None:
        """Answers the request of a connection."""
        try:
            if not is_asked_by(link, self.user):
                raise BadRequest("not_allowed")
            reply = self.answer(receive(link, self.most))
        except BadRequest as refusal:
            reply = {"answer": str(refusal)}
        link.settimeout(PATIENCE)
        link.sendall(json.dumps(reply).encode())

    def serve(self) -> None:
        """Answers one request after another, until the socket is closed. A fault of one is in the journal,
        and hinders no other."""
        while True:
            try:
                link, _ = self.door.accept()
            except OSError:
                return
            with link:
                try:
                    self.answer_one(link)
                except OSError:     # who asked has gone
                    pass
                except Exception:
                    traceback.print_exc()

    def serve_in_threads(self, count: int) -> None:
        """Answers as many requests at a time."""
        threads = [threading.Thread(target=self.serve, daemon=True) for _ in range(count)]
        for thread in threads:
            thread.start()
        for thread in threads:
            thread.join()


def exchange(path: str, question: dict[str, Any], patience: float) -> Any:
    """What the part at a socket sends back within so many seconds. OSError: nothing. ValueError: no JSON."""
    end, data = time.monotonic() + patience, b""
    with socket.socket(socket.AF_UNIX) as link:
        link.settimeout(patience)
        link.connect(path)
        link.sendall(json.dumps(question).encode())
        link.shutdown(socket.SHUT_WR)
        while piece := link.recv(1 << 16):
            data += piece
            link.settimeout(max(0.01, end - time.monotonic()))
    return json.loads(data)


def ask(path: str, question: dict[str, Any], patience: float) -> Answer:
    """The answer of the part at a socket. One that does not come, or is none, has the word `no_answer`."""
    try:
        reply = exchange(path, question, patience)
    except (OSError, ValueError):
        reply = None
    is_answer = isinstance(reply, dict) and isinstance(reply.get("answer"), str)
    return dict(reply) if is_answer else {"answer": "no_answer"}
