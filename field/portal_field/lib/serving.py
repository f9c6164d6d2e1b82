"""A WSGI application behind nginx, on a socket in the file system, by waitress. It loads nothing of Flask.

nginx has read the whole request before it calls, and keeps the log.
"""

from __future__ import annotations

import contextlib
import logging
import os
import socket
import threading
import time
from collections.abc import Callable, Iterable
from typing import Any

import waitress

from portal_field.lib.notify import notify_systemd

Answer = Iterable[bytes]
Application = Callable[[dict[str, Any], Callable[..., Any]], Answer]
ALIVE = 5.0         # seconds between two looks of the watchdog
MOST_BODY = 4_300_000       # bytes: a picture and its form; of other forms nginx lets less through


def server(app: Application, door: socket.socket, threads: int) -> Any:
    """A server that works on so many requests at a time; `run` takes them for ever."""
    logging.getLogger("waitress.queue").setLevel(logging.ERROR)

    def alive(environ: dict[str, Any], start: Callable[..., Any]) -> Answer:
        """The application, and before it the answer at /alive, by which `watch` knows that requests are
        worked on."""
        if environ["PATH_INFO"] == "/alive":
            start("204 No Content", [])
            return []
        return app(environ, start)

    return waitress.create_server(alive, sockets=[door], threads=threads, ident=None, connection_limit=1000,
                                  asyncore_use_poll=True, log_socket_errors=False,
                                  max_request_body_size=MOST_BODY,
                                  clear_untrusted_proxy_headers=False)


def watch(path: str) -> None:
    """Reports the start as over with the first answer; a page that then does not answer within its time is
    ended by systemd and started again."""
    while True:
        with contextlib.suppress(OSError), socket.socket(socket.AF_UNIX) as link:
            link.settimeout(ALIVE)
            link.connect(path)
            link.sendall(b"GET /alive HTTP/1.0\r\n\r\n")
            if link.recv(12).endswith(b" 204"):
                notify_systemd(b"READY=1\nWATCHDOG=1")
        time.sleep(ALIVE)


def serve(app: Application, door: socket.socket, threads: int) -> None:
    """Serves an application for ever, with systemd's watchdog where that asks for it."""
    if os.environ.get("NOTIFY_SOCKET"):
        threading.Thread(target=watch, args=(door.getsockname(),), daemon=True).start()
    server(app, door, threads).run()
