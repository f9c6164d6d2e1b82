"""Peers of every kind, one after another: after each the next one is answered."""

import socket
import struct
import sys
import tempfile
import time

from desk import PLANS, DESK, Broken, Desk, answer_of, guest, request

CAPTIVE = '{"captive":true,"user-portal-url":"https://wifi.example/portal"}'


def is_answered(desk):
    assert desk.ask("GET", "/captive", guest(1)) == (200, CAPTIVE)


def one_byte_at_a_time(desk):
    with desk.connect() as peer:
        peer.setsockopt(socket.IPPROTO_TCP, socket.TCP_NODELAY, 1)
        for byte in request("GET", "/captive", guest(1)):
            peer.sendall(bytes([byte]))
        assert answer_of(peer) == (200, CAPTIVE)


def closed_early(desk):
    with desk.connect() as peer:
        peer.sendall(b"GET /captive HTT")


def nothing_at_all(desk):
    desk.connect().close()


def reset(desk):
    peer = desk.connect()
    peer.setsockopt(socket.SOL_SOCKET, socket.SO_LINGER, struct.pack("ii", 1, 0))
    peer.sendall(b"POST /desk/plans HTTP/1.1\r\nHost: api\r\n")
    peer.close()


def gone_before_the_answer(desk):
    peer = desk.connect()
    peer.sendall(request("POST", "/desk/plans", DESK, PLANS))
    peer.setsockopt(socket.SOL_SOCKET, socket.SO_LINGER, struct.pack("ii", 1, 0))
    peer.close()


def megabyte_after_its_request(desk):
    """The request is answered; what follows it may find the connection closed."""
    with desk.connect() as peer:
        peer.sendall(request("GET", "/captive", guest(1)))
        try:
            peer.sendall(b"x" * 1_000_000)
            answer_of(peer)
        except (OSError, Broken):
            pass


def more_than_a_head(desk):
    with desk.connect() as peer:
        try:
            peer.sendall(b"GET /captive HTTP/1.1\r\n" + b"A: " + b"x" * 100_000)
            status, body = answer_of(peer)
            assert (status, body) == (400, '{"error":"bad_request"}'), (status, body)
        except (OSError, Broken):
            pass


def a_thousand(desk):
    for _ in range(1000):
        is_answered(desk)


def main():
    with tempfile.TemporaryDirectory() as folder:
        desk = Desk(sys.argv[1], folder)
        desk.start()
        kinds = [one_byte_at_a_time, closed_early, nothing_at_all, reset, gone_before_the_answer, megabyte_after_its_request, more_than_a_head, a_thousand]
        for kind in kinds:
            start = time.monotonic()
            kind(desk)
            is_answered(desk)
            assert time.monotonic() - start < 20, kind.__name__
        locked = desk.run("check")
        assert (locked.returncode, locked.stdout, locked.stderr) == (3, "", "portal: file\n  portal.db: the database is in use\n"), locked
        desk.kill()
        desk.start("--count", "2")
        is_answered(desk)
        is_answered(desk)
        assert desk.process.wait(timeout=10) == 0
        print(f"outside: {len(kinds)} kinds of peers, and after each the next one was answered")


main()
