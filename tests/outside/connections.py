"""What a server listens on, and what goes over a connection: the loopback address alone; to each client its own response, once, and
nothing before its request was read or after its response.

    connections.py PROGRAM [PART ..]
"""

from __future__ import annotations

import json
import os
import select
import socket
import struct
import sys
import tempfile

from desk import DESK, GATEWAY, Desk, answer_of, guest, request

CAPTIVE = (200, '{"captive":true,"user-portal-url":"https://wifi.example/portal"}')
NO_SESSIONS = (200, '{"sessions":[]}')
UNKNOWN = (404, '{"error":"unknown_code"}')
# How long a server has to send what it should not send.
QUIET = 0.5


def expect(what: str, came: object, wanted: object) -> None:
    if came != wanted:
        sys.exit(f"outside: {what}\n  expected: {wanted}\n  came:     {came}")


def listening_sockets(process: int) -> list[str]:
    """The addresses on which a process listens, as the kernel lists them: in hexadecimal, with the port."""
    folder = f"/proc/{process}/fd"
    inodes = {os.readlink(f"{folder}/{name}") for name in os.listdir(folder)}
    found = []
    for table in ("tcp", "tcp6"):
        with open(f"/proc/{process}/net/{table}", encoding="ascii") as file:
            for row in file.read().splitlines()[1:]:
                fields = row.split()
                if fields[3] == "0A" and f"socket:[{fields[9]}]" in inodes:
                    found.append(fields[1])
    return found


def is_refused(address: str, port: int) -> bool:
    try:
        with socket.create_connection((address, port), timeout=10):
            return False
    except ConnectionRefusedError:
        return True


def listens_on_127_0_0_1_alone(desk: Desk) -> None:
    """127.0.0.2 is another address of this machine: only a server that listens on every address accepts a connection to it."""
    expect("a connection to 127.0.0.2", "refused" if is_refused("127.0.0.2", desk.port) else "accepted", "refused")
    loopback = struct.unpack("=I", socket.inet_aton("127.0.0.1"))[0]
    expect("the sockets on which the server listens", listening_sockets(desk.process.pid), [f"{loopback:08X}:{desk.port:04X}"])


def clients_get_their_own_answers(desk: Desk) -> None:
    """Clients are connected at once, and the later one sends first. Each gets the response to its own request."""
    asked = [(request("GET", "/captive", guest(1)), CAPTIVE), (request("GET", "/gateway/sessions", GATEWAY), NO_SESSIONS),
             (request("GET", "/desk/vouchers/2222-2222-2222", DESK), UNKNOWN)]
    for order in (asked, asked[::-1]):
        clients = [desk.connect() for _ in order]
        for client, (sent, _) in list(zip(clients, order))[::-1]:
            client.sendall(sent)
        for number, (client, (_, wanted)) in enumerate(zip(clients, order)):
            with client:
                expect(f"the response to client {number} of {len(order)} at once", answer_of(client), wanted)


def is_quiet(client: socket.socket) -> bool:
    """Nothing comes for a while: no byte, and no end."""
    return not select.select([client], [], [], QUIET)[0]


def nothing_before_the_request(desk: Desk) -> None:
    """A client that waits with its request, or with its end, hears nothing."""
    sent = request("POST", "/desk/sales", DESK, json.dumps({"code": "2222-2222-2222"}))
    with desk.connect() as client:
        for piece in (b"", sent[:20], sent[20:-1]):
            client.sendall(piece)
            expect("before the request is whole", "nothing" if is_quiet(client) else client.recv(65536), "nothing")
        client.sendall(sent[-1:])
        expect("once it is whole", answer_of(client), UNKNOWN)


def nothing_beside_the_response(desk: Desk) -> None:
    """All bytes that come are those of one response; a client whose request ends too early gets one too, or none."""
    with desk.connect() as client:
        client.sendall(request("GET", "/captive", guest(1)) * 2)
        client.shutdown(socket.SHUT_WR)
        expect("after two requests", answer_of(client), CAPTIVE)
    with desk.connect() as client:
        client.shutdown(socket.SHUT_WR)
        expect("after no request", answer_of(client), (400, '{"error":"bad_request"}'))


def is_each_accepted(desk: Desk) -> None:
    """No connection is dropped: so many clients, one after another, are answered."""
    for number in range(50):
        expect(f"the response to client {number}", desk.ask("GET", "/captive", guest(number)), CAPTIVE)


def main() -> None:
    parts = (listens_on_127_0_0_1_alone, clients_get_their_own_answers, nothing_before_the_request, nothing_beside_the_response,
             is_each_accepted)
    chosen = [part for part in parts if not sys.argv[2:] or part.__name__ in sys.argv[2:]]
    with tempfile.TemporaryDirectory() as folder:
        desk = Desk(sys.argv[1], folder)
        desk.start()
        try:
            for part in chosen:
                part(desk)
        finally:
            desk.kill()
    print(f"outside: the server listens on 127.0.0.1 alone, and each client gets its own response and nothing else ({len(chosen)} parts)")


main()
