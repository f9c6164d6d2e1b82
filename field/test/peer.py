"""The far end and the guest's end of the test's traffic.

    peer.py serve                   TCP 7000: `send N` or `take N`; UDP 7001: echo; UDP 7002: a stream of as many
                                    packets of 1,000 bytes as asked for, 1,000 a second
    peer.py stopped                 answers 503 stopped at 127.0.0.1:8080
    peer.py door ADDRESS [PORT]     takes TCP connections there, or at port 443
    peer.py knock ADDRESS [PORT]    connects there, or to port 443; status 1 where it cannot within a second
    peer.py names HOST N [NAME]     asks N questions for that name, or for outside.example, of a name server within a
                                    second; prints the number of answers
    peer.py tcp HOST send|take N    moves N bytes of payload; prints seconds
    peer.py first HOST SECONDS      tries UDP echo every 5 ms; prints the time of the first answer
    peer.py stream HOST SECONDS     asks for the stream, sends nothing more; prints the time of each packet's arrival
    peer.py gap HOST SECONDS        asks for the stream; prints how many packets came, and the longest time without one
    peer.py many HOST MAC N FIRST   sends, until it is ended, a packet a second from each of N devices, by frames to MAC;
                                    their addresses are FIRST and those after it
    peer.py crowd HOST MAC N FIRST  the same to the echo's port; says to who asks at which devices they are
    peer.py slow HOST N SECONDS     N guests that send part of a head or body over TLS and wait; prints how many may
"""

from __future__ import annotations

import socket
import ssl
import struct
import sys
import threading
import time
from collections.abc import Callable

STOPPED = (b"HTTP/1.1 503 Service Unavailable\r\nContent-Type: application/json\r\nContent-Length: 19\r\n"
           b"Connection: close\r\n\r\n" + b'{"error":"stopped"}')
RECEIVE_BUFFER = 33     # SO_RCVBUFFORCE of Linux, which Python does not name


def talk(link: socket.socket) -> None:
    """Serves one connection of the measurements: sends so many bytes, or takes them and confirms that."""
    with link:
        link.settimeout(20)
        verb, count = link.makefile("rb").readline().split()
        left = int(count)
        try:
            while left:
                left -= link.send(b"x" * min(left, 65536)) if verb == b"send" else len(link.recv(min(left, 65536)))
            if verb == b"take":
                link.sendall(b"k")
        except OSError:
            pass


def echo(udp: socket.socket) -> None:
    """Sends each datagram back to where it came from."""
    while True:
        data, who = udp.recvfrom(2000)
        try:
            udp.sendto(data, who)
        except OSError:     # no way back to an address that was not translated
            pass


def pour(udp: socket.socket, who: tuple[str, int], count: int) -> None:
    """By the clock, also where the machine sleeps longer than asked. What is a tenth of its time late is left out, so that
    none of it reaches the next check."""
    start = time.monotonic()
    for number in range(count):
        ahead = start + number / 1000 - time.monotonic()
        if ahead < -count / 10_000:
            break
        time.sleep(max(0.0, ahead))
        udp.sendto(b"s" * 972, who)


def listener() -> socket.socket:
    """With room for what comes while the machine is held up."""
    s = socket.socket(socket.AF_INET, socket.SOCK_DGRAM)
    s.setsockopt(socket.SOL_SOCKET, RECEIVE_BUFFER, 4 << 20)
    s.settimeout(0.5)
    return s


def streams(udp: socket.socket) -> None:
    while True:
        count, who = udp.recvfrom(2000)
        threading.Thread(target=pour, args=(udp, who, int(count)), daemon=True).start()


def serve() -> None:
    for port, work in ((7001, echo), (7002, streams)):
        udp = socket.socket(socket.AF_INET, socket.SOCK_DGRAM)
        udp.bind(("", port))
        threading.Thread(target=work, args=(udp,), daemon=True).start()
    with socket.create_server(("", 7000), backlog=64) as door:
        while True:
            threading.Thread(target=talk, args=door.accept()[:1], daemon=True).start()


def tcp(host: str, verb: str, count: str) -> None:
    start, left = time.monotonic(), int(count)
    with socket.create_connection((host, 7000), timeout=3) as link:
        link.settimeout(20)
        link.sendall(f"{verb} {count}\n".encode())
        while left and verb == "send":
            got = len(link.recv(min(left, 65536)))
            if not got:
                sys.exit(f"cut with {left} left")
            left -= got
        if verb == "take":
            link.sendall(b"x" * left)
            link.recv(1)
    print(time.monotonic() - start)


def first(host: str, seconds: str) -> None:
    """Prints when the first echo came; an error where none came in that time."""
    with socket.socket(socket.AF_INET, socket.SOCK_DGRAM) as s:
        s.settimeout(0.005)
        end = time.time() + float(seconds)
        while time.time() < end:
            try:
                s.sendto(b"?", (host, 7001))
                s.recv(10)
                return print(time.time())
            except TimeoutError:
                pass
            except OSError:
                time.sleep(0.005)
    sys.exit("no answer")


def stream(host: str, seconds: str) -> None:
    """Asks for a stream of datagrams, and prints when each of them came."""
    with listener() as s:
        s.sendto(b"%d" % (float(seconds) * 900), (host, 7002))
        end = time.time() + float(seconds)
        while time.time() < end:
            try:
                s.recv(2000)
                print(time.time(), flush=True)
            except OSError:
                pass


def names(host: str, count: str, name: str = "outside.example") -> None:
    labels = b"".join(bytes([len(label)]) + label.encode() for label in name.split("."))
    question = b"\0\7\1\0\0\1\0\0\0\0\0\0" + labels + b"\0\0\1\0\1"
    with socket.socket(socket.AF_INET, socket.SOCK_DGRAM) as s:
        s.connect((host, 53))
        s.settimeout(0.5)
        got, start = 0, time.monotonic()
        for number in range(int(count)):
            time.sleep(max(0.0, start + number / int(count) - time.monotonic()))
            s.send(question)
        try:
            while s.recv(512):
                got += 1
        except OSError:
            print(got)


def stopped() -> None:
    with socket.create_server(("127.0.0.1", 8080)) as door:
        while True:
            with door.accept()[0] as link:
                link.recv(4096)
                link.sendall(STOPPED)


def door(address: str, port: str = "443") -> None:
    family = socket.AF_INET6 if ":" in address else socket.AF_INET
    with socket.create_server((address, int(port)), family=family) as place:
        while True:
            place.accept()[0].close()


def knock(address: str, port: str = "443") -> None:
    try:
        socket.create_connection((address, int(port)), timeout=1).close()
    except OSError:
        sys.exit(1)


def packet(host: str, address: str, source: int = 9, port: int = 9) -> bytes:
    """IPv4 and UDP with 100 bytes, to a port that nobody has, or to another."""
    ends = socket.inet_aton(address) + socket.inet_aton(host)
    head = struct.pack(">BBHHHBBH", 0x45, 0, 128, 0, 0x4000, 64, 17, 0) + ends
    total = sum(struct.unpack(">10H", head))
    while total >> 16:
        total = (total & 0xffff) + (total >> 16)
    return head[:10] + struct.pack(">H", ~total & 0xffff) + head[12:] + struct.pack(">HHHH", source, port, 108, 0) + b"m" * 100


def address_of(first: str, number: int) -> str:
    return socket.inet_ntoa((int.from_bytes(socket.inet_aton(first)) + number).to_bytes(4))


def answer_who_has(count: int, first: str) -> None:
    """ARP for N addresses from the first on: each is at a device of its own."""
    low = int.from_bytes(socket.inet_aton(first))
    with socket.socket(socket.AF_PACKET, socket.SOCK_RAW, socket.htons(0x806)) as s:
        s.bind(("eth0", 0x806))
        while True:
            frame = s.recv(200)
            asker, target = frame[22:32], frame[38:42]
            if frame[20:22] == b"\0\1" and 0 <= (number := int.from_bytes(target) - low) < count:
                mac = b"\2" + number.to_bytes(5)
                s.send(asker[:6] + mac + b"\x08\6\0\1\x08\0\6\4\0\2" + mac + target + asker)


def many(host: str, mac: str, count: str, first: str) -> None:
    send_in_turn(mac, [packet(host, address_of(first, i)) for i in range(int(count))])


def crowd(host: str, mac: str, count: str, first: str) -> None:
    threading.Thread(target=answer_who_has, args=(int(count), first), daemon=True).start()
    send_in_turn(mac, [packet(host, address_of(first, i), 20_000 + i, 7001) for i in range(int(count))])


def send_in_turn(mac: str, packets: list[bytes]) -> None:
    """One of each device a second."""
    goal = bytes.fromhex(mac.replace(":", ""))
    frames = [goal + b"\2" + i.to_bytes(5) + b"\x08\0" + data for i, data in enumerate(packets)]
    with socket.socket(socket.AF_PACKET, socket.SOCK_RAW) as s:
        s.bind(("eth0", 0))
        due = time.monotonic()
        while True:
            for frame in frames:
                s.send(frame)
                due += 1 / len(frames)
                time.sleep(max(0.0, due - time.monotonic()))


def gap(host: str, seconds: str) -> None:
    with listener() as s:
        s.sendto(b"%d" % (float(seconds) * 1000), (host, 7002))
        last, came, longest = time.monotonic(), 0, 0.0
        end = last + float(seconds)
        while time.monotonic() < end:
            try:
                s.recv(2000)
            except OSError:
                continue
            now = time.monotonic()
            last, came, longest = now, came + 1, max(longest, now - last)
        print(came, max(longest, end - last))


def waits(link: ssl.SSLSocket) -> bool:
    """Whether no answer came and the connection stands."""
    link.settimeout(0.1)
    try:
        link.recv(1)
    except TimeoutError:
        return True
    return False


def slow(host: str, count: str, seconds: str) -> None:
    context = ssl._create_unverified_context()
    links = []
    for i in range(int(count)):
        link = context.wrap_socket(socket.create_connection((host, 443)))
        link.sendall(b"GET /captive HTTP/1.1\r\nHo" if i % 3 else
                     b"POST /portal/redeem HTTP/1.1\r\nHost: w\r\nContent-Length: 20\r\n\r\n{")
        links.append(link)
    print(sum(waits(link) for link in links), flush=True)
    time.sleep(float(seconds))


PARTS: tuple[Callable[..., None], ...] = (serve, stopped, door, knock, names, tcp, first, stream, gap, many, crowd, slow)
WORK = {work.__name__: work for work in PARTS}

if __name__ == "__main__":
    WORK[sys.argv[1]](*sys.argv[2:])
