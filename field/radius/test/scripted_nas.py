"""An access server of the tests: it speaks RADIUS (RFC 2865, 2866, 2869, 3579) and hears RFC 5176, by these RFCs and each
maker's attributes, and not by FreeRADIUS's dictionaries."""

from __future__ import annotations

import hashlib
import hmac
import secrets
import socket
import struct
import threading
import time
from collections.abc import Callable
from dataclasses import dataclass, field
from typing import NamedTuple

ACCESS_REQUEST, ACCEPT, REJECT, ACCOUNTING, RESPONSE = 1, 2, 3, 4, 5
DISCONNECT, COA = 40, 43
SIGNATURE = 80              # Message-Authenticator
MIKROTIK, CHILLISPOT, PFSENSE = 14988, 14559, 13644
TEXT, NUMBER, ADDRESS = "text", "number", "address"
# Each attribute: its vendor or 0, its number, its kind.
ATTRIBUTES = {
    "User-Name": (0, 1, TEXT), "NAS-IP-Address": (0, 4, ADDRESS), "NAS-Port": (0, 5, NUMBER),
    "Service-Type": (0, 6, NUMBER), "Framed-IP-Address": (0, 8, ADDRESS), "Reply-Message": (0, 18, TEXT),
    "Class": (0, 25, TEXT), "Session-Timeout": (0, 27, NUMBER), "Called-Station-Id": (0, 30, TEXT),
    "Calling-Station-Id": (0, 31, TEXT), "NAS-Identifier": (0, 32, TEXT), "Acct-Status-Type": (0, 40, NUMBER),
    "Acct-Input-Octets": (0, 42, NUMBER), "Acct-Output-Octets": (0, 43, NUMBER), "Acct-Session-Id": (0, 44, TEXT),
    "Acct-Session-Time": (0, 46, NUMBER), "Acct-Input-Gigawords": (0, 52, NUMBER),
    "Acct-Output-Gigawords": (0, 53, NUMBER), "NAS-Port-Type": (0, 61, NUMBER), "Acct-Interim-Interval": (0, 85, NUMBER),
    "NAS-Port-Id": (0, 87, TEXT), "Mikrotik-Host-IP": (MIKROTIK, 10, ADDRESS),
    "Mikrotik-Total-Limit": (MIKROTIK, 17, NUMBER), "Mikrotik-Total-Limit-Gigawords": (MIKROTIK, 18, NUMBER),
    "ChilliSpot-Max-Total-Octets": (CHILLISPOT, 3, NUMBER), "pfSense-Max-Total-Octets": (PFSENSE, 3, NUMBER)}
NAMES = {(vendor, number): (name, kind) for name, (vendor, number, kind) in ATTRIBUTES.items()}
STATUS = {"Start": 1, "Stop": 2, "Interim-Update": 3, "Accounting-On": 7}
Values = dict[str, object]


def pair(number: int, value: bytes) -> bytes:
    """An attribute of a RADIUS packet: number, length, value (RFC 2865 section 5)."""
    return bytes([number, len(value) + 2]) + value


def encode(values: Values) -> bytes:
    """Attributes by their names, as the bytes of a packet."""
    text = b""
    for name, value in values.items():
        vendor, number, kind = ATTRIBUTES[name]
        if kind == NUMBER:
            data = struct.pack("!I", value)
        elif kind == ADDRESS:
            data = socket.inet_aton(str(value))
        else:
            data = value if isinstance(value, bytes) else str(value).encode()
        text += pair(26, struct.pack("!I", vendor) + pair(number, data)) if vendor else pair(number, data)
    return text


def attributes(text: bytes, vendor: int = 0) -> Values:
    """Names and values of a packet's attributes; one of no name here by vendor and number."""
    found: Values = {}
    while text:
        number, size = text[0], text[1]
        value, text = text[2:size], text[size:]
        if not vendor and number == 26:
            found.update(attributes(value[4:], struct.unpack("!I", value[:4])[0]))
            continue
        name, kind = NAMES.get((vendor, number), (f"{vendor}.{number}", ""))
        found[name] = (struct.unpack("!I", value)[0] if kind == NUMBER else socket.inet_ntoa(value) if kind == ADDRESS
                       else value if name == "Class" or not kind else value.decode())
    return found


class Reply(NamedTuple):
    code: int
    values: Values
    signed: bool        # a good Message-Authenticator

    @property
    def words(self) -> str:
        """The text of the Reply-Message; empty where there is none."""
        return str(self.values.get("Reply-Message", ""))


class ServerRequest(NamedTuple):
    at: float
    code: int
    signed: bool
    values: Values


@dataclass(frozen=True)
class Maker:
    """How one maker's access servers speak. `limit`: the attributes that limit bytes, the low 32 bits first."""
    name: str
    calling: str            # the device's address: the sign between octets, and "upper" or "lower"
    called: str
    chap: bool = False
    signs: bool = True
    limit: tuple[str, ...] = ()
    coa_port: int = 3799
    gigawords: bool = True
    gives_class: bool = True
    more: Values = field(default_factory=dict)

    def device(self, device: str) -> str:
        """A device's address as access servers of this maker write it."""
        sign, _, case = self.calling.partition(" ")
        text = device.replace(":", sign)
        return text.upper() if case == "upper" else text


PLAIN = Maker("plain", "- upper", "02-AA-00-00-00-01:Venue")
MAKERS = (
    Maker("mikrotik", ": upper", "hotspot1", chap=True, limit=("Mikrotik-Total-Limit", "Mikrotik-Total-Limit-Gigawords"),
          more={"NAS-Port-Type": 15, "NAS-Port-Id": "bridge-guests", "NAS-Identifier": "MikroTik", "Service-Type": 1,
                "Mikrotik-Host-IP": "10.5.50.9"}),
    Maker("pfsense", ": lower", "02:aa:00:00:00:02:pfSense.example", signs=False, limit=("pfSense-Max-Total-Octets",),
          coa_port=0, more={"NAS-Port-Type": 15, "NAS-Identifier": "pfSense.example", "Service-Type": 1}),
    Maker("unifi", "- upper", "02-AA-00-00-00-03:Guests", more={"NAS-Port-Type": 19, "NAS-IP-Address": "127.0.1.1"}),
    Maker("omada", "- upper", "02-AA-00-00-00-04:Guests", gives_class=False,
          more={"NAS-Port-Type": 19, "NAS-Identifier": "TP-Link"}),
    Maker("openwrt", "- upper", "02-AA-00-00-00-05", chap=True, signs=False, limit=("ChilliSpot-Max-Total-Octets",),
          more={"NAS-Port-Type": 19, "NAS-IP-Address": "0.0.0.0", "NAS-Identifier": "chilli"}))


class Nas:
    """One access server at an address of loopback. It answers RFC 5176 with an ACK, unless it is `deaf`."""

    def __init__(self, address: str, secret: str, server: tuple[str, int, int], maker: Maker = PLAIN,
                 port: int | None = None) -> None:
        self.address, self.secret, self.maker = address, secret.encode(), maker
        self.host, self.auth_port, self.acct_port = server
        self.requests: list[ServerRequest] = []
        self.deaf = False
        self.ident = 0
        self.lock = threading.Lock()
        self.door = socket.socket(socket.AF_INET, socket.SOCK_DGRAM)
        self.door.bind((address, maker.coa_port if port is None else port))
        self.port = self.door.getsockname()[1]
        threading.Thread(target=self.listen, daemon=True).start()

    def close(self) -> None:
        """Closes the socket for packets from the server."""
        self.door.close()

    # RFC 5176

    def listen(self) -> None:
        """Takes the server's requests (RFC 5176), and answers each with an ACK unless it is deaf."""
        while True:
            try:
                data, peer = self.door.recvfrom(4096)
            except OSError:
                return
            code, ident, size = struct.unpack("!BBH", data[:4])
            good = hashlib.md5(data[:4] + bytes(16) + data[20:size] + self.secret).digest() == data[4:20]
            signed = self.is_signed(data[:4] + bytes(16) + data[20:size])
            if not good:
                continue
            self.requests.append(ServerRequest(time.time(), code, signed, attributes(data[20:size])))
            if not self.deaf:
                head = struct.pack("!BBH", code + 1, ident, 20)
                self.door.sendto(head + hashlib.md5(head + data[4:20] + self.secret).digest(), peer)

    def is_signed(self, packet: bytes) -> bool:
        """Whether a packet, with the authenticator of its request, has a good Message-Authenticator (RFC 3579 section
        3.2)."""
        at = 20
        while at < len(packet):
            number, size = packet[at], packet[at + 1]
            if number == SIGNATURE:
                blank = packet[:at + 2] + bytes(16) + packet[at + size:]
                return hmac.new(self.secret, blank, hashlib.md5).digest() == packet[at + 2:at + size]
            at += size
        return False

    # Requests

    def password(self, word: bytes, authenticator: bytes) -> bytes:
        """User-Password, or CHAP-Password with the authenticator as its challenge (RFC 2865 section 5)."""
        if self.maker.chap:
            ident = secrets.token_bytes(1)
            return pair(3, ident + hashlib.md5(ident + word + authenticator).digest())
        text, last, hidden = word + bytes(-len(word) % 16), authenticator, b""
        for i in range(0, len(text), 16):
            last = bytes(a ^ b for a, b in zip(text[i:i + 16], hashlib.md5(self.secret + last).digest()))
            hidden += last
        return pair(2, hidden)

    def access_request(self, ident: int, values: Values, word: bytes, sign: bool) -> bytes:
        """An Access-Request with the hidden password, and with a Message-Authenticator where `sign` says so."""
        authenticator = secrets.token_bytes(16)
        return self.access_packet(ident, encode(values) + self.password(word, authenticator), authenticator, sign)

    def access_packet(self, ident: int, body: bytes, authenticator: bytes, sign: bool) -> bytes:
        """An Access-Request of these attributes as they are, and with a Message-Authenticator where `sign` says so."""
        head = struct.pack("!BBH", ACCESS_REQUEST, ident, 20 + len(body) + 18 * sign) + authenticator
        if not sign:
            return head + body
        blank = head + body + pair(SIGNATURE, bytes(16))
        return blank[:-16] + hmac.new(self.secret, blank, hashlib.md5).digest()

    def accounting_packet(self, ident: int, body: bytes) -> bytes:
        """An Accounting-Request, whose authenticator is made of the packet and the secret (RFC 2866 section
        3)."""
        head = struct.pack("!BBH", ACCOUNTING, ident, 20 + len(body))
        return head + hashlib.md5(head + bytes(16) + body + self.secret).digest() + body

    def next_ident(self) -> int:
        """The identifier of the next packet."""
        with self.lock:
            self.ident = (self.ident + 1) % 256
            return self.ident

    def exchange(self, packet: bytes, port: int, wait: float, tries: int = 1) -> Reply | None:
        """The reply to a packet, which is sent so many times. One that is not signed by the secret is none."""
        with socket.socket(socket.AF_INET, socket.SOCK_DGRAM) as link:
            link.bind((self.address, 0))
            link.connect((self.host, port))
            link.settimeout(wait)
            for _ in range(tries):
                try:
                    link.send(packet)
                    data = link.recv(4096)
                except OSError:
                    continue
                whole = data[:4] + packet[4:20] + data[20:]
                if data[1] == packet[1] and hashlib.md5(whole + self.secret).digest() == data[4:20]:
                    return Reply(data[0], attributes(data[20:]), self.is_signed(whole))
        return None

    def login(self, code: str | bytes, device: str, sign: bool | None = None, wait: float = 8.0,
              more: Values | None = None) -> Reply:
        """The reply to a login with a code; one of code 0 where none came."""
        values: Values = {"User-Name": code, "NAS-IP-Address": self.address, "NAS-Port": 1,
                          "Called-Station-Id": self.maker.called, "Framed-IP-Address": "10.5.50.9", **self.maker.more}
        if device:
            values["Calling-Station-Id"] = self.maker.device(device)
        values.update(more or {})
        word = code if isinstance(code, bytes) else code.encode()
        packet = self.access_request(self.next_ident(), values, word, self.maker.signs if sign is None else sign)
        return self.exchange(packet, self.auth_port, wait) or Reply(0, {}, False)

    def account(self, status: str, session: str, code: str, device: str, klass: object = None,
                octets: tuple[int, int] = (0, 0), more: Values | None = None, after: bytes = b"") -> bool:
        """Whether an accounting packet is answered. `after`: attributes as they go over the wire, behind all others."""
        values: Values = {"Acct-Status-Type": STATUS[status], "Acct-Session-Id": session, "NAS-IP-Address": self.address,
                          "NAS-Port": 1, "Called-Station-Id": self.maker.called, **self.maker.more}
        if device:
            values |= {"User-Name": code, "Calling-Station-Id": self.maker.device(device), "Acct-Session-Time": 10,
                       "Framed-IP-Address": "10.5.50.9", "Acct-Input-Octets": octets[0] & 0xffffffff,
                       "Acct-Output-Octets": octets[1] & 0xffffffff}
            if self.maker.gigawords:
                values |= {"Acct-Input-Gigawords": octets[0] >> 32, "Acct-Output-Gigawords": octets[1] >> 32}
            if klass and self.maker.gives_class:
                values["Class"] = klass
        packet = self.accounting_packet(self.next_ident(), encode({**values, **(more or {})}) + after)
        reply = self.exchange(packet, self.acct_port, 5.0)
        return reply is not None and reply.code == RESPONSE

    # What was heard

    def requests_for(self, code: int, session: str) -> list[ServerRequest]:
        """The signed requests of a kind that came for an accounting session."""
        return [h for h in self.requests if h.code == code and h.signed and h.values.get("Acct-Session-Id") == session]


def at_once(count: int, call: Callable[[], object]) -> list[object]:
    """The results of so many calls that begin together."""
    results: list[object] = []
    start = threading.Barrier(count)

    def go() -> None:
        """Waits for the start, and keeps what the call returned."""
        start.wait()
        results.append(call())

    threads = [threading.Thread(target=go) for _ in range(count)]
    for thread in threads:
        thread.start()
    for thread in threads:
        thread.join()
    return results
