"""Which device holds the lease of an IPv4 address: one question to the kernel, by netlink.

The message is our own, and not pyroute2's: the parts that ask once for each request of a guest would have 26
MB more of memory each, and a question would take ten times as long.
"""

from __future__ import annotations

import ipaddress
import socket
import struct
import time
from collections.abc import Callable

HEAD = struct.Struct("=IHHII")              # length, kind, flags, sequence, port
NEIGHBOUR = struct.Struct("=BxxxiHBB")      # family, network device, state, flags, type
ATTRIBUTE = struct.Struct("=HH")            # length with this head, kind; the next begins at a multiple of 4
NEW_NEIGHBOUR, GET_NEIGHBOUR = 28, 30
NLM_F_REQUEST, NUD_PERMANENT, NDA_DST, NDA_LLADDR = 1, 0x80, 1, 2
PATIENCE = 1.0      # seconds for the kernel's answer
ONCE_MORE = 0.05    # seconds until a device is looked for again: DHCP may just be renewing its entry
Holders = Callable[[str], str | None]


def question(address: ipaddress.IPv4Address, index: int) -> bytes:
    """The message that asks for the entry of an address on the network device of this number."""
    body = (NEIGHBOUR.pack(socket.AF_INET, index, 0, 0, 0) + ATTRIBUTE.pack(ATTRIBUTE.size + 4, NDA_DST)
            + address.packed)
    return HEAD.pack(HEAD.size + len(body), GET_NEIGHBOUR, NLM_F_REQUEST, 1, 0) + body


def holder_in(answer: bytes) -> str | None:
    """The device in the kernel's answer, where no ARP can say that it is another one: that of a permanent
    entry. None where there is no entry, or another one."""
    if len(answer) < HEAD.size + NEIGHBOUR.size:
        return None
    length, kind, *_ = HEAD.unpack_from(answer)
    state = NEIGHBOUR.unpack_from(answer, HEAD.size)[2]
    if kind != NEW_NEIGHBOUR or not state & NUD_PERMANENT:
        return None
    at, end = HEAD.size + NEIGHBOUR.size, min(length, len(answer))
    while at + ATTRIBUTE.size <= end:
        size, name = ATTRIBUTE.unpack_from(answer, at)
        if name == NDA_LLADDR and size == ATTRIBUTE.size + 6 and at + size <= end:
            return answer[at + ATTRIBUTE.size:at + size].hex(":")
        at += max(size + 3 & ~3, ATTRIBUTE.size)
    return None


class Devices:
    """The devices of one network."""

    def __init__(self, lan: str) -> None:
        self.lan = lan

    def holder(self, address: str) -> str | None:
        """The device that holds the lease of an address; None where there is none, the text is no address,
        the network device is not there, or the kernel refuses."""
        try:
            message = question(ipaddress.IPv4Address(address), socket.if_nametoindex(self.lan))
            with socket.socket(socket.AF_NETLINK, socket.SOCK_RAW, socket.NETLINK_ROUTE) as link:
                link.settimeout(PATIENCE)
                link.send(message)
                return holder_in(link.recv(8192))
        except (ValueError, OSError):
            return None


def look_twice(holder: Holders, address: str) -> str | None:
    """The device that holds the lease of an address; where there is none, it is looked for again a moment
    later."""
    device = holder(address)
    if device is None:
        time.sleep(ONCE_MORE)
        device = holder(address)
    return device
