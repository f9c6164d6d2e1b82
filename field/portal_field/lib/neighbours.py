"""The kernel's neighbour table of the guests' network, by netlink: which device has an IPv4 address."""

from __future__ import annotations

import contextlib
import re
import socket
import struct
import threading
from collections.abc import Iterator, Mapping
from dataclasses import dataclass
from typing import Any

from portal_field.lib import pyroute2_parts     # noqa: F401 (before pyroute2)
from pyroute2.iproute.linux import IPRoute
from pyroute2.netlink.exceptions import NetlinkError
from pyroute2.netlink.rtnl import RTMGRP_LINK, RTMGRP_NEIGH
from pyroute2.netlink.rtnl.ndmsg import NTF_EXT_LEARNED, NUD_FAILED, NUD_PERMANENT, NUD_PROBE

MAC = re.compile(r"[0-9a-f]{2}(:[0-9a-f]{2}){5}")
NEW_NEIGHBOUR, GONE_NEIGHBOUR = 28, 29
# A message of the kernel: length, kind, flags, sequence, port; family, device, state, flags, type; then its
# attributes, of which the first is the address, with a length and a kind of its own.
EVENT = struct.Struct("=IHHII B3xiHBB HH4s")


@dataclass(frozen=True)
class Entry:
    """An entry of the kernel's neighbour table."""
    mac: str | None
    state: int
    is_ours: bool = False      # made from a lease

    @classmethod
    def of(cls, message: Mapping[str, Any]) -> Entry:
        """The entry in a message of netlink."""
        mac = (dict(message["attrs"]).get("NDA_LLADDR") or "").lower()
        return cls(mac if MAC.fullmatch(mac) else None, message["state"],
                   bool(message["flags"] & NTF_EXT_LEARNED))

    @property
    def device(self) -> str | None:
        """The device, where no ARP can say that it is another one."""
        return self.mac if self.state & NUD_PERMANENT else None

    @property
    def is_asked(self) -> bool:
        """Whether the kernel asks the device just now whether it is there; packets go to it meanwhile."""
        return bool(self.state & NUD_PROBE)

    @property
    def has_failed(self) -> bool:
        """Whether the device that was asked for did not answer."""
        return bool(self.state & NUD_FAILED)


class Events:
    """What the kernel says of its neighbours and devices; `fd` is readable once there is something."""

    def __init__(self) -> None:
        self.link = socket.socket(socket.AF_NETLINK, socket.SOCK_RAW | socket.SOCK_NONBLOCK,
                                  socket.NETLINK_ROUTE)
        self.link.bind((0, RTMGRP_NEIGH | RTMGRP_LINK))

    def fileno(self) -> int:
        """The descriptor that is readable once something changed."""
        return self.link.fileno()

    def read(self) -> tuple[dict[tuple[int, str], bool], bool]:
        """Device and address of each neighbour that changed, with whether its entry is permanent now; and
        whether the whole table has to be read again."""
        changed: dict[tuple[int, str], bool] = {}
        whole = False
        for _ in range(1000):
            try:
                data = self.link.recv(65536)
            except BlockingIOError:
                break
            except OSError:         # there was more than the socket holds
                whole = True
                continue
            if struct.unpack_from("=4xH", data)[0] not in (NEW_NEIGHBOUR, GONE_NEIGHBOUR):
                whole = True
            elif len(data) >= EVENT.size and data[16] == socket.AF_INET:
                fields = EVENT.unpack_from(data)
                changed[fields[6], socket.inet_ntoa(fields[-1])] = bool(fields[7] & NUD_PERMANENT)
        return changed, whole


class Neighbours:
    """The table of one device. Each call raises OSError where the device is not there or the kernel
    refuses."""

    def __init__(self, lan: str) -> None:
        self.lan, self.of_thread = lan, threading.local()

    @property
    def route(self) -> IPRoute:
        """The netlink socket of this thread: to open one for each question takes a fifth of its time."""
        if not hasattr(self.of_thread, "route"):
            self.of_thread.route = IPRoute()
        return self.of_thread.route

    @property
    def index(self) -> int:
        """The number of the guests' network device."""
        return socket.if_nametoindex(self.lan)

    def entry(self, address: str) -> Entry | None:
        """The entry of an address; None where there is none."""
        index = self.index
        with netlink_errors_as_os_errors():
            try:
                messages = self.route.neigh("get", dst=address, ifindex=index)
            except NetlinkError as fault:
                if fault.code == 2:     # ENOENT
                    return None
                raise
            except OSError:
                del self.of_thread.route     # the next question gets a new one
                raise
        return Entry.of(messages[0])

    def entries(self) -> dict[str, Entry]:
        """All IPv4 entries of the guests' network device, by address."""
        index = self.index
        with IPRoute() as route, netlink_errors_as_os_errors():
            rows = route.get_neighbours(family=socket.AF_INET, ifindex=index)
            return {dict(row["attrs"])["NDA_DST"]: Entry.of(row) for row in rows}

    def change(self, verb: str, address: str, **more: Any) -> None:
        """Changes the entry of an address."""
        index = self.index
        with IPRoute() as route, netlink_errors_as_os_errors():
            route.neigh(verb, dst=address, ifindex=index, **more)

    def bind(self, address: str, mac: str) -> Entry:
        """Makes an address a device's from now on, whatever ARP says."""
        self.change("replace", address, lladdr=mac, state=NUD_PERMANENT, flags=NTF_EXT_LEARNED)
        return Entry(mac, NUD_PERMANENT, True)

    def probe(self, address: str, mac: str) -> Entry:
        """Has the kernel ask that device alone, three times in three seconds, whether it is still at the
        address. The entry keeps its device meanwhile, but ARP of another one would change it, were it not
        dropped by the rules."""
        self.change("replace", address, lladdr=mac, state=NUD_PROBE, flags=NTF_EXT_LEARNED)
        return Entry(mac, NUD_PROBE, True)

    def drop(self, address: str) -> None:
        """Removes the entry of an address, where there is one."""
        with contextlib.suppress(FileNotFoundError):
            self.change("del", address)


@contextlib.contextmanager
def netlink_errors_as_os_errors() -> Iterator[None]:
    """Raises an OSError in the place of a NetlinkError, which is none; FileNotFoundError comes of ENOENT."""
    try:
        yield
    except NetlinkError as fault:
        raise OSError(fault.code, str(fault)) from fault
