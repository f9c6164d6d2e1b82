"""One element of a set in the kernel, with its counter, by netlink: libnftables reads a whole set for one."""

from __future__ import annotations

from typing import NamedTuple

from portal_field.lib import pyroute2_parts     # noqa: F401 (before pyroute2)
from pyroute2.netlink import NLM_F_REQUEST
from pyroute2.netlink.exceptions import NetlinkError
from pyroute2.netlink.nfnetlink import NFNL_SUBSYS_NFTABLES
from pyroute2.netlink.nfnetlink.nftsocket import (
    NFT_MSG_GETSETELEM, NFT_MSG_NEWSETELEM, NFTSocket, nft_set_elem_list_msg)

ENOENT = 2
FAMILIES = {"inet": 1, "netdev": 5}     # NFPROTO_INET and NFPROTO_NETDEV of the kernel
GET, NEW = ((NFNL_SUBSYS_NFTABLES << 8) | kind for kind in (NFT_MSG_GETSETELEM, NFT_MSG_NEWSETELEM))


class Element(NamedTuple):
    """The counter and the comment of an element."""
    packets: int
    bytes: int
    comment: str


class ElementMessage(nft_set_elem_list_msg):  # type: ignore[misc]
    """As pyroute2 has it, but with the one expression of an element, its counter, as the kernel sends it."""

    class set_elem(nft_set_elem_list_msg.set_elem):  # type: ignore[misc]
        """An element."""
        nla_map = tuple((name, "nft_expr" if name == "NFTA_SET_ELEM_EXPR" else kind)
                        for name, kind in nft_set_elem_list_msg.set_elem.nla_map)


def comment_of(data: bytes) -> str:
    """The comment in an element's user data, which is its kind 0, its length, and its text with a NUL."""
    return data[2:1 + data[1]].decode("ascii", "replace") if len(data) > 2 and data[0] == 0 else ""


class KernelElements:
    """A socket of netlink. It needs CAP_NET_ADMIN."""

    def __init__(self) -> None:
        self.socket: NFTSocket | None = None

    def open(self) -> NFTSocket:
        """The socket, which is made once."""
        if self.socket is None:
            self.socket = NFTSocket()
            self.socket.register_policy(NEW, ElementMessage)
        return self.socket

    def ask(self, where: tuple[str, str, str], mac: str) -> Element | None:
        """The element of a device in a set; None where it is not there, or has no counter. OSError: the
        kernel refuses."""
        family, table, name = where
        message = ElementMessage()
        message["nfgen_family"] = FAMILIES[family]
        key = {"attrs": [("NFTA_DATA_VALUE", bytes.fromhex(mac.replace(":", "")))]}
        message["attrs"] = [("NFTA_SET_ELEM_LIST_TABLE", table), ("NFTA_SET_ELEM_LIST_SET", name),
                            ("NFTA_SET_ELEM_LIST_ELEMENTS", [{"attrs": [("NFTA_SET_ELEM_KEY", key)]}])]
        try:
            answer = self.open().nlm_request(message, GET, NLM_F_REQUEST)
        except NetlinkError as fault:
            if fault.code == ENOENT:
                return None
            raise OSError(fault.code, str(fault)) from fault
        element = answer[0].get_attr("NFTA_SET_ELEM_LIST_ELEMENTS")[0]
        expression = element.get_attr("NFTA_SET_ELEM_EXPR")
        counter = expression and expression.get_attr("NFTA_EXPR_DATA")
        if not counter:
            return None
        return Element(counter.get_attr("NFTA_COUNTER_PACKETS"), counter.get_attr("NFTA_COUNTER_BYTES"),
                       comment_of(element.get_attr("NFTA_SET_ELEM_USERDATA") or b""))
