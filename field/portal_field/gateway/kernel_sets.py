"""Sets of portal.nft in the kernel, read and changed by libnftables; each change is one transaction."""

from __future__ import annotations

import re
from collections.abc import Iterable, Iterator
from typing import Any, NamedTuple

import nftables

from portal_field.gateway.passing import RulesAreGone

UP, DOWN, ALIVE = ("inet", "portal", "up"), ("netdev", "portal", "down"), ("inet", "portal", "alive")
BARRED, LISTED = ("inet", "portal", "barred"), ("netdev", "portal", "listed")
READY, DESK_CLOSED = ("inet", "portal", "bound_ready"), ("inet", "portal", "desk_closed")
# `bound` has devices with their addresses, for packets and for ARP; the last has their addresses alone.
BOUND = ("inet", "portal", "bound"), ("netdev", "portal", "bound")
LEASED = ("netdev", "portal", "leased")
SetName = tuple[str, str, str]
Pair = tuple[str, str]      # a device's MAC address, and its IPv4 address
COUNTED = re.compile(r'([0-9a-f:]{17}) counter packets ([0-9]+) bytes ([0-9]+)(?: comment "([^"]*)")?')


class Counted(NamedTuple):
    """A device of a set with counters, and the comment of its element."""
    mac: str
    packets: int
    bytes: int
    comment: str


def elements_of(verb: str, where: SetName, values: list[Any]) -> dict[str, Any]:
    """An order of libnftables for several elements of a set."""
    family, table, name = where
    return {verb: {"element": {"family": family, "table": table, "name": name, "elem": values}}}


def element(verb: str, where: SetName, value: Any) -> dict[str, Any]:
    """An order of libnftables for one element of a set."""
    return elements_of(verb, where, [value])


def flush(where: SetName) -> dict[str, Any]:
    """An order of libnftables that empties a set."""
    family, table, name = where
    return {"flush": {"set": {"family": family, "table": table, "name": name}}}


class KernelSets:
    """libnftables in this process, by its JSON. It needs CAP_NET_ADMIN."""

    def __init__(self) -> None:
        self.nft = nftables.Nftables()
        self.nft.set_json_output(True)
        self.plain = nftables.Nftables()

    def run(self, commands: list[dict[str, Any]]) -> Any:
        """Runs commands of libnftables, and returns its output. RulesAreGone: nftables refuses."""
        status, output, error = self.nft.json_cmd({"nftables": commands})
        if status != 0:
            raise RulesAreGone("nft: " + error.strip())
        return output

    def elements(self, where: SetName) -> Iterator[dict[str, Any]]:
        """A set's elements, each an object with `val` and what else the kernel has of it (`comment`,
        `counter`, seconds `expires`). Raises RulesAreGone where there is no such set."""
        family, table, name = where
        output = self.run([{"list": {"set": {"family": family, "table": table, "name": name}}}])
        for item in output["nftables"]:
            for member in item.get("set", {}).get("elem", []):
                yield member["elem"] if "elem" in member else {"val": member}

    def counted(self, where: SetName) -> Iterator[Counted]:
        """The devices of a set with counters, by nft's text, which takes half of the time of its JSON. Raises
        RulesAreGone where there is no such set."""
        status, output, error = self.plain.cmd("list set " + " ".join(where))
        if status != 0:
            raise RulesAreGone("nft: " + error.strip())
        for mac, packets, number, comment in COUNTED.findall(output):
            yield Counted(mac, int(packets), int(number), comment)


def in_bound(verb: str, pairs: Iterable[Pair]) -> list[dict[str, Any]]:
    """The commands that add these to the three sets, or delete them."""
    both = sorted(pairs)
    if not both:
        return []
    devices = [{"concat": list(pair)} for pair in both]
    return [*(elements_of(verb, where, devices) for where in BOUND),
            elements_of(verb, LEASED, sorted({address for _, address in both}))]


class BoundInKernel(KernelSets):
    """The three sets, and the mark of who filled them."""

    def __init__(self, lan: str) -> None:
        super().__init__()
        self.lan = lan

    def mark(self) -> str:
        """Who filled the sets since the rules were loaded; nothing where nobody did."""
        return next((e.get("comment", "") for e in self.elements(READY) if e["val"] == self.lan), "")

    def read(self, where: SetName = BOUND[0]) -> set[Pair]:
        """The devices with their addresses of one of the two sets."""
        return {(mac, address) for mac, address in (e["val"]["concat"] for e in self.elements(where))}

    def holds(self, pairs: frozenset[Pair]) -> bool:
        """Whether the three sets have these and no others."""
        return all(self.read(where) == pairs for where in BOUND) and \
            {e["val"] for e in self.elements(LEASED)} == {address for _, address in pairs}

    def change(self, gone: frozenset[Pair], come: frozenset[Pair]) -> None:
        """Takes pairs out of the sets and puts others in, all at once. Each is added before it is deleted:
        what others took away is no fault then."""
        self.run([*in_bound("add", gone), *in_bound("delete", gone), *in_bound("add", come)])

    def fill(self, pairs: frozenset[Pair], mark: str) -> None:
        """Fills the sets with these and no others, in one transaction."""
        ready = {"elem": {"val": self.lan, "comment": mark}}
        self.run([*(flush(where) for where in (*BOUND, LEASED, READY)), *in_bound("add", pairs),
                  element("add", READY, ready)])
