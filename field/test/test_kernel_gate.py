"""The agent's reading of the kernel's sets, with answers of libnftables in memory."""

from __future__ import annotations

import importlib
import sys
import types
import unittest
from typing import Any

from needs import needs

from portal_field.gateway.passing import Passing

ANEW = ("portal_field.gateway.kernel_gate", "portal_field.gateway.kernel_sets")     # imported with the nftables of the test
A, B, C = "02:00:00:00:00:0a", "02:00:00:00:00:0b", "02:00:00:00:00:0c"


class MemoryNft:
    """What libnftables answers, and what it was sent."""
    up: list[str] = []
    down: list[str] = []
    alive: list[Any] = []

    def __init__(self) -> None:
        self.commands: list[dict[str, Any]] = []

    def set_json_output(self, on: bool) -> None:
        assert on

    def json_cmd(self, order: dict[str, Any]) -> tuple[int, Any, str]:
        self.commands += order["nftables"]
        names = [command["list"]["set"]["name"] for command in order["nftables"] if "list" in command]
        return 0, {"nftables": [{"metainfo": {}}, *({"set": {"elem": getattr(self, name)}} for name in names)]}, ""

    def cmd(self, order: str) -> tuple[int, str, str]:
        """As nft prints a set."""
        verb, _, family, table, name = order.split(" ")
        assert verb == "list", order
        elements = (",\n" + 25 * " ").join(getattr(self, name))
        return 0, (f"table {family} {table} {{\n\tset {name} {{\n\t\ttype ether_addr\n\t\tcounter\n"
                   f"\t\telements = {{ {elements} }}\n\t}}\n}}\n"), ""


def counted_element(mac: str, number: int, comment: str | None = None) -> str:
    return f"{mac} counter packets 1 bytes {number}" + (f' comment "{comment}"' if comment is not None else "")


@needs("python3-pyroute2")
class Sets(unittest.TestCase):
    def setUp(self) -> None:
        before = sys.modules.get("nftables")
        sys.modules["nftables"] = types.SimpleNamespace(Nftables=MemoryNft)     # type: ignore[assignment]
        for name in ANEW:
            sys.modules.pop(name, None)
        self.gate = importlib.import_module(ANEW[0]).KernelGate("lan0", 5, "/none")
        for name in ANEW:
            sys.modules.pop(name)
        sys.modules.pop("nftables")
        if before:
            sys.modules["nftables"] = before
        self.nft: Any = self.gate.nft
        for name in ("up", "down", "alive"):
            self.addCleanup(setattr, MemoryNft, name, [])

    def test_whose_switch_it_is(self) -> None:
        self.assertFalse(self.gate.is_known())
        self.gate.change((), {})
        order = self.nft.commands[-1]["add"]["element"]
        self.assertEqual(order["name"], "alive")
        MemoryNft.alive = [{"elem": {**order["elem"][0]["elem"], "expires": 3}}]
        self.assertTrue(self.gate.is_known())
        MemoryNft.alive = [{"elem": {"val": "lan0", "timeout": 5, "expires": 3, "comment": "another"}}]
        self.assertFalse(self.gate.is_known())

    def test_what_others_put_there_is_left_alone(self) -> None:
        MemoryNft.up = [counted_element(A, 100, "7+50"), counted_element(B, 10, "printer"), counted_element(C, 10), counted_element(C, 1, "1+-2")]
        MemoryNft.down = [counted_element(A, 214), counted_element("02:00:00:00:00:0d", 5, "x")]
        try:
            self.assertEqual(self.gate.passing(), {A: Passing(7, 50, 100 + 214 - 14)})
        except (AssertionError, ValueError, KeyError) as fault:
            self.fail(repr(fault))

    def test_a_kernel_that_does_not_say_one_count_has_all_read(self) -> None:
        def refuse(where: tuple[str, str, str], mac: str) -> None:
            raise OSError("refused")

        self.gate.elements_alone.ask = refuse
        self.assertEqual(self.gate.ask([A]), {})

    def test_what_others_took_away_is_no_fault(self) -> None:
        """Before each delete stands an add, so that the element is there whatever others did."""
        self.gate.change([A], {B: Passing(1, 0, 0)})
        there: set[tuple[str, str]] = set()
        for command in self.nft.commands:
            (verb, what), = command.items()
            where, value = what["element"]["name"], what["element"]["elem"][0]
            key = (where, value["elem"]["val"] if isinstance(value, dict) else value)
            if verb == "add":
                there.add(key)
            else:
                self.assertIn(key, there)
                there.remove(key)
        self.assertEqual(there, {("up", B), ("down", B), ("alive", "lan0")})


if __name__ == "__main__":
    unittest.main()
