"""The table [radius] of field.toml: the venue's own access points and routers, and what the RADIUS server
does for them."""

from __future__ import annotations

import ipaddress
import re
from dataclasses import dataclass, fields
from dataclasses import field as listing
from typing import Any

from portal_field.lib.nearest import unknown

NAME = re.compile(r"[a-z0-9]([a-z0-9-]{0,30}[a-z0-9])?")


class BadRadius(Exception):
    """A line of the table is missing, unknown, or not what it must be."""


def of_kind(kind: type, key: str, value: object, least: float, most: float) -> None:
    """BadRadius: a line's value is no number in its range; a boolean is none."""
    fits = isinstance(value, int) if kind is int else isinstance(value, (int, float))
    if isinstance(value, bool) or not fits or not least <= value <= most:     # type: ignore[operator]
        raise BadRadius(f"{key} = {value!r}: from {least} to {most}")


@dataclass(frozen=True)
class AccessServer:
    """A NAS (network access server): an access point, a router or their controller. `address` may be a
    network, all of whose machines have one secret."""
    name: str
    address: str
    disconnect_port: int = 3799     # 0: it takes no Disconnect-Request
    message_authenticator: bool = True
    extend_by_coa: bool = False

    @property
    def network(self) -> ipaddress.IPv4Network:
        """The addresses from which its packets come."""
        return ipaddress.IPv4Network(self.address)

    def check(self) -> None:
        """BadRadius: a line of the table is not valid."""
        if not NAME.fullmatch(self.name):
            raise BadRadius(f"radius.nas.{self.name}: a name of a-z, 0-9 and hyphens, at most 32")
        try:
            self.network
        except (ValueError, TypeError) as fault:
            raise BadRadius(f"radius.nas.{self.name}: address: {fault}") from fault
        of_kind(int, f"radius.nas.{self.name}: disconnect_port", self.disconnect_port, 0, 65535)
        if not isinstance(self.message_authenticator, bool) or not isinstance(self.extend_by_coa, bool):
            raise BadRadius(f"radius.nas.{self.name}: message_authenticator and extend_by_coa are true or "
                            f"false")


def known_lines(cls: type, what: str, given: object) -> dict[str, Any]:
    """The lines of a table, of which none is unknown."""
    if not isinstance(given, dict):
        raise BadRadius(f"{what} is a table")
    if words := unknown(given, (field.name for field in fields(cls))):
        raise BadRadius(f"{what}: {words}")
    return given


@dataclass(frozen=True)
class Radius:
    """The table [radius] of field.toml."""
    listen: str
    nas: list[AccessServer] = listing(default_factory=list)
    auth_port: int = 1812
    acct_port: int = 1813
    interim_seconds: int = 60
    keep_days: int = 30
    language: str = "en"

    @classmethod
    def read(cls, given: object, languages: tuple[str, ...]) -> Radius | None:
        """The table's settings; None where there is no table."""
        if given in ({}, None):
            return None
        table = dict(known_lines(cls, "radius", given))
        servers = table.pop("nas", {})
        if not isinstance(servers, dict) or not servers:
            raise BadRadius("radius.nas: no access server is named, such as [radius.nas.lobby] with its "
                            "address")
        if "listen" not in table:
            raise BadRadius("radius: missing: listen")
        access_servers = []
        for name, lines in servers.items():
            lines = known_lines(AccessServer, f"radius.nas.{name}", lines)
            if "address" not in lines or "name" in lines:
                raise BadRadius(f"radius.nas.{name}: it has an address, and no other name")
            access_servers.append(AccessServer(name=name, **lines))
        radius = cls(nas=access_servers, **table)
        radius.check(languages)
        return radius

    def check(self, languages: tuple[str, ...]) -> None:
        """BadRadius: a line of the table is not valid."""
        try:
            ipaddress.IPv4Address(self.listen)
        except (ValueError, TypeError) as fault:
            raise BadRadius(f"radius: listen: {fault}") from fault
        for key, least, most in (("auth_port", 1, 65535), ("acct_port", 1, 65535),
                                 ("interim_seconds", 10, 3600),
                                 ("keep_days", 1, 3660)):
            of_kind(int, f"radius: {key}", getattr(self, key), least, most)
        if self.auth_port == self.acct_port:
            raise BadRadius("radius: auth_port and acct_port are the same")
        if self.language not in languages:
            raise BadRadius(f"radius: language = {self.language!r}: one of {', '.join(languages)}")
        for server in self.nas:
            server.check()
        for i, one in enumerate(self.nas):
            for other in self.nas[:i]:
                if one.network.overlaps(other.network):
                    raise BadRadius(f"radius.nas: {other.name} and {one.name} have addresses in common")
