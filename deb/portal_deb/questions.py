"""Asks for what field.toml needs, on a terminal, and writes the answers into that file's lines."""

from __future__ import annotations

import ipaddress
import json
import pathlib
import re
import subprocess
from collections.abc import Callable
from dataclasses import dataclass
from typing import Any

from babel.numbers import get_territory_currencies

from portal_field.doctor.certificates import no_certificate_for
from portal_field.lib.zones import ZONES, rule_in, rule_of

Lines = dict[str, Any]      # keys of field.toml and their values
NOTHING = "-"       # the answer that leaves a line empty
VALUE = r'"(?:[^"\\]|\\.)*"|\[[^\]]*\]|[^#\s][^#\n]*?'
LOCAL_TIME, COUNTRIES = pathlib.Path("/etc/localtime"), ZONES / "zone.tab"
SINCE = {"HR": "EUR", "BG": "EUR"}      # later than in Debian's python3-babel


def with_lines(text: str, lines: Lines) -> str:
    """The text with these values in the places of those that it has; its comments stay."""
    for key, value in lines.items():
        line = f"{key} = {json.dumps(value, ensure_ascii=False)}"
        text, count = re.subn(rf"(?m)^{key} = (?:{VALUE})(?=[ \t]*(?:#|$))", lambda _: line, text)
        if count == 0:
            text = text.rstrip("\n") + f"\n{line}\n"
    return text


def leases_in(address: str) -> list[str]:
    """First and last address of the leases in the network of this machine's address, and for how long."""
    own = ipaddress.IPv4Interface(address)
    first, last = int(own.network.network_address) + 1, int(own.network.broadcast_address) - 1
    if own.network.num_addresses >= 256:        # some stay free, for access points and printers
        first, last = first + 49, last - 4
    if first <= int(own.ip) <= last:            # the longer side of this machine's own address
        first, last = max((first, int(own.ip) - 1), (int(own.ip) + 1, last),
                          key=lambda pair: pair[1] - pair[0])
    return [str(ipaddress.IPv4Address(first)), str(ipaddress.IPv4Address(last)), "1h"]


def currency_in(zone: str) -> str:
    """The currency of the country that a time zone is of, by its name; nothing where that is not known."""
    try:
        rows = (line.split("\t") for line in COUNTRIES.read_text().splitlines() if not line.startswith("#"))
        country = next((row[0] for row in rows if row[2:3] == [zone]), "")
    except OSError:
        return ""
    known = SINCE.get(country) or next(iter(get_territory_currencies(country)), "") if country else ""
    return str(known)


class Here:
    """What can be read from this machine."""

    def __init__(self) -> None:
        self.devices = {row["ifname"]: row for row in self.json_of("ip", "-j", "address", "show")
                        if row.get("ifname") != "lo"}
        self.way_out = next((str(row["dev"]) for row in self.json_of("ip", "-j", "route", "show", "default")),
                            "")

    @staticmethod
    def json_of(*words: str) -> list[dict[str, Any]]:
        """What `ip` prints as JSON; nothing where it fails."""
        done = subprocess.run(words, capture_output=True, text=True)
        return list(json.loads(done.stdout)) if done.returncode == 0 and done.stdout.strip() else []

    def address(self, device: str) -> str:
        """The first IPv4 address of a device, with the network's length; empty where it has none."""
        rows = self.devices.get(device, {}).get("addr_info", ())
        return next((f"{row['local']}/{row['prefixlen']}" for row in rows if row.get("family") == "inet"), "")

    def another_address(self, *taken: str) -> str:
        """The address of the first device that is none of these and has one."""
        return next(filter(None, map(self.address, self.others(*taken))), "")

    def others(self, *taken: str) -> list[str]:
        """The devices that are none of these."""
        return [name for name in self.devices if name not in taken]

    @staticmethod
    def clock() -> str:
        """The value of `clock` that fits: `kernel` where a time service keeps the clock, else `clerk`."""
        words = ("timedatectl", "show", "-p", "NTPSynchronized", "--value")
        process = subprocess.run(words, capture_output=True, text=True)
        return "kernel" if process.stdout.strip() == "yes" else "clerk"

    @staticmethod
    def zone() -> str:
        """The name of the machine's own time zone, or its rule where it is no link to a file with a name."""
        try:
            name = str(LOCAL_TIME.readlink()).partition(f"{ZONES}/")[2] if LOCAL_TIME.is_symlink() else ""
            return name or rule_in(LOCAL_TIME) or "UTC0"
        except OSError:
            return "UTC0"


@dataclass(frozen=True)
class Question:
    """A key of field.toml, the words that ask for it, and the answer that an empty line takes."""
    key: str
    words: str
    default: Callable[[Here, Lines], str]


QUESTIONS = (
    Question("house", "The venue's name, as guests read it", lambda here, so_far: str(so_far["house"])),
    Question("zone", "The venue's time zone, such as Europe/Berlin, or its POSIX rule",
             lambda here, so_far: here.zone()),
    Question("clock",
             "Who says that its clock is right: kernel (a time service), host (of a virtual machine), clerk",
             lambda here, so_far: here.clock()),
    Question("wan", "The network device to the outside ({devices})",
             lambda here, so_far: here.way_out or so_far["wan"]),
    Question("lan", "The guests' network device ({devices})",
             lambda here, so_far: next(iter(here.others(so_far["wan"])), so_far["lan"])),
    Question("guests", "This machine's address on it, with the network's length",
             lambda here, so_far: here.address(so_far["lan"]) or so_far["guests"]),
    Question("counter", "This machine's address on the counter's network, with its length",
             lambda here, so_far: here.another_address(so_far["wan"], so_far["lan"]) or so_far["counter"]),
    Question("name", "The portal's name (your own: a name that a certificate can be had for)",
             lambda here, so_far: str(so_far["name"])),
    Question("counter_name", "The name of the counter's page",
             lambda here, so_far: str(so_far["counter_name"])),
    Question("counter_language", "The language of the counter's page: en or de",
             lambda here, so_far: str(so_far["counter_language"])),
    Question("currency", "The currency of the prices, such as EUR; - for none",
             lambda here, so_far: str(so_far["currency"] or currency_in(so_far["typed_zone"]) or NOTHING)),
    Question("wifi", "The Wi-Fi's name, which is printed on each voucher; - to print none",
             lambda here, so_far: str(so_far["wifi"] or NOTHING)),
    Question("wifi_password", "The Wi-Fi's password, where it has one; - for none",
             lambda here, so_far: str(so_far["wifi_password"] or NOTHING)))
OF_A_CERTIFICATE = {"name", "counter_name"}
OPTIONAL = {"currency", "wifi", "wifi_password"}        # that a venue may do without


def lines_of(key: str, answer: str) -> Lines:
    """The lines of field.toml that an answer makes. ValueError: it is not what it must be."""
    if not answer:
        raise ValueError("it cannot be empty")
    if key in OPTIONAL and answer == NOTHING:
        return {key: ""}
    if key == "zone":
        return {key: rule_of(answer)}
    return {key: answer, "leases": leases_in(answer)} if key == "guests" else {key: answer}


def check_names(lines: Lines) -> None:
    """ValueError: one of these is a name that nobody can have a certificate for."""
    for key in OF_A_CERTIFICATE & lines.keys():
        if fault := no_certificate_for(lines[key]):
            raise ValueError(f"{fault}; only to see how it works: portal-setup --first-look")


def ask_all(text: str, read: Callable[[str], object], so_far: Lines, here: Here,
            say: Callable[[str], None] = print, hear: Callable[[str], str] = input,
            takes_any_name: bool = False) -> str:
    """Asks the questions. The text with the answers in it. `read` raises ValueError where a line is not what
    it must be. `takes_any_name`: also one that nobody can have a certificate for."""
    say("An empty answer takes what is in [ ].")
    so_far = dict(so_far)
    for question in QUESTIONS:
        if question.key == "wifi_password" and not so_far["wifi"]:
            continue        # nothing would print it
        words = question.words.format(devices=", ".join(here.devices) or "there is none")
        default = question.default(here, so_far)
        if question.key in OF_A_CERTIFICATE and not takes_any_name and no_certificate_for(default):
            default = ""
        while True:
            answer = hear(f"{words} [{default}]: " if default else f"{words}: ").strip() or default
            try:
                lines = lines_of(question.key, answer)
                if not takes_any_name:
                    check_names(lines)
                read(with_lines(text, lines))
                break
            except ValueError as fault:
                say(f"  no: {fault}")
        text, so_far = with_lines(text, lines), {**so_far, **lines, f"typed_{question.key}": answer}
    return text
