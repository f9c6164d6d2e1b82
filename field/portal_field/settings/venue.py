"""field.toml, the one file that a venue edits: its lines, and what is refused of them."""

from __future__ import annotations

import ipaddress
import json
import pathlib
import re
import tomllib
from dataclasses import MISSING, dataclass, fields
from dataclasses import field as listing
from typing import Any

from portal_field import KIT
from portal_field.lib.colours import COLOUR
from portal_field.lib.language_names import COUNTER, GUESTS
from portal_field.lib.nearest import unknown
from portal_field.lib.zones import NoZone, rule_of
from portal_field.settings import venue_file
from portal_field.settings.radius_settings import BadRadius, Radius

HOST = re.compile(r"(?=.{1,253}\Z)([a-z0-9]([a-z0-9-]{0,61}[a-z0-9])?\.)+[a-z]{2,63}")
DEVICE = re.compile(r"[A-Za-z0-9][A-Za-z0-9._-]{0,14}")
PATH = re.compile(r"/[A-Za-z0-9/._-]+")
LOGO = re.compile(PATH.pattern + r"\.(svg|png|jpg)")
ZONE = re.compile(r"[!-~]{1,64}")
MAC = re.compile(r"[0-9a-f][02468ace](:[0-9a-f]{2}){5}")        # of one device, not of a group
TIME = re.compile(r"[0-9]{1,4}[mhd]?")
# bytes that nftables compares at once, and that it reaches (byte 255 is the last)
WIDEST, LONGEST = 16, 224
# of age, or of ssh, as `age --recipient` takes them
BACKUP_KEY = re.compile(r"age1[a-z0-9]{58}|ssh-(ed25519|rsa) [A-Za-z0-9+/]{40,800}={0,2}( [ -~]{0,100})?")
URL = re.compile(r"https://[A-Za-z0-9][A-Za-z0-9._~:/?#@!$&'()*+,;=%-]{0,500}")
PLAN = re.compile(r"[a-z0-9-]{1,32}")
VERSION = re.compile(r"[A-Za-z0-9._-]{1,32}")
CURRENCY = re.compile(r"[A-Z]{3}")
LANGUAGES, COUNTER_LANGUAGES = tuple(GUESTS), tuple(COUNTER)
# as portal_field/counter/labels.py has them
VOUCHER_SIZES = ("a4", "letter", "a4-24", "a4-21", "label", "receipt80", "receipt58")
RECEIPT_SIZES = ("", "receipt80", "receipt58")      # as portal_field/counter/receipt_text.py has them
SEPARATORS = ("", ",", ";", "\t")
A_HOST = ("a name of your own domain, such as wifi.DOMAIN, of a-z, digits, hyphens and at least one point: a "
          "certificate is for it")
A_DEVICE = "a network device by its name, as `ip link` shows it"
A_PATH = "the whole path of a file, from / on, of letters, digits and ._-"
CLOCKS = ("kernel", "host", "clerk")     # as portal_field/server/right_time.py has them


MEND = "mend that line, then run set-up (`portal-setup`) again"
ADD = f"add it as {KIT}/settings/field.toml has it, then run set-up (`portal-setup`) again"
OTHER_TEXT = "save it as UTF-8 (`iconv -f ISO-8859-1 -t UTF-8`), then run set-up (`portal-setup`) again"
NO_FILE = f"`cp {KIT}/settings/field.toml {{}}`, the sample, then `portal-setup --ask`"


class BadSettings(Exception):
    """What is wrong with field.toml, in words that begin with the key of the line that they are of; that
    line's number, 0 where it is of none; and what to do."""

    def __init__(self, what: str, line: int = 0, do: str = MEND) -> None:
        super().__init__(what)
        self.line, self.do = line, do

    def at(self, path: pathlib.Path) -> str:
        """What is wrong, and where."""
        return f"{path}, line {self.line}: {self}" if self.line else f"{path}: {self}"


def line_of(text: str, words: str) -> int:
    """The number of the line that words are of: they begin with its key, or with its table and then the key;
    0 where no line has it."""
    lines, (table, _, rest) = text.splitlines(), words.replace("unknown: ", "", 1).partition(": ")
    head = next((place for place, line in enumerate(lines) if line.startswith(f"[{table}]")), -1)
    key = re.match(r"\w+", rest if head >= 0 else table)
    own = re.compile(rf"\s*{key[0]}\s*=") if key else None
    for place, line in enumerate(lines[head + 1:], head + 2):
        if own and own.match(line):
            return place
        if line.startswith("["):
            break
    return head + 1


def address_with_length(key: str, value: Any) -> ipaddress.IPv4Interface:
    """The address of a line, with its network's length. BadSettings: it is none."""
    try:
        if "/" in value:
            return ipaddress.IPv4Interface(value)
    except (ValueError, TypeError):
        pass
    raise BadSettings(f"{key} = {value!r}: this machine's address with its network's length, such as "
                      "10.77.0.1/22")


def rule(zone: Any) -> str:
    """The POSIX rule of the line `zone`, which may also name a time zone."""
    if not (isinstance(zone, str) and ZONE.fullmatch(zone)):
        raise BadSettings(f"zone = {zone!r}: the name of a time zone, such as Europe/Berlin, or its POSIX "
                          "rule")
    try:
        return rule_of(zone)
    except NoZone as fault:
        raise BadSettings(f"zone = {zone!r}: {fault}") from fault


@dataclass(frozen=True)
class Field:
    """The lines of field.toml."""
    house: str
    name: str
    zone: str
    lan: str
    guests: str
    leases: list[str]
    wan: str
    counter: str
    counter_name: str
    cert: str
    key: str
    # What came later has a default, so that a file of before goes on.
    help: str = ""
    desk_port: int = 8080
    poll_seconds: float = 1.0
    grace_seconds: int = 5
    quiet_seconds: float = 30.0
    time_quiet_seconds: float = 600.0
    without_browser: list[str] = listing(default_factory=list)
    clock: str = "kernel"
    on_failure: list[str] = listing(default_factory=list)
    backup_key: str = ""
    currency: str = ""
    wifi: str = ""
    wifi_password: str = ""
    logo: str = ""
    voucher_size: str = "a4"
    voucher_barcode: bool = False
    daily_report: list[str] = listing(default_factory=list)
    counter_language: str = "en"
    voucher_languages: list[str] = listing(default_factory=lambda: ["en"])
    owner_contact: str = ""
    counter_internet: bool = False
    counter_lock_minutes: int = 10
    clerk_refund_limit: int = 2000
    payments: list[str] = listing(default_factory=lambda: ["cash"])
    drawers: list[str] = listing(default_factory=list)
    receipt_size: str = ""
    receipt_head: list[str] = listing(default_factory=list)
    csv_separator: str = ""
    venue_url: str = ""
    guest_colour: str = ""
    guest_prices: bool = False
    terms_version: str = ""
    terms_days: int = 90
    free_plan: str = ""
    free_daily: int = 200
    metrics: str = ""
    metrics_takings: bool = False
    radius: dict[str, Any] = listing(default_factory=dict)

    @classmethod
    def in_file(cls, path: pathlib.Path) -> Field:
        """The settings in a file. BadSettings: there is none, or it is not what it must be. PermissionError:
        this user may not read it."""
        try:
            data = path.read_bytes()
            return cls.read(data.decode())
        except FileNotFoundError as fault:
            raise BadSettings("there is no such file", do=NO_FILE.format(path)) from fault
        except PermissionError:
            raise
        except OSError as fault:
            raise BadSettings(f"it cannot be read: {fault.strerror}", do="name a file that can") from fault
        except UnicodeDecodeError as fault:
            raise BadSettings(f"the byte 0x{data[fault.start]:02x} is not UTF-8",
                              data.count(b"\n", 0, fault.start) + 1, OTHER_TEXT) from fault

    @classmethod
    def read(cls, text: str) -> Field:
        """The settings in a text. BadSettings: a line is not valid, or missing."""
        try:
            lines = tomllib.loads(text)
        except tomllib.TOMLDecodeError as fault:
            place = re.search(r"at line (\d+)", str(fault))
            raise BadSettings(f"this is no TOML: {fault}", int(place[1]) if place else 0) from fault
        needed = {f.name for f in fields(cls) if f.default is MISSING and f.default_factory is MISSING}
        if words := unknown(lines, (field.name for field in fields(cls))):
            raise BadSettings(words, line_of(text, words))
        if missing := sorted(needed - lines.keys()):
            raise BadSettings(f"missing: {', '.join(missing)}", do=ADD)
        try:
            lines["zone"] = rule(lines["zone"])
            field = cls(**lines)
            field.check()
        except BadSettings as fault:
            raise BadSettings(str(fault), line_of(text, str(fault))) from fault
        return field

    @property
    def url(self) -> str:
        """The address of the guests' page."""
        return f"https://{self.name}/portal"

    def check(self) -> None:
        """BadSettings: a line is not valid. Words go into other programs' files, so each is of its own
        shape."""
        shapes = {"name": (HOST, A_HOST), "counter_name": (HOST, A_HOST), "lan": (DEVICE, A_DEVICE),
                  "wan": (DEVICE, A_DEVICE), "cert": (PATH, A_PATH), "key": (PATH, A_PATH)}
        for key, (shape, words) in shapes.items():
            value = getattr(self, key)
            if not (isinstance(value, str) and shape.fullmatch(value)):
                raise BadSettings(f"{key} = {value!r}: {words}")
        for one, other in (("lan", "wan"), ("name", "counter_name")):
            if getattr(self, one) == getattr(self, other):
                raise BadSettings(f"{one} and {other} are the same: {getattr(self, one)}")
        for key in ("house", "help"):
            if not isinstance(getattr(self, key), str):
                raise BadSettings(f"{key} = {getattr(self, key)!r}: words in quotes")
        limits = {"desk_port": (1, 65535), "poll_seconds": (0.2, 10), "grace_seconds": (2, 60),
                  "quiet_seconds": (1, 3600), "time_quiet_seconds": (1, 86400)}
        for key, (least, most) in limits.items():
            value = getattr(self, key)
            if isinstance(value, bool) or not isinstance(value, (int, float)) or not least <= value <= most:
                raise BadSettings(f"{key} = {value!r}: from {least} to {most}")
        self.check_counter()
        if not isinstance(self.desk_port, int) or not isinstance(self.grace_seconds, int):
            raise BadSettings("desk_port and grace_seconds are integers")
        if self.grace_seconds < 2 * self.poll_seconds:
            raise BadSettings("grace_seconds is less than two polls")
        self.check_services()
        self.check_metrics()
        self.check_pages()
        self.check_money()
        self.check_guests_page()
        self.check_devices()
        self.check_networks()
        self.access_servers     # which raises what is wrong with it

    def check_counter(self) -> None:
        """BadSettings: a line about those who work at the counter is not valid."""
        limits = {"counter_lock_minutes": (480, "minutes without a press, up to 480; 0: no lock"),
                  "clerk_refund_limit": (10**9, "hundredths, as in plans.toml; 0: a clerk refunds nothing")}
        for key, (most, what) in limits.items():
            value = getattr(self, key)
            if isinstance(value, bool) or not isinstance(value, int) or not 0 <= value <= most:
                raise BadSettings(f"{key} = {value!r}: {what}")
        if not isinstance(self.counter_internet, bool):
            raise BadSettings(f"counter_internet = {self.counter_internet!r}: true or false")

    def check_services(self) -> None:
        """BadSettings: the clock, the key of the copies or a command is not valid."""
        if self.clock not in CLOCKS:
            raise BadSettings(f"clock = {self.clock!r}: one of {', '.join(CLOCKS)}")
        key = self.backup_key
        if not isinstance(key, str) or key and not BACKUP_KEY.fullmatch(key):
            raise BadSettings(f"backup_key = {key!r}: a public key of age (age1..) or of ssh, or nothing")
        for key in ("on_failure", "daily_report"):
            words = getattr(self, key)
            if not isinstance(words, list) or not all(isinstance(word, str) and word for word in words):
                raise BadSettings(f"{key} is a list of a command's words")

    def check_metrics(self) -> None:
        """BadSettings: a line about the metrics is not valid."""
        address, colon, port = self.metrics.rpartition(":") if isinstance(self.metrics, str) else ("", "", "")
        try:
            good = self.metrics == "" or bool(ipaddress.IPv4Address(address)) and 1 <= int(port) <= 65535
        except ValueError:
            good = False
        if not good:
            raise BadSettings(f"metrics = {self.metrics!r}: an address and a port, such as 127.0.0.1:9808, "
                              f"or nothing")
        if not isinstance(self.metrics_takings, bool):
            raise BadSettings("metrics_takings is true or false")

    @property
    def access_servers(self) -> Radius | None:
        """The table [radius], where there is one."""
        try:
            return Radius.read(self.radius, LANGUAGES)
        except BadRadius as fault:
            raise BadSettings(str(fault)) from fault
        except TypeError as fault:
            raise BadSettings(f"radius: {fault}") from fault

    def check_guests_page(self) -> None:
        """BadSettings: a line about the guests' page is not valid."""
        shapes = {"venue_url": (URL, "https:// and an address, or nothing"),
                  "guest_colour": (COLOUR, "a colour such as #0b5d51, or nothing"),
                  "terms_version": (VERSION, "at most 32 letters, digits, points, hyphens and low lines, "
                                             "such as 2026-03, or nothing"),
                  "free_plan": (PLAN, "the id of a plan of price 0, or nothing")}
        for key, (shape, words) in shapes.items():
            value = getattr(self, key)
            if not isinstance(value, str) or value and not shape.fullmatch(value):
                raise BadSettings(f"{key} = {value!r}: {words}")
        if not isinstance(self.guest_prices, bool):
            raise BadSettings("guest_prices is true or false")
        for key, most in (("terms_days", 3660), ("free_daily", 100_000)):
            value = getattr(self, key)
            if isinstance(value, bool) or not isinstance(value, int) or not 1 <= value <= most:
                raise BadSettings(f"{key} = {value!r}: from 1 to {most}")

    def check_pages(self) -> None:
        """BadSettings: a line about the pages is not valid."""
        if not isinstance(self.currency, str) or self.currency and not CURRENCY.fullmatch(self.currency):
            raise BadSettings(f"currency = {self.currency!r}: three capital letters, such as EUR, or nothing")
        if fault := venue_file.fault_of_contact(self.owner_contact):
            raise BadSettings(fault)
        if not isinstance(self.wifi, str) or len(self.wifi.encode()) > 32:
            raise BadSettings("wifi: the network's name, at most 32 bytes")
        if not isinstance(self.wifi_password,
                          str) or self.wifi_password and not 8 <= len(self.wifi_password) <= 63:
            raise BadSettings("wifi_password: 8 to 63 signs, or nothing")
        if not isinstance(self.logo, str) or self.logo and not LOGO.fullmatch(self.logo):
            raise BadSettings(f"logo = {self.logo!r}: the path of an svg, png or jpg file, or nothing")
        if self.voucher_size not in VOUCHER_SIZES:
            raise BadSettings(f"voucher_size = {self.voucher_size!r}: one of {', '.join(VOUCHER_SIZES)}")
        if not isinstance(self.voucher_barcode, bool):
            raise BadSettings("voucher_barcode is true or false")
        if self.counter_language not in COUNTER_LANGUAGES:
            raise BadSettings(f"counter_language = {self.counter_language!r}: one of "
                              f"{', '.join(COUNTER_LANGUAGES)}")
        tags = self.voucher_languages
        if not isinstance(tags, list) or not 1 <= len(tags) <= 2 or any(tag not in LANGUAGES for tag in tags):
            raise BadSettings(f"voucher_languages: one or two of {', '.join(LANGUAGES)}")

    def check_money(self) -> None:
        """BadSettings: a line about payments, drawers or receipts is not valid."""
        for key in venue_file.LISTS:
            if fault := venue_file.fault_of_list(key, getattr(self, key)):
                raise BadSettings(fault)
        if self.receipt_size not in RECEIPT_SIZES:
            raise BadSettings(f"receipt_size = {self.receipt_size!r}: receipt80, receipt58, or nothing")
        if self.csv_separator not in SEPARATORS:
            raise BadSettings(f"csv_separator = {self.csv_separator!r}: a comma, a semicolon, a tab, or "
                              "nothing")

    def check_devices(self) -> None:
        """BadSettings: a MAC address is not valid."""
        set_elements = self.without_browser
        if not isinstance(set_elements, list) or not all(isinstance(mac, str) for mac in set_elements):
            raise BadSettings("without_browser is a list of MAC addresses")
        for mac in set_elements:
            if not MAC.fullmatch(mac.lower()):
                raise BadSettings(f"without_browser: {mac!r} is no MAC address of a device, such as "
                                  f"02:00:00:00:00:01")

    def set_elements(self) -> str:
        """The elements of both sets of portal.nft, where there are any."""
        macs = ", ".join(sorted({mac.lower() for mac in self.without_browser}))
        return "".join(f"add element {family} portal listed {{ {macs} }}\n" for family in ("inet", "netdev")
                       if macs)

    def let_out(self) -> str:
        """The element of portal.nft that lets the counter's network out to the internet, where it may."""
        network = ipaddress.IPv4Interface(self.counter).network
        return f"add element inet portal let_out {{ {network} }}\n" if self.counter_internet else ""

    def own_name(self) -> str:
        """The rules of portal.nft that recognise questions for the portal's name (RFC 1035 section 4.1.2), in
        any case of its letters, from others; of a longer name its first LONGEST bytes. They begin 20 bytes
        after that of UDP."""
        labels = [label.encode() for label in self.name.split(".")]
        question = (b"".join(bytes([len(label)]) + label for label in labels) + bytes(1))[:LONGEST]
        # a length, below 64, is no letter
        mask = bytes(0xdf if chr(sign).isalpha() else 0xff for sign in question)
        parts = [(at, question[at:at + WIDEST], mask[at:at + WIDEST])
                 for at in range(0, len(question), WIDEST)]
        match = " ".join(f"@th,{8 * (20 + at)},{8 * len(part)} & 0x{bits.hex()} == "
                         f"0x{bytes(a & b for a, b in zip(part, bits)).hex()}" for at, part, bits in parts)
        return f"add rule inet portal other_names {match} return\nadd rule inet portal other_names drop\n"

    def check_networks(self) -> None:
        """BadSettings: an address or the leases are not valid."""
        guests, counter = (address_with_length(key, getattr(self, key)) for key in ("guests", "counter"))
        leases = (f"leases = {self.leases}: first and last address within {guests.network}, the network of "
                  f"guests = \"{self.guests}\", and a time such as 1h")
        try:
            first, last, time = self.leases
            leased = ipaddress.IPv4Address(first), ipaddress.IPv4Address(last)
        except (ValueError, TypeError) as fault:
            raise BadSettings(leases) from fault
        if guests.network.overlaps(counter.network):
            raise BadSettings(f"counter = \"{counter}\" is on the network of guests = \"{guests}\": each "
                              "needs one of its own")
        for key, own in (("guests", guests), ("counter", counter)):
            if own.network.prefixlen > 30 or own.ip in (own.network.network_address,
                                                        own.network.broadcast_address):
                raise BadSettings(f"{key} = \"{own}\": not the address of a machine on a network")
        ends = guests.network.network_address, guests.network.broadcast_address
        if not (ends[0] < leased[0] <= leased[1] < ends[1] and isinstance(time, str)
                and TIME.fullmatch(time)):
            raise BadSettings(leases)
        if leased[0] <= guests.ip <= leased[1]:
            raise BadSettings(f"leases: {guests.ip} is this machine's own address and would be given to a "
                              f"guest")


def toml_lines(values: dict[str, Any]) -> str:
    """Values as lines of a TOML file."""
    return "".join(f"{key} = {json.dumps(value, ensure_ascii=False)}\n" for key, value in values.items())
