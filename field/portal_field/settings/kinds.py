"""The kinds of file that portal-settings.service writes, each with what it has to be and who may change
it."""

from __future__ import annotations

import base64
import binascii
import zlib
from collections.abc import Callable
from dataclasses import dataclass, replace

from portal_field.lib import plans
from portal_field.lib.offers_file import OffersFile
from portal_field.settings import venue_file
from portal_field.settings.accounts import (
    FILE, GROUP, MANAGER, MODE, MOST_BYTES, Account, Accounts, BadAccounts)
from portal_field.settings.venue import LANGUAGES

CLERKS, PLANS, OFFERS, VENUE, PICTURE = "clerks", "plans", "offers", "venue", "picture"
PICTURE_FILE = "picture.png"
TEXTS = ("greeting", "terms", "privacy")        # as portal_field/guests/texts.py reads them
MOST_PLANS, MOST_TEXT, MOST_PICTURE = 120_000, 16_384, 300_000      # bytes; of a picture in Base64
MOST_PIXELS = 2000      # of each side of a picture
PNG = b"\x89PNG\r\n\x1a\n"


class Refusal(Exception):
    """Nothing was written. `word`: of the answer; `why`: in English."""

    def __init__(self, word: str, why: str = "", seconds: float = 0.0) -> None:
        super().__init__(word, why)
        self.word, self.why, self.seconds = word, why, seconds


@dataclass(frozen=True)
class Kind:
    """A kind of file: its name in the folder of settings, or in one below it, its mode and group, and the
    most bytes of its text. `check` raises Refusal where this person may not make this text of that one, or
    where it is not what it must be. `is_optional`: a venue need not have it, and an empty text takes it
    away."""
    name: str
    mode: int
    group: str
    check: Callable[[Account, str, str], None]
    most: int = MOST_BYTES
    folder: str = ""
    is_optional: bool = False
    is_picture: bool = False

    def text_of(self, data: bytes) -> str:
        """The text of a file's bytes. UnicodeError: they are none."""
        return base64.b64encode(data).decode() if self.is_picture else data.decode()

    def data_of(self, text: str) -> bytes:
        """The bytes that a file has by this text."""
        return base64.b64decode(text) if self.is_picture else text.encode()


def check_clerks(who: Account, before: str, after: str) -> None:
    """A manager changes every account but those of the office, which see all venues, and anybody else the own
    password and PIN alone. A manager is left."""
    try:
        old, new = Accounts.read(before), Accounts.read(after)
        new.check_managers()
    except BadAccounts as fault:
        raise Refusal("bad_file", str(fault)) from fault
    if who.role != MANAGER:
        own = new.get(who.name, replace(who, name=""))
        same = replace(own, password=who.password, pin=who.pin)
        if same != who or {**old, who.name: own} != new:
            raise Refusal("not_allowed", "a clerk changes the own password and PIN alone")
    elif old.of_office != new.of_office:
        raise Refusal("not_allowed", "root alone makes, changes and ends an account of the office")


def for_managers(check: Callable[[str, str], None]) -> Callable[[Account, str, str], None]:
    """The check of a kind of file that managers alone change."""
    def checked(who: Account, before: str, after: str) -> None:
        """Refusal: this person is no manager, or the text is not what it must be."""
        if who.role != MANAGER:
            raise Refusal("not_allowed", "a manager alone changes it")
        try:
            check(before, after)
        except (plans.BadFile, venue_file.BadVenueFile) as fault:
            raise Refusal("bad_file", str(fault)) from fault

    return checked


def check_plans(before: str, after: str) -> None:
    """The server would accept the file, and each plan of before is in it as it was: vouchers may have been
    sold of it. BadFile."""
    plans.check_plans(after.encode())
    old, new = plans.plans_in(before.encode()), plans.plans_in(after.encode())
    if gone := old.keys() - new.keys():
        raise plans.BadFile(f"a plan stays in the file: {', '.join(sorted(gone))}")
    if changed := plans.compare(new, old):
        raise plans.BadFile(f"{changed[0]}: {plans.NEW_ID}")


def check_offers(_: str, after: str) -> None:
    """The counter reads the file. BadFile."""
    OffersFile.read(after.encode())


def check_venue(_: str, after: str) -> None:
    """Set-up would accept its lines in field.toml. BadVenueFile."""
    venue_file.read(after)


def check_text(_: str, after: str) -> None:
    """It has no signs of control but ends of lines and tabs. BadFile."""
    if any(sign < " " and sign not in "\n\r\t" or sign == "\x7f" for sign in after):
        raise plans.BadFile("a text has letters, signs and ends of lines alone")


def check_picture(_: str, after: str) -> None:
    """It is a picture in PNG, whole, not too large, and nothing is behind it. BadFile."""
    try:
        data = base64.b64decode(after, validate=True)
    except (binascii.Error, ValueError) as fault:
        raise plans.BadFile("it is no Base64") from fault
    if data and (fault_of := fault_of_png(data)):
        raise plans.BadFile(fault_of)


def fault_of_png(data: bytes) -> str:
    """Why this is no picture in PNG (RFC 2083), or nothing. The pixels themselves are not looked at."""
    if not data.startswith(PNG):
        return "it is no PNG"
    at, kind = len(PNG), b""
    while at + 12 <= len(data) and kind != b"IEND":
        size, first = int.from_bytes(data[at:at + 4], "big"), not kind
        kind, body = data[at + 4:at + 8], data[at + 8:at + 8 + size]
        if zlib.crc32(kind + body).to_bytes(4, "big") != data[at + 8 + size:at + 12 + size]:
            return "a part of the PNG is damaged"
        if first and not (kind == b"IHDR" and size == 13 and all(
                1 <= int.from_bytes(body[i:i + 4], "big") <= MOST_PIXELS for i in (0, 4))):
            return f"a picture has at most {MOST_PIXELS} pixels at each side"
        at += 12 + size
    return "" if kind == b"IEND" and at == len(data) else "the PNG does not end where it has to"


def text_kinds() -> dict[str, Kind]:
    """A kind for each text that the guests' page has, in each of its languages and in none."""
    stems = [f"{name}.{tag}" if tag else name for name in TEXTS for tag in ("", *LANGUAGES)]
    checked = for_managers(check_text)
    return {f"texts/{stem}": Kind(f"{stem}.md", 0o644, "root", checked, MOST_TEXT, "texts", is_optional=True)
            for stem in stems}


KINDS = {CLERKS: Kind(FILE, MODE, GROUP, check_clerks),
         PLANS: Kind("plans.toml", 0o644, "root", for_managers(check_plans), MOST_PLANS),
         OFFERS: Kind("offers.toml", 0o644, "root", for_managers(check_offers), is_optional=True),
         VENUE: Kind(venue_file.FILE, venue_file.MODE, venue_file.GROUP, for_managers(check_venue),
                     is_optional=True),
         PICTURE: Kind(PICTURE_FILE, 0o644, "root", for_managers(check_picture), MOST_PICTURE,
                       is_optional=True, is_picture=True),
         **text_kinds()}
