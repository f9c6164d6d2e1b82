"""A batch's print file as vouchers with their words and QR codes."""

from __future__ import annotations

import csv
import datetime
import io
import itertools
import urllib.parse
from collections.abc import Iterator, Sequence
from dataclasses import dataclass
from typing import Any

from portal_field.counter.labels import Paper
from portal_field.counter.pictures import NoBars, bars, bars_picture, Picture, qr_picture
from portal_field.lib.languages import Language
from portal_field.lib.typed_codes import plain_code


def wifi_text(name: str, password: str) -> str:
    """What phones read as the network to join."""
    name, password = ("".join("\\" + sign if sign in '\\;,:"' else sign for sign in text)
                      for text in (name, password))
    return f"WIFI:T:WPA;S:{name};P:{password};;" if password else f"WIFI:T:nopass;S:{name};;"


@dataclass(frozen=True)
class Words:
    """What a voucher says in one language."""
    language: Language
    worth: str
    price: str
    until: str


@dataclass(frozen=True)
class Voucher:
    """What is printed of one voucher. `place`: its number in the batch. `bars`: its code as Code 128, where
    the venue wants that."""
    code: str
    place: int
    picture: Picture
    bars: Picture | None
    words: tuple[Words, ...]


@dataclass(frozen=True)
class Sheet:
    """The vouchers of a batch on one kind of paper."""
    batch: str
    paper: Paper
    vouchers: list[Voucher]
    wifi: Picture | None = None     # the Wi-Fi's QR code, where there is room for it
    lacks_wifi: bool = False        # whether there is none for want of room
    fault: str = ""                             # why the bars that the venue wants are not there

    @property
    def rows(self) -> Iterator[list[Voucher]]:
        """The vouchers that stand beside one another."""
        columns = self.paper.columns
        return (self.vouchers[at:at + columns] for at in range(0, len(self.vouchers), columns))


def worth(language: Language, row: dict[str, str], uses: int) -> str:
    """What a voucher gives: time, data, or both, and how often."""
    parts = [say(int(row[key])) for key, say in (("seconds", language.span), ("bytes", language.volume))
             if row[key]]
    text = " + ".join(parts)
    return text if uses == 1 else language.say_plural("%(what)s, %(num)s time", "%(what)s, %(num)s times",
                                                      uses, what=text)


def rows(text: str) -> list[dict[str, str]]:
    """The rows of a print file of the server."""
    return list(csv.DictReader(io.StringIO(text)))


def words_of(row: dict[str, str], uses: int, conf: dict[str, Any], languages: Sequence[Language],
             paper: Paper) -> tuple[Words, ...]:
    """What each voucher of a batch says: they are of one plan and one day."""
    hundredths = int(row["price"].replace(".", ""))
    day = datetime.date.fromisoformat(row["expires"][:10])
    currency = conf.get("currency", "")
    return tuple(Words(language, worth(language, row, uses), language.money(hundredths, currency),
                       language.day(day) if paper.is_label else language.long_day(day))
                 for language in languages)


def bars_of(codes: Sequence[str], conf: dict[str, Any], paper: Paper) -> list[Picture]:
    """Each code as Code 128, where the venue wants that; else nothing. Raises NoBars."""
    if not conf.get("voucher_barcode"):
        return []
    high = 5.0 if paper.is_label else 8.0
    return [bars_picture(line, paper.bar, high, paper.is_narrow)
            for line in bars([plain_code(code) for code in codes])]


def code_picture(code: str, conf: dict[str, Any], paper: Paper) -> Picture:
    """The QR code of a voucher opens the portal page with the code filled in; it redeems nothing by
    itself."""
    address = conf["portal_url"] + "?" + urllib.parse.urlencode({"code": code})
    return qr_picture(address, paper.module, paper.least)


def sheet_of(batch: str, listed: list[dict[str, str]], words: tuple[Words, ...], conf: dict[str, Any],
             paper: Paper) -> Sheet:
    """The sheet of a batch. Without bars that cannot be made vouchers are printed all the same."""
    codes, fault = [row["code"] for row in listed], ""
    lines: list[Picture] = []
    try:
        lines = bars_of(codes, conf, paper)
    except NoBars as why:
        fault = str(why)
    made = [Voucher(code, place, code_picture(code, conf, paper), line, words)
            for place, (code, line) in enumerate(itertools.zip_longest(codes, lines), 1)]
    name, password = conf.get("wifi", ""), conf.get("wifi_password", "")
    if not name:
        return Sheet(batch, paper, made, fault=fault)
    wifi = qr_picture(wifi_text(name, password), paper.module, paper.least)
    most = max((voucher.picture.wide for voucher in made), default=0)
    fits = paper.has_room_for_wifi(len(words), bool(lines), len(name + password), most)
    return Sheet(batch, paper, made, wifi if fits else None, not fits, fault)
