"""Sheets as pages, and as PDF that the unit `portal-paper` makes."""

from __future__ import annotations

import base64
import functools
import pathlib
import socket
from collections.abc import Callable
from typing import Any

import flask
import markupsafe

from portal_field.counter.clerk import Counter
from portal_field.counter.pictures import Picture
from portal_field.counter.sheet import Sheet, Words

SOCKET = "/run/portal-paper/socket"
LIMIT = 100.0       # seconds for a PDF; nginx waits for longer
TYPES = {".svg": "image/svg+xml", ".png": "image/png", ".jpg": "image/jpeg"}
Drawn = Callable[[Picture], markupsafe.Markup]


class NoPdf(Exception):
    """Why no PDF was made."""


def values(counter: Counter, sheet: Sheet, logo: str = "/logo", drawn: Drawn = Picture.svg) -> dict[str, Any]:
    """What the templates of a sheet need. `logo`: the address of the venue's picture. `drawn`: how a
    picture of a code stands in the text."""
    is_label, words = sheet.paper.is_label, sheet.vouchers[0].words if sheet.vouchers else ()
    first = words[0].language if words else counter.language
    passwords = list(dict.fromkeys(w.language.say("Password:") for w in words))

    def text(template: str, **more: Any) -> markupsafe.Markup:
        """A part that is the same for many vouchers, so it is made once."""
        made = flask.render_template(template, conf=counter.conf, is_label=is_label, **more)
        return markupsafe.Markup(made.strip())

    @functools.cache
    def text_of(words: tuple[Words, ...]) -> markupsafe.Markup:
        """The words of a voucher, which those of a batch share."""
        return text("voucher_words.html", words=words)

    return {"sheet": sheet, "text_of": text_of, "first": first, "logo": logo if counter.logo else "",
            "drawn": drawn, "wifi_picture": drawn(sheet.wifi) if sheet.wifi else "",
            "wifi": text("voucher_wifi.html", first=first, passwords=passwords)}


def door_of(conf: dict[str, Any]) -> pathlib.Path:
    """The socket of the unit that makes a PDF, which is there where WeasyPrint is installed."""
    return pathlib.Path(conf.get("paper", SOCKET))


def can_print(conf: dict[str, Any]) -> bool:
    """Whether there is a unit that makes a PDF; else the page itself is printed."""
    return door_of(conf).is_socket()


def logo_of(counter: Counter) -> str:
    """The venue's picture as an address that holds it, since the unit reads no file of the venue."""
    if not counter.logo:
        return ""
    text = base64.b64encode(counter.logo.read_bytes()).decode()
    return f"data:{TYPES.get(counter.logo.suffix, 'image/png')};base64,{text}"


def document(counter: Counter, sheet: Sheet) -> str:
    """A sheet as HTML of its own."""
    return flask.render_template("paper.html", language=counter.language, conf=counter.conf,
                                 **values(counter, sheet, logo_of(counter), Picture.image))


def pdf(counter: Counter, sheet: Sheet) -> bytes:
    """A sheet as PDF. Raises NoPdf."""
    parts = []
    try:
        html = document(counter, sheet).encode()
        with socket.socket(socket.AF_UNIX) as link:
            link.settimeout(LIMIT)
            link.connect(str(door_of(counter.conf)))
            link.sendall(html)
            link.shutdown(socket.SHUT_WR)
            while part := link.recv(1 << 16):
                parts.append(part)
    except OSError as fault:
        raise NoPdf(str(fault)) from fault
    data = b"".join(parts)
    if not data.startswith(b"%PDF-") or b"%%EOF" not in data[-16:]:
        raise NoPdf(f"an answer of {len(data)} bytes")
    return data
