"""Makes a PDF of a sheet of vouchers, by WeasyPrint: HTML on the standard input, PDF on the standard output.

systemd starts one for each connection to its socket, which the counter's page alone may open. It knows no
address but those of the sheet's style and fonts, and pictures that are in the HTML itself. A page with an
element whose id begins with `end-` is as long as what is before it, as paper on a roll is.
"""

from __future__ import annotations

import base64
import pathlib
import re
import sys
from typing import Any

import weasyprint

from portal_field import KIT

FONTS = pathlib.Path("/usr/share/fonts/truetype/dejavu")
FONT = re.compile(r"/fonts/(DejaVuSans(?:Condensed|Mono)?(?:-Bold)?\.ttf)")
PICTURE = re.compile(r"data:(image/(?:png|jpeg|svg\+xml));base64,([A-Za-z0-9+/=]*)")
BASE = "portal://sheet"
MOST = 16 * 2**20       # bytes of HTML
# Paper on a roll is cut where the text ends.
ROLL = "@page receipt80 { size: 80mm 2000mm !important } @page receipt58 { size: 58mm 2000mm !important }"
POINTS = 96 / 25.4      # of CSS in a millimetre
FOOT = 4.0              # millimetres of white below the text of a roll


class Refused(Exception):
    """An address that a sheet does not need."""


def fetch(url: str) -> dict[str, Any]:
    """What is at an address of a sheet. Raises Refused, which WeasyPrint takes as: it is not there."""
    if picture := PICTURE.fullmatch(url):
        return {"string": base64.b64decode(picture[2]), "mime_type": picture[1]}
    path = url.removeprefix(BASE)
    if path == "/sheet.css":
        return {"string": (KIT / "counter/sheet.css").read_bytes(), "mime_type": "text/css"}
    if font := FONT.fullmatch(path):
        return {"string": (FONTS / font[1]).read_bytes(), "mime_type": "font/ttf"}
    raise Refused("no sheet needs this address")


def pdf_of(html: str) -> bytes:
    """A sheet as PDF."""
    page = weasyprint.HTML(string=html, base_url=BASE, url_fetcher=fetch)
    document = page.render(stylesheets=[weasyprint.CSS(string=ROLL)])
    for part in document.pages:
        ends = [y for name, (_, y) in part.anchors.items() if name.startswith("end-")]
        if ends:
            part.height = max(ends) + FOOT * POINTS
    return bytes(document.write_pdf())


def main() -> int:
    """One sheet. Nothing is written where it cannot be made; what it was is not said, since it has codes."""
    data = sys.stdin.buffer.read(MOST + 1)
    if len(data) > MOST:
        print("paper: a sheet of more than 16 MiB", file=sys.stderr, flush=True)
        return 1
    sys.stdout.buffer.write(pdf_of(data.decode()))
    sys.stdout.buffer.flush()
    return 0


if __name__ == "__main__":
    sys.exit(main())
