"""Codes as pictures: QR codes by libqrencode, and Code 128 by zint, as SVG of a size in millimetres."""

from __future__ import annotations

import base64
import io
import re
import shutil
import subprocess
from collections.abc import Sequence
from dataclasses import dataclass

import markupsafe
import qrencode
from PIL import Image

# Modules of white around a QR code (ISO 18004), and beside bars, where the paper's own margin gives the rest
# of the ten of ISO 15417
QUIET, QUIET_BESIDE_BARS = 4, 4
PIXELS = 4
ZINT, LIMIT = "zint", 20        # seconds
DARK = re.compile(rb"\x00+")


class NoBars(Exception):
    """Why there are no bars: zint is not installed, or failed."""


@dataclass(frozen=True)
class Picture:
    """Dark modules on white, as rows of bytes of which 0 is dark. A module in millimetres."""
    wide: int
    high: int
    dark: bytes
    module: float
    tall: int = 1       # modules that each row is high
    is_filled: bool = False     # bars, whose width counts to a part of a module

    @property
    def size(self) -> str:
        """Width and height as attributes."""
        return f'width="{self.wide * self.module:.2f}mm" height="{self.high * self.tall * self.module:.2f}mm"'

    def svg(self) -> markupsafe.Markup:
        """For a page: SVG without attributes of style."""
        return markupsafe.Markup(f'<svg {self.size} viewBox="0 0 {self.wide} {self.high * self.tall}">'
                                 f'{self.filled() if self.is_filled else self.lines()}</svg>')

    def runs(self, y: int) -> list[tuple[int, int]]:
        """Where dark modules of a row begin and end."""
        first = y * self.wide
        return [(run.start() - first, run.end() - first)
                for run in DARK.finditer(self.dark, first, first + self.wide)]

    def lines(self) -> str:
        """A path of a line with gaps for each row, which is half as long as one of rectangles."""
        parts = []
        for y in range(self.high):
            at = -1
            for start, end in self.runs(y):
                parts.append(f"M{start} {y}.5h{end - start}" if at < 0 else f"m{start - at} 0h{end - start}")
                at = end
        return f'<path stroke="#000" d="{"".join(parts)}"/>'

    def filled(self) -> str:
        """A path of rectangles, whose edges a printer leaves where they are."""
        parts = [f"M{start} {y * self.tall}h{end - start}v{self.tall}h{start - end}z"
                 for y in range(self.high) for start, end in self.runs(y)]
        return f'<path d="{"".join(parts)}"/>'

    def image(self) -> markupsafe.Markup:
        """For a PDF, which is made of them in a third of the time: so many pixels to a module that what a
        printer does between them is narrow."""
        out, size = io.BytesIO(), (self.wide * PIXELS, self.high * PIXELS)
        made = Image.frombytes("L", (self.wide, self.high), self.dark).resize(size, Image.NEAREST)
        made.convert("1", dither=0).save(out, "PNG")
        wide, high = (f"{size * self.module:.2f}mm" for size in (self.wide, self.high * self.tall))
        text = base64.b64encode(out.getvalue()).decode()
        return markupsafe.Markup(f'<img src="data:image/png;base64,{text}" '
                                 f'style="width:{wide};height:{high}" alt="">')


def with_margins(rows: Sequence[bytes], across: int, along: int) -> bytes:
    """Rows with so many white modules at their sides, and so many white rows above and below."""
    side = b"\xff" * across
    lines = [side + row + side for row in rows]
    blank = b"\xff" * len(lines[0])
    return b"".join([*[blank] * along, *lines, *[blank] * along])


def qr_picture(text: str, module: float = 1.0, least: float = 0.0) -> Picture:
    """A QR code, with the white around it; its modules are larger where it would not be so wide, in
    millimetres. Its error correction is M."""
    _, size, image = qrencode.encode(text, level=qrencode.QR_ECLEVEL_M)
    dark, wide = image.tobytes(), size + 2 * QUIET
    rows = [dark[at:at + size] for at in range(0, len(dark), size)]
    return Picture(wide, wide, with_margins(rows, QUIET, QUIET), max(module, least / wide))


def has_zint() -> bool:
    """Whether the program that makes bars is there."""
    return shutil.which(ZINT) is not None


def bars(texts: Sequence[str]) -> list[str]:
    """Each text as Code 128: a string of 0 and 1, from bar to bar. One call of zint for all. Raises
    NoBars."""
    if not texts:
        return []
    try:
        done = subprocess.run([ZINT, "--barcode=CODE128", "--batch", "--dump", "--input=-"],
                              input="".join(f"{text}\n" for text in texts), capture_output=True, text=True,
                              timeout=LIMIT, check=True)
    except (OSError, subprocess.SubprocessError) as fault:
        raise NoBars(str(fault)) from fault
    lines = [bin(int("1" + line.replace(" ", ""), 16))[3:].rstrip("0") for line in done.stdout.splitlines()]
    if len(lines) != len(texts):
        raise NoBars(f"zint made {len(lines)} of {len(texts)}")
    return lines


def bars_picture(line: str, module: float, high: float, is_upright: bool = False) -> Picture:
    """Bars, so many millimetres high. Upright: from top to bottom, as on narrow paper."""
    modules = bytes(0 if sign == "1" else 255 for sign in line)
    modules_high = round(high / module)
    if is_upright:
        dark = with_margins([bytes([sign]) * modules_high for sign in modules], 0, QUIET_BESIDE_BARS)
        return Picture(modules_high, len(line) + 2 * QUIET_BESIDE_BARS, dark, module, is_filled=True)
    dark = with_margins([modules], QUIET_BESIDE_BARS, 0)
    return Picture(len(dark), 1, dark, module, modules_high, is_filled=True)
