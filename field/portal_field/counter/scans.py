"""What a scanner or a clerk writes into a field for codes: a voucher's code, or what is recognised as
something else."""

from __future__ import annotations

import re

from portal_field.lib.message_marks import clerk_words
from portal_field.lib.typed_codes import (
    DEVICE, WHOLE, field_of_address, in_fours, piece_beside, plain_code, scanned_code)

WIFI = re.compile(r"wifi:", re.I)
# A colon is a sign of its own on each keyboard: "http" and "wifi" come with another one behind them.
OTHER_COLON = re.compile(r"(?:https?|wifi)(?!:)[^a-z0-9\s]", re.I)
# A hyphen of the American layout is a German ß, one of the German layout an American slash.
OTHER_HYPHEN = re.compile(r"[0-9a-z]{4}([ßẞ/])[0-9a-z]{4}\1[0-9a-z]{4}(?:\1[0-9a-z]{4})?", re.I)
LONGEST_LINE = 24       # signs of what is no whole code, as a line of a list has it
WORDS = {
    "wifi": (clerk_words("This is the Wi-Fi's QR code, number 1 on the voucher."),
             clerk_words("Scan the one with the number 2.")),
    "layout": (clerk_words("The scanner writes for another keyboard than this computer has."),
               clerk_words("Set the keyboard layout of the scanner: Venue, Test a scanner.")),
    "address": (clerk_words("This is an address, and no voucher's code is in it."),
                clerk_words("Scan the QR code with the number 2, or type the code."))}

# What a scanner is tested with: the signs that keyboards have at different places, in both cases.
TEST_TEXT = "https://test.example/?code=YZ-yz&q=A_09"
GOOD = (clerk_words("The scanner is set right."), clerk_words("It sent each sign and Enter."))
TWICE = (clerk_words("Enter came twice, or was pressed by hand."),
         clerk_words("If the scanner sent it: set its suffix to one Enter (CR), and not CR LF."))
LOCKED = (clerk_words("Upper and lower case are the wrong way round."),
          clerk_words("Switch the keyboard's Caps Lock off, or set the scanner to ignore it."))
LONGER = (clerk_words("The scanner writes more than the code."),
          clerk_words("Set it to no prefix, and to one Enter (CR) as its suffix."))
OTHER = (clerk_words("That was not the picture of this page, or signs are missing."),
         clerk_words("Hold the scanner nearer to it, and scan it again."))


class NoCode(Exception):
    """What was scanned is no code. `kind`: which of `WORDS`. What it says may be a password: it is shown
    nowhere."""

    def __init__(self, kind: str) -> None:
        super().__init__(kind)
        self.kind = kind


def kind_of(text: str) -> str:
    """Which of `WORDS` a text is; empty where it may be a code."""
    text = text.strip()
    if WIFI.match(text):
        return "wifi"
    if OTHER_COLON.match(text) or OTHER_HYPHEN.fullmatch(text):
        return "layout"
    return "address" if "://" in text and not field_of_address(text) else ""


def code_in(text: str, kept: str = "") -> str:
    """The code in what was scanned into a field, which still held what was `kept` of a refusal. What is none,
    as a device, stays as it was typed. Raises NoCode."""
    scanned = piece_beside(text, kept)
    if DEVICE.fullmatch(scanned.strip()):
        return scanned.strip()
    if kind := kind_of(scanned):
        raise NoCode(kind)
    return scanned_code(scanned)


def tested(text: str) -> tuple[str, str]:
    """What a scan of `TEST_TEXT` says of the scanner: what is wrong, and what to do."""
    text = text.strip()
    if text == TEST_TEXT:
        return GOOD
    if not text:
        return TWICE
    if text.swapcase() == TEST_TEXT:
        return LOCKED
    if TEST_TEXT in text:
        return LONGER
    return WORDS[kind_of(text)] if kind_of(text) in ("layout", "wifi") else OTHER


def line_of(code: str) -> str:
    """A code as a line of a list has it, without blanks: the same code scanned twice is the same line. No
    line is empty."""
    plain = plain_code(code)
    if WHOLE.fullmatch(plain):
        return in_fours(plain)
    return "".join(sign if sign.isascii() else "." for sign in plain[:LONGEST_LINE]) or "."
