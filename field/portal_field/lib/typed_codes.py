"""Codes as people type them, scanners read them, and sheets print them. `plain_code` is the one way in which
the guests' page, the counter and the RADIUS agent read a code."""

from __future__ import annotations

import re
import unicodedata
import urllib.parse

LONGEST_TYPED = 320         # signs that are read: an address with the longest name of a host and a code
SHORT, LONG = 12, 16        # signs of a code of before, and of now
WHOLE = re.compile(r"[2-9A-HJKMNP-Z]{12}(?:[2-9A-HJKMNP-Z]{4})?")     # a plain code, of before or of now
START = re.compile(r"[2-9A-HJKMNP-Z]{4,15}")      # the first signs of a plain code, which find vouchers
# A device, which at the counter may stand in the field of a code. Its twelve signs could be a code of before.
DEVICE = re.compile(r"[0-9a-f]{2}([:-])(?:[0-9a-f]{2}\1){4}[0-9a-f]{2}", re.I)
# One within a text, typed in any way: three or four groups of four signs.
WITHIN = re.compile(r"(?<![0-9A-Za-z])[2-9A-HJKMNP-Za-hjkmnp-z]{4}"
                    r"(?:[\W_\u0640\u30fc]*[2-9A-HJKMNP-Za-hjkmnp-z]{4}){2,3}(?![0-9A-Za-z])")
# The field of an address; a keyboard that is locked to upper case writes its name so, too.
FIELD = re.compile(r"[?&]code=([^&#\s]*)", re.I)


def field_of_address(text: str) -> str | None:
    """The code in a voucher's address, with or without its scheme; None where the text is no address with
    one."""
    found = FIELD.findall(unicodedata.normalize("NFKC", text))
    return urllib.parse.unquote_plus(found[-1]) if found else None


def plain_sign(sign: str) -> str:
    """A sign as it counts in a code: a digit of any script by its value, a Latin letter in upper case,
    another letter as it is. What is neither is nothing, as are signs such as the long mark of Japanese and
    the stretch of Arabic, which keyboards write for a hyphen."""
    kind = unicodedata.category(sign)
    if kind == "Nd":
        return str(unicodedata.decimal(sign))
    if kind[0] not in "LN" or kind == "Lm":
        return ""
    return sign.upper() if sign.isascii() else sign


def plain_code(text: str) -> str:
    """The code in what was typed, pasted or scanned, without breaks, in letters of one width and in upper
    case: the same code typed twice is the same request. Of what is no code the letters and digits are
    left."""
    field = field_of_address(text)
    text = text if field is None else field
    return "".join(map(plain_sign, unicodedata.normalize("NFKC", text)))


def in_fours(code: str) -> str:
    """A plain code as it is printed; the same code once it is sent."""
    return "-".join(code[i:i + 4] for i in range(0, len(code), 4))


def without_codes(text: str) -> str:
    """A text for a log: what may be a code is not in it."""
    return WITHIN.sub("(a code)", unicodedata.normalize("NFKC", text))


def scanned_code(text: str) -> str:
    """The code in what a scanner or a clerk wrote, as it is printed; what is no code as it was written."""
    plain = plain_code(text)
    if WHOLE.fullmatch(plain):
        return in_fours(plain)
    field = field_of_address(text)
    return text if field is None else field


def piece_beside(text: str, kept: str) -> str:
    """What a scanner wrote into a field which still held a refused code, `kept`: before or behind it. What
    completes or corrects the kept code is no whole code by itself. First signs of which no code begins are
    not completed: what is typed before them, where a browser puts the cursor, is something else."""
    for rest in (text.removesuffix(kept), text.removeprefix(kept)):
        if rest != text and WHOLE.fullmatch(plain_code(rest)):
            return rest
    rest, signs = text.removesuffix(kept), plain_code(kept)
    is_start = START.fullmatch(signs) and not WHOLE.fullmatch(signs) and not WHOLE.fullmatch(plain_code(text))
    return rest if rest != text and is_start and START.fullmatch(plain_code(rest)) else text


def scanned_code_beside(text: str, kept: str) -> str:
    """The code that a scanner wrote into a field which still held a refused one, `kept`."""
    return scanned_code(piece_beside(text, kept))
