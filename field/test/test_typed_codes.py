"""Codes as people type them at each kind of keyboard, and what a guest reads of a text that is no code."""

from __future__ import annotations

import hashlib
import random
import re
import unittest

from portal_field.lib.guest_refusals import refusal_text
from portal_field.lib.languages import Language
from portal_field.lib.one_use import number_of
from portal_field.lib.refusals import of_word
from portal_field.lib.typed_codes import WHOLE, plain_code, scanned_code, without_codes

MAC, CODE, OLD = "02:00:00:00:00:01", "3N55-WA4S-KH5V-JR49", "DUX8-A3EQ-UBN7"
PLAIN = CODE.replace("-", "")
# By keyboard: what it writes for the code.
KEYBOARDS = (
    ("English", "3n55-wa4s-kh5v-jr49"), ("English, blanks at both ends", " 3N55 WA4S KH5V JR49 "), ("without breaks", "3n55wa4skh5vjr49"),
    ("a phone's dashes", "3N55\u2013WA4S\u2014KH5V\u2011JR49"), ("no-break blanks", "3N55\u00a0WA4S\u202fKH5V\u2007JR49"),
    ("a phone that ends a sentence", "3N55-WA4S-KH5V-JR49."), ("points", "3N55.WA4S.KH5V.JR49"), ("underscores", "3N55_WA4S_KH5V_JR49"),
    ("slashes", "3N55/WA4S/KH5V/JR49"), ("lines", "3N55-WA4S\r\nKH5V-JR49"), ("quotes", "\u201e3N55-WA4S-KH5V-JR49\u201c"),
    ("Japanese, full width", "ＷＡ４Ｓ".join(("３Ｎ５５－", "－ＫＨ５Ｖ－ＪＲ４９"))), ("Japanese, small", "３ｎ５５ーｗａ４ｓーｋｈ５ｖーｊｒ４９"),
    ("Japanese, half-width long mark", "3N55ｰWA4SｰKH5VｰJR49"), ("Chinese", "３Ｎ５５　ＷＡ４Ｓ　ＫＨ５Ｖ　ＪＲ４９。"), ("Korean", "3N55－WA4S－KH5V－JR49"),
    ("Arabic digits", "٣N٥٥-WA٤S-KH٥V-JR٤٩"), ("Persian digits", "۳N۵۵-WA۴S-KH۵V-JR۴۹"), ("Arabic, stretched", "3N55ـWA4SـKH5VـJR49"),
    ("with marks of direction", "\u200e3N55-WA4S\u200f-KH5V-JR49\u202c"), ("with a blank of no width", "3N55\u200bWA4S\u2060KH5V\ufeffJR49"),
    ("Hindi digits", "३N५५-WA४S-KH५V-JR४९"), ("signs in circles", "③Ⓝ⑤⑤-ⓌⒶ④Ⓢ-ⓀⒽ⑤Ⓥ-ⒿⓇ④⑨"),
    ("an address", "https://wifi.example/portal?code=3N55-WA4S-KH5V-JR49"), ("without its scheme", "wifi.example/portal?lang=ja&code=3n55wa4skh5vjr49#x"),
    ("in upper case", "HTTPS://WIFI.EXAMPLE/PORTAL?CODE=3N55-WA4S-KH5V-JR49"), ("encoded", "https://wifi.example/portal?code=3N55%20WA4S+KH5V%2DJR49&lang=de"),
    ("two in one", "https://wifi.example/portal?code=2222&code=3N55-WA4S-KH5V-JR49"),
    ("an address in full width", "ｈｔｔｐｓ：／／ｗｉｆｉ．ｅｘａｍｐｌｅ／ｐｏｒｔａｌ？ｃｏｄｅ＝３Ｎ５５－ＷＡ４Ｓ－ＫＨ５Ｖ－ＪＲ４９"))
# What a guest typed, and the beginning of what is said of it.
FAULTS = (
    ("3N55-WA4S-KH5V-JR4", "15 of 16 signs"), ("3N55", "4 of 16 signs"), ("3N55-WA4S-KH5V-JR499", "17 signs, and a code has 16"),
    ("https://wifi.example/portal?code=3N55-WA", "6 of 16 signs"), ("0N55-WA4S-KH5V-JR49", "There is no 0 in a code"),
    ("３Ｎ５５－ＷＡ４Ｓ－ＫＨ５Ｖ－ＪＲＯ１", "There is no 1, O in a code"), ("3N55-WA4S-KH5V-JRl", "There is no L in a code"),
    ("3Т55-WA4S-KH5V-JR49", "A code has Latin letters"), ("ㅂㅈㄷ", "A code has Latin letters"), ("3N55-WA4S-KH5V-JR48", "That is no code of ours"),
    ("DUX8-A3EQ-UBN8", "That is no code of ours"), ("...", "That is no code of ours"), ("", "That is no code of ours"))
TODAY = re.compile(r"[\s\u2010-\u2015-]+")


def read_before(text: str) -> str:
    """A code as version 1.0.0 reads it."""
    return "".join(sign.upper() if sign.isascii() else sign for sign in TODAY.sub("", text))


class Typed(unittest.TestCase):
    def test_a_code_typed_at_any_keyboard_is_the_code(self) -> None:
        self.assertEqual([(name, plain_code(text)) for name, text in KEYBOARDS], [(name, PLAIN) for name, _ in KEYBOARDS])
        for name, text in KEYBOARDS:
            self.assertEqual((plain_code(plain_code(text)), scanned_code(text)), (PLAIN, CODE), name)

    def test_letters_of_other_scripts_stay(self) -> None:
        """They are no signs of a code, and none is taken for another one that looks so."""
        for text in ("ß", "Т", "ñ", "ı", "İ", "한", "あ", "中"):
            self.assertEqual(plain_code(f"3N-{text}"), f"3N{text}")
        self.assertEqual(scanned_code(" what is no code? "), " what is no code? ")

    def test_a_code_that_was_read_before_keeps_its_key(self) -> None:
        """Version 1.0.0 made the key so: a form in doubt that it showed is sent again after an upgrade."""
        draw = random.Random(20_260_000)
        breaks = ("", " ", "-", "\u2013", "\u2014", "\u2011", "\u00a0", "\t", "\u3000", " - ")
        for code in (CODE, OLD, *("-".join("".join(draw.choices("23456789ABCDEFGHJKMNPQRSTUVWXYZ", k=4)) for _ in range(4)) for _ in range(500))):
            text = "".join(draw.choice((sign.upper(), sign.lower())) + draw.choice(breaks) for sign in code.replace("-", ""))
            self.assertTrue(WHOLE.fullmatch(read_before(text)))
            before = hashlib.sha256(f"{MAC} {read_before(text)} 1".encode()).hexdigest()[:36]
            self.assertEqual(number_of(MAC, text, 1), before, text)
        self.assertEqual(number_of(MAC, "3n55 wa4s kh5v jr49", 0), hashlib.sha256(
            b"02:00:00:00:00:01 3N55WA4SKH5VJR49 0").hexdigest()[:36])

    def test_what_is_no_code_is_said_by_its_fault(self) -> None:
        english, refusal = Language("en"), of_word("bad_code")
        for text, words in FAULTS:
            self.assertTrue(refusal_text(refusal, english, plain_code(text)).startswith(words),
                            (text, refusal_text(refusal, english, plain_code(text))))
        self.assertIn("We do not know this code.", refusal_text(of_word("unknown_code"), english, "3N55"))

    def test_no_spelling_of_a_code_is_in_a_log(self) -> None:
        for name, text in KEYBOARDS:
            if "digits" not in name and name != "encoded":      # which no scanner or keyboard of a counter writes
                self.assertIn("(a code)", without_codes(f"sell {text}"), name)


if __name__ == "__main__":
    unittest.main()
