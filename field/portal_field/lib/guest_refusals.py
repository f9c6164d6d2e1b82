"""A refusal as a guest reads it; of a text that is no code, what is wrong with it."""

from __future__ import annotations

from portal_field.lib.languages import Language
from portal_field.lib.message_marks import guest_words
from portal_field.lib.refusals import Refusal
from portal_field.lib.typed_codes import LONG, SHORT

UNLIKE_A_CODE = "01OIL"
FOREIGN = guest_words("A code has Latin letters, A to Z, and digits. Please change your keyboard to Latin "
                      "letters.")
MISREAD = guest_words("There is no %(signs)s in a code. Please look again: what looks like 0 or O may be a "
                      "D, G or Q, and what looks like 1, I or L a 7, J or T.")
FEW = guest_words("%(count)s of 16 signs: please look at your voucher for what is missing.")
MANY = guest_words("%(count)s signs, and a code has 16: please compare it with your voucher.")


def fault_of_code(code: str, language: Language) -> str:
    """What is wrong with a plain code that the server took for none; empty where no more can be said."""
    if not code.isascii():
        return language.say(FOREIGN)
    if signs := [sign for sign in UNLIKE_A_CODE if sign in code]:
        return language.say(MISREAD, signs=", ".join(signs))
    if not code or len(code) in (SHORT, LONG):
        return ""
    return language.say(FEW if len(code) < LONG else MANY, count=language.number(len(code)))


def refusal_text(refusal: Refusal, language: Language, code: str = "", **values: str) -> str:
    """A refusal, of this plain code or with these values, as a guest reads it."""
    text = fault_of_code(code, language) if refusal.word == "bad_code" else ""
    return text or language.say(refusal.for_guest, word=refusal.word, **values)
