"""Languages: the catalogues of messages, and numbers, times, volumes and money as each language writes them
(CLDR).

A catalogue is a file of gettext, languages/DOMAIN/TAG.po; the messages in the sources are the English ones.
It is compiled in memory once it is needed; a package has the compiled files, TAG.mo. Domains: `guests` (the
portal page, nginx's answers, vouchers), and `counter`.
"""

from __future__ import annotations

import datetime
import functools
import gettext
import io
import re
from collections.abc import Iterable
from decimal import Decimal

from babel import Locale
from babel.dates import format_date, format_datetime, format_skeleton
from babel.lists import format_list
from babel.messages.mofile import write_mo
from babel.messages.pofile import read_po
from babel.numbers import format_currency, format_decimal, format_percent, get_currency_precision
from babel.units import format_unit

from portal_field import KIT
from portal_field.lib import local_time
from portal_field.lib.language_names import GUESTS

CATALOGUES = KIT / "languages"
SPANS = (("day", 86_400, "hour", 3_600), ("hour", 3_600, "minute", 60), ("minute", 60, "", 0))
VOLUMES = (("gigabyte", 10**9), ("megabyte", 10**6), ("kilobyte", 10**3))
TRADITIONAL = {"hant", "tw", "hk", "mo"}
LETTER_BEFORE_DIGIT = re.compile(r"(?<=[^\W\d_])(?=\d)")
SHARP = {"en": "y-MM-dd"}       # how clerks read a day; else as CLDR has it


def of_ours(tag: str) -> str:
    """Our tag of the language that a browser names; nothing where there is none. The first part counts: pt-BR
    is pt. Chinese is traditional by its script or else by its place."""
    first, *rest = tag.lower().split("-")
    if first == "zh":
        return "zh-Hant" if "hans" not in rest and TRADITIONAL.intersection(rest) else "zh-Hans"
    return first if first in GUESTS else ""


def preferred_language(accepted: Iterable[tuple[str, float]], *choices: str) -> str:
    """The tag of the first choice that is one of ours, or else of the first language that is accepted;
    English where there is none."""
    chosen = next((choice for choice in choices if choice in GUESTS), "")
    wanted = (found for tag, quality in accepted if quality > 0 and (found := of_ours(tag)))
    return chosen or next(wanted, "en")


@functools.cache
def catalogue(tag: str, domain: str) -> gettext.NullTranslations:
    """The messages of a domain in a language, read once."""
    if tag == "en":
        return gettext.NullTranslations()
    source = CATALOGUES / domain / f"{tag}.po"
    if not source.exists():
        with source.with_suffix(".mo").open("rb") as file:
            return gettext.GNUTranslations(file)
    compiled = io.BytesIO()
    with source.open("rb") as file:
        write_mo(compiled, read_po(file, locale=tag.replace("-", "_")))
    compiled.seek(0)
    return gettext.GNUTranslations(compiled)


class Language:
    """How a page in this language says things."""

    def __init__(self, tag: str, domain: str = "guests") -> None:
        self.tag, self.locale = tag, Locale.parse(tag, sep="-")
        self.direction: str = self.locale.text_direction
        self.catalogue = catalogue(tag, domain)
        self.gettext, self.ngettext = self.catalogue.gettext, self.catalogue.ngettext

    def say(self, text: str, **values: object) -> str:
        """A message in this language, with its values."""
        message = self.gettext(text)
        if self.direction == "rtl":     # a name or an address keeps its own way of writing
            values = {key: f"\u2068{value}\u2069" for key, value in values.items()}
        return message % values if values else message

    def say_plural(self, one: str, many: str, number: int, **values: object) -> str:
        """A message in the plural form of a number."""
        message: dict[str, object] = {"num": self.number(number), **values}
        return self.ngettext(one, many, number) % message

    def number(self, number: int) -> str:
        """A number, as the language writes it."""
        return str(format_decimal(number, locale=self.locale))

    def span(self, seconds: int) -> str:
        """Seconds, cut off to two units: `1 day, 3 hours`, `2 hours, 5 minutes`, `59 minutes`."""
        for unit, size, part, part_size in SPANS:
            if seconds >= size:
                first, rest = divmod(seconds, size)
                parts = [self.unit(first, "duration-" + unit, "long")]
                if part_size and rest >= part_size:
                    parts.append(self.unit(rest // part_size, "duration-" + part, "long"))
                return str(format_list(parts, "unit", locale=self.locale))
        return self.unit(seconds, "duration-second", "long")

    def volume(self, count: int) -> str:
        """Bytes in units of ten, one digit after the point, cut off."""
        for unit, size in VOLUMES:
            if count >= size:
                return self.unit(Decimal(count * 10 // size) / 10, "digital-" + unit, "short", "#,##0.0")
        return self.unit(count, "digital-byte", "long")

    def unit(self, number: int | Decimal, unit: str, length: str, pattern: str | None = None) -> str:
        """A number with its unit."""
        return str(format_unit(number, unit, length, pattern, locale=self.locale))

    def money(self, hundredths: int, currency: str = "") -> str:
        """An amount of money, with the currency's sign where the venue names one (ISO 4217). No hundredth is
        left out."""
        amount = Decimal(hundredths) / 100
        if not currency:
            return str(format_decimal(amount, "#,##0.00", locale=self.locale))
        digits = get_currency_precision(currency) != 0 or hundredths % 100 == 0
        text = str(format_currency(amount, currency, locale=self.locale, currency_digits=digits))
        # A currency without a sign stands as its letters, which a blank keeps apart from the digits (CLDR).
        return LETTER_BEFORE_DIGIT.sub("\N{NO-BREAK SPACE}", text)

    def percent(self, hundredths: int) -> str:
        """Hundredths of a percent, with as many digits after the point as they need."""
        pattern = self.locale.percent_formats[None].pattern.replace("#,##0", "#,##0.##")
        return str(format_percent(Decimal(hundredths) / 10_000, pattern, locale=self.locale))

    def moment(self, at: float) -> str:
        """A local time, to the minute."""
        return f"{self.day(local_time.local(at).date())} {self.clock(at, 'HH:mm')}"

    def clock(self, at: float, pattern: str = "HH:mm:ss") -> str:
        """A local time of day."""
        return str(format_datetime(local_time.local(at).replace(tzinfo=None), pattern, locale=self.locale))

    def until(self, at: float) -> str:
        """A local time to the minute; of another day than today with its date."""
        day, clock = local_time.local(at).date(), self.clock(at, "HH:mm")
        return clock if day == local_time.today() else f"{self.long_day(day)} {clock}"

    def day(self, day: datetime.date) -> str:
        """A day in the short form of the language."""
        return str(format_date(day, SHARP.get(self.tag, "medium"), locale=self.locale))

    def short_day(self, day: datetime.date) -> str:
        """A day without its year, as below a bar."""
        return str(format_skeleton("MMMd", day, locale=self.locale))

    def weekday(self, day: datetime.date) -> str:
        """The day of the week, in short."""
        return str(format_date(day, "ccc", locale=self.locale))

    def month(self, day: datetime.date) -> str:
        """A month by its name, with its year."""
        return str(format_skeleton("yMMMM", day, locale=self.locale))

    def short_month(self, day: datetime.date) -> str:
        """A month without its year, in short."""
        return str(format_date(day, "LLL", locale=self.locale))

    def long_day(self, day: datetime.date) -> str:
        """A day with the name of its month."""
        return str(format_date(day, "long", locale=self.locale))
