"""The catalogues of messages, held against the sources.

    catalogues check        says what is missing, unused or fuzzy; status 1 where something is
    catalogues update       brings new messages into each catalogue, without words, and takes out those that
    nothing uses
"""

from __future__ import annotations

import argparse
import io
import pathlib
import re
from collections.abc import Iterator

from babel.messages.catalog import Catalog, Message
from babel.messages.extract import extract
from babel.messages.pofile import read_po, write_po

from portal_field import KIT
from portal_field.lib.language_names import COUNTER, GUESTS
from portal_field.lib.languages import CATALOGUES

# Where the messages of a domain stand, and the functions that mark them there.
SAYS = {"_": None, "say": None, "say_plural": (1, 2)}
DOMAINS = {"guests": GUESTS, "counter": COUNTER}
SOURCES = {
    "guests": (("portal_field/guests/*.py", SAYS | {"guest_words": None}),
               ("portal_field/lib/refusals.py", {"guest_words": None}),
               ("portal_field/lib/error_pages.py", {"guest_words": None}),
               ("portal_field/lib/guest_refusals.py", {"guest_words": None}),
               ("portal_field/counter/sheet.py", {"say_plural": (1, 2)}),
               ("portal_field/guests/templates/*.html", SAYS),
               ("portal_field/counter/printing.py", SAYS),
               ("portal_field/counter/templates/voucher_*.html", SAYS)),
    "counter": (("portal_field/counter/page.py", SAYS | {"clerk_words": None}),
                ("portal_field/counter/clerk.py", SAYS | {"clerk_words": None}),
                ("portal_field/counter/offers.py", SAYS),
                ("portal_field/counter/takings.py", SAYS | {"clerk_words": None}),
                ("portal_field/counter/figures.py", SAYS | {"clerk_words": None}),
                ("portal_field/counter/report.py", SAYS | {"clerk_words": None}),
                ("portal_field/counter/labels.py", {"clerk_words": None}),
                ("portal_field/lib/refusals.py", {"clerk_words": None}),
                ("portal_field/counter/templates/[!v]*.html", SAYS),
                ("portal_field/counter/templates/voucher.html", SAYS),
                ("portal_field/counter/templates/venue.html", SAYS),
                ("portal_field/counter/templates/vouchers.html", SAYS),
                ("portal_field/counter/repetition.py", SAYS | {"clerk_words": None}),
                ("portal_field/counter/scans.py", {"clerk_words": None}),
                ("portal_field/counter/several.py", SAYS),
                ("portal_field/counter/troubles.py", SAYS),
                ("portal_field/counter/silent_reasons.py", {"clerk_words": None}),
                ("portal_field/counter/fields.py", SAYS | {"clerk_words": None}),
                ("portal_field/lib/error_pages.py", {"clerk_words": None}),
                ("portal_field/counter/made_good.py", SAYS),
                ("portal_field/counter/lost.py", SAYS),
                ("portal_field/counter/entrance.py", SAYS),
                ("portal_field/counter/own_account.py", SAYS | {"clerk_words": None}),
                ("portal_field/counter/payments.py", SAYS | {"clerk_words": None}),
                ("portal_field/counter/*_pages.py", SAYS | {"clerk_words": None}),
                ("portal_field/counter/receipt_text.py", SAYS),
                ("portal_field/counter/clerks.py", SAYS | {"clerk_words": None}),
                ("portal_field/counter/payment_sums.py", SAYS | {"clerk_words": None}),
                ("portal_field/counter/setting_files.py", SAYS | {"clerk_words": None}),
                ("portal_field/guests/prices.py", {"say_plural": (1, 2)}),
                ("portal_field/counter/reasons.py", SAYS),
                ("portal_field/counter/redemptions.py", SAYS),
                ("portal_field/counter/confirmation.py", SAYS)),
}
HEAD = """msgid ""
msgstr ""
"Language: {tag}\\n"
"Content-Type: text/plain; charset=utf-8\\n"
"Plural-Forms: {plurals}\\n"

"""
VALUES = re.compile(r"%\((\w+)\)s")


def template(domain: str) -> Catalog:
    """The catalogue of all messages in the sources of a domain, without translations."""
    catalog = Catalog(domain=domain, charset="utf-8")
    for pattern, marks in SOURCES[domain]:
        for path in sorted(KIT.glob(pattern)):
            method = "jinja2.ext:babel_extract" if path.suffix == ".html" else "python"
            options = {"trimmed": "true", "silent": "false", "encoding": "utf-8"}
            with open(path, "rb") as file:
                for _, message, _, _ in extract(method, file, marks, (), options):
                    catalog.add(message, locations=[(str(path.relative_to(KIT)), 0)])
    return catalog


def path_of(domain: str, tag: str) -> pathlib.Path:
    """The file of a catalogue."""
    return CATALOGUES / domain / f"{tag}.po"


def read_catalogue(domain: str, tag: str) -> Catalog:
    """The catalogue of a language."""
    with open(path_of(domain, tag), "rb") as file:
        return read_po(file, locale=tag.replace("-", "_"))


def texts(words: str | tuple[str, ...] | list[str]) -> list[str]:
    """A message or its plural forms, as a list."""
    return [words] if isinstance(words, str) else list(words)


def faults_of(message: Message, plurals: int) -> Iterator[str]:
    """What is wrong with one translation."""
    translations, source = texts(message.string), texts(message.id)
    if not all(translations) or len(translations) != (plurals if len(source) == 2 else 1):
        yield "is missing"
        return
    if message.fuzzy:
        yield "is fuzzy"
    values = set(VALUES.findall(source[0])) - {"num"}
    if any(set(VALUES.findall(text)) - {"num"} != values for text in translations):
        yield "has other values than the source"


def faults(domain: str, tag: str) -> list[str]:
    """What is missing, unused, fuzzy or of other values in a catalogue."""
    wanted, have = template(domain), read_catalogue(domain, tag)
    lines = [f"{message.id!r} is missing" for message in wanted if message.id and message.id not in have]
    for message in have:
        if message.id and message.id not in wanted:
            lines.append(f"{message.id!r} is not used")
        elif message.id:
            lines += [f"{message.id!r} {what}" for what in faults_of(message, have.num_plurals)]
    lines += [f"{message.id!r} is not used" for message in have.obsolete.values()]
    return [f"{domain}/{tag}.po: {line}" for line in lines]


def update(domain: str, tag: str) -> None:
    """Brings the messages of the sources into a catalogue."""
    path, wanted = path_of(domain, tag), template(domain)
    have = read_catalogue(domain, tag) if path.exists() else Catalog(
        locale=tag.replace("-", "_"), domain=domain, fuzzy=False)
    have.update(wanted, no_fuzzy_matching=True)
    have.obsolete.clear()
    path.parent.mkdir(exist_ok=True)
    body = io.BytesIO()
    write_po(body, have, width=110, no_location=True, omit_header=True)
    path.write_text(HEAD.format(tag=tag, plurals=have.plural_forms) + body.getvalue().decode())


def main() -> int:
    """Checks all catalogues, or updates them; 1 where something is missing."""
    words = argparse.ArgumentParser(description="The catalogues of messages, held against the sources.")
    words.add_argument("what", choices=("check", "update"))
    args, entries = words.parse_args(), []
    for domain, tags in DOMAINS.items():
        for tag in tags:
            if tag != "en":
                if args.what == "update":
                    update(domain, tag)
                entries += faults(domain, tag)
    print("\n".join(entries) if entries else "every catalogue is complete")
    return int(bool(entries) and args.what == "check")
