"""The catalogues of messages, which language a guest gets, and pages in each language."""

from __future__ import annotations

import importlib.machinery
import pathlib
import re
import shutil
import sys
import tempfile
import types
import unittest
from typing import Any

from desk_process import FIELD

from portal_field.lib.error_pages import PAGES, error_pages
from portal_field.lib.language_names import COUNTER, GUESTS
from portal_field.lib.languages import CATALOGUES, Language, preferred_language
from portal_field.settings.venue import COUNTER_LANGUAGES, LANGUAGES

# where a message begins
MARKED = re.compile(r"""\b(_|say|say_plural|clerk_words|guest_words)\(\s*["']""")


def tool(folder: pathlib.Path = FIELD) -> Any:
    """The command that holds catalogues against the sources, as a module over a kit."""
    loader = importlib.machinery.SourceFileLoader("catalogues", str(FIELD / "portal_field/lib/catalogues.py"))
    module: Any = types.ModuleType(loader.name)
    module.__file__ = loader.path
    sys.modules[loader.name] = module
    loader.exec_module(module)
    module.KIT, module.CATALOGUES = folder, folder / "languages"
    return module


class Catalogues(unittest.TestCase):
    def test_every_message_is_in_every_language(self) -> None:
        found = tool()
        for domain, tags in found.DOMAINS.items():
            for tag in tags:
                if tag != "en":
                    self.assertEqual(found.faults(domain, tag), [])

    def test_there_is_a_catalogue_for_each_language_and_no_other(self) -> None:
        for domain, tags in (("guests", GUESTS), ("counter", COUNTER)):
            have = {path.stem for path in (CATALOGUES / domain).iterdir()}
            self.assertEqual(have, set(tags) - {"en"})
        self.assertEqual((LANGUAGES, COUNTER_LANGUAGES), (tuple(GUESTS), tuple(COUNTER)), "as field.toml takes them")

    def test_the_comment_of_field_toml_names_each_language(self) -> None:
        text = (FIELD / "settings/field.toml").read_text()
        named = re.findall(r"(?m)^voucher_languages = .*# one or two of (.*), which", text)
        self.assertEqual([set(words.split()) for words in named], [set(GUESTS)])

    def test_each_page_with_messages_is_one_of_the_sources(self) -> None:
        """Or else what it says stays English in every language."""
        sources = {path for rows in tool().SOURCES.values() for pattern, _ in rows for path in FIELD.glob(pattern)}
        for part in ("counter", "guests"):
            for path in sorted((FIELD / "portal_field" / part).rglob("*.*")):
                if path.suffix in (".py", ".html") and MARKED.search(path.read_text()):
                    self.assertIn(path, sources)

    def test_what_is_missing_unused_fuzzy_or_of_other_values_is_named(self) -> None:
        folder = pathlib.Path(self.enterContext(tempfile.TemporaryDirectory()))
        for part in ("portal_field", "languages"):
            shutil.copytree(FIELD / part, folder / part)
        found, path = tool(folder), folder / "languages/guests/pl.po"
        good, plural = path.read_text(), 'msgstr[2] "Można go użyć jeszcze %(num)s razy."'
        cases = (('msgid "Time left"', '#, fuzzy\nmsgid "Time left"', "is fuzzy"),
                 ('msgstr "Pozostały czas"', 'msgstr ""', "is missing"),
                 (plural, 'msgstr[2] ""', "is missing"), (plural + "\n", "", "is missing"),
                 ('msgid "Time left"', 'msgid "Time right"', "is not used"),
                 ('msgid "Time left"', '#~ msgid "Time then"\n#~ msgstr "x"\n\nmsgid "Time left"', "is not used"),
                 ("(%(word)s). Proszę", "(%(code)s). Proszę", "has other values"))
        self.assertEqual(found.faults("guests", "pl"), [])
        for old, new, result in cases:
            self.assertIn(old, good)
            path.write_text(good.replace(old, new))
            self.assertTrue(any(result in line for line in found.faults("guests", "pl")), (new, found.faults("guests", "pl")))
        path.write_text(good)
        page = folder / "portal_field/guests/templates/portal.html"
        page.write_text(page.read_text().replace('_("Add")', '_("Add it")'))
        self.assertEqual([line.partition(": ")[2] for line in found.faults("guests", "pl")],
                         ["'Add it' is missing", "'Add' is not used"])


class Typography(unittest.TestCase):
    def test_no_line_begins_with_a_french_sign(self) -> None:
        """French has a blank before these signs and within guillemets, at which no line may break."""
        for message in tool().read_catalogue("guests", "fr"):
            for text in tool().texts(message.string) if message.id else ():
                self.assertNotRegex(text, "[ ][:;?!»]|«[ ]", text)
        self.assertIn("pas\u202f?", Language("fr").say("No code yet, or it does not work? Please ask at the counter."))


class Choice(unittest.TestCase):
    def test_the_first_language_that_is_accepted_and_that_there_is(self) -> None:
        for accepted, choice, tag in (((), "", "en"), ((("de-AT", 1.0), ("en", .9)), "", "de"), ((("zh-CN", 1.0),), "", "zh-Hans"),
                                      ((("qaa", 1.0), ("pt-BR", .8), ("en", .5)), "", "pt"), ((("*", 1.0),), "", "en"),
                                      ((("de", 0.0), ("fr", .1)), "", "fr"), ((("de", 1.0),), "ar", "ar"),
                                      ((("de", 1.0),), "qaa", "de"), ((("EN-gb", 1.0), ("de", .9)), "", "en"),
                                      ((("zh-TW", 1.0),), "", "zh-Hant"), ((("zh-hant-CN", 1.0),), "", "zh-Hant"), ((("zh-HK", 1.0),), "", "zh-Hant"),
                                      ((("zh-Hans-HK", 1.0),), "", "zh-Hans"), ((("zh", 1.0),), "", "zh-Hans"), ((("nl-BE", 1.0),), "", "nl"),
                                      ((("ko-KR", 1.0),), "", "ko"), ((("cs", 1.0),), "", "cs")):
            self.assertEqual(preferred_language(accepted, choice), tag, (accepted, choice))

    def test_the_first_choice_that_is_one_of_ours_comes_before_the_browsers(self) -> None:
        for choices, tag in ((("ar", "ja"), "ar"), (("", "ja"), "ja"), (("qaa", "ko"), "ko"), (("", "<b>"), "de")):
            self.assertEqual(preferred_language([("de", 1.0)], *choices), tag, choices)

    def test_which_way_each_language_is_written(self) -> None:
        self.assertEqual({tag for tag in GUESTS if Language(tag).direction == "rtl"}, {"ar"})

    def test_a_currency_without_a_sign_stands_apart_from_its_digits(self) -> None:
        """As CLDR's currency spacing has it."""
        for tag, currency, text in (("en", "CHF", "CHF\u00a010,668.40"), ("en", "EUR", "€10,668.40"), ("ja", "CZK", "CZK\u00a010,668.40"),
                                    ("de", "CHF", "10.668,40\u00a0CHF")):
            self.assertEqual(Language(tag).money(1_066_840, currency), text)

    def test_plural_forms_are_those_of_the_language(self) -> None:
        def times(tag: str, number: int) -> str:
            return Language(tag).say_plural("It can be used %(num)s more time.", "It can be used %(num)s more times.", number)

        self.assertEqual([times("uk", number).split()[-1] for number in (1, 2, 5, 21)], ["раз.", "рази.", "разів.", "раз."])
        self.assertEqual(len({times("ar", number).replace(str(number), "") for number in (0, 1, 2, 3, 11)}), 5)
        self.assertEqual(times("ja", 3), "あと3回使えます。")


class Errors(unittest.TestCase):
    def test_nginxs_own_answers_are_made_in_each_language(self) -> None:
        pages = error_pages("A <b> House")
        self.assertEqual(set(pages), {f"{tag}/{status}.html" for tag in GUESTS for status in PAGES})
        self.assertIn('<html lang="ar" dir="rtl">', pages["ar/429.html"])
        self.assertIn("Bitte warten Sie eine Minute", pages["de/429.html"])
        for name, text in pages.items():
            self.assertIn("A &lt;b&gt; House", text)
            self.assertNotIn("<script", text)
        self.assertEqual(len(set(pages.values())), len(pages))


if __name__ == "__main__":
    unittest.main()
