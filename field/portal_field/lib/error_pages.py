"""nginx's own answers to guests, as pages in each language, and to clerks: files that set-up makes, since
nginx asks no program."""

from __future__ import annotations

import pathlib

import jinja2

from portal_field.lib.language_names import GUESTS
from portal_field.lib.languages import Language
from portal_field.lib.message_marks import clerk_words, guest_words

LIB = pathlib.Path(__file__).resolve().parent
PAGES = {
    "429": (guest_words("Please wait a minute"),
            guest_words("There were too many tries from your device. Your code was not used. Wait a minute, "
                        "then try again.")),
    "502": (guest_words("Not available just now"),
            guest_words("We cannot show you our page just now. Please try again in a minute. If it stays so, "
                        "ask at the counter.")),
    "504": (guest_words("No answer"),
            guest_words("We got no answer in time. Look at the page whether you are online. If not, type "
                        "your code again there, or ask at the counter.")),
}
AWAY = (clerk_words("The counter's page is away"),
        clerk_words("Nothing of what was done is lost. The page starts again by itself: load it again in "
                    "some seconds."),
        clerk_words("If the browser asks whether to send a form again, say yes: it takes effect once."),
        clerk_words("If the page stays away for more than a minute, call for help."),
        clerk_words("Whom to call: %(who)s."))
BUSY = (clerk_words("Please wait a moment"),
        clerk_words("There were too many requests from this computer or its network. This one was not "
                    "carried out."),
        clerk_words("Load the page again in some seconds. If the browser asks whether to send a form again, "
                    "say yes: it takes effect once."))
BACK = guest_words("Back to the page")


def rendered(name: str, **values: object) -> str:
    """A page by its template."""
    templates = jinja2.Environment(loader=jinja2.FileSystemLoader(LIB / "templates"), autoescape=True,
                                   trim_blocks=True,
                                   lstrip_blocks=True, undefined=jinja2.StrictUndefined)
    return templates.get_template(name).render(**values) + "\n"


def counter_pages(tag: str, contact: str) -> dict[str, str]:
    """What the counter's nginx shows by itself, by the name of the file: while the counter's page does not
    run, and to who asks too often. `contact`: whom to call, or nothing."""
    language, pages = Language(tag, "counter"), {}
    for name, words in (("away.html", AWAY if contact else AWAY[:-1]), ("busy.html", BUSY)):
        title, *lines = (language.say(text, **({"who": contact} if "%(who)s" in text else {}))
                         for text in words)
        pages[name] = rendered("away.html", language=language, title=title, lines=lines)
    return pages


def error_pages(venue_name: str) -> dict[str, str]:
    """The text of each file, by its name: `de/429.html`."""
    pages = {}
    for tag in GUESTS:
        language = Language(tag)
        for status, words in PAGES.items():
            pages[f"{tag}/{status}.html"] = rendered(
                "error.html", language=language, house=venue_name, title=language.say(words[0]),
                text=language.say(words[1]), back=language.say(BACK))
    return pages
