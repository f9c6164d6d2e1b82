"""Whole files of settings that a manager has written: read here, checked and written by
portal-settings.service with the manager's password. The journal has who wrote what."""

from __future__ import annotations

import hashlib
import sqlite3
import sys
from dataclasses import dataclass
from typing import TYPE_CHECKING

import flask

from portal_field.counter import settings_client
from portal_field.counter.entrance import WRONG, Entrance, place
from portal_field.counter.guesses import Locked
from portal_field.counter.journal import DONE
from portal_field.lib.desk_client import new_number
from portal_field.lib.message_marks import clerk_words
from portal_field.settings.kinds import KINDS

if TYPE_CHECKING:
    from portal_field.counter.page import Pages

ACT = "settings"        # in the journal
CHANGED = clerk_words("It was changed after you looked at it. Look again, and save once more.")
# What is said of a refusal of portal-settings.service, and the status of the page.
REFUSALS = {
    "wrong_password": (clerk_words("This password is wrong."), 401),
    "changed_meanwhile": (CHANGED, 409),
    "too_large": (clerk_words("This is too large."), 413),
    "not_allowed": (clerk_words("Only a manager may do this."), 403),
    "no_answer": (clerk_words("The part that writes settings does not answer (portal-settings.service)."),
                  503)}
OTHER = (clerk_words("Nothing was written: %(why)s."), 500)


@dataclass(frozen=True)
class Answer:
    """What came of a form: the status of the page, what it says, and the field that is wrong."""
    status: int
    lines: tuple[str, ...]
    field: str = ""

    @property
    def good(self) -> bool:
        """Whether it was done."""
        return self.status == 200


class CannotRead(Exception):
    """A file of settings cannot be read; why, in English."""


def sum_of(*texts: str) -> str:
    """What a page showed before it is saved: the files as they were, and as they are to be. By it a change of
    either is noticed."""
    return hashlib.sha256("\0".join(texts).encode()).hexdigest()


class SettingFiles:
    """The files of the venue's settings, by their kinds."""

    def __init__(self, page: Pages, entrance: Entrance) -> None:
        self.page, self.entrance, self.say = page, entrance, page.counter.say

    def read(self, kind: str) -> str:
        """The text of a file; an empty one where there is none. CannotRead."""
        one = KINDS[kind]
        try:
            return one.text_of((self.page.counter.settings_folder / one.folder / one.name).read_bytes())
        except FileNotFoundError:
            return ""
        except (OSError, ValueError) as fault:
            raise CannotRead(f"{one.name}: {fault}") from fault

    def write(self, kind: str, before: str, after: str, password: str, what: str) -> Answer:
        """Has a file written that was made from the text before. `what`: for the journal."""
        login, guesses = flask.g.login, self.entrance.logins.guesses
        asker = self.entrance.asker_within(login)
        try:
            guesses.check_wait(asker)
        except Locked as fault:
            return self.wait(fault.seconds)
        path = self.page.counter.conf.get("settings_socket", settings_client.SOCKET)
        written = settings_client.write(path, kind, before, after, login.name, password)
        if written.word == "wait":
            return self.wait(written.seconds)
        if written.word == DONE:
            self.record(kind, DONE, what)
            return Answer(200, ())
        is_wrong = written.word == "wrong_password"
        if is_wrong:
            guesses.count_wrong(asker)
        self.record(kind, WRONG if is_wrong else written.word, "")
        text, status = REFUSALS.get(written.word, OTHER)
        lines = (self.say(text, why=written.why or written.word),)
        return Answer(status, lines, "password" if is_wrong else "")

    def wait(self, seconds: float) -> Answer:
        """No password is tried for some time."""
        span = self.page.counter.language.span(max(1, round(seconds)))
        return Answer(429, (self.say("Too many wrong passwords or PINs."),
                            self.say("Try again in %(span)s.", span=span)), "password")

    def record(self, kind: str, answer: str, what: str) -> None:
        """A line of the journal, with what was written."""
        name = flask.g.login.name
        self.entrance.record(name, ACT, answer)
        try:
            if what:
                self.page.counter.journal.explain(name, place(), new_number(), ACT, kind, what[:200])
        except sqlite3.Error as fault:
            print(f"counter: the journal could not be written: {fault}", file=sys.stderr, flush=True)
