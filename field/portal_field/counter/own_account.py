"""The own account of who is logged in: a new password, a new PIN. portal-settings.service checks the password
and writes the file."""

from __future__ import annotations

from collections.abc import Callable
from dataclasses import replace
from typing import TYPE_CHECKING

import flask

from portal_field.counter import settings_client
from portal_field.counter.clerk import Notice
from portal_field.counter.entrance import WRONG, Entrance, secret
from portal_field.counter.guesses import Locked
from portal_field.counter.journal import DONE
from portal_field.counter.logins import Login
from portal_field.counter.setting_files import Answer
from portal_field.lib import passwords
from portal_field.lib.message_marks import clerk_words
from portal_field.settings.accounts import CLERK, FILE, MANAGER, OFFICE, Accounts, BadAccounts, text_in

if TYPE_CHECKING:
    from portal_field.counter.page import Pages

Reply = flask.Response
Changed = Callable[[Accounts], Accounts]
ROLES = {CLERK: clerk_words("Sales clerk"), MANAGER: clerk_words("Manager"), OFFICE: clerk_words("Office")}
# What is said of a refusal of portal-settings.service, and the status of the page.
REFUSALS = {
    "wrong_password": (clerk_words("This password is wrong."), 401),
    "changed_meanwhile": (clerk_words("The accounts were changed meanwhile. Type it again."), 409),
    "no_answer": (clerk_words("The part that writes the accounts does not answer (portal-settings.service)."),
                  503)}
OTHER = (clerk_words("The accounts could not be written: %(why)s."), 500)


class OwnAccount:
    """The page of the own account."""

    def __init__(self, page: Pages, entrance: Entrance) -> None:
        self.page, self.entrance, self.say = page, entrance, page.counter.say
        self.logins = entrance.logins

    def show(self, answer: Answer | None = None) -> Reply:
        """The page, with what came of a form."""
        login: Login = flask.g.login
        account, say = self.logins.accounts.now.get(login.name), self.say
        facts = [(say("Name"), login.name), (say("Role"), say(ROLES[login.role])),
                 (say("PIN"), say("chosen") if account and account.pin else say("none yet"))]
        return self.page.show("account.html", answer.status if answer else 200,
                              Notice(answer.good, answer.lines) if answer else None, facts=facts,
                              wrong=answer.field if answer else "", name=login.name,
                              is_signed_in=login.is_signed_in,
                              least=passwords.LEAST_SIGNS, quiet=True, minutes=self.logins.idle_minutes)

    def rule_of_passwords(self) -> str:
        """How long a new password is."""
        return self.say("The new password has %(least)s to %(most)s characters.", least=passwords.LEAST_SIGNS,
                        most=passwords.MOST_SIGNS)

    def change_password(self) -> Reply:
        """A new password, with the old one."""
        new, say = secret("new"), self.say
        if passwords.fault_of_password(new):
            return self.show(Answer(400, (self.rule_of_passwords(),), "new"))
        if new != secret("again"):
            return self.show(Answer(400, (say("Both new passwords must be the same."),), "again"))
        hashed = passwords.hash_of(new)
        return self.show(self.change("password", secret("old"), "old", lambda accounts: accounts.having(
            replace(accounts[flask.g.login.name], password=hashed)), say("Your password is changed.")))

    def change_pin(self) -> Reply:
        """A new PIN, with the password."""
        new, say = secret("pin"), self.say
        if not passwords.is_pin(new):
            return self.show(Answer(400, (say("A PIN has four to eight digits."),), "pin"))
        if new != secret("pin2"):
            return self.show(Answer(400, (say("Both PINs must be the same."),), "pin2"))
        hashed = passwords.hash_of(new)
        return self.show(self.change("pin", secret("password"), "password", lambda accounts: accounts.having(
            replace(accounts[flask.g.login.name], pin=hashed)), say("Your PIN is changed.")))

    def change(self, act: str, word: str, field: str, changed: Changed, words: str) -> Answer:
        """Has the accounts written anew, with the password of who is logged in, typed into a field."""
        login: Login = flask.g.login
        try:
            self.logins.guesses.check_wait(self.entrance.asker_within(login))
        except Locked as fault:
            return self.wait(fault.seconds)
        written = self.written(login.name, word, changed)
        if written.word == "done":
            self.logins.renew(login)
            self.entrance.record(login.name, act, DONE)
            return Answer(200, (words,))
        if written.word == "wait":
            return self.wait(written.seconds)
        is_wrong = written.word == "wrong_password"
        if is_wrong:
            self.logins.guesses.count_wrong(self.entrance.asker_within(login))
        self.entrance.record(login.name, act, WRONG if is_wrong else written.word)
        text, status = REFUSALS.get(written.word, OTHER)
        return Answer(status, (self.say(text, why=written.why or written.word),), field if is_wrong else "")

    def written(self, name: str, word: str, changed: Changed) -> settings_client.Written:
        """Reads the file, changes the accounts in it, and sends it."""
        try:
            before = text_in(self.logins.accounts.folder / FILE)
            after = changed(Accounts.read(before)).text
        except (BadAccounts, OSError, KeyError) as fault:
            return settings_client.Written("bad_file", str(fault))
        path = self.page.counter.conf.get("settings_socket", settings_client.SOCKET)
        return settings_client.write(path, "clerks", before, after, name, word)

    def wait(self, seconds: float) -> Answer:
        """No password is tried for some time."""
        return Answer(429, (self.say("Too many wrong passwords or PINs."), self.say(
            "Try again in %(span)s.", span=self.page.counter.language.span(max(1, round(seconds))))))


def add(app: flask.Flask, page: Pages, entrance: Entrance) -> OwnAccount:
    """The page of the own account, and its forms."""
    own = OwnAccount(page, entrance)
    app.add_url_rule("/account", "see account", own.show)
    app.add_url_rule("/password", "send password", own.change_password, methods=["POST"])
    app.add_url_rule("/pin", "send pin", own.change_pin, methods=["POST"])
    return own
