"""The accounts of all clerks, for managers: a new one, a new password or role, and one that goes."""

from __future__ import annotations

import sqlite3
import sys
from dataclasses import replace
from typing import TYPE_CHECKING

import flask

from portal_field.counter.clerk import Notice
from portal_field.counter.entrance import place, secret
from portal_field.counter.own_account import ROLES, OwnAccount
from portal_field.counter.setting_files import Answer
from portal_field.lib import passwords
from portal_field.lib.desk_client import new_number
from portal_field.lib.forms import BadForm, Form
from portal_field.lib.message_marks import clerk_words
from portal_field.settings.accounts import AT_A_COUNTER, CLERK, OFFICE, Account, Accounts, fault_of_name

if TYPE_CHECKING:
    from portal_field.counter.page import Pages

Reply = flask.Response
ROOT_ALONE = clerk_words("An account of the office is made and ended on the machine: portal-venues clerk")


class Clerks:
    """The page of the accounts."""

    def __init__(self, page: Pages, own: OwnAccount) -> None:
        self.page, self.own, self.say = page, own, page.counter.say

    def show(self, answer: Answer | None = None, typed: Form | None = None) -> Reply:
        """The page, with what came of a form, and with what was typed where nothing was written."""
        lines = answer.lines if answer else ()
        good, typed = bool(answer and answer.good), typed or Form()
        rows = [(one.name, self.say(ROLES[one.role]), self.say("chosen") if one.pin else self.say("none yet"))
                for one in self.own.logins.accounts.now.values()]
        return self.page.show("clerks.html", answer.status if answer else 200,
                              Notice(good, lines) if answer else None, rows=rows, quiet=True,
                              roles={"": self.say("As before (new: sales clerk)")} | {
                                  role: self.say(ROLES[role]) for role in AT_A_COUNTER},
                              typed=Form() if good else typed, wrong=answer.field if answer else "",
                              least=passwords.LEAST_SIGNS)

    def change(self) -> Reply:
        """Makes an account, or gives one a new password or role. Without a new password the old one stays."""
        try:
            form = Form.from_body(flask.request)
        except BadForm:
            return self.show(Answer(400, (self.say("The request was not understood."),)))
        name, new, accounts = form.get("name", ""), secret("new"), self.own.logins.accounts.now
        role = form.get("role") or (accounts[name].role if name in accounts else CLERK)
        if fault_of_name(name):
            line = self.say("A name has no colon, and at most 64 characters.")
            return self.show(Answer(400, (line,), "name"), form)
        if new != secret("again"):
            return self.show(Answer(400, (self.say("Both new passwords must be the same."),), "again"), form)
        if passwords.fault_of_password(new) and (new or name not in accounts):
            line = self.own.rule_of_passwords()
            return self.show(Answer(400, (line,), "new"), form)
        if self.is_of_office(name) or role == OFFICE:
            return self.show(Answer(409, (self.say(ROOT_ALONE),), "name"), form)
        if self.is_last_manager(name) and role == CLERK:
            return self.show(Answer(409, (self.say("One manager has to stay."),), "role"), form)
        hashed = passwords.hash_of(new) if new else ""

        def changed(before: Accounts) -> Accounts:
            """The accounts with this one."""
            old = replace(before.get(name, Account(name, role, "")), role=role)
            return before.having(replace(old, password=hashed, pin="") if hashed else old)

        answer = self.own.change("account", secret("password"), "password", changed,
                                 self.say("The account of %(name)s is written.", name=name))
        return self.told(answer, form, name, role)

    def remove(self) -> Reply:
        """Takes an account away; its log-in ends at once."""
        try:
            form = Form.from_body(flask.request)
        except BadForm:
            return self.show(Answer(400, (self.say("The request was not understood."),)))
        name = form.get("gone", "")
        if name == flask.g.login.name or self.is_last_manager(name):
            line = self.say("One manager has to stay, and nobody takes the own account away.")
            return self.show(Answer(409, (line,), "gone"), form)
        if self.is_of_office(name):
            return self.show(Answer(409, (self.say(ROOT_ALONE),), "gone"), form)
        answer = self.own.change("account_gone", secret("word"), "word", lambda before: Accounts(
            {key: account for key, account in before.items() if key != name}),
            self.say("The account of %(name)s is gone.", name=name))
        return self.told(answer, form, name, "")

    def is_of_office(self, name: str) -> bool:
        """Whether this account is one of the office."""
        return name in self.own.logins.accounts.now.of_office

    def is_last_manager(self, name: str) -> bool:
        """Whether nobody else is a manager."""
        return self.own.logins.accounts.now.managers == [name]

    def told(self, answer: Answer, form: Form, name: str, role: str) -> Reply:
        """The page after a form; the journal has whose account was written."""
        if answer.good:
            act = "account" if role else "account_gone"
            try:
                self.page.counter.journal.explain(flask.g.login.name, place(), new_number(), act, name, role)
            except sqlite3.Error as fault:
                print(f"counter: the journal could not be written: {fault}", file=sys.stderr, flush=True)
        return self.show(answer, form)


def add(app: flask.Flask, page: Pages, own: OwnAccount) -> None:
    """The page of the accounts, and its forms."""
    clerks = Clerks(page, own)
    app.add_url_rule("/clerks", "see clerks", clerks.show)
    app.add_url_rule("/clerk", "send clerk", clerks.change, methods=["POST"])
    app.add_url_rule("/clerk-gone", "send clerk-gone", clerks.remove, methods=["POST"])
