"""The log-in by the chain's own sign-in (OpenID Connect). portal-sign-in@.service asks the provider and
checks what it says; what comes of it is a log-in of this counter as any other, with a cookie and an end of
its own.

A browser that goes to the provider has a cookie with a random number. Its hash stands with the state, the
nonce and the verifier in a row of the log-ins' file, which is good once and for ten minutes. How many rows
there are is counted by address, so that no computer ends the sign-in of another.

What the provider or the browser says is printed by ascii(), as one line that has no sign of outside.
"""

from __future__ import annotations

import dataclasses
import secrets
import urllib.parse
from typing import TYPE_CHECKING

import flask

from portal_field.counter import parts_client
from portal_field.counter.clerk import Notice
from portal_field.counter.entrance import WRONG, Entrance, own_place, place
from portal_field.counter.journal import DONE
from portal_field.counter.logins import Logins, hashed
from portal_field.counter.parts_client import NoPart
from portal_field.counter.sign_in_people import AnotherPerson, Person, name_here
from portal_field.lib.desk_client import new_number
from portal_field.lib.forms import BadForm, Form
from portal_field.settings.accounts import Account

if TYPE_CHECKING:
    from portal_field.counter.page import Pages

Reply = flask.Response
COOKIE = "__Host-sign-in"
LONGEST = 600           # seconds at the provider
MOST_OF_ONE = 20        # sign-ins that are under way from one address
MOST = 1000             # and from all
KEPT = "nonce", "verifier", "begun"     # of the provider's part, until the browser is back
FORGET_BEFORE = "DROP TABLE IF EXISTS sign_ins"     # of earlier versions, without `begun` and `place`
SCHEMA = """
CREATE TABLE IF NOT EXISTS under_way (
    cookie TEXT PRIMARY KEY,        -- SHA-256 of the cookie's number
    state TEXT NOT NULL,            -- SHA-256 of the state that the provider sends back
    nonce TEXT NOT NULL,
    verifier TEXT NOT NULL,
    begun TEXT NOT NULL,            -- when, by the clock of who asks the provider
    back TEXT NOT NULL,             -- the page to go to afterwards
    place TEXT NOT NULL,            -- the address of the browser
    ends INTEGER NOT NULL
) STRICT"""
BEGIN = "INSERT INTO under_way VALUES (?, ?, ?, ?, ?, ?, ?, ?)"
TAKE = """
DELETE FROM under_way WHERE cookie = ? AND state = ? AND ends > ? RETURNING back, nonce, verifier, begun"""
# Of each address the newest stay; where all are too many, those of an address that has many go first.
FORGET = """
WITH counted AS (
    SELECT cookie, row_number() OVER (PARTITION BY place ORDER BY rowid DESC) AS nth, rowid AS age
    FROM under_way WHERE ends > ?1)
DELETE FROM under_way WHERE cookie NOT IN (
    SELECT cookie FROM counted WHERE nth <= ?2 ORDER BY nth, age DESC LIMIT ?3)"""


class SignIns:
    """The sign-ins that are under way, in the file of the log-ins. sqlite3.Error: it cannot be read or
    written."""

    def __init__(self, logins: Logins) -> None:
        self.logins = logins

    def begin(self, found: dict[str, str], back: str, address: str) -> str:
        """Keeps what has to come back to a browser at an address; the number of the cookie."""
        number, now = secrets.token_hex(32), int(self.logins.now())
        with self.logins.opened() as link:
            link.execute(FORGET_BEFORE)
            link.execute(SCHEMA)
            link.execute(BEGIN, (hashed(number), hashed(found["state"]), *(found[name] for name in KEPT),
                                 back, address, now + LONGEST))
            link.execute(FORGET, (now, MOST_OF_ONE, MOST))
        return number

    def take(self, number: str, state: str) -> tuple[str, dict[str, str]] | None:
        """The page to go to and what was kept of a sign-in that this browser began, once; else None."""
        with self.logins.opened() as link:
            link.execute(SCHEMA)
            row = link.execute(TAKE, (hashed(number), hashed(state), int(self.logins.now()))).fetchone()
        return (str(row[0]), dict(zip(KEPT, map(str, row[1:])))) if row else None


class SignInPages:
    """The way to the provider and back."""

    def __init__(self, page: Pages, entrance: Entrance) -> None:
        self.page, self.entrance, self.say = page, entrance, page.counter.say
        self.logins, self.waiting = entrance.logins, SignIns(entrance.logins)
        self.conf = page.counter.conf

    @property
    def redirect(self) -> str:
        """Where the provider sends the browser back to."""
        head = flask.request.headers
        return f"{head.get('X-Scheme', 'https')}://{head.get('Host', '')}/signed-in"

    def failed(self, status: int, *lines: str) -> Reply:
        """The page of the log-in, with why nobody is signed in."""
        response = self.entrance.login_page(status, lines)
        response.delete_cookie(COOKIE, secure=True, httponly=True, samesite="Lax", path="/")
        return response

    def not_signed_in(self, fault: object) -> Reply:
        """The part that asks the provider, or the provider, says no."""
        self.entrance.note("", f"sign-in: {ascii(str(fault))}")
        self.entrance.record("", "login", WRONG)
        why = self.say("Why: %(reason)s.", reason=fault)
        return self.failed(403, self.say("You are not signed in."), why)

    def begin(self) -> Reply:
        """Sends the browser to the provider."""
        form = Form.from_query(flask.request)
        try:
            question = {"ask": "begin", "redirect": self.redirect}
            answer = parts_client.ask(self.conf["sign_in"], question)
            found = {name: str(answer[name]) for name in ("url", "state", *KEPT)}
        except (NoPart, KeyError) as fault:
            self.entrance.note("", f"sign-in: {ascii(str(fault))}")
            return self.failed(503, self.say("The sign-in of the chain does not answer."),
                               self.say("Why: %(reason)s.", reason=fault))
        number = self.waiting.begin(found, own_place(form.get("to", "/")), place())
        response = flask.make_response(flask.redirect(found["url"], 303))
        # sent again when the provider leads back, so it is not Strict
        response.set_cookie(COOKIE, number, max_age=LONGEST, secure=True, httponly=True, samesite="Lax",
                            path="/")
        return response

    def finish(self) -> Reply:
        """Takes the browser that comes back from the provider."""
        try:
            form = Form.from_query(flask.request)
            waiting = self.waiting.take(flask.request.cookies.get(COOKIE, ""), form.word("state"))
            if waiting is None:
                raise BadForm("state")
            back, kept = waiting
            if "error" in form:
                return self.not_signed_in(form["error"][:60])
            found = parts_client.ask(self.conf["sign_in"], {
                "ask": "finish", "redirect": self.redirect, "code": form.word("code"), **kept,
                "venue": str(self.conf.get("venue", ""))})
            person = Person(**{each.name: str(found[each.name]) for each in dataclasses.fields(Person)})
        except BadForm:
            return self.failed(400, self.say("This sign-in has ended, or was not begun here. Begin it anew."))
        except (NoPart, KeyError) as fault:
            return self.not_signed_in(fault if isinstance(fault, NoPart) else f"{fault} is missing")
        return self.by_name(person, back)

    def by_name(self, person: Person, back: str) -> Reply:
        """Lets a person in, by the name that is this person's here."""
        try:
            name = name_here(self.page.counter.journal, person, self.logins.accounts.now)
        except AnotherPerson as fault:
            return self.not_signed_in(fault)
        return self.comes_in(Account(name, person.role, ""), back)

    def comes_in(self, account: Account, back: str) -> Reply:
        """Begins the log-in. The page leads on by itself: a redirect from another site would come without the
        cookie of the log-in."""
        if old := flask.g.login:
            self.logins.end(old.cookie)
        cookie = self.logins.begin(account, place(), new_number(), self.logins.sign_in)
        self.entrance.let_in(self.logins.of_cookie(cookie))
        self.entrance.record(account.name, "login", DONE)
        line = self.say("You are signed in as %(name)s.", name=account.name)
        response = self.page.show("signed_in.html", 200, Notice(True, (line,)), back=back, quiet=True)
        response.headers["Refresh"] = f"0; url={back}"
        response.delete_cookie(COOKIE, secure=True, httponly=True, samesite="Lax", path="/")
        return response


def way_to(back: str) -> str:
    """The address that leads to the provider, and from there to a page."""
    return f"/sign-in?{urllib.parse.urlencode({'to': back})}" if back not in ("", "/") else "/sign-in"


def add(app: flask.Flask, page: Pages, entrance: Entrance) -> None:
    """The sign-in of the chain, where it has one."""
    if not page.counter.conf.get("sign_in"):
        return
    pages = SignInPages(page, entrance)
    entrance.open |= {"/sign-in", "/signed-in"}
    app.add_url_rule("/sign-in", "sign in", entrance.guarded(pages.begin))
    app.add_url_rule("/signed-in", "signed in", entrance.guarded(pages.finish))
