"""Who comes in at the counter: each request is looked up by its cookie before a page answers it. The pages of
the log-in, of the log-out and of the lock."""

from __future__ import annotations

import contextlib
import math
import re
import sqlite3
import sys
import urllib.parse
from collections.abc import Callable
from typing import TYPE_CHECKING

import flask

from portal_field.counter import known_browsers, roles
from portal_field.counter.clerk import Notice
from portal_field.counter.journal import DONE, Act
from portal_field.counter.guesses import Asker, Locked
from portal_field.counter.logins import COOKIE, Login, Logins
from portal_field.counter.origin import is_from_our_page
from portal_field.lib.desk_client import REQUEST_NUMBER, new_number
from portal_field.lib.forms import BadForm, Form
from portal_field.lib.languages import Language
from portal_field.settings.accounts import OFFICE

if TYPE_CHECKING:
    from portal_field.counter.page import Pages

Reply = flask.Response
OWN_PLACE = re.compile(r"/[a-z.-]{0,20}(\?[A-Za-z0-9=&%._+-]{0,200})?")
MOST_KEPT = 2500        # bytes of a form that is kept while somebody logs in
WRONG = "wrong_word"    # in the journal: a wrong password or PIN
# What has a password or PIN, or acts on the log-in itself, is not kept to be sent again.
NOT_KEPT = ("/login", "/sign-in", "/signed-in", "/logout", "/lock", "/unlock", "/password", "/pin", "/clerk",
            "/clerk-gone", "/picture")
SECRET = "password"     # the field of a form that is kept without it


def place() -> str:
    """The address of the clerk's computer."""
    return flask.request.headers.get("X-Real-IP", "?")


def secret(name: str) -> str:
    """A field with a password or PIN, as it was typed: blanks belong to it."""
    text = flask.request.get_data().decode("utf-8", "replace")
    fields = urllib.parse.parse_qs(text, keep_blank_values=True, max_num_fields=Form.MOST_FIELDS)
    return fields.get(name, [""])[-1]


def asked_place() -> str:
    """The address to go to after a log-in: of this request where it asks for a page."""
    if flask.request.method == "POST":
        return "/"
    query = flask.request.query_string.decode("ascii", "replace")
    return own_place(flask.request.path + (f"?{query}" if query else ""))


def own_place(text: str) -> str:
    """An address of these pages, or else that of the first one."""
    return text if OWN_PLACE.fullmatch(text) and text.partition("?")[0] not in NOT_KEPT else "/"


def kept_form() -> dict[str, str]:
    """The form of this request, to be sent again once somebody has logged in; empty where it is not kept."""
    path = flask.request.path
    if flask.request.method != "POST" or path in NOT_KEPT or not OWN_PLACE.fullmatch(path):
        return {}
    with contextlib.suppress(BadForm):
        form = Form.from_body(flask.request)
        fields = urllib.parse.urlencode({name: value for name, value in form.items() if name != SECRET})
        if len(fields) <= MOST_KEPT:
            return {"then": path, "fields": fields}
    return {}


class Entrance:
    """Stands before the pages: without a log-in there is its page alone."""

    def __init__(self, page: Pages, logins: Logins) -> None:
        self.page, self.logins, self.say = page, logins, page.counter.say
        self.open = {"/login"}      # addresses for who is not logged in

    # Each request

    def enter(self) -> Reply | None:
        """The answer where the pages do not answer. Who asks is known by the cookie alone."""
        flask.g.login, flask.g.role, flask.request.environ["HTTP_X_USER"] = None, "", ""
        try:
            login = self.logins.of_cookie(flask.request.cookies.get(COOKIE, ""))
            return self.let_in(login)
        except sqlite3.Error as fault:
            return self.without_file(fault)

    def without_file(self, fault: sqlite3.Error) -> Reply:
        """The page where the log-ins cannot be read or kept, as on a full disk."""
        print(f"counter: the log-ins: {fault}", file=sys.stderr, flush=True)
        lines = (self.say("The log-ins cannot be read or kept: %(why)s.", why=fault),
                 *self.page.counter.whom_to_call())
        return self.page.show("notice.html", 500, Notice(False, lines))

    def let_in(self, login: Login | None) -> Reply | None:
        """None where a page answers the request of this log-in."""
        path, is_form = flask.request.path, flask.request.method == "POST"
        flask.g.login = login
        if login and not login.is_locked:
            flask.g.role, flask.request.environ["HTTP_X_USER"] = login.role, login.name
        if is_form and not is_from_our_page():
            return self.page.show("notice.html", 403, Notice(False, (
                self.say("This form was not sent from the counter's own page."),)))
        if path in self.open:
            return None
        if login is None:
            return self.login_page(403) if is_form else self.leads_to("login")
        if is_form and not self.has_token(login):
            return self.lock_page(403) if login.is_locked else self.of_another_login()
        if login.is_locked and path not in ("/unlock", "/logout", "/lock"):
            return self.lock_page(403) if is_form else self.leads_to("lock")
        if not login.is_locked and not roles.is_for(login.role, path.strip("/")) and self.is_known():
            return self.not_allowed()
        if not login.is_locked and roles.lacks_password(path.strip("/")) and self.is_known():
            return self.without_password()
        if path != "/lock":
            self.logins.use(login)
        return None

    def is_known(self) -> bool:
        """Whether there is a page at this address."""
        return flask.request.url_rule is not None

    def has_token(self, login: Login) -> bool:
        """Whether a form is one of this log-in's."""
        with contextlib.suppress(BadForm):
            return Form.token_in(flask.request) == login.token
        return False

    def leads_to(self, name: str) -> Reply:
        """To the page of the log-in or of the lock, and from there back."""
        back = asked_place()
        query = f"?{urllib.parse.urlencode({'to': back})}" if back != "/" else ""
        return flask.make_response(flask.redirect(f"/{name}{query}", 303))

    def leave(self, response: Reply) -> Reply:
        """Sets cookies, says to nginx's log who it was, and has a page that nobody looks after lock
        itself."""
        login = flask.g.get("login")
        if login and login.number != flask.request.cookies.get(COOKIE, ""):
            response.set_cookie(COOKIE, login.number, secure=True, httponly=True, samesite="Strict", path="/")
        if name := flask.g.get("came_in", ""):
            known = self.logins.browsers.cookie(flask.request.cookies.get(known_browsers.COOKIE, ""), name)
            response.set_cookie(known_browsers.COOKIE, known, max_age=known_browsers.LASTS, secure=True,
                                httponly=True, samesite="Strict", path="/")
        if login and not login.is_locked:
            response.headers["X-Clerk"] = urllib.parse.quote(login.name)
            if self.logins.idle_minutes and response.mimetype == "text/html":
                back = urllib.parse.urlencode({"to": asked_place()})
                seconds = 60 * self.logins.idle_minutes + 1
                response.headers.setdefault("Refresh", f"{seconds}; url=/lock?{back}")
        return response

    def not_allowed(self) -> Reply:
        """The page that says who may do it; who is of the office is led to its page."""
        name, is_form = flask.request.path.strip("/"), flask.request.method == "POST"
        if flask.g.role == OFFICE and not name and not is_form:
            return flask.make_response(flask.redirect("/office", 303))
        lines = [self.say("Nothing was done.")] if is_form else []
        if flask.g.role == OFFICE:
            lines += [self.say("An account of the office sees the page of all venues alone.")]
        elif name in roles.FOR_OFFICE:
            lines += [self.say("Only an account of the office may see all venues.")]
        else:
            lines += [self.say("Only a manager may do this."), *self.managers()]
        return self.page.show("notice.html", 403, Notice(False, tuple(lines)))

    def without_password(self) -> Reply:
        """The page that says that it needs a password of this counter, which this log-in has none of."""
        lines = [self.say("Nothing was done.")] if flask.request.method == "POST" else []
        lines += [self.say("Only an account with a password of this counter may do this."), *self.managers()]
        return self.page.show("notice.html", 403, Notice(False, tuple(lines)))

    def managers(self) -> list[str]:
        """The line that names the managers."""
        names = ", ".join(self.logins.accounts.now.managers)
        return [self.say("Managers: %(names)s.", names=names)] if names else []

    # Who types a password or PIN

    def asker(self, name: str, login: str = "") -> Asker:
        """Who types a word of this name in this request."""
        cookie = flask.request.cookies.get(known_browsers.COOKIE, "")
        return Asker(name, place(), self.logins.browsers.number(cookie, name), login)

    def asker_within(self, login: Login) -> Asker:
        """Who types a word of the own name in a log-in."""
        return self.asker(login.name, login.token)

    # Forms that came without a log-in, or by another one

    def of_another_login(self) -> Reply:
        """A form that was shown to another log-in: nothing is done, and it can be sent again."""
        kept = kept_form()
        lines = (self.say("This page was shown before the log-in that holds now. Nothing was done."),)
        if not kept:
            return self.page.show("notice.html", 403, Notice(False, lines))
        return self.kept_page(kept, lines, 403)

    def kept_page(self, kept: dict[str, str], lines: tuple[str, ...], status: int = 200) -> Reply:
        """The page that has a form once more, which a press sends."""
        return self.page.show("kept.html", status, Notice(False, lines), then=kept["then"],
                              name=self.page.name_of(kept["then"].strip("/")),
                              hidden=Form.read(kept["fields"]))

    def comes_in(self, form: Form) -> Reply:
        """After a log-in or a PIN: to the page that was asked for, or the form that was not sent."""
        then = form.get("then", "")
        if then and OWN_PLACE.fullmatch(then) and then not in NOT_KEPT:
            return self.kept_page({"then": then, "fields": form.get("fields", "")},
                                  (self.say("Nothing was done yet. Look at it, and send it now."),))
        return flask.make_response(flask.redirect(own_place(form.get("to", "/")), 303))

    # Log-in and log-out

    def login_page(self, status: int = 200, lines: tuple[str, ...] = (), form: Form | None = None,
                   good: bool = False) -> Reply:
        """Asks for name and password."""
        form = Form() if form is None else form
        lines += tuple(self.faults())
        if flask.request.method == "POST" and not lines:
            lines = (self.say("Nobody is logged in here any more. Nothing was done."),)
        kept = {key: form[key] for key in ("then", "fields", "to") if form.get(key)} or kept_form()
        return self.page.show("login.html", status, Notice(good, lines) if lines else None, kept=kept,
                              number=new_number(), typed=form.get("name", "")[:64], is_wrong=status == 401,
                              quiet=True, label=self.label())

    def label(self) -> str:
        """What stands on the link to the chain's sign-in; empty where there is none."""
        conf = self.page.counter.conf
        return (conf.get("sign_in_label") or self.say("Sign in by the chain")) if conf.get("sign_in") else ""

    def faults(self) -> list[str]:
        """Why nobody, or not everybody, can log in."""
        accounts = self.logins.accounts
        if accounts.now:
            return []
        why = [self.say("Why: %(reason)s.", reason=accounts.fault)] if accounts.fault else []
        return [self.say("Nobody can log in: there are no accounts."), *why,
                self.say("On the machine of the venue: portal-setup --clerk NAME")]

    def see_login(self) -> Reply:
        """The page of the log-in; who is logged in goes on from there."""
        form = Form.from_query(flask.request)
        login = flask.g.login
        if login:
            return flask.make_response(flask.redirect(own_place(form.get("to", "/")), 303))
        return self.login_page(form=Form({"to": own_place(form.get("to", "/"))}))

    def log_in(self) -> Reply:
        """Takes name and password."""
        try:
            form = Form.from_body(flask.request)
            number, word = form.word("request"), secret("password")
        except (BadForm, ValueError):
            return self.login_page(400, (self.say("The request was not understood."),))
        if not REQUEST_NUMBER.fullmatch(number):
            return self.login_page(400, (self.say("The request was not understood."),))
        try:
            account = self.logins.account(self.asker(form.get("name", "")), word)
        except Locked as fault:
            return self.too_many(fault, form, "login")
        if account is None:
            self.record(form.get("name", ""), "login", WRONG)
            return self.login_page(401, (self.say("Name or password is wrong."),), form)
        if old := flask.g.login:
            self.logins.end(old.cookie)
        cookie = self.logins.begin(account, place(), number)
        self.let_in(self.logins.of_cookie(cookie))
        self.record(account.name, "login", DONE)
        flask.g.came_in = account.name
        return self.comes_in(form)

    def log_out(self) -> Reply:
        """Ends the log-in."""
        login: Login = flask.g.login
        self.logins.end(login.cookie)
        self.record(login.name, "logout", DONE)
        flask.g.login, flask.g.role, flask.request.environ["HTTP_X_USER"] = None, "", ""
        response = self.login_page(200, (self.say("You are logged out."),), good=True)
        response.headers["X-Clerk"] = urllib.parse.quote(login.name)
        response.delete_cookie(COOKIE, secure=True, httponly=True, samesite="Strict", path="/")
        return response

    # The lock

    def lock_page(self, status: int = 200, lines: tuple[str, ...] = (), form: Form | None = None) -> Reply:
        """Asks for the PIN, or the password, of who is logged in."""
        form = Form.from_query(flask.request) if form is None else form
        kept = {key: form[key] for key in ("then", "fields", "to") if form.get(key)} or kept_form()
        if "then" in kept and not lines:
            lines = (self.say("The counter is locked. Nothing was done."),)
        account = self.logins.accounts.now.get(flask.g.login.name)
        return self.page.show("lock.html", status, Notice(False, lines) if lines else None, kept=kept,
                              name=flask.g.login.name, has_pin=bool(account and account.pin), quiet=True,
                              label=self.label() if flask.g.login.is_signed_in else "")

    def see_lock(self) -> Reply:
        """The lock; nothing where it is not locked, so that a browser stays on its page."""
        return self.lock_page() if flask.g.login.is_locked else flask.Response(status=204)

    def lock(self) -> Reply:
        """Locks at a press."""
        login: Login = flask.g.login
        self.let_in(self.logins.of_cookie(self.logins.lock(login.cookie)))
        self.record(login.name, "lock", DONE)
        return flask.make_response(flask.redirect("/lock", 303))

    def unlock(self) -> Reply:
        """Takes PIN or password. After too many wrong ones the log-in ends."""
        login: Login = flask.g.login
        form = Form.from_body(flask.request)
        if not login.is_locked:
            return self.comes_in(form)
        try:
            is_right = self.logins.unlock(login, self.asker_within(login), secret("pin"))
            if not is_right:
                self.record(login.name, "unlock", WRONG)
                self.logins.guesses.check_wait(self.asker_within(login))
        except Locked as fault:
            self.logins.end(login.cookie)
            flask.g.login = None
            return self.too_many(fault, form, "unlock")
        if not is_right:
            return self.lock_page(401, (self.say("This PIN or password is wrong."),), form)
        self.record(login.name, "unlock", DONE)
        self.let_in(self.logins.of_cookie(login.number))
        return self.comes_in(form)

    def guarded(self, view: Callable[[], Reply]) -> Callable[[], Reply]:
        """A view whose file of log-ins may fail."""
        def answer() -> Reply:
            """Its answer, or why there is none."""
            try:
                return view()
            except sqlite3.Error as fault:
                return self.without_file(fault)
            except BadForm:
                return self.login_page(400, (self.say("The request was not understood."),))

        return answer

    # What is said of wrong words

    def too_many(self, fault: Locked, form: Form, act: str) -> Reply:
        """No password is tried for some time."""
        seconds = math.ceil(fault.seconds)
        self.note(form.get("name", ""), f"{act}: too many wrong ones, waits {Language('en').span(seconds)}")
        response = self.login_page(429, (self.say("Too many wrong passwords or PINs."), self.say(
            "Try again in %(span)s.", span=self.page.counter.language.span(seconds))), form)
        response.headers["Retry-After"] = str(seconds)
        return response

    def known(self, name: str) -> str:
        """A name that has an account, as logs have it: what else was typed may be a password or a code."""
        login = flask.g.get("login")
        is_known = name in self.logins.accounts.now or login and login.name == name
        return name if is_known else "?"

    def note(self, name: str, what: str) -> None:
        """A line of systemd's journal."""
        print(f"counter: {self.known(name)} at {place()}: {what}", file=sys.stderr, flush=True)

    def record(self, name: str, act: str, answer: str) -> None:
        """A line of the counter's journal and of systemd's."""
        self.note(name, f"{act}: {answer}")
        try:
            self.page.counter.journal.add(self.known(name), place(), [Act(act, "", answer)])
        except sqlite3.Error as fault:
            print(f"counter: the journal could not be written: {fault}", file=sys.stderr, flush=True)


def add(app: flask.Flask, page: Pages, logins: Logins) -> Entrance:
    """Lets nobody into an application who is not logged in."""
    entrance = Entrance(page, logins)
    app.before_request(entrance.enter)
    app.after_request(entrance.leave)

    for name, seen, sent in (("login", entrance.see_login, entrance.log_in),
                             ("lock", entrance.see_lock, entrance.lock)):
        app.add_url_rule(f"/{name}", f"see {name}", entrance.guarded(seen))
        app.add_url_rule(f"/{name}", f"send {name}", entrance.guarded(sent), methods=["POST"])
    for name, sent in (("logout", entrance.log_out), ("unlock", entrance.unlock)):
        app.add_url_rule(f"/{name}", f"send {name}", entrance.guarded(sent), methods=["POST"])
    return entrance
