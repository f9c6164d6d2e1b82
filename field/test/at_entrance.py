"""Clerks who log in at the counter's page, as their browsers do: with a cookie and the tokens of its forms."""

from __future__ import annotations

import contextlib
import html
import http.client
import pathlib
import re
import socket
import threading
import unittest
import urllib.parse
from collections.abc import Callable, Mapping
from dataclasses import dataclass, field

from portal_field.counter import known_browsers
from portal_field.counter.logins import IDLE_MINUTES, AccountsFile, Logins
from portal_field.lib import passwords
from portal_field.settings.accounts import CLERK, FILE, MANAGER, Account, Accounts

Link = Callable[[], http.client.HTTPConnection]
WORDS = {"anna": "annas-long-word", "ben": "bens-long-word"}
FORM = re.compile(r'<form method="post" action="/([a-z-]+)">(.*?)</form>', re.S)
HIDDEN = re.compile(r'<input type="hidden" name="([a-z.]+)" value="([^"]*)">')


def answer_each_in_test(case: unittest.TestCase, path: str, answer: Callable[[bytes], bytes]) -> None:
    """Does during a test what systemd does with a unit for each connection: it is asked once, and answers."""
    listener = socket.socket(socket.AF_UNIX)
    listener.bind(path)
    listener.listen()
    case.addCleanup(listener.close)

    def answer_each() -> None:
        with contextlib.suppress(OSError):
            while True:
                link, _ = listener.accept()
                with link, link.makefile("rb") as file:
                    link.sendall(answer(file.read()))

    threading.Thread(target=answer_each, daemon=True).start()


def quick_hash(word: str) -> str:
    """A hash of scrypt that takes little of the machine's time."""
    salt = b"0123456789abcdef"
    key = passwords.scrypt(word, salt, (1, 1, 1), 32)
    return f"$scrypt$ln=1,r=1,p=1${passwords.plain_base64(salt)}${passwords.plain_base64(key)}"


def put_accounts(folder: pathlib.Path, *more: Account) -> Accounts:
    """Anna, a manager, and Ben, a clerk with the PIN 2468; and more."""
    accounts = Accounts()
    for account in (Account("anna", MANAGER, quick_hash(WORDS["anna"])),
                    Account("ben", CLERK, quick_hash(WORDS["ben"]), quick_hash("2468")), *more):
        accounts = accounts.having(account)
    (folder / FILE).write_text(accounts.text)
    return accounts


def logins_in(folder: pathlib.Path, idle_minutes: int = IDLE_MINUTES) -> Logins:
    """The log-ins of a folder, with its accounts."""
    return Logins(folder / "logins.db", AccountsFile(folder), idle_minutes)


@dataclass
class Answer:
    """What a browser got."""
    status: int
    text: str
    head: http.client.HTTPMessage

    @property
    def place(self) -> str:
        """Where it leads to, or nothing."""
        return self.head.get("Location", "")

    @property
    def told(self) -> str:
        """The notice above the page."""
        found = re.search(r'<p id="told".*?>(.*?)</p>', self.text, re.S)
        return html.unescape(re.sub("<[^>]*>", " ", found[1])) if found else ""

    def form(self, action: str) -> dict[str, str]:
        """The hidden fields of a form of the page. KeyError: there is none."""
        found = {name: dict(HIDDEN.findall(body)) for name, body in FORM.findall(self.text)}
        return {key: html.unescape(value) for key, value in found[action].items()}


@dataclass
class ClerksBrowser:
    """One browser at the counter, with the cookie of its log-in, and the one that says who was logged in before."""
    link: Link
    place: str = "10.88.0.2"
    host: str = "counter.example"
    cookie: str = ""
    token: str = ""
    known: str = ""
    cookies: list[str] = field(default_factory=list)    # the lines that set them

    def send(self, path: str, form: Mapping[str, str] | None = None, /, **head: str) -> Answer:
        """A request; with a form it is a POST."""
        sent = "; ".join(filter(None, (self.cookie, self.known)))
        fields = {"Host": self.host, "X-Real-IP": self.place, **({"Cookie": sent} if sent else {}),
                  **({"Origin": f"https://{self.host}"} if form is not None else {}), **head}
        with contextlib.closing(self.link()) as link:
            link.request("GET" if form is None else "POST", path, None if form is None else urllib.parse.urlencode(form), fields)
            got = link.getresponse()
            answer = Answer(got.status, got.read().decode("utf-8", "replace"), got.headers)
        for line in got.headers.get_all("Set-Cookie") or []:
            self.cookies.append(line)
            value = line.partition(";")[0] if "Max-Age=0" not in line else ""
            if line.startswith(f"{known_browsers.COOKIE}="):
                self.known = value
            else:
                self.cookie = value
        found = re.search(r'name="token" value="([0-9a-f]+)"', answer.text)
        self.token = found[1] if found else self.token
        return answer

    def ask(self, path: str) -> Answer:
        """A page."""
        return self.send(path)

    def post(self, path: str, **form: str) -> Answer:
        """A form of a page, with the token of the last page that had one."""
        return self.send(path, {"token": self.token, **form})

    def log_in(self, name: str, word: str = "", to: str = "", **form: str) -> Answer:
        """Types name and password on the page of the log-in, and sees the page that it leads to."""
        page = self.ask(f"/login?{urllib.parse.urlencode({'to': to})}" if to else "/login")
        fields = page.form("login") if 'action="/login"' in page.text else {"request": "again"}
        answer = self.send("/login", {**fields, "name": name, "password": word or WORDS[name], **form})
        if answer.status == 303:
            self.ask("/account")      # which has a token
        return answer
