"""Who is logged in: the log-ins of the counter in an SQLite file beside its journal.

A browser has a cookie with a random number, and the file has the number's SHA-256 alone. Each request looks
the log-in up; a log-in that has ended, or whose account is gone or has another password or role, lets nobody
in.
"""

from __future__ import annotations

import contextlib
import functools
import hashlib
import pathlib
import secrets
import sqlite3
import sys
import threading
import time
from collections.abc import Callable, Iterator
from dataclasses import dataclass

from portal_field.counter.guesses import Asker, Guesses
from portal_field.counter.known_browsers import KnownBrowsers
from portal_field.lib import passwords
from portal_field.settings.accounts import FILE, Account, Accounts, BadAccounts, text_in

LONGEST = 16 * 3600     # seconds that a log-in lasts: longer than a shift
SET_BACK = 60           # seconds that the clock may be set back under a log-in
IDLE_MINUTES = 10       # after which a log-in is locked, where the venue says nothing else
OFTEN = 5               # seconds between two notes of the last use
COOKIE = "__Host-counter"
SIGNED_IN = "sign-in "      # begins what a log-in by the chain's sign-in has in place of its account's mark
SCHEMA = """
CREATE TABLE IF NOT EXISTS logins (
    cookie TEXT PRIMARY KEY,        -- SHA-256 of the cookie's number
    form TEXT NOT NULL UNIQUE,      -- the number of the form that began it
    token TEXT NOT NULL,            -- of its forms
    name TEXT NOT NULL,
    role TEXT NOT NULL,
    account TEXT NOT NULL,          -- SHA-256 of the role and of the password's hash, or the sign-in's mark
    place TEXT NOT NULL,            -- the address of the clerk's computer
    begun INTEGER NOT NULL,         -- seconds since 1970, as all moments here
    ends INTEGER NOT NULL,
    used INTEGER NOT NULL,          -- when it was used last
    locked INTEGER                  -- since when; NULL: it is not
) STRICT
"""
# Of the cookies of browsers in which somebody was logged in before
KEY_SCHEMA = """
CREATE TABLE IF NOT EXISTS browser_key (one INTEGER PRIMARY KEY CHECK (one = 1), key TEXT NOT NULL) STRICT
"""

OF_COOKIE = "SELECT name, role, token, account, begun, ends, used, locked FROM logins WHERE cookie = ?"


@dataclass(frozen=True)
class Login:
    """A log-in that lets in. `cookie`: the hash of its number; `number`: what the browser is to send from now
    on. `token`: of its forms. `is_locked`: it waits for the PIN or the password."""
    cookie: str
    number: str
    name: str
    role: str
    token: str
    is_locked: bool
    is_signed_in: bool = False      # by the chain's sign-in: it has no account, password or PIN here


class AccountsFile:
    """The accounts of the venue, read again where the file is another one. Of a file with a mistake the
    accounts that it had before stay."""

    def __init__(self, folder: pathlib.Path) -> None:
        self.folder, self.known, self.fault = folder, Accounts(), ""
        self.seen: tuple[int, ...] = ()
        self.one_reads = threading.Lock()

    @property
    def now(self) -> Accounts:
        """The accounts as they are now. `fault` says what is wrong with the file, in English."""
        with self.one_reads:    # (or another thread would see none while this one reads the file)
            return self.read()

    def read(self) -> Accounts:
        """Reads the file where it is another one."""
        path = self.folder / FILE
        try:
            state = path.stat()
            seen: tuple[int, ...] = (state.st_ino, state.st_mtime_ns, state.st_size)
            if seen != self.seen:
                self.seen, self.fault = seen, ""
                self.known = Accounts.read(text_in(path))
        except (BadAccounts, OSError) as fault:
            if str(fault) != self.fault:
                print(f"counter: {path}: {fault}", file=sys.stderr, flush=True)
            self.fault = str(fault)
        return self.known


def hashed(number: str) -> str:
    """What the file has in place of a cookie's number."""
    return hashlib.sha256(number.encode()).hexdigest()


def mark_of(account: Account) -> str:
    """What changes with the password or the role of an account."""
    return hashed(f"{account.role} {account.password}")


class Logins:
    """Each call opens the file anew, as the journal's does. `idle_minutes`: after so many without a request a
    log-in is locked; 0: never. `sign_in`: the mark of the chain's sign-in, with another one of which the
    log-ins that came by it end."""

    def __init__(self, path: pathlib.Path, accounts: AccountsFile, idle_minutes: int = IDLE_MINUTES,
                 now: Callable[[], float] = time.time, sign_in: str = "") -> None:
        self.sign_in = SIGNED_IN + sign_in if sign_in else ""
        self.path, self.accounts, self.idle_minutes, self.now = path, accounts, idle_minutes, now
        self.guesses = Guesses()

    @contextlib.contextmanager
    def opened(self) -> Iterator[sqlite3.Connection]:
        """A connection to the file, whose table is made where it is missing."""
        with contextlib.suppress(OSError):
            self.path.touch(mode=0o600, exist_ok=False)
        with contextlib.closing(sqlite3.connect(self.path, timeout=5)) as link, link:
            if not link.execute("SELECT count(*) FROM sqlite_master WHERE name = 'logins'").fetchone()[0]:
                link.execute(SCHEMA)
            yield link

    # Passwords and PINs

    @functools.cached_property
    def browsers(self) -> KnownBrowsers:
        """The browsers in which somebody was logged in before, by a key that the file draws once."""
        with self.opened() as link:
            link.execute(KEY_SCHEMA)
            link.execute("INSERT OR IGNORE INTO browser_key VALUES (1, ?)", (secrets.token_hex(32),))
            key, = link.execute("SELECT key FROM browser_key").fetchone()
        return KnownBrowsers(bytes.fromhex(key))

    def account(self, asker: Asker, word: str) -> Account | None:
        """The account of a name and a password; None where one of them is wrong. Locked: none is tried
        now."""
        account = self.accounts.now.get(asker.name)
        known = account.password if account else passwords.of_nobody()
        return account if self.guesses.is_right(asker, word, known) else None

    # Log-ins

    def begin(self, account: Account, place: str, form: str, mark: str = "") -> str:
        """Begins a log-in; the number of its cookie. Another one that this form began, as by a double click,
        ends. `mark`: of the chain's sign-in, where it came by that."""
        number, now = secrets.token_hex(32), int(self.now())
        with self.opened() as link:
            link.execute("DELETE FROM logins WHERE ends <= ?1 OR begun > ?1 + ?2 OR form = ?3",
                         (now, SET_BACK, form))
            link.execute("INSERT INTO logins VALUES (?, ?, ?, ?, ?, ?, ?, ?, ?, ?, NULL)",
                         (hashed(number), form, secrets.token_hex(16), account.name, account.role,
                          mark or mark_of(account), place, now, now + LONGEST, now))
        return number

    def of_cookie(self, number: str) -> Login | None:
        """The log-in of a cookie; None where it lets nobody in. One that was not used for long is locked
        then."""
        if not number:
            return None
        now = int(self.now())
        with self.opened() as link:
            row = link.execute(OF_COOKIE, (hashed(number),)).fetchone()
        if row is None:
            return None
        name, role, token, mark, begun, ends, used, locked = row
        account = self.accounts.now.get(name)
        is_signed_in = mark.startswith(SIGNED_IN)
        if is_signed_in and account is None and mark == self.sign_in:
            account = Account(name, role, "")
        elif is_signed_in or account and mark_of(account) != mark:
            account = None
        if account is None or not begun - SET_BACK <= now < ends:
            self.end(hashed(number))
            return None
        if locked is None and self.is_idle(now - used):
            number, locked = self.lock(hashed(number)), now
        return Login(hashed(number), number, name, account.role, token, locked is not None, is_signed_in)

    def is_idle(self, seconds: int) -> bool:
        """Whether a log-in that was not used for so long is locked."""
        return 0 < 60 * self.idle_minutes <= seconds

    def use(self, login: Login) -> None:
        """Notes that a log-in was used now. A disk that is full hinders no work."""
        now = int(self.now())
        with contextlib.suppress(sqlite3.Error), self.opened() as link:
            link.execute("UPDATE logins SET used = ?1 WHERE cookie = ?2 AND NOT used BETWEEN ?1 - ?3 AND ?1",
                         (now, login.cookie, OFTEN))

    def lock(self, cookie: str) -> str:
        """Locks a log-in, whose cookie has another number then: so a browser shows no page of before by Back.
        The number."""
        number = secrets.token_hex(32)
        with self.opened() as link:
            link.execute("UPDATE logins SET cookie = ?, locked = ? WHERE cookie = ?",
                         (hashed(number), int(self.now()), cookie))
        return number

    def unlock(self, login: Login, asker: Asker, word: str) -> bool:
        """Takes the lock off by PIN or password; False where that is wrong. Locked: none is tried now."""
        account = self.accounts.now.get(login.name)
        if account is None or not self.guesses.is_right(asker, word, account.pin, account.password):
            return False
        with self.opened() as link:
            link.execute("UPDATE logins SET locked = NULL, used = ? WHERE cookie = ?",
                         (int(self.now()), login.cookie))
        return True

    def end(self, cookie: str) -> None:
        """Ends a log-in."""
        with self.opened() as link:
            link.execute("DELETE FROM logins WHERE cookie = ?", (cookie,))

    def renew(self, login: Login) -> None:
        """A log-in goes on though its account has a new password; the others of that account end."""
        account = self.accounts.now.get(login.name)
        if account:
            with self.opened() as link:
                link.execute("UPDATE logins SET account = ? WHERE cookie = ?",
                             (mark_of(account), login.cookie))
