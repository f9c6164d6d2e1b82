"""Makes a clerk's account, or gives it a new password, as root: `--clerk NAME` of both set-ups."""

from __future__ import annotations

import getpass
import pathlib
import sys
from collections.abc import Callable
from dataclasses import dataclass, replace

from portal_field.lib.passwords import fault_of_password, hash_of
from portal_field.settings.accounts import (
    AT_A_COUNTER, CLERK, FILE, MANAGER, Account, Accounts, BadAccounts, fault_of_name, of_venue)

Write = Callable[[pathlib.Path, str], None]


def password_of(name: str) -> str:
    """A clerk's password: from the terminal, twice, or else the first line of standard input."""
    if not sys.stdin.isatty():
        return sys.stdin.readline().rstrip("\n")
    while True:
        first = getpass.getpass(f"Password of the clerk {name}: ")
        fault = fault_of_password(first)
        if not fault and first == getpass.getpass("Once more: "):
            return first
        print(f"  no: {fault or 'both must be the same'}")


def role_of(name: str, accounts: Accounts, asked: str) -> str:
    """The role of an account: the one that is asked for, or that it has. The first account is a manager's; of
    another new one the terminal is asked, and without one it is a clerk's."""
    if asked or name in accounts:
        return asked or accounts[name].role
    if not accounts.managers:
        return MANAGER
    if not sys.stdin.isatty():
        return CLERK
    asks = f"Role of {name}, clerk or manager [clerk]: "
    while (answer := input(asks).strip() or CLERK) not in AT_A_COUNTER:
        print("  no: clerk or manager")
    return answer


def accounts_in(folder: pathlib.Path) -> Accounts:
    """The accounts of a venue, none where there is no file yet. SystemExit: the file has a mistake."""
    try:
        return of_venue(folder)
    except FileNotFoundError:
        return Accounts()
    except (BadAccounts, OSError) as fault:
        sys.exit(f"{folder / FILE}: {fault}. Nothing was changed")


@dataclass(frozen=True)
class NewPassword:
    """An account with its new password, and the text of all accounts with it, which are not written yet."""
    account: Account
    text: str

    def put(self, folder: pathlib.Path, write: Write) -> None:
        """Writes the accounts, and says so."""
        write(folder / FILE, self.text)
        print(f"portal-setup: {self.account.name} is a {self.account.role}, with a new password and no PIN")


def new_password(folder: pathlib.Path, name: str, asked: str) -> NewPassword:
    """The accounts with a new password of this one; its PIN goes, as whoever forgot one may have forgotten
    both. SystemExit: name, role or password is refused."""
    if why := fault_of_name(name):
        sys.exit(f"portal-setup: {why}")
    accounts = accounts_in(folder)
    role = role_of(name, accounts, asked)
    old = accounts.get(name, Account(name, role, ""))
    accounts = accounts.having(replace(old, role=role))
    try:
        accounts.check_managers()
    except BadAccounts as fault:
        sys.exit(f"portal-setup: {fault}. Nothing was changed")
    word = password_of(name)
    if why := fault_of_password(word):
        sys.exit(f"portal-setup: {why}: give another one as the first line of standard input. Nothing was "
                 "changed")
    account = replace(accounts[name], password=hash_of(word), pin="")
    return NewPassword(account, accounts.having(account).text)
