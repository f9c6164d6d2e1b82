"""The accounts of clerks and managers: /etc/portal/clerks.toml, which set-up and portal-settings.service
write, and which the counter's page reads.

    [[clerk]]
    name = "anna"
    role = "manager"
    password = "$scrypt$.."
    pin = "$scrypt$.."
"""

from __future__ import annotations

import json
import pathlib
import tomllib
import unicodedata
from dataclasses import dataclass

from portal_field.lib.passwords import HASHED

CLERK, MANAGER, OFFICE = "clerk", "manager", "office"
ROLES = (CLERK, MANAGER, OFFICE)
AT_A_COUNTER = (CLERK, MANAGER)     # the office sees all venues, and sells nowhere
NEEDED = {"name", "role", "password"}
MOST_ACCOUNTS, MOST_NAME, MOST_BYTES = 200, 64, 60_000
MODE, GROUP = 0o640, "portal-counter"       # of the file: root's, and read by the counter's page
FILE, BEFORE = "clerks.toml", "counter.passwords"       # BEFORE: of earlier versions, which nginx read
HEAD = """\
# Who may log in at the counter, and as what: role "clerk", "manager" or "office" (of venues by name).
# `portal-setup --clerk NAME` makes an account, or a new password of one; its owner changes password and PIN
# on the counter's page. Both write this file anew: comments are not kept. One who leaves: delete the table.
"""


class BadAccounts(Exception):
    """What is wrong with the file of accounts, in English."""


@dataclass(frozen=True)
class Account:
    """One person at the counter. `password` and `pin`: hashes; an empty `pin`: none yet."""
    name: str
    role: str
    password: str
    pin: str = ""

    def check(self) -> None:
        """BadAccounts: a value is not what it must be."""
        if fault := fault_of_name(self.name):
            raise BadAccounts(f"name = {self.name!r}: {fault}")
        if self.role not in ROLES:
            raise BadAccounts(f"the role of {self.name} is {self.role!r}: one of {', '.join(ROLES)}")
        if not HASHED.fullmatch(self.password) or self.pin and not HASHED.fullmatch(self.pin):
            raise BadAccounts(f"the password or PIN of {self.name} is no hash: `portal-setup --clerk NAME` "
                              "makes one")


def fault_of_name(name: str) -> str:
    """Why this is no clerk's name, in English, or nothing."""
    good = 0 < len(name) <= MOST_NAME and ":" not in name and name.isprintable() and name == name.strip()
    return "" if good else f"a clerk's name has no colon, at most {MOST_NAME} characters, and is not empty"


def folded(name: str) -> str:
    """A name as it is compared with those of others: small and capital letters, and signs that are written
    the same, are no difference."""
    return unicodedata.normalize("NFKC", name).casefold()


class Accounts(dict[str, Account]):
    """All accounts, by their names."""

    @classmethod
    def read(cls, text: str) -> Accounts:
        """The accounts of a file. BadAccounts: it is not what it must be."""
        try:
            tables = tomllib.loads(text)
        except tomllib.TOMLDecodeError as fault:
            raise BadAccounts(str(fault)) from fault
        rows = tables.get("clerk", [])
        if tables.keys() - {"clerk"} or not isinstance(rows, list) or len(rows) > MOST_ACCOUNTS:
            raise BadAccounts(f"it has tables [[clerk]] alone, at most {MOST_ACCOUNTS} of them")
        found = cls()
        for row in rows:
            account = account_of(row)
            if account.name in found:
                raise BadAccounts(f"{account.name} is there twice")
            found[account.name] = account
        return found

    @classmethod
    def of_earlier_version(cls, text: str) -> Accounts:
        """The accounts of a password file of nginx: who had a password could do all, and is a manager."""
        found = cls()
        for line in text.splitlines():
            name, _, rest = line.partition(":")
            hashed = rest.partition(":")[0].strip()
            name = name.strip()[:MOST_NAME]
            if hashed and HASHED.fullmatch(hashed) and not name.startswith("#") and not fault_of_name(name):
                found.setdefault(name, Account(name, MANAGER, hashed))
        return found

    @property
    def managers(self) -> list[str]:
        """The names of the managers."""
        return [account.name for account in self.values() if account.role == MANAGER]

    @property
    def of_office(self) -> dict[str, Account]:
        """The accounts of the office, which root alone makes: they see all venues."""
        return {name: account for name, account in self.items() if account.role == OFFICE}

    def check_managers(self) -> None:
        """BadAccounts: nobody is a manager."""
        if not self.managers:
            raise BadAccounts("nobody is a manager: `portal-setup --clerk NAME --role manager` makes one")

    def having(self, account: Account) -> Accounts:
        """These accounts, and one more or in place of the one of its name."""
        return Accounts({**self, account.name: account})

    @property
    def text(self) -> str:
        """The file that has these accounts."""
        return HEAD + "".join(table_of(account) for account in self.values())


def account_of(row: object) -> Account:
    """The account of a table. BadAccounts: it is none."""
    if not isinstance(row, dict) or not NEEDED <= row.keys() <= NEEDED | {"pin"}:
        raise BadAccounts("each [[clerk]] has name, role and password, and may have a pin")
    if not all(isinstance(value, str) for value in row.values()):
        raise BadAccounts("name, role, password and pin are texts in quotation marks")
    account = Account(**row)
    account.check()
    return account


def table_of(account: Account) -> str:
    """An account as a table of the file."""
    lines = (f"{key} = {json.dumps(value, ensure_ascii=False)}\n" for key, value in vars(account).items())
    return "\n[[clerk]]\n" + "".join(lines)


def of_venue(folder: pathlib.Path) -> Accounts:
    """The accounts of a venue, by the folder of its settings: also those of an earlier version, until set-up
    has made the file. BadAccounts: the file is not what it must be. OSError: there is none, or it cannot be
    read."""
    path = folder / FILE
    if path.exists() or not (folder / BEFORE).exists():
        return Accounts.read(text_in(path))
    return Accounts.of_earlier_version(text_in(folder / BEFORE))


def text_in(path: pathlib.Path) -> str:
    """The text of a file. BadAccounts: it is no text, or too long."""
    try:
        text = path.read_text(encoding="utf-8")
    except ValueError as fault:
        raise BadAccounts("it is no text in UTF-8") from fault
    if len(text.encode()) > MOST_BYTES:
        raise BadAccounts(f"it has more than {MOST_BYTES} bytes")
    return text
