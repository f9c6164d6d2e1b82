"""Who is who of those that come by the chain's sign-in. The provider's `sub` alone says it: an e-mail address
or a user name may be another's tomorrow (OpenID Connect Core 1.0 section 5.7).

So a name of this counter is that of the `sub` that first came with it, for as long as there is the journal,
in whose file this stands; another `sub` with the same name gets a number behind it. A role that such a claim
gives is for the `sub` alone that first came with it.
"""

from __future__ import annotations

import itertools
import time
from collections.abc import Iterable
from dataclasses import dataclass

from portal_field.counter.journal import Journal
from portal_field.settings.accounts import MOST_NAME, folded

SCHEMA = """
CREATE TABLE IF NOT EXISTS people (
    moment INTEGER NOT NULL,    -- seconds since 1970
    provider TEXT NOT NULL,     -- issuer and client
    claim TEXT NOT NULL,        -- that gave a role, as email; empty: the value is the person's name here
    value TEXT NOT NULL,
    sub TEXT NOT NULL,          -- who came with it first
    PRIMARY KEY (provider, claim, value)
) STRICT;
CREATE TRIGGER IF NOT EXISTS people_are_not_changed BEFORE UPDATE ON people
    BEGIN SELECT raise(ABORT, 'the journal only grows'); END;
CREATE TRIGGER IF NOT EXISTS people_are_not_deleted BEFORE DELETE ON people
    BEGIN SELECT raise(ABORT, 'the journal only grows'); END;
"""
KNOWN = "SELECT claim, value, sub FROM people WHERE provider = ?"
ADD = "INSERT OR IGNORE INTO people VALUES (?, ?, ?, ?, ?)"


class AnotherPerson(Exception):
    """The name or the role is another's: why, in English."""


@dataclass(frozen=True)
class Person:
    """Who came from the provider, as the part that asks it says (`SignIn.person`)."""
    name: str
    role: str
    provider: str
    sub: str
    claim: str
    value: str


def free_name(name: str, taken: Iterable[str]) -> str:
    """A name, with a number behind it where others have it."""
    others = set(map(folded, taken))
    numbered = (f"{name[:MOST_NAME - 6]} ({number})" for number in itertools.count(2))
    return next(each for each in itertools.chain([name], numbered) if folded(each) not in others)


def name_here(journal: Journal, person: Person, accounts: Iterable[str]) -> str:
    """The name of a person at this counter, which is kept; `accounts`: names that are none. AnotherPerson:
    nothing is kept. sqlite3.Error: the file cannot be read or written."""
    with journal.opened() as link:
        link.executescript(f"BEGIN IMMEDIATE; {SCHEMA}")
        known = link.execute(KNOWN, (person.provider,)).fetchall()
        now = int(time.time())
        if person.claim:
            owner = next((row[2] for row in known if row[:2] == (person.claim, person.value)), person.sub)
            if owner != person.sub:
                raise AnotherPerson(
                    f"another person of the provider has the role by this {person.claim}. The chain's office "
                    f'can give it by claim = "sub" and value = "{person.sub}"')
            link.execute(ADD, (now, person.provider, person.claim, person.value, person.sub))
        names = {value: sub for claim, value, sub in known if not claim}
        own = next((name for name, sub in names.items() if sub == person.sub), "")
        name = own or free_name(person.name, names)
        if folded(name) in map(folded, accounts):
            raise AnotherPerson("an account of this counter has this name")
        link.execute(ADD, (now, person.provider, "", name, person.sub))
    return name
