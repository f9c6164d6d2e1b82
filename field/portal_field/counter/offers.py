"""What the counter offers: the plans of the last file that the server accepted, without those that
offers.toml takes out. That file is kept beside the journal, with a note for the doctor on what came of the
present files.
"""

from __future__ import annotations

import contextlib
import hashlib
import os
import pathlib
import sqlite3
import sys
import threading
from collections.abc import Callable, Iterator
from dataclasses import dataclass
from typing import Any, NamedTuple

from portal_field.counter.journal import DONE, NO_ANSWER, Journal
from portal_field.counter.sheet import rows
from portal_field.lib import plans, refusals
from portal_field.lib.desk_client import Desk, NoAnswer, Refused, Routes
from portal_field.lib.machine_time import Notes
from portal_field.lib.offers_file import OffersFile
from portal_field.lib.plans import GOODWILL, MOST_PLACE, BadFile, Difference, Plans, plans_in

ACCEPTED, NOTE = "accepted-plans.toml", "plans.json"
TRANSIENT = (NO_ANSWER, "no_memory", "stopped")     # answers that may be others the next time
BATCHES = """
SELECT plan, batch FROM acts WHERE act IN ('issue', 'one', 'replace') AND answer = 'done'
    ORDER BY number DESC"""
MOST_PRINT_FILES = 20       # that are asked for, to learn of which plans they are
Say = Callable[..., str]


class File(NamedTuple):
    """What a file holds, or why it cannot be read. Without both it is not there."""
    data: bytes = b""
    fault: str = ""

    @classmethod
    def read(cls, path: pathlib.Path) -> File:
        """Reads a file that may be missing."""
        try:
            return cls(path.read_bytes())
        except FileNotFoundError:
            return cls()
        except OSError as fault:
            return cls(fault=f"it cannot be read: {fault.strerror}")


@dataclass(frozen=True)
class Outcome:
    """What came of plans.toml. `answer`: DONE, NO_ANSWER or the word of the server's refusal. `fault`: what
    is wrong with the file itself, where it is known."""
    answer: str
    differences: tuple[Difference, ...] = ()
    fault: str = ""

    @property
    def is_refusal(self) -> bool:
        """Whether the server rejected the file, and sending it again would change nothing."""
        return self.answer != DONE and self.answer not in TRANSIENT

    @property
    def reasons(self) -> list[str]:
        """Why it is refused, in English."""
        if not self.is_refusal:
            return []
        return [*map(str, self.differences)] or [self.fault or refusals.of_word(self.answer).cause]


def key_of(data: bytes) -> str:
    """The idempotency key of a plans file: a database that took the file before does nothing with it."""
    return "plans-" + hashlib.sha256(data).hexdigest()[:30]


def print_warning(line: str) -> None:
    """Writes a warning into systemd's journal, by the priority of its line."""
    print(f"<4>counter: {line}", file=sys.stderr, flush=True)


class Offers:
    """`accepted_plans`: what can be sold. Threads may read it while another one loads."""

    def __init__(self, desk: Desk, conf: dict[str, Any], journal: Journal) -> None:
        self.desk, self.conf, self.journal = desk, conf, journal
        self.folder = pathlib.Path(journal.path).parent
        self.accepted_plans: Plans = {}
        self.outcome = Outcome(NO_ANSWER)
        self.is_offered: dict[str, bool] = Notes(str(self.folder)).read(NOTE).get("is_offered", {})
        self.named_goodwill: str = Notes(str(self.folder)).read(NOTE).get(GOODWILL, "")
        self.taxes: dict[str, int] = Notes(str(self.folder)).read(NOTE).get("taxes", {})
        self.labels = OffersFile()
        self.offers_fault = ""
        self.since: Any = None      # the start of the server, by its note, for which plans.toml was loaded
        self.files = File(), File()     # plans.toml and offers.toml, as they were read last
        self.note: dict[str, Any] = {}
        self.warnings: list[str] = []
        self.lock = threading.Lock()

    @property
    def prices(self) -> dict[str, int]:
        """In hundredths, by the plans' ids."""
        return {name: plan["price"] for name, plan in self.accepted_plans.items() if "price" in plan}

    @property
    def offered_prices(self) -> dict[str, int]:
        """Of the plans of which a new voucher can be, in the venue's order."""
        names = [name for name in self.prices if self.is_offered.get(name, True) and name != self.goodwill]
        return {name: self.prices[name] for name in sorted(
            names, key=lambda name: self.labels.of(name).place or MOST_PLACE + 1)}

    def name_of(self, plan: str, tag: str) -> str:
        """The name of a plan in a language; its id where the venue names none."""
        return self.labels.of(plan).name_in(tag) or plan

    @property
    def goodwill(self) -> str:
        """The plan of price 0 of the vouchers that replace one; empty where the venue has none."""
        return self.named_goodwill if self.prices.get(self.named_goodwill) == 0 else ""

    def rate_of(self, plan: str) -> int | None:
        """The tax that is in the price of a plan, in hundredths of a percent; None where nobody named it."""
        return self.taxes.get(plan, self.taxes.get(""))

    @property
    def priced_goodwill(self) -> str:
        """The plan that offers.toml names as goodwill though it has a price; empty where there is none."""
        return self.named_goodwill if self.prices.get(self.named_goodwill, 0) > 0 else ""

    # Loading

    def load(self, since: Any = None) -> None:
        """Sends plans.toml to the server, and reads offers.toml. A file that was refused is sent again where
        it, or the start of the server, is another one."""
        with self.lock:
            path = pathlib.Path(self.conf["plans"])
            files = File.read(path), File.read(path.with_name("offers.toml"))
            if self.outcome.is_refusal and (since, files) == (self.since, self.files):
                return
            try:
                self.outcome = self.send(files[0])
            except NoAnswer:
                self.outcome = Outcome(NO_ANSWER)
            if self.outcome.answer not in TRANSIENT:
                self.since = since
            elif not self.accepted_plans:
                self.accepted_plans = plans_in(File.read(self.folder / ACCEPTED).data)
            self.files = files
            self.read_offers(files[1])
            self.write_note()
            self.tell_guests()
            self.warn()

    def tell_guests(self) -> None:
        """Notes what is offered, for the guests' page; it goes with the boot, as the prices are loaded anew
        then."""
        rows = [{**self.accepted_plans[name], "id": name, "name": self.labels.of(name).name,
                 "names": self.labels.of(name).names} for name in self.offered_prices
                if plans.KEYS - {"id"} <= self.accepted_plans[name].keys()]
        with contextlib.suppress(OSError):
            Notes(self.conf.get("notes", "/run/portal-clock")).write("offers", plans=rows)

    def send(self, file: File) -> Outcome:
        """Sends a file of plans to the server, and returns whether it was accepted. NoAnswer: the server does
        not say so."""
        if not file.data:
            self.accepted_plans = self.plans_of_database({})
            return Outcome("bad_plans", fault=file.fault or "there is no such file, or nothing is in it")
        try:
            self.desk.request_json(Routes.PLANS, body=file.data, number=key_of(file.data))
        except Refused as refusal:
            if refusal.word in TRANSIENT:
                return Outcome(refusal.word)
            return self.refuse(file.data, refusal.word)
        self.accepted_plans = plans_in(file.data)
        self.keep(file.data)
        return Outcome(DONE)

    def refuse(self, data: bytes, word: str) -> Outcome:
        """What the server refuses with this word is not offered; why, as far as it can be said."""
        file = plans_in(data)
        self.accepted_plans = self.plans_of_database(file)
        if word == "plan_differs":
            database = {**self.plans_of_batches(), **self.accepted_plans}
            return Outcome(word, tuple(plans.compare(file, database)))
        try:
            plans.check_plans(data)
        except BadFile as fault:
            return Outcome(word, fault=str(fault) if word == "bad_plans" else "")
        return Outcome(word)

    def keep(self, data: bytes) -> None:
        """The whole file, or the one that was there."""
        path = self.folder / ACCEPTED
        part = path.with_name(f".{ACCEPTED}.part")
        try:
            with part.open("wb") as file:
                file.write(data)
                file.flush()
                os.fsync(file.fileno())
            part.replace(path)
        except OSError as fault:
            print_warning(f"{path} could not be written: {fault}")

    # What the database has

    def plans_of_database(self, file: Plans) -> Plans:
        """Those of the file that was accepted last. Where there is none yet, or this is another database:
        those of the refused file of which the server prints a batch, with the terms that it prints."""
        accepted = File.read(self.folder / ACCEPTED).data
        if accepted and self.has_taken(accepted):
            return plans_in(accepted)
        found = self.plans_of_batches()
        return {name: found[name] for name in file or found if name in found}

    def has_taken(self, data: bytes) -> bool:
        """Whether this database took a plans file: then its key is used. No session has the number 0, so
        nothing is closed."""
        try:
            self.desk.request_json(Routes.CLOSE, body={"session": 0}, number=key_of(data))
        except Refused as refusal:
            if refusal.word in TRANSIENT:
                raise NoAnswer(refusal.word) from refusal
            return refusal.word == "id_reused"
        return False

    def plans_of_batches(self) -> Plans:
        """Of the batches in the journal, the last one of each plan first."""
        found: Plans = {}
        try:
            batches = [(str(name), str(batch)) for name, batch in self.journal.asked(BATCHES)]
        except sqlite3.Error:
            return found
        count = 0
        for name, batch in batches:
            if name not in found and count < MOST_PRINT_FILES:
                found, count = found | self.plan_of_batch(name, batch), count + 1
        return found

    def plan_of_batch(self, name: str, batch: str) -> Plans:
        """A plan's price, time and data as the server prints them; nothing where it has no such batch."""
        try:
            row = rows(self.desk.request(Routes.PRINT, batch).decode())[0]
        except (Refused, IndexError):
            return {}
        terms = {key: int(row[key].replace(".", "") or 0) for key in ("price", "seconds", "bytes")}
        return {name: {"id": name, **terms}} if row["plan"] == name else {}

    # offers.toml

    def read_offers(self, file: File) -> None:
        """Where it has a mistake, what it said before counts."""
        self.offers_fault = file.fault
        try:
            if not file.fault:
                self.is_offered = plans.read_offers(file.data)
                self.named_goodwill = plans.read_goodwill(file.data)
                self.taxes = plans.read_taxes(file.data)
                self.labels = OffersFile.read(file.data)
        except BadFile as fault:
            self.offers_fault = str(fault)

    @property
    def unknown_plans(self) -> list[str]:
        """What offers.toml names and is no plan."""
        names = self.accepted_plans.keys() | plans_in(self.files[0].data).keys()
        named = [*self.is_offered, *filter(None, [self.named_goodwill, *self.taxes])]
        return [name for name in dict.fromkeys(named) if name not in names]

    # What is said of both files

    def write_note(self) -> None:
        """Writes what came of both files for the doctor, where that has changed."""
        plans_sum, offers_sum = (hashlib.sha256(file.data).hexdigest() for file in self.files)
        note = {"since": self.since, "plans": plans_sum, "answer": self.outcome.answer,
                "reasons": self.outcome.reasons, "count": len(self.accepted_plans), "offers": offers_sum,
                "is_offered": self.is_offered, "unknown_plans": self.unknown_plans,
                GOODWILL: self.named_goodwill, "priced_goodwill": self.priced_goodwill,
                "taxes": self.taxes}
        try:
            if note != self.note:
                Notes(str(self.folder)).write(NOTE, **note)
                self.note = note
        except OSError as fault:
            print_warning(f"the note on the plans could not be written: {fault}")

    def faults(self) -> Iterator[str]:
        """In English, each in one line."""
        path, outcome = pathlib.Path(self.conf["plans"]), self.outcome
        if outcome.is_refusal:
            yield (f"the server did not accept {path} ({outcome.answer}): {'; '.join(outcome.reasons)}. "
                   f"Do: {plans.advice(outcome.answer)}")
        if self.offers_fault:
            yield f"{path.with_name('offers.toml')}: {self.offers_fault}. What it said before counts"
        if self.unknown_plans:
            yield f"{path.with_name('offers.toml')}: there is no plan {', '.join(self.unknown_plans)}"
        if self.priced_goodwill:
            yield (f"{path.with_name('offers.toml')}: the plan {self.priced_goodwill} has a price, so it is "
                   "no goodwill")

    def warn(self) -> None:
        """Of each fault once."""
        faults = list(self.faults())
        for line in faults:
            if line not in self.warnings:
                print_warning(line)
        self.warnings = faults

    def notice(self, say: Say) -> tuple[str, ...]:
        """The lines that a clerk reads; none where all is well."""
        outcome, lines = self.outcome, list[str]()
        if outcome.answer != DONE:
            refusal = refusals.SILENT if outcome.answer == NO_ANSWER else refusals.of_word(outcome.answer)
            reasons = self.reasons(say, refusal.cause)
            lines += [say("The plans file was not loaded."), *reasons, say(refusal.advice)]
        if outcome.is_refusal:
            lines += [say("The counter offers what the server accepted before.") if self.accepted_plans else
                      say("Until then no new voucher can be sold or issued.")]
        if self.offers_fault:
            lines += [say("The file offers.toml has a mistake. What it said before counts."),
                      say("Why: %(reason)s.", reason=self.offers_fault)]
        for name in self.unknown_plans:
            lines += [say("The file offers.toml names %(plan)s, which is no plan.", plan=name)]
        if self.priced_goodwill:
            lines += [say("The file offers.toml names %(plan)s as goodwill, and that plan has a price.",
                          plan=self.priced_goodwill)]
        return tuple(lines)

    def reasons(self, say: Say, cause: str) -> list[str]:
        """Each key that differs, or what is wrong with the file."""
        if self.outcome.differences:
            return [say("Plan %(plan)s: %(key)s is %(new)s in the file, and %(old)s is loaded.",
                        plan=one.plan, key=one.key, new=plans.toml_value(one.in_file),
                        old=plans.toml_value(one.in_database))
                    for one in self.outcome.differences]
        reason = self.outcome.fault
        why = [say("Why: %(reason)s.", reason=reason)] if reason else []
        return [say(cause, word=repr(self.outcome.answer)), *why]
