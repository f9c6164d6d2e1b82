"""Prices: whether somebody chose them before the first start, and whether the server accepted the plans."""

from __future__ import annotations

from collections.abc import Iterator
from typing import Any

from portal_field import KIT
from portal_field.doctor.base import readable
from portal_field.doctor.findings import Finding, Machine, good, warning, wrong
from portal_field.doctor.running import NOTES
from portal_field.lib.machine_time import Notes
from portal_field.lib.owned_files import read
from portal_field.lib.plans import (
    RESTART, BadFile, advice, check_plans, compare, plans_in, read_goodwill, read_offers, read_taxes)
from portal_field.settings.samples import is_sample, sum_of

PLANS, OFFERS = "/etc/portal/plans.toml", "/etc/portal/offers.toml"
STATE = "/var/lib/portal-counter"
NOTE, ACCEPTED = "plans.json", "accepted-plans.toml"    # as portal_field/counter/offers.py writes them
SAMPLE = KIT / "settings/plans.toml"
AT_SERVER = "plans at the server"


def plans(machine: Machine) -> Iterator[Finding]:
    """Whether the plans file is good: before the first start whether prices were chosen, later what came of
    it."""
    yield from check_acceptance(machine) if machine.is_installed else check_choice(machine)


def check_choice(machine: Machine) -> Iterator[Finding]:
    """Whether somebody chose the prices: a plan that was loaded once never changes, so nobody gets the
    sample's unasked. Where there is a database plans were loaded before."""
    path = machine.path(PLANS)
    is_own = path.exists() and not is_sample(path)
    if machine.prices_as_shipped or is_own or readable(machine.path(machine.DATABASE)):
        yield good(f"the prices in {PLANS} were chosen")
        return
    sample = plans_in((path if path.exists() else SAMPLE).read_bytes())
    prices = ", ".join(f"{name} {plan['price'] / 100:.2f}" for name, plan in sample.items())
    where = "the prices in" if path.exists() else "the prices that would be put into"
    yield wrong(f"{where} {PLANS} are a sample's: {prices}. A plan that was loaded never changes",
                "set them there before the first start, or take these: --prices-as-shipped")


def check_acceptance(machine: Machine) -> Iterator[Finding]:
    """Whether the server accepted both files, by the counter's note on what it sent to the server."""
    machine.needs_root("which plans the server accepted")
    note = Notes(str(machine.path(STATE))).read(NOTE)
    server = Notes(str(machine.path(NOTES))).read("state")
    if server.get("is") == "serves" and note.get("since") != server.get("since"):
        yield wrong(f"the counter has not sent {PLANS} to the server since that started",
                    f"{RESTART}; `journalctl -u portal-counter -n 20`", AT_SERVER)
        return
    yield check_plans_file(machine, note)
    yield from check_offers_file(machine, note)


def check_plans_file(machine: Machine, note: dict[str, Any]) -> Finding:
    """What the server said of this file; what it will say, where it has not been asked yet."""
    path = machine.path(PLANS)
    if not path.exists():
        return wrong(f"there is no {PLANS}",
                     f"put one there (the last that was accepted is {STATE}/{ACCEPTED}), then {RESTART}")
    word, reasons = str(note.get("answer", "")), list(map(str, note.get("reasons", ())))
    is_same = sum_of(path) == note.get("plans")
    if is_same and word == "done":
        return good(f"the server accepted {PLANS}: {note.get('count')} plans")
    if is_same and reasons:
        return wrong(f"the server did not accept {PLANS} ({word}): {'; '.join(reasons)}. The counter offers "
                     "what it accepted before", advice(word))
    word, reasons = foresee_refusal(machine, path.read_bytes())
    if word:
        return wrong(f"the server will not accept {PLANS}: {'; '.join(reasons)}", advice(word))
    if is_same or not note:
        return warning(f"the server has not been asked about {PLANS} yet",
                       "the counter does it once it serves", AT_SERVER)
    return warning(f"{PLANS} was changed after it was loaded", f"{RESTART}, so that it counts")


def foresee_refusal(machine: Machine, data: bytes) -> tuple[str, list[str]]:
    """The word with which the server will refuse a plans file, as far as that can be foreseen, and why."""
    try:
        check_plans(data)
    except BadFile as fault:
        return "bad_plans", [str(fault)]
    accepted = machine.path(f"{STATE}/{ACCEPTED}")
    is_loaded = accepted.exists() and readable(machine.path(machine.DATABASE))      # an owner may begin anew
    differences = compare(plans_in(data), plans_in(read(accepted)) if is_loaded else {})
    return "plan_differs" if differences else "", [str(one) for one in differences]


def free_minutes(machine: Machine) -> Iterator[Finding]:
    """Whether the plan of which guests get a voucher for nothing, where the venue names one, has no price."""
    name, path = machine.field.free_plan, machine.path(PLANS)
    if not name:
        return
    plan = plans_in((path if path.exists() else SAMPLE).read_bytes()).get(name)
    if plan is None:
        yield wrong(f"free_plan names {name}, and {PLANS} has no such plan: nothing is given",
                    f"add a plan with id = \"{name}\" and price = 0 there, then {RESTART}")
    elif plan.get("price") != 0:
        yield wrong(f"free_plan names {name}, and that plan has a price: nothing is given",
                    f"make a plan with price = 0 in {PLANS}, then {RESTART}, name that one, `portal-setup`")
    elif plan.get("uses") != 1:
        yield warning(f"free_plan names {name}, which has {plan.get('uses')} uses: a device gets one of them",
                      "name a plan with uses = 1, then `portal-setup`")
    else:
        yield good(f"each device gets a voucher of {name} a day for nothing, all together "
                   f"{machine.field.free_daily}")


def check_offers_file(machine: Machine, note: dict[str, Any]) -> Iterator[Finding]:
    """Whether offers.toml, which says what is not offered, is read and counts."""
    path = machine.path(OFFERS)
    try:
        data = path.read_bytes() if path.exists() else b""
        is_offered, goodwill, taxes = read_offers(data), read_goodwill(data), read_taxes(data)
    except BadFile as fault:
        yield wrong(f"{OFFERS}: {fault}. What it said before counts", advice(""))
        return
    unknown = ", ".join(note.get("unknown_plans", ()))
    priced = note.get("priced_goodwill", "")
    if note and (is_offered, goodwill, taxes) != (note.get("is_offered"), note.get("goodwill", ""),
                                                  note.get("taxes", {})):
        yield warning(f"{OFFERS} was changed after it was loaded", f"{RESTART}, so that it counts")
    elif unknown:
        yield warning(f"{OFFERS} names {unknown}, which is no plan", f"correct it, then {RESTART}")
    elif priced:
        yield warning(f"{OFFERS} names {priced} as goodwill, and that plan has a price: nothing can be made "
                      f"good", f"make a plan with price = 0, name that one, then {RESTART}")
    else:
        out = ", ".join(dict.fromkeys([*(name for name, offers in is_offered.items() if not offers),
                                       *([goodwill] if goodwill else [])]))
        yield good(f"each accepted plan is offered{f' but {out}' if out else ''}")
