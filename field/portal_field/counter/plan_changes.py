"""New plans files: a plan that was loaded never changes, so another price or other terms are a new plan,
which takes the place and the name of the one of before."""

from __future__ import annotations

import re
import unicodedata
from dataclasses import dataclass, replace

from portal_field.counter.journal import FIRST, Journal
from portal_field.lib.offers_file import Offer, OffersFile, toml
from portal_field.lib.plans import LIMITS, Plan, Plans, plans_in

TERMS = (*LIMITS, "extend")
LONGEST_ID = 32
NUMBER = re.compile(r"-(\d+)\Z")
# What was issued of each batch of a plan, and when; and what was sold of it.
ISSUED = f"""
SELECT batch, codes, moment FROM acts WHERE plan = ? AND act IN ('issue', 'one', 'replace') AND {FIRST}"""
SOLD = f"SELECT batch, count(*) FROM acts WHERE plan = ? AND act = 'sell' AND {FIRST} GROUP BY batch"


@dataclass(frozen=True)
class Change:
    """Both files as they are to be. `plan`: the id from now on; `before`: of the plan whose place it takes,
    or nothing."""
    plan: str
    before: str
    plans: str
    offers: str


def terms_of(plan: Plan) -> Plan:
    """What a plan gives, and for how much: all but its id."""
    return {key: plan[key] for key in TERMS if key in plan}


def family(plan: str, offers: OffersFile) -> set[str]:
    """The plans that had the place of one after another, this one too."""
    found, size = {plan}, 0
    while len(found) != size:
        size = len(found)
        for name, row in offers.rows.items():
            if row.replaces and (name in found or row.replaces in found):
                found |= {name, row.replaces}
    return found


def new_id(wish: str, taken: set[str]) -> str:
    """An id that no plan has: the one that is wished for, or with the next number behind it."""
    plain = unicodedata.normalize("NFKD", wish.lower()).encode("ascii", "ignore").decode()
    base = re.sub("[^a-z0-9]+", "-", plain).strip("-")[:LONGEST_ID] or "plan"
    if base not in taken:
        return base
    number, base = 2, NUMBER.sub("", base)
    while (name := f"{base[:LONGEST_ID - len(str(number)) - 1]}-{number}") in taken:
        number += 1
    return name


def table_of(name: str, terms: Plan) -> str:
    """A plan as a table of plans.toml."""
    return f"\n[[plan]]\nid = {toml(name)}\n" + "".join(f"{key} = {toml(terms[key])}\n" for key in TERMS)


def change(plans_text: str, offers_text: str, old: str, terms: Plan, offer: Offer) -> Change:
    """Both files with a plan as it is to be. `old`: its id now; nothing of a new plan. BadFile: offers.toml
    has a mistake."""
    plans, offers = plans_in(plans_text.encode()), OffersFile.read(offers_text.encode())
    same = [name for name in sorted(family(old, offers)) if name in plans and terms_of(plans[name]) == terms]
    rows = dict(offers.rows)
    if old in same:
        plan = old
    elif same:
        plan = same[0]      # it was so before, as after a price that was taken back
    else:
        plan = new_id(old or offer.name, set(plans) | set(rows))
        plans_text = plans_text.rstrip("\n") + "\n" + table_of(plan, terms)
    before = old if old and plan != old else ""
    rows[plan] = replace(offer, replaces=rows.get(plan, Offer()).replaces or ("" if same else before))
    if before:
        rows[before] = replace(offers.of(before), offered=False)
    is_goodwill = before and before == offers.goodwill and terms["price"] == 0
    made = replace(offers, rows=rows, goodwill=plan if is_goodwill else offers.goodwill)
    return Change(plan, before, plans_text, made.text)


def unsold(journal: Journal, plan: str, shelf_days: int, now: float) -> int:
    """How many codes of a plan were issued and not sold, and are still good, by the journal."""
    sold = {batch: int(str(count)) for batch, count in journal.asked(SOLD, plan)}
    return sum(max(0, int(str(codes)) - sold.get(batch, 0)) for batch, codes, moment in
               journal.asked(ISSUED, plan) if int(str(moment)) + 86_400 * shelf_days > now)


def old_codes(journal: Journal, plans: Plans, offers: OffersFile, plan: str, now: float) -> dict[str, int]:
    """The plans that had the place of this one before and of which codes are not sold: how many."""
    counts = {name: unsold(journal, name, plans[name].get("shelf_days", 1), now)
              for name in sorted(family(plan, offers) - {plan}) if name in plans}
    return {name: count for name, count in counts.items() if count}
