"""Plans and prices, for managers: what is offered, a new price, a new plan."""

from __future__ import annotations

import sqlite3
import time
from dataclasses import dataclass, replace
from typing import TYPE_CHECKING, Any

import flask

from portal_field.counter import plan_changes
from portal_field.counter.clerk import Notice
from portal_field.counter.entrance import secret
from portal_field.counter.setting_files import CHANGED, Answer, CannotRead, SettingFiles, sum_of
from portal_field.counter.shifts import hundredths
from portal_field.guests.prices import worth
from portal_field.lib.forms import BadForm, Form
from portal_field.lib.language_names import GUESTS
from portal_field.lib.message_marks import clerk_words
from portal_field.lib.offers_file import Offer, OffersFile
from portal_field.lib.plans import (
    LIMITS, MOST_NAME, MOST_PLACE, BadFile, Plan, Plans, fault_of, hundredths_of_percent, is_name, plans_in)
from portal_field.settings.kinds import OFFERS, PLANS

if TYPE_CHECKING:
    from portal_field.counter.page import Pages

Reply = flask.Response
TIMES = {"s": (1, clerk_words("seconds")), "min": (60, clerk_words("minutes")),
         "h": (3600, clerk_words("hours")), "d": (86_400, clerk_words("days"))}
SIZES = {"B": (1, "B"), "MB": (10**6, "MB"), "GB": (10**9, "GB")}
NEW: Plan = {"price": 300, "uses": 1, "seconds": 3600, "bytes": 0, "shelf_days": 90, "extend": True}
WRONG = {"price": clerk_words("The price is an amount of money such as 12.50."),
         "name": clerk_words("A plan needs a name: one line of at most %(most)s signs."),
         "names": clerk_words("A name is one line of at most %(most)s signs."),
         "time": clerk_words("The time is a number without a point, of 366 days at most."),
         "data": clerk_words("The data is a number without a point, of 1,000,000 GB at most."),
         "both": clerk_words("A plan has a time or an amount of data, or both."),
         "uses": clerk_words("How often a code can be used is a number from 1 to 100,000."),
         "shelf_days": clerk_words("A code is good for 1 to 3,660 days."),
         "place": clerk_words("The place is a number from 1 to 999, or nothing."),
         "tax": clerk_words("The tax is a rate in percent from 0 to 100, such as 19 or 8.1, or nothing.")}


class BadField(Exception):
    """A field that is not what it must be. `rule`: of `WRONG`; `field`: its name in the form."""

    def __init__(self, rule: str, field: str = "") -> None:
        super().__init__(rule)
        self.rule, self.field = rule, field or rule


@dataclass(frozen=True)
class Files:
    """Both files of plans as they are now."""
    plans_text: str
    offers_text: str

    @property
    def plans(self) -> Plans:
        """Those that are what a plan must be."""
        return {name: plan for name, plan in plans_in(self.plans_text.encode()).items() if not fault_of(plan)}

    @property
    def offers(self) -> OffersFile:
        """What is said of them. BadFile."""
        return OffersFile.read(self.offers_text.encode())


def in_units(value: int, units: dict[str, tuple[int, str]]) -> tuple[int, str]:
    """A number in the largest unit in which it has no fraction."""
    return next((value // size, unit) for unit, (size, _) in reversed(units.items()) if value % size == 0)


def number(form: Form, name: str, least: int, most: int, rule: str = "") -> int:
    """A field with a number in digits; nothing typed is 0. BadField."""
    text = form.get(name, "") or "0"
    if not (text.isascii() and text.isdecimal() and len(text) <= 18 and least <= int(text) <= most):
        raise BadField(rule or name, name)
    return int(text)


def rate(text: str) -> int | float | None:
    """A rate of tax as it is typed. BadField."""
    try:
        value = float(text.replace(",", ".")) if text else None
        if value is not None:
            hundredths_of_percent(value)
    except (ValueError, BadFile) as fault:
        raise BadField("tax") from fault
    return value if value is None or value != int(value) else int(value)


def typed_of(plan: Plan, offer: Offer, languages: list[str], price: str) -> Form:
    """A plan as the fields of its form, with its price as it is typed."""
    spans, sizes = in_units(plan["seconds"], TIMES), in_units(plan["bytes"], SIZES)
    seconds = spans if plan["seconds"] else (0, "h")
    size = sizes if plan["bytes"] else (0, "GB")
    return Form({"price": price, "uses": str(plan["uses"]),
                 "time": str(seconds[0]), "time_unit": seconds[1], "data": str(size[0]), "data_unit": size[1],
                 "shelf_days": str(plan["shelf_days"]), "extend": "1" if plan["extend"] else "",
                 "offered": "" if offer.offered is False else "1", "name": offer.name,
                 "place": str(offer.place or ""), "tax": "" if offer.tax is None else str(offer.tax),
                 **{f"name_{tag}": offer.names.get(tag, "") for tag in languages}})


def terms_in(form: Form) -> Plan:
    """What the plan of a form gives, and for how much. BadField."""
    price = hundredths(form.get("price", ""))
    if price is None or price > LIMITS["price"][1]:
        raise BadField("price")
    unit, size = TIMES.get(form.get("time_unit", ""), (0,))[0], SIZES.get(form.get("data_unit", ""), (0,))[0]
    seconds = number(form, "time", 0, LIMITS["seconds"][1]) * unit
    count = number(form, "data", 0, LIMITS["bytes"][1]) * size
    for field, value, limit in (("time", seconds, LIMITS["seconds"][1]), ("data", count, LIMITS["bytes"][1])):
        if value > limit:
            raise BadField(field)
    if not seconds and not count:
        raise BadField("both", "time")
    return {"price": price, "uses": number(form, "uses", *LIMITS["uses"]), "seconds": seconds, "bytes": count,
            "shelf_days": number(form, "shelf_days", *LIMITS["shelf_days"]),
            "extend": bool(form.get("extend"))}


def offer_in(form: Form, before: Offer, languages: list[str], is_new: bool) -> Offer:
    """What is said of the plan of a form; names in languages that the form has not are kept. BadField."""
    name = form.get("name", "")
    if name and not is_name(name) or is_new and not name:
        raise BadField("name")
    names = dict(before.names)
    for tag in languages:
        if text := form.get(f"name_{tag}", ""):
            if not is_name(text):
                raise BadField("names", f"name_{tag}")
            names[tag] = text
        else:
            names.pop(tag, None)
    return Offer(name, names, number(form, "place", 0, MOST_PLACE), before.replaces,
                 None if form.get("offered") else False, rate(form.get("tax", "")))


class PlanPages:
    """The pages of plans."""

    def __init__(self, page: Pages, files: SettingFiles) -> None:
        self.page, self.files = page, files
        self.counter, self.say = page.counter, page.counter.say
        listed = ["en", self.counter.language.tag, *self.counter.conf.get("voucher_languages", [])]
        self.languages = list(dict.fromkeys(listed))

    def read(self) -> Files:
        """Both files. CannotRead; BadFile: offers.toml has a mistake."""
        files = Files(self.files.read(PLANS), self.files.read(OFFERS))
        OffersFile.read(files.offers_text.encode())
        return files

    # The list

    def row(self, name: str, plan: Plan, files: Files) -> dict[str, Any]:
        """A plan in the list."""
        offers, journal = files.offers, self.counter.journal
        try:
            old = plan_changes.old_codes(journal, files.plans, offers, name, time.time())
        except sqlite3.Error:
            old = {}
        return {"id": name, "name": offers.of(name).name_in(self.counter.language.tag) or name,
                "gives": worth(plan, self.counter.language), "money": plan["price"],
                "price": self.counter.typed_money(plan["price"]),
                "is_goodwill": name == offers.goodwill, "old": list(self.old_lines(old, files))}

    def old_lines(self, old: dict[str, int], files: Files) -> list[str]:
        """How many codes of each plan of before are not sold."""
        return [self.counter.language.say_plural(
            "%(num)s code of %(plan)s at %(price)s is not sold yet: it is sold at that price.",
            "%(num)s codes of %(plan)s at %(price)s are not sold yet: they are sold at that price.", count,
            plan=name, price=self.counter.money(files.plans[name]["price"])) for name, count in old.items()]

    def show(self, answer: Answer | None = None) -> Reply:
        """The list of the plans, with what came of a form."""
        notice = Notice(answer.good, answer.lines) if answer else None
        try:
            files = self.read()
        except (CannotRead, BadFile) as fault:
            return self.page.show("notice.html", 500, Notice(False, (self.say(
                "The files of the plans cannot be read: %(why)s.", why=fault),)), quiet=True)
        offers = files.offers
        listed = sorted(files.plans, key=lambda name: offers.of(name).place or MOST_PLACE + 1)
        rows = [self.row(name, files.plans[name], files) for name in listed]
        is_out = {name: offers.of(name).offered is False or name == offers.goodwill for name in listed}
        return self.page.show("plans.html", answer.status if answer else 200, notice, quiet=True,
                              offered=[row for row in rows if not is_out[row["id"]]],
                              others=[row for row in rows if is_out[row["id"]]],
                              lines=self.counter.offers.notice(self.say))

    # One plan

    def see(self) -> Reply:
        """The page of a plan, or of a new one."""
        try:
            files, name = self.read(), Form.from_query(flask.request).get("plan", "")
            return self.plan_page(name, self.now(name, files), files)
        except (CannotRead, BadFile):
            return self.show()
        except BadForm:
            return self.show(Answer(404, (self.say("There is no such plan."),)))

    def now(self, name: str, files: Files) -> Form:
        """The fields of a plan as it is. BadForm: there is none."""
        if name and name not in files.plans:
            raise BadForm("plan")
        plan = files.plans[name] if name else NEW
        return typed_of(plan, files.offers.of(name), self.languages, self.counter.typed_money(plan["price"]))

    def plan_page(self, name: str, typed: Form, files: Files, answer: Answer | None = None,
                  preview: list[tuple[str, str]] | None = None, seen: str = "") -> Reply:
        """The form of a plan. `preview`: what saving it would change; `seen`: by which it is known again."""
        shown = files.offers.of(name).name_in(self.counter.language.tag) or name
        units = {key: self.say(words) for key, (_, words) in TIMES.items()}
        lines = answer.lines if answer else ()
        return self.page.show("plan.html", answer.status if answer else 200,
                              Notice(False, lines) if lines else None, quiet=True, plan=name,
                              name=shown or self.say("A new plan"), typed=typed, times=units, sizes=SIZES,
                              languages={tag: GUESTS[tag] for tag in self.languages}, preview=preview,
                              wrong=answer.field if answer else "", seen=seen, most_name=MOST_NAME)

    def send(self) -> Reply:
        """Looks at the form of a plan, or saves it. A form with a price alone changes that alone."""
        try:
            form, files = Form.from_body(flask.request), self.read()
            name = form.get("plan", "")
            now = self.now(name, files)
        except (BadForm, CannotRead, BadFile):
            return self.show(Answer(400, (self.say("The request was not understood."),)))
        typed = form if "whole" in form else Form({**now, **form})
        try:
            offer = offer_in(typed, files.offers.of(name), self.languages, not name)
            change = plan_changes.change(files.plans_text, files.offers_text, name, terms_in(typed), offer)
        except BadField as fault:
            line = self.say(WRONG[fault.rule], most=MOST_NAME)
            return self.plan_page(name, typed, files, Answer(400, (line,), fault.field))
        preview = self.preview(name, change, files)
        seen, answer = sum_of(files.plans_text, files.offers_text, change.plans, change.offers), None
        if form.get("do") == "save":
            answer = Answer(409, (self.say(CHANGED),))
            if form.get("seen") == seen:
                answer = self.save(change, files, self.words_of(name, change, files))
                if answer.good:
                    return self.show(answer)
        return self.plan_page(name, typed, files, answer, preview, seen)

    def preview(self, name: str, change: plan_changes.Change, files: Files) -> list[tuple[str, str]]:
        """What saving would change, line by line."""
        say, money, language = self.say, self.counter.money, self.counter.language
        after = Files(change.plans, change.offers)
        old, new = files.plans.get(name, {}), after.plans[change.plan]
        offer, was = after.offers.of(change.plan), files.offers.of(name)
        yes = {True: say("yes"), False: say("no")}
        pairs = [(say("Price"), money(old["price"]) if old else "", money(new["price"])),
                 (say("It gives"), worth(old, language) if old else "", worth(new, language)),
                 (say("Name"), was.name or name, offer.name or change.plan),
                 (say("Offered"), yes[was.offered is not False] if old else "",
                  yes[offer.offered is not False])]
        lines = [(head, f"{before} → {now}" if before and before != now else now)
                 for head, before, now in pairs]
        if change.before:
            lines.append((say("Codes of before"), say(
                "What was printed or sold before keeps its price and what it gives. Its plan is “%(plan)s”.",
                plan=change.before)))
            old_codes = plan_changes.old_codes(self.counter.journal, after.plans, after.offers, change.plan,
                                               time.time())
            lines += [(say("Not sold yet"), line) for line in self.old_lines(old_codes, after)]
        return lines

    def words_of(self, name: str, change: plan_changes.Change, files: Files) -> str:
        """What is written, for the journal."""
        new = plans_in(change.plans.encode())[change.plan]["price"]
        old = files.plans[name]["price"] if name else new
        return f"{name or '-'} {old / 100:.2f} > {change.plan} {new / 100:.2f}"

    def save(self, change: plan_changes.Change, files: Files, what: str) -> Answer:
        """Has both files written, as far as they change, and loads them."""
        for kind, before, after in ((PLANS, files.plans_text, change.plans),
                                    (OFFERS, files.offers_text, change.offers)):
            if before != after:
                answer = self.files.write(kind, before, after, secret("password"), what)
                if not answer.good:
                    return answer
        return self.load(change.plan)

    def load(self, plan: str) -> Answer:
        """Loads the files, so that the next sale is at the new price; says whether the server has them."""
        counter = self.counter
        counter.load_plans(counter.notes.read("state").get("since"))
        lines = counter.offers.notice(self.say)
        if lines:
            return Answer(200, (self.say("It is saved."), *lines))
        price = counter.money(counter.offers.prices[plan])
        return Answer(200, (self.say("%(plan)s is saved, at %(price)s. It counts from the next sale on.",
                                     plan=counter.plan_name(plan), price=price),))


def with_tax(offers_text: str, tax: int | float | None) -> str:
    """offers.toml with the rate of tax of all plans that name none. BadFile: it has a mistake."""
    offers = OffersFile.read(offers_text.encode())
    return offers_text if offers.tax == tax else replace(offers, tax=tax).text


def add(app: flask.Flask, page: Pages, files: SettingFiles) -> PlanPages:
    """The pages of the plans, and their form."""
    plans = PlanPages(page, files)
    app.add_url_rule("/plans", "see plans", plans.show)
    app.add_url_rule("/plan", "see plan", plans.see)
    app.add_url_rule("/plan", "send plan", plans.send, methods=["POST"])
    return plans
