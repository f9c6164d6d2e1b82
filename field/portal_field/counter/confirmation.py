"""What cannot be taken back is asked once more, with the sum of money that it comes to. When the form comes,
the server is asked whether that still holds."""

from __future__ import annotations

import sqlite3
from dataclasses import dataclass, field

from portal_field.counter import refunds, roles
from portal_field.counter.batch_sale import Unsold, Unused, unsold, unused
from portal_field.counter.clerk import Counter, Notice
from portal_field.counter.journal import Mark
from portal_field.counter.several import Several, codes_of
from portal_field.lib.desk_client import Refused
from portal_field.lib.forms import Form
from portal_field.lib.refusals import BY_WORD

MOST_UNTYPED = 20       # codes that are sold without typing their number


@dataclass(frozen=True)
class Confirmation:
    """A page that asks. `button`: empty where nothing can be done, for the `reason`."""
    heading: str
    facts: list[tuple[str, str]]
    button: str = ""
    hidden: dict[str, str] = field(default_factory=dict)
    typed: str = ""     # the label of the field where the number of codes is typed, if it is
    reason: str = ""


class HasChanged(Exception):
    """What the page said does not hold, so nothing was done. `asked`: the page that holds now."""

    def __init__(self, lines: tuple[str, ...], asked: Confirmation) -> None:
        super().__init__(*lines)
        self.notice, self.asked = Notice(False, lines), asked


# The pages

def close(counter: Counter, form: Form) -> Confirmation:
    """What is asked before a session is closed."""
    say, number = counter.say, form.whole("session")
    row = next((row for row in counter.sessions()["rows"] or () if row["number"] == number), None)
    facts = [(say("Device"), row["device"]), (say("Used"), row["used"])] if row else [
        (say("Device"), say("not in the gateway's list"))]
    heading = f"{say('Close')}: {say('Session %(number)s', number=number)}"
    return Confirmation(heading, facts, say("Close"), {"session": str(number)})


def refund(counter: Counter, form: Form) -> Confirmation:
    """Raises the error of the server where it would make no refund of this voucher."""
    found, say = counter.voucher(form), counter.say
    voucher, price = found["voucher"], found["price"]
    if word := refunds.refusal(voucher):
        raise Refused(BY_WORD[word].status, word)
    amount = refunds.amount(price, voucher)
    total = counter.money(amount)
    heading = say("Refund %(code)s: give back %(sum)s", code=voucher["code"], sum=total)
    facts = [(say("Price"), counter.money(price)), *counter.facts(voucher)]
    limit = roles.refund_limit(counter.conf)
    if limit is not None and amount > limit:
        return Confirmation(heading, facts, reason=say("A clerk refunds up to %(sum)s. Ask a manager.",
                                                       sum=counter.money(limit)))
    hidden = {"code": voucher["code"], "amount": str(amount)}
    return Confirmation(heading, facts, say("Give back %(sum)s", sum=total), hidden)


def sell_batch(counter: Counter, form: Form) -> Confirmation:
    """What is asked before the unsold codes of a batch are sold."""
    return of_batch(counter, unsold(counter.desk, form.word("batch")))


def of_batch(counter: Counter, state: Unsold) -> Confirmation:
    """The question about a batch whose unsold codes were counted."""
    say, say_plural, number = counter.say, counter.language.say_plural, counter.language.number
    facts = [(say("Plan"), state.plan), (say("Price"), counter.money(state.price)),
             (say("Codes"), number(state.codes))]
    if not state.count:
        reason = say("Its codes are past their date.") if state.is_late else say("All its codes were sold.")
        return Confirmation(say("Sell all codes of %(batch)s", batch=state.batch), facts, reason=reason)
    total, is_typed = counter.money(state.sum), state.count > MOST_UNTYPED
    facts += [(say("Unsold"), number(state.count)), (say("Sum"), total)]
    heading = say_plural("Sell %(num)s code of %(batch)s: take %(sum)s",
                         "Sell %(num)s codes of %(batch)s: take %(sum)s",
                         state.count, batch=state.batch, sum=total)
    button = say_plural("Sell %(num)s code for %(sum)s", "Sell %(num)s codes for %(sum)s", state.count,
                        sum=total)
    hidden = {"batch": state.batch} | ({} if is_typed else {"count": str(state.count)})
    return Confirmation(heading, facts, button, hidden,
                        say("Type how many codes you sell") if is_typed else "")


def refund_batch(counter: Counter, form: Form) -> Confirmation:
    """What is asked before the codes of a batch that nobody used are refunded."""
    return of_unused(counter, unused(counter.desk, form.word("batch")))


def of_unused(counter: Counter, state: Unused) -> Confirmation:
    """The question about a batch whose codes that can be refunded were counted."""
    say, say_plural, number = counter.say, counter.language.say_plural, counter.language.number
    count, total = len(state.refundable), counter.money(state.sum)
    facts = [(say("Plan"), state.plan), (say("Price"), counter.money(state.price)),
             (say("Codes"), number(len(state.listed)))]
    if not count:
        return Confirmation(say("Refund all unused codes of %(batch)s", batch=state.batch), facts,
                            reason=say("None of its codes is sold and unused."))
    facts += [(say("Sold and unused"), number(count)), (say("Sum"), total)]
    heading = say_plural("Refund %(num)s unused code of %(batch)s: give back %(sum)s",
                         "Refund %(num)s unused codes of %(batch)s: give back %(sum)s",
                         count, batch=state.batch, sum=total)
    is_typed = count > MOST_UNTYPED
    hidden = {"batch": state.batch} | ({} if is_typed else {"count": str(count)})
    return Confirmation(heading, facts, say("Give back %(sum)s", sum=total), hidden,
                        say("Type how many codes you refund") if is_typed else "")


PAGES = {"refund": refund, "close": close, "sell-batch": sell_batch, "refund-batch": refund_batch}
SALES = ("sell", "sell-several", "sell-batch")


# The forms

def check(counter: Counter, action: str, form: Form, number: str) -> None:
    """Raises HasChanged where what the page said does not hold any more, before anything is done."""
    if action in SALES and not Several(counter).is_begun(form, number):
        check_lost(counter, action, form)
    if action == "refund":
        check_refund(counter, form)
    elif action == "sell-batch" and not has_begun(counter, form, number):
        check_batch(counter, form)
    elif action == "refund-batch" and not Several(counter).is_begun(form, number):
        check_unused(counter, form)


def check_lost(counter: Counter, action: str, form: Form) -> None:
    """HasChanged: something is of a batch that is marked as lost, and the clerk was not asked about that
    mark."""
    if marks := counter.marks():
        lost = [marks[batch] for batch in sorted(batches_of(counter, form)) if batch in marks]
        asked = form.get("lost", "").split()
        if any(mark.request not in asked for mark in lost):
            raise HasChanged((counter.say("Nothing was sold."),), of_marks(counter, form, lost))


def batches_of(counter: Counter, form: Form) -> set[str]:
    """The batches of what a form sells. A code that was sold is none of them: the server says what it is."""
    found = {form["batch"]} if "batch" in form else set()
    for code in codes_of(form.get("codes", "") or form.get("code", "")):
        try:
            voucher = counter.voucher_of(code)
        except Refused:
            continue
        if voucher["sold"] is None:
            found.add(voucher["batch"])
    return found


def of_marks(counter: Counter, form: Form, marks: list[Mark]) -> Confirmation:
    """The question whether codes of batches that are marked as lost are sold all the same."""
    say, names = counter.say, ", ".join(mark.batch for mark in marks)
    hidden = {name: value for name, value in form.items() if name in ("code", "codes", "batch", "count")}
    return Confirmation(say("Marked as lost: %(batch)s", batch=names),
                        [(mark.batch, counter.words_of_mark(mark)) for mark in marks],
                        say("Sell all the same"), hidden | {"lost": " ".join(mark.request for mark in marks)})


def check_refund(counter: Counter, form: Form) -> None:
    """A voucher that the server refunds no more may have been refunded by this form: the server answers
    which."""
    try:
        now = refund(counter, form)
    except Refused:
        return
    if not now.button:
        raise HasChanged((counter.say("Nothing was refunded."), now.reason), now)
    if form.get("amount", now.hidden["amount"]) != now.hidden["amount"]:    # none: of an earlier version
        raise HasChanged((counter.say("Nothing was refunded."), counter.say(
            "The voucher was used after this page was shown. Look at the amount of the refund now.")), now)


def has_begun(counter: Counter, form: Form, number: str) -> bool:
    """Whether codes were sold by this form before. Then it goes on, and its codes are not counted again. A
    journal of an earlier version has lines of its sales alone."""
    if Several(counter).is_begun(form, number):
        return True
    try:
        return bool(counter.journal.steps(number))
    except sqlite3.Error:
        return False


def check_batch(counter: Counter, form: Form) -> None:
    """HasChanged: the number of codes that can be sold is not that of the form."""
    state, given = unsold(counter.desk, form.word("batch")), form.get("count", "")
    if given.lstrip("0") != str(state.count):
        raise HasChanged((counter.say("Nothing was sold."), counter.language.say_plural(
            "%(num)s code can be sold now, and the form says “%(given)s”.",
            "%(num)s codes can be sold now, and the form says “%(given)s”.",
            state.count, given=given[:8])), of_batch(counter, state))


def check_unused(counter: Counter, form: Form) -> None:
    """HasChanged: the number of codes that can be refunded is not that of the form."""
    state, given = unused(counter.desk, form.word("batch")), form.get("count", "")
    if given.lstrip("0") != str(len(state.refundable)):
        raise HasChanged((counter.say("Nothing was refunded."), counter.language.say_plural(
            "%(num)s code can be refunded now, and the form says “%(given)s”.",
            "%(num)s codes can be refunded now, and the form says “%(given)s”.",
            len(state.refundable), given=given[:8])), of_unused(counter, state))
