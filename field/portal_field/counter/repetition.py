"""Forms that were carried out before: the browser's Back and Reload send a form again, with its idempotency
key."""

from __future__ import annotations

from dataclasses import replace

from portal_field.counter.clerk import PASSED_OVER, Counter, Notice
from portal_field.counter.journal import DONE, Entry, Journal
from portal_field.counter.several import NOT_REFUNDED, OF_A_CODE, codes_of
from portal_field.lib import local_time
from portal_field.lib.desk_client import NoAnswer, Refused, Routes
from portal_field.lib.forms import Form
from portal_field.lib.message_marks import clerk_words

SALE = (clerk_words("This sale was made at %(time)s."), clerk_words("It is not a new one. Take nothing."))
REFUND = (clerk_words("This refund was made at %(time)s."),
          clerk_words("It is not a new one. Give nothing back."))
WORDS = {   # by action
    "sell": SALE, "now": SALE, "sell-batch": SALE, "sell-several": SALE,
    "refund": REFUND, "refund-batch": REFUND,
    "issue": (clerk_words("This batch was issued at %(time)s."), clerk_words("It is not a new one.")),
    "replace": (clerk_words("This voucher was replaced at %(time)s."),
                clerk_words("It is not a new one. Give out no other one.")),
    "lost": (clerk_words("This batch was marked at %(time)s."), clerk_words("Nothing was done now.")),
    "found": (clerk_words("This mark was taken off at %(time)s."), clerk_words("Nothing was done now.")),
    "close": (clerk_words("This session was closed at %(time)s."), clerk_words("Nothing was done now."))}
TAKE = clerk_words("Only if no page said so before, as after a lost connection: take %(sum)s.")
GIVE_BACK = clerk_words("Only if no page said so before, as after a lost connection: give back %(sum)s.")


# Actions that send one code after another: as what, and the errors of codes that do not end them.
BY_CODE = {"now": ("sell", PASSED_OVER), "replace": ("sell", PASSED_OVER),
           "sell-batch": ("sell", PASSED_OVER),
           "sell-several": ("sell", OF_A_CODE), "refund-batch": ("refund", NOT_REFUNDED)}


def entry_of(journal: Journal, action: str, number: str) -> Entry | None:
    """What the journal has of a form that was carried out. A form that sells one code after another is in
    doubt until its last sale has an answer."""
    if action not in BY_CODE:
        return journal.carried_out(action, number)
    act, passed_over = BY_CODE[action]
    steps = journal.steps(number, act)
    done = list({entry.request: entry for entry in reversed(steps) if entry.answer == DONE}.values())
    if not done or steps[-1].answer not in (DONE, *passed_over):
        return None
    first = done[-1]
    is_one = all((entry.batch, entry.plan) == (first.batch, first.plan) for entry in done)
    return replace(steps[-1], codes=len(done), price=sum(entry.price for entry in done),
                   batch=first.batch if is_one else "", plan=first.plan if is_one else "")


def is_about(counter: Counter, action: str, form: Form, entry: Entry) -> bool:
    """Whether the form names what the entry is about: its batch, or a code of it that was sold or
    refunded."""
    if "batch" in form:
        return form["batch"] == entry.batch
    if "codes" in form:
        return sold_of(counter, codes_of(form["codes"])) >= entry.codes
    if "code" not in form:
        return True
    try:
        voucher = counter.desk.request_json(Routes.VOUCHER, form["code"])
    except NoAnswer:
        return True
    except Refused:
        return False
    is_done = voucher["refund" if action == "refund" else "sold"] is not None
    return is_done and entry.batch in ("", voucher["batch"])


def sold_of(counter: Counter, codes: list[str]) -> int:
    """How many of the codes of a list were sold; all, where the server does not say so."""
    count = 0
    for code in codes:
        try:
            count += counter.voucher_of(code)["sold"] is not None
        except NoAnswer:
            return len(codes)
        except Refused:
            continue
    return count


def earlier(counter: Counter, action: str, form: Form, number: str) -> Entry | None:
    """The entry of a form that was carried out before. None for a form that is new, that is in doubt, that
    the journal does not have, or whose idempotency key is that of a form with other words."""
    entry = entry_of(counter.journal, action, number) if action in WORDS else None
    return entry if entry and is_about(counter, action, form, entry) else None


def time_of(counter: Counter, entry: Entry) -> str:
    """When an entry was written, to the minute, and with the day where it is not today."""
    is_today = local_time.local(entry.moment).date() == local_time.today()
    return counter.language.clock(entry.moment,
                                  "HH:mm") if is_today else counter.language.moment(entry.moment)


def notice(counter: Counter, action: str, entry: Entry) -> Notice:
    """What the clerk reads where a form was carried out before."""
    made, is_not_new = WORDS[action]
    lines = (counter.say(made, time=time_of(counter, entry)), counter.say(is_not_new))
    has_sheet = action in ("now", "issue", "replace")
    return Notice(False, lines, repeats=True, batch=entry.batch if has_sheet else "")


def facts(counter: Counter, entry: Entry) -> list[tuple[str, str]]:
    """What the journal has of it."""
    say = counter.say
    listed = [(say("Clerk"), entry.clerk), (say("Batch"), entry.batch),
              (say("Plan"), counter.plan_name(entry.plan)),
              (say("Codes"), counter.language.number(entry.codes) if entry.codes else ""),
              (say("Sum"), counter.money(entry.price) if entry.price else "")]
    return [(name, value) for name, value in listed if value]


def money_left(counter: Counter, action: str, entry: Entry) -> str:
    """The line that says which money to take or to give back, where no page of the first sending came to
    the clerk."""
    text = GIVE_BACK if WORDS[action] is REFUND else TAKE
    return counter.say(text, sum=counter.money(entry.price)) if entry.price else ""
