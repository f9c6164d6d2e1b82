"""What a day took by each kind of payment."""

from __future__ import annotations

import datetime
from collections.abc import Sequence

from portal_field.counter import payments, takings
from portal_field.counter.clerk import Counter
from portal_field.counter.journal import Sums
from portal_field.counter.receipts import Receipt, Receipts, by_payment
from portal_field.lib.message_marks import clerk_words

KEYS = ("sold", "sales", "refunded", "refunds")
REMAINS = clerk_words("Remains")


def rows(counter: Counter, receipts: Sequence[Receipt], journal: Sums) -> list[Sums]:
    """What receipts add up to by kind of payment. What the journal has without a receipt, as from an earlier
    version, has a row of its own."""
    sums = by_payment(receipts)
    rest = {key: getattr(journal, key) - sum(getattr(one, key) for one in sums) for key in KEYS}
    listed = [Sums(payments.words(counter.say, one.name), *(getattr(one, key) for key in KEYS))
              for one in sums]
    return [*listed, Sums(counter.say("without a receipt"), **rest)] if any(rest.values()) else listed


def of_day(counter: Counter, day: datetime.date, journal: Sums) -> list[Sums]:
    """Those of a day; none where the venue takes cash alone."""
    made = rows(counter, Receipts(counter.journal).of_day(day), journal)
    return made if not is_all_in_the_drawer(counter) or len(made) > 1 else []


def is_all_in_the_drawer(counter: Counter) -> bool:
    """Whether what is taken is cash, so that what remains is in the drawer."""
    return payments.kinds(counter.conf) == [payments.CASH]


def heads(counter: Counter) -> list[str]:
    """The heads of the columns of sums, after the first one, in words for a clerk."""
    last = takings.HEAD[-1] if is_all_in_the_drawer(counter) else REMAINS
    return [counter.say(name) for name in (*takings.HEAD[1:-1], last)]
