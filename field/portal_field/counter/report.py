"""The takings of a day as text, for the command `daily_report` of field.toml: a mail program, or a printer's.

    python3 -m portal_field.counter.report [DAY]

Without a day it is the one before, in the venue's zone. The command gets the text on its standard input.
"""

from __future__ import annotations

import datetime
import sqlite3
import subprocess
import sys

from portal_field.counter import payment_sums
from portal_field.counter.clerk import Counter
from portal_field.counter.journal import Sums
from portal_field.lib import venue_command
from portal_field.lib.desk_client import Desk, NoAnswer, Refused, credential, settings
from portal_field.lib.local_time import use_zone

LIMIT = 120     # seconds for the command
WIDE = 22       # signs of a column, as the longest head in any language has


def table(counter: Counter, head: str, rows: list[Sums]) -> list[str]:
    """Rows of sums as lines of text, below their heads."""
    money, number = counter.money, counter.language.number
    lines = [(head, *payment_sums.heads(counter))]
    lines += [(row.name, number(row.sold), money(row.sales), number(row.refunded), money(row.refunds),
               money(row.net))
              for row in rows]
    return ["", *(f"{name:<16}" + "".join(f"{cell:>{WIDE}}" for cell in cells) for name, *cells in lines)]


def report(counter: Counter, day: datetime.date) -> str:
    """What the cash-up page shows of the day."""
    say, answer = counter.say, counter.cash_up(day)
    sides = [Sums(say(name), side.sold, side.sales, side.refunded, side.refunds)
             for name, side in (("server", answer["server"]), ("journal", answer["journal"]))]
    sides += [Sums(say("made good"), len(answer["made_good"]))]
    paid = payment_sums.of_day(counter, day, answer["journal"])
    lines = [f"{counter.conf['house']}: {say('Takings')} {counter.language.day(day)}",
             *table(counter, "", sides), "",
             *answer["difference"], *([answer["doubt"]] if answer["doubt"] else []),
             *(table(counter, say("Payment"), paid) if paid else []),
             *table(counter, say("Plan"), answer["plans"]), *table(counter, say("Clerk"), answer["clerks"])]
    return "\n".join(lines) + "\n"


def main() -> int:
    """Passes the report of a day to the venue's command; the status is that command's."""
    conf = settings("/etc/portal/counter.toml")
    command: list[str] = conf.get("daily_report", [])
    if not command:
        print("no command is set that gets a report (daily_report in field.toml)", flush=True)
        return 0
    use_zone(conf["zone"])
    words = sys.argv[1:]
    day = datetime.date.fromisoformat(words[0]) if words else datetime.date.today() - datetime.timedelta(1)
    try:
        text = report(Counter(Desk(conf["desk_port"], credential("desk_token")), conf), day)
        return venue_command.run(command, text, LIMIT)
    except (NoAnswer, Refused, sqlite3.Error, OSError, subprocess.TimeoutExpired) as fault:
        print(f"the takings of {day} were not reported: {fault}", file=sys.stderr, flush=True)
        return 1


if __name__ == "__main__":
    sys.exit(main())
