"""What the journal knows of sales beside the server's sums: the hours of the day, and the plans over time."""

from __future__ import annotations

import datetime
from collections.abc import Sequence
from dataclasses import dataclass, field
from typing import Any

from portal_field.counter.charts import Chart, Group, chart
from portal_field.counter.clerk import Counter
from portal_field.counter.journal import FIRST, Journal, Sums, span_of
from portal_field.counter.takings import bars, first_day, name_of, short_name, table, two_weeks
from portal_field.lib.desk_client import NoAnswer, Refused
from portal_field.lib.languages import Language

SALES = f"FROM acts WHERE act = 'sell' AND moment >= ? AND moment < ? AND {FIRST}"
HOURS = f"""
SELECT local_hour(moment) AS hour, count(*), sum(price) {SALES} GROUP BY hour"""
PLANS = f"""
SELECT plan, local_day(moment) AS day, count(*), sum(price) {SALES}
    GROUP BY plan, day ORDER BY day"""
MOST_PLANS = 6      # with a chart each; those with the most sales


@dataclass(frozen=True)
class PlanSales:
    """What was sold of a plan: in all, and in each step of time."""
    name: str
    sold: int = 0
    sales: int = 0
    steps: dict[str, Sums] = field(default_factory=dict)


def moments(first: datetime.date, last: datetime.date) -> tuple[int, int]:
    """The first moment of the first day, and the first one after the last."""
    return span_of(first)[0], span_of(last)[1]


def hours(journal: Journal, first: datetime.date, last: datetime.date) -> list[Sums]:
    """How many vouchers were sold in each hour of the day, in the venue's zone, and for how much."""
    found = {int(str(hour)): (int(str(count)), int(str(sales)))
             for hour, count, sales in journal.asked(HOURS, *moments(first, last))}
    return [Sums(f"{hour:02}", *found.get(hour, (0, 0))) for hour in range(24)] if found else []


def plans(journal: Journal, first: datetime.date, last: datetime.date, span: str) -> list[PlanSales]:
    """What was sold of each plan in each day, week or month; those with the most sales first."""
    found: dict[str, dict[str, Sums]] = {}
    for plan, day, count, sales in journal.asked(PLANS, *moments(first, last)):
        steps, name = found.setdefault(str(plan), {}), max(first_day(str(day), span), str(first))
        before = steps.get(name, Sums(name))
        steps[name] = Sums(name, before.sold + int(str(count)), before.sales + int(str(sales)))
    made = [PlanSales(name, sum(step.sold for step in steps.values()),
                      sum(step.sales for step in steps.values()), steps) for name, steps in found.items()]
    return sorted(made, key=lambda plan: (-plan.sold, plan.name))


def hours_chart(rows: Sequence[Sums], language: Language) -> Chart | None:
    """Bars of the vouchers sold in each hour."""
    return chart([Group(f"{row.name}:00", str(int(row.name)), (row.sold,)) for row in rows], ["sales"],
                 language.number)


def plan_chart(plan: PlanSales, names: Sequence[str], span: str, language: Language) -> Chart | None:
    """Bars of the vouchers sold of a plan, over the same steps as the others."""
    groups = [Group(name_of(name, span, language), short_name(name, span, language),
                    (plan.steps.get(name, Sums(name)).sold,)) for name in names]
    return chart(groups, ["sales"], language.number, lines=1)


@dataclass(frozen=True)
class Weeks:
    """The money in of this week and of the last, and of the last one up to the same day."""
    now: int
    before: int
    part: int
    chart: Chart
    rows: list[tuple[str, str, str]]


def weeks(counter: Counter, today: datetime.date) -> Weeks | None:
    """This week beside the last, by the server; nothing where it does not answer or nothing was sold."""
    monday = today - datetime.timedelta(today.weekday())
    try:
        rows = counter.days(str(monday - datetime.timedelta(7)), str(monday + datetime.timedelta(6)))
    except (NoAnswer, Refused):
        return None
    made = two_weeks(rows, counter.language, counter.money)
    if not made:
        return None
    sums = [row.sales for row in rows]
    listed = [(counter.language.day(datetime.date.fromisoformat(now.name)), counter.money(now.sales),
               counter.money(before.sales)) for before, now in zip(rows[:7], rows[7:])]
    return Weeks(sum(sums[7:]), sum(sums[:7]), sum(sums[:today.weekday() + 1]), made, listed)


def of_days(counter: Counter, reply: dict[str, Any], first: str, last: str) -> dict[str, Any]:
    """What the page of the takings shows beside the server's sums: its chart and lines, hours and plans."""
    rows, span, language, money = reply["rows"], reply["by"], counter.language, counter.money
    ends = datetime.date.fromisoformat(first), datetime.date.fromisoformat(last)
    names = [row.name for row in rows]
    listed, by_hour = plans(counter.journal, *ends, span), hours(counter.journal, *ends)
    shown = [(counter.plan_in_list(plan.name), plan, plan_chart(plan, names, span, language),
              [(name_of(step.name, span, language, last), language.number(step.sold), money(step.sales))
               for step in plan.steps.values()]) for plan in listed[:MOST_PLANS]]
    return {"chart": bars(rows, span, language, money, last), "lines": table(rows, span, language, last),
            "hours_chart": hours_chart(by_hour, language), "plans": shown,
            "others": [counter.plan_in_list(plan.name) for plan in listed[MOST_PLANS:]],
            "hours": [(f"{row.name}:00", language.number(row.sold), money(row.sales))
                      for row in by_hour if row.sold]}
