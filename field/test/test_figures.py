"""Figures: the charts and tables of the takings, hours and plans by the journal, and files for spreadsheets."""

from __future__ import annotations

import csv
import datetime
import io
import os
import re
import time
import unittest
from unittest import mock

from desk_process import Routes
from test_counter import AtCounter

from portal_field.counter import charts, figures, spreadsheet, takings
from portal_field.counter.charts import Group
from portal_field.counter.journal import Act, Sums
from portal_field.lib.languages import Language

ENGLISH, GERMAN = Language("en", "counter"), Language("de", "counter")


def money(hundredths: int) -> str:
    return ENGLISH.money(hundredths, "EUR")


class Charts(unittest.TestCase):
    def test_lines_across_are_one_two_or_five_with_noughts(self) -> None:
        for most, step in ((1, 1), (5, 1), (6, 2), (14, 2), (15, 5), (16, 5), (700, 200), (1499, 200), (1500, 500), (9000, 2000)):
            self.assertEqual(charts.step_of(most), step, most)
        self.assertEqual(charts.step_of(2, 100), 100, "no line at a part of a euro")
        self.assertEqual(charts.step_of(129, lines=1), 100, "a small chart has few")

    def test_bars_stand_on_the_line_of_nought_and_are_as_high_as_their_values(self) -> None:
        self.assertIsNone(charts.chart([Group("a", "a", (0, 0))], ["sales", "refunds"], money))
        made = charts.chart([Group("Monday", "Mo", (300, 0)), Group("Tuesday", "Tu", (600, -300))], ["sales", "refunds"], money, 100)
        assert made
        self.assertEqual([tick.words for tick in made.ticks],
                         ["-€4.00", "-€2.00", "€0.00", "€2.00", "€4.00", "€6.00"])
        heights = {bar.words: round(bar.high, 6) for bar in made.bars if bar.kind == "sales"}
        self.assertEqual(heights, {"Monday: €3.00": 24, "Tuesday: €6.00": 48}, "80 in all, from -4 to 6")
        for bar in made.bars:
            edge = bar.top if bar.kind == "refunds" else bar.top + bar.high
            self.assertAlmostEqual(edge, made.line, msg=bar.words)
        self.assertEqual([mark.words for mark in made.names], ["Mo", "Tu"])
        self.assertEqual([mark.words for mark, _ in made.values], ["€3.00", "€6.00"])
        nought = next(tick for tick in made.ticks if tick.words == "€0.00")
        self.assertAlmostEqual(nought.at, made.line)

    def test_names_are_as_many_as_a_screen_has_room_for(self) -> None:
        made = charts.chart([Group(str(day), str(day), (1,)) for day in range(31)], ["sales"], str)
        assert made
        self.assertEqual([mark.words for mark in made.names], ["0", "4", "8", "12", "16", "20", "24", "28"])
        self.assertEqual([mark.words for mark in made.names if not mark.is_extra], ["0", "8", "16", "24"], "a narrow one")
        self.assertEqual(made.values, [], "31 values have no room")

    def test_two_weeks_stand_beside_one_another(self) -> None:
        days = [Sums(str(datetime.date(2026, 1, 5) + datetime.timedelta(at)), 1, 100 * (at + 1)) for at in range(14)]
        made = takings.two_weeks(days, ENGLISH, money)
        assert made
        first = [bar for bar in made.bars if bar.words.startswith("Mon")]
        self.assertEqual([(bar.kind, bar.words) for bar in first], [("sales", "Mon: €8.00"), ("before", "Mon: €1.00")])
        self.assertAlmostEqual(first[0].left + first[0].wide, first[1].left)


class Tables(unittest.TestCase):
    def test_months_and_weeks_have_names(self) -> None:
        for language, month, day, week in ((ENGLISH, "November 2026", "Nov 1", "2026-11-02 – 2026-11-05"),
                                           (GERMAN, "November 2026", "1. Nov.", "02.11.2026 – 05.11.2026")):
            self.assertEqual(takings.name_of("2026-11-01", "month", language), month)
            self.assertEqual(takings.short_name("2026-11-01", "day", language), day)
            self.assertEqual(takings.name_of("2026-11-02", "week", language, "2026-11-05"), week, "it ends with the table")
        self.assertEqual(takings.name_of("2026-12-01", "month", GERMAN), "Dezember 2026")

    def test_days_without_sales_are_one_line(self) -> None:
        rows = [Sums("2026-01-01", 1, 300), *(Sums(f"2026-01-0{day}") for day in (2, 3, 4)), Sums("2026-01-05", 0, 0, 1, 300),
                Sums("2026-01-06")]
        lines = takings.table(rows, "day", ENGLISH, "2026-01-06")
        self.assertEqual([(line.name, line.empty) for line in lines], [
            ("2026-01-01", 0), ("2026-01-02 – 2026-01-04", 3), ("2026-01-05", 0), ("2026-01-06", 1)])


class Files(unittest.TestCase):
    ROWS = [Sums("2026-01-05", 2, 123_456, 1, 300)]

    def test_the_german_file_has_semicolons_and_a_decimal_comma(self) -> None:
        text = takings.as_csv(self.ROWS, GERMAN)
        self.assertEqual(text, "\ufeffTag;Gutscheine verkauft;Geld ein;Gutscheine zurück;Geld zurück;In der Kasse\r\n"
                               "2026-01-05;2;1234,56;1;3,00;1231,56\r\n")

    def test_the_english_file_is_as_programs_know_it(self) -> None:
        self.assertEqual(takings.as_csv(self.ROWS, ENGLISH),
                         "day,sold,sales,refunded,refunds,net\r\n2026-01-05,2,1234.56,1,3.00,1231.56\r\n")

    def test_another_separator_may_be_chosen(self) -> None:
        self.assertIn("2;1234,56;1", takings.as_csv(self.ROWS, ENGLISH, ";"))
        self.assertIn("2,1234.56,1", takings.as_csv(self.ROWS, GERMAN, ","))

    def test_no_text_is_a_formula(self) -> None:
        cells: list[spreadsheet.Cell] = ["=1+1", "-1-1", "+x", "@x", "hour", -5, spreadsheet.amount(-300)]
        rows = list(csv.reader(io.StringIO(spreadsheet.as_csv(ENGLISH, ["a"], [cells]))))
        self.assertEqual(rows[1], ["'=1+1", "'-1-1", "'+x", "'@x", "hour", "-5", "-3.00"])


class Figures(AtCounter):
    def sold_at(self, moment: int, plan: str, number: str, price: int = 300) -> None:
        with mock.patch("time.time", lambda: moment):
            self.journal.add("anna", "here", [Act("sell", number, "done", "b1", plan, 1, price)])

    def test_hours_are_those_of_the_venues_zone(self) -> None:
        self.enterContext(mock.patch.dict(os.environ, TZ="CET-1CEST,M3.5.0,M10.5.0/3"))
        time.tzset()
        # 23:30 and 7:10 UTC of 30 and 31 July 2026: 1:30 and 9:10 of 31 July there
        for number, moment in (("s1", 1_785_454_200), ("s2", 1_785_481_800), ("s3", 1_785_481_860)):
            self.sold_at(moment, "hour", number)
        self.sold_at(1_785_481_860, "hour", "s3")       # sent twice
        found = figures.hours(self.journal, datetime.date(2026, 7, 31), datetime.date(2026, 7, 31))
        self.assertEqual([row for row in found if row.sold], [Sums("01", 1, 300), Sums("09", 2, 600)])
        self.assertEqual(len(found), 24)
        self.assertEqual(figures.hours(self.journal, datetime.date(2026, 7, 30), datetime.date(2026, 7, 30)), [])

    def test_plans_are_added_up_over_the_same_steps_as_the_takings(self) -> None:
        for number, day, plan in (("s1", 1, "hour"), ("s2", 2, "hour"), ("s3", 9, "hour"), ("s4", 9, "day")):
            self.sold_at(int(datetime.datetime(2026, 7, day, 12, tzinfo=datetime.timezone.utc).timestamp()), plan, number)
        found = figures.plans(self.journal, datetime.date(2026, 7, 1), datetime.date(2026, 7, 31), "week")
        self.assertEqual([(plan.name, plan.sold, plan.sales) for plan in found], [("hour", 3, 900), ("day", 1, 300)])
        self.assertEqual(found[0].steps, {"2026-07-01": Sums("2026-07-01", 2, 600), "2026-07-06": Sums("2026-07-06", 1, 300)})

    def test_the_page_of_the_takings_has_hours_and_plans_with_their_tables(self) -> None:
        self.desk.issue_codes("hour", "b1", 1)
        code = self.desk.desk.request(Routes.PRINT, "b1").decode().splitlines()[1].partition(",")[0]
        self.ask("/sell", code=code, request="s1")
        day = time.strftime("%Y-%m-%d")
        text = self.ask(f"/takings?from={day}&to={day}")[1]
        self.assertEqual(len(re.findall('<svg class="chart[^>]* role="img" aria-label="Bars [^"]*table below"', text)), 3)
        self.assertEqual(text.count("<details><summary>As a table</summary><table"), 2)
        self.assertIn("hour: 1 voucher sold, 3.00", text)
        self.assertIn(f'<td data-label="Hour">{time.strftime("%H")}:00</td>', text)

    def test_the_page_of_money_has_this_week_beside_the_last(self) -> None:
        self.assertNotIn("This week beside the last", self.ask("/money")[1], "nothing was sold")
        self.desk.sell_codes("hour", "b1", 2)
        status, text = self.ask("/money")
        self.assertIn("This week: 6.00", text)
        self.assertIn("Last week: 0.00; up to the same day: 0.00", text)
        self.relay.drops = True
        status, text = self.ask("/money")
        self.assertEqual((status, "This week" in text), (200, False), "without the server the forms are there")


if __name__ == "__main__":
    unittest.main()
