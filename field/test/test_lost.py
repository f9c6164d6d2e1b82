"""Batches that are marked as lost: each sale of their codes asks first, until the mark is taken off."""

from __future__ import annotations

import unittest

from test_several import ANNA, AtOnce


class Lost(AtOnce):
    def mark(self, batch: str, reason: str = "left in the bus", action: str = "lost") -> str:
        """Marks a batch as lost, or takes its mark off, from its page on."""
        form = self.fields(self.ask(f"/lost?batch={batch}", head=ANNA)[1], action)
        return self.ask(f"/{action}", head=ANNA, **form, reason=reason)[1]

    def test_each_sale_asks_first_and_says_who_marked_it_and_why(self) -> None:
        codes, other = self.desk.issue_codes("hour", "b1", 5), self.desk.issue_codes("hour", "b2")
        voucher, several = self.see(f"/voucher?code={codes[0]}")[1], self.listed(codes[1], *other)
        batch = self.ask("/sell-batch?batch=b1")[1]
        self.assertIn("Batch b1 is marked as lost.", self.mark("b1"))
        self.assertIn("left in the bus", self.see(f"/voucher?code={codes[0]}")[1])
        for action, text, count, sum_ in (("sell", voucher, 1, "3.00"), ("sell-several", several, 2, "6.00"), ("sell-batch", batch, 5, "9.00")):
            before = self.sold([*codes, *other])
            status, asks = self.ask(f"/{action}", head=ANNA, **self.fields(text, action))
            self.assertEqual((status, "anna, " in asks, ": left in the bus" in asks, "Marked as lost: b1" in asks),
                             (409, True, True, True), action)
            self.assertEqual(self.sold([*codes, *other]), before, "nothing was sold")
            form = self.fields(asks, action) | ({"count": "3"} if count == 5 else {})
            self.assertIn(f"Take {sum_}.", self.ask(f"/{action}", head=ANNA, **form)[1])
        self.assertEqual(self.sold([*codes, *other]), [True] * 6)

    def test_a_mark_is_taken_off_and_both_stay_in_the_journal(self) -> None:
        codes = self.desk.issue_codes("hour", "b1", 2)
        self.mark("b1")
        self.assertIn("The mark was taken off b1.", self.mark("b1", "it was in the drawer", "found"))
        self.assertIn("Take 3.00.", self.ask("/sell", head=ANNA, code=codes[0], request="s1")[1])
        self.assertEqual(self.journal.asked("SELECT act, about, clerk, reason FROM reasons ORDER BY number"), [
            ("lost", "b1", "anna", "left in the bus"), ("found", "b1", "anna", "it was in the drawer")])
        self.assertEqual([self.kept("lost")[0][1], self.kept("found")[0][3]], ["b1", "done"])
        self.mark("b1", "and lost again")
        self.assertEqual(self.ask("/sell", head=ANNA, code=codes[1], request="s2", lost="x")[0], 409, "another mark is asked about")

    def test_a_mark_needs_a_reason_and_a_batch(self) -> None:
        self.desk.issue_codes("hour", "b1")
        self.assertIn("Type the reason.", self.mark("b1", ""))
        self.assertEqual(self.journal.marks(), {})
        self.assertEqual((self.ask("/lost?batch=b9")[0], self.ask("/lost")[0]), (404, 400))

    def test_a_form_that_is_sent_again_marks_once_and_without_a_journal_not_at_all(self) -> None:
        self.desk.issue_codes("hour", "b1")
        form = self.fields(self.ask("/lost?batch=b1")[1], "lost")
        for words in ("Batch b1 is marked as lost.", "This batch was marked at "):
            self.assertIn(words, self.ask("/lost", head=ANNA, **form, reason="gone")[1])
        self.assertEqual(len(self.journal.asked("SELECT 1 FROM reasons")), 1)
        self.journal.path = str(self.folder / "nowhere/journal.db")
        self.assertIn("Nothing was done.", self.mark("b1"))


if __name__ == "__main__":
    unittest.main()
