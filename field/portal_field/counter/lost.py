"""Batches that are marked as lost: a mark and its removal are lines of the journal, each with a reason."""

from __future__ import annotations

import sqlite3

from portal_field.counter.clerk import Acts, Counter, Notice
from portal_field.counter.journal import DONE, Act
from portal_field.counter.reasons import Question
from portal_field.lib.forms import Form


class LostBatches:
    """What the counter asks before a batch is marked, or a mark is taken off, and how it does it."""

    def __init__(self, counter: Counter) -> None:
        self.counter = counter

    def question(self, form: Form) -> Question:
        """Asks for the reason of a mark, or of its removal where the batch has one."""
        say, batch, listed = self.counter.say, form.word("batch"), self.counter.batch(form)
        facts = [(say("Plan"), listed[0]["plan"]), (say("Codes"), self.counter.language.number(len(listed)))]
        if mark := self.counter.marks().get(batch):
            return Question(say("Take the mark off %(batch)s", batch=batch),
                            [*facts, (say("Marked as lost"), self.counter.words_of_mark(mark))],
                            say("Take the mark off"), {"batch": batch}, action="found")
        return Question(say("Mark %(batch)s as lost", batch=batch), facts, say("Mark as lost"),
                        {"batch": batch}, action="lost")

    def mark(self, form: Form, number: str, acts: Acts) -> Notice:
        """Marks a batch as lost: each later sale of its codes asks first."""
        batch, say = form.word("batch"), self.counter.say
        return self.change("lost", form, number, acts) or Notice(
            True, (say("Batch %(batch)s is marked as lost.", batch=batch),
                   say("Each sale of its codes asks first.")))

    def take_off(self, form: Form, number: str, acts: Acts) -> Notice:
        """Takes the mark off a batch; both stay in the journal."""
        batch, say = form.word("batch"), self.counter.say
        return self.change("found", form, number, acts) or Notice(
            True, (say("The mark was taken off %(batch)s.", batch=batch),))

    def change(self, act: str, form: Form, number: str, acts: Acts) -> Notice | None:
        """Writes a mark or its removal down; what stood in its way, if something did."""
        listed, batch, say = self.counter.batch(form), form.word("batch"), self.counter.say
        try:
            acts.explain(number, act, batch, form.word("reason"))
        except sqlite3.Error as fault:
            return Notice(False, (say("Nothing was done."),
                                  say("The journal could not be written: %(why)s.", why=fault)))
        acts.append(Act(act, number, DONE, batch, listed[0]["plan"], len(listed)))
        return None
