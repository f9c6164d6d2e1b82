"""The tables of the counter's journal about money: receipts with their kinds of payment, and the drawers."""

from __future__ import annotations

SCHEMA = """
CREATE TABLE IF NOT EXISTS receipts (   -- of what one form sold or refunded, written with the lines of acts
    number INTEGER PRIMARY KEY,
    series TEXT NOT NULL,       -- empty at first; a letter after an older journal was put back
    place INTEGER NOT NULL,     -- in its series, from 1
    moment INTEGER NOT NULL,    -- seconds since 1970
    clerk TEXT NOT NULL,
    form TEXT NOT NULL,         -- the number of the form
    act TEXT NOT NULL,          -- sell or refund
    payment TEXT NOT NULL,      -- a kind of the venue's list
    drawer TEXT NOT NULL,       -- its name; empty where the venue names none
    shift INTEGER NOT NULL,     -- the line of drawer_acts that opened the shift; 0: no shift was open
    UNIQUE (series, place)
) STRICT;
CREATE INDEX IF NOT EXISTS receipts_by_form ON receipts (form);
CREATE INDEX IF NOT EXISTS receipts_by_moment ON receipts (moment);
CREATE INDEX IF NOT EXISTS receipts_by_shift ON receipts (shift);
CREATE TRIGGER IF NOT EXISTS receipts_are_not_changed BEFORE UPDATE ON receipts
    BEGIN SELECT raise(ABORT, 'the journal only grows'); END;
CREATE TRIGGER IF NOT EXISTS receipts_are_not_deleted BEFORE DELETE ON receipts
    BEGIN SELECT raise(ABORT, 'the journal only grows'); END;
CREATE TABLE IF NOT EXISTS receipt_lines (
    entry INTEGER PRIMARY KEY,  -- the line of acts
    receipt INTEGER NOT NULL,   -- the line of receipts
    tax INTEGER                 -- hundredths of a percent; NULL where the plan has no rate
) STRICT;
CREATE INDEX IF NOT EXISTS receipt_lines_by_receipt ON receipt_lines (receipt);
CREATE TRIGGER IF NOT EXISTS receipt_lines_are_not_changed BEFORE UPDATE ON receipt_lines
    BEGIN SELECT raise(ABORT, 'the journal only grows'); END;
CREATE TRIGGER IF NOT EXISTS receipt_lines_are_not_deleted BEFORE DELETE ON receipt_lines
    BEGIN SELECT raise(ABORT, 'the journal only grows'); END;
CREATE TABLE IF NOT EXISTS receipt_looks (      -- each time that a receipt was shown to be printed
    number INTEGER PRIMARY KEY,
    receipt INTEGER NOT NULL,
    moment INTEGER NOT NULL,
    clerk TEXT NOT NULL
) STRICT;
CREATE INDEX IF NOT EXISTS receipt_looks_by_receipt ON receipt_looks (receipt);
CREATE TRIGGER IF NOT EXISTS receipt_looks_are_not_changed BEFORE UPDATE ON receipt_looks
    BEGIN SELECT raise(ABORT, 'the journal only grows'); END;
CREATE TRIGGER IF NOT EXISTS receipt_looks_are_not_deleted BEFORE DELETE ON receipt_looks
    BEGIN SELECT raise(ABORT, 'the journal only grows'); END;
CREATE TABLE IF NOT EXISTS drawer_acts (
    number INTEGER PRIMARY KEY,
    moment INTEGER NOT NULL,
    clerk TEXT NOT NULL,
    place TEXT NOT NULL,        -- the address of the clerk's computer
    request TEXT NOT NULL UNIQUE,       -- the number of the form
    drawer TEXT NOT NULL,
    act TEXT NOT NULL,          -- open, in, out or close
    shift INTEGER NOT NULL,     -- the line that opened the shift; its own number where it opens one
    sum INTEGER NOT NULL,       -- hundredths: the float, what was put in or taken out, or what was counted
    due INTEGER NOT NULL,       -- what should have been there when the shift was closed; else 0
    note TEXT NOT NULL          -- the reason of money in or out; what was noted at the end
) STRICT;
CREATE INDEX IF NOT EXISTS drawer_acts_by_shift ON drawer_acts (shift);
CREATE TRIGGER IF NOT EXISTS drawer_acts_are_not_changed BEFORE UPDATE ON drawer_acts
    BEGIN SELECT raise(ABORT, 'the journal only grows'); END;
CREATE TRIGGER IF NOT EXISTS drawer_acts_are_not_deleted BEFORE DELETE ON drawer_acts
    BEGIN SELECT raise(ABORT, 'the journal only grows'); END;
"""
LAST_TRIGGERS = ("receipts_are_not_deleted", "receipt_lines_are_not_deleted", "receipt_looks_are_not_deleted",
                 "drawer_acts_are_not_deleted")
# The shift of a drawer that is open now.
OPEN_SHIFT = """
SELECT number FROM drawer_acts AS opened WHERE drawer = ? AND act = 'open' AND NOT EXISTS (
    SELECT * FROM drawer_acts AS closed WHERE closed.shift = opened.number AND closed.act = 'close')
ORDER BY number DESC LIMIT 1"""
