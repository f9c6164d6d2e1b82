-- The tables of schema version 2, and two indexes that a server of this kind needs. Both desks read it.
CREATE TABLE IF NOT EXISTS portal_head(id INTEGER PRIMARY KEY, layout INTEGER NOT NULL,
    last_moment INTEGER NOT NULL, grants INTEGER NOT NULL, sessions INTEGER NOT NULL) STRICT;
CREATE TABLE IF NOT EXISTS portal_plans(id TEXT PRIMARY KEY NOT NULL, price INTEGER NOT NULL,
    uses INTEGER NOT NULL, seconds INTEGER NOT NULL, bytes INTEGER NOT NULL, shelf_days INTEGER NOT NULL,
    extend INTEGER NOT NULL) STRICT;
CREATE TABLE IF NOT EXISTS portal_batches(id TEXT PRIMARY KEY NOT NULL,
    plan_id TEXT NOT NULL REFERENCES portal_plans(id), issued INTEGER NOT NULL, expires INTEGER NOT NULL,
    size INTEGER NOT NULL) STRICT;
CREATE TABLE IF NOT EXISTS portal_vouchers(code TEXT PRIMARY KEY NOT NULL,
    batch_id TEXT NOT NULL REFERENCES portal_batches(id), place INTEGER NOT NULL, sold INTEGER,
    refunded INTEGER, amount INTEGER, UNIQUE(batch_id, place)) STRICT;
CREATE TABLE IF NOT EXISTS portal_sessions(number INTEGER PRIMARY KEY, device TEXT NOT NULL,
    plan_id TEXT NOT NULL REFERENCES portal_plans(id), opened INTEGER NOT NULL, used INTEGER NOT NULL,
    closed INTEGER) STRICT;
CREATE TABLE IF NOT EXISTS portal_grants(number INTEGER PRIMARY KEY,
    code TEXT NOT NULL REFERENCES portal_vouchers(code),
    session INTEGER NOT NULL REFERENCES portal_sessions(number), moment INTEGER NOT NULL,
    seconds INTEGER NOT NULL, bytes INTEGER NOT NULL) STRICT;
CREATE TABLE IF NOT EXISTS portal_counts(code TEXT PRIMARY KEY NOT NULL REFERENCES portal_vouchers(code),
    redeemed INTEGER NOT NULL) STRICT;
CREATE TABLE IF NOT EXISTS portal_totals(number INTEGER PRIMARY KEY REFERENCES portal_sessions(number),
    ends INTEGER, remaining INTEGER) STRICT;
CREATE INDEX IF NOT EXISTS sessions_of_device ON portal_sessions(device, number);
CREATE INDEX IF NOT EXISTS vouchers_sold ON portal_vouchers(sold) WHERE sold IS NOT NULL;
INSERT OR IGNORE INTO portal_head VALUES(1, 2, 0, 0, 0);
