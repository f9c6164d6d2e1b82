-- The view of all venues, for their office: copied from the venues by portal-venues collect, and never a source of truth.
-- Times are UTC; sums are in hundredths of the venue's currency; a day is one of the venue's zone. Codes and devices are
-- HMACs with a key of the machine. Who reads sees rows by portal_view.reader alone (portal-venues reader).
CREATE SCHEMA portal_view;
CREATE TABLE portal_view.venue (
    venue text PRIMARY KEY,
    machine text NOT NULL,
    house text NOT NULL,
    zone text NOT NULL,
    currency text NOT NULL,
    retired timestamptz,
    tried timestamptz,                  -- when it was collected last
    seen timestamptz,                   -- when its server answered last
    fault text NOT NULL DEFAULT '',     -- what failed at that time, or nothing
    certificate_ends timestamptz,       -- of its counter's page
    as_of timestamptz,                  -- the last entry of the database that its records were read from
    grants bigint NOT NULL DEFAULT 0,   -- redemptions and sessions that were read with it
    sessions bigint NOT NULL DEFAULT 0,
    stamp text NOT NULL DEFAULT '',     -- sizes and times of the files that were read
    whole timestamptz);                 -- when all of it was read last
CREATE TABLE portal_view.takings (
    venue text REFERENCES portal_view.venue,
    day date,
    sold bigint NOT NULL,
    sales bigint NOT NULL,
    refunded bigint NOT NULL,
    refunds bigint NOT NULL,
    is_over boolean NOT NULL,           -- whether the day was over when this was read
    from_copy boolean NOT NULL,         -- whether it comes from a copy of the database, as the server was silent
    since timestamptz NOT NULL DEFAULT now(),
    PRIMARY KEY (venue, day));
CREATE TABLE portal_view.takings_changed (  -- days that were over and changed all the same: both values
    venue text NOT NULL REFERENCES portal_view.venue,
    day date NOT NULL,
    seen timestamptz NOT NULL DEFAULT clock_timestamp(),
    was_sold bigint NOT NULL,
    was_sales bigint NOT NULL,
    was_refunded bigint NOT NULL,
    was_refunds bigint NOT NULL,
    sold bigint NOT NULL,
    sales bigint NOT NULL,
    refunded bigint NOT NULL,
    refunds bigint NOT NULL,
    PRIMARY KEY (venue, day, seen));
CREATE TABLE portal_view.older_copy (       -- a database was found to be older than what was read of it: a restore
    venue text NOT NULL REFERENCES portal_view.venue,
    seen timestamptz NOT NULL DEFAULT clock_timestamp(),
    was_as_of timestamptz NOT NULL,
    as_of timestamptz NOT NULL,
    PRIMARY KEY (venue, seen));
CREATE TABLE portal_view.plan (
    venue text REFERENCES portal_view.venue,
    plan text,
    price bigint NOT NULL,
    uses bigint NOT NULL,
    seconds bigint NOT NULL,            -- 0: not limited, as bytes
    bytes bigint NOT NULL,
    shelf_days bigint NOT NULL,
    extend boolean NOT NULL,
    PRIMARY KEY (venue, plan));
CREATE TABLE portal_view.batch (
    venue text REFERENCES portal_view.venue,
    batch text,
    plan text NOT NULL,
    issued timestamptz NOT NULL,
    expires timestamptz NOT NULL,
    size bigint NOT NULL,
    PRIMARY KEY (venue, batch));
CREATE TABLE portal_view.voucher (
    venue text REFERENCES portal_view.venue,
    code bytea,
    batch text NOT NULL,
    plan text NOT NULL,
    price bigint NOT NULL,
    uses bigint NOT NULL,
    expires timestamptz NOT NULL,
    sold timestamptz,
    refunded timestamptz,
    amount bigint,                      -- what was paid back
    redeemed bigint NOT NULL,
    PRIMARY KEY (venue, code));
CREATE INDEX voucher_code ON portal_view.voucher (code);
CREATE INDEX voucher_sold ON portal_view.voucher (sold);
CREATE TABLE portal_view.session (
    venue text REFERENCES portal_view.venue,
    number bigint,
    device bytea NOT NULL,
    plan text NOT NULL,
    opened timestamptz NOT NULL,
    ends timestamptz,                   -- by its time; none: not limited
    used bigint NOT NULL,               -- bytes
    closed timestamptz,                 -- by a clerk or a guest
    PRIMARY KEY (venue, number));
CREATE INDEX session_device ON portal_view.session (device);
CREATE INDEX session_opened ON portal_view.session (opened);

CREATE FUNCTION portal_view.watch_takings() RETURNS trigger LANGUAGE plpgsql AS $$
BEGIN
    IF old.is_over AND (old.sold, old.sales, old.refunded, old.refunds)
            IS DISTINCT FROM (new.sold, new.sales, new.refunded, new.refunds) THEN
        INSERT INTO portal_view.takings_changed (venue, day, was_sold, was_sales, was_refunded, was_refunds,
            sold, sales, refunded, refunds)
        VALUES (old.venue, old.day, old.sold, old.sales, old.refunded, old.refunds,
            new.sold, new.sales, new.refunded, new.refunds);
    END IF;
    new.since := now();
    RETURN new;
END $$;
CREATE TRIGGER watch BEFORE UPDATE ON portal_view.takings
    FOR EACH ROW EXECUTE FUNCTION portal_view.watch_takings();

-- Who reads what: a role of PostgreSQL, and a venue, or * for all of them.
CREATE TABLE portal_view.reader (
    role name,
    venue text,
    PRIMARY KEY (role, venue));
ALTER TABLE portal_view.reader ENABLE ROW LEVEL SECURITY;
CREATE POLICY own ON portal_view.reader FOR SELECT USING (role = current_user);
DO $$
DECLARE one text;
BEGIN
    FOREACH one IN ARRAY ARRAY['venue', 'takings', 'takings_changed', 'older_copy', 'plan', 'batch', 'voucher', 'session']
    LOOP
        EXECUTE format('ALTER TABLE portal_view.%I ENABLE ROW LEVEL SECURITY', one);
        EXECUTE format('CREATE POLICY own ON portal_view.%I FOR SELECT USING ('
            '''*'' IN (SELECT reader.venue FROM portal_view.reader WHERE role = current_user) OR '
            'venue IN (SELECT reader.venue FROM portal_view.reader WHERE role = current_user))', one);
    END LOOP;
END $$;

-- The rows of these are those that the reader may see, too.
CREATE VIEW portal_view.week WITH (security_invoker) AS
    SELECT venue, date_trunc('week', day::timestamp)::date AS week, sum(sold)::bigint AS sold, sum(sales)::bigint AS sales,
        sum(refunded)::bigint AS refunded, sum(refunds)::bigint AS refunds, sum(sales - refunds)::bigint AS net
    FROM portal_view.takings GROUP BY 1, 2;
CREATE VIEW portal_view.silent WITH (security_invoker) AS
    SELECT venue, machine, house, seen, CASE
            WHEN tried IS NULL THEN 'it was never collected'
            WHEN tried < now() - interval '1 hour' THEN 'its machine has not collected it for an hour'
            ELSE fault END AS fault
    FROM portal_view.venue
    WHERE retired IS NULL AND (tried IS NULL OR seen IS NULL OR fault <> '' OR tried < now() - interval '1 hour');
