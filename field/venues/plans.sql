-- The plans of a chain, beside the table of venues: what a venue is to have, and what came of it.
CREATE TABLE portal.plan_file (
    venue text PRIMARY KEY,             -- a venue, or * for all that have no row of their own
    plans text NOT NULL,                -- plans.toml
    offers text NOT NULL,               -- offers.toml, or nothing
    written timestamptz NOT NULL DEFAULT now());
CREATE TABLE portal.plan_push (
    venue text PRIMARY KEY,
    pushed timestamptz NOT NULL,        -- `written` of the file that was brought last
    fault text NOT NULL);               -- in what the venue differs, or why it has not got them; nothing: it has them
