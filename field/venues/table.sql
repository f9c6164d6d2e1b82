-- The table of venues, one for all machines of a chain. It can be run again. `settings` has the lines of a venue's
-- field.toml; the other columns follow from it. A machine writes its venues' files from it (portal-venues apply).
CREATE SCHEMA IF NOT EXISTS portal;
CREATE TABLE IF NOT EXISTS portal.venue (
    name text PRIMARY KEY CHECK (name ~ '^[a-z0-9]([a-z0-9-]{0,18}[a-z0-9])?$'),
    machine text NOT NULL,
    settings jsonb NOT NULL CHECK (settings ?& ARRAY['house', 'name', 'zone', 'counter_name', 'desk_port']),
    house text NOT NULL GENERATED ALWAYS AS (settings ->> 'house') STORED,
    counter_name text NOT NULL GENERATED ALWAYS AS (settings ->> 'counter_name') STORED,
    desk_port integer NOT NULL GENERATED ALWAYS AS ((settings ->> 'desk_port')::integer) STORED
        CHECK (desk_port BETWEEN 1 AND 65535),
    added timestamptz NOT NULL DEFAULT now(),
    retired timestamptz,
    UNIQUE (machine, desk_port));
CREATE UNIQUE INDEX IF NOT EXISTS venue_counter_name ON portal.venue (counter_name) WHERE retired IS NULL;
