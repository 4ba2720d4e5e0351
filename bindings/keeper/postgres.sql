-- The tables of engine 2. Whoever owns them runs this once; the fronts' role gets what is granted below and nothing else.
--   psql -v front=ROLE -f postgres.sql

CREATE TABLE perdigolh_ledger (
    name text PRIMARY KEY,
    step bigint NOT NULL,
    kept bytea NOT NULL
);
ALTER TABLE perdigolh_ledger ALTER COLUMN kept SET STORAGE EXTERNAL; -- random bytes: compressing them is lost work

CREATE TABLE perdigolh_journal (
    name text NOT NULL REFERENCES perdigolh_ledger,
    number bigint GENERATED ALWAYS AS IDENTITY,
    block text NOT NULL,
    PRIMARY KEY (name, number)
);

-- no DELETE: a name that was started stays started; no UPDATE of the journal: it is appended to
GRANT SELECT, INSERT, UPDATE ON perdigolh_ledger TO :"front";
GRANT SELECT, INSERT ON perdigolh_journal TO :"front";
