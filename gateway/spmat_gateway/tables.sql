-- What the ledger holds, in words that SQLite and PostgreSQL both understand. Each part makes of the version before it the next one.
-- version 1
CREATE TABLE IF NOT EXISTS accounts (
    name TEXT PRIMARY KEY, parent TEXT, enabled BIGINT NOT NULL DEFAULT 1, token TEXT, fingerprint TEXT,
    spent BIGINT NOT NULL DEFAULT 0, reserved BIGINT NOT NULL DEFAULT 0, running BIGINT NOT NULL DEFAULT 0,
    steps_a_day BIGINT, steps_in_all BIGINT, sessions BIGINT, session_steps BIGINT, memory BIGINT, workers BIGINT,
    seconds BIGINT, idle BIGINT, processor BIGINT);
CREATE TABLE IF NOT EXISTS days (
    account TEXT, day TEXT, spent BIGINT NOT NULL DEFAULT 0, reserved BIGINT NOT NULL DEFAULT 0,
    sessions BIGINT NOT NULL DEFAULT 0, PRIMARY KEY (account, day));
CREATE TABLE IF NOT EXISTS sessions (
    id TEXT PRIMARY KEY, account TEXT NOT NULL, parent TEXT, gateway TEXT NOT NULL, address TEXT,
    day TEXT NOT NULL, began DOUBLE PRECISION, ended DOUBLE PRECISION, state TEXT NOT NULL,
    reserved BIGINT NOT NULL, spent BIGINT NOT NULL DEFAULT 0, charged BIGINT NOT NULL DEFAULT 0,
    basis TEXT, cause TEXT, runs BIGINT DEFAULT 0, jobs BIGINT DEFAULT 0, bytes_in BIGINT DEFAULT 0,
    bytes_out BIGINT DEFAULT 0, processor DOUBLE PRECISION DEFAULT 0);
CREATE TABLE IF NOT EXISTS jobs (
    session TEXT, number BIGINT, name TEXT, entries BIGINT, steps BIGINT, PRIMARY KEY (session, number));
CREATE TABLE IF NOT EXISTS gateways (instance TEXT PRIMARY KEY, name TEXT, seen DOUBLE PRECISION);
CREATE TABLE IF NOT EXISTS refills (account TEXT, at DOUBLE PRECISION, steps BIGINT);
CREATE INDEX IF NOT EXISTS sessions_account ON sessions (account, began);
CREATE INDEX IF NOT EXISTS accounts_fingerprint ON accounts (fingerprint);
-- version 2: a schema with a version, sessions an hour, wishes of operators at other gateways, and indices by day and group
ALTER TABLE accounts ADD COLUMN sessions_an_hour BIGINT;
ALTER TABLE sessions ADD COLUMN asked TEXT;
DROP INDEX IF EXISTS sessions_open;
CREATE INDEX sessions_that_run ON sessions (gateway) WHERE state = 'open';
CREATE INDEX sessions_parent ON sessions (parent, began);
CREATE INDEX sessions_day ON sessions (day, began);
CREATE TABLE marks (name TEXT PRIMARY KEY, value TEXT NOT NULL);
-- version 3: tokens with an end; jobs and refills aren't listed any more
ALTER TABLE accounts ADD COLUMN token_ends DOUBLE PRECISION;
DROP TABLE jobs;
DROP TABLE refills;
DELETE FROM marks WHERE name = 'jobs';
