-- What `tools/try_pages` runs with. A part begins with a line of the form `-- == NAME`:
--
--   fixture        is there before each example of docs/RULES.md
--   RULE           is there beside it, for the examples of this rule or hazard; `RULE, instead` and `RULE, write` for these alone
--   beside         is there beside the fixture, for the statements of the parts `beside RULE`
--   beside RULE    statements of which the page of this rule speaks without an example: each line runs by itself
--   clean          is there beside the fixture, for the statements of what a clean answer does not see

-- == fixture
CREATE TABLE t (id bigint NOT NULL, a int, b int);
INSERT INTO t SELECT g, g, g FROM generate_series(1, 2000) g;
CREATE INDEX i ON t (a);
CREATE TABLE u (id bigint PRIMARY KEY, b int UNIQUE);
INSERT INTO u SELECT g, g FROM generate_series(1, 2000) g;

-- == require-concurrent-index-creation
CREATE TABLE logs (id bigint, a bigint) PARTITION BY RANGE (id);
CREATE TABLE logs_2024 PARTITION OF logs FOR VALUES FROM (1) TO (100000);
INSERT INTO logs SELECT g, g FROM generate_series(1, 2000) g;
CREATE INDEX logs_2024_a ON logs_2024 (a);
DROP INDEX i;

-- == ban-concurrent-index-creation-in-transaction
DROP INDEX i;

-- == ban-drop-constraint
ALTER TABLE t ADD CONSTRAINT k CHECK (a > 0);

-- == ban-drop-not-null
ALTER TABLE t ALTER a SET NOT NULL;

-- == ban-alter-domain-with-add-constraint
CREATE DOMAIN d AS int; ALTER TABLE t ADD c d;

-- == ban-drop-column
CREATE TABLE users (id bigint PRIMARY KEY, email text);
INSERT INTO users SELECT g, g FROM generate_series(1, 2000) g;
GRANT SELECT, INSERT, UPDATE, DELETE ON users TO app;

-- == ban-drop-default
ALTER TABLE t ALTER a SET DEFAULT 1;

-- == ban-alter-identity
ALTER TABLE t ALTER a SET NOT NULL;

-- == ban-drop-generated-expression
ALTER TABLE t DROP a; ALTER TABLE t ADD a int GENERATED ALWAYS AS (b * 2) STORED;

-- == ban-alter-generated-expression
ALTER TABLE t DROP a; ALTER TABLE t ADD a int GENERATED ALWAYS AS (b * 2) STORED;

-- == prefer-bigint-over-int
DROP TABLE t;

-- == prefer-bigint-over-smallint
DROP TABLE t;

-- == prefer-identity
DROP TABLE t;

-- == prefer-text-field
DROP TABLE t;

-- == prefer-timestamp-tz
DROP TABLE t;

-- == ban-char-field
DROP TABLE t;

-- == require-enum-value-ordering
CREATE TYPE mood AS ENUM ('sad', 'ok');

-- == ban-add-enum-value
CREATE TYPE mood AS ENUM ('sad', 'ok');

-- == ban-add-composite-attribute
CREATE TYPE point3 AS (x int, y int); ALTER TABLE t ADD c point3;

-- == ban-drop-database
DROP DATABASE IF EXISTS d; CREATE DATABASE d;

-- == ban-drop-table
CREATE TABLE a (id bigint REFERENCES u);
INSERT INTO a SELECT g FROM generate_series(1, 2000) g;
CREATE TABLE b (id bigint);

-- == ban-drop-view
CREATE VIEW v AS SELECT a FROM t;

-- == ban-drop-function
CREATE AGGREGATE a(int) (SFUNC = int4pl, STYPE = int); CREATE FUNCTION f(int) RETURNS int LANGUAGE sql RETURN 1;

-- == ban-drop-type
CREATE TYPE pair AS (x int, y int);
CREATE FUNCTION f(pair, pair) RETURNS pair LANGUAGE sql RETURN $1;
CREATE OPERATOR + (LEFTARG = pair, RIGHTARG = pair, FUNCTION = f);
CREATE TYPE mood AS ENUM ('sad', 'ok');

-- == ban-drop-trigger
CREATE FUNCTION f() RETURNS trigger LANGUAGE plpgsql AS 'BEGIN RETURN NEW; END';
CREATE TRIGGER audit BEFORE INSERT ON t FOR EACH ROW EXECUTE FUNCTION f();

-- == ban-drop-schema
CREATE SCHEMA o;

-- == ban-drop-sequence
CREATE SEQUENCE o;

-- == ban-drop-domain
CREATE DOMAIN o AS int;

-- == ban-drop-extension
CREATE EXTENSION pg_trgm;

-- == ban-truncate-cascade
DROP TABLE t; CREATE TABLE t (id bigint PRIMARY KEY); CREATE TABLE orders (id bigint REFERENCES t);

-- == require-concurrent-partition-detach
DROP TABLE t;
CREATE TABLE t (id bigint, a bigint) PARTITION BY RANGE (id);
CREATE TABLE p PARTITION OF t FOR VALUES FROM (1) TO (100000);
INSERT INTO t SELECT g, g FROM generate_series(1, 2000) g;

-- == ban-detach-inheritance
CREATE TABLE logs (id bigint) PARTITION BY RANGE (id);
CREATE TABLE logs_2024 PARTITION OF logs FOR VALUES FROM (1) TO (100);

-- == renaming-column
CREATE TABLE users (id bigint PRIMARY KEY, email text);
INSERT INTO users SELECT g, g FROM generate_series(1, 2000) g;
GRANT SELECT, INSERT, UPDATE, DELETE ON users TO app;

-- == renaming-table
CREATE TABLE users (id bigint PRIMARY KEY, email text);
INSERT INTO users SELECT g, g FROM generate_series(1, 2000) g;
GRANT SELECT, INSERT, UPDATE, DELETE ON users TO app;

-- == renaming-object
CREATE FUNCTION total() RETURNS bigint LANGUAGE sql RETURN 1;

-- == ban-set-schema
CREATE SCHEMA n;

-- == ban-disable-trigger
CREATE FUNCTION f() RETURNS trigger LANGUAGE plpgsql AS 'BEGIN RETURN NEW; END';
CREATE TRIGGER audit BEFORE INSERT ON t FOR EACH ROW EXECUTE FUNCTION f();
CREATE TABLE staging (id bigint, a int);

-- == ban-replica-identity
ALTER TABLE t ALTER a SET NOT NULL; CREATE UNIQUE INDEX t_a ON t (a);

-- == ban-replace-view-function
CREATE VIEW v AS SELECT 2;

-- == ban-drop-policy
CREATE POLICY p ON t TO app USING (a < 100);

-- == ban-alter-policy-condition
CREATE POLICY p ON t TO app USING (a < 100);

-- == ban-alter-policy-roles
CREATE POLICY p ON t TO app USING (a < 100);

-- == ban-alter-function-options
CREATE FUNCTION f(int) RETURNS int LANGUAGE sql RETURN 1;

-- == ban-alter-view-options
CREATE VIEW v AS SELECT a FROM t;

-- == ban-alter-database-options
DROP DATABASE IF EXISTS d; CREATE DATABASE d;

-- == ban-alter-extension
CREATE EXTENSION pg_trgm VERSION '1.3';

-- == ban-alter-sequence-values
CREATE SEQUENCE ids;

-- == prefer-robust-stmts
ALTER TABLE t ADD CONSTRAINT k CHECK (a > 0);

-- == ban-duplicate-column-assignments
ALTER TABLE t ADD state text, ADD sent int;

-- == build-under-timeout
DROP INDEX i;

-- == invalid-index-kept, instead
UPDATE pg_index SET indisvalid = false WHERE indexrelid = 'i'::regclass;

-- == invalid-index-kept, write
DROP INDEX i;

-- == refresh-blocks-reads
CREATE MATERIALIZED VIEW m AS SELECT id AS a FROM u; CREATE UNIQUE INDEX ON m (a);

-- == adding-foreign-key-constraint
CREATE TABLE logs (id bigint, a int) PARTITION BY RANGE (id);
CREATE TABLE logs_2024 PARTITION OF logs FOR VALUES FROM (1) TO (100000);
INSERT INTO logs SELECT g, g FROM generate_series(1, 2000) g;
ALTER TABLE logs_2024 ADD CONSTRAINT logs_a_fkey FOREIGN KEY (a) REFERENCES u (b);

-- == changing-column-type
CREATE SEQUENCE t_id_seq AS integer OWNED BY t.id;
ALTER TABLE t ALTER id SET DEFAULT nextval('t_id_seq'), ADD PRIMARY KEY (id), ADD id_new bigint;
UPDATE t SET id_new = id;
ALTER TABLE t ALTER id_new SET NOT NULL;
CREATE UNIQUE INDEX t_id_new_key ON t (id_new);
CREATE FUNCTION t_id_new() RETURNS trigger LANGUAGE plpgsql AS 'BEGIN NEW.id_new := NEW.id; RETURN NEW; END';
CREATE TRIGGER t_id_new BEFORE INSERT OR UPDATE ON t FOR EACH ROW EXECUTE FUNCTION t_id_new();

-- == beside
CREATE EXTENSION pg_trgm;
ALTER TABLE t ADD v varchar(50), ADD n numeric(10, 2), ADD ts timestamp, ADD c char(5), ADD s text, ADD j json;
UPDATE t SET v = 'x', n = 1, ts = now(), c = 'x', s = 'x', j = '{}';
CREATE INDEX t_v ON t (v);
CREATE TABLE x (v varchar(50), w varchar(50) CHECK (w <> ''));
INSERT INTO x SELECT g, g FROM generate_series(1, 2000) g;
CREATE INDEX x_v ON x (lower(v)); CREATE INDEX x_trgm ON x USING gin (v gin_trgm_ops);
CREATE TABLE w (id bigint REFERENCES u); ALTER TABLE w RENAME CONSTRAINT w_id_fkey TO w_u;
CREATE TABLE w2 (b int REFERENCES u (b)); INSERT INTO w2 SELECT b FROM u;
CREATE DOMAIN positive AS bigint CHECK (VALUE > 0); CREATE DOMAIN plain AS bigint DEFAULT 1;
ALTER TABLE u ADD c plain, ADD d positive; UPDATE u SET d = 1;
CREATE TABLE logs (id bigint) PARTITION BY RANGE (id);
CREATE TABLE logs_2024 PARTITION OF logs FOR VALUES FROM (1) TO (100); CREATE TABLE rest PARTITION OF logs DEFAULT;
CREATE TABLE parent (id bigint); CREATE TABLE child () INHERITS (parent);
CREATE VIEW v AS SELECT a FROM t; CREATE RULE r AS ON DELETE TO u DO INSTEAD NOTHING;
CREATE FUNCTION f() RETURNS trigger LANGUAGE plpgsql AS 'BEGIN RETURN NEW; END';
CREATE TRIGGER audit BEFORE INSERT ON t FOR EACH ROW EXECUTE FUNCTION f();
CREATE TYPE point3 AS (x int, y int); CREATE TABLE points OF point3;
INSERT INTO points SELECT g, g FROM generate_series(1, 2000) g;
CREATE SCHEMA o; CREATE TABLE o.a (id bigint); CREATE TYPE mood AS ENUM ('ok'); CREATE TABLE m (id bigint, feels mood);

-- == beside constraint-missing-not-valid
BEGIN; ALTER TABLE t ADD CONSTRAINT f FOREIGN KEY (a) REFERENCES u NOT VALID; ALTER TABLE t VALIDATE CONSTRAINT f; COMMIT;
BEGIN; ALTER TABLE t ADD CONSTRAINT k CHECK (a > 0) NOT VALID; ALTER TABLE t VALIDATE CONSTRAINT k; COMMIT;
ALTER TABLE t ADD UNIQUE (a) NOT VALID;
ALTER TABLE t ADD EXCLUDE (a WITH =) NOT VALID;
ALTER TABLE t ADD EXCLUDE (a WITH =);

-- == beside adding-foreign-key-constraint
ALTER TABLE t ADD COLUMN z bigint REFERENCES u;
CREATE TABLE n (id bigint REFERENCES u);
ALTER TABLE logs ADD FOREIGN KEY (id) REFERENCES u NOT VALID;

-- == beside adding-serial-primary-key-field
CREATE UNIQUE INDEX k ON t (b); ALTER TABLE t ADD PRIMARY KEY USING INDEX k;
CREATE UNIQUE INDEX k ON t (b); ALTER TABLE t ADD CHECK (b IS NOT NULL); ALTER TABLE t ADD PRIMARY KEY USING INDEX k;

-- == beside ban-drop-constraint
ALTER TABLE w DROP CONSTRAINT w_u;
ALTER DOMAIN positive DROP CONSTRAINT positive_check;

-- == beside ban-drop-not-null
ALTER DOMAIN plain DROP NOT NULL;

-- == beside ban-create-domain-with-constraint
ALTER TABLE t ADD COLUMN z positive;

-- == beside ban-alter-domain-with-add-constraint
BEGIN; ALTER DOMAIN plain ADD CONSTRAINT k CHECK (VALUE > 0) NOT VALID; ALTER DOMAIN plain VALIDATE CONSTRAINT k; COMMIT;
ALTER DOMAIN positive SET NOT NULL;

-- == beside changing-column-type
ALTER TABLE t ALTER v TYPE varchar(100);
ALTER TABLE t ALTER v TYPE text;
ALTER TABLE t ALTER n TYPE numeric(12, 2);
ALTER TABLE x ALTER v TYPE text;
ALTER TABLE x ALTER w TYPE text;
ALTER TABLE t ALTER v TYPE varchar(50) COLLATE "POSIX";
SET timezone = 'UTC'; ALTER TABLE t ALTER ts TYPE timestamptz;
SET timezone = 'Europe/Berlin'; ALTER TABLE t ALTER ts TYPE timestamptz;
ALTER TABLE t ALTER b TYPE bigint;
ALTER TABLE t ALTER v TYPE varchar(20);
ALTER TABLE t ALTER n TYPE numeric(10, 3);
ALTER TABLE t ALTER c TYPE text;
ALTER TABLE t ALTER j TYPE jsonb;
ALTER TYPE point3 ALTER ATTRIBUTE x TYPE bigint CASCADE;
ALTER TABLE u ALTER b TYPE bigint;
ALTER TABLE w2 ALTER b TYPE bigint;
ALTER TABLE u ALTER c TYPE bigint;

-- == beside adding-field-with-default
ALTER TABLE t ADD COLUMN z bigserial;
ALTER TABLE t ADD COLUMN z bigint GENERATED BY DEFAULT AS IDENTITY;
ALTER TABLE t ADD COLUMN z bigint GENERATED ALWAYS AS (a + 1) STORED;
ALTER TABLE t ADD COLUMN z positive DEFAULT 1;
ALTER TABLE t ADD COLUMN z int DEFAULT -1;
ALTER TABLE t ADD COLUMN z timestamptz DEFAULT (now());
ALTER TABLE t ADD COLUMN z timestamptz DEFAULT now() - interval '1 day';
ALTER TABLE t ADD COLUMN z date DEFAULT CURRENT_DATE;
ALTER TABLE t ADD COLUMN z text DEFAULT CURRENT_USER;
ALTER TABLE t ADD COLUMN z time DEFAULT LOCALTIME;
ALTER TABLE t ADD COLUMN z timestamptz DEFAULT CURRENT_TIMESTAMP(3);
ALTER TABLE t ADD COLUMN z text DEFAULT lower('A');
ALTER TABLE t ADD COLUMN z date DEFAULT date_trunc('day', now());
ALTER TABLE t ADD COLUMN z text DEFAULT to_char(now(), 'YYYY');
ALTER TABLE t ADD COLUMN z jsonb DEFAULT jsonb_build_object();
ALTER TABLE t ADD COLUMN z bigint DEFAULT 0;

-- == beside ban-drop-default
ALTER DOMAIN plain DROP DEFAULT;

-- == beside ban-set-default
ALTER DOMAIN plain SET DEFAULT 2;

-- == beside adding-not-nullable-field
ALTER TABLE t ADD CONSTRAINT n CHECK (a IS NOT NULL AND b > 0); ALTER TABLE t ALTER a SET NOT NULL; ALTER TABLE t DROP CONSTRAINT n;
ALTER TABLE t ADD CONSTRAINT n CHECK (a IS NOT NULL); ALTER TABLE t ALTER a SET NOT NULL, DROP CONSTRAINT n;
ALTER TABLE t ADD CONSTRAINT n CHECK (a > 0); ALTER TABLE t ALTER a SET NOT NULL;
ALTER TABLE t ADD CONSTRAINT n CHECK (a IS NOT NULL OR b > 0); ALTER TABLE t ALTER a SET NOT NULL;

-- == beside ban-add-column
ALTER TABLE logs ADD COLUMN z bigint;
ALTER TABLE parent ADD COLUMN z bigint;
ALTER TABLE parent ADD CONSTRAINT z CHECK (id > 0) NOT VALID;

-- == beside ban-drop-table
DROP TABLE logs_2024;

-- == beside prefer-robust-stmts
ALTER TABLE t ADD COLUMN IF NOT EXISTS a int;
ALTER TABLE t DROP CONSTRAINT IF EXISTS none;
CREATE INDEX IF NOT EXISTS i ON t (a);
CREATE TABLE IF NOT EXISTS t (id bigint);
DROP TABLE IF EXISTS none;

-- == beside ban-drop-type
DROP TYPE mood CASCADE;

-- == beside ban-drop-schema
DROP SCHEMA o CASCADE;

-- == beside ban-drop-domain
DROP DOMAIN positive CASCADE;

-- == beside ban-drop-extension
DROP EXTENSION pg_trgm CASCADE;

-- == beside require-concurrent-partition-detach
ALTER TABLE logs DETACH PARTITION logs_2024;
ALTER TABLE logs DETACH PARTITION logs_2024 CONCURRENTLY;

-- == beside ban-detach-inheritance
ALTER TABLE child NO INHERIT parent;

-- == beside renaming-column
ALTER VIEW v RENAME COLUMN a TO b;

-- == beside renaming-object
ALTER INDEX t_v RENAME TO n;
ALTER VIEW v RENAME TO n;
ALTER TABLE w RENAME CONSTRAINT w_u TO n;

-- == beside ban-disable-trigger
ALTER TABLE t DISABLE TRIGGER audit;
ALTER TABLE u DISABLE RULE r;
ALTER TABLE t FORCE ROW LEVEL SECURITY;

-- == beside ban-replace-view-function
CREATE OR REPLACE TRIGGER audit BEFORE INSERT ON t FOR EACH ROW EXECUTE FUNCTION f();
CREATE OR REPLACE FUNCTION f() RETURNS trigger LANGUAGE plpgsql AS 'BEGIN RETURN NULL; END';
CREATE OR REPLACE RULE r AS ON DELETE TO u DO ALSO NOTHING;

-- == beside ban-drop-policy
DROP RULE r ON u;

-- == beside prefer-repack
VACUUM FULL t;

-- == beside statement-in-transaction
BEGIN; REINDEX INDEX CONCURRENTLY i; COMMIT;
BEGIN; REINDEX SCHEMA public; COMMIT;
BEGIN; ALTER TABLE logs DETACH PARTITION logs_2024 CONCURRENTLY; COMMIT;
BEGIN; VACUUM t; COMMIT;
BEGIN; CLUSTER; COMMIT;
BEGIN; CREATE DATABASE x; COMMIT;
BEGIN; DROP DATABASE IF EXISTS x; COMMIT;
BEGIN; ALTER DATABASE postgres SET TABLESPACE disk; COMMIT;
BEGIN; CREATE TABLESPACE other LOCATION '/tmp'; COMMIT;
BEGIN; DROP TABLESPACE IF EXISTS other; COMMIT;
BEGIN; ALTER SYSTEM SET work_mem = '8MB'; COMMIT;
BEGIN; DISCARD ALL; COMMIT;
BEGIN; COMMIT PREPARED 'x'; COMMIT;
BEGIN; ROLLBACK PREPARED 'x'; COMMIT;
BEGIN; ANALYZE t; COMMIT;
BEGIN; CLUSTER t USING i; COMMIT;
BEGIN; REINDEX TABLE t; COMMIT;
BEGIN; DISCARD TEMP; COMMIT;

-- == beside table-rewrite
VACUUM FULL t;
CLUSTER t USING i;
ALTER TABLE t SET UNLOGGED;
CREATE UNLOGGED TABLE d AS SELECT * FROM u; ALTER TABLE d SET LOGGED;
ALTER TABLE t SET LOGGED;
ALTER TABLE t SET TABLESPACE disk;
ALTER TABLE t SET TABLESPACE pg_default;
ALTER TABLE t SET ACCESS METHOD heap;
ALTER TABLE t CLUSTER ON i;
ALTER TABLE t ADD COLUMN z serial;
ALTER TABLE t ADD COLUMN z smallserial;

-- == beside column-with-check
ALTER TABLE t ADD COLUMN z bigint CHECK (z > 0);
ALTER TABLE t ADD COLUMN z bigint DEFAULT 1 CHECK (z > 0);
ALTER TABLE t ADD COLUMN z bigint;

-- == clean
ALTER TABLE t ADD CONSTRAINT k CHECK (b > 0) NOT VALID;
CREATE DOMAIN positive AS bigint CHECK (VALUE > 0);
CREATE DOMAIN plain AS bigint; ALTER TABLE u ADD c plain;
CREATE DOMAIN old AS bigint; ALTER DOMAIN old ADD CONSTRAINT k CHECK (VALUE > 0) NOT VALID; ALTER TABLE u ADD d old;
UPDATE u SET c = 1, d = 1;
CREATE MATERIALIZED VIEW m AS SELECT id AS a FROM u; CREATE UNIQUE INDEX ON m (a);
CREATE TABLE logs (id bigint, a bigint) PARTITION BY RANGE (id);
CREATE TABLE rest PARTITION OF logs DEFAULT;
INSERT INTO logs SELECT g, g FROM generate_series(1, 2000) g;
CREATE TABLE logs_2025 (id bigint, a bigint);
INSERT INTO logs_2025 SELECT g, g FROM generate_series(7000, 6999 + 2000) g;
CREATE TYPE point3 AS (x int, y int); CREATE TABLE points OF point3;
INSERT INTO points SELECT g, g FROM generate_series(1, 2000) g;
CREATE TYPE mood AS ENUM ('sad', 'ok'); ALTER TABLE u ADD feels mood;
CREATE FUNCTION f() RETURNS trigger LANGUAGE plpgsql AS 'BEGIN RETURN NEW; END';
