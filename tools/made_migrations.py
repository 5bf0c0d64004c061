"""Makes migrations for `tools/try_fixes`: over everything that carries a fix, with statements after it that use what was changed.

A name of GRAMMAR has alternatives, and each `<name>` in one of them is replaced by an alternative of that name. `@` is the number of the
scene, so that `n@` is one table within it; `#` is a number of the alternative that it is in. The old tables are those of tools/try_fixes.sql.

In LONG, where names are too long for PostgreSQL, `{t}` is a name of the scene, and `{v#}` one of the alternative. Each time it is written as it is,
in capitals, in quotes, with more behind it, or as PostgreSQL cuts it, so that it stays the same name. `{t!}` is what a string has of it.
"""
import itertools
import re
import string

GRAMMAR = {
    # A scene is some statements that belong together.
    "scene": ["<new>;<uses>", "<new>;<uses>", "<new>;<uses>", "<new>;<uses>", "<new>;<quiet uses>", "<new parted>;<uses>", "<serial>", "<identity>",
        "<index>", "<index>;<index uses>", "<drop>", "<drop>;<after drop>", "<reindex>", "<reindex>;<after reindex>", "<quick>", "<quick>", "<quick>;<quick>",
        "<attach>", "<old column>;<old use>", "<detach>", "<new text>;<text uses>", "<new time>;<time uses>"],
    "uses": ["", "<use>;", "<use>;<use>;", "<use>;<use>;", "<fill>;<use>;", "<fill>;<use>;<use>;", "<fill>;<use>;<use>;<use>;"],
    "quiet uses": ["", "<quiet use>;", "<quiet use>;<quiet use>;"],

    # A new table, and what it has.
    "new": ["CREATE <temp> TABLE <exists> n@ (<a>, b text, d date<more>)<tail>", "CREATE TABLE n@ (<a>, b text, d date)",
        "CREATE TABLE n@ (<a>, b text, d date<more>)", "CREATE TABLE s.n@ (<a>, b text, d date<more>); SET search_path = s, public"],
    "a": ["a <int>", "a <int>", "a <int>", "a <int> <constraint>", "a <int> <constraint>"],
    "temp": ["", "", "", "TEMP", "UNLOGGED"],
    "exists": ["", "", "IF NOT EXISTS"],
    "int": ["int", "int", "int", "integer", "INT4", "smallint", "int2", "serial", "bigserial", "smallserial", "pg_catalog.int4"],
    "constraint": ["NOT NULL", "DEFAULT 7", "PRIMARY KEY", "UNIQUE", "CHECK (a > 0)", "CHECK (<condition>)", "DEFAULT f_int(3)", "DEFAULT nextval('ids')",
        "NULL", "CHECK (a IN (1, 2, 3, 4, 5, 6, 7))", "REFERENCES counters", "CHECK (a BETWEEN 0 AND 100)"],
    "more": ["", "", "", "<element>", "<element>", "<element><element>"],
    "element": [", e# <int>", ", e# <int>[]", ", CHECK (<condition>)", ", g# <made> STORED", ", g# <made> STORED", ", UNIQUE (a, b)",
        ", EXCLUDE USING gist (a WITH =)", ", EXCLUDE USING gist (int4range(a, a + 5) WITH &&)", ", EXCLUDE (a WITH =)", ", feels mood", ", v# varchar(10)",
        ", ts# timestamp", ", c# char(3)", ", x# bigint", ", CONSTRAINT k# CHECK (length(b) < 100)", ", p# positive"],
    "made": ["text GENERATED ALWAYS AS (<text of a>)", "date GENERATED ALWAYS AS (d + a)", "int GENERATED ALWAYS AS (<number of a>)",
        "numeric GENERATED ALWAYS AS (a * 1.5)", "bigint GENERATED ALWAYS AS (a * 2)", "int4range GENERATED ALWAYS AS (int4range(a, a + 1))",
        "boolean GENERATED ALWAYS AS (<condition>)"],
    "tail": ["", "", "", "", " WITH (fillfactor = 70)", " PARTITION BY RANGE (a)", " PARTITION BY LIST (a)", " PARTITION BY HASH (a)",
        " PARTITION BY RANGE (<number of a>)", " PARTITION BY RANGE (d)", " INHERITS (animals)", " TABLESPACE disk"],
    "new parted": ["CREATE TABLE n@ (a <int>, b text, d date) PARTITION BY RANGE (a); CREATE TABLE n@_1 PARTITION OF n@ FOR VALUES FROM (0) TO (100)",
        "CREATE TABLE n@ (a <int>, b text, d date) PARTITION BY LIST (a); CREATE TABLE n@_1 PARTITION OF n@ DEFAULT",
        "CREATE TABLE n@ (a <int>, b text, d date) PARTITION BY RANGE (a); CREATE INDEX n@_a ON n@ (a)",
        "CREATE TABLE n@ (a <int>, b text, d date) PARTITION BY RANGE (a); CREATE TABLE n@_2 (a <int>, b text, d date); ALTER TABLE n@ ATTACH PARTITION "
        "n@_2 FOR VALUES FROM (0) TO (100)"],

    # What is said of a number.
    "condition": ["a > 0", "a IS NOT NULL", "f_int(a) > 0", "a = ANY (ARRAY[1, 2, 3, 7])", "ARRAY[a] <@ ARRAY[1, 2, 3, 7]", "length(repeat('x', a)) < 100",
        "a % 2 < 2", "f_both(a) = 'int'", "abs(a) < 1000", "(a::boolean)", "d + a > '1900-01-01'", "pg_typeof(a)::text <> 'bigint'", "a::text <> ''",
        "a <> 0 AND b <> ''"],
    "number of a": ["a + 1", "f_int(a)", "a * 2", "1 << a", "hashint4(a)", "length(repeat('x', a))", "abs(a)", "a / 2", "a % 7", "coalesce(a, 0)", "a::int",
        "ascii(chr(a + 64))"],
    "text of a": ["a::text", "repeat('x', a)", "substr('abcdef', a)", "f_both(a)", "to_hex(a)", "lpad('x', a)", "b || a", "chr(a + 64)", "left('abcdef', a)"],
    "value of a": ["a", "a + 1", "<number of a>", "<text of a>", "d + a", "int4range(a, a + 1)", "a::numeric", "make_interval(days => a)",
        "date '2026-01-01' + a", "a::bit(8)", "a::oid", "a / 2.0", "greatest(a, 2)", "pg_typeof(a)", "ARRAY[a, 1]", "to_char(a, '999')", "round(1.234, a)",
        "<condition>", "to_jsonb(a)", "split_part('a,b,c', ',', 1 + a % 3)", "CASE WHEN a > 1 THEN a ELSE 0 END", "format('%s', a)", 'a::"char"', "-a", "~a"],
    "sum of a": ["sum(a)", "avg(a)", "max(a)", "count(a)", "array_agg(a ORDER BY a)", "bit_or(a)", "string_agg(a::text, ',' ORDER BY a)", "stddev(a)",
        "json_agg(a ORDER BY a)"],

    # What comes after.
    "fill": ["INSERT INTO n@ (a, b, d) VALUES (1, 'x', '2026-01-01'), (2, 'y', '2026-01-02')",
        "INSERT INTO n@ (a, b, d) SELECT g, 'x', '2026-01-01' FROM generate_series(1, 5) g", "INSERT INTO n@ (a) SELECT amount FROM orders WHERE amount < 4",
        "INSERT INTO n@ (a, b) VALUES (3, 'z') RETURNING a"],
    "use": ["<query>", "<query>", "<change>", "<change>", "<quiet use>", "<quiet use>", "<quiet use>", "<copy>", "<code>"],
    "query": ["SELECT <value of a> FROM n@ ORDER BY 1", "SELECT <value of a> FROM n@ ORDER BY 1", "SELECT <sum of a> FROM n@",
        "SELECT * FROM n@ WHERE <condition> ORDER BY a", "SELECT a FROM n@ UNION SELECT amount FROM orders WHERE amount < 9 ORDER BY 1", "TABLE n@",
        "SELECT b FROM n@ JOIN counters ON id = a ORDER BY 1", "PREPARE q# (int) AS SELECT a FROM n@ WHERE a = $1 ORDER BY 1; EXECUTE q#(1)",
        "SELECT tags[a] FROM documents, n@ ORDER BY 1 LIMIT 3", "SELECT sum(a) OVER (ORDER BY a) FROM n@ ORDER BY 1",
        "SELECT g FROM n@, generate_series(1, a) g ORDER BY 1", "COPY n@ (a) TO STDOUT",
        "WITH RECURSIVE r (v) AS (SELECT 1 UNION ALL SELECT a FROM r JOIN n@ ON v < a) SELECT v FROM r ORDER BY 1",
        "SELECT body -> a FROM documents, n@ WHERE a < 0",
        "SELECT * FROM ROWS FROM (generate_series(1, 2)) WITH ORDINALITY AS x (y, z) JOIN n@ ON z = a ORDER BY y"],
    "change": ["UPDATE n@ SET a = a + 1", "UPDATE n@ SET b = <text of a>", "UPDATE n@ SET d = d + a", "UPDATE n@ SET a = 3 WHERE <condition>",
        "DELETE FROM n@ WHERE a > 1", "INSERT INTO n@ (a) SELECT id FROM counters WHERE id < 5", "UPDATE n@ SET a = default",
        "UPDATE orders SET amount = n@.a FROM n@ WHERE id = n@.a",
        "MERGE INTO n@ USING counters c ON c.id = a WHEN MATCHED THEN UPDATE SET b = 'm' WHEN NOT MATCHED THEN DO NOTHING",
        "INSERT INTO items (order_id, line, amount) SELECT a, a + 10, a FROM n@", "INSERT INTO n@ (a) VALUES (1) ON CONFLICT DO NOTHING", "TRUNCATE n@",
        "DO $$ DECLARE x int; BEGIN SELECT a INTO x FROM n@; END $$", "DO $$ DECLARE x n@%ROWTYPE; BEGIN SELECT * INTO x FROM n@; PERFORM f_int(x.a); END $$"],
    "quiet use": ["CREATE INDEX i# ON n@ (a)", "CREATE INDEX ON n@ (a)", "CREATE INDEX i# ON n@ ((<number of a>))", "CREATE INDEX i# ON n@ (a int4_ops)",
        "CREATE INDEX i# ON n@ USING gist (a)", "CREATE INDEX i# ON n@ (b) WHERE <condition>",
        "CREATE UNIQUE INDEX i# ON n@ (a); ALTER TABLE n@ ADD CONSTRAINT k# UNIQUE USING INDEX i#", "ALTER TABLE n@ ADD CHECK (<condition>)",
        "ALTER TABLE n@ ADD COLUMN x# <made> STORED", "ALTER TABLE n@ ADD COLUMN x# <int>", "ALTER TABLE n@ ADD EXCLUDE USING gist (a WITH =)",
        "ALTER TABLE n@ ALTER a SET NOT NULL", "ALTER TABLE n@ ALTER a SET DEFAULT 5", "ALTER TABLE n@ ALTER a DROP DEFAULT",
        "ALTER TABLE n@ ALTER a TYPE text USING a::text", "ALTER TABLE n@ RENAME a TO z", "ALTER TABLE n@ INHERIT animals", "ALTER TABLE n@ RENAME TO n@_old",
        "CREATE POLICY p# ON n@ USING (<condition>)", "CREATE RULE r# AS ON INSERT TO n@ WHERE f_int(NEW.a) > 100 DO ALSO NOTHING",
        "CREATE RULE r# AS ON DELETE TO n@ DO ALSO UPDATE orders SET amount = OLD.a WHERE id = OLD.a",
        "CREATE TRIGGER t# BEFORE INSERT ON n@ FOR EACH ROW WHEN (NEW.a > 0) EXECUTE FUNCTION f_row()",
        "CREATE TRIGGER t# BEFORE UPDATE ON n@ FOR EACH ROW WHEN (f_int(OLD.a) > 0) EXECUTE FUNCTION f_row()",
        "CREATE VIEW v# AS SELECT <value of a> AS x FROM n@", "CREATE VIEW v# AS SELECT a, b FROM n@", "CREATE OR REPLACE VIEW numbers AS SELECT a FROM n@",
        "CREATE OR REPLACE VIEW numbers AS SELECT 1 + count(a)::int AS a FROM n@", "CREATE VIEW v# AS SELECT <sum of a> AS x FROM n@",
        "CREATE TABLE c# () INHERITS (n@)", "CREATE TABLE c# (a <int>) INHERITS (n@)", "CREATE TABLE c# (LIKE n@ INCLUDING ALL)",
        "CREATE TABLE c# (x <int> REFERENCES n@)", "CREATE TABLE c# PARTITION OF n@ FOR VALUES IN (1)",
        "CREATE TABLE c# PARTITION OF n@ FOR VALUES FROM (200) TO (300)", "COMMENT ON COLUMN n@.a IS 'x'", "GRANT SELECT (a) ON n@ TO app",
        "CREATE STATISTICS s# ON a, b FROM n@", "ALTER TABLE n@ SET UNLOGGED", "ALTER TABLE n@ ENABLE ROW LEVEL SECURITY", "DROP TABLE n@",
        "ALTER TABLE n@ DROP COLUMN a", "ALTER TABLE n@ ADD PRIMARY KEY (a)", "CREATE TABLE c# (LIKE n@); ALTER TABLE c# INHERIT n@",
        "ALTER TABLE n@ CLUSTER ON i@", "ALTER TABLE n@ REPLICA IDENTITY FULL"],
    "copy": ["CREATE TABLE c# AS SELECT <value of a> AS x FROM n@", "CREATE TABLE c# AS SELECT <sum of a> AS x FROM n@",
        "SELECT <number of a> AS x INTO c# FROM n@", "CREATE MATERIALIZED VIEW m# AS SELECT <value of a> AS x FROM n@",
        "CREATE TABLE c# AS TABLE n@; ALTER TABLE c# ADD CHECK (f_int(a) > 0)"],
    "code": ["CREATE FUNCTION g#(n@) RETURNS int LANGUAGE sql AS 'SELECT $1.a'",
        "CREATE FUNCTION g#(x n@.a%TYPE) RETURNS text LANGUAGE sql AS 'SELECT x::text'",
        "CREATE FUNCTION g#() RETURNS SETOF int LANGUAGE plpgsql AS 'BEGIN RETURN QUERY SELECT a FROM n@; END'; SELECT g# FROM g#() AS g# ORDER BY 1",
        "CREATE FUNCTION g#() RETURNS SETOF int LANGUAGE plpgsql AS 'BEGIN RETURN QUERY SELECT a FROM n@; END'; SELECT g#()",
        "CREATE FUNCTION g#() RETURNS TABLE (x int) LANGUAGE plpgsql AS 'BEGIN RETURN QUERY SELECT a FROM n@; END'; SELECT g#()",
        "CREATE FUNCTION g#() RETURNS bigint LANGUAGE sql AS 'SELECT sum(a) FROM n@'",
        "CREATE FUNCTION g#() RETURNS SETOF n@ LANGUAGE sql AS 'SELECT * FROM n@'", "CREATE FUNCTION g#() RETURNS int LANGUAGE sql AS 'SELECT a FROM n@'",
        "CREATE FUNCTION g#() RETURNS int LANGUAGE sql AS 'SELECT f_int(a) FROM n@'",
        "CREATE FUNCTION g#(x n@.a%TYPE) RETURNS text LANGUAGE sql AS 'SELECT x::text'; COMMENT ON FUNCTION g#(int) IS 'x'"],

    # Numbers of a sequence.
    "serial": ["CREATE TABLE n@ (a <sequence>, b text, d date);<sequence uses>"],
    "sequence": ["serial", "serial", "SERIAL PRIMARY KEY", "serial4", "bigserial", "smallserial", "serial UNIQUE", "bigserial PRIMARY KEY"],
    "sequence uses": ["<sequence use>;", "<sequence use>;<sequence use>;", "<sequence use>;<use>;", ""],
    "sequence use": ["INSERT INTO n@ (b) VALUES ('x'), ('y')", "INSERT INTO n@ (a, b) VALUES (5, 'x')", "INSERT INTO n@ DEFAULT VALUES",
        "SELECT nextval('n@_a_seq')", "SELECT setval('n@_a_seq', 10)", "ALTER SEQUENCE n@_a_seq RESTART WITH 100", "ALTER SEQUENCE n@_a_seq MAXVALUE 1000",
        "ALTER SEQUENCE n@_a_seq OWNED BY NONE", "ALTER TABLE n@ ALTER a DROP DEFAULT", "CREATE TABLE c# () INHERITS (n@); INSERT INTO c# DEFAULT VALUES",
        "CREATE TABLE c# (e text) INHERITS (n@); INSERT INTO c# DEFAULT VALUES", "GRANT USAGE ON SEQUENCE n@_a_seq TO app",
        "CREATE TABLE c# (LIKE n@ INCLUDING DEFAULTS); INSERT INTO c# (b) VALUES ('x')", "ALTER SEQUENCE n@_a_seq AS int", "UPDATE n@ SET a = default",
        "COPY n@ (b) TO STDOUT", "ALTER TABLE n@ ALTER a TYPE bigint", "ALTER TABLE n@ ALTER a SET DEFAULT nextval('ids')",
        "ALTER SEQUENCE n@_a_seq RENAME TO n@_ids", "COMMENT ON SEQUENCE n@_a_seq IS 'x'", "ALTER TABLE n@ ALTER a DROP NOT NULL",
        "TRUNCATE n@ RESTART IDENTITY", "DROP SEQUENCE n@_a_seq CASCADE", "CREATE VIEW v# AS SELECT last_value FROM n@_a_seq"],
    "identity": ["CREATE TABLE n@ (a <int> GENERATED ALWAYS AS IDENTITY, b text, d date);<identity use>;<use>",
        "CREATE TABLE n@ (a int GENERATED BY DEFAULT AS IDENTITY PRIMARY KEY, b text, d date);<identity use>"],
    "identity use": ["INSERT INTO n@ (b) VALUES ('x')", "INSERT INTO n@ (a, b) OVERRIDING SYSTEM VALUE VALUES (3, 'x')",
        "ALTER TABLE n@ ALTER a DROP IDENTITY", "ALTER TABLE n@ ALTER a RESTART WITH 9", "SELECT pg_get_serial_sequence('n@', 'a')",
        "ALTER TABLE n@ ALTER a SET MAXVALUE 1000"],

    # Indexes of old tables.
    "old": ["orders (total)", "orders (amount)", "people (name)", "people (lower(email))", "documents USING gin (tags)",
        "documents (title varchar_pattern_ops)", "items (amount) INCLUDE (price)", "logs (msg)", "logs_1 (msg)", "ONLY logs (msg)", "events (at)",
        "events_a (at)", "parted (n)", "parted_1 (n)", "kinds (n)", "s.places (code)", "bookings USING gist (during)", "animals (name)", "staff (boss)",
        "scratch (n)", "prices (price) WHERE price > 10", "broken (b)", "rooms (name)", "settings USING hash (value)", "accounts USING brin (id)",
        "pairs (a)"],
    "index": ["CREATE INDEX i@ ON <old>", "CREATE INDEX i@ ON <old>", "CREATE INDEX ON <old>", "CREATE UNIQUE INDEX i@ ON orders (id, total)",
        "CREATE INDEX IF NOT EXISTS i@ ON <old>", "CREATE UNIQUE INDEX i@ ON people (name)", "CREATE UNIQUE INDEX i@ ON counters (n)",
        "<short timeout>; CREATE INDEX i@ ON <old>", "BEGIN; CREATE INDEX i@ ON <old>; COMMIT"],
    "index uses": ["<index use>", "<index use>", "<index use>;<index use>"],
    "index use": ["COMMENT ON INDEX i@ IS 'x'", "DROP INDEX i@", "REINDEX INDEX i@", "ALTER INDEX i@ RENAME TO j@", "ALTER INDEX i@ SET (fillfactor = 70)",
        "CREATE INDEX i@ ON orders (amount)", "ALTER TABLE people ADD CONSTRAINT k@ UNIQUE USING INDEX i@",
        "ALTER TABLE counters REPLICA IDENTITY USING INDEX i@", "CLUSTER orders USING i@", "DROP INDEX IF EXISTS i@",
        "INSERT INTO people (id, name) VALUES (1000, 'name 1') ON CONFLICT (name) DO NOTHING", "CREATE INDEX IF NOT EXISTS i@ ON orders (amount)",
        "ALTER INDEX i@ ATTACH PARTITION logs_1_msg", "ALTER TABLE orders CLUSTER ON i@", "SELECT indisvalid FROM pg_index WHERE indexrelid = 'i@'::regclass",
        "SELECT count(*) FROM orders WHERE total > 100"],
    "short timeout": ["SET lock_timeout = '1s'", "SET statement_timeout = '10s'", "SET LOCAL lock_timeout = '1s'", "RESET lock_timeout",
        "SELECT set_config('lock_timeout', '1s', false)"],
    "drop": ["DROP INDEX <exist> <old index>", "DROP INDEX <old index>", "DROP INDEX <exist> <old index>", "DROP INDEX <old index>, documents_body",
        "DROP INDEX <old index> CASCADE"],
    "exist": ["", "IF EXISTS"],
    "old index": ["orders_person", "orders_placed", "public.orders_person", "documents_body", "s.places_name", "kinds_kind", "broken_a", "logs_id",
        "events_kind", "logs_1_id_idx", "orders_placed"],
    "after drop": ["CREATE INDEX orders_person ON orders (person, id)", "CREATE INDEX orders_placed ON orders (placed)",
        "CREATE INDEX documents_body ON documents USING gin (body jsonb_path_ops)", "REFRESH MATERIALIZED VIEW kinds",
        "INSERT INTO orders (id) VALUES (1001)", "ALTER TABLE orders DROP COLUMN placed", "CREATE INDEX broken_a ON broken (a)"],
    "reindex": ["REINDEX INDEX <old index>", "REINDEX TABLE <old table>", "REINDEX TABLE <old table>", "REINDEX (VERBOSE) TABLE <old table>",
        "REINDEX SCHEMA <old schema>", "REINDEX TABLE <catalog>", "REINDEX DATABASE this_database", "REINDEX INDEX bookings_room_during_excl",
        "REINDEX INDEX people_pkey", "REINDEX (TABLESPACE disk) INDEX orders_person"],
    "old table": ["orders", "people", "items", "documents", "bookings", "broken", "logs", "events", "kinds", "s.places", "parted", "staff", "counters",
        "accounts", "animals", "settings"],
    "old schema": ["public", "s", "pg_catalog"],
    "catalog": ["pg_class", "pg_catalog.pg_index", "pg_attribute", "information_schema.sql_features", "pg_largeobject"],
    "after reindex": ["CREATE TABLE c# (x bigint)", "SELECT count(*) FROM pg_index WHERE NOT indisvalid", "CLUSTER orders USING orders_person",
        "DROP INDEX orders_person", "ALTER TABLE orders ADD COLUMN x# bigint", "INSERT INTO bookings VALUES (5000, '[1,2)')"],

    # Statements before which a timeout is written. Some of them take long on a large table.
    "quick": ["ALTER TABLE <wide> ADD COLUMN <column>", "ALTER TABLE <wide> ADD COLUMN <column>", "ALTER TABLE <wide> ADD COLUMN <column>",
        "ALTER TABLE <wide> <action>", "ALTER TABLE <wide> <action>", "ALTER TABLE <wide> <action>",
        "CREATE TABLE c# PARTITION OF parted FOR VALUES FROM (20) TO (30)", "CREATE TABLE c# PARTITION OF logs FOR VALUES FROM (1000) TO (2000)",
        "ALTER TYPE pair ADD ATTRIBUTE x# text CASCADE", "ALTER TYPE pair ALTER ATTRIBUTE a TYPE bigint CASCADE", "ALTER TYPE pair DROP ATTRIBUTE b CASCADE",
        "ALTER TYPE mood ADD VALUE 'm#'", "TRUNCATE <wide>", "DROP TABLE <wide> CASCADE", "ALTER DOMAIN positive ADD CONSTRAINT k# CHECK (VALUE < 1000000)",
        "ALTER DOMAIN word SET NOT NULL", "DROP VIEW order_totals", "ALTER INDEX orders_person RENAME TO o#", "ALTER VIEW numbers RENAME TO numbers#",
        "COMMENT ON TABLE <wide> IS 'x'", "GRANT SELECT ON <wide> TO app", "DROP SCHEMA s CASCADE",
        "CREATE TRIGGER t# BEFORE INSERT ON <wide> FOR EACH ROW EXECUTE FUNCTION f_row()", "CREATE POLICY p# ON <wide> USING (true)",
        "BEGIN; LOCK TABLE <wide>; COMMIT", "CREATE SEQUENCE q# OWNED BY big.a", "CREATE RULE r# AS ON DELETE TO <wide> DO INSTEAD NOTHING",
        "DROP TRIGGER settings_row ON settings", "ALTER SEQUENCE ids RESTART WITH 5", "EXPLAIN ANALYZE UPDATE big SET b = b || 'x'",
        "CREATE TABLE c# (x bigint REFERENCES people)", "CREATE STATISTICS s# ON a, b FROM big", "CREATE EXTENSION pg_trgm", "TABLE big",
        "ALTER TABLE orders DROP CONSTRAINT orders_person_fkey", "ALTER TABLE people DROP CONSTRAINT people_email_key", "DROP FUNCTION f_small(smallint)",
        "CREATE FUNCTION g#() RETURNS bigint LANGUAGE sql AS 'SELECT count(*) FROM big'"],
    "wide": ["big", "big", "big", "big", "orders", "pairs", "documents", "parted", "prices"],
    "column": ["x# text", "x# bigint", "x# bigint DEFAULT 1", "x# bigint UNIQUE", "x# bigint CHECK (x# > 0)", "x# bigint REFERENCES people", "x# bigserial",
        "x# uuid DEFAULT gen_random_uuid()", "x# bigint GENERATED ALWAYS AS IDENTITY", "x# text GENERATED ALWAYS AS ('x') STORED", "x# positive",
        "x# positive DEFAULT 1", "x# timestamptz DEFAULT now()", "x# timestamptz DEFAULT clock_timestamp()", 'x# text COLLATE "C"', "x# mood DEFAULT 'ok'",
        "x# bigint NOT NULL DEFAULT 0", "x# bigint PRIMARY KEY", "x# text[]", "x# float8 DEFAULT random()", "x# word", "x# boolean DEFAULT false NOT NULL"],
    "action": ["SET UNLOGGED", "SET LOGGED", "SET TABLESPACE disk", "SET (fillfactor = 70)", "ENABLE ROW LEVEL SECURITY", "REPLICA IDENTITY FULL",
        "OWNER TO app", "DISABLE TRIGGER USER", "SET WITHOUT CLUSTER", "RENAME TO w#", "SET SCHEMA s", "SET ACCESS METHOD heap", "FORCE ROW LEVEL SECURITY",
        "INHERIT animals", "RESET (fillfactor)", "ADD COLUMN y# text, ADD COLUMN x# bigserial"],

    # Partitions, columns of old tables, and the types whose fixes are unsafe.
    "attach": ["CREATE TABLE c@ (id int, n int); ALTER TABLE parted ATTACH PARTITION c@ FOR VALUES FROM (20) TO (30)",
        "CREATE TABLE c@ (id bigint, kind text, at timestamptz); ALTER TABLE events ATTACH PARTITION c@ FOR VALUES IN ('c')",
        "CREATE TABLE c@ (id int, name text); ALTER TABLE c@ INHERIT animals",
        "CREATE TABLE c@ (LIKE parted); ALTER TABLE parted ATTACH PARTITION c@ FOR VALUES FROM (20) TO (30)",
        "CREATE TABLE c@ (id int, n int);\n-- next file\nALTER TABLE parted ATTACH PARTITION c@ FOR VALUES FROM (20) TO (30)",
        "CREATE TABLE c@ (a int, b text); ALTER TABLE c@ OF pair", "CREATE TABLE c@ (id int, name text) INHERITS (animals)"],
    "old column": ["ALTER TABLE orders ADD COLUMN x@ <int>", "ALTER TABLE people ALTER height TYPE int", "ALTER TABLE orders ALTER amount TYPE smallint",
        "ALTER TABLE parted ADD COLUMN x@ int", "ALTER TABLE documents ALTER title TYPE varchar(200)", "ALTER TABLE orders ADD COLUMN x@ varchar(20)",
        "ALTER TABLE logs ADD COLUMN x@ timestamp", "ALTER TABLE settings ALTER changed TYPE timestamp(0)", "ALTER TABLE animals ADD COLUMN x@ int",
        "ALTER TABLE orders ADD COLUMN x@ int DEFAULT 3", "ALTER TABLE orders ADD COLUMN x@ int CHECK (x@ > 0)"],
    "old use": ["CREATE INDEX i@ ON orders (x@)", "SELECT f_int(x@) FROM orders ORDER BY 1 LIMIT 1", "UPDATE orders SET x@ = 1",
        "SELECT height FROM people ORDER BY id LIMIT 3", "CREATE VIEW v@ AS SELECT x@ FROM orders", "ALTER TABLE dogs ADD COLUMN y@ int",
        "SELECT title FROM documents ORDER BY 1 LIMIT 2", "CREATE VIEW v@ AS SELECT f_int(amount) AS x FROM orders"],
    "detach": ["ALTER TABLE events DETACH PARTITION events_a", "ALTER TABLE logs DETACH PARTITION logs_1",
        "ALTER TABLE events DETACH PARTITION events_a; DROP TABLE events_a", "ALTER TABLE dogs NO INHERIT animals",
        "ALTER TABLE events DETACH PARTITION events_b; ALTER TABLE events ATTACH PARTITION events_b FOR VALUES IN ('b', 'c')",
        "ALTER TABLE events DETACH PARTITION events_b; INSERT INTO events_b VALUES (1, 'z')"],
    "new text": ["CREATE TABLE n@ (v <limited>, b text)", "CREATE TABLE n@ (v <limited> DEFAULT 'x', b text)",
        "CREATE TABLE n@ (v <limited> CHECK (length(v) < 5), b text)",
        "CREATE TABLE n@ (v <limited> PRIMARY KEY, b text, l int GENERATED ALWAYS AS (length(v)) STORED)"],
    "limited": ["varchar(10)", "character varying(5)", "char(3)", "varchar(3)[]", "VARCHAR (20)", "character(5)"],
    "text uses": ["<text use>", "<text use>;<text use>"],
    "text use": ["INSERT INTO n@ (v) VALUES ('abc')", "INSERT INTO n@ (v) VALUES ('ab   ')",
        "INSERT INTO n@ (v) VALUES ('a'::varchar(3)); SELECT v || '|' FROM n@", "CREATE INDEX i@ ON n@ (v varchar_pattern_ops)",
        "CREATE INDEX i@ ON n@ (v bpchar_pattern_ops)", "SELECT v = 'abc  ' FROM n@", "CREATE VIEW v@ AS SELECT v FROM n@",
        "ALTER TABLE n@ ALTER v TYPE varchar(30)", "SELECT pg_typeof(v) FROM n@", "CREATE TABLE c@ AS SELECT v FROM n@", "SELECT length(v), v FROM n@",
        "UPDATE n@ SET b = v"],
    "new time": ["CREATE TABLE n@ (ts <time>, b text)", "CREATE TABLE n@ (ts <time> DEFAULT now(), b text)",
        "CREATE TABLE n@ (ts <time>, day date GENERATED ALWAYS AS (ts::date) STORED)",
        "CREATE TABLE n@ (ts <time>, b text, EXCLUDE USING gist (tsrange(ts, ts + interval '1 day') WITH &&))",
        "CREATE TABLE n@ (ts <time>, b text) PARTITION BY RANGE (ts)"],
    "time": ["timestamp", "timestamp(0)", "TIMESTAMP WITHOUT TIME ZONE", "timestamp[]"],
    "time uses": ["<time use>", "<time use>;<time use>"],
    "time use": ["INSERT INTO n@ (ts) VALUES ('2026-01-01 12:00')", "INSERT INTO n@ (ts) VALUES ('2026-01-01 12:00+02')",
        "CREATE INDEX i@ ON n@ (date_trunc('day', ts))", "CREATE INDEX i@ ON n@ ((ts::date))",
        "CREATE VIEW v@ AS SELECT ts AT TIME ZONE 'Europe/Berlin' AS x FROM n@", "SELECT extract(hour FROM ts) FROM n@", "SELECT ts FROM n@",
        "ALTER TABLE n@ ADD CHECK (ts > '2020-01-01')", "SET timezone = 'Europe/Berlin'; INSERT INTO n@ (ts) VALUES ('2026-07-01 12:00')",
        "CREATE TABLE c@ AS SELECT ts - interval '1 day' AS x FROM n@"],
}

# Names that are too long, in each place where a name can be. What is in strings and bodies is not cut by a fix.
LONG = {
    "long": ["<long table>;<long uses>", "<long table>;<long uses>", "<long table>;<long uses>", "<long table>;<long uses>", "<long table>;<long uses>",
        "<long table>;<long uses>", "<long alone>", "<long alone>", "<long alone>;<long alone>"],
    "long table": ["CREATE TABLE {t} ({a} int, {b} text, {d} date)", "CREATE TABLE {t} ({a} int, {b} text, {d} date)",
        "CREATE TABLE {t} ({a} int CONSTRAINT {k} PRIMARY KEY, {b} text CONSTRAINT {l} CHECK ({b} <> '{b!}'), {d} date)",
        "CREATE TABLE s.{t} ({a} int, {b} text DEFAULT '{b!}', {d} date, CONSTRAINT {k} UNIQUE ({a}, {b})); SET search_path = s, public",
        "CREATE TEMP TABLE {t} ({a} int, {b} text, {d} date)", "CREATE UNLOGGED TABLE IF NOT EXISTS {t} ({a} int, {b} text, {d} date, UNIQUE ({d}))",
        "CREATE TABLE {t} ({a} serial, {b} text, {d} date, CONSTRAINT {k} FOREIGN KEY ({a}) REFERENCES orders)",
        "CREATE TABLE {t} ({a} int GENERATED BY DEFAULT AS IDENTITY, {b} text, {d} date)",
        "CREATE TABLE {t} ({a} int, {b} text, {d} date, {g} int GENERATED ALWAYS AS ({a} + length({b})) STORED)",
        "CREATE TABLE {t} ({a} int, {b} text, {d} date) PARTITION BY RANGE ({a}); CREATE TABLE {p} PARTITION OF {t} FOR VALUES FROM (0) TO (100)",
        "CREATE TYPE {y} AS ({a} int, {b} text, {d} date); CREATE TABLE {t} OF {y}",
        "CREATE TABLE {t} AS SELECT 1 AS {a}, 'x'::text AS {b}, date '2026-01-01' {d}",
        "CREATE TABLE {t} ({a}, {b}, {d}) AS VALUES (1, '{b!}', date '2026-01-01')", "SELECT 1 AS {a}, text 'x' AS {b}, date '2026-01-01' AS {d} INTO {t}",
        "CREATE TABLE {t} ({a} int, {b} text, {d} date); CREATE TABLE IF NOT EXISTS {t} (z int)",
        "CREATE SCHEMA {s} CREATE TABLE {t} ({a} int, {b} text, {d} date) CREATE INDEX {i} ON {t} ({a}); SET search_path = {s}, public",
        "CREATE SCHEMA {s}; CREATE TABLE {s}.{t} ({a} int, {b} text, {d} date); SET search_path = '{s!}', public"],
    "long uses": ["<long use>", "<long use>;<long use>", "<long fill>;<long use>", "<long fill>;<long use>", "<long fill>;<long use>;<long use>",
        "<long fill>;<long use>;<long use>"],
    "long fill": ["INSERT INTO {t} ({a}, {b}, {d}) VALUES (1, 'x', '2026-01-01'), (2, '{b!}', NULL)",
        "INSERT INTO {t} VALUES (1, 'x', '2026-01-01') RETURNING {a}, {t}.{b} AS {x#}, {t}.*",
        "INSERT INTO {t} AS {x#} ({b}, {a}) SELECT '{b!}', amount FROM orders RETURNING {x#}.{a}",
        "WITH {w#} ({x#}) AS (SELECT 3) INSERT INTO {t} ({a}) SELECT {x#} FROM {w#}",
        "COPY {t} ({a}, {b}) FROM STDIN;5\t{b!}\n6\t'{a}'\n\\.",
        "DO $$ BEGIN FOR {x#} IN 1 .. 3 LOOP INSERT INTO {t} ({a}) VALUES ({x#}); END LOOP; END $$"],
    "long use": ["<long query>", "<long query>", "<long change>", "<long change>", "<long change>", "<long code>", "<long view>", "<long session>", "<long made>"],
    "long query": ["SELECT {a}, {b} FROM {t} ORDER BY {a}", "SELECT {x#}.{a}, {x#}.* FROM {t} AS {x#} ORDER BY 1", "SELECT {x#} FROM {t} {x#} ORDER BY 1",
        "SELECT ({t}).{b} FROM {t} ORDER BY 1", "SELECT {a} AS {x#}, count(*) {z#} FROM {t} GROUP BY {x#} HAVING count({b}) >= 0 ORDER BY {x#}, {z#}",
        "SELECT sum({a}) OVER {w#} AS {x#} FROM {t} WINDOW {w#} AS (PARTITION BY {b} ORDER BY {a}), {v#} AS ({w#}) ORDER BY 1",
        "WITH {w#} AS (SELECT {a} AS {x#} FROM {t}), {v#} ({y#}) AS NOT MATERIALIZED (TABLE {w#}) SELECT {w#}.{x#}, {y#} FROM {w#}, {v#} ORDER BY {x#}, {y#}",
        "WITH RECURSIVE {w#} ({x#}) AS (SELECT 1 UNION ALL SELECT {x#} + 1 FROM {w#} WHERE {x#} < 4) SEARCH DEPTH FIRST BY {x#} SET {z#} SELECT {x#} FROM "
        "{w#} ORDER BY {z#}",
        "WITH RECURSIVE {w#} ({x#}) AS (SELECT 1 UNION ALL SELECT 1 FROM {w#}) CYCLE {x#} SET {z#} USING {y#} SELECT {x#}, {z#} FROM {w#} ORDER BY {y#}",
        "SELECT {z#}.{a}, {y#} FROM {t} JOIN (SELECT 1 AS {a}, 2 AS {y#}) AS {x#} USING ({a}) AS {z#} ORDER BY 1",
        "SELECT {x#}.{z#} FROM {t}, LATERAL (SELECT {t}.{a} + 1 AS {z#}) {x#} ORDER BY 1", "SELECT * FROM {t} NATURAL JOIN (SELECT 1 AS {a}) {x#}",
        "SELECT {x#}, {y#}.{z#} FROM unnest(ARRAY[1, 2]) WITH ORDINALITY AS {y#} ({x#}, {z#}) ORDER BY 1",
        """SELECT {a}, {x#}.* FROM jsonb_to_recordset('[{"{a!}": 5, "y": 1}]') AS {x#} ({a} int, y int)""",
        "SELECT * FROM json_to_record(json_build_object('{a!}', 4)) AS ({a} int)", "SELECT row_to_json({t}) FROM {t} ORDER BY {a}",
        "SELECT to_jsonb({x#}) -> '{a!}', to_jsonb({x#}) ->> '{b}' FROM {t} AS {x#} ORDER BY {x#}.{a}",
        "SELECT jsonb_build_object('{a!}', {a}, '{b!}', {b}) FROM {t} ORDER BY {a}", "SELECT E'\\'{a!}', U&'{a!}', $${a}$$, $q${a!}$q$ AS {x#}",
        "TABLE {t}", "SELECT {a} FROM ONLY {t} TABLESAMPLE bernoulli (100) ORDER BY {a}", "SELECT DISTINCT ON ({b}) {b}, {a} FROM {t} ORDER BY {b}, {a}",
        "SELECT {a} FROM {t} UNION ALL SELECT {x#} FROM (VALUES (7)) {y#} ({x#}) ORDER BY {a}", "SELECT {t}.{a} FROM {t} FOR UPDATE OF {t} NOWAIT",
        "SELECT xmlelement(name {x#}, xmlattributes({a} AS {z#}), xmlforest({b} AS {y#}, {a})) FROM {t} ORDER BY {a}",
        "SELECT {x#}.* FROM xmltable('/r' PASSING '<r/>' COLUMNS {z#} FOR ORDINALITY, {y#} text PATH 'n') AS {x#}",
        "SELECT count(*) FROM pg_class WHERE relname = '{t!}' OR oid = '{t}'::regclass",
        "SELECT count(*) AS {x#} FROM pg_attribute WHERE attname = '{a!}' OR attrelid = to_regclass('{t}') AND attnum > 0",
        "SELECT '{t}'::regclass, '{a!}'::name, quote_ident('{a!}'), format('%I.%L', '{a!}', '{b!}')",
        "EXPLAIN (COSTS off) SELECT {a} FROM {t} {x#} WHERE {b} = '{b!}'", "COPY {t} ({a}) TO STDOUT",
        "COPY (SELECT {a} AS {x#} FROM {t} ORDER BY 1) TO STDOUT WITH (FORMAT csv, HEADER)", "COPY {t} TO STDOUT WITH (FORMAT csv, FORCE_QUOTE ({b}))",
        "SELECT (SELECT {x#} FROM (SELECT max({a}) FROM {t}) AS {y#} ({x#}))", "SELECT {x#}.{z#} FROM {t} AS {x#} ({z#}) ORDER BY 1",
        "SELECT CASE WHEN {a} > 1 THEN {b} END {x#}, ARRAY[{a}] AS {y#}, {a}::text, -{a}, {t}.{a}%2, {a}+1 FROM {t} ORDER BY {a}",
        "SELECT (ARRAY[1, 2, 3])[{a}], (ARRAY[1, 2, 3])[1:{a}], (ARRAY[1, 2, 3])[{a}:{a}] FROM {t} ORDER BY {a}",
        "SELECT grouping({a}), {a}, {b} FROM {t} GROUP BY GROUPING SETS (({a}), ({b}), ROLLUP ({a}, {b})) ORDER BY 1, 2, 3",
        "SELECT string_agg({b}, ',' ORDER BY {a}) FILTER (WHERE {t}.{a} > 0) {x#} FROM {t}",
        "SELECT {a}\"x\", {b}\"y\" FROM {t} ORDER BY 1", "SELECT \"s\"{x#}, \"s\" AS {z#} FROM (SELECT {a} AS \"s\" FROM {t}) {y#} ORDER BY 1",
        "SELECT u&{a}, 1+{a}, u|{a} FROM {t}, (SELECT 3 AS u) {x#} ORDER BY 1", "SELECT text'x'{x#}, date'2026-01-01'AS {y#}, 1.5 {z#}, 'a'{w#}",
        "SELECT percentile_disc(0.5) WITHIN GROUP (ORDER BY {a}) AS {x#} FROM {t}"],
    "long change": ["UPDATE {t} SET {a} = {t}.{a} + 1, {b} = '{b!}' WHERE {a} > 0 RETURNING {a} AS {x#}",
        "UPDATE {t} AS {x#} SET ({a}, {b}) = (SELECT {x#}.{a} + 1, '{a!}'), {d} = DEFAULT", "DELETE FROM {t} USING orders {x#} WHERE {x#}.id = {a} RETURNING {x#}.*",
        "MERGE INTO {t} AS {x#} USING orders AS {y#} ON {x#}.{a} = {y#}.id WHEN MATCHED THEN UPDATE SET {b} = {y#}.amount::text WHEN NOT MATCHED THEN "
        "INSERT ({a}) VALUES ({y#}.id)",
        "TRUNCATE {t}", "DROP TABLE IF EXISTS {t}", "ALTER TABLE {t} ADD COLUMN {c#} int DEFAULT 3; SELECT {c#} FROM {t}",
        "ALTER TABLE {t} ADD COLUMN IF NOT EXISTS {a} text",
        "ALTER TABLE {t} ADD CONSTRAINT {k#} CHECK ({a} < 1000) NOT VALID; ALTER TABLE {t} VALIDATE CONSTRAINT {k#}; COMMENT ON CONSTRAINT {k#} ON {t} IS '{k!}'",
        "ALTER TABLE {t} ADD CONSTRAINT {k#} UNIQUE ({a}, {b}); INSERT INTO {t} ({a}, {b}) VALUES (1, 'q') ON CONFLICT ON CONSTRAINT {k#} DO UPDATE SET "
        "{b} = excluded.{b} RETURNING {a}",
        "CREATE UNIQUE INDEX {i#} ON {t} ({a}, {b}); INSERT INTO {t} ({a}, {b}) VALUES (9, 'q') ON CONFLICT ({a}, {b}) DO NOTHING",
        "CREATE UNIQUE INDEX {i#} ON {t} ({a}); ALTER TABLE {t} ADD CONSTRAINT {k#} UNIQUE USING INDEX {i#}; ALTER TABLE {t} RENAME CONSTRAINT {k#} TO {l#}",
        "CREATE INDEX {i#} ON {t} USING btree ({b} COLLATE \"C\" text_ops DESC) INCLUDE ({a}) WHERE {a} > 0; COMMENT ON INDEX {i#} IS '{b!}'; ALTER INDEX {i#} "
        "RENAME TO {j#}; REINDEX INDEX {j#}",
        "CREATE INDEX CONCURRENTLY {i#} ON {t} (({a} + 1)); DROP INDEX CONCURRENTLY {i#}", "CREATE INDEX {i#} ON {t} ({a}); CLUSTER {t} USING {i#}",
        "CREATE INDEX IF NOT EXISTS {i#} ON {t} (length({b}), {a}); DROP INDEX IF EXISTS {i#}, {j#}",
        "ALTER TABLE {t} ALTER {a} SET NOT NULL; CREATE UNIQUE INDEX {i#} ON {t} ({a}); ALTER TABLE {t} REPLICA IDENTITY USING INDEX {i#}",
        "ALTER TABLE {t} RENAME COLUMN {a} TO {c#}; SELECT {c#} FROM {t} ORDER BY 1", "ALTER TABLE {t} RENAME TO {u#}; TABLE {u#}",
        "ALTER TABLE {t} ALTER COLUMN {a} TYPE bigint USING {a}::bigint, ALTER {b} SET DEFAULT '{b!}', DROP COLUMN {d}",
        "ALTER TABLE {t} ADD COLUMN {g#} text GENERATED ALWAYS AS ({b} || '{b!}') STORED", "COMMENT ON TABLE {t} IS '{t!}'; COMMENT ON COLUMN {t}.{a} IS '{a}'",
        "GRANT SELECT ({a}), UPDATE ({b}) ON {t} TO app; REVOKE UPDATE ({b}) ON {t} FROM app", "GRANT ALL ON TABLE {t} TO app WITH GRANT OPTION",
        "CREATE STATISTICS {z#} ON {a}, {b} FROM {t}; COMMENT ON STATISTICS {z#} IS 'x'; ANALYZE {t} ({a})",
        "CREATE TRIGGER {z#} BEFORE INSERT OR UPDATE OF {a} ON {t} FOR EACH ROW WHEN (NEW.{a} > 0) EXECUTE FUNCTION f_row({y#}, '{b!}'); ALTER TABLE {t} "
        "DISABLE TRIGGER {z#}; COMMENT ON TRIGGER {z#} ON {t} IS 'x'",
        "CREATE TRIGGER {z#} AFTER INSERT ON {t} REFERENCING NEW TABLE AS {y#} FOR EACH STATEMENT EXECUTE FUNCTION f_row()",
        "CREATE RULE {z#} AS ON DELETE TO {t} WHERE OLD.{a} = 1 DO INSTEAD NOTHING; COMMENT ON RULE {z#} ON {t} IS 'x'; DELETE FROM {t}",
        "CREATE RULE {z#} AS ON INSERT TO {t} DO ALSO UPDATE orders SET amount = NEW.{a} WHERE id = NEW.{a}; DROP RULE {z#} ON {t}",
        "CREATE POLICY {z#} ON {t} USING ({a} > 0) WITH CHECK ({t}.{b} <> ''); ALTER POLICY {z#} ON {t} RENAME TO {y#}; COMMENT ON POLICY {y#} ON {t} IS 'x'",
        "CREATE PUBLICATION {z#} FOR TABLE {t} ({a}) WHERE ({a} > 0); COMMENT ON PUBLICATION {z#} IS 'x'; ALTER PUBLICATION {z#} RENAME TO {y#}"],
    "long code": ["DO $$ DECLARE {x#} {t}.{a}%TYPE; BEGIN SELECT {t}.{a} INTO {x#} FROM {t}; END $$",
        "DO $$ <<{l#}>> DECLARE {x#} int := 1; BEGIN UPDATE {t} SET {a} = {l#}.{x#}; EXIT {l#}; END $$",
        "DO $$ BEGIN EXECUTE format('UPDATE %I SET %I = 7', '{t!}', '{a!}'); EXECUTE 'DELETE FROM {t} WHERE {a} > 5'; END $$",
        "CREATE FUNCTION {f#}({x#} {t}) RETURNS int LANGUAGE sql AS 'SELECT ({x#}).{a}'; SELECT {f#}({t}), {t}.{f#} FROM {t} ORDER BY 1",
        "CREATE FUNCTION {f#}({x#} {t}.{a}%TYPE DEFAULT 3) RETURNS SETOF {t} LANGUAGE sql AS $$ SELECT * FROM {t} WHERE {a} = {x#} $$; SELECT {a} FROM "
        "{f#}({x#} => 1); SELECT {y#}.* FROM {f#}({x#} := 2) AS {y#}; COMMENT ON FUNCTION {f#} IS 'x'; DROP FUNCTION {f#}",
        "CREATE FUNCTION {f#}(OUT {x#} int, OUT {z#} text) RETURNS SETOF record LANGUAGE plpgsql AS $q$ BEGIN RETURN QUERY SELECT {a}, {b} FROM {t}; END $q$; "
        "SELECT {x#}, {z#} FROM {f#}() ORDER BY 1",
        "CREATE FUNCTION {f#}() RETURNS TABLE ({x#} int) LANGUAGE sql AS 'SELECT {a} FROM {t} ORDER BY 1'; SELECT {f#}.{x#}, {f#}() FROM {f#}()",
        "CREATE FUNCTION {f#}({x#} int) RETURNS bigint LANGUAGE sql BEGIN ATOMIC SELECT sum({a}) + {x#} AS {y#} FROM {t}; END; SELECT {f#}(2)",
        "CREATE PROCEDURE {f#}(INOUT {x#} int) LANGUAGE plpgsql AS $$ BEGIN UPDATE {t} SET {b} = 'p'; {x#} := 5; END $$; CALL {f#}(1); CALL {f#}({x#} => 1)",
        "CREATE FUNCTION {f#}() RETURNS trigger LANGUAGE plpgsql AS $$ BEGIN NEW.{a} := NEW.{a} + 1; RETURN NEW; END $$; CREATE TRIGGER {z#} BEFORE INSERT ON "
        "{t} FOR EACH ROW EXECUTE FUNCTION {f#}(); INSERT INTO {t} ({a}) VALUES (1)",
        "CREATE FUNCTION {f#}() RETURNS int LANGUAGE sql SET search_path = {s#}, public AS 'SELECT 1'; ALTER FUNCTION {f#}() RENAME TO {g#}; SELECT {g#}()",
        "CREATE OR REPLACE FUNCTION {f#}() RETURNS int LANGUAGE sql AS 'SELECT 1'; CREATE OR REPLACE FUNCTION {f#}() RETURNS int LANGUAGE sql AS 'SELECT 2'; "
        "GRANT EXECUTE ON FUNCTION {f#}() TO app; SELECT {f#}() AS {x#}, '{f#}()'::regprocedure"],
    "long view": ["CREATE VIEW {v#} ({x#}, {z#}) AS SELECT {a}, {b} FROM {t}; SELECT {v#}.{x#} FROM {v#} ORDER BY 1; COMMENT ON VIEW {v#} IS '{t!}'",
        "CREATE VIEW {v#} AS SELECT {x#}.{a} AS {z#}, {x#}.* FROM {t} AS {x#}; ALTER VIEW {v#} RENAME COLUMN {z#} TO {y#}; TABLE {v#}",
        "CREATE OR REPLACE VIEW {v#} AS SELECT {a} FROM {t}; CREATE OR REPLACE VIEW {v#} AS SELECT {a}, 1 AS {x#} FROM {t}; DROP VIEW {v#}",
        "CREATE MATERIALIZED VIEW {v#} AS SELECT {a} FROM {t}; REFRESH MATERIALIZED VIEW {v#}; CREATE UNIQUE INDEX {i#} ON {v#} ({a}); REFRESH MATERIALIZED "
        "VIEW CONCURRENTLY {v#}",
        "CREATE TABLE {c#} (LIKE {t} INCLUDING ALL); ALTER TABLE {c#} INHERIT {t}", "CREATE TABLE {c#} ({e#} int) INHERITS ({t}); INSERT INTO {c#} ({a}) VALUES (1)",
        "CREATE TABLE {c#} AS TABLE {t}; ALTER TABLE {c#} ADD COLUMN {x#} int", "CREATE TABLE {c#} AS SELECT {a} {x#}, count(*) FROM {t} GROUP BY {x#}",
        "CREATE TABLE {c#} PARTITION OF {t} FOR VALUES FROM (200) TO (300); ALTER TABLE {t} DETACH PARTITION {c#}",
        "ALTER TABLE {t} ADD UNIQUE ({a}); CREATE TABLE {c#} ({x#} int CONSTRAINT {k#} REFERENCES {t} ({a}) DEFERRABLE, FOREIGN KEY ({x#}) REFERENCES {t} ({a}))"],
    "long session": ["PREPARE {p#} (int) AS SELECT {a} FROM {t} WHERE {a} >= $1 ORDER BY 1; EXECUTE {p#}(1); DEALLOCATE {p#}",
        "BEGIN; DECLARE {u#} SCROLL CURSOR FOR SELECT {a} FROM {t} ORDER BY 1; FETCH 2 FROM {u#}; MOVE ABSOLUTE 0 IN {u#}; FETCH ALL IN {u#}; CLOSE {u#}; COMMIT",
        "BEGIN; DECLARE {u#} CURSOR FOR SELECT * FROM {t} FOR UPDATE; FETCH {u#}; UPDATE {t} SET {b} = 'c' WHERE CURRENT OF {u#}; COMMIT",
        "BEGIN; SAVEPOINT {z#}; INSERT INTO {t} ({a}) VALUES (50); ROLLBACK TO {z#}; RELEASE SAVEPOINT {z#}; COMMIT", "BEGIN; LOCK TABLE {t} IN SHARE MODE; COMMIT",
        "ALTER TABLE {t} ADD CONSTRAINT {k#} UNIQUE ({a}) DEFERRABLE; BEGIN; SET CONSTRAINTS {k#} DEFERRED; UPDATE {t} SET {a} = {a} + 1; COMMIT",
        "SET app.{z#} = {y#}; SHOW app.{z#}; SELECT current_setting('app.{z!}', true), current_setting('app.x', true)", "SET app.x TO {z#}, '{a!}'; SHOW app.x; RESET app.x",
        "\\set {v!} 4;SELECT :{v!} AS {x#}, :'{v!}', {a} FROM {t}", "\\set v {a!};\\echo {a!};SELECT :'v' AS :\"v\", :\"v\" FROM {t}", "SELECT {a} FROM {t} \\g",
        "\\set {v!} 4;SELECT :{?{v!}} AS {x#}, :{?{w!}} AS {y#}", "\\set v x;SELECT :\"v\"{x#}, :'v'{y#} FROM (SELECT 1 AS x) {z#}",
        "LISTEN {z#}; SELECT * FROM pg_listening_channels(); UNLISTEN {z#}", "NOTIFY {z#}, '{b!}'",
        "SET search_path = {s#}, public; SHOW search_path; SELECT {a} FROM {t}", "SELECT set_config('search_path', '{s}, public', false); RESET search_path"],
    "long made": ["CREATE TYPE {y#} AS ENUM ('a', 'b'); ALTER TABLE {t} ADD COLUMN {c#} {y#} DEFAULT 'a'; SELECT 'b'::{y#} > CAST('a' AS {y#}), {y#} 'a'; ALTER TYPE {y#} ADD "
        "VALUE 'c' AFTER 'a'; ALTER TYPE {y#} RENAME TO {z#}; COMMENT ON TYPE {z#} IS 'x'",
        "CREATE TYPE {y#} AS ({x#} int, {z#} text); ALTER TABLE {t} ADD COLUMN {c#} {y#}; SELECT ({c#}).{x#}, ({t}.{c#}).{z#} FROM {t}; UPDATE {t} SET {c#}.{x#} = 4; ALTER "
        "TYPE {y#} RENAME ATTRIBUTE {x#} TO {w#} CASCADE; SELECT ROW(1, 'x')::{y#}, ARRAY[]::{y#}[]",
        "CREATE DOMAIN {y#} AS int CONSTRAINT {k#} CHECK (VALUE > 0); ALTER TABLE {t} ADD {c#} {y#}; SELECT CAST(3 AS {y#}), 4::{y#}; ALTER DOMAIN {y#} DROP CONSTRAINT {k#}; "
        "ALTER DOMAIN {y#} ADD CONSTRAINT {l#} CHECK (VALUE < 9); COMMENT ON CONSTRAINT {l#} ON DOMAIN {y#} IS 'x'",
        "CREATE SEQUENCE {q#} OWNED BY {t}.{a}; ALTER TABLE {t} ALTER {a} SET DEFAULT nextval('{q#}'); SELECT nextval('{q#}'), currval('{q#}'); ALTER SEQUENCE {q#} RENAME TO "
        "{r#}; SELECT last_value FROM {r#}",
        "CREATE COLLATION {z#} (locale = 'C'); SELECT {b} COLLATE {z#} AS {x#} FROM {t} ORDER BY {b} COLLATE {z#}; CREATE INDEX {i#} ON {t} ({b} COLLATE {z#})",
        "CREATE AGGREGATE {z#} (int) (SFUNC = int4pl, STYPE = int, INITCOND = '0'); SELECT {z#}({a}), {z#}({a}) OVER () FROM {t} GROUP BY {a}",
        "CREATE AGGREGATE {z#} (int) (SFUNC = int4pl, STYPE = int, INITCOND = '0'); SELECT {z#}({a}) FROM {t}; COMMENT ON AGGREGATE {z#} (int) IS 'x'",
        "CREATE FUNCTION {f#}(int, int) RETURNS int LANGUAGE sql AS 'SELECT $1 + $2'; CREATE OPERATOR %% (LEFTARG = int, RIGHTARG = int, FUNCTION = {f#}); SELECT {a} %% 1 FROM "
        "{t} ORDER BY 1",
        "CREATE OPERATOR CLASS {z#} FOR TYPE int USING btree FAMILY integer_ops AS STORAGE int; DROP OPERATOR CLASS {z#} USING btree",
        "CREATE OPERATOR FAMILY {z#} USING btree; CREATE OPERATOR CLASS {y#} FOR TYPE int USING btree FAMILY {z#} AS OPERATOR 1 <, OPERATOR 2 <=, OPERATOR 3 =, OPERATOR 4 >=, "
        "OPERATOR 5 >, FUNCTION 1 btint4cmp(int, int); CREATE INDEX {i#} ON {t} ({a} {y#})"],
    "long alone": ["CREATE SCHEMA {s}; CREATE TABLE {s}.{x} ({a} int); SELECT {s}.{x}.{a} FROM {s}.{x}; SET search_path = {s}, public; TABLE {x}; GRANT USAGE ON SCHEMA {s} TO "
        "app; COMMENT ON SCHEMA {s} IS 'x'; ALTER SCHEMA {s} RENAME TO {r}; ALTER TABLE {r}.{x} SET SCHEMA s; TABLE s.{x}",
        "CREATE SCHEMA {s}; ALTER DEFAULT PRIVILEGES IN SCHEMA {s} GRANT SELECT ON TABLES TO app; CREATE VIEW {s}.{v} AS SELECT 1 AS {a}; SELECT {s}.{v}.{a} FROM {s}.{v}",
        "CREATE TYPE {y} AS RANGE (SUBTYPE = int, MULTIRANGE_TYPE_NAME = {m}); SELECT {y}(1, 3) AS {x}, {m}({y}(1, 3))",
        "CREATE TYPE {y} AS (x int); CREATE FUNCTION {f}(int) RETURNS {y} LANGUAGE sql AS 'SELECT ROW($1)::{y}'; CREATE CAST (int AS {y}) WITH FUNCTION {f}(int); SELECT 4::{y}, "
        "CAST(5 AS {y}); COMMENT ON CAST (int AS {y}) IS 'x'",
        "CREATE TEXT SEARCH CONFIGURATION {z} (COPY = english); SELECT to_tsvector('{z}', 'cats') AS {x}; ALTER TEXT SEARCH CONFIGURATION {z} RENAME TO {y}",
        "CREATE TEXT SEARCH DICTIONARY {z} (TEMPLATE = simple); CREATE TEXT SEARCH CONFIGURATION {y} (PARSER = default); ALTER TEXT SEARCH CONFIGURATION {y} ADD MAPPING FOR word "
        "WITH {z}; COMMENT ON TEXT SEARCH DICTIONARY {z} IS '{z!}'",
        "CREATE EVENT TRIGGER {z} ON ddl_command_end WHEN tag IN ('CREATE RULE') EXECUTE FUNCTION f_event(); ALTER EVENT TRIGGER {z} DISABLE; COMMENT ON EVENT TRIGGER {z} IS 'x'",
        "CREATE FOREIGN DATA WRAPPER {z}; CREATE SERVER {y} FOREIGN DATA WRAPPER {z} OPTIONS ({o} '{o!}'); CREATE FOREIGN TABLE {x} ({a} int OPTIONS ({o} 'x')) SERVER {y}; "
        "COMMENT ON SERVER {y} IS 'x'",
        "CREATE ACCESS METHOD {z} TYPE TABLE HANDLER heap_tableam_handler; CREATE TABLE {x} ({a} int) USING {z}",
        "CREATE CONVERSION {z} FOR 'LATIN1' TO 'UTF8' FROM iso8859_1_to_utf8; COMMENT ON CONVERSION {z} IS 'x'; ALTER CONVERSION {z} RENAME TO {y}",
        "SELECT 1 AS {x}, 2 {y}, '{x!}' AS \"{z!}\"", "VALUES (1, '{x!}')", "SELECT {x}.{y} FROM (VALUES (1, 2)) AS {x} ({y}, {z})",
        "CREATE SEQUENCE {q}; SELECT nextval('{q}'), setval('{q}', 5); COMMENT ON SEQUENCE {q} IS 'x'; DROP SEQUENCE {q}",
        "CREATE TABLE {t} ({a} int, {b} text); CREATE TABLE {u} ({a} int, {b} text); INSERT INTO {u} SELECT {x}.{a}, {y}.{b} FROM {t} {x} FULL JOIN {u} AS {y} ON {x}.{a} = "
        "{y}.{a}; TRUNCATE {t}, {u}; DROP TABLE {t}, {u}",
        "CREATE TABLE {t} ({a} int);\n-- next file\nALTER TABLE {t} ADD COLUMN {b} text; SELECT {a}, {b} FROM {t};\n-- next file\nDROP TABLE {t}",
        "SELECT 1 AS {x} -- {x!}\n, /* {y!} */ 2 AS {y}", "CREATE TABLE {t} (\n  {a} int -- {a!}\n, {b} text /* {b} */\n)"],
}
GRAMMAR.update(LONG)
HOLE = re.compile(r"<([a-z][a-z ]*)>")
NAME = re.compile(r"\{([a-z]\w*)(!?)\}")
KEPT = 63  # the bytes that PostgreSQL keeps of a name
WORD = re.compile("[a-z_\x80-\U0010ffff][a-z0-9_$\x80-\U0010ffff]*")
WIDE = ("é", "ß", "漢", "字", "😀", "И")


def expanded(chance, text, numbers):
    """A text with each hole filled by an alternative of its name."""
    text = text.replace("#", f"_{next(numbers)}") if "#" in text else text
    return HOLE.sub(lambda hole: expanded(chance, chance.choice(GRAMMAR[hole[1]]), numbers), text)


def lines(text):
    """The statements of a text, each on a line. A line for psql and the data of COPY have no semicolon."""
    parts = [part.strip() for part in text.split(";")]
    return "".join(f"{part}\n" if part.startswith("\\") or part.endswith("\\.") else f"{part};\n" for part in parts if part)


def long_name(chance, start):
    """A name that begins so. Most are longer than PostgreSQL keeps, and at the border there may be anything."""
    letters = string.ascii_lowercase
    filled = lambda length: "".join(chance.choice(letters + "_") for _ in range(length))
    kind = chance.choice(["word"] * 9 + ["border"] * 4 + ["wide", "odd", "odd", "doubled", "capitals", "dollar", "short", "short"])
    name = start + "_" + filled(KEPT - len(start) - 1)
    if kind == "border":
        return name[:KEPT - chance.randrange(5)] + "".join(chance.choice(WIDE) for _ in range(chance.randrange(1, 5))) + filled(chance.choice([0, 0, 9]))
    if kind in ("odd", "doubled", "capitals", "dollar"):
        marks = {"odd": [" ", ".", "--", "/*", "*/", ":x", "%", "(", "\\"], "doubled": ['"', '""'], "capitals": ["A", "Zz"], "dollar": ["$", "$1"]}[kind]
        at = chance.choice([len(start) + 2, KEPT // 2, KEPT - 2, KEPT - 1, KEPT])
        name = name[:at] + chance.choice(marks) + name[at:] + filled(chance.randrange(1, 9))
    more = {"wide": "".join(chance.choice(WIDE) for _ in range(30)), "short": ""}.get(kind, filled(chance.choice([1, 1, 2, 9, 30])))
    return (start + more if kind == "wide" else name[:KEPT - chance.randrange(9)] if kind == "short" else name + more)


def cut(name):
    """What PostgreSQL keeps of a name."""
    return name.encode()[:KEPT].decode("utf-8", "ignore")


def quoted(name):
    return '"' + name.replace('"', '""') + '"'


def written(chance, name):
    """A name in one of the ways in which it can be written."""
    way, plain = chance.random(), WORD.fullmatch(name)
    name = cut(name) if 0.6 < way < 0.7 else name + chance.choice(["x", "_2", "é"]) if way > 0.85 and len(name.encode()) > KEPT else name
    if not plain or 0.7 < way < 0.77:
        return quoted(name)
    return "".join(letter.upper() if letter in string.ascii_lowercase and chance.random() < 0.5 else letter for letter in name) if way > 0.93 else name


def named(chance, text, number):
    """A scene with its names."""
    names = {}
    for slot in sorted({found[1] for found in NAME.finditer(text)}):
        names[slot] = long_name(chance, f"{slot}{number}_{chance.choice(string.ascii_lowercase)}")
    return NAME.sub(lambda found: names[found[1]] if found[2] else written(chance, names[found[1]]), text)


def migration(chance, scene="scene"):
    """A migration of one to three scenes of this name. Some are transactions."""
    numbers = itertools.count()
    texts = [lines(expanded(chance, f"<{scene}>", numbers).replace("@", str(number))) for number in range(chance.choice([1, 1, 1, 2, 2, 3]))]
    texts = [named(chance, text, number) for number, text in enumerate(texts)]
    return "".join(f"BEGIN;\n{text}COMMIT;\n" if chance.random() < 0.1 and "next file" not in text else text for text in texts)
