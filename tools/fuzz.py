#!/usr/bin/env python3
"""A fuzzer: runs the linter on made texts and checks what each run prints.

    tools/fuzz.py PROGRAM [--count N] [--seed S] [--maker NAME] [--words WORDS] [--jobs J] [--locks-only]

PROGRAM is the built linter. N texts (1000) are made, the text i from the seed S + i, so that `--seed` and `--count 1` make one
text again. Makers are `grammar` (statements that the linter looks into), `tokens` (tokens at random), `cases` (texts of cases/
with bytes or tokens dropped, doubled or exchanged) and `bytes` (bytes at random); each text takes one of the four, unless
`--maker` names it or `locks` (transactions over few tables, with work that takes long locks). WORDS are the words of each run in
one argument; without `--words` each text takes some at random, with all rules that are off by default. J processes (2) run at
once. With `--locks-only` the last of these checks alone is made, in two runs of the program for each text. What is checked of each text:

- a run ends within five seconds, with a line on the error stream that fits its status (README.md), and prints on standard output
  only with status 0 and 1; status 3 comes exactly where the text is not UTF-8; a place on the error stream lies in the text;
- the printed form parses, its count is right, and status 1 comes exactly where the count is not 0;
- ranges and edits lie in the text on character boundaries, reports ascend by start, edits of a fix ascend and do not overlap;
- a second run prints the same; with `--only RULE`, for one rule at random, the rule's reports are those of the first run;
- each fix is applied, and the new text is read again; there, a rule of SETTLED no longer reports at that place;
- with `--locks` the same reports are printed, then works by statement, whose tables lie in the text, and whether the text is plain;
  where it is plain, has no ignore comment and LOCK_RULES report nothing, no work is old.

A failure is printed with its seed, the words and the text as a Python literal, and the first of its kind in each process with a
text that is cut down as far as it still fails. At the end come the counts by rule, among them the fixes whose text is not read
again, which are no failure for a rule of MAY_NOT_READ, and the fixes after which the rule still reports at that place, which are
none for a rule that is not in SETTLED. The exit status is 1 if anything failed.
"""
import argparse
import collections
import functools
import multiprocessing
import pathlib
import random
import re
import shlex
import subprocess
import sys

from keywords import WORDS

TOP = pathlib.Path(__file__).resolve().parent.parent
LONGEST_RUN = 5  # seconds
CHUNK = 50  # texts that a process makes at a time
TRIES = 1000  # runs of all checks, at most, to cut a text down

# Rules whose fix, where it fits, leaves no report of the rule at its place.
SETTLED = {
    "require-concurrent-index-creation", "require-concurrent-index-deletion", "require-concurrent-partition-detach",
    "require-concurrent-reindex", "require-lock-timeout", "require-statement-timeout", "prefer-bigint-over-int",
    "prefer-bigint-over-smallint", "prefer-text-field", "prefer-timestamp-tz",
}
# Rules whose fix may give a text that is not read again. A last statement without its semicolon goes on with the added COMMIT; and
# where a quoted name follows INDEX without a blank, the words that are put before the name join INDEX.
MAY_NOT_READ = {
    "ban-uncommitted-transaction": lambda text, edits: text.rstrip()[-1:] != b";",
    "prefer-robust-stmts": lambda text, edits: any(is_word_byte(text, edit.start - 1) and edit.text[:1].isalpha() for edit in edits),
}
# Rules that report all work on old tables in a plain text.
LOCK_RULES = [
    "adding-field-with-default", "adding-foreign-key-constraint", "adding-serial-primary-key-field", "changing-column-type",
    "constraint-missing-not-valid", "disallowed-unique-constraint", "require-concurrent-index-creation",
    "require-concurrent-index-deletion", "require-concurrent-partition-detach", "require-concurrent-reindex",
]

ERRORS = {
    2: r"error: bad arguments",
    3: r"error: input is not UTF-8",
    4: r"error: (?:text too long|(?:unterminated|syntax) at (\d+))",
    5: r"error: read failed",
    6: r"error: write failed",
    7: r"error: out of memory",
}

# The grammar: each name has alternatives, and each `<name>` in one of them is replaced by an alternative of that name. A blank is
# a place where the text may have any blanks and comments.
GRAMMAR = {
    "statement": [
        "ALTER TABLE <ie> <only> <path> <actions>", "ALTER TABLE <ie> <path> <actions>", "ALTER TABLE <path> <actions>",
        "CREATE <temp> TABLE <ine> <path> (<elements>) <tail>", "CREATE TABLE <ine> <path> (<elements>)",
        "CREATE TABLE <path> AS SELECT <expression> FROM <path>", "SELECT * INTO <temp> TABLE <path> FROM <path>",
        "CREATE <unique> INDEX <conc> <ine> <name> ON <only> <path> <method> (<names>) <where>",
        "CREATE <unique> INDEX <conc> <ine> <name> ON <path> (<names>)", "CREATE INDEX <conc> ON <path> (<expression>)",
        "DROP INDEX <conc> <ie> <paths> <behavior>", "REINDEX <options> <reindex> <conc> <path>", "<begin>", "<end>",
        "<savepoint>",
        "DROP <object> <ie> <paths> <behavior>", "DROP <on-table> <ie> <name> ON <path> <behavior>", "DROP DATABASE <ie> <name>",
        "INSERT INTO <path> (<names>) VALUES (<expressions>) ON CONFLICT (<name>) DO UPDATE SET <sets> <where>",
        "INSERT INTO <path> (<names>) SELECT <expressions>", "UPDATE <only> <path> SET <sets> <where>",
        "UPDATE <path> SET <sets>",
        "MERGE INTO <path> USING <path> ON <expression> WHEN MATCHED THEN UPDATE SET <sets> "
        "WHEN NOT MATCHED THEN INSERT (<names>) VALUES (<expressions>)",
        "WITH <name> AS (SELECT <expression>) UPDATE <path> SET <sets> <where>", "DELETE FROM <path> <where>",
        "CREATE DOMAIN <path> AS <type> <column-constraints>", "ALTER DOMAIN <path> <domain-action>",
        "CREATE TYPE <path> AS ENUM (<string>, <string>)", "CREATE TYPE <path> AS (<name> <type>, <name> <type>)",
        "ALTER TYPE <path> ADD VALUE <ine> <string> <place>", "ALTER TYPE <path> <type-action>",
        "VACUUM <vacuum> <paths>", "VACUUM FULL", "VACUUM (<vacuum-options>) <path> (<names>)",
        "CLUSTER <verbose> <path> USING <name>",
        "CLUSTER <path>", "CLUSTER", "CLUSTER (VERBOSE) <path>", "TRUNCATE <table> <only> <paths> <restart> <behavior>",
        "SET <scope> <setting> <to> <value>", "SET <scope> lock_timeout = <string>", "SET statement_timeout TO <number>",
        "RESET <setting>",
        "LOCK TABLE <paths> IN <lock> MODE <nowait>", "REFRESH MATERIALIZED VIEW <conc> <path>",
        "COMMENT ON TABLE <path> IS <string>",
        "CREATE <replace> VIEW <path> AS SELECT <expressions> FROM <path>", "CREATE MATERIALIZED VIEW <ine> <path> AS SELECT 1",
        "CREATE <replace> FUNCTION <path>() RETURNS int LANGUAGE sql AS <string>", "ALTER FUNCTION <path>(int) <function-option>",
        "ALTER VIEW <ie> <path> <view-action>", "ALTER SEQUENCE <ie> <path> <sequence-option>", "CREATE SEQUENCE <ine> <path>",
        "CREATE POLICY <name> ON <path> USING (<expression>)", "ALTER POLICY <name> ON <path> TO <name> USING (<expression>)",
        "ALTER ROLE <name> <role-option>", "ALTER DATABASE <name> SET <setting> = <value>",
        "ALTER SYSTEM SET <setting> = <value>",
        "ALTER EXTENSION <name> UPDATE", "ALTER INDEX <ie> <path> RENAME TO <name>", "ALTER SCHEMA <name> RENAME TO <name>",
        "REVOKE SELECT ON <path> FROM <name>", "GRANT SELECT ON <path> TO <name>", "SELECT <expressions> FROM <path> <where>",
        "DO <string>", "EXPLAIN SELECT <expression>", "PREPARE <name> AS SELECT 1",
        "CREATE TRIGGER <name> BEFORE INSERT ON <path>",
        "CREATE EXTENSION <ine> <name>", "CREATE SCHEMA <ine> <name>", "UPDATE alembic_version SET version_num = <string>", "",
        "CREATE TABLE <path> PARTITION OF <path> FOR VALUES FROM (1) TO (2)",
        "CREATE FOREIGN TABLE <path> (<elements>) SERVER <name>",
    ],
    "migration": [
        "<open>", "<open>", "<create>", "<create>", "<create>", "<close>", "<work>", "<work>", "<work>", "<work>", "SELECT 1",
    ],
    "open": ["BEGIN", "BEGIN", "START TRANSACTION", "COMMIT AND CHAIN"],
    "close": ["COMMIT", "END", "ROLLBACK", "ROLLBACK AND CHAIN", "<end>", "<savepoint>"],
    "few": ["t", "t", "t", "u", "s.t", "T", "\"T\""],
    "create": [
        "CREATE <temp> TABLE <ine> <few> (a int)", "CREATE TABLE <few> (a int)", "CREATE TABLE <few> AS SELECT 1",
        "SELECT 1 INTO <few>",
    ],
    "work": [
        "CREATE <unique> INDEX <conc> ON <only> <few> (a)", "CREATE INDEX ON <few> (a)", "DROP INDEX <conc> i",
        "REINDEX <options> TABLE <conc> <few>", "REINDEX INDEX <conc> i", "ALTER TABLE <ie> <only> <few> <few-actions>",
        "ALTER TABLE <few> <few-actions>", "ALTER TABLE <few> <few-action>",
    ],
    "few-actions": ["<few-action>", "<few-action>, <few-action>"],
    "few-action": [
        "ADD <table-constraint> <valid>", "ADD CONSTRAINT c <table-constraint> <valid>", "ADD UNIQUE USING INDEX i",
        "ADD <column> b <type> <column-constraints>", "ADD b int DEFAULT <expression>", "ADD b int DEFAULT now()",
        "ADD b int UNIQUE", "ADD b int PRIMARY KEY", "ADD b int REFERENCES u", "ADD b int GENERATED ALWAYS AS (1) STORED",
        "ALTER a TYPE text", "ALTER a <alteration>", "DETACH PARTITION p <detach>", "DETACH PARTITION p",
        "VALIDATE CONSTRAINT c", "ADD b int",
    ],
    "actions": ["<action>", "<action>", "<action>, <action>", "<action>, <action>, <action>"],
    "action": [
        "ADD <column> <ine> <name> <type> <column-constraints>", "ADD COLUMN <name> <type> <column-constraints>",
        "ADD <table-constraint> <valid>", "ADD CONSTRAINT <name> <table-constraint> <valid>", "ADD <name> <type>",
        "ADD CONSTRAINT <name> <unique-or-key> USING INDEX <name>", "DROP <column> <ie> <name> <behavior>",
        "DROP CONSTRAINT <ie> <name> <behavior>", "ALTER <column> <name> <data> TYPE <type> <using>",
        "ALTER <column> <name> <alteration>",
        "VALIDATE CONSTRAINT <name>", "ALTER CONSTRAINT <name> <enforced>", "RENAME TO <name>",
        "RENAME <column> <name> TO <name>",
        "RENAME CONSTRAINT <name> TO <name>", "SET SCHEMA <name>", "OWNER TO <name>", "DETACH PARTITION <path> <detach>",
        "DETACH PARTITION <path>", "ATTACH PARTITION <path> FOR VALUES IN (1)", "<able> TRIGGER <name>",
        "<able> ROW LEVEL SECURITY",
        "FORCE ROW LEVEL SECURITY", "REPLICA IDENTITY FULL", "NO INHERIT <path>", "INHERIT <path>", "SET (fillfactor = 70)",
        "CLUSTER ON <name>", "SET WITHOUT CLUSTER", "SET TABLESPACE <name>", "SET LOGGED",
    ],
    "alteration": [
        "SET NOT NULL", "DROP NOT NULL", "SET DEFAULT <expression>", "DROP DEFAULT", "SET STATISTICS 100", "DROP EXPRESSION <ie>",
        "SET EXPRESSION AS (<expression>)", "ADD GENERATED ALWAYS AS IDENTITY", "DROP IDENTITY <ie>", "RESTART WITH 3",
        "SET GENERATED BY DEFAULT SET START WITH 5", "SET STORAGE PLAIN", "SET (n_distinct = 1)",
    ],
    "elements": ["<element>", "<element>, <element>", "<element>, <element>, <element>", ""],
    "element": [
        "<name> <type> <column-constraints>", "<name> <type>", "<name> <type>", "<table-constraint>",
        "CONSTRAINT <name> <table-constraint>",
        "LIKE <path> INCLUDING ALL",
    ],
    "type": [
        "<plain-type>", "<plain-type>", "<plain-type>", "<plain-type><array>", "<name>", "pg_catalog.<plain-type>",
        "\"<plain-type>\"",
        "<plain-type>(10)", "<plain-type> ARRAY", "<plain-type> ( 3 ) [ ]", "<path>%TYPE", "SETOF <plain-type>",
        "pg_catalog . \"<plain-type>\"",
    ],
    "plain-type": [
        "int", "integer", "int4", "int8", "bigint", "smallint", "int2", "serial", "serial2", "serial4", "smallserial",
        "bigserial", "text",
        "varchar", "varchar(50)", "character varying", "character varying(9)", "char", "char(3)", "character", "bpchar",
        "timestamp",
        "timestamp(3)", "timestamp without time zone", "timestamp with time zone", "timestamptz", "time", "numeric(10, 2)",
        "uuid",
        "double precision", "bit varying(3)", "interval day to second", "national character varying(3)", "nchar(2)", "jsonb",
    ],
    "array": ["[]", "[3]", "[][]", " []", " ARRAY[3]"],
    "column-constraints": [
        "", "<column-constraint>", "<column-constraint> <column-constraint>", "CONSTRAINT <name> <column-constraint>",
    ],
    "column-constraint": [
        "NOT NULL", "NULL", "DEFAULT <expression>", "CHECK (<expression>)", "UNIQUE", "PRIMARY KEY", "REFERENCES <path> (<name>)",
        "GENERATED ALWAYS AS (<expression>) STORED", "GENERATED BY DEFAULT AS IDENTITY", "COLLATE \"C\"",
        "REFERENCES <path> ON DELETE SET NULL",
        "UNIQUE NULLS NOT DISTINCT", "DEFERRABLE INITIALLY DEFERRED",
    ],
    "table-constraint": [
        "CHECK (<expression>)", "UNIQUE (<names>)", "PRIMARY KEY (<names>)", "FOREIGN KEY (<names>) REFERENCES <path> (<names>)",
        "EXCLUDE USING gist (<name> WITH =)", "NOT NULL <name>", "CHECK (<name> IS NOT NULL)",
    ],
    "expression": [
        "<number>", "<string>", "<name>", "now()", "<name>()", "<path>(<expression>)", "(<expression>)",
        "<expression> + <expression>",
        "<expression> IS NOT NULL", "<expression>::<plain-type>", "NULL", "true", "ARRAY[<expression>]", "-<number>", "random()",
        "CASE WHEN <expression> THEN 1 END", "'{}'::jsonb", "uuid_generate_v4()", "<name> > 0", "clock_timestamp()",
        "'a' COLLATE \"C\"",
    ],
    "expressions": ["<expression>", "<expression>, <expression>"],
    "sets": ["<set>", "<set>, <set>", "<set>, <set>, <set>", "a = 1, <set>, a = 2", "<set>, <set>, <set>, <set>, <set>"],
    "set": [
        "<name> = <expression>", "a = <expression>", "A = <expression>", "\"a\" = DEFAULT", "(<name>, a) = (<expression>, 1)",
        "b = a",
        "a[1] = <expression>", "a.b = 1", "(a) = ROW(1)", "b = (SELECT 1)",
    ],
    "domain-action": [
        "ADD CONSTRAINT <name> CHECK (<expression>) <valid>", "ADD CHECK (VALUE > 0)", "SET NOT NULL", "DROP DEFAULT",
        "SET DEFAULT 1",
        "DROP CONSTRAINT <ie> <name>", "VALIDATE CONSTRAINT <name>", "RENAME TO <name>", "SET SCHEMA <name>", "DROP NOT NULL",
    ],
    "type-action": [
        "ADD ATTRIBUTE <name> <type>, DROP ATTRIBUTE <ie> <name>", "RENAME VALUE <string> TO <string>", "RENAME TO <name>",
        "ALTER ATTRIBUTE <name> TYPE <type>", "RENAME ATTRIBUTE <name> TO <name>", "SET SCHEMA <name>", "OWNER TO <name>",
    ],
    "begin": ["BEGIN", "BEGIN", "START TRANSACTION", "BEGIN WORK", "BEGIN ISOLATION LEVEL SERIALIZABLE", "BEGIN TRANSACTION"],
    "end": [
        "COMMIT", "COMMIT", "ROLLBACK", "END", "ABORT", "COMMIT AND CHAIN", "ROLLBACK WORK AND NO CHAIN",
        "PREPARE TRANSACTION <string>",
    ],
    "savepoint": [
        "SAVEPOINT <name>", "RELEASE <name>", "ROLLBACK TO <name>", "ROLLBACK TO SAVEPOINT <name>", "COMMIT PREPARED <string>",
    ],
    "place": ["", "", "BEFORE <string>", "AFTER <string>"],
    "object": [
        "TABLE", "TABLE", "INDEX", "VIEW", "MATERIALIZED VIEW", "FUNCTION", "TYPE", "DOMAIN", "SEQUENCE", "SCHEMA", "EXTENSION",
        "FOREIGN TABLE", "PROCEDURE", "COLLATION",
    ],
    "on-table": ["TRIGGER", "POLICY", "RULE"],
    "vacuum": ["FULL", "FULL VERBOSE", "FULL FREEZE", "", "ANALYZE", "FULL ANALYZE"],
    "vacuum-options": ["FULL", "FULL, VERBOSE", "ANALYZE", "FULL false", "FULL true, ANALYZE", "VERBOSE, FULL on"],
    "options": ["", "", "(VERBOSE)", "(CONCURRENTLY)", "(CONCURRENTLY false)", "(TABLESPACE x)"],
    "reindex": ["INDEX", "TABLE", "SCHEMA", "DATABASE", "SYSTEM"],
    "setting": [
        "lock_timeout", "statement_timeout", "search_path", "\"lock_timeout\"", "LOCK_TIMEOUT", "a.b", "TIME ZONE",
        "idle_in_transaction_session_timeout",
    ],
    "value": ["<string>", "<number>", "DEFAULT", "on", "<name>, <name>"],
    "lock": ["ACCESS EXCLUSIVE", "SHARE", "ROW SHARE", "SHARE ROW EXCLUSIVE"],
    "function-option": ["STABLE", "SET x = 1", "RENAME TO <name>", "OWNER TO <name>", "COST 1", "SET SCHEMA <name>"],
    "view-action": [
        "SET (a = 1)", "RENAME TO <name>", "ALTER <name> SET DEFAULT 1", "RENAME <name> TO <name>", "SET SCHEMA <name>",
    ],
    "sequence-option": ["RESTART WITH 1 NO CYCLE", "OWNED BY <path>", "RENAME TO <name>", "INCREMENT BY 2", "AS int"],
    "role-option": ["LOGIN", "WITH NOLOGIN", "SET x = 1", "RENAME TO <name>", "RESET ALL"],
    "tail": ["", "PARTITION BY RANGE (<name>)", "INHERITS (<path>)", "WITH (fillfactor = 70)", "ON COMMIT DROP"],
    "where": ["", "WHERE <expression>"],
    "method": ["", "USING gin"],
    "using": ["", "USING <name>::<plain-type>"],
    "valid": ["", "NOT VALID", "NOT ENFORCED", "DEFERRABLE"],
    "enforced": ["NOT ENFORCED", "ENFORCED", "DEFERRABLE"],
    "detach": ["CONCURRENTLY", "FINALIZE"],
    "able": ["ENABLE", "DISABLE", "ENABLE ALWAYS"],
    "unique-or-key": ["UNIQUE", "PRIMARY KEY"],
    "unique": ["", "UNIQUE"],
    "conc": ["", "", "CONCURRENTLY"],
    "temp": ["", "TEMP", "UNLOGGED", "TEMPORARY"],
    "replace": ["", "OR REPLACE"],
    "ie": ["", "", "IF EXISTS"],
    "ine": ["", "", "IF NOT EXISTS"],
    "only": ["", "", "ONLY"],
    "column": ["", "COLUMN"],
    "data": ["", "SET DATA"],
    "table": ["", "TABLE"],
    "behavior": ["", "", "CASCADE", "RESTRICT"],
    "restart": ["", "RESTART IDENTITY"],
    "verbose": ["", "VERBOSE"],
    "nowait": ["", "NOWAIT"],
    "scope": ["", "LOCAL", "SESSION"],
    "to": ["=", "TO"],
    "names": ["<name>", "<name>, <name>", "<name>, <name>, <name>"],
    "paths": ["<path>", "<path>", "<path>, <path>"],
    "path": ["<name>", "<name>", "<name>", "<name>.<name>", "<name> . <name>", "pg_temp.<name>", "<name>.<name>.<name>"],
    "name": [
        "t", "u", "a", "b", "c", "i", "T", "users", "\"t\"", "\"T\"", "\"a b\"", "\"a\"\"b\"", "\"lock_timeout\"", "größe",
        "\"é\"", "日本語",
        "a$1", "_x", "index", "table", "concurrently", "type", "column", "if", "only", "set", "not", "int", "full", "value",
        "constraint",
        "n23456789_123456789_123456789_123456789_123456789_123456789_123456", "é" * 32, "a" + "é" * 33, "\"" + "q" * 70 + "\"",
        "\"" + "日" * 25 + "\"", "\"" + "q" * 62 + "\"\"" + "z\"",
    ],
    "string": [
        "'a'", "'b'", "''", "'it''s'", "E'a\\'b'", "E'\\\\'", "$$ a ; b $$", "$q$ $$ ' $q$", "$é$ x $é$", "'1s'", "'é\n;'",
        "U&'\\0061'", "B'01'",
        "X'1F'", "N'a'", "'-- squawk-ignore ban-drop-table'",
    ],
    "number": ["0", "1", "42", "1.5", "1e10", "0x1F", "1_000", ".5", "5.", "1e-3", "$1", "1..10"],
}
JOINED = re.compile(r"[A-Za-z0-9_$\x80-\U0010ffff'\"]$")
BLANKS = [" "] * 30 + ["\n", "\n  ", "\t", "  ", " \f\v", "\r\n", " /* c */ ", "/* a /* b */ ; ' */", " -- c\n", "-- ; 'é\n", "\n\n"]
COMMENTS = ["-- {}\n", "/* {} */", "--{}\n", "/*{}*/ ", "\n-- {}\n", "/*\n{}\n*/\n"]
IGNORES = [
    "squawk-ignore {}", "squawk-ignore {}, {}", "squawk-ignore-file {}", "squawk-ignore {} -- why", "squawk-ignore",
        "squawk-ignore ,,{},",
    "squawk-disable-assume-in-transaction", "squawk-ignore a\"b\\c, {}", "squawk-ignored {}", "squawk-ignore é",
        "squawk-ignore-file {},{}",
]
SIGNS = "; , . ( ) [ ] : :: = + - * / < > <= ~ ! @ # % ^ & | ` ? ; ; ( ) , = -- /* */ ' \" $ $$ $a$ \\ U&\" E' ..".split()
TOKEN = re.compile(r"""\s+|--[^\n]*|/\*.*?\*/|'(?:[^']|'')*'|"(?:[^"]|"")*"|\$\w*\$|\w+|.""", re.S)
EDGES = [b"'", b'"', b"$", b"-", b"/", b"*", b";", b"(", b")", b"[", b"]", b"\\", b" ", b"\n", b"\r", b"\x00", b"a", b"E", b"U&",
        b"1", b".", b"e",
         b"_", b",", "é".encode(), "日".encode(), b"$a$", b"--", b"/*", b"*/", b"BEGIN", b"\xef\xbb\xbf", b"\xc3", b"\xed\xa0\x80"]


def rule_names():
    """The rules of the tables of docs/RULES.md that can be named, and those among them that are off by default. Hazards have no fix."""
    found = re.findall(r"^\| \[`([a-z-]+)`\]\(#[a-z-]+\) \| (on|off) \|.*\|.*\|$", (TOP / "docs" / "RULES.md").read_text("utf-8"), re.M)
    rules = [name for name, _ in found if name != "unused-ignore"]
    return rules, [name for name, default in found if default == "off"]


RULES, OFF_BY_DEFAULT = rule_names()
ALL_RULES = ["--include", ",".join(OFF_BY_DEFAULT)]


# How texts are made.

def expanded(chance, name, depth=0):
    """An alternative of the name with all names in it replaced. Deep down the first one is taken, which ends there."""
    alternatives = GRAMMAR[name]
    piece = alternatives[0] if depth > 8 else chance.choice(alternatives)
    return re.sub(r"<([a-z-]+)>", lambda found: expanded(chance, found[1], depth + 1), piece)


def cased(chance, text):
    """The text as it is, or with letters in another case."""
    change = chance.choice([str, str, str.lower, str.upper, str.swapcase])
    return change(text)


def spaced(chance, text):
    """The text with each of its blanks replaced, or left out where nothing would be joined."""
    plain = chance.random() < 0.5
    made = ""
    for piece in text.split():
        joins = JOINED.search(made) and JOINED.search(piece[0])
        made += "" if not made or (not joins and chance.random() < 0.2) else " " if plain else chance.choice(BLANKS)
        made += piece
    return made


def comment(chance):
    """A comment, most often one that ignores rules."""
    said = re.sub(r"\{\}", lambda _: chance.choice(RULES + ["foo", "prefer-timestamptz"]), chance.choice(IGNORES + ["a; b"]))
    return chance.choice(COMMENTS).format(said)


def statements(chance):
    """Statements of the grammar, with comments between."""
    made = comment(chance) if chance.random() < 0.2 else ""
    count = chance.choice([1, 1, 1, 2, 2, 3, 5, 8])
    for number in range(count):
        statement = expanded(chance, "statement")
        made += spaced(chance, cased(chance, statement) if chance.random() < 0.3 else statement)
        made += chance.choice(["", ";"]) if number == count - 1 else ";" if chance.random() < 0.995 else ""
        made += comment(chance) if chance.random() < 0.1 else chance.choice(["\n", "\n", " ", ""])
    return made


def token(chance):
    """A token at random."""
    kind = chance.randrange(6)
    if kind < 2:
        return cased(chance, chance.choice(WORDS))
    if kind == 2:
        return chance.choice(SIGNS)
    return expanded(chance, chance.choice(["name", "string", "number", "plain-type"]))


def tokens(chance):
    """Tokens at random, most often after the words that begin a statement."""
    first = expanded(chance, "statement").split()[:chance.randrange(6)] if chance.random() < 0.7 else []
    pieces = first + [token(chance) for _ in range(chance.randrange(1, 20))]
    if chance.random() < 0.02:
        deep = chance.choice([20, 127, 128, 129, 200])
        pieces += ["("] * deep + ["1"] + [")"] * deep
    return "".join(piece + chance.choice([" ", " ", " ", "\n", ""]) for piece in pieces) + chance.choice(["", ";"])


@functools.cache
def case_texts():
    """The texts of the cases: each row and each text of a whole run."""
    texts = []
    for path in sorted((TOP / "cases").rglob("*.txt")):
        frame, lines = "{}", []
        for line in path.read_text("utf-8").split("\n"):
            if " ==>" in line:
                texts.append(frame.replace("{}", line.split(" ==>")[0].replace("⏎", "\n")))
            elif line in ("---", "==="):
                texts.append("\n".join(lines))
            elif line.startswith(("# ", "$ ")):
                frame, lines = "{}", []
            elif line.startswith("$= "):
                frame = line[3:] if "{}" in line else "{}"
            else:
                lines.append(line)
    return [text for text in dict.fromkeys(texts) if text]


def changed(chance, pieces, others):
    """The pieces with one dropped, doubled or exchanged."""
    if not pieces:
        return others[:1]
    at = chance.randrange(len(pieces))
    new = chance.choice([[], [pieces[at]] * 2, [chance.choice(pieces)], [chance.choice(others)]])
    return pieces[:at] + new + pieces[at + 1:]


def mutated(chance):
    """One or two texts of cases with some bytes or tokens changed."""
    text = "\n".join(chance.choice(case_texts()) for _ in range(chance.choice([1, 1, 2])))
    for _ in range(chance.choice([0, 1, 1, 1, 2, 3])):
        if chance.random() < 0.6:
            text = "".join(changed(chance, TOKEN.findall(text), [token(chance), comment(chance)]))
        else:
            data = text.encode("utf-8", "surrogateescape")
            data = b"".join(changed(chance, [data[i:i + 1] for i in range(len(data))], EDGES))
            text = data.decode("utf-8", "surrogateescape")
    return text.encode("utf-8", "surrogateescape")


def migrations(chance):
    """Transactions over few tables, with work that takes long locks."""
    first = ["BEGIN", expanded(chance, "create")] if chance.random() < 0.6 else []
    made = first + [expanded(chance, "migration") for _ in range(chance.choice([1, 2, 3, 4, 6, 9]))]
    return "".join(statement + chance.choice(["; ", ";\n"]) for statement in made)


def random_bytes(chance):
    """Bytes at random: any, printable ones, or those that tokens begin and end with; after a statement or not."""
    length = chance.choice([0, 1, 2, 3, 5, 10, 30, 100])
    kind = chance.randrange(4)
    if kind == 0:
        made = chance.randbytes(length)
    elif kind == 1:
        made = bytes(chance.randrange(32, 127) for _ in range(length))
    else:
        made = b"".join(chance.choice(EDGES) for _ in range(length))
    return chance.choice([b"", b"BEGIN;", b"DROP TABLE t;\n", b"SELECT "]) + made


MAKERS = {"grammar": statements, "tokens": tokens, "cases": mutated, "bytes": random_bytes}


def made_text(chance, maker):
    """A text of the maker, in one of five with CRLF for each line feed."""
    text = MAKERS[maker](chance) if maker in MAKERS else migrations(chance)
    data = text if isinstance(text, bytes) else text.encode()
    return data.replace(b"\n", b"\r\n") if chance.random() < 0.2 else data


def random_words(chance):
    """Words of a run, beside those that choose rules."""
    words = ["--assume-in-transaction"] if chance.random() < 0.3 else []
    if chance.random() < 0.6:
        words += ["--pg-major", chance.choice(["9", "10", "11", "12", "15", "18", "19", "19", "19"])]
    return words + (["--non-volatile", chance.choice(["a", "random,t", "users"])] if chance.random() < 0.2 else [])


# What a run printed.

Run = collections.namedtuple("Run", "status out err")
Edit = collections.namedtuple("Edit", "start end text")
Report = collections.namedtuple("Report", "start end rule message note help title edits")

ESCAPED = r'(?:[^\\\n\r"]|\\[\\nr"])*'
PLACE = r"(0|[1-9][0-9]*)"
HEAD = re.compile(rf"{PLACE}\.\.{PLACE}: warning\[([a-z-]+)\]: ({ESCAPED})")
PART = re.compile(rf"  (note|help|fix): ({ESCAPED})")
INSERT = re.compile(rf'    insert {PLACE} "({ESCAPED})"')
REPLACE = re.compile(rf'    replace {PLACE}\.\.{PLACE} "({ESCAPED})"')
DELETE = re.compile(rf"    delete {PLACE}\.\.{PLACE}")
COUNT = re.compile(rf"violations: {PLACE}")
WORK = re.compile(rf"work {PLACE}: `(?:share|share row exclusive|access exclusive)` (?:on {PLACE}\.\.{PLACE}|unnamed) (old|new)")


NO_END = "no end in time"


class Failure(Exception):
    """A check that failed: its kind, and what was found."""


def run(program, words, text):
    """One run of the program."""
    try:
        done = subprocess.run([program, *words], input=text, capture_output=True, timeout=LONGEST_RUN)
    except subprocess.TimeoutExpired:
        raise Failure(NO_END, f"words {words}") from None
    return Run(done.returncode, done.stdout, done.stderr)


def unescaped(text):
    return re.sub(r"\\(.)", lambda found: {"n": "\n", "r": "\r"}.get(found[1], found[1]), text)


def parsed_edit(line):
    """The edit that a line shows, or nothing."""
    if found := INSERT.fullmatch(line):
        return Edit(int(found[1]), int(found[1]), unescaped(found[2]).encode())
    if found := REPLACE.fullmatch(line):
        return Edit(int(found[1]), int(found[2]), unescaped(found[3]).encode())
    if found := DELETE.fullmatch(line):
        return Edit(int(found[1]), int(found[2]), b"")
    return None


def parsed_report(lines):
    """The report that begins on the first line, and the lines after it."""
    head = HEAD.fullmatch(lines[0])
    if not head:
        raise Failure("printed form", f"no report: {lines[0]!r}")
    parts, rest = {}, lines[1:]
    for name in ("note", "help", "fix"):
        if rest and (found := PART.fullmatch(rest[0])) and found[1] == name:
            parts[name], rest = unescaped(found[2]), rest[1:]
    edits = []
    while "fix" in parts and rest and (edit := parsed_edit(rest[0])):
        edits, rest = edits + [edit], rest[1:]
    start, end, rule, message = head.groups()
    return Report(int(start), int(end), rule, unescaped(message), *map(parts.get, ("note", "help", "fix")), tuple(edits)), rest


def parsed(out):
    """The reports that a run printed."""
    try:
        lines = out.decode("utf-8").split("\n")
    except UnicodeDecodeError:
        raise Failure("printed form", "not UTF-8") from None
    if len(lines) < 2 or lines.pop() or not (count := COUNT.fullmatch(lines.pop())):
        raise Failure("printed form", "no count at the end")
    reports = []
    while lines:
        report, lines = parsed_report(lines)
        reports.append(report)
    if len(reports) != int(count[1]):
        raise Failure("printed form", f"{len(reports)} reports, but the count is {count[1]}")
    return reports


# What is checked.

def is_boundary(text, place):
    """Whether a character of the text begins or the text ends at the place."""
    return place == len(text) or (place < len(text) and text[place] & 0xC0 != 0x80)


def is_utf8(text):
    try:
        text.decode("utf-8")
    except UnicodeDecodeError:
        return False
    return True


def check_status(text, done):
    """The status, the line on the error stream and what is on standard output fit each other and the text."""
    if done.status in (0, 1):
        if done.err:
            raise Failure("error line with status 0 or 1", repr(done.err))
    else:
        found = re.fullmatch(ERRORS.get(done.status, "(?!)") + "\n", done.err.decode("utf-8", "replace"))
        if not found or done.status in (2, 5, 6, 7):
            raise Failure(f"status {done.status}", repr(done.err))
        if done.out:
            raise Failure("output with a refusal", repr(done.out))
        if done.status == 4 and (found[1] is None or int(found[1]) >= len(text) or not is_boundary(text, int(found[1]))):
            raise Failure("place of a refusal", repr(done.err))
    if (done.status != 3) != is_utf8(text):
        raise Failure("status of a text that is UTF-8 or not", repr(done.err))


def check_report(text, report):
    """The range and the edits lie in the text; the edits ascend and do not overlap."""
    if report.rule not in RULES + ["unused-ignore"]:
        raise Failure("no such rule", report.rule)
    if report.title is not None and not report.edits:
        raise Failure(f"fix without edits: {report.rule}", repr(report))
    last = 0
    for start, end in [(report.start, report.end)] + [edit[:2] for edit in report.edits]:
        if start > end or not is_boundary(text, start) or not is_boundary(text, end):
            raise Failure(f"range: {report.rule}", repr(report))
    for edit in report.edits:
        if edit.start < last or (edit.start == edit.end and not edit.text):
            raise Failure(f"edits: {report.rule}", repr(report))
        last = edit.end


def checked_reports(text, done):
    """The reports of a run with status 0 or 1, each checked."""
    reports = parsed(done.out)
    if (done.status == 1) != bool(reports):
        raise Failure("status and count", f"status {done.status}, {len(reports)} reports")
    for report in reports:
        check_report(text, report)
    starts = [report.start for report in reports]
    if starts != sorted(starts):
        raise Failure("order of reports", repr(starts))
    return reports


def check_only(program, words, text, reports, number):
    """With `--only RULE` the rule's reports are those of all rules. The number chooses one that was reported, or any."""
    names = [report.rule for report in reports if report.rule != "unused-ignore"] if number % 2 else []
    rule = (names or RULES)[number // 2 % len(names or RULES)]
    done = run(program, ["--only", rule] + words, text)
    check_status(text, done)
    alone = [report for report in checked_reports(text, done) if report.rule != "unused-ignore"]
    wanted = [report for report in reports if report.rule == rule]
    if alone != wanted:
        raise Failure(f"--only {rule}", f"alone {alone}, among all {wanted}")


def edited(text, edits):
    """The text with the edits made."""
    made, place = b"", 0
    for edit in edits:
        made, place = made + text[place:edit.start] + edit.text, edit.end
    return made + text[place:]


def is_word_byte(text, place):
    return 0 <= place < len(text) and (text[place:place + 1].isalnum() or text[place] in b"_$" or text[place] > 127)


def fits(text, edits):
    """No replaced range has a byte of a word right before or after it."""
    return not any(is_word_byte(text, edit.start - 1) or is_word_byte(text, edit.end) for edit in edits if edit.end > edit.start)


def is_left(report, again):
    """Whether the rule still reports at the place of its fix, and a rule on timeouts anything."""
    before = [edit for edit in report.edits if edit.end <= report.start and edit.start < report.start]
    moved = sum(len(edit.text) - (edit.end - edit.start) for edit in before)
    starts = [other.start for other in again if other.rule == report.rule]
    return starts != [] if report.rule.endswith("-timeout") else report.start + moved in starts


def check_fix(program, words, text, report, counts):
    """The text after the fix is read again, and the rule is content where it is to be."""
    new = edited(text, report.edits)
    done = run(program, words, new)
    check_status(new, done)
    counts["fixes", report.rule] += 1
    found = f"{report.edits} gives {new!r}, {done.err!r}"
    if done.status not in (0, 1):
        counts["not read again", report.rule] += 1
        if report.rule not in MAY_NOT_READ or not MAY_NOT_READ[report.rule](text, report.edits):
            raise Failure(f"fix is not read again: {report.rule}", found)
    elif is_left(report, checked_reports(new, done)) and fits(text, report.edits):
        counts["report left", report.rule] += 1
        if report.rule in SETTLED:
            raise Failure(f"fix leaves its report: {report.rule}", found)


def parsed_locks(out):
    """What `--locks` prints after the reports: the matches of the works, and whether the text is plain."""
    lines = out.decode("utf-8").split("\n")
    if lines.pop() or not lines or lines[-1] not in ("plain: yes", "plain: no"):
        raise Failure("printed locks", repr(out))
    works = [WORK.fullmatch(line) for line in lines[:-1]]
    if None in works:
        raise Failure("printed locks", repr(out))
    return works, lines[-1] == "plain: yes"


def check_locks(program, words, text, counts):
    """What is printed with `--locks`; no work is old in a clean text."""
    rules = ["--only", ",".join(LOCK_RULES)]
    without, done = (run(program, rules + words + more, text) for more in ([], ["--locks"]))
    if done.status != without.status or not done.out.startswith(without.out):
        raise Failure("reports with --locks", repr(done))
    works, plain = parsed_locks(done.out[len(without.out):])
    numbers = [int(work[1]) for work in works]
    if numbers != sorted(numbers):
        raise Failure("order of works", repr(done.out))
    for work in works:
        counts["works", work[4]] += 1
        if work[2] and not (int(work[2]) < int(work[3]) and all(is_boundary(text, int(work[i])) for i in (2, 3))):
            raise Failure("table of a work", repr(done.out))
    if plain and done.status == 0 and b"squawk-ignore" not in text:
        counts["clean", "with work" if works else "without work"] += 1
        if any(work[4] == "old" for work in works):
            raise Failure("old work in a clean text", repr(done.out))


def check_text(program, words, text, number, counts):
    """All checks of one text. A check that fails is raised."""
    chosen = ALL_RULES if not {"--only", "--include", "--exclude"} & {word.split("=")[0] for word in words} else []
    done = run(program, chosen + words, text)
    check_status(text, done)
    if run(program, chosen + words, text) != done:
        raise Failure("second run", "prints something else")
    if done.status not in (0, 1):
        return
    counts["valid", ""] += 1
    reports = checked_reports(text, done)
    for report in reports:
        counts["reports", report.rule] += 1
    if chosen:
        check_only(program, words, text, reports, number)
    for report in {(report.rule, report.start, report.edits): report for report in reports if report.edits}.values():
        check_fix(program, chosen + words, text, report, counts)
    if chosen:
        check_locks(program, words, text, counts)


def check_lock_text(program, words, text, number, counts):
    """The checks of `--locks` alone, of a text that is read."""
    check_locks(program, words, text, counts)
    counts["valid", ""] += 1


# The whole.

def failure_of(check, program, words, text, number, counts):
    """The kind of the failure and what was found, or nothing."""
    try:
        check(program, words, text, number, counts)
    except Failure as failure:
        return failure.args
    return None


def shrunk(pieces, fails):
    """Fewer pieces that still fail: some are left out, ever fewer at a time."""
    size = len(pieces)
    while size:
        at = 0
        while at < len(pieces):
            fewer = pieces[:at] + pieces[at + size:]
            if fails(b"".join(fewer)):
                pieces = fewer
            else:
                at += size
        size //= 2
    return pieces


def smallest(check, program, words, text, number, kind):
    """A shorter text with a failure of the same kind: first tokens are left out, then characters."""
    left = [TRIES]

    def fails(tried):
        left[0] -= 1
        failure = failure_of(check, program, words, tried, number, collections.Counter()) if left[0] >= 0 else None
        return failure is not None and failure[0] == kind

    for cut in (TOKEN.findall, list):
        pieces = [piece.encode("utf-8", "surrogateescape") for piece in cut(text.decode("utf-8", "surrogateescape"))]
        text = b"".join(shrunk(pieces, fails))
    return text


SHRUNK = {NO_END}  # the kinds of failure that are not cut down, or were in this process


def tried(check, program, maker, words, seed):
    """One text of a seed: what was counted, and its failure as lines to print."""
    chance = random.Random(seed)
    maker = maker or chance.choice(list(MAKERS))
    text = made_text(chance, maker)
    words = shlex.split(words) if words is not None else random_words(chance)
    number = chance.randrange(1 << 20)
    counts = collections.Counter({("texts", maker): 1})
    failure = failure_of(check, program, words, text, number, counts)
    if failure is None:
        return counts, []
    kind, found = failure
    counts["failures", kind] += 1
    lines = [f"FAILED: {kind}", f"  seed {seed}, words {words}", f"  text {text!r}", f"  {found}"]
    if kind not in SHRUNK:
        SHRUNK.add(kind)
        lines.append(f"  smaller {smallest(check, program, words, text, number, kind)!r}")
    return counts, lines


def tried_chunk(check, program, maker, words, seeds):
    """The texts of some seeds: what was counted, and the lines to print."""
    counts, lines = collections.Counter(), []
    for seed in seeds:
        more, failed = tried(check, program, maker, words, seed)
        counts += more
        lines += failed
    return counts, lines


def print_counts(counts):
    """The counts of all texts."""
    texts = {key[1]: number for key, number in counts.items() if key[0] == "texts"}
    print(f"texts: {sum(texts.values())} ({', '.join(f'{number} {maker}' for maker, number in sorted(texts.items()))})")
    for name in ("valid", "reports", "fixes", "not read again", "report left", "works", "clean", "failures"):
        found = {key[1]: number for key, number in counts.items() if key[0] == name}
        print(f"{name}: {sum(found.values())}")
        for key, number in sorted(found.items()):
            if key:
                print(f"  {key}: {number}")
    silent = [rule for rule in RULES if not counts["reports", rule]]
    print(f"rules without a report: {', '.join(silent) or 'none'}")


def main():
    reader = argparse.ArgumentParser(description="Runs the linter on made texts and checks what each run prints.")
    reader.add_argument("program")
    reader.add_argument("--count", type=int, default=1000)
    reader.add_argument("--seed", type=int, default=0)
    reader.add_argument("--maker", choices=[*MAKERS, "locks"])
    reader.add_argument("--words")
    reader.add_argument("--jobs", type=int, default=2)
    reader.add_argument("--locks-only", action="store_true")
    given = reader.parse_args()
    ends = given.seed + given.count
    chunks = [range(first, min(first + CHUNK, ends)) for first in range(given.seed, ends, CHUNK)]
    check = check_lock_text if given.locks_only else check_text
    work = functools.partial(tried_chunk, check, given.program, given.maker, given.words)
    counts = collections.Counter()
    with multiprocessing.Pool(given.jobs) as pool:
        for more, lines in pool.imap_unordered(work, chunks):
            counts += more
            if lines:
                print("\n".join(lines), flush=True)
    print_counts(counts)
    return 1 if any(key[0] == "failures" for key in counts) else 0


if __name__ == "__main__":
    sys.exit(main())
