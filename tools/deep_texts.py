#!/usr/bin/env python3
"""Runs the linter on the deepest and the longest texts under a small stack.

    tools/deep_texts.py PROGRAM [--stack KB] [--list]

PROGRAM is the built linter; `tools/unproved_build --measured` makes one without proofs. Each text is linted twice with all rules, once with
a stack of KB kilobytes (256) and once with the stack of the shell, and both runs have to print the same and end alike. What is
run:

- brackets in brackets, 128 deep counted from the start of their statement, in each of PLACES and of the kinds in BRACKETS: such a
  text is linted (status 0 or 1). With one more it is refused (status 4, `error: syntax at 0`);
- lists, chains and comments of 100,000 members (LONG): operands, actions, nested comments and others.

`--list` prints the names of the texts. A text that fails is printed with what both runs said. The exit status is 1 if one failed.
"""
import argparse
import resource
import subprocess
import sys

from fuzz import ALL_RULES

DEEPEST = 128
MANY = 100_000

# What is put around the innermost part again and again: what opens, and what closes.
BRACKETS = {
    "round": ("(", ")"),
    "square": ("[", "]"),
    "both": ("([", "])"),
    "calls": ("f(", ")"),
    "arrays": ("ARRAY[", "]"),
    "casts": ("CAST(", " AS int)"),
    "casts of sums": ("CAST(1 + ", " + 1 AS int)"),
    "casts of casts": ("CAST(", "::int AS int)"),
    "casts of collations": ("CAST(", ' COLLATE "C" AS int)'),
    "casts of tests": ("CAST(", " IS NOT NULL AS int)"),
    "casts of all": ("CAST(1 + ", " IS NOT NULL::int IS NOT NULL AS int)"),
    "sums": ("1 + (", ") + 1"),
    "tests": ("(", ") IS NOT NULL"),
    "subscripts": ("a[", "]"),
    "types": ("numeric(", ")"),
}

# Where brackets may be: what is written for <>, and before and after it anything that the form asks for.
PLACES = [
    "CREATE TABLE t <>", "CREATE TABLE t (<>)", "CREATE TABLE t (a <>)", "CREATE TABLE t (a int <>)", "CREATE TABLE t (a varchar<>)",
    "CREATE TABLE t (a varchar(<>))", "CREATE TABLE t (a int[<>])", "CREATE TABLE t (a int ARRAY[<>])", "CREATE TABLE t (a interval <>)",
    "CREATE TABLE t (a timestamp(<>) with time zone)",
    "CREATE TABLE t (a int DEFAULT <>)", "CREATE TABLE t (a int CHECK (<>))", "CREATE TABLE t (a int CHECK (b + <> + c))",
    "CREATE TABLE t (a int REFERENCES u <>)", "CREATE TABLE t (a int GENERATED ALWAYS AS (<>) STORED)", "CREATE TABLE t (a int UNIQUE <>)",
    "CREATE TABLE t (CHECK (<>))", "CREATE TABLE t (CONSTRAINT k CHECK (<> IS NOT NULL))", "CREATE TABLE t (UNIQUE <>)",
    "CREATE TABLE t (PRIMARY KEY (<>))", "CREATE TABLE t (EXCLUDE USING gist (<>))", "CREATE TABLE t (FOREIGN KEY <> REFERENCES u <>)",
    "CREATE TABLE t (LIKE u <>)", "CREATE TABLE t AS SELECT <>", "CREATE TABLE t PARTITION OF u FOR VALUES FROM <> TO <>",
    "CREATE FOREIGN TABLE t (a int CHECK (<>)) SERVER s", "CREATE INDEX i ON t (<>)", "CREATE INDEX i ON t <> WHERE <>",
    "CREATE DOMAIN d AS varchar(<>)", "CREATE DOMAIN d AS int DEFAULT <>", "CREATE DOMAIN d AS int CHECK (<>)",
    "CREATE TYPE y AS (a <>)", "CREATE VIEW v <> AS SELECT <>", "CREATE VIEW v (a) AS SELECT <>, a AS b FROM <>",
    "CREATE MATERIALIZED VIEW v AS SELECT DISTINCT ON (<>) <>",
    "CREATE FUNCTION f <> RETURNS int", "CREATE TRIGGER g BEFORE INSERT ON t WHEN <>", "CREATE POLICY p ON t USING (<>)",
    "ALTER TABLE t ADD CHECK (<>)", "ALTER TABLE t ADD CONSTRAINT k CHECK (<> IS NOT NULL) NOT VALID", "ALTER TABLE t ADD UNIQUE (<>)",
    "ALTER TABLE t ADD COLUMN a varchar(<>) DEFAULT <>", "ALTER TABLE t ADD COLUMN a int DEFAULT 1 + <> + 2 NOT NULL",
    "ALTER TABLE t ADD COLUMN a int DEFAULT <>::int", "ALTER TABLE t ALTER c TYPE varchar(<>) USING <>",
    "ALTER TABLE t ALTER c SET DEFAULT <>", "ALTER TABLE t ALTER c SET (<>)", "ALTER TABLE t ALTER c ADD GENERATED ALWAYS AS IDENTITY (<>)",
    "ALTER TABLE t SET (<>)", "ALTER TABLE t RESET <>", "ALTER TABLE t FOO <>, BAR <>",
    "ALTER TABLE t ATTACH PARTITION p FOR VALUES IN (<>)",
    "ALTER DOMAIN d ADD CHECK (<>)", "ALTER DOMAIN d SET DEFAULT <>", "ALTER TYPE y ADD ATTRIBUTE a varchar(<>)",
    "ALTER FUNCTION f (<>) STABLE", "ALTER VIEW v SET (<>)", "ALTER VIEW v ALTER c SET DEFAULT <>",
    "ALTER POLICY p ON t USING (<>) WITH CHECK (<>)",
    "ALTER SEQUENCE s RESTART <>", "ALTER ROLE r SET a = <>", "ALTER DATABASE d SET a TO <>", "ALTER SYSTEM SET a = <>",
    "SELECT <>", "SELECT <> AS a, b INTO t", "SELECT a INTO t FROM <> WHERE <>", "WITH w AS (<>) SELECT a",
    "WITH w AS (<>) UPDATE t SET a = <>",
    "INSERT INTO t <> VALUES <>", "INSERT INTO t (a) VALUES <> ON CONFLICT <> DO UPDATE SET a = <>, a = 1",
    "UPDATE t SET a = <>, a = <>", "UPDATE t SET <> = <>", "UPDATE t SET (a, b) = (<>), a = 1", "UPDATE t SET a[<>] = <> WHERE <>",
    "MERGE INTO t USING <> ON <> WHEN MATCHED THEN UPDATE SET a = <> WHEN NOT MATCHED THEN INSERT <> VALUES <>",
    "DELETE FROM t WHERE <>", "TRUNCATE <>", "DROP TABLE a <>", "DROP FUNCTION f <>", "REINDEX (<>) TABLE t",
    "REINDEX (CONCURRENTLY <>) TABLE t",
    "VACUUM <> t", "VACUUM (FULL) t <>", "CLUSTER (<>) t", "SET a = <>", "SET <>", "LOCK <>", "BEGIN <>", "COMMENT ON TABLE t IS <>",
    "GRANT SELECT <> ON t TO r", "DO <>", "EXPLAIN <> SELECT 1", "PREPARE q <> AS SELECT 1", "COPY t <> FROM stdin",
]

# Members without brackets around them: what comes before, the member, what is between two, and what comes after.
LONG = {
    "operands of a check": ("ALTER TABLE t ADD CHECK (", "a", " + ", ")"),
    "operands of a default": ("ALTER TABLE t ADD a int DEFAULT ", "1", " AND ", ""),
    "casts of a default": ("ALTER TABLE t ADD a int DEFAULT 1", "::int", "", ""),
    "collations of a default": ("ALTER TABLE t ADD a int DEFAULT b", " COLLATE c", "", ""),
    "tests of a check": ("CREATE TABLE t (a int CHECK (a", " IS NOT NULL", "", "))"),
    "calls of a default": ("ALTER TABLE t ADD a int DEFAULT ", "now()", " || ", ""),
    "arguments": ("ALTER TABLE t ADD a int DEFAULT f(", "1", ", ", ")"),
    "actions that add a column": ("ALTER TABLE t ", "ADD a int DEFAULT random()", ", ", ""),
    "actions that add a constraint": ("ALTER TABLE t ", "ADD CONSTRAINT k CHECK (a IS NOT NULL)", ", ", ""),
    "actions of no form": ("ALTER TABLE t ", "FOO", ", ", ""),
    "actions that drop": ("ALTER TABLE t ", "DROP CONSTRAINT k", ", ", ""),
    "columns": ("CREATE TABLE t (", "a int", ", ", ")"),
    "constraints of a column": ("CREATE TABLE t (a int ", "CHECK (a)", " ", ")"),
    "dimensions": ("CREATE TABLE t (a int", "[1]", "", ")"),
    "names of a path": ("CREATE TABLE ", "a", ".", " (b int)"),
    "paths of a drop": ("DROP TABLE ", "a", ", ", ""),
    "parts of a SET clause": ("UPDATE t SET ", "a = 1", ", ", ""),
    "names of an insert list": ("INSERT INTO t (", "a", ", ", ") VALUES (1)"),
    "targets": ("SELECT ", "a AS b", ", ", " INTO t"),
    "attributes": ("ALTER TYPE y ", "ADD ATTRIBUTE a int", ", ", ""),
    "sequence options": ("ALTER SEQUENCE s ", "RESTART WITH 1", " ", ""),
    "statements": ("", "CREATE INDEX ON t (a)", ";", ""),
    "empty statements": ("", ";", "", ""),
    "transactions": ("", "BEGIN; CREATE TABLE t (a int); CREATE INDEX ON t (a); COMMIT", ";", ""),
    "blanks": ("SELECT", " ", "", "1"),
    "line comments": ("SELECT ", "--\n", "", "1"),
    "block comments": ("SELECT ", "/**/", "", "1"),
    "names of an ignore comment": ("-- squawk-ignore ", "foo", ",", "\nDROP TABLE t"),
    "ignore comments": ("", "-- squawk-ignore ban-drop-table\n", "DROP TABLE t;\n", ""),
}


def depth_at(text):
    """How many brackets are open at the end of a text."""
    return sum(text.count(mark) for mark in "([") - sum(text.count(mark) for mark in ")]")


def nested(place, pair, deepest):
    """The statement of a place in which the brackets of a pair are nested so deep."""
    opens, closes = pair
    made = ""
    for piece in place.split("<>")[:-1]:
        made += piece
        times, rest = divmod(deepest - depth_at(made), depth_at(opens))
        made += opens * times + "(" * rest + "1" + ")" * rest + closes * times
    return made + place.split("<>")[-1] + ";"


def deep_texts():
    """Each nested text, with the line on standard error that it asks for."""
    for place in PLACES:
        for kind, pair in BRACKETS.items():
            yield f"{place}, {kind}", nested(place, pair, DEEPEST), b""
            yield f"{place}, {kind}, one more", nested(place, pair, DEEPEST + 1), b"error: syntax at 0\n"


def long_texts():
    """Each long text, with the line on standard error that it asks for."""
    for name, (before, member, between, after) in LONG.items():
        yield name, before + between.join([member] * MANY) + after + ";", b""
    yield "nested comments", "/*" * MANY + "*/" * MANY + "SELECT 1;", b""
    yield "nested comments that do not end", "/*" * MANY, b"error: unterminated at 0\n"


def run(program, text, stack):
    """What a run prints and how it ends, with a stack of so many kilobytes or with that of the shell."""
    def small():
        resource.setrlimit(resource.RLIMIT_STACK, (stack * 1024, stack * 1024))
    return subprocess.run([program, *ALL_RULES], input=text.encode(), capture_output=True, preexec_fn=small if stack else None)


def fault_of(program, text, wanted, stack):
    """What is wrong with the runs on a text, or nothing."""
    low, full = run(program, text, stack), run(program, text, 0)
    ended = low.returncode == 4 if wanted else low.returncode in (0, 1)
    if ended and low.stderr == wanted and (low.returncode, low.stdout, low.stderr) == (full.returncode, full.stdout, full.stderr):
        return ""
    return " and ".join(f"status {done.returncode} {done.stderr[:60]!r} {len(done.stdout)} bytes" for done in (low, full))


def main():
    asks = argparse.ArgumentParser(description=__doc__, formatter_class=argparse.RawDescriptionHelpFormatter)
    asks.add_argument("program", nargs="?")
    asks.add_argument("--stack", type=int, default=256)
    asks.add_argument("--list", action="store_true")
    given = asks.parse_args()
    count = failed = 0
    for texts in (deep_texts(), long_texts()):
        for name, text, wanted in texts:
            count += 1
            if given.list:
                print(name)
            elif fault := fault_of(given.program, text, wanted, given.stack):
                failed += 1
                print(f"failed: {name}: {fault}")
    print(f"{count} texts, {failed} failed, stack of {given.stack} KB")
    sys.exit(1 if failed else 0)


if __name__ == "__main__":
    main()
