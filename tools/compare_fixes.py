#!/usr/bin/env python3
"""Compares a built `squawk_fix_main` with a loop over the reports that a built `squawk_main` prints.

    tools/compare_fixes.py PRINTER FIXER [--count N] [--seed S] [--jobs J]

N texts (1000) are made as `tools/fuzz.py` makes them, the text i from the seed S + i, with a statement or two at their end for which there is
a fix. Of each, the reports that PRINTER prints are taken in their order, the first fix of a listed rule that joins no word is made, and the
text is given to PRINTER again, until there is none. The text, the count of fixes, the status and the line on the error stream of FIXER must
be the same, byte for byte. The exit status is 1 if anything differs. J processes (2) run at once.
"""
import argparse
import multiprocessing
import random
import subprocess
import sys

import fuzz

# Statements for which there is a fix of a listed rule.
FIXED = [
    "CREATE INDEX i ON t (a);", "DROP INDEX i;", "REINDEX TABLE t;", "ALTER TABLE p DETACH PARTITION q;", "ALTER TABLE t ADD a int;",
    "ALTER TABLE t ALTER a TYPE smallint;", "CREATE TABLE n (a varchar(10)not null, b timestamp[]);", "CREATE TABLE n (a varchar(20), b timestamp);",
    "ALTER TABLE t ADD b serial, ADD c character varying(3) default 'x', DROP d;", "-- squawk-ignore prefer-text-field\nCREATE TABLE m (a varchar(1));",
]


def made(seed):
    """The text of a seed, and the words of its runs."""
    chance = random.Random(seed)
    text = fuzz.made_text(chance, chance.choice(["grammar", "grammar", "cases", "tokens"]))
    ends = "\n".join(chance.choices(FIXED, k=chance.randrange(1, 4))).encode()
    return text + chance.choice([b"\n", b";\n"]) + ends, fuzz.random_words(chance)


def step(text, reports):
    """The first report whose fix is made, if there is one."""
    listed = (report for report in reports if report.rule in fuzz.SETTLED and report.edits and fuzz.fits(text, report.edits))
    return next(listed, None)


def fixed(printer, words, text):
    """What comes of the loop: the status, the text and the line on the error stream."""
    count = 0
    while True:
        done = fuzz.run(printer, words, text)
        if done.status not in (0, 1):
            return done.status, b"", done.err
        report = step(text, fuzz.parsed(done.out))
        if report is None:
            return done.status, text, b"fixed: %d\n" % count
        text, count = fuzz.edited(text, report.edits), count + 1


def difference(asked):
    """The count of fixes of a seed, and what to print where the programs differ."""
    printer, fixer, seed = asked
    text, words = made(seed)
    wanted = fixed(printer, words, text)
    done = subprocess.run([fixer, *words], input=text, capture_output=True, timeout=60)
    count = int(wanted[2].split()[1]) if wanted[0] in (0, 1) else 0
    if (done.returncode, done.stdout, done.stderr) == wanted:
        return count, wanted[0], ""
    return count, wanted[0], f"DIFFERS: seed {seed}, words {words}\n  text {text!r}\n  wanted {wanted}\n  found {done}"


def main():
    asks = argparse.ArgumentParser(description=__doc__, formatter_class=argparse.RawDescriptionHelpFormatter)
    asks.add_argument("printer")
    asks.add_argument("fixer")
    asks.add_argument("--count", type=int, default=1000)
    asks.add_argument("--seed", type=int, default=0)
    asks.add_argument("--jobs", type=int, default=2)
    given = asks.parse_args()
    counts, statuses, wrong = [], {}, 0
    with multiprocessing.Pool(given.jobs) as pool:
        seeds = ((given.printer, given.fixer, given.seed + i) for i in range(given.count))
        for count, status, line in pool.imap_unordered(difference, seeds, chunksize=20):
            counts.append(count)
            statuses[status] = statuses.get(status, 0) + 1
            wrong += line != ""
            if line:
                print(line, flush=True)
    print(f"texts: {len(counts)}, by status {dict(sorted(statuses.items()))}; fixes made: {sum(counts)}, at most {max(counts, default=0)}; different: {wrong}")
    return 1 if wrong else 0


if __name__ == "__main__":
    sys.exit(main())
