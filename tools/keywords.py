#!/usr/bin/env python3
"""Writes the tables of the crate `sql_keyword` from the list of words below.

Run it at the top of the repository after an edit of WORDS, VERBS or OBJECTS, and lay the files out:

    python3 tools/keywords.py && (cd crates/sql_keyword && rt fmt && rt check)

It writes src/words.rt, src/slots.rt, specs/Texts.antt, proofs/Found.antt and proofs/Listed.antt of
crates/sql_keyword, and nothing else. The same words give the same files. With --check it writes
nothing, and ends with 1 where a file says something else than the words do; how a file is laid out
doesn't matter.

How the table works. A word's slot is the sum of a shift for its first letter, of its length and of
its second, last but one and last letters, each times a weight, modulo the number of slots; a letter
counts as its place in the alphabet. The search below tries weights until no two words share a slot,
and gives each first letter the least shift that keeps its words apart from those that were placed
before. The crate proves of the result that each word is found, and that nothing else is.

Limits: a word has 2 to 15 letters A to Z (src/lib.rt tests the length), and a variant is a word
with one capital letter.
"""

import itertools
import pathlib
import re
import sys

WORDS = """
ABORT ACCESS ADD AFTER AGGREGATE ALL ALTER ALWAYS ANALYSE ANALYZE AND ARRAY AS ATOMIC ATTRIBUTE
AUTHORIZATION
BEFORE BEGIN BIT BY
CACHE CALL CALLED CASCADE CAST CHAIN CHAR CHARACTER CHARACTERISTICS CHECK CHECKPOINT CLASS CLOSE
CLUSTER COLLATE COLLATION COLUMN COMMENT COMMIT COMPRESSION CONCURRENTLY CONFIGURATION CONSTRAINT
CONSTRAINTS CONVERSION COPY COST CREATE CYCLE
DATA DATABASE DEALLOCATE DECLARE DEFAULT DEFERRABLE DELETE DETACH DICTIONARY DISABLE DISCARD
DISTINCT DO DOMAIN DOUBLE DROP
ENABLE END ENFORCED EVENT EXCEPT EXCLUDE EXCLUSIVE EXECUTE EXISTS EXPLAIN EXPRESSION EXTENSION
EXTERNAL
FALSE FAMILY FETCH FINALIZE FOR FORCE FOREIGN FREEZE FROM FULL FUNCTION
GENERATED GLOBAL GRANT GRAPH GROUP
HAVING
IDENTITY IF IMMUTABLE IMPORT IN INCREMENT INDEX INHERIT INITIALLY INSERT INTERSECT INTERVAL INTO IS
KEY
LABEL LANGUAGE LARGE LEAKPROOF LEVEL LIKE LIMIT LISTEN LOAD LOCAL LOCK LOGGED
MAPPING MATCHED MATERIALIZED MAXVALUE MERGE METHOD MINVALUE MODE MOVE
NO NOT NOTIFY NOWAIT NULL
OBJECT OFFSET ON ONLY OPERATOR OPTIONS OR ORDER OWNED OWNER
PARALLEL PARSER PARTITION POLICY PRECISION PREPARE PREPARED PRIMARY PRIVILEGES PROCEDURAL PROCEDURE
PROPERTY PUBLICATION
REASSIGN RECURSIVE REFERENCES REFRESH REINDEX RELEASE RENAME REPACK REPLACE REPLICA RESET RESTART
RETURNING RETURNS REVOKE ROLE ROLLBACK ROUTINE ROW ROWS RULE
SAVEPOINT SCHEMA SEARCH SECURITY SELECT SEQUENCE SERVER SESSION SET SHARE SHOW STABLE START
STATISTICS STORAGE STRICT SUBSCRIPTION SUPPORT SYSTEM
TABLE TABLESPACE TEMP TEMPLATE TEMPORARY TEXT THEN TIME TIMESTAMP TO TRANSACTION TRANSFORM TRIGGER
TRUE TRUNCATE TRUSTED TYPE
UNION UNIQUE UNLISTEN UNLOGGED UPDATE USER USING
VACUUM VALID VALIDATE VALUE VALUES VARCHAR VARYING VERBOSE VIEW VOLATILE
WHEN WHERE WINDOW WITH WITHOUT WORK WRAPPER
ZONE
""".split()

# The words that begin a statement, and those that name a kind of object; all others stand in a third group. What the prover takes
# for a goal that fails grows with the cube of the variants of a type in it, so no group is large (docs/DECISIONS.md).
VERBS = """
ABORT ALTER ANALYSE ANALYZE BEGIN CALL CHECKPOINT CLOSE CLUSTER COMMENT COMMIT COPY CREATE DEALLOCATE DECLARE DELETE DISCARD DO
DROP END EXECUTE EXPLAIN FETCH GRANT IMPORT INSERT LISTEN LOAD LOCK MERGE MOVE NOTIFY PREPARE REASSIGN REFRESH REINDEX RELEASE
REPACK RESET REVOKE ROLLBACK SAVEPOINT SELECT SET SHOW START TRUNCATE UNLISTEN UPDATE VACUUM VALUES WITH
""".split()
OBJECTS = """
ACCESS AGGREGATE ATTRIBUTE CAST CLASS COLLATION COLUMN CONFIGURATION CONSTRAINT CONSTRAINTS CONVERSION DATA DATABASE DICTIONARY
DOMAIN EVENT EXTENSION FAMILY FOREIGN FUNCTION GRAPH GROUP INDEX LANGUAGE LARGE MAPPING MATERIALIZED METHOD OBJECT OPERATOR
PARSER PARTITION POLICY PRIVILEGES PROCEDURE PROPERTY PUBLICATION ROLE ROUTINE RULE SCHEMA SEARCH SEQUENCE SERVER STATISTICS
SUBSCRIPTION SYSTEM TABLE TABLESPACE TEMPLATE TEXT TRANSFORM TRIGGER TYPE USER VIEW WRAPPER
""".split()

SLOTS = 512
SHORTEST, LONGEST = 2, 15
WEIGHTS = (1, 2, 4, 8, 16, 3, 5, 9)  # a product with one of these costs an instruction at most
RESERVED = {"Type"}  # variants that antt writes in quotes
CRATE = pathlib.Path(__file__).resolve().parent.parent / "crates" / "sql_keyword"
MADE_RT = "// Written by tools/keywords.py: edit the list of words there.\n"
MADE_ANTT = "-- Written by tools/keywords.py: edit the list of words there.\n"


def letter(word, place):
    """The letter's place in the alphabet, counted from 1."""
    return ord(word[place]) % 32


def unshifted(word, weight):
    read = [len(word), letter(word, 1), letter(word, -2), letter(word, -1)]
    return sum(w * value for w, value in zip(weight, read))


def placed(groups, weight):
    """The shift of each first letter and the word in each slot, or nothing."""
    shifts, slots = {}, {}
    for first in sorted(groups, key=lambda letter: (-len(groups[letter]), letter)):
        sums = [unshifted(word, weight) % SLOTS for word in groups[first]]
        if len(set(sums)) < len(sums):
            return None
        for shift in range(SLOTS):
            if all((value + shift) % SLOTS not in slots for value in sums):
                break
        else:
            return None
        shifts[first] = shift
        for word, value in zip(groups[first], sums):
            slots[(value + shift) % SLOTS] = word
    return shifts, slots


def search():
    groups = {}
    for word in WORDS:
        groups.setdefault(word[0], []).append(word)
    for weight in itertools.product(WEIGHTS, repeat=4):
        found = placed(groups, weight)
        if found:
            return weight, *found
    sys.exit("no weights keep the words apart: add others to WEIGHTS")


def variant(word):
    return word.capitalize()


def group(word):
    """The group of the word."""
    return "Verb" if word in VERBS else "Object" if word in OBJECTS else "Other"


def cited(word):
    """The variant as antt names it."""
    name = variant(word)
    name = f"«{name}»" if name in RESERVED else name
    return f"(k.{group(word)} {group(word).lower()}s.{name})"


def array(name, of, values):
    count = "SLOT_COUNT" if len(values) == SLOTS else len(values)
    return f"pub static {name}: [{of}; {count}] = [{', '.join(map(str, values))}];\n"


def words_rt():
    of = lambda name: "".join(f"    {variant(word)},\n" for word in WORDS if group(word) == name)
    consts = "".join(
        f"    /// {word}.\n    pub const {word}: Keyword = Keyword::{group(word)}({group(word)}::{variant(word)});\n" for word in WORDS
    )
    return f"""//! The keywords.
{MADE_RT}
ghost use Rattle.std.specs.Prelude.{{◌≡◌}};
ghost use Rattle.sql_keyword.specs.Same.{{same_keyword}};

use std::fmt;

/// A keyword that begins a statement. Its text is the variant's name in capital letters.
#[derive(Clone, Copy, Debug, PartialEq, Eq)]
pub enum Verb {{
{of("Verb")}}}

/// A keyword that names a kind of object. Its text is the variant's name in capital letters.
#[derive(Clone, Copy, Debug, PartialEq, Eq)]
pub enum Object {{
{of("Object")}}}

/// Any other keyword. Its text is the variant's name in capital letters.
#[derive(Clone, Copy, Debug, PartialEq, Eq)]
pub enum Other {{
{of("Other")}}}

/// A keyword of SQL. Each has a constant, whose name is its text.
#[derive(Clone, Copy, PartialEq, Eq)]
pub enum Keyword {{
    Verb(Verb),
    Object(Object),
    Other(Other),
}}

impl fmt::Debug for Keyword {{
    fn fmt<W: fmt::Write>(&self, f: &mut fmt::Formatter<W>) -> fmt::Result {{
        match self {{
            Keyword::Verb(word) => fmt::Debug::fmt(word, f),
            Keyword::Object(word) => fmt::Debug::fmt(word, f),
            Keyword::Other(word) => fmt::Debug::fmt(word, f),
        }}
    }}
}}

impl Keyword {{
{consts}}}

/// Whether the two are one keyword: `==`, under a name that clauses and proofs keep whole.
#[tactic(auto, unfolding(crate::specs::Same::same_keyword))]
pub fn same_keyword(a: Keyword, b: Keyword) -> bool
    ensures {{ result ≡ same_keyword a b }}
{{
    a == b
}}
"""


def slots_rt(weight, shifts, slots):
    text = "".join(f"{word} " for word in WORDS)
    starts = {word: text.index(f" {word} ") + 1 if i else 0 for i, word in enumerate(WORDS)}
    column = lambda of, none: [of(slots[slot]) if slot in slots else none for slot in range(SLOTS)]
    letters = [shifts.get(chr(64 + i), 0) for i in range(32)]
    names = ["LENGTH", "SECOND", "BEFORE_LAST", "LAST"]
    weighed = ["length", "second letter", "last letter but one", "last letter"]
    consts = "".join(
        f"/// The weight of a word's {what}.\npub const {name}_WEIGHT: usize = {value};\n\n"
        for name, what, value in zip(names, weighed, weight)
    )
    return f"""//! A table in which each keyword has a slot of its own.
{MADE_RT}
use crate::words::Keyword;

/// How many slots there are.
pub const SLOT_COUNT: usize = {SLOTS};

{consts}/// What is added for the first letter, by its place in the alphabet.
{array("SHIFTS", "u8", letters)}
/// The texts of the keywords.
pub const TEXTS: &[u8] =
    b"{text}";

/// Where the text of the one keyword that may be in each slot begins.
{array("STARTS", "u16", column(lambda word: starts[word], 0))}
/// How many letters it has, or 0 where no keyword may be.
{array("LENGTHS", "u8", column(len, 0))}
/// The keyword.
{array("KEYWORDS", "Option<Keyword>", column(lambda word: f"Some(Keyword::{word})", "None"))}"""


def texts_antt():
    lines = "".join(f'text {cited(word)} = codes "{word}"\n' for word in WORDS)
    listed = "".join(f"    {cited(word)} ∷\n" for word in WORDS)
    return f"""-- The keywords and their texts.
{MADE_ANTT}use Rattle.std.specs.Prelude.{{ℕ, List, [], ◌∷◌, codes}}
use Rattle.sql_keyword.specs.declared.words.Keyword.{{Keyword}}
use Rattle.sql_keyword.specs.declared.words.Keyword.TheVariants as k
use Rattle.sql_keyword.specs.declared.words.Verb.TheVariants as verbs
use Rattle.sql_keyword.specs.declared.words.Object.TheVariants as objects
use Rattle.sql_keyword.specs.declared.words.Other.TheVariants as others

unfoldable pub text : Keyword → List ℕ
{lines}
-- all keywords
unfoldable pub all_keywords : List Keyword
all_keywords =
{listed}    []
"""


def listed_antt():
    lines = "".join(f"listed {cited(word)} = ({i}, (lit< tt, refl))\n" for i, word in enumerate(WORDS))
    return f"""-- Each keyword is one of all.
{MADE_ANTT}use Rattle.std.proofs.Common.{{refl, lit<}}
use Rattle.std.specs.List.{{IsAmong}}
use Rattle.sql_keyword.specs.declared.words.Keyword.{{Keyword}}
use Rattle.sql_keyword.specs.declared.words.Keyword.TheVariants as k
use Rattle.sql_keyword.specs.declared.words.Verb.TheVariants as verbs
use Rattle.sql_keyword.specs.declared.words.Object.TheVariants as objects
use Rattle.sql_keyword.specs.declared.words.Other.TheVariants as others
use Rattle.sql_keyword.specs.Texts.{{all_keywords}}

pub listed : (k : Keyword) → IsAmong all_keywords k
unfolding all_keywords
{lines}"""


def found_antt():
    lines = "".join(f"found {cited(word)} = refl\n" for word in WORDS)
    return f"""-- Each keyword is found by its own text.
{MADE_ANTT}use Rattle.std.proofs.Common.{{◌≡◌, refl, Some}}
use Rattle.sql_keyword.specs.declared.words.Keyword.{{Keyword}}
use Rattle.sql_keyword.specs.declared.words.Keyword.TheVariants as k
use Rattle.sql_keyword.specs.declared.words.Verb.TheVariants as verbs
use Rattle.sql_keyword.specs.declared.words.Object.TheVariants as objects
use Rattle.sql_keyword.specs.declared.words.Other.TheVariants as others
use Rattle.sql_keyword.specs.Texts.{{text}}
use Rattle.sql_keyword.specs.Slots.{{slot, start_of, length_of, keyword_in, text_at, look_up}}

pub found : (k : Keyword) → look_up (text k) ≡ Some k
unfolding text slot start_of length_of keyword_in text_at look_up
{lines}"""


def tokens(text):
    """A file without its layout: neither blanks, nor a comma before a closing bracket."""
    return "".join(text.split()).replace(",]", "]").replace(",)", ")").replace(",}", "}")


def main():
    assert WORDS == sorted(set(WORDS)), "the words stand in order, each once"
    assert all(SHORTEST <= len(word) <= LONGEST for word in WORDS), "src/lib.rt tests the length"
    assert all(word.isascii() and word.isalpha() and word.isupper() for word in WORDS)
    files = {
        "src/words.rt": words_rt(),
        "src/slots.rt": slots_rt(*search()),
        "specs/Texts.antt": texts_antt(),
        "proofs/Found.antt": found_antt(),
        "proofs/Listed.antt": listed_antt(),
    }
    if sys.argv[1:] == ["--check"]:
        stale = [name for name, text in files.items() if tokens(text) != tokens((CRATE / name).read_text("utf-8"))]
        sys.exit(f"tools/keywords.py writes other files: {', '.join(stale)}" if stale else 0)
    for name, text in files.items():
        (CRATE / name).parent.mkdir(exist_ok=True)
        (CRATE / name).write_text(text, encoding="utf-8")


if __name__ == "__main__":
    main()
