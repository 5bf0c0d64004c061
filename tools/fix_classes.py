#!/usr/bin/env python3
"""How far the fix of a report can be trusted, and the statement of a report, read anew from a text by regular expressions.

Used by tools/compare_checks.py, which compares it with what `lavkheto check` prints. The classes are those of docs/RULES.md#classes, and
the statements are those between the semicolons outside of brackets, from the first token to the semicolon.
"""
import collections
import re

SPACE = rb"[ \t\n\r\f\v]"
TOKEN = re.compile(rb"""
    (?P<gap>   [ \t\n\r\f\v]+ | --[^\n\r]* )
  | (?P<open>  /\* )
  | (?P<tag>   \$(?:[A-Za-z_\x80-\xff][A-Za-z0-9_\x80-\xff]*)?\$ )
  | (?P<text>  [eE]'(?:[^'\\]|\\.|'')*' | (?:[bBxXnN]|[uU]&)?'(?:[^']|'')*' )
  | (?P<name>  "(?:[^"]|"")*" )
  | (?P<word>  [A-Za-z_\x80-\xff][A-Za-z0-9_$\x80-\xff]* )
  | (?P<other> . )
""", re.X | re.S)

Token = collections.namedtuple("Token", "kind text start end")
Statement = collections.namedtuple("Statement", "start end tokens")


def comment_end(text, at):
    """The end of a block comment, in which others may be."""
    depth = 0
    for found in re.finditer(rb"/\*|\*/", text[at:], re.S):
        depth += 1 if found[0] == b"/*" else -1
        if depth == 0:
            return at + found.end()
    return len(text)


def tokens_of(text):
    """The tokens of a text, without white space, comments and a byte order mark at its start."""
    at, found = 3 * text.startswith(b"\xef\xbb\xbf"), []
    while at < len(text):
        match = TOKEN.match(text, at)
        kind, end = match.lastgroup, match.end()
        if kind == "open":
            kind, end = "gap", comment_end(text, at)
        elif kind == "tag":
            closed = text.find(match[0], end)
            kind, end = "text", len(text) if closed < 0 else closed + len(match[0])
        if kind != "gap":
            found.append(Token(kind, text[at:end], at, end))
        at = end
    return found


def statements_of(text):
    """The statements of a text, those without a token left out."""
    found, now, depth = [], [], 0
    for token in tokens_of(text):
        now.append(token)
        depth = max(0, depth + {b"(": 1, b"[": 1, b")": -1, b"]": -1}.get(token.text, 0))
        if token.text == b";" and depth == 0:
            found, now = found + [now] * (len(now) > 1), []
    return [Statement(one[0].start, one[-1].end, one) for one in found + [now] * bool(now)]


def statement_around(text, start, end):
    """The statement that a range is in, as a range; the range itself where it is in none."""
    behind = next((one for one in statements_of(text) if one.end > start), None)
    return (behind.start, behind.end) if behind and behind.start <= start and end <= behind.end else (start, end)


def words(statement):
    """Its words in capitals (of ASCII), and all else as it is."""
    return [(token.text.upper() if token.kind == "word" else token.text).decode("utf-8") for token in statement.tokens]


def begins(said):
    return said[0] == "BEGIN" or said[:2] == ["START", "TRANSACTION"]


def ends(said):
    if said[0] not in ("COMMIT", "END", "ROLLBACK", "ABORT") or said[1:2] == ["PREPARED"] or said[:2] == ["ROLLBACK", "TO"]:
        return said[:2] == ["PREPARE", "TRANSACTION"]
    rest = [word for word in said[1:] if word not in ("WORK", "TRANSACTION", ";")]
    return rest[:1] != ["TO"]


def chains(said):
    return any(said[at:at + 2] == ["AND", "CHAIN"] for at in range(len(said)))


def sets_timeout(said):
    rest = [word for word in said[1:] if word not in ("SESSION", "LOCAL")]
    return said[0] == "SET" and rest[:1] and folded(rest[0]) in ("lock_timeout", "statement_timeout")


def folded(word):
    """A name as PostgreSQL keeps it, of a word in capitals or of a quoted name."""
    told = word[1:-1].replace('""', '"').encode("utf-8") if word.startswith('"') else word.encode("utf-8").lower()
    return told[:63].decode("utf-8", "ignore")


def path_at(said, at):
    """The names with dots between them that begin at a number."""
    names = [folded(said[at])]
    while said[at + 1:at + 2] == ["."]:
        at += 2
        names.append(folded(said[at]))
    return names


OUTSIDE = {("ALTER", "DATABASE"), ("ALTER", "SYSTEM"), ("CREATE", "DATABASE"), ("CREATE", "INDEX"), ("CREATE", "TABLESPACE"), ("CREATE", "UNIQUE"),
           ("DROP", "DATABASE"), ("DROP", "INDEX"), ("DROP", "TABLESPACE")}


def works_outside(said):
    """It runs outside of transactions alone, or a fix may make it so."""
    detaches = said[0] == "ALTER" and ("DETACH", "PARTITION") in zip(said, said[1:])
    return tuple(said[:2]) in OUTSIDE or said[0] in ("CLUSTER", "DISCARD", "REINDEX", "VACUUM") or detaches


def builds_concurrently(said):
    """CREATE INDEX CONCURRENTLY."""
    return said[:1] == ["CREATE"] and "INDEX" in said[1:3] and said[said.index("INDEX") + 1:][:1] == ["CONCURRENTLY"]


def after_table(said):
    """The number of the word after CREATE .. TABLE; 0 where it makes no table."""
    at = 1
    while said[at:at + 1] and said[at] in ("TEMP", "TEMPORARY", "LOCAL", "GLOBAL", "UNLOGGED"):
        at += 1
    return at + 1 if said[0] == "CREATE" and said[at:at + 1] == ["TABLE"] else 0


def is_guarded(said, at):
    return said[at:at + 3] == ["IF", "NOT", "EXISTS"]


def depths(said):
    depth = 0
    for word in said:
        depth -= word in (")", "]")
        yield depth
        depth += word in ("(", "[")


def into_at(said):
    """The number of the name after INTO of a SELECT; 0 where there is none."""
    found = next((at for at, (word, depth) in enumerate(zip(said, depths(said))) if word == "INTO" and depth == 0), None)
    if said[0] not in ("SELECT", "WITH") or found is None or "INSERT" in said or "MERGE" in said:
        return 0
    at = found + 1
    while said[at] in ("TEMP", "TEMPORARY", "LOCAL", "GLOBAL", "UNLOGGED", "TABLE"):
        at += 1
    return at


def made_table(said):
    """The path of the table that a statement makes."""
    at = after_table(said)
    if not at:
        at = into_at(said)
        return path_at(said, at) if at else None
    return path_at(said, at + 3 * is_guarded(said, at))


def indexed_table(said):
    """The path of the table that CREATE INDEX is on."""
    at = said.index("ON") + 1
    return path_at(said, at + (said[at] == "ONLY"))


class Known:
    """What is known of the statements of a text."""

    def __init__(self, text, assumes, major=15):
        self.text, self.statements = text, statements_of(text)
        self.said = [words(one) for one in self.statements]
        self.inside, self.limited = [], []
        self.major = major
        inside = assumes and b"squawk-disable-assume-in-transaction" not in text
        limited = False
        for said in self.said:
            self.inside.append(inside)
            self.limited.append(limited)
            inside = True if begins(said) else chains(said) if ends(said) else inside
            limited = limited or bool(sets_timeout(said))
        self.works_outside = any(map(works_outside, self.said))

    def is_no_build(self, at):
        """A CREATE INDEX that takes no CONCURRENTLY, or that would take an invalid index for the wanted one."""
        said, before = self.said[at], self.said[:at]
        parted = any(made_table(one) == indexed_table(said) for one in before if "PARTITION" in one and "BY" in one)
        return parted or "ONLY" in said or any(is_guarded(said, i) for i in range(len(said)))

    def is_of_system(self, at):
        """A REINDEX of what is PostgreSQL's own, by how the name is written."""
        said = self.said[at]
        end = next((at for at, word in enumerate(said) if word in ("INDEX", "TABLE", "SCHEMA", "DATABASE", "SYSTEM")), 0)
        return said[end] == "SYSTEM" or self.statements[at].tokens[end + 1].text.startswith((b"pg_", b"PG_", b'"pg_'))

    def is_not_concurrent(self, rule, at):
        """Work on an index that is not offered CONCURRENTLY."""
        said = self.said[at]
        refused = {"require-concurrent-index-creation": lambda: self.is_no_build(at),
                   "require-concurrent-index-deletion": lambda: "CASCADE" in said or "," in said,
                   "require-concurrent-reindex": lambda: self.major < 12 or self.is_of_system(at)}
        return self.inside[at] or self.limited[at] or refused[rule]()

    def is_refused(self, rule, at):
        """The fix always fails there, or leaves what a hazard reports."""
        if rule in ("require-concurrent-index-creation", "require-concurrent-index-deletion", "require-concurrent-reindex"):
            return self.is_not_concurrent(rule, at)
        return {"require-concurrent-partition-detach": self.inside[at] or self.major < 14, "prefer-repack": self.inside[at],
                "require-lock-timeout": self.works_outside, "require-statement-timeout": self.works_outside,
                "prefer-robust-stmts": builds_concurrently(self.said[at]), "prefer-identity": self.major < 10}.get(rule, False)

    def class_of(self, rule, start, end):
        """The class of the fix of a report that begins there; None where it is not offered."""
        at = next((number for number, one in enumerate(self.statements) if one.end > start), None)
        if at is None or self.text[max(start - 1, 0):start] in (b":", b"?", b'"') or self.text[end:end + 1] == b'"' or self.is_refused(rule, at):
            return None
        if rule == "identifier-too-long":
            return "safe" if self.text[start:end].isascii() else "unsafe"
        return {"require-enum-value-ordering": "template"}.get(rule, "unsafe")
