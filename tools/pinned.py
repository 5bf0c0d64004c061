#!/usr/bin/env python3
"""Lists what no case pins of the tables that say which statements there are, of what they are made, and what they lock.

    tools/pinned.py                  says what is unpinned
    tools/pinned.py --write          writes it to docs/PINNED.md
    tools/pinned.py --check          says whether docs/PINNED.md is what --write would write today, but for its date
    tools/pinned.py --show TEXT      shows what is read of a text
    tools/pinned.py .. FILE ..       takes these files of cases in place of cases/**/*.txt

Code and definitions share these tables, so a wrong row is proved as a right one is: only a case can tell. This reads the
tables out of the sources of `sql_tree` and `lint_lock`, and reads the texts of the cases by them as the definitions say
(`Forms.antt`, `Statement.antt`, `Tails.antt`, `Action.antt`, `ActionPieces.antt`, `Lock.antt`, `Slow.antt`). Columns,
constraints and expressions are not read. It first sees that every case holds by the tables as they are. Then it changes them,
one thing at a time: takes out a row, a part or a word, exchanges a kind or a word, drops or adds what may follow. A change by
which every case still holds is unpinned.
"""
import datetime
import glob
import os
import re
import sys

TOP = os.path.dirname(os.path.dirname(os.path.abspath(__file__)))
TREE = f"{TOP}/crates/sql_tree"
LOCK = f"{TOP}/crates/lint_lock"
# What is shown of a part that is not read: it fits any text.
ANY = "\0"


# ---- the tables in the code

TOKEN = re.compile(r"\s*(?:([A-Za-z_][\w:]*)|(.))", re.S)


class Reader:
    """Reads a constant of names, calls, tuples and lists."""

    def __init__(self, text):
        self.tokens = [a or b for a, b in TOKEN.findall(text) if (a or b).strip()]
        self.at = 0

    def next(self):
        self.at += 1
        return self.tokens[self.at - 1]

    def several(self, end):
        found = []
        while self.tokens[self.at] != end:
            found.append(self.value())
            if self.tokens[self.at] == ",":
                self.at += 1
        self.at += 1
        return found

    def value(self):
        token = self.next()
        if token == "&":
            return self.value()
        if token == "[":
            return self.several("]")
        if token == "(":
            return tuple(self.several(")"))
        name = token.split("::")[-1]
        if self.at < len(self.tokens) and self.tokens[self.at] == "(":
            self.at += 1
            return (name, *self.several(")"))
        return name


def whole(part):
    return part if isinstance(part, tuple) else (part,)


def code_tables():
    """Each table by its name: rows of a kind and one or two lists of parts, or of a mode and its words."""
    tables = {}
    for name in ("create_forms", "alter_forms", "drop_forms", "other_forms", "actions"):
        text = re.sub(r"//.*", "", open(f"{TREE}/src/{name}.rt").read())
        for found in re.finditer(r"pub const (\w+): \[(.*?); \d+\] =(.*?);\n(?=\n|\Z)", text, re.S):
            rows = Reader(found[3]).value()
            if found[1] == "LOCK_MODES":
                tables[found[1]] = [(row[0], row[1]) for row in rows]
            else:
                key = found[1] if name != "actions" else "actions." + found[1]
                tables[key] = [(row[0], *[[whole(part) for part in parts] for parts in row[1:]]) for row in rows]
    return tables


# ---- the tables in the definitions

def upper(variant):
    return re.sub(r"(?<=[a-z])(?=[A-Z])", "_", variant.strip("«»")).upper()


KEY = r"(?:\(k\.\w+ \w+\.(?P<word>[«»\w]+)\)|(?:\w+\.)?(?P<variant>[A-Z]\w*))"
SPEC_TABLES = {
    f"{TREE}/specs/Forms.antt": "words_of family_of create_rows alter_rows drop_rows rows_of one_word_kind",
    f"{TREE}/specs/Statement.antt": "body_shape_of",
    f"{TREE}/specs/Split.antt": "is_verb_word is_target_list_end",
    f"{TREE}/specs/Tails.antt": "target_word",
    f"{TREE}/specs/Words.antt": "is_sequence_word is_function_word",
    f"{TREE}/specs/Action.antt": "takes_options has_several own_part",
    f"{TREE}/specs/ActionRows.antt": "first_rows own_rows general_rows",
    f"{LOCK}/specs/Lock.antt": "lock_in_mode is_light_kind lock_by_action lock_by strength",
    f"{LOCK}/specs/Slow.antt": "is_quick_kind alters creates drops takes_long",
}


def meant(right):
    """The right side of a line of a definition: a name, or words."""
    words = re.findall(r"keyword\.(\w+)", right)
    if words:
        return words
    right = re.sub(r"^map \(.*\) ", "", right)
    right = re.sub(r"^Some ", "", right)
    return re.sub(r"\b[a-z]+\.(?=[A-Z])", "", right)


def spec_tables():
    tables = {}
    for path, names in SPEC_TABLES.items():
        lines = open(path).read().split("\n")
        for name in names.split():
            line = re.compile(rf"{name} {KEY}(?: \w+)* = (?P<right>.*)$")
            table = {}
            for found in filter(None, map(line.match, lines)):
                key = upper(found["word"]) if found["word"] else found["variant"]
                table[key] = meant(found["right"])
            tables[name] = table
    # The slow kinds may be those that are not quick, or lists of their own.
    slow = ("is_quick_kind", "alters", "creates", "drops", "takes_long")
    missing = [name for name, table in tables.items() if not table and name not in slow]
    if missing:
        sys.exit(f"not found in the definitions: {', '.join(missing)}")
    return tables


# ---- tokens

LEXED = re.compile(
    r"(?P<blank>[ \t\n\r\v\f\ufeff]+|--[^\n]*|/\*.*?\*/)"
    r"|(?P<U>[uU]&\"(?:[^\"]|\"\")*\")"
    r"|(?P<S>[eE]'(?:[^'\\]|\\.|'')*'|(?:[bBxXnN]|[uU]&)?'(?:[^']|'')*')"
    r"|(?P<D>\$(?P<tag>[A-Za-z_]\w*)?\$.*?\$(?P=tag)\$|\$\$.*?\$\$)"
    r"|(?P<W>[A-Za-z_\x80-\U0010ffff][\w$]*)"
    r"|(?P<Q>\"(?:[^\"]|\"\")*\")"
    r"|(?P<P>\$\d+)"
    r"|(?P<N>\.?\d(?:[\w.]|(?<=[eE])[+-])*)"
    r"|(?P<O>[+\-*/<>=~!@#%^&|?`]+)"
    r"|(?P<X>.)", re.S)


class Terminal:
    __slots__ = ("kind", "text", "word", "start", "end")

    def __init__(self, kind, text, start):
        self.kind = kind
        self.text = text
        self.word = text.upper() if kind == "W" else None
        self.start = start
        self.end = start + len(text)


def operators(text, start):
    """An operator without its trailing signs, as PostgreSQL cuts it."""
    while text:
        run = text
        if len(run) > 1 and run[-1] in "+-" and not set(run) & set("~!@#%^&|?`"):
            run = run.rstrip("+-") or run[0]
        yield Terminal("O", run, start)
        start += len(run)
        text = text[len(run):]


def terminals(text):
    found = []
    for m in LEXED.finditer(text):
        kind = m.lastgroup if m.lastgroup != "tag" else "D"
        if kind == "O":
            found += operators(m[0], m.start())
        elif kind == "X":
            found.append(Terminal(m[0] if m[0] in "()[],;.:" else "X", m[0], m.start()))
        elif kind != "blank":
            found.append(Terminal(kind, m[0], m.start()))
    return found


def statements(ts):
    depth = 0
    piece = []
    for t in ts:
        piece.append(t)
        if depth == 0 and t.kind == ";":
            yield piece
            piece = []
        depth += (t.kind in "([") - (t.kind in ")]")
    if piece:
        yield piece


def is_sound(ts):
    open_ones = []
    for at, t in enumerate(ts):
        if t.kind == "U":
            return False
        if t.kind in "([":
            open_ones.append(t.kind)
            if len(open_ones) > 128:
                return False
        elif t.kind in ")]":
            if not open_ones or open_ones.pop() + t.kind not in ("()", "[]"):
                return False
        elif not open_ones and t.word == "BEGIN" and at + 1 < len(ts) and ts[at + 1].word == "ATOMIC":
            return False
    return not open_ones


def is_name(t):
    return t.kind in "WQ"


def levels(ts):
    """Each terminal with its place and the depth before it."""
    depth = 0
    for at, t in enumerate(ts):
        yield at, t, depth
        depth += (t.kind in "([") - (t.kind in ")]")


def first_at(ts, test):
    """The place of the first terminal of depth 0 that passes the test, or how many there are."""
    for at, t, depth in levels(ts):
        if depth == 0 and test(at, t):
            return at
    return len(ts)


def split(ts, kind=","):
    parts = [[]]
    for _, t, depth in levels(ts):
        if depth == 0 and t.kind == kind:
            parts.append([])
        else:
            parts[-1].append(t)
    return parts


def closing(ts):
    depth = 0
    for at, t in enumerate(ts):
        depth += (t.kind in "([") - (t.kind in ")]")
        if depth == 0:
            return at + 1
    return len(ts)


def begins(ts, *words):
    return len(ts) >= len(words) and all(t.word == w for t, w in zip(ts, words))


def inside(ts):
    return ts[1:closing(ts) - 1] if ts and ts[0].kind == "(" else []


def names_end(ts):
    """How many terminals the path is that comes first."""
    at = 1
    while at + 1 < len(ts) and ts[at].kind == "." and is_name(ts[at + 1]):
        at += 2
    return at


# ---- reading by the tables

class Missing(Exception):
    """What must be there is not."""


class Kept:
    def __init__(self):
        self.word = self.path = self.name = self.concurrently = None
        self.facts = set()
        self.temp = self.open = False


class Tables:
    """The tables, and what is read by them."""

    def __init__(self, code, spec):
        self.code = code
        self.spec = spec
        either = re.search(r"take_part \(p\.Either.*", open(f"{TREE}/specs/Forms.antt").read())[0]
        self.either_is_kept = "word_kept" in either
        self.used = set()

    def rows(self, name):
        self.used.add((name, None))
        return self.code.get(name, [])

    def told(self, table, key):
        self.used.add((table, key))
        return self.spec[table].get(key)

    def phrase(self, name, ts):
        words = self.told("words_of", name)
        if words and begins(ts, *words):
            return len(words)
        return None

    # ---- parts

    def part(self, part, kept, ts):
        """What is left after a part."""
        what = part[0]
        first = ts[0] if ts else None
        if what in ("Word", "Object"):
            if not first or not same(part[1], first):
                raise Missing
            if what == "Object":
                kept.word = first
            return ts[1:]
        if what == "AnyOf":
            table = {"SequenceOption": "is_sequence_word", "FunctionOption": "is_function_word"}[part[1]]
            if not first or not first.word or not self.told(table, first.word):
                raise Missing
            return ts[1:]
        if what == "MaybeObject":
            if first and same(part[1], first):
                kept.word = first
                return ts[1:]
            return ts
        if what == "Flag":
            if first and same(part[1], first):
                kept.facts.add(part[2])
                return ts[1:]
            return ts
        if what == "Tell":
            kept.facts.add(part[1])
            return ts
        if what == "Either":
            if first and (same(part[1], first) or same(part[2], first)):
                if self.either_is_kept:
                    kept.word = first
                return ts[1:]
            return ts
        if what == "Maybe":
            count = self.phrase(part[1], ts)
            if count is None:
                return ts
            kept.facts.add(part[2])
            return ts[count:]
        return getattr(self, "part_" + what.lower())(kept, ts)

    def part_chain(self, kept, ts):
        count = self.phrase("AndChain", ts)
        if count is not None:
            kept.facts.add("Chain")
            return ts[count:]
        count = self.phrase("AndNoChain", ts)
        return ts[count or 0:]

    def part_concurrently(self, kept, ts):
        if begins(ts, "CONCURRENTLY"):
            kept.concurrently = ts[0]
            return ts[1:]
        return ts

    def part_indexname(self, kept, ts):
        count = self.phrase("IfNotExists", ts)
        rest = ts[count or 0:]
        if rest and is_name(rest[0]) and rest[0].word != "ON":
            kept.name = rest[0]
            if count is not None:
                kept.facts.add("Guarded")
            return rest[1:]
        return ts

    def part_mods(self, kept, ts):
        while ts and ts[0].word in ("TEMP", "TEMPORARY", "GLOBAL", "LOCAL", "UNLOGGED"):
            if ts[0].word.startswith("TEMP"):
                kept.temp = True
            ts = ts[1:]
        return ts

    def part_name(self, kept, ts):
        if not ts or not is_name(ts[0]):
            raise Missing
        kept.name = ts[0]
        return ts[1:]

    def part_anyname(self, kept, ts):
        if not ts or not is_name(ts[0]):
            raise Missing
        return ts[1:]

    def part_path(self, kept, ts):
        if not ts or not is_name(ts[0]):
            raise Missing
        count = names_end(ts)
        kept.path = (ts[0], ts[count - 1])
        return ts[count:]

    def part_str(self, kept, ts):
        if not ts or ts[0].kind != "S":
            raise Missing
        kept.name = ts[0]
        return ts[1:]

    def part_list(self, kept, ts):
        if not ts or ts[0].kind != "(":
            raise Missing
        return ts[closing(ts):]

    def part_maybelist(self, kept, ts):
        return ts[closing(ts):] if ts and ts[0].kind == "(" else ts

    def part_star(self, kept, ts):
        return ts[1:] if ts and ts[0].kind == "O" and ts[0].text == "*" else ts

    def part_into(self, kept, ts):
        at = first_at(ts, lambda at, t: t.word == "INTO" and not (at and (ts[at - 1].word == "AS" or ts[at - 1].kind == ".")))
        if at == len(ts):
            raise Missing
        return ts[at + 1:]

    def part_privileges(self, kept, ts):
        at = first_at(ts, lambda at, t: t.word in ("GRANT", "REVOKE"))
        if at == len(ts):
            raise Missing
        return ts[at:]

    def part_rest(self, kept, ts):
        kept.open = True
        return ts

    def part_tail(self, kept, ts):
        if not ts:
            raise Missing
        kept.open = True
        return ts

    def in_turn(self, parts, kept, ts):
        for part in parts:
            ts = self.part(part, kept, ts)
        return ts

    def first_led(self, name, ts):
        """The first row whose lead words match, which must then match whole: its kind, what is kept, what is left."""
        for kind, lead, parts in self.rows(name):
            kept = Kept()
            try:
                left = self.in_turn(lead, kept, ts)
            except Missing:
                continue
            left = self.in_turn(parts, kept, left)
            if left and not kept.open:
                raise Missing
            return kind, kept, left
        raise Missing

    def first_whole(self, name, ts):
        for kind, parts in self.rows(name):
            kept = Kept()
            try:
                left = self.in_turn(parts, kept, ts)
            except Missing:
                continue
            if kept.open or not left:
                return kind, kept, left
        return None

    # ---- statements

    def led(self, ts):
        word = ts[0].word
        kind = self.told("one_word_kind", word)
        if kind:
            kept = Kept()
            kept.open = True
            return kind, kept, ts[1:]
        table = self.told("rows_of", word)
        if table is None:
            raise Missing
        if table.endswith("(family_first ts)"):
            family = self.told("family_of", ts[1].word if len(ts) > 1 else None) or "Other"
            table = self.told(table.split()[0], family)
        return self.first_led(table, ts[1:])

    def front(self, ts):
        if ts[0].word:
            return self.led(ts)
        if ts[0].kind == "(":
            return "ParenSelect", Kept(), ts[1:]
        raise Missing

    def statement(self, ts):
        """The kind of a statement and its body in words, or Missing."""
        if not is_sound(ts):
            raise Missing
        if ts[-1].kind == ";":
            ts = ts[:-1]
        if not ts:
            return "Empty", Body()
        if ts[0].word == "WITH":
            ts = ts[first_at(ts, lambda at, t: t.word and self.told("is_verb_word", t.word)):]
            if not ts:
                return "Select", Body()
        kind, kept, left = self.front(ts)
        shape = self.told("body_shape_of", kind) or "Kept"
        body = getattr(self, "body_" + shape.lower())(kind, kept, left, ts[1:])
        if kind == "CreateTable" and first_at(left, lambda at, t: t.word == "AS") < len(left):
            kind = "CreateTableAs"
        return kind, body

    def body_kept(self, kind, kept, left, ts):
        return Body()

    def body_end(self, kind, kept, left, ts):
        return Body(mark("NotPlain" not in kept.facts, " plain") + mark("Chain" in kept.facts, " chain"))

    def body_table(self, kind, kept, left, ts):
        if not kept.word or not kept.path:
            raise Missing
        dropped = first_at(left, lambda at, t: begins(left[at:], "ON", "COMMIT", "DROP")) < len(left)
        elems = inside(left)
        body = Body(token(" word ", kept.word) + mark(kept.temp, " temp") + guarded(kept) + mark(dropped, " dropped")
                    + span(" path ", kept.path) + mark(elems, ": " + ANY))
        body.refers = any(refers(elem) for elem in split(elems))
        return body

    def body_into(self, kind, kept, left, ts):
        if not kept.path:
            raise Missing
        return Body(span(" path ", kept.path) + " targets" + self.targets(ts))

    def body_index(self, kind, kept, left, ts):
        if not kept.word or not kept.path:
            raise Missing
        body = Body(token(" word ", kept.word) + mark("Unique" in kept.facts, " unique")
                    + token(" concurrently ", kept.concurrently) + guarded(kept) + token(" name ", kept.name)
                    + span(" path ", kept.path))
        body.concurrent = bool(kept.concurrently)
        return body

    def body_drop(self, kind, kept, left, ts):
        if not kept.word or not kept.path:
            raise Missing
        paths = [kept.path]
        while len(left) > 1 and left[0].kind in ".," and is_name(left[1]):
            if left[0].kind == ".":
                paths[-1] = (paths[-1][0], left[1])
            else:
                paths.append((left[1], left[1]))
            left = left[2:]
        body = Body(token(" word ", kept.word) + mark(kept.concurrently, " concurrently") + guarded(kept)
                    + "".join(span(" path ", path) for path in paths))
        body.concurrent = bool(kept.concurrently)
        return body

    def body_reindex(self, kind, kept, left, ts):
        options = split(inside(left))
        rest = left[closing(left):] if left and left[0].kind == "(" else left
        target = rest and rest[0].word and self.told("target_word", rest[0].word)
        if not target:
            raise Missing
        after = rest[2:] if begins(rest[1:], "CONCURRENTLY") else rest[1:]
        if after and (not is_name(after[0]) or names_end(after) != len(after)):
            raise Missing
        found = [option for option in options if begins(option, "CONCURRENTLY")]
        body = Body(" " + target + token(" word ", rest[0]) + mark(found or after != rest[1:], " concurrently")
                    + mark(any(len(option) > 1 for option in found), " valued") + span(" path ", ends(after)))
        body.concurrent = bool(found or after != rest[1:])
        return body

    def body_alter(self, kind, kept, left, ts):
        actions = self.actions(kind, left)
        body = Body(span(" path ", kept.path) + ": " + "; ".join(a.shown for a in actions))
        body.actions = actions
        return body

    def body_domain(self, kind, kept, left, ts):
        if not left or lacks_default(left):
            raise Missing
        return Body(ANY)

    def body_made(self, kind, kept, left, ts):
        if not kept.path:
            raise Missing
        return Body(guarded(kept) + span(" path ", kept.path))

    def body_view(self, kind, kept, left, ts):
        columns = split(inside(left)) if left and left[0].kind == "(" else []
        names = [column[0].text for column in columns if len(column) == 1 and is_name(column[0])]
        if len(names) != len(columns):
            names = []
        query = left[first_at(left, lambda at, t: t.word == "AS"):]
        targets = self.targets(query[2:]) if begins(query, "AS", "SELECT") else ""
        return Body(mark("Replace" in kept.facts, " replace") + " columns" + "".join(" " + name for name in names)
                    + " targets" + targets)

    def body_code(self, kind, kept, left, ts):
        return Body(mark("Replace" in kept.facts, " replace"))

    def body_truncate(self, kind, kept, left, ts):
        return Body(token(" ", left[-1]) if left and left[-1].word == "CASCADE" else "")

    def body_setting(self, kind, kept, left, ts):
        if left and is_name(left[0]):
            count = names_end(left)
            after = left[count] if count < len(left) else None
            if after and (after.word == "TO" or after.kind == "O" and after.text[0] == "="):
                return Body(span(" ", (left[0], left[count - 1])))
        return Body()

    def body_locking(self, kind, kept, left, ts):
        body = Body()
        for at, t in enumerate(left):
            if t.word == "IN" and not body.mode:
                for mode, words in self.rows("LOCK_MODES"):
                    rest = left[at + 1:]
                    if not (len(rest) > len(words) and all(same(w, t) for w, t in zip(words, rest))):
                        continue
                    if rest[len(words)].word == "MODE" and [t.word for t in rest[len(words) + 1:]] in ([], ["NOWAIT"]):
                        body.mode = mode
                        break
        body.shown = " " + body.mode if body.mode else ""
        return body

    def body_refresh(self, kind, kept, left, ts):
        body = Body(mark(kept.concurrently, " concurrently"))
        body.concurrent = bool(kept.concurrently)
        return body

    def body_vacuum(self, kind, kept, left, ts):
        options = split(inside(left))
        rest = left[closing(left):] if left and left[0].kind == "(" else left
        body = Body()
        body.full = begins(rest, "FULL") or any(is_full(option) for option in options)
        for words in (("FULL",), ("FREEZE",), ("VERBOSE",), ("ANALYZE", "ANALYSE")):
            if rest and rest[0].word in words:
                rest = rest[1:]
        body.shown = mark(body.full, " full") + span(" tables ", ends(rest))
        return body

    def body_cluster(self, kind, kept, left, ts):
        return Body(span(" table ", kept.path) + token(" index ", kept.name))

    def body_write(self, kind, kept, left, ts):
        if not kept.path:
            raise Missing
        return Body(span(" path ", kept.path) + ANY)

    def targets(self, ts):
        if begins(ts, "ALL"):
            ts = ts[1:]
        elif begins(ts, "DISTINCT"):
            ts = ts[1:]
            if begins(ts, "ON") and len(ts) > 1 and ts[1].kind == "(":
                ts = ts[1 + closing(ts[1:]):]
        shown = ""
        for part in split(ts[:first_at(ts, lambda at, t: t.word and self.told("is_target_list_end", t.word))]):
            if len(part) > 1 and part[-2].word == "AS" and is_name(part[-1]):
                shown += " " + part[-1].text
            elif part and is_name(part[0]) and names_end(part) == len(part):
                shown += " " + part[-1].text
        return shown

    # ---- actions

    def actions(self, kind, ts):
        parts = split(ts) if self.told("has_several", kind) else [ts]
        return [self.action(kind, part) for part in parts]

    def action(self, kind, ts):
        if not ts:
            raise Missing
        for read in (self.first_action, self.own_action, self.added_constraint, self.general_action, self.options):
            found = read(kind, ts)
            if found:
                return found
        return self.by_rows("actions.OTHER", ts) or Action("None", ts)

    def first_action(self, kind, ts):
        return self.by_rows(self.action_table("first_rows", ts[0].word), ts)

    def own_action(self, kind, ts):
        part = self.told("own_part", kind)
        if part == "after_column ts":
            at = 2 if begins(ts, "ALTER", "COLUMN") else 1
            if ts[0].word != "ALTER" or len(ts) <= at or not is_name(ts[at]):
                return None
            ts = ts[at + 1:]
        elif part == "(after_database ts)" and begins(ts, "IN", "DATABASE") and len(ts) > 2 and is_name(ts[2]):
            ts = ts[3:]
        return self.by_rows(self.action_table("own_rows", kind), ts)

    def added_constraint(self, kind, ts):
        if ts[0].word != "ADD":
            return None
        rest = ts[1:]
        if kind == "AlterDomain" and not (begins(rest, "CHECK") or begins(rest, "CONSTRAINT") or begins(rest, "NOT", "NULL")):
            return None
        constraint = table_constraint(rest)
        if not constraint:
            return None
        found = Action("AddConstraint", ts, f" adds {constraint}{quoted(rest)}{ANY}")
        found.constraint = constraint
        return found

    def general_action(self, kind, ts):
        return self.by_rows(self.action_table("general_rows", ts[0].word), ts)

    def options(self, kind, ts):
        if not self.told("takes_options", kind):
            return None
        return self.by_rows("actions.OPTIONS", ts[1:] if ts[0].word == "WITH" else ts)

    def action_table(self, table, key):
        name = self.told(table, key)
        return "actions." + name if name else None

    def by_rows(self, table, ts):
        found = self.first_whole(table, ts) if table else None
        if not found:
            return None
        kind, kept, left = found
        if kind == "AddColumn" and (not left or not is_name(left[0]) or lacks_default(left[1:])):
            return None
        pieces = self.pieces_in(kind, left)
        if pieces is None:
            return None
        action = Action(kind, ts, token(" word ", kept.word) + guarded(kept) + mark("Placed" in kept.facts, " placed")
                        + token(" name ", kept.name) + span(" path ", kept.path)
                        + mark(kind == "AddColumn", " column " + (left[0].text if left else "") + ANY)
                        + "".join(shown for _, shown in pieces))
        action.pieces = [kind for kind, _ in pieces]
        return action

    def pieces_in(self, kind, ts):
        if kind == "AlterConstraint":
            return self.pieces("actions.CONSTRAINT_OPTION", constraint_options(ts))
        if kind == "AlterColumn":
            one = self.piece("actions.COLUMN_OPTION", ts)
            if one:
                return [one]
            several = self.pieces("actions.IDENTITY_OPTION", chunks(ts, lambda at, t: t.word == "SET" or t.word == "RESTART" and ts[at - 1].word != "SET"))
            return several if several is not None else [self.piece("actions.OTHER_OPTION", ts)]
        if kind == "SequenceOptions":
            return self.pieces("actions.SEQUENCE_OPTION", chunks(ts, lambda at, t: t.word and self.told("is_sequence_word", t.word) and ts[at - 1].word != "NO" and ts[at - 1].kind != "."))
        if kind == "PolicyChange":
            return self.pieces("actions.POLICY_PART", chunks(ts, lambda at, t: t.word in ("TO", "USING") or begins(ts[at:], "WITH", "CHECK")))
        if kind == "Attributes":
            return self.pieces("actions.ATTRIBUTE", split(ts))
        return []

    def pieces(self, table, parts):
        found = [self.piece(table, part) for part in parts]
        return None if None in found else found

    def piece(self, table, ts):
        found = self.first_whole(table, ts)
        if not found:
            return None
        kind, _, left = found
        shown = f" [{kind}{quoted(ts)}" + mark(kind == "SetType", ANY) + mark(kind == "SetGenerated" and begins(left, "ALWAYS"), " always") + "]"
        return kind, shown

    # ---- locks

    def lock(self, kind, body):
        how = self.told("lock_by", kind)
        if how is None:
            return "Unknown"
        if how.startswith("strongest"):
            locks = [self.lock_of_action(action) for action in body.actions]
            return max(["Unknown", *locks], key=lambda lock: int(self.told("strength", lock)))
        if how == "locked_by b":
            return self.told("lock_in_mode", body.mode) if body.mode else "AccessExclusive"
        return either(how, body.full if "is_full" in how else body.concurrent)

    def lock_of_action(self, action):
        how = self.told("lock_by_action", action.kind)
        if how is None:
            return "AccessExclusive"
        if "is_light" in how:
            return either(how, len(action.pieces) == 1 and self.told("is_light_kind", action.pieces[0]))
        return either(how, action.constraint == "ForeignKey")

    def is_slow(self, kind, body):
        if kind == "CreateTable":
            return body.refers
        if self.spec["is_quick_kind"]:
            return not self.told("is_quick_kind", kind)
        return any([self.told(table, kind) for table in ("alters", "creates", "drops", "takes_long")])

    # ---- views

    def view(self, view, text):
        """A view of a text."""
        ts = terminals(text)
        shown = []
        for piece in statements(ts):
            try:
                kind, body = self.statement(piece)
            except Missing:
                return f"syntax at {len(text[:piece[0].start].encode())}"
            if view == "kinds":
                shown.append(kind)
            elif view == "statements":
                shown.append(kind + body.shown)
            elif view == "actions":
                shown.append("; ".join(action.shown for action in body.actions))
            elif view == "locks":
                shown.append(("slow " if self.is_slow(kind, body) else "quick ") + self.lock(kind, body))
        return {"kinds": " ", "statements": " | "}.get(view, "").join(shown)


class Body:
    def __init__(self, shown=""):
        self.shown = shown
        self.actions = []
        self.mode = None
        self.full = self.concurrent = self.refers = False


class Action:
    def __init__(self, kind, ts, shown=""):
        self.kind = kind
        self.shown = kind + quoted(ts) + shown
        self.pieces = []
        self.constraint = None


SOURCE = ""


def same(word, t):
    """Whether the terminal is this word. `*` is any name, `!` is none."""
    return t.word == word or word == "*" and is_name(t)


def source(first, last):
    return SOURCE[first.start:last.end]


def mark(is_so, text):
    return text if is_so else ""


def token(label, t):
    return label + t.text if t else ""


def ends(ts):
    return (ts[0], ts[-1]) if ts else None


def span(label, found):
    return label + source(*found) if found else ""


def quoted(ts):
    return f" '{source(ts[0], ts[-1])}'" if ts else " ''"


def guarded(kept):
    return mark("Guarded" in kept.facts, " guarded")


def either(how, is_so):
    found = re.match(r"if .* then (\w+) else (\w+)$", how)
    return how if not found else found[1 if is_so else 2]


def chunks(ts, begins_one):
    parts = [[]]
    for at, t, depth in levels(ts):
        if at and depth == 0 and begins_one(at, t):
            parts.append([])
        parts[-1].append(t)
    return parts


def constraint_options(ts):
    parts = []
    while ts:
        pair = len(ts) > 1 and (ts[0].word == "NOT" and ts[1].word in ("ENFORCED", "DEFERRABLE") or ts[0].word == "INITIALLY" and ts[1].word)
        count = 2 if pair else closing(ts)
        parts.append(ts[:count])
        ts = ts[count:]
    return parts


def is_full(option):
    if not begins(option, "FULL"):
        return False
    return len(option) == 1 or len(option) == 2 and (option[1].word in ("TRUE", "ON") or option[1].text == "1")


def table_constraint(ts):
    """The kind of a table constraint, or None."""
    if begins(ts, "CONSTRAINT"):
        if len(ts) < 2 or not is_name(ts[1]):
            return None
        ts = ts[2:]
    for words, kind in ((("CHECK",), "Check"), (("UNIQUE",), "Unique"), (("PRIMARY", "KEY"), "PrimaryKey"),
                        (("FOREIGN", "KEY"), "ForeignKey"), (("NOT", "NULL"), "NotNull")):
        if begins(ts, *words):
            return kind
    if begins(ts, "EXCLUDE") and len(ts) > 1 and (ts[1].word == "USING" or ts[1].kind == "("):
        return "Exclude"
    return None


def refers(ts):
    if table_constraint(ts):
        return table_constraint(ts) == "ForeignKey"
    return first_at(ts, lambda at, t: at and t.word == "REFERENCES") < len(ts)


def lacks_default(ts):
    """Whether the last word is a DEFAULT that begins a constraint."""
    at = 0
    while at < len(ts):
        if ts[at].kind in "([":
            at += closing(ts[at:])
        elif ts[at].word == "DEFAULT" and not (at and ts[at - 1].word in ("SET", "BY")):
            if at + 1 == len(ts):
                return True
            at += 2 if ts[at + 1].kind not in "([" else 1
        else:
            at += 1
    return False


# ---- cases

class Case:
    def __init__(self, place, view, text, told):
        self.place = place
        self.view = view
        self.text = text
        self.told = told

    def holds(self, tables):
        global SOURCE
        SOURCE = self.text
        shown = tables.view(self.view, self.text)
        if ANY not in shown:
            return shown == self.told
        return re.fullmatch(".*".join(map(re.escape, shown.split(ANY))), self.told, re.S) is not None


VIEWS = ("kinds", "statements", "actions", "locks")


def unescaped(line):
    if not line.startswith("\\ "):
        return line
    return line[2:].encode().decode("unicode_escape")


def cases_in(path):
    """The cases of a file whose view is read here."""
    words = []
    rows = None
    for number, line in enumerate(open(path).read().split("\n"), 1):
        if rows is None:
            if line.startswith("# "):
                words = []
            elif line.startswith("$= "):
                words.append(line[3:])
            elif line.startswith("$ "):
                words += line[2:].split()
            elif words and "rows" in words:
                rows = []
        if rows is not None and line in ("===", "---"):
            view = next((word for word in words if word in VIEWS), None)
            frame = next((word for word in words if "{}" in word), "{}")
            if view and line == "===":
                for place, row in rows:
                    text, _, told = row.partition(" ==>")
                    yield Case(place, view, frame.replace("{}", text).replace("⏎", "\n"), told.removeprefix(" "))
            rows, words = None, []
        elif rows is not None:
            rows.append((f"{os.path.relpath(path, TOP)}:{number}", unescaped(line)))


# ---- changes

def other_of(kind, kinds):
    """Another kind, one that comes next."""
    return kinds[(kinds.index(kind) + 1) % len(kinds)]


def word_changes(part):
    """Each word of a part exchanged for none, and for any."""
    for at, word in enumerate(part):
        if at and isinstance(word, str) and word.isupper():
            yield f"{word} in {shown_part(part)} is never there", [(*part[:at], "!", *part[at + 1:])]
            yield f"any name is taken for {word} in {shown_part(part)}", [(*part[:at], "*", *part[at + 1:])]


def shown_part(part):
    return part[0] + (f"({', '.join(part[1:])})" if len(part) > 1 else "")


LOOSER = {"Path": ("Name",), "Name": ("Path",), "AnyName": ("Path",), "Tail": ("Rest",), "Rest": ("Tail",),
          "MaybeList": ("List",), "List": ("MaybeList",)}


def part_changes(part):
    yield f"without {shown_part(part)}", []
    yield from word_changes(part)
    what = part[0]
    if what in ("Word", "Object"):
        yield f"{shown_part(part)} may be missing", [("Flag" if what == "Word" else "MaybeObject", part[1], "Nothing")]
    if what in ("Flag", "MaybeObject"):
        yield f"{shown_part(part)} must be there", [("Word" if what == "Flag" else "Object", part[1])]
    if what in ("Object", "MaybeObject"):
        yield f"nothing is kept of {shown_part(part)}", [("Word", part[1]) if what == "Object" else ("Flag", part[1], "Nothing")]
    if what in ("Flag", "Maybe") and part[2] != "Nothing":
        yield f"nothing is kept of {shown_part(part)}", [(what, part[1], "Nothing")]
    if what in LOOSER:
        for other in LOOSER[what]:
            yield f"{other} in place of {what}", [(other,)]


def list_changes(parts):
    for at, part in enumerate(parts):
        for name, others in part_changes(part):
            yield name, [*parts[:at], *others, *parts[at + 1:]]


def row_changes(row, kinds):
    yield "row out", None
    yield f"{row[0]} is {other_of(row[0], kinds)}", (other_of(row[0], kinds), *row[1:])
    if not row[-1] or row[-1][-1][0] not in ("Rest", "Tail"):
        yield "anything may follow", (*row[:-1], [*row[-1], ("Rest",)])
    for at, parts in enumerate(row[1:], 1):
        for name, others in list_changes(parts):
            yield name, (*row[:at], others, *row[at + 1:])


def mode_changes(row, kinds):
    yield "row out", None
    yield f"{row[0]} is {other_of(row[0], kinds)}", (other_of(row[0], kinds), row[1])
    for at, word in enumerate(row[1]):
        yield f"without {word}", (row[0], [*row[1][:at], *row[1][at + 1:]])
        yield f"{word} is never there", (row[0], [*row[1][:at], "!", *row[1][at + 1:]])
        yield f"any name is taken for {word}", (row[0], [*row[1][:at], "*", *row[1][at + 1:]])


def variants(path, name):
    text = re.sub(r"//.*|#\[.*?\]", "", open(path).read())
    return re.findall(r"\w+", re.search(rf"pub enum {name} \{{(.*?)\}}", text, re.S)[1])


def code_changes(code):
    """Each change of a table of the code: its table, its name, and the table after it."""
    enums = {name: variants(f"{TREE}/src/kinds.rt", name) for name in ("StmtKind", "ActionKind", "PieceKind")}
    enums["LockMode"] = variants(f"{TREE}/src/nodes.rt", "LockMode")
    for table, rows in code.items():
        kinds = next(kinds for kinds in enums.values() if all(row[0] in kinds for row in rows) and
                     (table != "LOCK_MODES" or kinds is enums["LockMode"]))
        if table.startswith("actions."):
            pieces = ("COLUMN_OPTION", "OTHER_OPTION", "IDENTITY_OPTION", "CONSTRAINT_OPTION", "SEQUENCE_OPTION", "POLICY_PART", "ATTRIBUTE")
            kinds = enums["PieceKind" if table[8:] in pieces else "ActionKind"]
        for at, row in enumerate(rows):
            changes = mode_changes(row, kinds) if table == "LOCK_MODES" else row_changes(row, kinds)
            for name, other in changes:
                changed = [*rows[:at], *([other] if other else []), *rows[at + 1:]]
                yield (table, None), f"{table.replace('actions.', 'actions ')} {at + 1} ({row[0]}): {name}", changed


# What a line too many would say, and of which keys.
MORE = {"lock_by": ("StmtKind", "AccessExclusive"), "lock_by_action": ("ActionKind", "ShareUpdateExclusive"),
        "is_light_kind": ("PieceKind", "true"), "takes_options": ("Alter", "true"), "has_several": ("Alter", "true"),
        "is_quick_kind": ("StmtKind", "true"), "takes_long": ("StmtKind", "true")}
# The strength of each lock has tests of its own.
TESTED = ("strength",)


def spec_changes(spec):
    """The same for the definitions, with the key that is changed beside its table."""
    for table, lines in spec.items():
        if table in TESTED:
            continue
        # What is not read of a table, a domain and a write would hide an exchange for one of them.
        values = [value for value in dict.fromkeys(map(str, lines.values())) if value not in ("Table", "Domain", "Write")]
        for key, value in lines.items():
            place = (table, key)
            yield place, f"{table} {key}: line out", {other: found for other, found in lines.items() if other != key}
            if isinstance(value, list):
                for at, word in enumerate(value):
                    yield place, f"{table} {key}: without {word}", {**lines, key: [*value[:at], *value[at + 1:]]}
            elif len(values) > 1:
                other = values[(values.index(value) + 1 if value in values else 0) % len(values)]
                yield place, f"{table} {key}: {value} is {other}", {**lines, key: other}
        if lines and table in MORE:
            kinds, value = MORE[table]
            if kinds == "Alter":
                keys = [kind for kind, shape in spec["body_shape_of"].items() if shape == "Alter"]
            else:
                keys = variants(f"{TREE}/src/kinds.rt", kinds)
            slow = {*spec["alters"], *spec["creates"], *spec["drops"]} if table == "takes_long" else {}
            for key in keys:
                if key not in lines and key not in slow:
                    yield (table, key), f"{table} {key}: {value}", {**lines, key: value}


# ---- made texts: a change that none of them tells is one that no text is likely to tell

SAMPLES = {"Concurrently": "CONCURRENTLY", "IndexName": "i", "Mods": "TEMP", "Name": "n", "AnyName": "m", "Path": "p.q",
           "Str": "'s'", "List": "(l)", "MaybeList": "(l)", "Star": "*", "Into": "a INTO", "Chain": "AND CHAIN",
           "Privileges": "REVOKE", "Rest": "r", "Tail": "r"}


def samples(base, parts):
    """Two texts that the parts read: one with all that is optional, one without."""
    full, bare = [], []
    for part in parts:
        what = part[0]
        if what in ("Word", "Object"):
            full.append(part[1])
            bare.append(part[1])
        elif what in ("Flag", "MaybeObject", "Either"):
            full.append(part[1])
        elif what == "Maybe":
            full += base.spec["words_of"][part[1]]
        elif what == "AnyOf":
            full.append("SET")
            bare.append("RESTART" if part[1] == "SequenceOption" else "STABLE")
        elif what != "Tell":
            full += SAMPLES[what].split()
            if what not in ("Concurrently", "IndexName", "Mods", "MaybeList", "Star", "Chain", "Rest"):
                bare += SAMPLES[what].split()
    return full, bare


def edits(words, others):
    """The words, and the words with one of them taken out, doubled or exchanged, and with the end cut off or gone on."""
    yield words
    for at in range(len(words)):
        yield words[:at]
        yield [*words[:at], *words[at + 1:]]
        yield [*words[:at], words[at], *words[at:]]
        yield [*words[:at], "x", *words[at:]]
        for other in ("x", "x.y", *others):
            yield [*words[:at], other, *words[at + 1:]]
    yield [*words, "x"]
    yield [*words, ".", "x"]
    for other in others:
        yield [*words, other]


def vocabulary(rows):
    return sorted({word for row in rows for parts in row[1:] for part in parts for word in part[1:] if word.isupper()})


TAILS = ("OWNER TO x", "int", "SET x = 1", "REVOKE x", "(c) AS SELECT d", "x, y", "x CASCADE")


def made_texts(base):
    texts = {}
    told = {}
    fronts = [(word, table) for word, table in base.spec["rows_of"].items()]
    fronts += [(word, name) for word, table in (("CREATE", "create_rows"), ("ALTER", "alter_rows"), ("DROP", "drop_rows"))
               for name in base.spec[table].values()]
    for word, table in fronts:
        rows = base.code.get(table, [])
        others = vocabulary(rows)
        for row in rows:
            for sample in samples(base, [*row[1], *row[2]]):
                for tail in ("r", *TAILS):
                    told[" ".join([word, *sample[:-1], tail] if sample and sample[-1] == "r" else [word, *sample])] = "locks"
                for words in edits(sample, others):
                    texts[" ".join([word, *words])] = "statements"
                    if words and words[-1] == "r":
                        for tail in TAILS:
                            texts[" ".join([word, *words[:-1], tail])] = "statements"
    for kind, lead in ALTERED.items():
        table = base.spec["own_rows"].get(kind)
        tables = {"actions." + table} if table else set()
        if kind in ("AlterTable", "AlterIndex"):
            tables |= {name for name in base.code if name.startswith("actions.")}
        for name in tables:
            others = vocabulary(base.code[name])
            for row in base.code[name]:
                for sample in samples(base, row[1]):
                    for front in ("ALTER TABLE t", *PIECED.get(name, ())):
                        told[" ".join([front, *sample])] = "locks"
                    for words in edits(sample, others):
                        for front in {lead, *(("ALTER VIEW v ALTER a",) if kind == "AlterView" else PIECED.get(name, ()))}:
                            texts[" ".join([front, *words])] = "statements"
    for word in base.spec["one_word_kind"]:
        texts[word] = texts[word + " r"] = texts[word + " r CASCADE"] = "statements"
    for table, front in (("is_sequence_word", "ALTER SEQUENCE s"), ("is_function_word", "ALTER FUNCTION f"),
                         ("is_sequence_word", "ALTER TABLE t ALTER a SET"), ("is_sequence_word", "ALTER SEQUENCE s RESTART"),
                         ("target_word", "REINDEX"), ("is_verb_word", "WITH w AS (x)")):
        for word in base.spec[table]:
            texts[f"{front} {word} x"] = "statements"
            texts[f"{front} {word} INTO x"] = "statements"
    for word in base.spec["is_target_list_end"]:
        texts[f"CREATE VIEW v AS SELECT a {word} b, c"] = "statements"
    for mode, mode_words in base.code["LOCK_MODES"]:
        for words in edits(mode_words, ["ACCESS", "SHARE", "ROW", "EXCLUSIVE", "UPDATE"]):
            texts[" ".join(["LOCK t IN", *words, "MODE"])] = "statements"
    for word in [*base.spec["one_word_kind"], "(SELECT 1)", ""]:
        told[word + ";"] = told[word + " r;"] = "locks"
    told["ALTER TABLE t ADD FOREIGN KEY (a) REFERENCES b"] = told["VACUUM FULL"] = "locks"
    for target in base.spec["target_word"]:
        told[f"REINDEX {target} r"] = "locks"
    for mode, words in base.code["LOCK_MODES"]:
        told[f"LOCK t IN {' '.join(words)} MODE"] = "locks"
        told[f"ALTER TABLE t x, ENABLE TRIGGER y, SET (z)"] = "locks"
    return [*texts.items(), *told.items()]


ALTERED = {
    "AlterTable": "ALTER TABLE t", "AlterIndex": "ALTER INDEX i", "AlterType": "ALTER TYPE t", "AlterDomain": "ALTER DOMAIN d",
    "AlterView": "ALTER VIEW v", "AlterSequence": "ALTER SEQUENCE s", "AlterFunction": "ALTER FUNCTION f",
    "AlterProcedure": "ALTER PROCEDURE f", "AlterRoutine": "ALTER ROUTINE f", "AlterRole": "ALTER ROLE r",
    "AlterUser": "ALTER USER r", "AlterDatabase": "ALTER DATABASE d", "AlterSystem": "ALTER SYSTEM",
    "AlterExtension": "ALTER EXTENSION e", "AlterPolicy": "ALTER POLICY p ON t", "AlterPublication": "ALTER PUBLICATION p",
    "AlterGroup": "ALTER GROUP g", "AlterDefaultPrivileges": "ALTER DEFAULT PRIVILEGES",
    "AlterForeignTable": "ALTER FOREIGN TABLE t", "AlterMaterializedView": "ALTER MATERIALIZED VIEW v",
}
PIECED = {
    "actions.COLUMN_OPTION": ("ALTER TABLE t ALTER a",), "actions.OTHER_OPTION": ("ALTER TABLE t ALTER a",),
    "actions.IDENTITY_OPTION": ("ALTER TABLE t ALTER a", "ALTER TABLE t ALTER a RESTART"),
    "actions.CONSTRAINT_OPTION": ("ALTER TABLE t ALTER CONSTRAINT c",),
    "actions.SEQUENCE_OPTION": ("ALTER SEQUENCE s", "ALTER SEQUENCE s CACHE 1"),
    "actions.POLICY_PART": ("ALTER POLICY p ON t", "ALTER POLICY p ON t TO a"), "actions.ATTRIBUTE": ("ALTER TYPE t", "ALTER TYPE t ADD ATTRIBUTE a int,"),
}


def telling(text, view, tables, wanted):
    global SOURCE
    SOURCE = text
    try:
        return tables.view(view, text) != wanted
    except (AttributeError, KeyError, TypeError, ValueError):
        return True


def by_place(base, texts):
    """What is asked for each text, by the table, or the key of it, that is asked."""
    global SOURCE
    found = {}
    for text, view in texts:
        SOURCE = text
        base.used = set()
        wanted = base.view(view, text)
        for place in base.used:
            found.setdefault(place, []).append((text, view, wanted))
    return found


def unpinned(cases):
    """The cases that do not hold, how many changes there are, and those that no case notices, each with a text that does."""
    base = Tables(code_tables(), spec_tables())
    wrong = []
    users = {}
    for case in cases:
        base.used = set()
        if not case.holds(base):
            wrong.append(case)
            continue
        for place in base.used:
            users.setdefault(place, []).append(case)
    made = by_place(base, made_texts(base))
    total = 0
    found = []
    for changes, which in ((code_changes(base.code), "code"), (spec_changes(base.spec), "spec")):
        for place, name, changed in changes:
            total += 1
            tables = Tables(base.code, base.spec)
            setattr(tables, which, {**getattr(base, which), place[0]: changed})
            if not notices(users.get(place, []), tables):
                text = next((text for text, view, wanted in made.get(place, []) if telling(text, view, tables, wanted)), None)
                found.append((name, text))
    return wrong, total, found


def notices(cases, tables):
    for case in cases:
        try:
            if not case.holds(tables):
                return True
        except (AttributeError, KeyError, TypeError, ValueError):
            return True
    return False


# Why no text tells a change, by its name.
ALIKE = (
    (r"nothing is kept of Maybe\(", "the fact is not kept of statements of this kind"),
    (r"Rest in place of Tail|Tail in place of Rest", "an empty tail is refused by what reads it, or never comes there"),
    (r"CONSTRAINT_OPTION|IDENTITY_OPTION", "the list is cut into pieces of this form before the rows are asked"),
    (r"family_of RECURSIVE", "two tables have the row"),
    (r"takes_options|has_several|is_light_kind|lock_by_action|is_quick_kind|takes_long|creates", "no statement brings it there"),
    (r"may be missing|any name is taken|without Word", "the word has chosen the table already, or an earlier row takes what is read then"),
)


def grouped(names):
    """How many changes there are for each reason, and the changes without one."""
    counts = {why: 0 for _, why in ALIKE}
    others = []
    for name in names:
        why = next((why for pattern, why in ALIKE if re.search(pattern, name)), None)
        if why:
            counts[why] += 1
        else:
            others.append(name)
    return [(why, count) for why, count in counts.items() if count], others


def report(cases, total, found):
    """The text of docs/PINNED.md."""
    loose = [(name, text) for name, text in found if text]
    alike, others = grouped([name for name, text in found if not text])
    lines = ["# What the cases pin", "",
             "The tables of statements, of ALTER actions and of locks are data that code and definitions share, so a wrong row is proved as a",
             "right one is: only a case can tell. `tools/pinned.py` changes the tables one thing at a time and sees which changes no case",
             "notices. This page is what `tools/pinned.py --write` found.", "",
             f"- Date: {datetime.date.today()}", f"- Cases: {len(cases)}", f"- Changes: {total}", f"- Unpinned: {len(loose)}", ""]
    if loose:
        lines += ["## Unpinned", "", "Each with a text that would tell it.", ""]
        lines += [f"- {name}: `{text}`" for name, text in loose] + [""]
    lines += ["## Changes that no text tells", "", "No text that the tool makes of the rows is read otherwise after these changes:", ""]
    lines += [f"- {count}: {why}." for why, count in alike]
    lines += [f"- {name}: no reason is known." for name in others]
    lines += ["", "## What is not looked at", "",
              "- Columns, constraints, expressions and write clauses: their words are in definitions of their own, and the rows of",
              "  `elements`, `checks` and `statements` show them.",
              "- The words before TABLE, the marks of pieces, and other single words of the definitions: a reader checks them there.",
              "- The strength, the printed form and the impact of each lock: tests of their own."]
    return "\n".join(lines) + "\n"


def without_date(text):
    return re.sub(r"(?m)^- Date: .*$", "", text)


def main(words):
    global SOURCE
    if words[:1] == ["--show"]:
        tables = Tables(code_tables(), spec_tables())
        SOURCE = words[1]
        for view in VIEWS:
            print(f"{view}: {tables.view(view, words[1])}".replace(ANY, ".."))
        return 0
    write = words[:1] == ["--write"]
    check = words[:1] == ["--check"]
    files = words[1:] if write or check else words
    files = files or sorted(glob.glob(f"{TOP}/cases/**/*.txt", recursive=True))
    cases = [case for path in files for case in cases_in(path)]
    wrong, total, found = unpinned(cases)
    for case in wrong:
        SOURCE = case.text
        read = Tables(code_tables(), spec_tables()).view(case.view, case.text).replace(ANY, "..")
        print(f"{case.place}: {case.text!r} is not read so: {case.told!r}, but {read!r}")
    loose = [(name, text) for name, text in found if text]
    alike, others = grouped([name for name, text in found if not text])
    print(f"{len(cases)} cases, {total} changes, {len(loose)} unpinned, {len(found) - len(loose)} that no text tells")
    for name, text in loose:
        print(f"  {name}: {text}")
    for name in others:
        print(f"  no text tells, and no reason is known: {name}")
    if write and not wrong:
        with open(f"{TOP}/docs/PINNED.md", "w") as out:
            out.write(report(cases, total, found))
    is_old = check and without_date(open(f"{TOP}/docs/PINNED.md").read()) != without_date(report(cases, total, found))
    if is_old:
        print("docs/PINNED.md is not up to date: tools/pinned.py --write writes it")
    return 1 if wrong or loose or others or is_old else 0


if __name__ == "__main__":
    sys.exit(main(sys.argv[1:]))
