#!/usr/bin/env python3
"""Compares the expected output of `lavkheto check` with what Python makes of the reports that a built `squawk_main` prints.

    tools/compare_checks.py PRINTER            the outputs of `cases/check.txt`
    tools/compare_checks.py PRINTER CHECKER    and what a built `lavkheto` writes: over the files of these cases, and over each text of
                                               `cases/` as standard input, in each format
    tools/compare_checks.py PRINTER --show     the cases with the outputs that are made here

PRINTER prints the reports of one text, by bytes. All else is made here anew: lines and columns, the lines with their marks, what
fixes make, their classes, escapes, JSON, the places, URIs and fingerprints of SARIF and GitLab, what is counted, and the status. Columns
of a terminal are those of Unicode's East Asian Width and general categories, as Python has them. PRINTER knows no hazards, so the cases
that have some or say a hazard's name are left out, and CHECKER runs with --no-hazards. The exit status is 1 if anything differs.
"""
import argparse
import collections
import hashlib
import json
import os
import re
import subprocess
import sys
import tempfile
import unicodedata
import urllib.parse
from pathlib import Path

import apply_fixes
import fix_classes
import fuzz
import join_cases

CASES = "cases/check.txt"
FORMATS = ("text", "concise", "gcc", "github", "json", "sarif", "gitlab")
OWN = ("--format", "--color", "--stdin-filename", "--fail-on")
FLAGS = ("--quiet", "--statistics", "--assume-in-transaction", "--no-hazards", "--strict")
CODES = {"bold": "1", "warning": "1;35", "error": "1;31", "frame": "1;34", "removed": "31", "added": "32"}

Finding = collections.namedtuple("Finding", "level rule message start end note help title edits has_place fix_class")
# (what could not be parsed comes before the reports, in the text as it was read)
Checked = collections.namedtuple("Checked", "name text findings status before", defaults=[None])
Case = collections.namedtuple("Case", "title lines words text out status err")

REFUSALS = {
    "missing-file": (5, "there is no such file"),
    "unreadable-file": (5, "the file can't be read"),
    "not-utf8": (3, "the file is not UTF-8"),
    "unterminated": (4, "what begins here does not end"),
    "syntax-error": (4, "the statement that begins here can't be read"),
}

HINTS = {
    "rows": "the lines after COPY .. FROM STDIN are data, not SQL: leave them out, as pg_dump --schema-only does",
    "psql": "a line that begins with a backslash is a command of psql, not SQL: leave it out",
    "atomic": "a body in BEGIN ATOMIC .. END can't be read: write it as a string, as in AS $$ .. $$",
    "escaped": "a name with U& before its quotes can't be read: write its characters themselves",
    "syntax-error": "write the statement as PostgreSQL takes it",
    "unterminated": "end the quoted piece or the comment in this file",
    "not-utf8": "write the file as UTF-8",
}


# Places and characters.

def place(text, at):
    """The line and the column of a byte, both from 1."""
    before = text[:at]
    return before.count(b"\n") + 1, len(before[before.rfind(b"\n") + 1:].decode("utf-8")) + 1


def turns(code):
    return 0x202A <= code <= 0x202E or 0x2066 <= code <= 0x2069


def shown_character(character):
    code = ord(character)
    if character == "\t":
        return "    "
    if character == "\r":
        return ""
    if code < 32 or code == 127:
        return chr(0x2400 + code) if code < 32 else "\u2421"
    return f"\\u{{{code:x}}}" if 128 <= code <= 159 or turns(code) else character


def shown(text):
    return "".join(map(shown_character, text))


ESCAPED = r"[\x00-\x1f\x7f-\x9f\u202a-\u202e\u2066-\u2069]|\\(?=u\{)"


def on_line(text, escaped=ESCAPED):
    """A name or a message as it is written on a line: control characters, and backslashes that look like an escape, as escapes."""
    return re.sub(escaped, lambda found: f"\\u{{{ord(found[0]):x}}}", text)


def name_before_number(name):
    """A name before the number of a line: each colon before a digit is an escape too."""
    return on_line(name, ESCAPED + "|:(?=[0-9])")


def columns(character):
    code = ord(character)
    if character in "\t\r" or 128 <= code <= 159 or turns(code):
        return len(shown_character(character))
    if code < 32 or code == 127:
        return 1
    if unicodedata.category(character) in ("Mn", "Me", "Cf"):
        return 0
    return 2 if unicodedata.east_asian_width(character) in "WF" else 1


def width(data):
    return sum(map(columns, data.decode("utf-8")))


def line_start(text, at):
    return text.rfind(b"\n", 0, at) + 1


def line_end(text, at):
    found = text.find(b"\n", at)
    return len(text) if found < 0 else found


# What a file has.

def hint(text, at, kind):
    """What may help with a text that can't be read at a place, for this kind of fault: its usual cause, or what was expected."""
    start = line_start(text, at)
    before = text[line_start(text, start - 1):start - 1].lower() if start else b""
    statement = text[at:].split(b";")[0].lower()
    if b"from stdin" in before:
        return HINTS["rows"]
    if text[at:at + 1] == b"\\":
        return HINTS["psql"]
    if b"begin atomic" in statement:
        return HINTS["atomic"]
    return HINTS["escaped"] if b'u&"' in statement else HINTS[kind]


def refused(name, data, kind, at=0, readable=b""):
    status, message = REFUSALS[kind]
    has_place = kind in ("not-utf8", "unterminated", "syntax-error")
    found = hint(readable, at, kind) if kind in ("unterminated", "syntax-error") else HINTS.get(kind)
    return Checked(name, readable, [Finding("error", kind, message, at, at, None, found, None, (), has_place, None)], status)


NESTED = r"/\*(?:[^*/]|\*(?!/)|/(?!\*)|{})*\*/"
TOKEN = re.compile((r"(?P<none>\s+|\A\xef\xbb\xbf|--[^\n]*|" + NESTED.format(NESTED.format(NESTED.format("(?!)")))
                    + r''')|[eE]'(?:[^'\\]|\\.|'')*'|'(?:[^']|'')*'|"(?:[^"]|"")*"|\$(?P<tag>(?:[^\W\d]\w*)?)\$.*?\$(?P=tag)\$'''
                    + r"|[A-Za-z_\x80-\xff][\w$\x80-\xff]*|.").encode("latin-1"), re.S)


def statements(data):
    """Where the statements of a text begin and end, without their semicolons; with a body in BEGIN ATOMIC .. END to its END."""
    found, inside, depth, body = [], [], 0, False
    for token in [one for one in TOKEN.finditer(data) if one["none"] is None] + [None]:
        words = [one[0].lower() for one in inside]
        if token is None or (token[0] == b";" and not depth):
            if inside:
                begin = found.pop()[0] if body else inside[0].start()
                found.append((begin, token.start() if token else inside[-1].end()))
            begun = [after for *words_before, after in zip(words, words[1:], words[2:] + [b""]) if words_before == [b"begin", b"atomic"]]
            body = words[:1] != [b"end"] if body else any(after != b"end" for after in begun)
            inside, depth = [], 0
            continue
        inside.append(token)
        depth += (token[0] in (b"(", b"[")) - (token[0] in (b")", b"]"))
    return found


def partly(printer, words, name, data):
    """A file of which some statements can't be parsed, and the others are linted without them; nothing where that can't be parsed either."""
    text, faults = data, []
    for start, end in statements(data):
        fault = re.fullmatch(r"error: (unterminated|syntax) at (\d+)\n", fuzz.run(printer, words, data[start:end]).err.decode())
        if fault:
            faults += refused(name, data, {"syntax": "syntax-error"}.get(fault[1], fault[1]), start + int(fault[2]), data).findings
            text = text[:start] + re.sub(rb"[^\t-\r ]", b" ", text[start:end]) + text[end:]
    rest = checked(printer, words, name, text) if text != data else None
    return rest and rest.before is None and rest.status < 2 and rest._replace(status=4, before=Checked(name, data, faults, 4))


def as_finding(known, one):
    """A printed report, without its fix where that is not offered."""
    fix_class = known.class_of(one.rule, one.start, one.end) if one.title is not None else None
    title, edits = (one.title, one.edits) if fix_class else (None, ())
    return Finding("warning", one.rule, one.message, one.start, one.end, one.note, one.help, title, edits, True, fix_class)


def major_of(words):
    """The major version of PostgreSQL that these words of the linter name."""
    given = [found[1] for found in re.finditer(r"--pg-major[= ](\d+)", " ".join(words))]
    return int(given[-1]) if given else 15


def checked(printer, words, name, data):
    """A file of these bytes, and what comes of it."""
    done = fuzz.run(printer, words, data)
    if done.status in (0, 1):
        known = fix_classes.Known(data, "--assume-in-transaction" in words, major_of(words))
        reports = [as_finding(known, one) for one in fuzz.parsed(done.out)]
        return Checked(name, data, reports, done.status)
    if done.status == 3:
        try:
            data.decode("utf-8")
        except UnicodeDecodeError as error:
            return refused(name, data, "not-utf8", error.start, data[:error.start])
    kind, at = re.fullmatch(r"error: (unterminated|syntax) at (\d+)\n", done.err.decode()).groups()
    return kind == "syntax" and partly(printer, words, name, data) or refused(name, data, {"syntax": "syntax-error"}.get(kind, kind), int(at), data)


# The format for people.

class Painter:
    def __init__(self, text, color):
        self.text, self.color = text, color
        self.gutter = len(str(place_of_line(text, max(len(text) - 1, 0))))

    def paint(self, style, piece):
        return f"\x1b[{CODES[style]}m{piece}\x1b[0m" if self.color else piece

    def bar(self):
        return " " * self.gutter + " " + self.paint("frame", "|")

    def number(self, number):
        return " " * (self.gutter - len(str(number))) + self.paint("frame", str(number))

    def row(self, number, rest):
        return self.number(number) + " " + self.paint("frame", "|") + rest + "\n"

    def note(self, label, text):
        return " " * self.gutter + " " + self.paint("frame", "=") + " " + self.paint("bold", label) + ": " + on_line(text) + "\n"


def place_of_line(text, at):
    return text[:at].count(b"\n") + 1


def excerpt(painter, style, start, end):
    """The lines of a range, with marks."""
    text = painter.text
    first = place_of_line(text, start)
    lines = text[line_start(text, start):line_end(text, end)].split(b"\n")
    before, last = text[line_start(text, start):start], text[line_start(text, end):end]
    marks = lambda piece: painter.paint(style, piece)
    told = [shown(line.decode("utf-8")) for line in lines]
    if len(lines) == 1:
        carets = "^" * max(width(text[start:end]), 1)
        return painter.row(first, " " + told[0]) + painter.bar() + " " * (width(before) + 1) + marks(carets) + "\n"
    if before.strip(b" \t") == b"":
        out = painter.row(first, " " + marks("/") + " " + told[0])
    else:
        out = painter.row(first, "   " + told[0]) + painter.bar() + "  " + marks("_" * (width(before) + 1) + "^") + "\n"
    inner = [painter.row(first + number, " " + marks("|") + " " + line) for number, line in enumerate(told) if number]
    if len(inner) > 5:
        inner = inner[:3] + [painter.paint("frame", "...") + " " * painter.gutter + marks("|") + "\n"] + inner[-2:]
    return out + "".join(inner) + painter.bar() + " " + marks("|" + "_" * width(last) + "^") + "\n"


def changes(painter, edits):
    """The lines that a fix changes, before and after it."""
    text, at = painter.text, 0
    for edit in edits:
        if not at <= edit.start <= edit.end <= len(text):
            return ""
        at = edit.end
    if not edits:
        return ""
    first, last = line_start(text, edits[0].start), line_end(text, at)
    new, at = b"", first
    for edit in edits:
        new, at = new + text[at:edit.start] + edit.text, edit.end
    new += text[at:last]
    number = place_of_line(text, edits[0].start)
    out = painter.bar() + "\n"
    for sign, style, block in (("-", "removed", text[first:last]), ("+", "added", new)):
        for more, line in enumerate(block.split(b"\n")):
            out += painter.number(number + more) + " " + painter.paint(style, sign) + " " + shown(line.decode("utf-8")) + "\n"
    return out


def hides_help(file, found):
    """PostgreSQL refuses NOT VALID for constraints that are neither foreign keys nor checks."""
    if found.rule != "constraint-missing-not-valid":
        return False
    words = file.text[found.start:found.end].decode("utf-8").lower().split()
    kind = (words[3:] if words[1:2] and words[1].startswith("constraint") else words[1:])[:1]
    return bool(kind) and kind[0].startswith(("unique", "primary", "exclude"))


def as_text(file, found, color):
    painter = Painter(file.text, color)
    out = painter.paint(found.level, f"{found.level}[{found.rule}]") + painter.paint("bold", ": " + on_line(found.message)) + "\n"
    arrow = " " * painter.gutter + painter.paint("frame", "-->") + " " + on_line(file.name)
    if found.has_place:
        line, column = place(file.text, found.start)
        out += f"{arrow}:{line}:{column}\n" + painter.bar() + "\n" + excerpt(painter, found.level, found.start, found.end)
    else:
        out += arrow + "\n"
    help = None if hides_help(file, found) else found.help
    if found.note is not None or help is not None or found.title is not None:
        out += painter.bar() + "\n"
        out += painter.note("note", found.note) if found.note is not None else ""
        out += painter.note("help", help) if help is not None else ""
    if found.title is not None:
        mark = "" if found.fix_class == "safe" else f" ({found.fix_class})"
        out += painter.paint("added", "fix") + ": " + on_line(found.title) + mark + "\n" + changes(painter, found.edits)
    return out + "\n"


def number_of(count, word):
    return f"{count} {word}" + ("" if count == 1 else "s")


def last_line(files):
    issues = sum(len(file.findings) for file in files if file.before or file.status in (0, 1))
    errors = sum(len(file.before.findings) if file.before else file.status > 1 for file in files)
    marked = sum(bool(file.before or file.findings) for file in files)
    parts = [number_of(issues, "issue")] * (issues > 0 or errors == 0) + [number_of(errors, "error")] * (errors > 0)
    return f"Found {' and '.join(parts)} in {f'{marked} of ' if marked else ''}{number_of(len(files), 'file')}\n"


# The formats on lines.

def as_concise(file, found):
    line, column = place(file.text, found.start)
    return f"{name_before_number(file.name)}:{line}:{column}: {found.level}[{found.rule}]: {on_line(found.message)}\n"


def as_gcc(file, found):
    line, column = place(file.text, found.start)
    return f"{name_before_number(file.name)}:{line}:{column}: {found.level}: {on_line(found.message)} [{found.rule}]\n"


def message_of_command(text):
    return on_line(text.replace("%", "%25").replace("\r", "%0D").replace("\n", "%0A"))


def property_of_command(text):
    return message_of_command(text).replace(":", "%3A").replace(",", "%2C")


def as_github(file, found):
    (line, column), (last, past) = place(file.text, found.start), place(file.text, found.end)
    # (GitHub decodes %3A and %2C too, so the order of these steps is of no account.)
    out = f"::{found.level} file={property_of_command(file.name)},line={line},endLine={last}"
    out += f",col={column},endColumn={past}" if line == last else ""
    out += f",title={property_of_command(found.rule)}::{message_of_command(found.message)}"
    if found.level == "warning":
        out += "".join(f"%0A{label}: {message_of_command(text)}" for label, text in (("note", found.note), ("help", found.help)) if text is not None)
    return out + "\n"


# The formats for programs.

def dumped(value):
    return json.dumps(value, ensure_ascii=False, sort_keys=True, separators=(",", ":"))


def statement_of(file, found):
    """The range of the statement that a report is in."""
    return fix_classes.statement_around(file.text, found.start, found.end) if found.level == "warning" else None


def as_range(start, end):
    return {"start": start, "end": end}


def put_in(edit):
    """What an edit puts in, or nothing where it only deletes. (No rule puts in an empty text.)"""
    return edit.text.decode("utf-8") or None


def as_json(file, found):
    (line, column), (last, past) = place(file.text, found.start), place(file.text, found.end)
    fix, statement = None, statement_of(file, found)
    if found.title is not None:
        edits = [{**as_range(edit.start, edit.end), "text": put_in(edit)} for edit in found.edits]
        fix = {"class": found.fix_class, "title": found.title, "edits": edits}
    return dumped({"file": file.name, "line": line, "column": column, "line_end": last, "column_end": past, "level": found.level,
                   "message": found.message, "note": found.note, "help": found.help, "rule_name": found.rule, "fix": fix,
                   "range": as_range(found.start, found.end), "statement": statement and as_range(*statement)})


def uri(name):
    return urllib.parse.quote(name, safe="/")


def region(text, start, end):
    (line, column), (last, past) = place(text, start), place(text, end)
    return {"startLine": line, "startColumn": column, "endLine": last, "endColumn": past, "byteOffset": start, "byteLength": end - start}


def as_sarif(file, found):
    location = {"physicalLocation": {"artifactLocation": {"uri": uri(file.name)}, "region": region(file.text, found.start, found.end)}}
    fixes, statement = [], statement_of(file, found)
    if found.title is not None:
        edits = [{"deletedRegion": region(file.text, edit.start, edit.end), **({"insertedContent": {"text": put_in(edit)}} if put_in(edit) else {})}
                 for edit in found.edits]
        change = {"artifactLocation": {"uri": uri(file.name)}, "replacements": edits}
        fixes = [{"description": {"text": found.title}, "artifactChanges": [change], "properties": {"class": found.fix_class}}]
    return dumped({"ruleId": found.rule, "level": found.level, "message": {"text": found.message}, "locations": [location], "fixes": fixes,
                   "properties": {"note": found.note, "help": found.help, "statement": statement and region(file.text, *statement)}})


def as_gitlab(file, found):
    start, end = statement_of(file, found) or (0, 0)
    statement = file.text[start:end]
    print_of = hashlib.sha256(b"\0".join((file.name.encode("utf-8"), found.rule.encode(), statement))).hexdigest()
    severity = {"warning": "minor", "error": "major"}[found.level]
    return dumped({"description": found.message, "check_name": found.rule, "fingerprint": print_of, "severity": severity,
                   "location": {"path": file.name, "lines": {"begin": place(file.text, found.start)[0]}}})


def variants(file, name):
    """The names of what an enum declares, in order."""
    declared = (join_cases.TOP / file).read_text(encoding="utf-8")
    body = re.search(rf"pub enum {name} {{\n(.*?)\n}}", declared, re.S)[1]
    return [re.sub(r"(?<!^)([A-Z])", r"-\1", one).lower() for one in re.findall(r"^    (\w+),$", body, re.M)]


def all_rules():
    return variants("crates/lint_base/src/rule.rt", "Rule")


def all_hazards():
    return variants("crates/hazard_base/src/hazard.rt", "Hazard")


ARRAYS = {"json": as_json, "sarif": as_sarif, "gitlab": as_gitlab}
LINES = {"concise": as_concise, "gcc": as_gcc, "github": as_github}


def written(files, style):
    """What is written of files."""
    findings = [(part, found) for file in files for part in (file.before, file) if part for found in part.findings]
    if style["format"] in ARRAYS:
        inside = ",".join("\n" + ARRAYS[style["format"]](*one) for one in findings) + "\n"
        if style["format"] != "sarif":
            return f"[{inside}]\n"
        head = '{"$schema":"https://json.schemastore.org/sarif-2.1.0.json","runs":[{"columnKind":"unicodeCodePoints","results":['
        tool = dumped({"driver": {"name": "lavkheto", "rules": [{"id": one} for one in all_rules() + all_hazards()]}})
        return f'{head}{inside}],"tool":{tool}}}],"version":"2.1.0"}}\n'
    if style["format"] == "text":
        out = "".join(as_text(*one, style["color"]) for one in findings)
    else:
        out = "".join(LINES[style["format"]](*one) for one in findings)
    if style["statistics"]:
        counts = collections.Counter(found.rule for _, found in findings if found.level == "warning")
        out += "".join(f"{rule}: {counts[rule]}\n" for rule in all_rules() if counts[rule])
    return out + (last_line(files) if style["format"] == "text" and not style["quiet"] else "")


# Runs.

def taken(words):
    """The style, the name of standard input, what is to fail, the words for the linter and the files of these words."""
    style = {"format": "text", "color": False, "quiet": False, "statistics": False}
    stdin, fails, linter, files, words = "stdin", True, [], [], list(words)
    while words:
        word = words.pop(0)
        name, gap, value = word.partition("=")
        if word == "--":
            files, words = files + words, []
        elif word in ("--quiet", "--statistics"):
            style[word[2:]] = True
        elif word in ("--no-hazards", "--strict"):
            pass
        elif not word.startswith("--"):
            files.append(word)
        else:
            value = value if gap or word in FLAGS else words.pop(0)
            if name == "--format":
                style["format"] = value
            elif name == "--color":
                style["color"] = value == "always"
            elif name == "--stdin-filename":
                stdin = value
            elif name == "--fail-on":
                fails = value == "warning"
            else:
                linter += [word] if gap or word in FLAGS else [word, value]
    return style, stdin, fails, linter, files


def files_in(text):
    """Standard input and the files of a case's text: bytes, None for a folder, False for a file that can't be read."""
    stdin, files, last = b"", {}, None
    for line in re.findall(rb"[^\n]*\n|[^\n]+", text):
        head = re.match(rb">([/!]?) ([^\n]*)\n?", line)
        if head:
            last = head[2].decode("utf-8")
            files[last] = {b"": b"", b"/": None, b"!": False}[head[1]]
        elif last is None:
            stdin += line
        elif isinstance(files[last], bytes):
            files[last] += line
    return stdin, files


def wanted(printer, words, text):
    """What a case is to write, and its status."""
    style, stdin_name, fails, linter, named = taken(words)
    stdin, held = files_in(text)
    if named in ([], ["-"]):
        done = [checked(printer, linter, stdin_name, stdin)]
    else:
        names = []
        for name in named:
            inner = sorted((one for one in held if one.startswith(name + "/") and one.endswith(".sql")), key=str.encode)
            names += inner if held.get(name, b"") is None else [name]
        names = list(dict.fromkeys(names))
        kind = lambda name: "missing-file" if name not in held else "unreadable-file"
        done = [checked(printer, linter, name, held[name]) if isinstance(held.get(name), bytes) else refused(name, b"", kind(name)) for name in names]
    status = max([file.status for file in done], default=0)
    return written(done, style).encode("utf-8"), 0 if status == 1 and not fails else status


def ran(checker, words, text):
    """What a program writes over the files of a case, and its status."""
    stdin, held = files_in(text)
    with tempfile.TemporaryDirectory() as room:
        for name, data in held.items():
            at = Path(room) / name
            if data is None:
                at.mkdir(parents=True, exist_ok=True)
            elif data is not False:
                at.parent.mkdir(parents=True, exist_ok=True)
                at.write_bytes(data)
        done = subprocess.run([os.path.abspath(checker), *words], input=stdin, capture_output=True, cwd=room)
    return done.stdout, done.returncode


def cases():
    """The cases of runs over files. Those about hazards, baselines, configurations and files for psql are not about formats."""
    found, block = [], []
    for line in (join_cases.TOP / CASES).read_text(encoding="utf-8").split("\n"):
        if block or line.startswith("# "):
            block.append(line)
        if block and line.startswith("status "):
            count = next(i for i, one in enumerate(block[1:], 1) if not one.startswith(("$ ", "$= ")))
            end = block.index("---")
            words, _ = apply_fixes.words_of(block[1:count])
            out = apply_fixes.plain_text(block[end + 1:-1] + [""]) if block[end + 1:-1] else b""
            number, _, err = line[7:].partition(" ")
            found.append(Case(block[0], block[:end + 1], words, apply_fixes.plain_text(block[count:end]), out, int(number), err))
            block = []
    return found


def case_line(line):
    """A line of an output as a case has it."""
    plain = line.decode("utf-8")
    if plain.isprintable() and not plain.startswith(("\\ ", "# ", "status ", "---", "===")):
        return plain
    told = "".join("\\\\" if one == "\\" else one if one.isprintable() else "".join(f"\\x{byte:02x}" for byte in one.encode("utf-8")) for one in plain)
    return "\\ " + told


def show(case, out, status):
    lines = out.split(b"\n")
    assert lines.pop() == b""
    print("\n".join([*case.lines, *map(case_line, lines), f"status {status}", ""]))


def is_about_more(case):
    """Whether a case has what PRINTER does not know."""
    lines = "\n".join(case.lines)
    names = any(re.search(rf"(?<![\w-]){name}(?![\w-])", lines) or f"[{name}]" in case.out.decode("utf-8", "replace") for name in all_hazards())
    options = {word.partition("=")[0] for word in case.words if word.startswith("--") and word != "--"}
    foreign = options - {*OWN, *FLAGS, "--only", "--exclude", "--include", "--non-volatile", "--pg-major", "--pg-minor", "--pg-patch"}
    psql = re.search(rb"(?mi)^(?:\xef\xbb\xbf)?(?:\\|copy )| \\g", case.text)
    return names or bool(foreign) or bool(psql) or ".squawk.toml" in lines or bool({"-h", "-V"} & {*case.words})


def compared(what, want, found):
    if want == found:
        return 0
    print(f"FAILED: {what}\n  wanted {want}\n  found  {found}")
    return 1


def main():
    reader = argparse.ArgumentParser(description="Compares what is written of files with what Python makes of printed reports.")
    reader.add_argument("printer")
    reader.add_argument("checker", nargs="?")
    reader.add_argument("--show", action="store_true")
    given = reader.parse_args()
    runs = failures = 0
    for case in cases():
        if case.err or is_about_more(case):
            continue
        want = wanted(given.printer, case.words[1:], case.text)
        if given.show:
            show(case, *want)
            continue
        runs, failures = runs + 1, failures + compared(case.title, want, (case.out, case.status))
        if given.checker and False not in files_in(case.text)[1].values():
            failures += compared(f"{case.title}, by the program", want, ran(given.checker, case.words, case.text))
    for case in apply_fixes.all_cases([]) if given.checker else []:
        if case.words[:1] in (["gate"], ["diag"], ["check"]) or fuzz.run(given.printer, case.words, case.text).status == 2:
            continue
        for form in FORMATS:
            words = ["--format", form, "--stdin-filename", "a b/%,:é.sql", "--no-hazards", "--strict", *case.words]
            want = wanted(given.printer, words, b"" if case.text.startswith(b">") else case.text)
            runs, failures = runs + 1, failures + compared(f"{case.place}, {form}", want, ran(given.checker, ["check", *words], case.text))
    if not given.show:
        print(f"runs: {runs}\nfailures: {failures}")
    return 1 if failures else 0


if __name__ == "__main__":
    sys.exit(main())
