#!/usr/bin/env python3
"""Compares the diagnostics of a built `squawk_diag_main` with the reports that a built `squawk_main` prints.

    tools/compare_diagnostics.py PRINTER WRITER [FILE ..]

PRINTER prints reports, WRITER writes diagnostics. Each text of `cases/` that a run is about is given to both with the words of its
case, and so are the examples of README.md and docs/RULES.md; with FILEs those of these files alone. Statuses and lines on the error
stream must be the same. The positions of each place are counted anew here, and what WRITER wrote must be, byte for byte, what
Python's json writes of the printed reports, and be read back as them. The exit status is 1 if anything differs.
"""
import argparse
import json
import sys

import apply_fixes
import fuzz


def position(text, place):
    """The line of a place of a text, and its column in UTF-16 units."""
    before = text[:place].decode("utf-8")
    line = before[before.rfind("\n") + 1:]
    return {"line": before.count("\n"), "character": len(line.encode("utf-16-le")) // 2}


def positions(text, found):
    return {"start": position(text, found.start), "end": position(text, found.end)}


def fix_of(text, report):
    edits = [{"newText": edit.text.decode("utf-8") or None, "range": positions(text, edit)} for edit in report.edits]
    return {"title": report.title, "edits": edits}


def diagnostic(text, report):
    """The diagnostic of a printed report."""
    told = {"code": report.rule, "message": report.message, "range": positions(text, report), "severity": 2, "source": "squawk"}
    parts = {"note": report.note, "help": report.help, "fix": fix_of(text, report) if report.title is not None else None}
    return told | {key: part for key, part in parts.items() if part is not None}


def difference(printer, writer, case):
    """What differs at a text, or nothing; and how many diagnostics it has."""
    printed = fuzz.run(printer, case.words, case.text)
    written = fuzz.run(writer, case.words, case.text)
    if (printed.status, printed.err) != (written.status, written.err):
        return f"status {printed.status} {printed.err!r}, and {written.status} {written.err!r}", 0
    if printed.status not in (0, 1):
        return (f"written: {written.out!r}" if written.out else None), 0
    wanted = [diagnostic(case.text, report) for report in fuzz.parsed(printed.out)]
    text = json.dumps(wanted, ensure_ascii=False, sort_keys=True, separators=(",", ":")) + "\n"
    if written.out != text.encode("utf-8"):
        return f"wanted {text!r}\n  written {written.out!r}", 0
    return (None if json.loads(written.out) == wanted else "read back as something else"), len(wanted)


def main():
    reader = argparse.ArgumentParser(description="Compares written diagnostics with printed reports, on the cases.")
    reader.add_argument("printer")
    reader.add_argument("writer")
    reader.add_argument("files", nargs="*")
    given = reader.parse_args()
    texts = diagnostics = failures = 0
    for case in apply_fixes.all_cases(given.files):
        found, count = difference(given.printer, given.writer, case)
        texts, diagnostics, failures = texts + 1, diagnostics + count, failures + (found is not None)
        if found is not None:
            print(f"FAILED: {case.place}, words {case.words}\n  text {case.text!r}\n  {found}")
    print(f"texts: {texts}\ndiagnostics: {diagnostics}\nfailures: {failures}")
    return 1 if failures or not texts else 0


if __name__ == "__main__":
    sys.exit(main())
