#!/usr/bin/env python3
"""Makes each fix that the linter offers on the texts of the cases, and lints the fixed text again.

    tools/apply_fixes.py PROGRAM [FILE ..]

PROGRAM is the built linter. Each text of `cases/` that a run is about is given to it with the words of its case, and so are the
examples of README.md and docs/RULES.md; with FILEs, as in `cases/fixes.txt`, those of these files alone. `--locks` is left out of
the words, since it changes no report, and texts that are made by `--generate` have no fixes. Each fix is made by itself, by the
code of `tools/fuzz.py`, which checks too what was printed. What is checked of the fixed text, with the same words:

- it is read again (status 0 or 1), but where a rule of MAY_NOT_READ in `tools/fuzz.py` says why not;
- a rule of SETTLED there no longer reports at that place, and one on timeouts nowhere, unless a byte of a word is right before or
  right after a replaced range, so that the new word is joined to it.

At the end come the fixes whose text is not read again and the fixes of SETTLED that are joined to a word, by case, and counts by
rule. The exit status is 1 if anything failed.
"""
import argparse
import collections
import re
import sys

import fuzz
import join_cases

Case = collections.namedtuple("Case", "place words text")
ESCAPE = re.compile(rb"\\(?:x([0-9a-fA-F]{2})|(.))")
ESCAPED = {b"r": b"\r", b"n": b"\n", b"t": b"\t", b"\\": b"\\"}


def plain_line(line):
    """The bytes of a line of a text, and whether a line feed follows them."""
    if not line.startswith("\\ "):
        return line.encode(), True
    data, feed = line[2:].encode(), True
    if len(data) - len(data.rstrip(b"\\")) & 1:
        data, feed = data[:-1], False
    return ESCAPE.sub(lambda found: bytes.fromhex(found[1].decode()) if found[1] else ESCAPED[found[2]], data), feed


def plain_text(lines):
    """The text that the lines of a case show. Its last line has no line feed."""
    text, ended = b"", b""
    for line in lines:
        more, feed = plain_line(line)
        text, ended = text + ended + more, b"\n" if feed else b""
    return text


def words_of(lines):
    """The words of a case, and whether it has rows. There a frame may come last."""
    words = [word for line in lines for word in ([line[3:]] if line.startswith("$= ") else line[2:].split())]
    return (words[1:], True) if words[:1] == ["rows"] else (words, False)


def case_of(place, words, text):
    """A text and the words of its run, if a run is what the case is about."""
    if words[:1] in (["works"], ["plain"]):
        words = words[1:]
    if words[:1] in (["tree"], ["words"]) or any(word.startswith("--generate") for word in words):
        return []
    return [Case(place, [word for word in words if word != "--locks"], text)]


def cases_of(name, block):
    """The texts of a case. The block has its lines from its title to its status, each with its number."""
    block = block[1:]
    count = next(i for i, (line, _) in enumerate(block) if not line.startswith(("$ ", "$= ")))
    end = next(i for i, (line, _) in enumerate(block) if line in ("---", "==="))
    words, has_rows = words_of([line for line, _ in block[:count]])
    shown = block[count:end]
    if not has_rows:
        return case_of(f"{name}, line {block[0][1]}", words, plain_text([line for line, _ in shown]))
    frame = words.pop().encode() if words and "{}" in words[-1] else b"{}"
    cases = []
    for line, number in shown:
        row = plain_line(line)[0].split(b" ==>")[0].replace("⏎".encode(), b"\n")
        cases += case_of(f"{name}, line {number}", words, frame.replace(b"{}", row, 1))
    return cases


def all_cases(files):
    """The texts of all joined cases, or of those of these files."""
    cases, block, source = [], [], None
    for line, name, number in join_cases.joined():
        if name != source:
            block, source = [], name
        if block or line.startswith("# "):
            block.append((line, number))
        if block and line.startswith("status "):
            cases += cases_of(name, block) if not files or name in files else []
            block = []
    return cases


def check_case(program, case, counts, listed):
    """Makes each fix that is offered on a text. A check that fails is raised."""
    done = fuzz.run(program, case.words, case.text)
    if done.status not in (0, 1):
        return
    counts["valid", ""] += 1
    for report in fuzz.checked_reports(case.text, done):
        if not report.edits:
            continue
        found = collections.Counter()
        fuzz.check_fix(program, case.words, case.text, report, found)
        if found["not read again", report.rule]:
            listed["not read again"].append(f"{report.rule}: {case.place}, at {report.start}")
        if report.rule in fuzz.SETTLED and not fuzz.fits(case.text, report.edits):
            found["joined", report.rule] += 1
            listed["joined to a word"].append(f"{report.rule}: {case.place}, at {report.start}")
        counts.update(found)


def print_counts(counts):
    for name in ("texts", "valid", "fixes", "not read again", "joined", "report left", "failures"):
        found = {key[1]: number for key, number in counts.items() if key[0] == name}
        print(f"{name}: {sum(found.values())}")
        for key, number in sorted(found.items()):
            if key:
                print(f"  {key}: {number}")


def main():
    reader = argparse.ArgumentParser(description="Makes each fix that is offered on the cases, and lints the fixed texts.")
    reader.add_argument("program")
    reader.add_argument("files", nargs="*")
    given = reader.parse_args()
    counts, listed = collections.Counter(), collections.defaultdict(list)
    for case in all_cases(given.files):
        counts["texts", ""] += 1
        try:
            check_case(given.program, case, counts, listed)
        except fuzz.Failure as failure:
            counts["failures", failure.args[0]] += 1
            print(f"FAILED: {failure.args[0]}\n  {case.place}, words {case.words}\n  text {case.text!r}\n  {failure.args[1]}")
    for name, places in listed.items():
        print(f"{name}:")
        print("\n".join(f"  {place}" for place in places))
    print_counts(counts)
    return 1 if any(key[0] == "failures" for key in counts) or not counts["texts", ""] else 0


if __name__ == "__main__":
    sys.exit(main())
