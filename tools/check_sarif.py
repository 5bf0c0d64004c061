#!/usr/bin/env python3
"""Checks a SARIF log on standard input against what OASIS SARIF 2.1.0 requires of the properties that Lavkheto writes.

No schema file is read: the required properties, the value sets and the ranges are those of the standard's sections 3.8 (property bags), 3.13
(sarifLog), 3.14 (run), 3.18 and 3.19 (tool), 3.27 (result), 3.29 (physicalLocation), 3.30 (region), 3.55 to 3.57 (fixes). Of the
property bags, whose members are ours, it reads the class of a fix, and the note, the help and the statement of a result.
Prints what is wrong, a line each; the status is 1 where anything is.
"""
import json
import re
import sys

LEVELS = {"none", "note", "warning", "error"}
CLASSES = {"safe", "unsafe", "template"}
COLUMN_KINDS = {"utf16CodeUnits", "unicodeCodePoints"}
URI = re.compile(r"(?:[A-Za-z0-9._~!$&'()*+,;=:@/?#\[\]-]|%[0-9A-Fa-f]{2})*\Z")

wrong = []


def want(holds, where, what):
    if not holds:
        wrong.append(f"{where}: {what}")
    return holds


def has(value, where, name, kind):
    return want(isinstance(value, dict) and isinstance(value.get(name), kind) and not (kind is int and isinstance(value[name], bool)),
                where, f"{name} is missing or of another type")


def artifact(value, where):
    if has(value, where, "uri", str):
        want(URI.match(value["uri"]), where, f"not a URI reference: {value['uri']!r}")


def region(value, where):
    names = ("startLine", "startColumn", "endLine", "endColumn", "byteOffset", "byteLength")
    if all(has(value, where, name, int) for name in names):
        want(min(value[name] for name in names[:4]) >= 1, where, "lines and columns begin at 1")
        want(min(value[name] for name in names[4:]) >= 0, where, "a negative offset or length")
        want((value["startLine"], value["startColumn"]) <= (value["endLine"], value["endColumn"]), where, "ends before it begins")


def text(value, where):
    has(value, where, "text", str)


def fix(value, where):
    text(value.get("description"), where + ".description")
    if has(value, where, "properties", dict):
        want(value["properties"].get("class") in CLASSES, where + ".properties", "class is not one of safe, unsafe and template")
    if has(value, where, "artifactChanges", list):
        want(value["artifactChanges"], where, "no changes")
        for change in value["artifactChanges"]:
            artifact(change.get("artifactLocation"), where + ".artifactLocation")
            if has(change, where, "replacements", list):
                want(change["replacements"], where, "no replacements")
                for replacement in change["replacements"]:
                    region(replacement.get("deletedRegion"), where + ".deletedRegion")
                    if "insertedContent" in replacement:
                        text(replacement["insertedContent"], where + ".insertedContent")


def properties(value, where):
    """The property bag of a result: a note and a help, each a text or null, a statement, a region or null, and nothing more."""
    if has(value, where, "properties", dict):
        bag = value["properties"]
        want(set(bag) == {"help", "note", "statement"}, where + ".properties", "the members are not help, note and statement")
        for name in ("help", "note"):
            want(bag.get(name) is None or isinstance(bag[name], str), where + ".properties", f"{name} is neither a text nor null")
        if bag.get("statement") is not None:
            region(bag["statement"], where + ".properties.statement")


def result(value, where):
    text(value.get("message"), where + ".message")
    want(value.get("level") in LEVELS, where, "level is not one of the standard's")
    has(value, where, "ruleId", str)
    properties(value, where)
    if has(value, where, "locations", list):
        for location in value["locations"]:
            place = location.get("physicalLocation")
            if want(isinstance(place, dict), where, "physicalLocation is missing"):
                artifact(place.get("artifactLocation"), where + ".artifactLocation")
                region(place.get("region"), where + ".region")
    for number, one in enumerate(value.get("fixes", [])):
        fix(one, f"{where}.fixes[{number}]")


def run(value, where):
    driver = value.get("tool", {}).get("driver")
    if want(isinstance(driver, dict), where, "tool.driver is missing"):
        has(driver, where + ".tool.driver", "name", str)
        ids = [rule.get("id") for rule in driver.get("rules", [])]
        want(all(isinstance(one, str) for one in ids), where, "a rule without an id")
        want(len(set(ids)) == len(ids), where, "two rules of one id")
    want(value.get("columnKind") in COLUMN_KINDS, where, "columnKind is not one of the standard's")
    if has(value, where, "results", list):
        for number, one in enumerate(value["results"]):
            result(one, f"{where}.results[{number}]")


def main():
    log = json.load(sys.stdin)
    want(log.get("version") == "2.1.0", "log", "version is not 2.1.0")
    if has(log, "log", "runs", list):
        for number, one in enumerate(log["runs"]):
            run(one, f"runs[{number}]")
    for line in wrong:
        print(line)
    return 1 if wrong else 0


if __name__ == "__main__":
    sys.exit(main())
