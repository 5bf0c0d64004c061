#!/usr/bin/env python3
"""Keeps docs/DEFINITIONS.md complete: each definition that a public contract cites is in it.

    tools/definitions.py --write    writes the last section of the document: the cited names that no table above it has
    tools/definitions.py --check    ends with 1 where that section is not up to date, or a name has no words of its own

A name is cited where a clause (requires, ensures) of a public function or of a trait's method names it, or a pass says by it what it
reports (its ghost `rows`, `reports` or `table`), and a `ghost use` of its file takes it from the specs/ of a crate of this repository.
A table has it where the first cell of a row has `Module.name`, or `name` after a name with that module, or `Module.*`; each
`Module.name` in such a cell must be defined. What the last section says of a name is the comment above its definition. Types that
the code declares are not asked for. Crates whose names begin with test_ or case_ are tests.
"""
import pathlib
import re
import sys

TOP = pathlib.Path(__file__).resolve().parent.parent
DOCUMENT = TOP / "docs" / "DEFINITIONS.md"
HEAD = "## Smaller definitions"
INTRODUCTION = """
What the clauses of public calls name beside the tables above, with the comments of the specs. All of it is ours.
`tools/definitions.py --write` writes this section.

| Name | Says |
|---|---|
"""
# (a crate passes on the definitions of a crate below it as a module of its own specs/, under that crate's name)
USE = re.compile(r"ghost use Rattle\.(?:\w+\.specs\.(?=[a-z]\w*\.[A-Zd]))?(\w+)\.(?:specs\.)?([\w.]+?)(?:\.\{([^}]*)\}| as (\w+))?;")
WORD = re.compile(r"[A-Za-z_][\w]*(?:\.[A-Za-z_]\w*)*")
REPORTED = re.compile(r"^ {4}ghost (?:rows|reports|table) = ")
DEFINED = r"^(?: *(?=pub data )| +(?=[A-Z]\w* : )| *unfoldable | *abbrev )?(?:pub )?(?:record |data )?"


def crates():
    lines = (TOP / "crates.txt").read_text().splitlines()
    names = [line.split(":")[0].split()[0] for line in lines if line.strip() and not line.startswith("#")]
    return [name for name in names if not name.startswith(("test_", "case_"))]


def uses_of(text, own):
    """The names and the aliases of modules in one file, each with its crate and module."""
    names, aliases = {}, {}
    for crate, module, listed, alias in USE.findall(text):
        if crate not in own or module.startswith("declared"):
            continue
        if alias:
            aliases[alias] = (crate, module)
        for item in (item.strip() for item in listed.split(",")):
            if item and not item.startswith("◌"):
                names[item] = (crate, module)
    return names, aliases


def clauses_of(text):
    """The lines of public functions and of traits' methods, up to their bodies, and those that say what a pass reports."""
    lines = text.split("\n")
    in_trait = False
    for at, line in enumerate(lines):
        if REPORTED.match(line):
            yield line
        in_trait = bool(re.match(r"^pub trait ", line)) or (in_trait and not line.startswith("}"))
        head = re.match(r"^( *)pub (?:const )?(?:unsafe )?fn ", line) or (in_trait and re.match(r"^( {4})fn ", line))
        if not head:
            continue
        for after in lines[at:]:
            if after.startswith(head.group(1) + "{"):
                break
            yield re.sub(r"//.*", "", after)
            if after.rstrip().endswith(";"):
                break


def cited(own):
    found = set()
    for crate in own:
        for path in sorted((TOP / "crates" / crate / "src").rglob("*.rt")):
            text = path.read_text()
            names, aliases = uses_of(text, own)
            for word in (word for clause in clauses_of(text) for word in WORD.findall(clause)):
                head, _, rest = word.partition(".")
                if head in names:
                    found.add((*names[head], head))
                elif head in aliases and rest:
                    found.add((*aliases[head], rest.split(".")[0]))
    return found


def file_of(crate, module):
    return TOP / "crates" / crate / "specs" / (module.replace(".", "/") + ".antt")


def comment_of(crate, module, name):
    """The comment above a definition, or nothing."""
    path = file_of(crate, module)
    lines = path.read_text().split("\n") if path.exists() else []
    for at, line in enumerate(lines):
        if re.match(DEFINED + rf"{re.escape(name)}\b", line):
            first = at
            while first > 0 and re.match(r" *-- (?!----)", lines[first - 1]):
                first -= 1
            return " ".join(text.strip()[3:].strip() for text in lines[first:at]).replace("|", "\\|")
    return ""


def listed(tables):
    """The names in the first cells of the tables, each with its module, or `*` for all of a module."""
    for line in tables.split("\n"):
        module = None
        for code in re.findall(r"`([^`]+)`", line.split("|")[1]) if line.startswith("| ") else []:
            *front, name = code.split(".")
            module = front[-1] if front else module
            if module and re.fullmatch(r"\w+|\*", name):
                yield module, name


def is_defined(own, module, name):
    paths = [file_of(crate, module) for crate in own if file_of(crate, module).exists()]
    return any(name == "*" or re.search(DEFINED + rf"{name}\b", path.read_text(), re.M) for path in paths)


def main():
    own = crates()
    tables = DOCUMENT.read_text().split(HEAD)[0].rstrip() + "\n"
    written = set(listed(tables))
    gone = [f"{module}.{name}" for module, name in sorted(written) if not is_defined(own, module, name)]
    order = {name: at for at, name in enumerate(own)}
    left = [c for c in cited(own) if not {(c[1], c[2]), (c[1], "*")} & written]
    left.sort(key=lambda c: (order[c[0]], c[1], c[2]))
    silent = [f"{crate}: {module}.{name}" for crate, module, name in left if not comment_of(crate, module, name)]
    rows = "".join(f"| `{crate}.{module}.{name}` | {comment_of(crate, module, name)} |\n" for crate, module, name in left)
    whole = tables + "\n" + HEAD + "\n" + INTRODUCTION + rows
    for name in silent:
        print(f"no comment says what this is: {name}", file=sys.stderr)
    for name in gone:
        print(f"no specs define this: {name}", file=sys.stderr)
    if "--write" in sys.argv:
        DOCUMENT.write_text(whole)
    stale = DOCUMENT.read_text() != whole
    if stale:
        print("docs/DEFINITIONS.md is not up to date: tools/definitions.py --write", file=sys.stderr)
    return 1 if silent or gone or stale else 0


sys.exit(main())
