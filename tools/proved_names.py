#!/usr/bin/env python3
"""Checks the names in docs/PROVED.md, and writes its list of contracts.

    tools/proved_names.py --write    writes the list: the public calls of each crate, with the names of the clauses of their contracts
    tools/proved_names.py --check    ends with 1 where the list is out of date, or the page names a call or a clause that is not there

In the page, a name in backticks with `::` in it is a public call of a crate, or a type, and a list of names in round brackets right after it,
as in `crate::call` (`ok`, `err`), has clauses of its contract. Crates of tests and of cases are not in the list.
"""
import functools
import pathlib
import re
import sys

import pages

TOP = pathlib.Path(__file__).resolve().parent.parent
DOCUMENT = TOP / "docs" / "PROVED.md"
NAMED = re.compile(r"`(\w+)((?:::\w+)+)`(?:\s\(((?:`\w+`(?:,\s|\sand\s|\sto\s)?)+)\))?")
CODE = re.compile(r"`([^`]+)`")
# a function, with the indentation that its body has too; a type or a trait; and what an item at the left edge is about
FUNCTION = re.compile(r"( *)(pub )?(?:const )?(?:unsafe )?fn (\w+)")
OWN_TYPE = re.compile(r"pub (?:struct|enum|trait) (\w+)")
ITEM = re.compile(r"(?:pub )?(trait) (\w+)|impl(?:<[^{]*?>)? (?:([\w:]+)(?:<[^{]*>)? for )?(\w+)")
CLAUSE = re.compile(r" *(requires|ensures)(?: (\w+))? \{")
MODULE = re.compile(r"^(pub )?mod (\w+);", re.M)
EXPORT = re.compile(r"^pub use (\w+)::(?:(\w+)|\{([^}]*)\});", re.M)


def crates():
    return [name for name in pages.crates() if not name.startswith(("test_", "case_"))]


class Contract:
    """A public call: its name, the names of its premises and of its clauses, None for one without a name."""

    def __init__(self, name):
        self.name, self.requires, self.ensures = name, [], []

    def clauses(self):
        return {name for name in self.requires + self.ensures if name}

    def shown(self):
        """The call with the names of its clauses."""
        said = [", ".join(filter(None, self.ensures))] if any(self.ensures) else []
        if self.requires:
            said.append("needs " + (", ".join(filter(None, self.requires)) or "a premise"))
        elif not self.ensures:
            said.append("no contract")
        return f"`{self.name}`" + (f" ({'; '.join(said)})" if said else "")


def clauses_into(contract, lines, indent):
    """Adds the clauses in these lines, up to the body of the call, or to its end."""
    depth = 0
    for line in lines:
        code = re.sub(r"//.*", "", line).rstrip()
        if depth == 0 and code == indent + "{":
            return
        found = CLAUSE.match(code)
        if found:
            getattr(contract, found[1]).append(found[2])
        depth += sum(map(code.count, "({[")) - sum(map(code.count, ")}]"))
        if depth == 0 and code.endswith((";", "{}")):
            return


def calls_in(path, exported):
    """The public calls of a file. `exported` says of the name of a function, a type or a trait whether it is passed on."""
    about = method_of = None
    lines = path.read_text(encoding="utf-8").split("\n")
    for at, line in enumerate(lines):
        item = ITEM.match(line)
        if item:
            about = item[2] or item[4]
            method_of = "trait" if item[1] else item[3]
        elif line.startswith("}"):
            about = method_of = None
        found = FUNCTION.match(line)
        if not found:
            continue
        is_free = not found[1] and found[2]
        is_method = len(found[1]) == 4 and about and (found[2] and not method_of or method_of == "trait")
        if (is_free or is_method) and exported(about if is_method else found[3]):
            contract = Contract(f"{about}::{found[3]}" if is_method else found[3])
            clauses_into(contract, lines[at:], found[1])
            yield contract


@functools.lru_cache(maxsize=None)
def contracts(crate):
    """The public calls of a crate, in the order of its modules."""
    root = TOP / "crates" / crate / "src" / "lib.rt"
    if not root.exists():
        return []
    text = root.read_text(encoding="utf-8")
    passed_on = {name for _, one, many in EXPORT.findall(text) for name in re.findall(r"\w+", one or many)}
    calls = list(calls_in(root, lambda name: True))
    for public, module in MODULE.findall(text):
        for call in calls_in(root.parent / f"{module}.rt", (lambda name: True) if public else passed_on.__contains__):
            call.name = f"{module}::{call.name}" if public else call.name
            calls.append(call)
    return calls


def source_of(crate):
    """All source files of a crate, one after another."""
    return "\n".join(path.read_text(encoding="utf-8") for path in sorted((TOP / "crates" / crate / "src").glob("*.rt")))


@functools.lru_cache(maxsize=None)
def traits():
    """The public traits of all crates."""
    return {name for crate in crates() for name in re.findall(r"^pub trait (\w+)", source_of(crate), re.M)}


def implemented(crate):
    """The public traits that public types of a crate implement, each with these types."""
    root = TOP / "crates" / crate / "src" / "lib.rt"
    passed_on = set(re.findall(r"\w+", root.read_text(encoding="utf-8"))) if root.exists() else set()
    found = {}
    for trait, name in re.findall(r"^impl(?:<[^{]*?>)? (\w+)(?:<[^{]*>)? for (\w+)", source_of(crate), re.M):
        if trait in traits() and name in passed_on:
            found.setdefault(trait, []).append(name)
    return found


def crate_lines():
    """An item for each crate that has public calls."""
    for crate in crates():
        calls = [call.shown() for call in contracts(crate)]
        calls += [f"{', '.join(f'`{it}`' for it in names)}: `{trait}`" for trait, names in implemented(crate).items()]
        if calls:
            yield f"- **`{crate}`** ({pages.head(crate)}): {'; '.join(calls)}"


def missing(text):
    """What the page names and the sources do not have."""
    known = set(pages.crates())
    for crate, path, clauses in NAMED.findall(text):
        name = path[2:]
        if crate not in known:
            yield f"no crate: {crate}::{name}"
            continue
        calls = [call for call in contracts(crate) if call.name == name]
        if not calls and (clauses or name not in OWN_TYPE.findall(source_of(crate))):
            yield f"no public call: {crate}::{name}"
        for clause in CODE.findall(clauses) if calls else []:
            if clause not in calls[0].clauses():
                yield f"no clause {clause}: {crate}::{name}"


def main():
    if sys.argv[1:] not in (["--write"], ["--check"]):
        sys.exit(__doc__)
    old = DOCUMENT.read_text(encoding="utf-8")
    new = pages.with_part(old, "contracts", crate_lines())
    wrong = list(missing(old.split("<!-- contracts:")[0]))
    if new is None:
        wrong.append("no place for the list of contracts")
    elif sys.argv[1] == "--write":
        DOCUMENT.write_text(new, encoding="utf-8")
    elif new != old:
        wrong.append("the list of contracts is out of date; run tools/proved_names.py --write")
    for line in wrong:
        print(f"docs/PROVED.md: {line}")
    return 1 if wrong else 0


if __name__ == "__main__":
    sys.exit(main())
