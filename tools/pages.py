#!/usr/bin/env python3
"""Writes the tables of crates and of tools in docs/ARCHITECTURE.md and docs/CONTRIBUTING.md.

    tools/pages.py --write    writes them
    tools/pages.py --check    ends with 1 where one of them is out of date, or a crate is in no layer or in two

The list of crates follows LAYERS. The line of a crate is the first sentence at the head of its src/lib.rt or src/main.rt; one of more than
LONGEST characters is cut where CUTS allow. The row of a tool is the first sentence of its docstring or first comment, cut in the same way
at LONGEST_TOOL. In a page, a table stands between the comments `<!-- NAME: .. -->` and `<!-- end of NAME -->`.
"""
import pathlib
import re
import sys

TOP = pathlib.Path(__file__).resolve().parent.parent
LONGEST = 50
LONGEST_TOOL = 110
CUTS = [r"[:;] | \(", r", (?:and|as|by|for|in|on|over|since|to|whatever|where|which|with) "]

# The layers, lowest first: the name, what is in it, and its crates by name or, with a `*`, by prefix. A name counts before a prefix.
LAYERS = [
    ("Ground", "Places, rules, hazards and reports as data, without SQL.",
     "text_pos lint_base hazard_base lint_report"),
    ("Reader", "From a text to its one tree. Code and definitions read the same tables of forms and actions, in `sql_tree`.",
     "sql_* psql_text"),
    ("What rules look at", "A statement, those before it, and comments; `lint_pass` has the traits of passes and the walk that runs them.",
     "lint_* lock_machine statement_place"),
    ("Rules and hazards", "A pass reports one rule or a few; `pass_groups` has all in order. `hazard_find` finds all hazards in one walk.",
     "pass_* hazard_find hazard_ignore"),
    ("Laws", "Theorems about definitions, with next to no code.",
     "law_*"),
    ("Linter and fixes", "The reports of passes and hazards, without those that comments cover; and fixes made in a text.",
     "squawk_linter text_reports fix_class fix_edit fix_choice fix_text other_fix"),
    ("Squawk's programs", "`squawk` and three more programs. Each reads standard input.",
     "squawk_* diag_* migration_gate migration_gate_main"),
    ("Arguments, configuration, files", "What a command of `lavkheto` should do. Streams and files are traits in `devices`, so tests run in memory.",
     "devices code_choice help_words check_words fix_words shown_words refused_word nearest_code check_config config_file path_pattern "
     "file_choice sql_files gate_files"),
    ("Output", "Each format is a crate `report_..`; `check_print` chooses one.",
     "source_file checked_file report_* json_value check_print gate_report text_diff psql_edit fix_output rule_pages"),
    ("Commands", "A crate `.._command` for each command, over any streams and files; `lavkheto` gives them those of the system.",
     "check_run check_baseline baseline_file check_setup check_progress file_answer *_command fix_run fix_asked lavkheto"),
    ("Language server", "The protocol as a state machine, with JSON, frames and the linter around it.",
     "text_utf16 lsp_*"),
    ("Older paths", "They only pass names on, so that older paths still work.",
     "sql_part lint_track pass_lock pass_type pass_compat"),
    ("Tests", "Test functions, and the program that runs `cases/`.",
     "test_* case_*"),
]


def crates():
    """The names in crates.txt, in its order."""
    lines = (TOP / "crates.txt").read_text(encoding="utf-8").splitlines()
    return [line.split(":")[0].split()[0] for line in lines if ":" in line.partition("#")[0]]


def fits(pattern, crate):
    """Whether a name with a `*` for any letters is that of a crate."""
    return re.fullmatch(pattern.replace("*", r"\w+"), crate) is not None


def layers_of(crate):
    """The numbers of the layers that name a crate or, if none does, of those that have a prefix of it."""
    by_name = [i for i, (_, _, given) in enumerate(LAYERS) if crate in given.split()]
    return by_name or [i for i, (_, _, given) in enumerate(LAYERS) for it in given.split() if "*" in it and fits(it, crate)]


def faults():
    """What is wrong with LAYERS."""
    names = crates()
    yield from (f"{name} is in {len(layers_of(name))} layers" for name in names if len(layers_of(name)) != 1)
    given = [it for _, _, listed in LAYERS for it in listed.split()]
    yield from (f"no crate is {it}" for it in given if not any(fits(it, name) for name in names))


def sentence(text):
    """The first sentence of a text, without its full stop."""
    return re.split(r"\.(?=\s+[A-Z`\[]|\s*$)", text, maxsplit=1)[0]


def cut(text, longest):
    """A sentence, or its beginning where it is long."""
    for place in CUTS:
        if len(text) > longest:
            text = re.split(place, text, maxsplit=1)[0]
    return text


def head(crate):
    """The first sentence at the head of a crate's root file."""
    files = [TOP / "crates" / crate / "src" / name for name in ("lib.rt", "main.rt")]
    text = next(path for path in files if path.exists()).read_text(encoding="utf-8")
    found = re.search(r"^//! .*(?:\n//! .*)*", text, re.M)
    if not found:
        sys.exit(f"crates/{crate}: its root file has no head")
    return cut(sentence(found[0].replace("//! ", "").replace("\n", " ")), LONGEST)


def crate_lines():
    """The layers, each with its crates."""
    for i, (name, about, _) in enumerate(LAYERS):
        yield f"### {name}\n\n{about}\n"
        yield from (f"- `{crate}`: {head(crate)}" for crate in crates() if layers_of(crate) == [i])
        yield ""


def first_line(path):
    """The first sentence of a tool's docstring or first comment, as far as it stands on one line."""
    lines = path.read_text(encoding="utf-8").splitlines()
    found = next((line for line in lines if re.match(r'r?"""|# |;; |-- ', line)), None)
    if found is None:
        sys.exit(f"tools/{path.name}: it has neither a docstring nor a comment")
    return cut(re.split(r"\.(?:\s|$)", found.removeprefix("r").strip('"#;- '), maxsplit=1)[0].rstrip(":"), LONGEST_TOOL)


def tool_lines():
    """A row for each tool."""
    yield "| Tool | Does |\n|---|---|"
    for path in sorted((TOP / "tools").iterdir()):
        if path.is_file():
            yield f"| `{path.name}` | {first_line(path)} |"


PARTS = [("docs/ARCHITECTURE.md", "crates", crate_lines), ("docs/CONTRIBUTING.md", "tools", tool_lines)]


def with_part(text, name, lines):
    """A page with these lines between the comments of a table; None where it has no such comments."""
    pattern = re.compile(rf"(<!-- {name}: .*-->\n).*?(<!-- end of {name} -->)", re.S)
    body = "\n".join(lines).strip("\n")
    return pattern.sub(lambda found: f"{found[1]}\n{body}\n\n{found[2]}", text, count=1) if pattern.search(text) else None


def main():
    if sys.argv[1:] not in (["--write"], ["--check"]):
        sys.exit(__doc__)
    wrong = [f"tools/pages.py: {fault}" for fault in faults()]
    for page, name, lines in PARTS if not wrong else []:
        path = TOP / page
        old = path.read_text(encoding="utf-8")
        new = with_part(old, name, lines())
        if new is None:
            wrong.append(f"{page}: no place for the table of {name}")
        elif sys.argv[1] == "--write":
            path.write_text(new, encoding="utf-8")
        elif new != old:
            wrong.append(f"{page}: the table of {name} is out of date; run tools/pages.py --write")
    for line in wrong:
        print(line)
    return 1 if wrong else 0


if __name__ == "__main__":
    sys.exit(main())
