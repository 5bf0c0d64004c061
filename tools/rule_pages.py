#!/usr/bin/env python3
"""Writes crates/rule_pages: what docs/RULES.md says of each rule and each hazard, as plain text of 79 columns that `lavkheto explain` prints.

    tools/rule_pages.py            writes the sources
    tools/rule_pages.py --check    says whether the sources are those of the page, and whether the file that each section names as its source has
                                   that rule; the exit status is 1 where they are not

A rule's page is its section without Markdown's signs. What it calls "above", the first paragraph of its group, follows its own first one, and a
marked paragraph (`<a id="..">`) to which it has a link comes behind its details, whatever section it is in. SQL and other code is indented, and
never wrapped; a row of a table is an item of a list. Of a link to another page of docs/ the page's name is kept, and of one to a rule the rule's.
The list of all rules and hazards is the tables at the head of docs/RULES.md.
"""
import argparse
import re
import sys
import textwrap
from pathlib import Path

TOP = Path(__file__).resolve().parent.parent
PAGE = "docs/RULES.md"
CRATE = TOP / "crates/rule_pages"
WIDTH = 79
MOST_LINES = 700
WRITTEN = "Written by tools/rule_pages.py."
ALIAS = "require-timeout-settings"
MARK = re.compile(r'<a id="([^"]*)"></a>')
FACTS = re.compile(r"\*\*(On|Off)\*\* · (?:no fix|fix: (.*?)) · lock: (.*?)(?: · manual: (.*?))?(?: · source: (.*))?$")


def rules():
    """The rules' names as variants of `Rule`, and as printed, in declaration order."""
    text = (TOP / "crates/lint_base/src/rule.rt").read_text()
    variants = re.findall(r"^        Rule::(\w+),$", re.search(r"pub const ALL\b.*?^    \];", text, re.M | re.S)[0], re.M)
    names = re.findall(r'\(\s*"([^"]+)"', re.search(r"^static FACTS\b.*?^\];", text, re.M | re.S)[0])
    assert len(variants) == len(names)
    return list(zip(variants, names))


def hazards():
    """The hazards' names as variants of `Hazard`, and as printed, in declaration order."""
    text = (TOP / "crates/hazard_base/src/hazard.rt").read_text()
    return re.findall(r'^            Hazard::(\w+) => "([a-z-]+)",$', text, re.M)


NAMES = {name for _, name in rules() + hazards()}


def linked(found):
    """The words of a link, and the rule or the hazard that it leads to, unless they name it."""
    words, place = found.groups()
    return f"{words} (`{place}`)" if place in NAMES and f"`{place}`" != words else words


def plain(text):
    """A paragraph's words without links and bold type."""
    text = " ".join(re.sub(r'<a id="[^"]*"></a>', "", text).split())
    text = re.sub(r"\[([^\]]*)\]\(#([^)]*)\)", linked, text)
    text = re.sub(r"\[([^\]]*)\]\(([A-Z]\w*\.md)[^)]*\)", r"\1 (docs/\2)", text)
    text = re.sub(r"\[([^\]]*)\]\((https[^)]*)\)", r"\1 (\2)", text)
    return re.sub(r"\*\*|(?<!\w)\*(?=\w)|(?<=\w)\*(?!\w)", "", text)


def wrapped(text, first="", rest=""):
    return textwrap.wrap(plain(text), WIDTH, initial_indent=first, subsequent_indent=rest, break_long_words=False, break_on_hyphens=False)


def row_item(row):
    return "- " + ": ".join(cell.strip() for cell in row.strip("|").split("|") if cell.strip())


def pieces(lines):
    """The paragraphs and items of a block, each with how far it is indented and whether it is an item. A paragraph goes on with the lines
    that are as far in as its text."""
    found = []
    for line in lines:
        indent = len(line) - len(line.lstrip())
        is_item = line.startswith("- ", indent)
        if is_item or not found or indent < found[-1][0] + 2 * found[-1][1]:
            found.append((indent, is_item, []))
        found[-1][2].append(line[indent + 2 * is_item:])
    return found


def block(lines):
    """The lines of a paragraph, a list, a table or a piece of code."""
    if lines[0].startswith("```"):
        return ["    " + line if line else "" for line in lines[1:-1]]
    if lines[0].startswith("|"):
        lines = [row_item(row) for row in lines[2:]]
    shown = []
    for indent, is_item, words in pieces(lines):
        first = " " * indent + "- " * is_item
        shown += wrapped(" ".join(words), first, " " * len(first))
    return shown


def blocks(lines):
    """The paragraphs, lists, tables and pieces of code of a part of the page."""
    found, held, fenced = [], [], False
    for line in [*lines, ""]:
        fenced ^= line.startswith("```")
        if line or fenced:
            held.append(line)
        elif held:
            found.append(held)
            held = []
    return found


def parts():
    """The groups of the page: each heading, with its lines and its rules' sections."""
    groups = []
    for line in (TOP / PAGE).read_text(encoding="utf-8").split("\n"):
        if line.startswith("## "):
            groups.append((line[3:], [], {}))
            held = groups[-1][1]
        elif line.startswith("### "):
            held = groups[-1][2][line[5:-1]] = []
        elif groups:
            held.append(line)
    return groups


def facts(line):
    """The first line of a section: whether the rule is on, its fix, its lock, and the page of the manual."""
    default, fix, lock, manual, _ = FACTS.fullmatch(line).groups()
    shown = [("default", default.lower()), ("fix", fix or "none"), ("lock", lock)]
    if manual:
        title, address = re.fullmatch(r"\[([^\]]*)\]\((.*)\)", manual).groups()
        shown += [("manual", f"{title}, {address}")]
    return [line for key, text in shown for line in wrapped(text, f"  {key + ':':<9}", " " * 11)]


def has_rule(name, variant, path):
    """Whether a file is the source of a rule or a hazard: it has its variant, or its own name is one with it."""
    return path.is_file() and (path.stem in name.replace("-", "_") or re.search(rf"::{variant}\b", path.read_text(encoding="utf-8")))


def without_source():
    """The rules and hazards whose section does not name their source."""
    sections = {name: lines for _, _, part in parts() for name, lines in part.items()}
    for variant, name in rules() + hazards():
        if name == ALIAS:
            continue
        source = FACTS.fullmatch(next(line for line in sections[name] if FACTS.fullmatch(line)))[5]
        place = re.fullmatch(r"\[`[a-z_/]+\.rt`\]\(\.\./([^)]*)\)", source or "")
        if not (place and has_rule(name, variant, TOP / place[1])):
            yield name


def marked():
    """The marked paragraphs of the page, by their marks."""
    found = [lines for _, head, sections in parts() for section in [head, *sections.values()] for lines in blocks(section)]
    return {mark[1]: lines for lines in found if (mark := MARK.match(lines[0]))}


def page(name, head, lines):
    """A rule's page. The first paragraph of its group comes where the section says "as above"."""
    first, why, *rest = [one for one in blocks(lines) if not MARK.match(one[0])]
    above = blocks(head)[:1] if any("[as above]" in line for line in lines) else []
    behind = [one for mark, one in marked().items() if any(f"](#{mark})" in line for line in lines)]
    end = next((at for at, one in enumerate(rest) if at > rest.index(["**Details**"]) and one[0].startswith("```")), len(rest))
    shown = [[name], facts(first[0])] + [block(one) for one in [why] + above + rest[:end] + behind + rest[end:]]
    return "\n\n".join("\n".join(lines) for lines in shown) + "\n"


def alias_page(lines):
    """The page of the alias: the paragraph that tells what it is."""
    told = next(lines for lines in blocks(lines) if lines[0].startswith(f"One rule more, `{ALIAS}`"))
    return ALIAS + "\n\n" + "\n".join(wrapped(" ".join(told).replace(f"One rule more, `{ALIAS}`, ", "It "))) + "\n"


def list_row(row):
    """The line of a row of a table; hazards have no fix."""
    name, default, *fix, lock = (plain(cell) for cell in row.strip("|").split("|"))
    fix = fix[0] if fix else "none"
    return f"{name.strip('`'):<46}{default:<9}{fix:<16}{lock}"


def all_rules():
    """The list of all rules and hazards: the tables at the head of the page."""
    shown = [f"{'Rule':<46}{'Default':<9}{'Fix':<16}Lock"]
    for lines in blocks(parts()[0][1]):
        if lines[0].startswith("**["):
            shown += ["", plain(lines[0])]
        elif lines[0].startswith(("| Rule", "| Hazard")):
            shown += [list_row(row) for row in lines[2:]]
        elif lines[0].startswith(f"One rule more, `{ALIAS}`"):
            shown += ["", f"{ALIAS:<46}{'alias':<9}of `require-lock-timeout` and `require-statement-timeout`"]
    return "\n".join(shown) + "\n"


def constant(name):
    return name.upper().replace("-", "_")


def literal(text):
    return '"' + text.replace("\\", "\\\\").replace('"', '\\"') + '"'


def modules():
    """The modules of the crate, each with what it is about and its pages by the rules' names."""
    groups = parts()
    found = []
    for title, head, sections in groups:
        lines = MOST_LINES
        for name, section in sections.items():
            text = page(name, head, section)
            if lines + text.count("\n") > MOST_LINES:
                module = title.lower().replace(" ", "_") + ("_more" if lines != MOST_LINES else "")
                found.append((module, "The hazards" if title == "Hazards" else f"The rules of the group \"{title}\"", {}))
                lines = 0
            found[-1][2][name] = text
            lines += text.count("\n")
    return [*found, ("aliases", "The rules that mean others", {ALIAS: alias_page(groups[0][1])})]


def declared(head, text):
    """A constant, as `rt fmt` lays it out."""
    value = literal(text)
    fits = len(f"{head} {value}".split("\n")[0]) <= 100
    return f"{head} {value};" if fits else f"{head}\n    {value};"


def module_source(about, pages):
    shown = [f"//! {about}. {WRITTEN}"]
    shown += [f"/// `{name}`.\n" + declared(f"pub(crate) const {constant(name)}: &str =", text) for name, text in pages.items()]
    return "\n\n".join(shown) + "\n"


def list_source():
    told = "/// All rules by group, and then all hazards, a line each: whether it is on by default, its fix and its lock."
    return f"//! All rules and hazards. {WRITTEN}\n\n{told}\n" + declared("pub const RULE_LIST: &str =", all_rules()) + "\n"


def arm(kind, variant, place):
    """An arm of a function, as `rt fmt` lays it out."""
    line = f"        {kind}::{variant} => {place},"
    return line if len(line) <= 100 else f"        {kind}::{variant} => {{\n            {place}\n        }}"


def arms(kind, places, names):
    return "\n".join(arm(kind, variant, "::".join(places[name])) for variant, name in names)


def functions_source(places):
    modules = ", ".join(sorted({module for module, _ in places.values()})) + ","
    uses = "\n".join(["use crate::{", *textwrap.wrap(modules, 100, initial_indent="    ", subsequent_indent="    "), "};"])
    return f"""//! The pages of rules and hazards. {WRITTEN}
ghost use Rattle.std.specs.Prelude.{{◌≡◌}};
ghost use Rattle.rule_pages.specs.Pages.{{code_page_of, hazard_page_of, page_of}};

{uses}
use lint_report::{{Code, Hazard, Rule}};

/// What docs/RULES.md says of a rule: plain text of lines that end with a line feed, of 79 columns but for code and addresses.
#[tactic(auto, unfolding(crate::specs::Pages::page_of))]
pub fn rule_page(rule: Rule) -> &'static str
    ensures {{ result.now ≡ page_of rule }}
{{
    match rule {{
{arms("Rule", places, rules())}
    }}
}}

// The same of a hazard.
#[tactic(auto, unfolding(crate::specs::Pages::hazard_page_of))]
fn hazard_page(hazard: Hazard) -> &'static str
    ensures {{ result.now ≡ hazard_page_of hazard }}
{{
    match hazard {{
{arms("Hazard", places, hazards())}
    }}
}}

/// What docs/RULES.md says of a rule or a hazard, as [`rule_page`] has it.
pub fn code_page(code: Code) -> &'static str
    ensures {{ result.now ≡ code_page_of code }}
{{
    match code {{
        Code::Rule(rule) => rule_page(rule),
        Code::Hazard(hazard) => hazard_page(hazard),
    }}
}}
"""


def rows(function, kind, places, names):
    return "\n".join(f"{function} {kind}.{variant} = {places[name][1]}.now" for variant, name in names)


def specs_source(places):
    uses = {}
    for _, name in rules() + hazards():
        uses.setdefault(places[name][0], []).append(places[name][1])
    lines = "\n".join(f"use Rattle.rule_pages.specs.declared.{module}.TheConstants.{{{', '.join(found)}}}" for module, found in uses.items())
    return f"""-- The page of each rule and each hazard. {WRITTEN}
use Rattle.std.specs.Prelude.{{ℕ, List}}
use Rattle.lint_report.specs.hazard_base.declared.hazard.Hazard.{{Hazard}}
use Rattle.lint_report.specs.hazard_base.declared.hazard.Hazard.TheVariants as hazard
use Rattle.lint_report.specs.lint_base.declared.rule.Rule.{{Rule}}
use Rattle.lint_report.specs.lint_base.declared.rule.Rule.TheVariants as rule
use Rattle.lint_report.specs.declared.code.Code.{{Code}}
use Rattle.lint_report.specs.declared.code.Code.TheVariants as code
{lines}

-- what docs/RULES.md says of a rule
unfoldable pub page_of : Rule → List ℕ
{rows("page_of", "rule", places, rules())}

-- what it says of a hazard
unfoldable pub hazard_page_of : Hazard → List ℕ
{rows("hazard_page_of", "hazard", places, hazards())}

-- what it says of either
abbrev pub code_page_of : Code → List ℕ
code_page_of (code.Rule rule) = page_of rule
code_page_of (code.Hazard hazard) = hazard_page_of hazard
"""


def root_source(found):
    mods = "\n".join(f"mod {module};" for module in sorted([*found, "list", "page"]))
    return f"""//! What docs/RULES.md says of each rule and each hazard, as plain text. {WRITTEN}
#![tactic(auto)]

{mods}

pub use list::RULE_LIST;
pub use page::{{code_page, rule_page}};
"""


def sources():
    """The files of the crate, by their paths in it."""
    found = modules()
    places = {name: (module, constant(name)) for module, _, pages in found for name in pages}
    if set(places) != NAMES:
        sys.exit(f"not the same rules and hazards: {set(places) ^ NAMES}")
    files = {f"src/{module}.rt": module_source(about, pages) for module, about, pages in found}
    files["src/list.rt"] = list_source()
    files["src/page.rt"] = functions_source(places)
    files["src/lib.rt"] = root_source([module for module, _, _ in found])
    files["specs/Pages.antt"] = specs_source(places)
    files["specs/Lib.antt"] = "pub mod Pages\n"
    return files


def main():
    asks = argparse.ArgumentParser(description=__doc__, formatter_class=argparse.RawDescriptionHelpFormatter)
    asks.add_argument("--check", action="store_true")
    asks.add_argument("--into", type=Path, default=CRATE, help="another folder for the crate")
    given = asks.parse_args()
    files = sources()
    if given.check:
        there = {str(path.relative_to(CRATE)): path.read_text(encoding="utf-8")
                 for part in ("src", "specs") for path in (CRATE / part).rglob("*") if path.is_file()}
        if there != files:
            sys.exit(f"crates/rule_pages is not what tools/rule_pages.py makes of {PAGE}")
        if lost := list(without_source()):
            sys.exit(f"{PAGE} does not name the source of {', '.join(lost)}")
        return
    for name, text in files.items():
        (given.into / name).parent.mkdir(parents=True, exist_ok=True)
        (given.into / name).write_text(text, encoding="utf-8")


if __name__ == "__main__":
    main()
