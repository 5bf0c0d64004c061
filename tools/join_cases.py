#!/usr/bin/env python3
"""Joins the cases of `cases/` into the standard input of `case_runner`, and counts them for its expected output.

  tools/join_cases.py            writes crates/case_runner/stdin and crates/case_runner/stdout
  tools/join_cases.py --check    says whether both are up to date; the exit status is 1 where they are not
  tools/join_cases.py --at N     the file and the line in `cases/` of line N of the joined file

The files are joined in the order of their paths, each under a line `// cases/PATH`. Those of `cases/pending` are left out:
they are of words and programs that are not built yet. The examples of README.md and docs/RULES.md follow as cases of their own: a
block that begins with `$ echo 'TEXT' | ./squawk WORDS` or `$ printf 'TEXT' | ./squawk WORDS` is what the program prints; so is one with
`./lavkheto check WORDS` in that place. In docs/RULES.md there are two kinds more:

- of the section of a rule or a hazard, each SQL text under *Write*, and each SQL text of what a clean answer does not see: `lavkheto check`
  reports nothing of it, neither by the rules and hazards that are on nor by the rule itself. The script refuses the page where the SQL under *Instead of* is not the text of an example of
  the section, or where the row in the tables at the head of the page is not what the section says;
- each statement of the table of what a clean answer does not see: no rule that is on reports it, but for those that ask for a transaction
  or for timeouts.

A block of README.md or docs/USE.md that begins with `$ ./lavkheto` is the run that `rt ci` compares (crates/lavkheto): `--check` says where
it is not.
"""
import pathlib
import re
import shlex
import sys

TOP = pathlib.Path(__file__).resolve().parent.parent
CASES = TOP / 'cases'
RULES = 'docs/RULES.md'
PAGES = ['README.md', RULES]
RUNNER = TOP / 'crates' / 'case_runner'

# The line that says that nothing is found.
NOTHING = {'squawk': 'violations: 0', 'lavkheto': 'Found 0 issues in 1 file'}

# The first line of a rule's section: whether it is on, its fix, its lock.
HEAD = re.compile(r'\*\*(On|Off)\*\* · (?:no fix|fix: ([a-z ]+?)(?: \(.*?\))?) · lock: (.*?)(?: · manual: .*?)?(?: · source: .*)?$')


def sources():
    """The files whose cases are run."""
    return [path for path in sorted(CASES.rglob('*.txt')) if CASES / 'pending' not in path.parents]


def example(page, number, block):
    """The lines of a case: the example that begins on this line of a page."""
    command, *printed = block
    before, program, words = re.split(r'\| \./(squawk|lavkheto)', command[2:], maxsplit=1)
    kind, *parts = shlex.split(before)
    text = parts[-1].replace('\\n', '\n') if kind == 'printf' else parts[-1] + '\n'
    status = 0 if printed[-1] == NOTHING[program] else 1
    lines = [f'# an example of {page}'] + [f'$ {words.strip()}'] * bool(words.strip())
    lines += text.split('\n') + ['---'] + printed + [f'status {status}', '']
    return [(line, page, number) for line in lines]


def examples(page):
    """The examples of a page, as cases."""
    text = (TOP / page).read_text(encoding='utf-8')
    lines = []
    for found in re.finditer(r'^```\n(\$ (?:echo|printf) .*?)\n```$', text, re.M | re.S):
        lines += example(page, text.count('\n', 0, found.start()) + 2, found[1].split('\n'))
    return lines


def clean(page, number, words, sql):
    """The lines of a case: a text of which `lavkheto check` reports nothing."""
    lines = [f'# what to write, of {page}', f'$ {words}'] + sql.split('\n') + ['---', NOTHING['lavkheto'], 'status 0', '']
    return [(line, page, number) for line in lines]


def row_of(is_hazard, name, head):
    """The row of a rule or a hazard in the tables at the head of the page, by the first line of its section. Hazards have no fix."""
    default, fix, lock = HEAD.match(head).groups()
    told = '' if is_hazard else f' {fix or "none"} |'
    return f'| [`{name}`](#{name}) | {default.lower()} |{told} {lock} |'


def words_for(name, default, shown):
    """The words under which nothing may be reported of what a section says to write."""
    return ['check'] + [f'--include {name}'] * (default == 'Off') + re.findall(r'--pg-major \d+', shown)


def written(page):
    """The texts of a page's rules and hazards under *Write*, as cases."""
    text = (TOP / page).read_text(encoding='utf-8')
    lines, hazards = [], text.index('\n## Hazards\n')
    for part in re.finditer(r'^### `([a-z-]+)`\n\n\*\*(On|Off)\*\*.*?(?=^##|\Z)', text, re.M | re.S):
        shown = re.findall(r"^\$ (?:echo|printf(?: --)?) (?:'([^']*)'|\"([^\"]*)\") \| \./lavkheto(.*)$", part[0], re.M)
        bad = re.search(r'^\*\*Instead of\*\*\n\n```sql\n(.*?)\n```', part[0], re.M | re.S)
        if bad is None or bad[1] not in [(one or other).replace('\\n', '\n').rstrip('\n') for one, other, _ in shown]:
            sys.exit(f'{page}: {part[1]}: its bad example is the text of no run in its details')
        if row_of(part.start() > hazards, part[1], part[0].split('\n')[2]) not in text:
            sys.exit(f'{page}: {part[1]}: its row at the head of the page is not what the section says')
        words = words_for(part[1], part[2], shown[0][2])
        write, details = part[0].index('\n**Write**'), part[0].index('\n**Details**')
        for found in re.finditer(r'^```sql\n(.*?)\n```$', part[0][write:details], re.M | re.S):
            number = text.count('\n', 0, part.start() + write + found.start()) + 2
            lines += clean(page, number, ' '.join(words), found[1])
    return lines


def unseen(page):
    """The statements of a page's table of what a clean answer does not see, and its texts of what to write, as cases."""
    text = (TOP / page).read_text(encoding='utf-8')
    heading = '\n## What a clean answer does not see\n'
    part = text[text.index(heading):].split('\n## ')[1]
    rows = [found[1] + ' ==>' for found in re.finditer(r'^\| `([^`]*)` \|', part, re.M)]
    lines = [f'# what a clean answer does not see, of {page}', '$ rows --exclude prefer-robust-stmts,require-timeout-settings']
    number = text.count('\n', 0, text.index(heading)) + 2
    rows = [(line, page, number) for line in lines + rows + ['===', 'status 0', '']]
    texts = [clean(page, number, 'check', found[1]) for found in re.finditer(r'^```sql\n(.*?)\n```$', part, re.M | re.S)]
    return sum(texts, rows)


def joined():
    """The lines of the joined file, each with the file and the line that it comes from."""
    lines = []
    for path in sources():
        name = path.relative_to(TOP).as_posix()
        lines.append((f'// {name}', name, 0))
        text = path.read_text(encoding='utf-8')
        lines += [(line, name, number) for number, line in enumerate(text.split('\n'), 1)]
    for page in PAGES:
        lines += [(f'// {page}', page, 0)] + examples(page)
    lines += written(RULES) + unseen(RULES)
    return lines


def wanted():
    """What the two files are to hold. Each case ends with a line `status N`."""
    lines = [line for line, _, _ in joined()]
    count = sum(line.startswith('status ') for line in lines)
    return {'stdin': '\n'.join(lines) + '\n', 'stdout': f'{count} passed, 0 failed\n'}


def stored_run(program):
    """The stored run of a program as a page shows it: the command, and what it prints."""
    folder = TOP / 'crates' / program
    words = (folder / 'args').read_text(encoding='utf-8').split('\n')
    return f'$ ./{program} {shlex.join(word for word in words if word)}\n' + (folder / 'stdout').read_text(encoding='utf-8')


def strange_runs():
    """The pages that show a run of `lavkheto` that is not the stored one."""
    strange = []
    for page in ['README.md', 'docs/USE.md']:
        shown = re.findall(r'^```\n(\$ \./lavkheto .*?)^```$', (TOP / page).read_text(encoding='utf-8'), re.M | re.S)
        strange += [page for run in shown if run != stored_run('lavkheto')]
    return strange


def main():
    words = sys.argv[1:]
    if words == []:
        for name, text in wanted().items():
            (RUNNER / name).write_text(text, encoding='utf-8', newline='')
        return 0
    if words == ['--check']:
        stale = [name for name, text in wanted().items() if (RUNNER / name).read_bytes() != text.encode()]
        for name in stale:
            print(f'crates/case_runner/{name} is out of date: run tools/join_cases.py')
        strange = strange_runs()
        for page in strange:
            print(f'{page} shows another run of lavkheto than crates/lavkheto has')
        return 1 if stale or strange else 0
    if len(words) == 2 and words[0] == '--at' and words[1].isdigit():
        lines = joined()
        at = int(words[1])
        if 1 <= at <= len(lines):
            print(f'{lines[at - 1][1]}, line {lines[at - 1][2]}')
            return 0
    sys.exit(__doc__)


if __name__ == '__main__':
    sys.exit(main())
