#!/usr/bin/env python3
"""Follows the links of README.md, CHANGELOG.md, SECURITY.md, docs/ and cases/README.md.

  tools/links.py --check            each link within the repository leads to a file, and to a heading or a place named there
  tools/links.py --manual FOLDER    each link to PostgreSQL's manual leads to a page of FOLDER, and to a place there. Debian's
                                    package postgresql-doc-15 has them in /usr/share/doc/postgresql-doc-15/html
"""
import pathlib
import re
import sys

TOP = pathlib.Path(__file__).resolve().parent.parent
PAGES = [*sorted(TOP.glob('*.md')), TOP / 'cases' / 'README.md', *sorted((TOP / 'docs').glob('*.md'))]
MANUAL = re.compile(r'https://www\.postgresql\.org/docs/current/([\w.-]+)(?:#([\w-]+))?')


def anchor(heading):
    """The name that a heading is reached by: its words in lower case, with hyphens between them."""
    words = re.sub(r'\[(.*?)\]\(.*?\)', r'\1', heading).strip().lower()
    return re.sub(r'[^\w\- ]', '', words).replace(' ', '-')


def places(text):
    """The names by which places of a page are reached."""
    prose = re.sub(r'^```.*?^```$', '', text, flags=re.M | re.S)
    return {anchor(it) for it in re.findall(r'^#+ (.*)$', prose, re.M)} | set(re.findall(r'<a id="(.*?)">', prose))


def dead(page, link, known):
    """Whether a link of a page leads nowhere."""
    name, _, place = link.partition('#')
    target = (page.parent / name).resolve() if name else page
    return not target.exists() or bool(place) and target in known and place not in known[target]


def within():
    """The links within the repository that lead nowhere."""
    texts = {page: page.read_text(encoding='utf-8') for page in PAGES}
    known = {page: places(text) for page, text in texts.items()}
    links = [(page, link) for page, text in texts.items() for link in re.findall(r'\]\(([^)\s]+)\)', text)]
    return [f'{page.relative_to(TOP)}: {link}' for page, link in links if '://' not in link and dead(page, link, known)]


def to_manual(folder):
    """The links to the manual that lead nowhere."""
    found = set()
    for page in PAGES:
        for name, place in MANUAL.findall(page.read_text(encoding='utf-8')):
            file = folder / name
            if not file.is_file() or place and f'id="{place}"' not in file.read_text(encoding='utf-8'):
                found.add(f'{page.relative_to(TOP)}: {name}' + f'#{place}' * bool(place))
    return sorted(found)


def main():
    words = sys.argv[1:]
    if words == ['--check']:
        wrong = within()
    elif len(words) == 2 and words[0] == '--manual':
        wrong = to_manual(pathlib.Path(words[1]))
    else:
        sys.exit(__doc__)
    for line in wrong:
        print(f'{line} leads nowhere')
    return 1 if wrong else 0


if __name__ == '__main__':
    sys.exit(main())
