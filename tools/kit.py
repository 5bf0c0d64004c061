"""The crates of the Rattle kit that the programs of a release are linked with, and their licences; for tools/package and tools/release.

The rows of crates.txt name some of them. The others, which those use, are named by the kit's folder: in rlibs/CRATE.rlib/format there is a
line `dep OTHER` for each. Licences are the files LICENSE.. of rattle/CRATE. Where the kit is, the page that `rt doc` names says.
"""
import functools
import pathlib
import re
import subprocess
import sys
import textwrap

TOP = pathlib.Path(__file__).resolve().parent.parent

# Licences, each with a phrase of its text. A name without blanks is an SPDX identifier. (Unicode-3.0 is missing in older lists of these.)
LICENCES = {'MIT': 'to any person obtaining a copy of this software and associated documentation files', 'Apache-2.0': 'Apache License Version 2.0',
            'Unicode License V3': 'UNICODE LICENSE V3'}


def asked(*arguments):
    """What `rt` prints."""
    try:
        return subprocess.run(['rt', *arguments], stdin=subprocess.DEVNULL, capture_output=True, text=True, check=True).stdout.strip()
    except (OSError, subprocess.CalledProcessError):
        sys.exit(f'tools/{pathlib.Path(sys.argv[0]).name}: `rt {" ".join(arguments)}` failed: the command of the Rattle kit must be on the path')


@functools.lru_cache(None)
def folder():
    """The kit's folder."""
    return pathlib.Path(asked('doc')).parent


def named(programs):
    """The kit's crates that the rows of these programs and of the crates below them name, and `std`, which each program uses."""
    rows = {}
    for line in (TOP / 'crates.txt').read_text(encoding='utf-8').splitlines():
        crate, colon, others = line.partition('#')[0].partition(':')
        if colon:
            rows[crate.split()[0]] = others.split()
    found = list(programs)
    for crate in found:
        found += [other for other in dict.fromkeys(rows.get(crate, [])) if other not in found]
    return sorted({'std', *found} - set(rows))


def linked(programs):
    """All crates of the kit that the programs are linked with, each with those that it uses itself."""
    uses, waiting = {}, named(programs)
    for crate in waiting:
        said = folder() / f'rlibs/{crate}.rlib/format'
        if not said.is_file():
            sys.exit(f'tools/{pathlib.Path(sys.argv[0]).name}: {said} is missing, which says what the crate {crate} uses')
        uses[crate] = sorted(set(re.findall(r'^dep (\w+)$', said.read_text(encoding='utf-8', errors='replace'), re.M)))
        waiting += [other for other in uses[crate] if other not in waiting]
    return {crate: uses[crate] for crate in sorted(uses)}


def texts(crate):
    """The licences that come with a crate: names of files, and texts."""
    return {path.name: path.read_text(encoding='utf-8') for path in sorted((folder() / 'rattle' / crate).glob('LICEN[CS]E*'))}


def licences(crate):
    """The names of the licences that come with a crate."""
    return [name for name, phrase in LICENCES.items() if any(phrase in ' '.join(text.split()) for text in texts(crate).values())]


def page(crates, kit):
    """A page with the licences of these crates, each text once."""
    of_text, bare = {}, []
    for crate in crates:
        found = texts(crate)
        bare += [crate] * (not found)
        for name, text in found.items():
            of_text.setdefault(text.strip('\n'), []).append(f'{crate}/{name}')
    lines = [textwrap.fill(f'The programs are linked with crates of {kit}, most of which are ports of Rust crates. Their licences follow.', 79)]
    if bare:
        lines += ['', textwrap.fill(f'The kit has no file with a licence for {", ".join(bare)}.', 79)]
    for text, files in of_text.items():
        lines += ['', '=' * 79, *files, '=' * 79, '', text]
    return '\n'.join(lines) + '\n'
