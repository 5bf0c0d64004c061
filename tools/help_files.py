#!/usr/bin/env python3
"""Writes the completions of shells and the manual page from the help texts of `lavkheto`.

  tools/help_files.py [PROGRAM]            writes completions/* and man/lavkheto.1
  tools/help_files.py --check [PROGRAM]    says which of them are out of date; the exit status is 1 where any is

PROGRAM is a built `lavkheto`; without it the one of `tools/program` is run. What is read of it: `--help`, and `COMMAND --help` of each
command that it names. The rules' names are those of docs/RULES.md. What the manual page says besides is in man/lavkheto.1.in.

What a help text must look like: usage lines `lavkheto COMMAND [OPTIONS] [FILES]..`, the first one after `Usage: `; or, under a line
`Commands:`, a line for each command. Each option has a line `  --option VALUE   what it means` or `  -o, --option  ..`, indented by two blanks, and more lines
indented by more. An option whose text has `(default)` takes one of the values that its text names; RULES are names of rules, a FILE is a
file. A VALUE in small letters is itself the value, and the option has a line for each. A paragraph that begins with `Status: ` says the
statuses, the lines under `Examples:` are commands; all others are prose.
"""
import pathlib
import re
import subprocess
import sys
from dataclasses import dataclass, field

TOP = pathlib.Path(__file__).resolve().parent.parent
NAME = 'lavkheto'
WRITTEN = 'Written by tools/help_files.py from the help texts; an edit here is lost.'


@dataclass
class Option:
    """An option: its names, the name of its value where it has one, what it means, and the values that its lines name."""
    names: list
    value: str
    text: str
    values: list = field(default_factory=list)

    def choices(self):
        """The values that its lines or its text name, or none where it takes others."""
        if self.values:
            return self.values
        if '(default)' not in self.text:
            return []
        parts = self.text.split('; ' if '; ' in self.text else ', ')
        return [found[0] for found in (re.match(r'[a-z][a-z-]*', part) for part in parts) if found]


@dataclass
class Help:
    """A help text: its parts, each as it is read. The title is its first sentence."""
    title: str = ''
    prose: list = field(default_factory=list)
    usage: list = field(default_factory=list)
    commands: dict = field(default_factory=dict)
    options: list = field(default_factory=list)
    status: str = ''
    examples: list = field(default_factory=list)

    def completed(self):
        """The options, each once: one that has a line for each of its values has these values, and what all lines say."""
        found = {}
        for one in self.options:
            before = found.get(one.names[0])
            text = f'{before.text}; {one.text}' if before else one.text
            values = (before.values if before else []) + [one.value] * one.value.islower()
            found[one.names[0]] = Option(one.names, one.value, text, values)
        return list(found.values())


def option(head, text):
    """The option of a line: its names before the first blank, then its value."""
    names = [part.split()[0] for part in head.split(', ')]
    values = [part.split()[1] for part in head.split(', ') if ' ' in part]
    return Option(names, values[0] if values else '', text)


def paragraphs(text):
    """The paragraphs of a text, each as its lines."""
    return [part.split('\n') for part in text.strip('\n').split('\n\n')]


def entries(lines):
    """The entries of a paragraph of `  head   text` lines; lines that are indented by more belong to the entry before."""
    found = []
    for line in lines:
        new = re.match(r'  (\S.*?)(?:  +(\S.*))?$', line)
        if new:
            found.append([new[1], new[2] or ''])
        elif found and line.startswith('   '):
            found[-1][1] = f'{found[-1][1]} {line.strip()}'.strip()
    return found


def read_paragraph(lines, parts):
    """Adds what a paragraph says to the parts of a help text."""
    if lines[0].startswith('Usage:'):
        parts.usage = [line.replace('Usage:', '', 1).strip() for line in lines]
    elif lines[0].startswith('Status: '):
        parts.status = ' '.join(line.strip() for line in lines).replace('Status: ', '', 1)
    elif re.match(r'Examples?:', lines[0]):
        parts.examples = [line.strip() for line in lines[1:]]
    elif lines[0].startswith('Commands:'):
        parts.commands.update((head.split()[0], text) for head, text in entries(lines[1:]))
    elif lines[0].startswith('  -'):
        parts.options += [option(head, text) for head, text in entries(lines)]
    else:
        parts.prose.append(' '.join(lines))


def parsed(text):
    """The parts of a help text."""
    first = text.split('\n')[0].split('. ')[0].rstrip('.')
    parts = Help(title='' if first.startswith('Usage:') else first)
    for lines in paragraphs(text):
        read_paragraph(lines, parts)
    for line in parts.usage:
        named = re.match(NAME + r' ([a-z][a-z-]*)', line)
        if named:
            parts.commands.setdefault(named[1], (re.findall(r'  +([a-z].*)$', line) or [''])[0])
    return parts


def said(program, *words):
    """What a program writes to standard output, or nothing where it refuses the words."""
    ran = subprocess.run([program, *words], stdin=subprocess.DEVNULL, capture_output=True, text=True)
    return ran.stdout if ran.returncode == 0 else ''


def helps(program):
    """The help text of the program, and of each of its commands that has one of its own."""
    whole = parsed(said(program, '--help'))
    if not whole.commands:
        sys.exit(f'{program}: its help names no command')
    own = {command: parsed(said(program, command, '--help')) for command in whole.commands}
    own = {command: one if one.usage and names(one.usage[0], command) else Help() for command, one in own.items()}
    whole.commands = {command: text or own[command].title for command, text in whole.commands.items()}
    return whole, own


def names(usage, command):
    """Whether a usage line is that of a command."""
    return usage.split()[:2] == [NAME, command]


def usages(command, whole, own):
    """The usage lines of a command, without what they say of it."""
    lines = [line for line in own.usage or whole.usage if names(line, command)]
    return [re.sub(r'  +[a-z].*$', '', line) for line in lines]


def places(command, whole, own):
    """What a command takes besides options, as its usage lines say it: FILES, RULE .."""
    return {word for line in usages(command, whole, own) for word in re.findall(r'[A-Z]{2,}', line)} - {'OPTIONS', 'WORD'}


def codes():
    """The names of the rules, and those of the hazards, in the order of docs/RULES.md."""
    page = (TOP / 'docs/RULES.md').read_text(encoding='utf-8')
    names = dict.fromkeys(re.findall(r'^(?:\| \[|One rule more, )`([a-z-]+)`', page, re.M))
    hazards = re.findall(r'^### `([a-z-]+)`', page.partition('\n## Hazards\n')[2].partition('\n## ')[0], re.M)
    return [name for name in names if name not in ('unused-ignore', *hazards)], hazards


def kind(one):
    """What a completion offers for the value of an option: an option that takes hazards too says so."""
    if one.choices():
        return 'choices'
    rules = 'codes' if 'hazards' in one.text else 'rules'
    return {'RULES': rules, 'RULE': rules, 'FILE': 'file'}.get(one.value, 'other' if one.value else '')


def bash_values(command, options):
    """The cases of a command's options that take a value."""
    lines = []
    for one in options:
        does = {'choices': f"_{NAME}_words '{' '.join(one.choices())}'", 'rules': f'_{NAME}_rules', 'codes': f'_{NAME}_codes', 'file': f'_{NAME}_files', 'other': ':'}
        if one.value:
            lines.append(f'    {"|".join(f"{command}:{name}" for name in one.names)}) {does[kind(one)]}; return ;;')
    return lines


def bash_command(command, options, takes):
    """The cases of a command's other words."""
    names = ' '.join(name for one in options for name in one.names)
    does = f"_{NAME}_files '*.sql'" if 'FILES' in takes or 'FILE' in takes else f'_{NAME}_codes' if takes & {'RULE', 'RULES'} else ':'
    return [f"    {command}:-*) _{NAME}_words '{names}' ;;", f'    {command}:*) {does} ;;']


def bash(whole, own):
    """The completion for bash."""
    values, rest = [], []
    for command, one in own.items():
        values += bash_values(command, one.completed())
        rest += bash_command(command, one.completed(), places(command, whole, one))
    first = ' '.join([*own, '--help', '--version'])
    return (TOP / 'completions/bash.in').read_text().replace('@WRITTEN@', WRITTEN).replace('@RULES@', '\n'.join(codes()[0])).replace('@HAZARDS@', '\n'.join(codes()[1])) \
        .replace('@FIRST@', first).replace('@VALUES@', '\n'.join(values)).replace('@REST@', '\n'.join(rest))


def zsh_quoted(text):
    """A text in a word in single quotes, where brackets and colons have a meaning."""
    return re.sub(r'([\[\]:\\])', r'\\\1', text).replace("'", "'\\''")


def zsh_option(one):
    """The words of `_arguments` for an option."""
    value = {'choices': f'({" ".join(one.choices())})', 'rules': f'_{NAME}_rules', 'codes': f'_{NAME}_codes', 'file': '_files', 'other': ' ', '': ''}[kind(one)]
    after = f':{one.value}:{value}' if one.value else ''
    return [f"'{name}{'=' * bool(one.value)}[{zsh_quoted(one.text)}]{after}'" for name in one.names if name != '--']


def zsh_command(command, options, takes):
    """The case of a command."""
    words = [word for one in options for word in zsh_option(one)]
    if takes & {'FILE', 'FILES'}:
        words.append("'*:file:_files -g \"*.sql\"'")
    elif takes & {'RULE', 'RULES'}:
        words.append(f"'*:rule:_{NAME}_codes'")
    return [f'  {command})', '    _arguments -S \\', *(f'      {word} \\' for word in words), '      ;;']


def zsh(whole, own):
    """The completion for zsh."""
    cases = [line for command, one in own.items() for line in zsh_command(command, one.completed(), places(command, whole, one))]
    first = [f"'{command}:{zsh_quoted(whole.commands[command])}'" for command in own] + ["'--help:the help'", "'--version:the version'"]
    return (TOP / 'completions/zsh.in').read_text().replace('@WRITTEN@', WRITTEN).replace('@RULES@', '\n'.join(codes()[0])).replace('@HAZARDS@', '\n'.join(codes()[1])) \
        .replace('@FIRST@', ' '.join(first)).replace('@CASES@', '\n'.join(cases))


# (the last name of a list with commas)
FISH_LIST = f'''function __{NAME}_list
    set -l front (commandline -ct | string replace -r -- '^--[^=]*=' '' | string replace -rf '(.*,).*' '$1')
    printf '%s\\n' "$front"$argv
end'''


def fish_quoted(text):
    return "'" + re.sub(r"(['\\])", r'\\\1', text) + "'"


def fish_option(command, one):
    """The lines of an option."""
    value = {'choices': f' -x -a {fish_quoted(" ".join(one.choices()))}', 'rules': f" -x -a '(__{NAME}_list $__{NAME}_rules)'",
             'codes': f" -x -a '(__{NAME}_list $__{NAME}_rules $__{NAME}_hazards)'",
             'file': ' -r -F', 'other': ' -x', '': ''}[kind(one)]
    seen = f"complete -c {NAME} -n '__fish_seen_subcommand_from {command}'"
    flags = [f'-l {name[2:]}' if name.startswith('--') else f'-s {name[1:]}' for name in one.names if name != '--']
    return [f'{seen} {flag}{value} -d {fish_quoted(one.text)}' for flag in flags]


def fish(whole, own):
    """The completion for fish."""
    sets = [f'set -g __{NAME}_{what} {" ".join(names)}' for what, names in zip(('rules', 'hazards'), codes())]
    lines = [f'# Completions of {NAME} for fish. {WRITTEN}', *sets, FISH_LIST, f'complete -c {NAME} -f']
    lines += [f"complete -c {NAME} -n __fish_use_subcommand -a {command} -d {fish_quoted(whole.commands[command])}" for command in own]
    lines += [f"complete -c {NAME} -n __fish_use_subcommand -l {word} -d 'the {word}'" for word in ('help', 'version')]
    for command, one in own.items():
        takes = places(command, whole, one)
        given = "'(__fish_complete_suffix .sql)'" if takes & {'FILE', 'FILES'} else f'"$__{NAME}_rules $__{NAME}_hazards"' if takes & {'RULE', 'RULES'} else ''
        lines += [f"complete -c {NAME} -n '__fish_seen_subcommand_from {command}' -k -a {given}"] * bool(given)
        lines += [line for it in one.completed() for line in fish_option(command, it)]
    return '\n'.join(lines) + '\n'


def roff(text):
    """A text as lines of a manual page, a sentence each: hyphens of words of the command line stay such, and no line is a request."""
    lines = re.sub(r'(?<=[\w)])\. (?=[A-Z])', '.\n', text.replace('\\', '\\e').replace('--', '\\-\\-')).split('\n')
    return '\n'.join('\\&' * (line[:1] in ('.', "'")) + line for line in lines)


def man_usage(line):
    """A usage line as a line of the synopsis."""
    lines = ['.Nm']
    for word in line.split()[1:]:
        bare = word.strip('[].')
        more = ' ...' if word.endswith('..') else ''
        macro = f'Fl {bare[1:]}' if bare.startswith('-') else f'Ar {bare}' if bare.isupper() else f'Cm {bare}'
        lines.append(f'.Op {macro}{more}' if word.startswith('[') else f'.{macro}{more}')
    return lines


def man_command(one):
    """What a command does, and the list of its options."""
    lines = [line for text in one.prose for line in ['.Pp', roff(text)]][1:] + ['.Bl -tag -width Ds']
    for it in one.options:
        names = ' , '.join(f'Fl {name[1:]}' for name in it.names)
        lines += [f'.It {names}' + f' Ar {it.value}' * bool(it.value), roff(it.text)]
    return lines + ['.El'] if one.options else lines[:-1]


def man_status(text):
    """The list of statuses, of a text such as `0 nothing is found; 1 something is found. The greatest of those that apply.`"""
    lines = ['.Bl -tag -width Ds']
    rows, rest = re.match(r'(.*?)\.(?: (.*))?$', text).groups()
    for row in rows.split('; '):
        number, _, what = row.partition(' ')
        lines += [f'.It {number}', roff(what)]
    return lines + ['.El'] + [roff(it) for it in [rest] if it]


def man(whole, own):
    """The manual page."""
    told = {command: one for command, one in own.items() if one.usage}
    parts = {
        '@WRITTEN@': WRITTEN,
        '@SYNOPSIS@': [line for command, one in own.items() for it in usages(command, whole, one) for line in man_usage(it)],
        '@COMMANDS@': [line for command, one in told.items() for line in [f'.Ss {NAME} {command}', *man_command(one)]],
        '@STATUS@': [line for command, one in told.items() for line in [f'.Ss {NAME} {command}', *man_status(one.status)]],
        '@EXAMPLES@': ['.Bd -literal', *dict.fromkeys(roff(it) for one in [whole, *told.values()] for it in one.examples), '.Ed'],
    }
    page = (TOP / 'man/lavkheto.1.in').read_text(encoding='utf-8')
    for name, lines in parts.items():
        page = page.replace(name, lines if isinstance(lines, str) else '\n'.join(lines))
    return page


def main():
    words = sys.argv[1:]
    check = words[:1] == ['--check']
    words = words[check:]
    if len(words) > 1 or words and words[0].startswith('-'):
        sys.exit(__doc__)
    program = words[0] if words else subprocess.run([TOP / 'tools/program', NAME], capture_output=True, text=True, check=True).stdout.strip()
    texts = {'completions/lavkheto.bash': bash, 'completions/_lavkheto': zsh, 'completions/lavkheto.fish': fish, 'man/lavkheto.1': man}
    stale = 0
    both = helps(program)
    for name, make in texts.items():
        path, text = TOP / name, make(*both)
        if check and not (path.exists() and path.read_text(encoding='utf-8') == text):
            print(f'{name} is out of date: run tools/help_files.py')
            stale = 1
        elif not check:
            path.write_text(text, encoding='utf-8')
    return stale


if __name__ == '__main__':
    sys.exit(main())
