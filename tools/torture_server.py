#!/usr/bin/env python3
"""Says to the language server what a case in cases/server.txt can't hold, and looks at its answers.

    tools/torture_server.py PROGRAM ..      PROGRAM with its words, as `./lavkheto server`

Input in pieces, headers without an end, documents of megabytes, and the time that they take. The exit status is 1 where an answer is not
what it is to be.
"""
import json
import subprocess
import sys
import time

from lsp_frames import DOWN, EXIT, INIT, hover, notice, opened

COMMAND = sys.argv[1:] or sys.exit(__doc__)
failures = 0


def messages(out):
    """The messages of an output."""
    while out:
        head, _, rest = out.partition(b'\r\n\r\n')
        count = int(head.removeprefix(b'Content-Length: '))
        yield json.loads(rest[:count])
        out = rest[count:]


def run(data, piece=None):
    """The exit status, what is on the error stream, and the messages, for an input that comes in pieces."""
    program = subprocess.Popen(COMMAND, stdin=subprocess.PIPE, stdout=subprocess.PIPE, stderr=subprocess.PIPE)
    if piece is None:
        out, err = program.communicate(data)
    else:
        for i in range(0, len(data), piece):
            program.stdin.write(data[i:i + piece])
            program.stdin.flush()
        program.stdin.close()
        out, err = program.stdout.read(), program.stderr.read()
        program.wait()
    return program.returncode, err.decode(), list(messages(out))


def check(what, wanted, got):
    global failures
    failures += wanted != got
    print(f'ok   {what}' if wanted == got else f'FAIL {what}\n  wanted {wanted}\n  got    {got}')


def changed(text):
    return notice('textDocument/didChange', {'textDocument': {'uri': 'u', 'version': 2}, 'contentChanges': [{'text': text}]})


def answered(said):
    return [m['id'] for m in said if 'method' not in m]


def told(said):
    return [len(m['params']['diagnostics']) for m in said if 'method' in m]


INDEX = 'create index i on t (a);\n'


def seconds(text, times=5):
    """How long it takes from a change to its reports, at the least, on a server that runs."""
    program = subprocess.Popen(COMMAND, stdin=subprocess.PIPE, stdout=subprocess.PIPE)

    def answer():
        count = int(program.stdout.readline().split()[1])
        program.stdout.readline()
        return json.loads(program.stdout.read(count))

    def say(data):
        program.stdin.write(data)
        program.stdin.flush()
        return answer()

    say(INIT)
    say(opened(text))
    best, data = None, changed(text)
    for _ in range(times):
        start = time.perf_counter()
        say(data)
        taken = time.perf_counter() - start
        best = taken if best is None else min(best, taken)
    program.stdin.write(DOWN + EXIT)
    program.stdin.close()
    program.wait()
    return best


def main():
    for piece in (1, 7, 4096):
        status, _, said = run(INIT + opened(INDEX) + DOWN + EXIT, piece)
        check(f'input in pieces of {piece}', (0, [1, 99], 1), (status, answered(said), len(told(said))))
    check('no input', (1, 'error: input ended without exit\n', []), run(b''))
    check('a header without end', (3, 'error: no header\n', []), run(b'Content-Length: 5' + b'x' * 5000))
    check('a header of many fields', [1], answered(run(b'X-Field: y\r\n' * 300 + INIT)[2]))
    check('a header of too many fields', 3, run(b'X-Field: y\r\n' * 400 + INIT)[0])
    status, _, said = run(INIT + b''.join(hover(number, 0) for number in range(2, 2000)) + DOWN + EXIT)
    check('many requests', (0, [1, *range(2, 2000), 99]), (status, answered(said)))
    many = 40000
    status, _, said = run(INIT + opened(INDEX * many) + hover(2, many - 1) + changed('select 1;') + DOWN + EXIT)
    check('a megabyte', (0, [1, 2, 99], 0), (status, answered(said), told(said)[1]))
    check('each statement of it has reports', True, told(said)[0] >= many)
    check('its last line is known', True, bool(said[2]['result']))
    status, _, said = run(INIT + opened('/* ' + '\U0001F600' * 250000 + ' */ drop index i;') + DOWN + EXIT)
    check('a megabyte on one line', 500007, said[1]['params']['diagnostics'][0]['range']['start']['character'])
    status, _, said = run(INIT + opened('(' * 1000000) + opened('select ' + '(' * 100000 + ')' * 100000) + DOWN + EXIT)
    check('deep brackets', (0, [1, 99]), (status, answered(said)))
    clean = 'insert into t values (1, 2, 3);\n' * 16000
    print(f'     {len(clean)} bytes without a report shown again in {seconds(clean) * 1000:.0f} ms')
    found = 'alter table t add column c text; -- and why\n' * 11500
    print(f'     {len(found)} bytes with many reports shown again in {seconds(found) * 1000:.0f} ms')
    print(f'{failures} failures')
    return failures > 0


if __name__ == '__main__':
    sys.exit(main())
