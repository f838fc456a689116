#!/usr/bin/env python3
"""Holds the built program against the plain reading of the formats over logs whose lines were changed at random.

    bench/mutated.py [--program ./audit_cli] [--logs 80] [--seed 1] [--paths]

Each log is a cut of a real or a generated one. Most of its lines are changed: tokens change places, are left out, come twice, lose their value or
their quotes, get values at the edge of what a field may hold; lines are cut short, and bytes are changed. With `--paths` the questions
`why`, `find` and `show` are asked too. It ends with status 1 and the first difference if the two don't agree.
"""
import argparse
import os
import random
import re
import subprocess
import sys
import tempfile

from compare import HERE, asks_for_paths, difference

# Values at the edge of what a field may hold.
EDGES = [b'', b'-1', b'(null)', b'""', b'"x', b'"a b c"', b'2F6', b'2f66', b'4294967295', b'4294967296', b'18446744073709551615',
         b'99999999999999999999', b'ffffffffffffffff', b'-9223372036854775808']

# Lines as older kernels write them, where the kind of a name stands elsewhere or twice.
OLDER = [b'item=0 name="/etc/x" inode=9 dev=08:01 mode=0100644 ouid=0 ogid=0 rdev=00:00 objtype=CREATE',
         b'objtype=DELETE item=0 name=2F61 inode=9 dev=fd:00 nametype=NORMAL objtype=PARENT']

MODES = ['plain', 'continuous', 'full', 'source']


def named(token):
    return token.partition(b'=')[0]


def put(rng, tokens, token):
    tokens.insert(rng.randrange(len(tokens) + 1), token)


def change(rng, at, tokens, token):
    tokens[at] = token


# What may happen to the tokens after a header, where `at` is one of them.
CHANGES = [
    lambda rng, at, tokens: rng.shuffle(tokens),
    lambda rng, at, tokens: tokens.pop(at),
    lambda rng, at, tokens: put(rng, tokens, tokens[at]),
    lambda rng, at, tokens: put(rng, tokens, b''),
    lambda rng, at, tokens: put(rng, tokens, b'\x1dARCH=x86_64 SYSCALL=read'),
    lambda rng, at, tokens: change(rng, at, tokens, named(tokens[at])),
    lambda rng, at, tokens: change(rng, at, tokens, b'x' + tokens[at]),
    lambda rng, at, tokens: change(rng, at, tokens, tokens[at].replace(b'=', b'="', 1)),
    lambda rng, at, tokens: change(rng, at, tokens, tokens[at] + rng.choice([b'z', b'0', b'-', b'"', b'=', b'\t'])),
    lambda rng, at, tokens: change(rng, at, tokens, named(tokens[at]) + b'=' + rng.choice(EDGES)),
]


def changed(rng, line):
    """The line, changed at random."""
    way = rng.random()
    if way < 0.35 or not line:
        return line
    if way < 0.40:
        return line[:rng.randrange(len(line))]
    if way < 0.45:
        at = rng.randrange(len(line))
        return (line[:at] + bytes([rng.randrange(256)]) + line[at + 1:]).replace(b'\n', b' ')
    head, colon, raw = line.partition(b'): ')
    tokens = raw.split(b' ')
    rng.choice(CHANGES)(rng, rng.randrange(len(tokens)), tokens)
    return head + colon + b' '.join(tokens)


def log_of(rng, lines):
    """A cut of the lines, changed, with a few lines as older kernels write them."""
    first = rng.randrange(max(1, len(lines) - 300))
    cut = lines[first:first + rng.randrange(5, 300)]
    stamps = re.findall(rb'audit\([0-9.]+:[0-9]+\)', b'\n'.join(cut))
    log = [changed(rng, line) for line in cut]
    for older in OLDER:
        put(rng, log, b'type=PATH msg=' + rng.choice(stamps) + b': ' + older)
    return b'\n'.join(log) + rng.choice([b'', b'\n'])


def questions_for(rng, log, size, paths):
    lines = [f'take {rng.randrange(1, size + 1)}', 'stat', f'take {size}', 'stat', 'settle', 'stat']
    lines += [f'{rng.choice(["back", "fore"])} {rng.randrange(25)}' for _ in range(12)]
    if paths:
        lines += asks_for_paths(rng, log, 25)
    return '\n'.join(lines + ['end', '']).encode('latin1')


def main():
    parser = argparse.ArgumentParser()
    parser.add_argument('--program', default=os.path.join(HERE, '..', 'audit_cli'))
    parser.add_argument('--logs', type=int, default=80)
    parser.add_argument('--seed', type=int, default=1)
    parser.add_argument('--paths', action='store_true')
    options = parser.parse_args()
    made = subprocess.run([sys.executable, os.path.join(HERE, 'make_log.py'), '1', '2000', '--mix'], stdout=subprocess.PIPE, check=True).stdout
    with open(os.path.join(HERE, '..', 'examples', 'web1_sample.log'), 'rb') as file:
        logs = [text.splitlines() for text in (file.read(), made)]
    with tempfile.TemporaryDirectory() as folder:
        path = os.path.join(folder, 'log')
        for number in range(options.logs):
            rng = random.Random(f'{options.seed} {number}')
            log, mode = log_of(rng, rng.choice(logs)), rng.choice(MODES)
            with open(path, 'wb') as file:
                file.write(log)
            text = difference(options.program, mode, path, questions_for(rng, path, len(log), options.paths))
            if text:
                print(f'log {number} of seed {options.seed}, {mode}: {text}')
                return 1
    return 0


if __name__ == '__main__':
    sys.exit(main())
