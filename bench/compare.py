#!/usr/bin/env python3
"""Holds the built program against the plain reading of the formats, over a real log and generated ones.

    bench/compare.py [--program ./audit_cli] [--modes plain,continuous] [--calls three|moves|all] [--seeds 3] [--events 2000] [--paths]

Each log is asked in several cuts and in each mode. With `--paths` the questions `why`, `find` and `show` are asked too. It ends with
status 1 and the first difference if the two don't agree.
"""
import argparse
import os
import random
import re
import subprocess
import sys
import tempfile

HERE = os.path.dirname(os.path.abspath(__file__))


def times_of(log):
    """Times at which something happened, as questions spell them."""
    with open(log, 'rb') as file:
        return sorted(set(re.findall(r'audit\(([0-9]+\.[0-9]{3}):', file.read().decode('latin1')))) or ['0.000']


def names_of(log):
    """Names that stand in a log, as questions spell them, and some that don't."""
    with open(log, 'rb') as file:
        text = file.read()
    plain = re.findall(rb'(?:name|exe)="([^"]+)"', text)
    coded = [bytes.fromhex(name.decode()) for name in re.findall(rb'(?:name|exe)=((?:[0-9A-Fa-f]{2})+)(?= |$)', text)]
    names = sorted(name for name in set(plain + coded) if b'\n' not in name)
    return [name.decode('latin1') for name in names] + ['/', ' ', 'unix:/run/x', '127.0.0.1:80']


def asks_for_paths(rng, log, most):
    """Questions about names and paths."""
    times, names = times_of(log), names_of(log)
    lines = [f'show {of}' for of in range(most)] + [f'find {rng.choice(names)}' for _ in range(40)]
    for _ in range(100):
        until = rng.choice(['', f' {rng.choice(times)}'])
        lines.append(f'why {rng.randrange(most)} {rng.randrange(most)}{until}')
    return lines + ['find', 'find ', 'show', 'show 4294967296', 'why 1', 'why 0 99999', 'why 0 0 1.2', 'why 0 0']


def questions_for(log, seed, paths):
    """A dialogue that takes the log in pieces of any size and asks on the way, and then at several times."""
    rng = random.Random(seed)
    lines, left = [], os.path.getsize(log)
    size = left
    while left > 0:
        piece = min(left, rng.choice([1, 100, 5_000, 70_000, size // 3 + 1]))
        left -= piece
        lines += [f'take {piece}', f'{rng.choice(["back", "fore"])} {rng.randrange(200)}']
    for settled in (False, True):
        lines += ['settle'] * settled + ['stat'] + [f'{way} {of}' for of in range(0, 120, 7) for way in ('back', 'fore')]
    times = times_of(log)
    for _ in range(100):
        lines.append(f'{rng.choice(["back", "fore"])} {rng.randrange(60)} {rng.choice(times)}')
    if paths:
        lines += asks_for_paths(rng, log, 60)
    lines += ['take 5', 'back 3 0.000', 'fore 3 0.000', 'back', 'fore', 'settle ', 'fork 1', 'back 99999999999', 'end', 'stat']
    return ('\n'.join(lines) + '\n').encode('latin1')


def answers(words, questions):
    return subprocess.run(words, input=questions, stdout=subprocess.PIPE, check=False).stdout.split(b'\n')


def difference(program, mode, log, questions, calls='all'):
    """Where the program's answers and those of the plain reading part first, or None."""
    got = answers([program, 'watch', mode, log], questions)
    with tempfile.NamedTemporaryFile() as replies:
        replies.write(b'\n'.join(got))
        replies.flush()
        want = answers([sys.executable, os.path.join(HERE, 'plain_reading.py'), mode, log, '--calls', calls, '--paths', replies.name], questions)
    for number, (one, other) in enumerate(zip(got, want)):
        if one != other:
            return f'line {number + 1}, {questions.splitlines()[number]!r}: {one[:300]!r}, but by the plain reading {other[:300]!r}'
    return f'{len(got)} lines, but {len(want)} by the plain reading' if len(got) != len(want) else None


def differs(options, mode, log, seed):
    text = difference(options.program, mode, log, questions_for(log, seed, options.paths), options.calls)
    return text and f'{mode}, {log}: {text}'


def main():
    parser = argparse.ArgumentParser()
    parser.add_argument('--program', default=os.path.join(HERE, '..', 'audit_cli'))
    parser.add_argument('--modes', default='plain,continuous')
    parser.add_argument('--calls', default='all')
    parser.add_argument('--seeds', type=int, default=3)
    parser.add_argument('--events', type=int, default=2000)
    parser.add_argument('--paths', action='store_true')
    options = parser.parse_args()
    with tempfile.TemporaryDirectory() as folder:
        logs = [os.path.join(HERE, '..', 'examples', name) for name in ('web1_sample.log', 'web1_reads_writes.log', 'two_flows.log')]
        for seed in range(options.seeds):
            logs.append(os.path.join(folder, f'log{seed}'))
            with open(logs[-1], 'wb') as file:
                subprocess.run([sys.executable, os.path.join(HERE, 'make_log.py'), str(seed), str(options.events), '--mix'], stdout=file, check=True)
        found = [text for mode in options.modes.split(',') for seed, log in enumerate(logs) if (text := differs(options, mode, log, seed))]
    for text in found:
        print(text)
    return 1 if found else 0


if __name__ == '__main__':
    sys.exit(main())
