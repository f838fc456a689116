#!/usr/bin/env python3
"""Gives the built program hostile logs and questions, from a random seed, and checks what holds for any input.

    bench/fuzz.py [--program ./audit_cli] [--seed 1] [--seconds 60] [--first 0]

Each round makes a log (random bytes, changed lines of real logs, line feeds, times that jump, fall or stand still, names of control bytes) and a
dialogue (questions in and out of the grammar, random bytes, long lines, no last line feed), and runs `watch` in one of the modes over them, with a
bound on time and on memory. What is checked of each round:

- the status is one of the table, and standard error is that status's line;
- each reply is one line of JSON without control bytes, and with status 0 there is one for each line of the questions up to `end`;
- `take` gives the bytes that were left of the log, and `stat` counts each line that has ended in exactly one class, as a count apart from the program does.

That is one round of four. In two others such a log is taken into a store (bench/fuzz_stores.py): in parts, or as it grows with `--resume`; and by a
run that stops after a batch that ends within the log, and then goes on. `query` must answer as `watch` does with a `settle` wherever a part ends. The
fourth is one of hostile stores: real ones whose bytes, lengths, numbers, rows or batches were changed, moved, cut or doubled, and random bytes. `query` and
`reduce`, with and without `--resume`, over the same log, a longer, a shorter and another one, are run over them:

- the status is one of the table, and what is refused stays as it was;
- a store is refused at its place, or answers as bench/plain_store.py reads it, also when a log was taken into it.

It prints how many lines, dialogues, questions and stores it made, with the number of runs by status, and ends with status 1 at the first thing
that doesn't hold, with the seed of its round.
"""
import argparse
import collections
import json
import os
import random
import re
import resource
import subprocess
import sys
import tempfile
import time
from pathlib import Path

from compare import HERE
from fuzz_stores import StoreRounds, asked, fault_of_parts, fault_of_restored
from mutated import MODES, log_of

# Each status that a run of `watch` may have, and the text that standard error begins with.
WATCHED = {0: b'', 2: b'audit_cli: bad words\n', 3: b'audit_cli: no memory\n', 4: b'audit_cli: read fault\n',
           5: b'audit_cli: write fault\n', 9: b'audit_cli: full: '}
MEMORY = 1 << 30
SECONDS = 60
TAKEN = re.compile(rb'take ([0-9]{1,15})')
CONTROL = re.compile(rb'[\x00-\x1f]')


def random_bytes(rng, lines):
    return rng.randbytes(rng.randrange(1, 20_000))


def line_feeds(rng, lines):
    return b'\n' * rng.randrange(1, 5_000)


def long_lines(rng, lines):
    sizes = [rng.choice([65_535, 65_536, 65_537, 200_000]) for _ in range(3)]
    return b'\n'.join(rng.choice([b'x', b' ', rng.choice(lines)[:50] + b' ']) * size for size in sizes)[:400_000]


def changed_lines(rng, lines):
    return log_of(rng, lines)


def moved_times(rng, lines):
    """Lines of a log with other times: falling, standing still, or in a far future."""
    first = rng.randrange(max(1, len(lines) - 400))
    at = lambda: rng.choice([0, 1, 10 ** 9, 10 ** 9 + rng.randrange(10_000), 253_402_300_799, 999_999_999_999_999])
    stamp = lambda _: b'audit(%d.%03d:%d)' % (at(), rng.randrange(1000), rng.choice([0, 1, rng.randrange(1000), 2 ** 32 - 1]))
    return b'\n'.join(re.sub(rb'audit\([0-9.]+:[0-9]+\)', stamp, line) for line in lines[first:first + 400])


def hostile_names(rng, lines):
    """Opens, writes and execs of files whose names are made to hurt who prints them."""
    names = [b'\x1b[2J\x1b[31m', b'a\nb', b'"},{"', b'\xff\xfe', b'../' * 300, b'\x00', b'\x7f', b'\xe2\x80\xae', b'x' * 4096]
    log = []
    for serial in range(1, rng.randrange(2, 60)):
        name, ms = rng.choice(names) + rng.choice([b'', b'%d' % rng.randrange(5)]), rng.randrange(1000)
        stamp, number = b'msg=audit(%d.%03d:%d):' % (serial, ms, serial), rng.choice([1, 2, 59, 82, 87, 90, 257])
        log.append(b'type=SYSCALL %s arch=c000003e syscall=%d success=yes exit=3 a0=3 a1=200 a2=200 a3=0 ppid=1 pid=%d exe=%s'
                   % (stamp, number, rng.randrange(1, 9), name.hex().encode()))
        for kind in (b'NORMAL', b'CREATE', b'DELETE'):
            log.append(b'type=PATH %s item=0 name=%s inode=%d dev=08:01 nametype=%s' % (stamp, name.hex().encode(), rng.randrange(1, 20), kind))
        log.append(b'type=EOE ' + stamp)
    return b'\n'.join(log) + b'\n'


LOGS = [random_bytes, line_feeds, long_lines, changed_lines, changed_lines, moved_times, hostile_names]


def question(rng):
    """One line of a dialogue, without its line feed."""
    number = lambda: rng.choice([b'0', b'1', b'007', b'%d' % rng.randrange(60), b'4294967295', b'4294967296', b'99999999999999999999', b'-1', b'', b'x'])
    time_text = lambda: rng.choice([b'0.000', b'1.000', b'%d.%03d' % (rng.randrange(2 ** 32), rng.randrange(1000)), b'1', b'1.0', b'999999999999999.999'])
    kind = rng.randrange(12)
    if kind < 3:
        return b'%s %s%s' % (rng.choice([b'back', b'fore']), number(), rng.choice([b'', b' ' + time_text()]))
    if kind < 5:
        return b'why %s %s%s' % (number(), number(), rng.choice([b'', b' ' + time_text()]))
    if kind == 5:
        return b'show ' + number()
    if kind == 6:
        return b'find ' + rng.choice([b'', b'/p', rng.randbytes(rng.randrange(40)).replace(b'\n', b''), b'x' * 5_000])
    if kind == 7:
        return b'take ' + rng.choice([b'0', b'1', b'%d' % rng.randrange(30_000), b'999999999999999', b'1000000000000000', b'x'])
    if kind == 8:
        return rng.choice([b'settle', b'settle ', b'SETTLE', b''])
    if kind == 9:
        return rng.randbytes(rng.randrange(60)).replace(b'\n', b'')
    return b'stat'


def dialogue(rng):
    lines = [question(rng) for _ in range(rng.randrange(1, 80))]
    lines += rng.choice([[b'take 999999999999999', b'settle', b'stat'], []])
    lines += rng.choice([[b'end'], [b'end', b'stat'], []])
    return b'\n'.join(lines) + rng.choice([b'\n', b''])


def ended_lines(log, taken, settled):
    """How many lines of the first bytes of a log have ended, for a settle after which nothing was taken."""
    front = log[:taken]
    return front.count(b'\n') + (1 if settled and front and not front.endswith(b'\n') else 0)


def fault_of_replies(log, lines, replies):
    """What is wrong with the replies to these lines, or None."""
    taken, ends, settled_at = 0, 0, []
    for line, reply in zip(lines, replies):
        if CONTROL.search(reply):
            return f'a control byte in {reply[:200]!r}'
        said = json.loads(reply)
        take = TAKEN.fullmatch(line)
        if take:
            count = min(int(take[1]), len(log) - taken)
            if said != {'take': count}:
                return f'{line!r} has {said}'
            taken += count
        elif line == b'settle':
            settled_at.append(taken)
        elif line == b'stat':
            cuts = sorted({at for at in settled_at if at and log[at - 1:at] != b'\n'})
            ends = log[:taken].count(b'\n') + len(cuts)
            classes = said['used'] + said['other'] + said['blank'] + said['malformed']
            if not said['bytes'] == taken or not said['lines'] == classes == ends:
                return f'{said} after {taken} bytes with {ends} ends of lines'
    return None


def fault_of_log(program, rng, log, path, counts):
    """Runs one round of `watch`, counts what it did, and returns what is wrong with it."""
    questions, mode = dialogue(rng), rng.choice(MODES)
    path.write_bytes(log)
    try:
        ran = subprocess.run([program, 'watch', mode, path], input=questions, capture_output=True, timeout=SECONDS)
    except subprocess.TimeoutExpired:
        return f'{mode}: no end after {SECONDS} seconds'
    wanted, replies, text = asked(questions), ran.stdout.split(b'\n'), WATCHED.get(ran.returncode)
    counts.update({'dialogues': 1, 'lines': log.count(b'\n'), 'questions': len(wanted), f'status {ran.returncode}': 1})
    fault = None
    if text is None or not ran.stderr.startswith(text) or (not text and ran.stderr):
        fault = f'status {ran.returncode}, {ran.stderr[:200]!r}'
    elif replies.pop():
        fault = 'a reply without its line feed'
    elif ran.returncode == 0 and len(replies) != len(wanted):
        fault = f'{len(wanted)} lines of questions and {len(replies)} replies'
    else:
        fault = fault_of_replies(log, wanted, replies)
    return fault and f'{mode}: {fault}'


def said(counts):
    """What was counted, in words."""
    statuses = ', '.join(f'{count} of {name}' for name, count in sorted(counts.items()) if name.startswith('status'))
    return f'{counts["dialogues"]} dialogues over {counts["lines"]} lines and {counts["stores"]} stores, with {counts["questions"]} questions; runs: {statuses}'


def main():
    parser = argparse.ArgumentParser(description=__doc__, formatter_class=argparse.RawDescriptionHelpFormatter)
    parser.add_argument('--program', default=os.path.join(HERE, '..', 'crates', 'audit_cli', 'out', 'audit_cli'))
    parser.add_argument('--seed', type=int, default=1)
    parser.add_argument('--seconds', type=float, default=60)
    parser.add_argument('--first', type=int, default=0, help='the round to begin with')
    options = parser.parse_args()
    # All runs have this bound of their parent.
    resource.setrlimit(resource.RLIMIT_AS, (MEMORY, MEMORY))
    with open(os.path.join(HERE, '..', 'examples', 'web1_sample.log'), 'rb') as file:
        lines = file.read().splitlines()
    made = subprocess.run([sys.executable, os.path.join(HERE, 'make_log.py'), '1', '2000', '--mix'], stdout=subprocess.PIPE, check=True).stdout.splitlines()
    begun, rounds, counts, program = time.monotonic(), options.first, collections.Counter(), os.path.abspath(options.program)
    with tempfile.TemporaryDirectory() as folder:
        stores = StoreRounds(program, Path(folder), [lines, made], dialogue, counts)
        while time.monotonic() - begun < options.seconds:
            rng = random.Random(f'{options.seed} {rounds}')
            log = rng.choice(LOGS)(rng, rng.choice([lines, made]))
            fault = [lambda: fault_of_log(program, rng, log, Path(folder, 'log'), counts), lambda: stores.fault_of_round(rng),
                     lambda: fault_of_parts(stores, rng, log), lambda: fault_of_restored(stores, rng, log)][rounds % 4]()
            if fault:
                print(f'round {rounds} of seed {options.seed}: {fault}')
                return 1
            rounds += 1
    print(f'seed {options.seed}: {said(counts)}; nothing wrong')
    return 0


if __name__ == '__main__':
    sys.exit(main())
