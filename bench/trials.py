#!/usr/bin/env python3
"""Compares the lines of `trial SEED EVENTS` with the plain reading of the same log.

    bench/trials.py [--program ./audit_cli] [--seeds 1,7,18446744073709551615] [--events 1000]

The log is made here from docs/FORMATS.md, apart from the program, and plain_reading.py answers `stat` and `back` over it in each mode.
"""
import argparse, json, os, subprocess, sys, tempfile

HERE = os.path.dirname(os.path.abspath(__file__))
MODES = ('plain', 'continuous', 'full', 'source')
FACTOR, SIZE = 6364136223846793005, 1 << 64


def words(seed):
    """The words of the generator with this seed on stream 1."""
    state = ((seed + 3) * FACTOR + 3) % SIZE
    while True:
        mixed, turn = (((state >> 18) ^ state) >> 27) & 0xFFFFFFFF, state >> 59
        yield ((mixed >> turn) | (mixed << (-turn % 32))) & 0xFFFFFFFF
        state = (state * FACTOR + 3) % SIZE


def event(number, word):
    """The lines of an event."""
    stamp = f'{(1000000 + number) // 1000}.{number % 1000:03}:{number + 1}'
    kind, file, child = word >> 4 & 3, 1 + (word >> 6 & 31), 100 + (word >> 6 & 15)
    call, answer = {1: (59, 0), 3: (57, child)}.get(kind, (90, 0))
    lines = f'type=SYSCALL msg=audit({stamp}): arch=c000003e syscall={call} success=yes exit={answer} a0=0 a1=0 a2=0 a3=0 items=0 ppid=1 pid={100 + (word & 15)} comm="p" exe="/p"\n'
    if kind != 3:
        lines += f'type=PATH msg=audit({stamp}): item=0 name="/f{file}" inode={file} dev=08:01 nametype=NORMAL\n'
    return lines + f'type=EOE msg=audit({stamp}): \n'


def replies(mode, log, questions):
    text = 'take 100000000\nsettle\n' + questions + 'end\n'
    told = subprocess.run([sys.executable, os.path.join(HERE, 'plain_reading.py'), mode, log], input=text.encode(), stdout=subprocess.PIPE, check=True)
    return [json.loads(line) for line in told.stdout.splitlines()[2:]]


def line(mode, log):
    """The line of a mode by the plain reading."""
    stat = replies(mode, log, 'stat\n')[0]
    back = replies(mode, log, f'back {stat["known"] - 1}\n')[0] if stat['known'] else {'ids': []}
    numbers = {'back': len(back.get('ids', back.get('sources'))), **{key: stat[key] for key in ('flows', 'kept', 'known')}, 'mode': mode}
    return json.dumps(numbers, separators=(',', ':'))


def main():
    parser = argparse.ArgumentParser()
    parser.add_argument('--program', default=os.path.join(HERE, '..', 'audit_cli'))
    parser.add_argument('--seeds', default='1,7,18446744073709551615')
    parser.add_argument('--events', type=int, default=1000)
    options = parser.parse_args()
    failed = 0
    for seed in [int(word) for word in options.seeds.split(',')]:
        with tempfile.NamedTemporaryFile('w') as log:
            log.writelines(event(number, word) for number, word in zip(range(options.events), words(seed)))
            log.flush()
            want = ''.join(line(mode, log.name) + '\n' for mode in MODES)
        got = subprocess.run([options.program, 'trial', str(seed), str(options.events)], stdout=subprocess.PIPE, check=False).stdout.decode()
        if got != want:
            failed = 1
            print(f'trial {seed} {options.events}:\n{got}but by the plain reading\n{want}')
    return failed


if __name__ == '__main__':
    sys.exit(main())
