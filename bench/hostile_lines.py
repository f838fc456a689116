#!/usr/bin/env python3
"""Whether lines that were made to break a reader are classed by the rules of docs/FORMATS.md, and keep nothing of what stands beside them.

    bench/hostile_lines.py [--program ./crates/audit_cli/out/audit_cli]

Each line is a log of its own, and then stands between the two lines of examples/two_flows.log: it must be malformed with its fault, and the other two must
give their flows as if it weren't there. The wanted faults are read off the rules by hand. Prints what is wrong, and ends with status 1 if something is.
"""
import argparse
import json
import os
import sys
import tempfile
from pathlib import Path

from runs import PROGRAM, TOP, run

FORK, WRITE = (TOP / 'examples/two_flows.log').read_text().splitlines(keepends=True)
FILE = 'type=PATH msg=audit(1.000:1): item=0 name="/f7" inode=7 dev=08:01 nametype=NORMAL\n'
TOO_LONG, HEADER, MISSING, NUMBER, TEXT = 1, 2, 3, 4, 5
# A line, and the number of its fault.
LINES = [
    (FORK.replace(':1):', ':4294967296):'), HEADER),
    (FORK.replace('exit=101', 'exit=9223372036854775808'), NUMBER),
    (FORK.replace('exit=101', 'exit=-'), NUMBER),
    (FORK.replace('a0=0', 'a0=' + '0' * 17), NUMBER),
    (FORK.replace(' a3=0', ''), MISSING),
    (FORK.replace('pid=100', 'pid='), NUMBER),
    (FORK.replace('exe="/p"', 'exe="'), TEXT),
    (FILE.replace('08:01', '08:'), NUMBER),
    ('type=SOCKADDR msg=audit(1.000:1): saddr=0\n', TEXT),
    ('x' * 1_000_000 + '\n', TOO_LONG),
    (FORK[:-1] + ' ' * 65_536 + '\n', TOO_LONG),
    ('\0' * 1_000 + '\n', HEADER),
    ('type=SYSCALL msg=audit(' + '9' * 60_000 + '.000:1): \n', HEADER),
    (FILE.replace('"/f7"', '2F7'), TEXT),
    (FILE.replace('inode=7', 'inode=18446744073709551616'), NUMBER),
    (FORK.replace('ppid=1', 'ppid=4294967296'), NUMBER),
]
# An end of the greatest time that a line can have, before the two events of that log.
LATEST = 'type=EOE msg=audit(999999999999999.999:1): \n'


def replies_of(program, log, text, questions):
    log.write_text(text)
    ran = run(['watch', 'plain', log], questions, program)
    if ran.fault() or ran.status != 0:
        raise SystemExit(f'{text[:200]!r}: status {ran.status}, {ran.text!r}')
    return [json.loads(line) for line in ran.out.splitlines()]


def faults_of(program, log):
    for line, fault in LINES:
        taken, stat = replies_of(program, log, line, b'take 9999999\nstat\n')
        wanted = {'lines': 1, 'malformed': 1, 'malformed_lines': [[1, fault]], 'used': 0, 'known': 0}
        if taken != {'take': len(line)} or any(stat[key] != value for key, value in wanted.items()):
            yield f'{line[:200]!r}: {taken}, {stat}'
        *_, back, stat = replies_of(program, log, FORK + line + WRITE, b'take 9999999\nsettle\nback 2\nstat\n')
        if back != {'back': 2, 'ids': [0, 1, 2]} or (stat['used'], stat['malformed_lines'], stat['flows']) != (2, [[2, fault]], 2):
            yield f'{line[:200]!r} between two lines: {back}, {stat}'
    _, back, stat = replies_of(program, log, LATEST + FORK + WRITE, b'take 1000\nback 2\nstat\n')
    if back != {'back': 2, 'ids': [0, 1, 2]} or stat['late'] != 0:
        yield f'after an end of the greatest time: {back}, {stat}'


def main():
    parser = argparse.ArgumentParser(description=__doc__, formatter_class=argparse.RawDescriptionHelpFormatter)
    parser.add_argument('--program', default=PROGRAM)
    program = os.path.abspath(parser.parse_args().program)
    with tempfile.TemporaryDirectory() as folder:
        faults = list(faults_of(program, Path(folder, 'log')))
    for fault in faults:
        print(fault)
    return 1 if faults else 0


if __name__ == '__main__':
    sys.exit(main())
