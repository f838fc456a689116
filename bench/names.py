#!/usr/bin/env python3
"""Whether names that are made to hurt a terminal stay within their reply, by `watch` and over a store.

    bench/names.py [--program ./crates/audit_cli/out/audit_cli]

A log names a file for each byte but the zero byte, and files with escape sequences, line feeds, quotes and bytes that aren't UTF-8. Each `show` must be
one line of UTF-8 without a byte below 0x20, and its JSON text the lossy text of the name; `find` must find the name if a line can hold it. Prints
what is wrong, and ends with status 1 if something is.
"""
import argparse
import json
import os
import sys
import tempfile
from pathlib import Path

from runs import PROGRAM, run

NAMES = [b'/x%c' % byte for byte in range(1, 256) if byte != ord('/')] + [
    b'/\x1b[2J\x1b[31mred', b'/\x1b]0;title\x07', b'/\x9b1m', b'/\xc2\x9b1m', b'/a\n{"end":true}', b'/"},{"', b'/\\u001b', b'/\xff\xfe',
    b'/\xe2\x80\xaetxt', b'/\xed\xa0\x80']


def log_of(names):
    """Process 9 changes a file of each name."""
    lines = []
    for number, name in enumerate(names, 1):
        stamp = f'msg=audit({number}.000:{number}):'
        lines += [f'type=SYSCALL {stamp} arch=c000003e syscall=90 success=yes exit=0 a0=1 a1=9 a2=0 a3=0 ppid=1 pid=9 exe="/p"',
                  f'type=PATH {stamp} item=0 name={name.hex().upper()} inode={number} dev=08:01 nametype=NORMAL', f'type=EOE {stamp} ']
    return '\n'.join(lines) + '\n'


def faults_of(replies):
    """What is wrong with the replies to `show` of the objects from 1 on, which have these names, and to `find` of them."""
    for number, name in enumerate(NAMES, 1):
        line = replies[2 * number - 2]
        if any(byte < 0x20 for byte in line) or json.loads(line.decode('utf-8'))['names'] != [name.decode('utf-8', 'replace')]:
            yield f'show of {name!r} is {line!r}'
        found = json.loads(replies[2 * number - 1])
        if b'\n' not in name and (number not in found['ids'] or found['find'] != name.decode('utf-8', 'replace')):
            yield f'find of {name!r} is {replies[2 * number - 1]!r}'


def main():
    parser = argparse.ArgumentParser(description=__doc__, formatter_class=argparse.RawDescriptionHelpFormatter)
    parser.add_argument('--program', default=PROGRAM)
    program = os.path.abspath(parser.parse_args().program)
    asked = b''.join(b'show %d\nfind %s\n' % (number, name.replace(b'\n', b'')) for number, name in enumerate(NAMES, 1))
    with tempfile.TemporaryDirectory() as folder:
        log, store = Path(folder, 'log'), Path(folder, 'store')
        log.write_text(log_of(NAMES))
        run(['reduce', 'plain', log, store], program=program)
        watched = run(['watch', 'plain', log], b'take 9999999\nsettle\n' + asked, program).out.split(b'\n')[2:]
        faults = [*faults_of(watched), *faults_of(run(['query', store], asked, program).out.split(b'\n'))]
    for fault in faults:
        print(fault)
    return 1 if faults else 0


if __name__ == '__main__':
    sys.exit(main())
