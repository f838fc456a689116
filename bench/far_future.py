#!/usr/bin/env python3
"""What one event of a far future time does to a store, how it shows, and what helps.

    bench/far_future.py [--program ./crates/audit_cli/out/audit_cli] [--pairs 50]

Pairs of events whose lines stand mixed are taken into a store, then a log that begins with an event of the year 9999, then a third one. After that event
each record is an event of its own and late, in the third log too, and each step has the far time; the numbers that are wanted are counted here. A copy of
the logs without the lines of that time, taken into a new store, must give the counts and the replies of the logs without the event. Prints what is wrong,
and ends with status 1 if something is.
"""
import argparse
import json
import os
import re
import sys
import tempfile
from pathlib import Path

from runs import MODES, PROGRAM, lines_of, run

FAR = 253_402_300_799
RECORDS_OF_AN_EVENT = 2
# A kill by process 7, which makes no flow, and the event's end.
FAR_LINES = (f'type=SYSCALL msg=audit({FAR}.000:1): arch=c000003e syscall=62 success=yes exit=0 a0=1 a1=9 a2=0 a3=0 ppid=1 pid=7 exe="/p"\n'
             f'type=EOE msg=audit({FAR}.000:1): \n')


def lines_of_event(number):
    """A chmod of a file by one of three processes: a call, a path, and an end."""
    stamp = f'msg=audit({1_700_000_000 + number}.000:{number}):'
    return [f'type=SYSCALL {stamp} arch=c000003e syscall=90 success=yes exit=0 a0=1 a1=9 a2=0 a3=0 ppid=1 pid={100 + number % 3} exe="/p"\n',
            f'type=PATH {stamp} item=0 name="/f{number}" inode={number} dev=08:01 nametype=NORMAL\n', f'type=EOE {stamp} \n']


def mixed(first, pairs):
    """Pairs of events, each with the lines of the one between those of the other."""
    return ''.join(one + other for number in range(first, first + 2 * pairs, 2) for one, other in zip(lines_of_event(number), lines_of_event(number + 1)))


def stored(program, folder, mode, logs):
    """The counts after each of these logs, and the store."""
    store, counts = folder / 'store', []
    store.unlink(missing_ok=True)
    for log in logs:
        (folder / 'log').write_text(log)
        counts.append(json.loads(run(['reduce', mode, folder / 'log', store], program=program).out))
    return store, counts


def faults_of(program, folder, mode, pairs):
    """What is wrong in one mode."""
    clean = [mixed(1 + 2 * pairs * part, pairs) for part in range(3)]
    events = 2 * pairs
    _, counts = stored(program, folder, mode, [clean[0], FAR_LINES + clean[1], clean[2]])
    wanted = [(events, 0, events), (events + 1 + RECORDS_OF_AN_EVENT * events, RECORDS_OF_AN_EVENT * events, events),
              (events + 1 + 2 * RECORDS_OF_AN_EVENT * events, 2 * RECORDS_OF_AN_EVENT * events, events)]
    got = [(count['events'], count['late'], count['flows']) for count in counts]
    if got != wanted:
        yield f'events, late ones and flows are {got}, wanted {wanted}'
    asked = lines_of(['stat', *(f'{way} {of}' for of in range(0, 3 + 6 * pairs, 5) for way in ('back', 'fore', 'show'))])
    wanted = run(['query', stored(program, folder, mode, clean)[0]], asked, program).out
    copies = [re.sub(rf'.*audit\({FAR}\..*\n', '', log) for log in (clean[0], FAR_LINES + clean[1], clean[2])]
    if run(['query', stored(program, folder, mode, copies)[0]], asked, program).out != wanted or b'"late":0,' not in wanted:
        yield 'a store of the copies without the far time answers otherwise'
    # A move that needs no path: a write to a descriptor that nobody was seen to open.
    write = 'type=SYSCALL msg=audit(1700009999.000:9): arch=c000003e syscall=1 success=yes exit=5 a0=1 a1=0 a2=5 a3=0 ppid=1 pid=8 exe="/p"\n'
    store, _ = stored(program, folder, mode, [FAR_LINES, write])
    hop = json.loads(run(['query', store], b'why 0 1\n', program).out)['path'][0]
    if (hop['at'], hop['serial']) != (f'{FAR}.000', 9):
        yield f'the step after the event is {hop}'


def main():
    parser = argparse.ArgumentParser(description=__doc__, formatter_class=argparse.RawDescriptionHelpFormatter)
    parser.add_argument('--program', default=PROGRAM)
    parser.add_argument('--pairs', type=int, default=50)
    options = parser.parse_args()
    with tempfile.TemporaryDirectory() as folder:
        faults = [f'{mode}: {fault}' for mode in MODES for fault in faults_of(os.path.abspath(options.program), Path(folder), mode, options.pairs)]
    for fault in faults:
        print(fault)
    return 1 if faults else 0


if __name__ == '__main__':
    sys.exit(main())
