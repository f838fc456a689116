#!/usr/bin/env python3
"""Counts the instructions and the allocations that the built programs take for a log, by valgrind.

    bench/instructions.py [--modes plain,continuous,full,source,order] [--program ./crates/audit_cli/out/audit_cli]
        [--order ./crates/audit_order/out/audit_order] [--write]

Two logs are taken, of each the first 1,000,000 bytes: one that make_log.py makes from seed 1, and examples/web1_sample.log repeated by repeat_log.py.
Printed are, for each log and mode, the instructions of a whole run of `take`, `settle` and `end`, those for a byte of the log, and the allocations
for a line. The mode `order` stands for a run of the second program, audit_order, over the log. It ends with status 1 if one of them is more than a
tenth above the figure in instructions.txt, or has none there. --write writes the figures into that file instead. Without valgrind on this machine
it says so, and counts nothing.

The counts depend little on the machine and not on what else it does. They do depend on the C library and on what the processor can do, since some
functions of the library, such as memcpy, are chosen by it.
"""
import argparse
import os
import re
import shutil
import subprocess
import sys
import tempfile

HERE = os.path.dirname(os.path.abspath(__file__))
SAMPLE = os.path.join(HERE, '..', 'examples', 'web1_sample.log')
FIGURES = os.path.join(HERE, 'instructions.txt')
MODES = ('plain', 'continuous', 'full', 'source', 'order')
TAKEN = 1_000_000
# How far above its figure a count may be.
SLACK = 1.1
# This many events of make_log.py have more than TAKEN bytes.
EVENTS = 3000
FIGURE = re.compile(r'(\w+) +(\w+) +([\d,]+) instructions.*, +([\d.]+) allocations a line')


def built(name):
    """The program of this name, where its build leaves it."""
    return os.path.join(HERE, '..', 'crates', name, 'out', name)


def written(file, *words):
    with open(file, 'wb') as out:
        subprocess.run([sys.executable, *words], stdout=out, check=True)
    if os.path.getsize(file) < TAKEN:
        sys.exit(f'{file} has fewer than {TAKEN:,} bytes')
    return file


def logs_in(folder):
    """The two logs by their names in the table."""
    return {'made': written(os.path.join(folder, 'made'), os.path.join(HERE, 'make_log.py'), '1', str(EVENTS)),
            'real': written(os.path.join(folder, 'real'), os.path.join(HERE, 'repeat_log.py'), SAMPLE, str(TAKEN))}


def run_of(programs, mode, log):
    """The words of a run that takes the beginning of the log, its standard input, and what its standard output begins and ends with."""
    if mode == 'order':
        with open(log, 'rb') as file:
            taken = file.read(TAKEN)
        return [programs.order], taken, b'type=', b'\n'
    return [programs.program, 'watch', mode, log], b'take %d\nsettle\nend\n' % TAKEN, b'{"take":%d}\n' % TAKEN, b'{"end":true}\n'


def said_by_valgrind(tool, programs, mode, log):
    """What valgrind says on standard error about a run that takes the beginning of the log."""
    words, given, begin, end = run_of(programs, mode, log)
    done = subprocess.run(['valgrind', *tool, *words], input=given, capture_output=True, check=False)
    if done.returncode or not done.stdout.startswith(begin) or not done.stdout.endswith(end):
        sys.exit(f'status {done.returncode} of {" ".join(words)} under valgrind:\n{done.stdout[:10_000].decode("utf-8", "replace")}{done.stderr.decode("utf-8", "replace")}')
    return done.stderr.decode('utf-8', 'replace')


def number(pattern, text):
    return int(re.search(pattern, text)[1].replace(',', ''))


def count(programs, mode, log):
    """The instructions of a run and its allocations."""
    instructions = number(r'Collected : (\d+)', said_by_valgrind(['--tool=callgrind', '--callgrind-out-file=/dev/null'], programs, mode, log))
    allocations = number(r'total heap usage: ([\d,]+) allocs', said_by_valgrind(['--tool=memcheck', '--leak-check=no', '--undef-value-errors=no'], programs, mode, log))
    return instructions, allocations


def lines_taken(log):
    with open(log, 'rb') as file:
        return file.read(TAKEN).count(b'\n')


def figures():
    """The counts that were written, by log and mode."""
    if not os.path.exists(FIGURES):
        return {}
    with open(FIGURES, encoding='utf-8') as file:
        found = map(FIGURE.match, file)
        return {(it[1], it[2]): (int(it[3].replace(',', '')), float(it[4])) for it in found if it}


def main():
    parser = argparse.ArgumentParser(description=__doc__.splitlines()[0])
    parser.add_argument('--modes', default=','.join(MODES))
    parser.add_argument('--program', type=os.path.abspath, default=built('audit_cli'))
    parser.add_argument('--order', type=os.path.abspath, default=built('audit_order'))
    parser.add_argument('--write', action='store_true')
    options = parser.parse_args()
    if not shutil.which('valgrind'):
        print('skipped: instructions: valgrind is not on this machine')
        return 1 if options.write else 0
    table, faults, before = [], [], figures()
    with tempfile.TemporaryDirectory() as folder:
        for name, log in logs_in(folder).items():
            lines = lines_taken(log)
            for mode in options.modes.split(','):
                instructions, allocations = count(options, mode, log)
                table.append(f'{name}  {mode:10}  {instructions:>11,} instructions, {instructions / TAKEN:5.1f} a byte, {allocations / lines:5.2f} allocations a line')
                print(table[-1], flush=True)
                for what, now, then in zip(('instructions', 'allocations a line'), (instructions, allocations / lines), before.get((name, mode), (0, 0))):
                    if now > then * SLACK:
                        faults.append(f'{name} {mode}: {now:,.2f} {what}, and {os.path.basename(FIGURES)} says {then:,}')
    if options.write:
        with open(FIGURES, 'w', encoding='utf-8') as file:
            file.write('\n'.join(table) + '\n')
        return 0
    for fault in faults:
        print(fault)
    return 1 if faults else 0


if __name__ == '__main__':
    sys.exit(main())
