#!/usr/bin/env python3
"""Times the built program's stores: taking a log into one beside only taking it, opening one, taking more into one, and what one takes of the disk.

    bench/time_stores.py [--program ./crates/audit_cli/out/audit_cli] [--seed 1] [--size 100] [--further 10] [--modes plain,continuous,full,source] [--runs 3]

The log comes from make_log.py. In each mode it is taken by `watch` (take all of it, settle, stat) and by `reduce` into a new store; the store is opened by
`query` without a question; and a further log is taken into the store, and alone into a new one. Printed are seconds (the best of `--runs` runs), of these the
seconds of processor in brackets, the peak of memory, and the store's bytes by kind of row. On a machine that does something else too, look at the seconds
of processor.
"""
import argparse
import collections
import json
import os
import shutil
import subprocess
import tempfile
from pathlib import Path
from time import perf_counter

from plain_store import ADDRESS, BORN, ENTITY, EXTEND, HELD, KEPT, LIFE, NAME, ROWS, STATE, WAITING, Spelling, batches_of
from runs import MODES, PROGRAM, made_log
from time_log import BYTES_OF_AN_EVENT, machine

KINDS = {KEPT: 'Kept', ENTITY: 'Entity', NAME: 'Name', EXTEND: 'Extend', LIFE: 'Life', HELD: 'Held', ADDRESS: 'Address', BORN: 'Born',
         WAITING: 'Waiting', STATE: 'State'}
TAKE_ALL = b'take 999999999999999\nsettle\nstat\nend\n'
HEAD = 6


class Cost:
    """The least seconds and seconds of processor of some runs, the greatest peak of memory in MB, and the last output."""

    def __init__(self, words, questions, count, begin=lambda: None):
        self.seconds = self.processor = float('inf')
        self.peak = 0
        for _ in range(count):
            begin()
            began = perf_counter()
            child = subprocess.Popen(list(map(str, words)), stdin=subprocess.PIPE, stdout=subprocess.PIPE)
            child.stdin.write(questions)
            child.stdin.close()
            self.out = child.stdout.read()
            _, status, usage = os.wait4(child.pid, 0)
            child.returncode = os.waitstatus_to_exitcode(status)
            if child.returncode:
                raise SystemExit(f'{words}: status {child.returncode}')
            self.seconds = min(self.seconds, perf_counter() - began)
            self.processor = min(self.processor, usage.ru_utime + usage.ru_stime)
            self.peak = max(self.peak, usage.ru_maxrss / 1024)

    def __str__(self):
        return f'{self.seconds:.3f} s ({self.processor:.3f}), peak {self.peak:.1f} MB'


def bytes_by_kind(store):
    """How many bytes the rows of each kind take, and how many batches there are."""
    found, batches = collections.Counter(), batches_of(store.read_bytes())[0]
    for _, payload in batches:
        read = Spelling(payload)
        read.take(HEAD)
        while read.at < len(payload):
            begun, tag = read.at, read.number(1)
            ROWS[tag](read)
            found[tag] += read.at - begun
    return found, len(batches)


def halves(folder, seed, size, further):
    """A log of this many megabytes, and the one that goes on from it."""
    events = [megabytes * 1_000_000 // BYTES_OF_AN_EVENT for megabytes in (size, size + further)]
    log, both, rest = folder / 'log', folder / 'both', folder / 'further'
    made_log(log, seed, events[0])
    made_log(both, seed, events[1])
    with open(both, 'rb') as whole:
        whole.seek(log.stat().st_size)
        rest.write_bytes(whole.read())
    both.unlink()
    return log, rest


class Times:
    def __init__(self, folder, options):
        self.folder, self.program, self.runs, self.kept = folder, os.path.abspath(options.program), options.runs, {}
        self.log, self.further = halves(folder, options.seed, options.size, options.further)

    def cost(self, words, questions=b'', begin=lambda: None):
        return Cost([self.program, *words], questions, self.runs, begin)

    def print_mode(self, mode):
        store, copy, megabytes = self.folder / mode, self.folder / 'copy', self.log.stat().st_size / 1e6
        watch = self.cost(['watch', mode, self.log], TAKE_ALL)
        reduce = self.cost(['reduce', mode, self.log, store], begin=lambda: store.unlink(missing_ok=True))
        print(f'{mode}, {megabytes:.1f} MB: watch {watch}; reduce {reduce}; {reduce.seconds / watch.seconds:.2f} times '
              f'({reduce.processor / watch.processor:.2f})')
        self.kept[mode] = json.loads(reduce.out)['kept']
        opened = self.cost(['query', store])
        stored = store.stat().st_size / 1e6
        print(f'  opened: {opened}; {stored / opened.seconds:.0f} MB/s ({stored / opened.processor:.0f}) of {stored:.1f} MB')
        alone = self.cost(['reduce', mode, self.further, copy], begin=lambda: copy.unlink(missing_ok=True))
        more = self.cost(['reduce', mode, self.further, copy], begin=lambda: shutil.copy(store, copy))
        print(f'  further {self.further.stat().st_size / 1e6:.1f} MB: into this store {more}; into a new one {alone}; the difference is '
              f'{(more.seconds - alone.seconds) / opened.seconds:.2f} ({(more.processor - alone.processor) / opened.processor:.2f}) openings', flush=True)

    def print_rows(self, mode):
        """Last, since a run's peak is never below what this script had when it began."""
        store, kept = self.folder / mode, self.kept[mode]
        (kinds, batches), size = bytes_by_kind(store), store.stat().st_size
        rows = ', '.join(f'{KINDS[tag]} {kinds[tag]}' for tag in KINDS if kinds[tag])
        print(f'{mode}: {size} bytes in {batches} batches; {kept} kept rows; {(size - kinds[NAME]) / kept:.1f} bytes a kept row beside Name rows; {rows}')


def main():
    parser = argparse.ArgumentParser(description=__doc__, formatter_class=argparse.RawDescriptionHelpFormatter)
    parser.add_argument('--program', default=PROGRAM)
    parser.add_argument('--seed', type=int, default=1)
    parser.add_argument('--size', type=int, default=100)
    parser.add_argument('--further', type=int, default=10)
    parser.add_argument('--modes', default=','.join(MODES))
    parser.add_argument('--runs', type=int, default=3)
    options = parser.parse_args()
    print(machine())
    with tempfile.TemporaryDirectory() as folder:
        times = Times(Path(folder), options)
        for mode in options.modes.split(','):
            times.print_mode(mode)
        for mode in options.modes.split(','):
            times.print_rows(mode)
        print(f'the load of the machine meanwhile: {os.getloadavg()[0]:.1f}')


if __name__ == '__main__':
    main()
