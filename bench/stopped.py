#!/usr/bin/env python3
"""Whether a store whose run was stopped goes on as if it hadn't been.

    bench/stopped.py [--program ./crates/audit_cli/out/audit_cli] [--seed 7] [--events 24000] [--kills 4]

A generated log is taken into a store by one run. Then, in each mode and `--kills` times, it is taken by a run that is killed at a random moment, and by one
with `--resume` that is killed too. What a crash of the machine could leave is made of the file: as it is; cut at a random place after the
last closed gate, up to which everything was synced; with random bytes from there on; and with its last batch closed again, as if the gate's byte had been
lost, and random bytes after that gate. Each is resumed to its end. The file must be whole batches up to a closed gate, and the counts and
the replies to some questions must be those of the first store. Prints what differs, and ends with status 1 if something does.
"""
import argparse
import collections
import os
import random
import subprocess
import sys
import tempfile
import time
from pathlib import Path

from plain_store import CLOSED, batches_of
from runs import MODES, PROGRAM, lines_of, made_log, run

QUESTIONS = lines_of(['stat', *(line for of in range(0, 3000, 97) for line in (f'back {of}', f'show {of}', f'why {of // 2} {of}', f'fore {of}'))])
MOST_ADDED = 5_000
# What stands on a disk first: a run writes nothing else before this byte is synced.
FIRST = bytes([CLOSED])


def cut(rng, disk, synced, last):
    return disk[:rng.randrange(synced, len(disk) + 1)]


def overwritten(rng, disk, synced, last):
    return disk[:synced] + rng.randbytes(rng.randrange(len(disk) - synced + MOST_ADDED))


def closed_again(rng, disk, synced, last):
    """The disk with its last batch closed, if it has one, and random bytes in place of some of what stands after it."""
    if last is None:
        return overwritten(rng, disk, synced, last)
    kept = rng.randrange(last + 1, len(disk) + 1)
    return disk[:last] + bytes([CLOSED]) + disk[last + 1:kept] + rng.randbytes(rng.randrange(MOST_ADDED))


CRASHES = [cut, overwritten, closed_again]


class Stops:
    """The program, the log, and what was wrong."""

    def __init__(self, folder, options):
        self.folder, self.program, self.rng = folder, os.path.abspath(options.program), random.Random(options.seed)
        self.log = made_log(folder / 'log', options.seed, options.events)
        self.killed, self.resumed, self.faults, self.batches = 0, 0, [], collections.Counter()

    def reduced(self, mode, store, *words):
        ran = run(['reduce', mode, self.log, store, *words], program=self.program)
        return ran.status, ran.out

    def answers(self, store):
        return run(['query', store], QUESTIONS, self.program).out

    def kill(self, mode, store, seconds, *words):
        """A run that is killed at a random moment of these seconds."""
        ran = subprocess.Popen([self.program, 'reduce', mode, self.log, store, *words], stdout=subprocess.DEVNULL)
        time.sleep(self.rng.random() * seconds)
        ran.kill()
        self.killed += ran.wait() < 0

    def goes_on(self, mode, what, disk, wanted):
        """Notes if a store of these bytes doesn't go on to the counts and the answers of the one that was never stopped."""
        store = self.folder / 'crashed'
        store.write_bytes(disk)
        ran, answered = self.reduced(mode, store, '--resume'), self.answers(store)
        self.resumed += 1
        if (ran, answered) != wanted:
            replies = 'are the same' if answered == wanted[1] else 'differ'
            self.faults.append(f'{mode}, {what}: status and counts {ran}, wanted {wanted[0]}; the replies {replies}')

    def stop(self, mode, seconds, wanted):
        """One store, whose run and whose resumed run are killed."""
        store = self.folder / 'store'
        store.unlink(missing_ok=True)
        for words in ([], ['--resume']):
            self.kill(mode, store, seconds, *words)
            disk = store.read_bytes() if store.exists() else b''
            batches, broken, gate = batches_of(disk)
            self.batches[len(batches)] += 1
            if broken is not None:
                self.faults.append(f'{mode}: after a kill the file is no store at {broken}')
                return
            self.goes_on(mode, 'as it is', disk, wanted)
            disk, gate, last = disk or FIRST, gate or 0, batches[-1][0] if batches else None
            for crash in CRASHES:
                self.goes_on(mode, crash.__name__.replace('_', ' '), crash(self.rng, disk, gate + 1, last), wanted)


def main():
    parser = argparse.ArgumentParser(description=__doc__, formatter_class=argparse.RawDescriptionHelpFormatter)
    parser.add_argument('--program', default=PROGRAM)
    parser.add_argument('--seed', type=int, default=7)
    parser.add_argument('--events', type=int, default=24_000)
    parser.add_argument('--kills', type=int, default=4)
    options = parser.parse_args()
    with tempfile.TemporaryDirectory() as name:
        here = Stops(Path(name), options)
        for mode in MODES:
            whole = here.folder / f'{mode}.whole'
            begun = time.monotonic()
            counts = here.reduced(mode, whole)
            seconds = time.monotonic() - begun
            wanted = counts, here.answers(whole)
            for _ in range((options.kills + 1) // 2):
                here.stop(mode, seconds, wanted)
    print(''.join(f'{fault}\n' for fault in here.faults[:20]), end='')
    spread = ', '.join(f'{count} with {batches}' for batches, count in sorted(here.batches.items()))
    print(f'{here.killed} runs were killed ({spread} batches after it), {here.resumed} stores went on, {len(here.faults)} differ')
    return 1 if here.faults or not here.killed else 0


if __name__ == '__main__':
    sys.exit(main())
