#!/usr/bin/env python3
"""Whether `query` answers over a store what `watch` answers over the logs that were taken into it.

    bench/answers_of_stores.py [--program ./crates/audit_cli/out/audit_cli] [--seed 1] [--asked 200]

The logs are the real ones of examples/ and three generated ones, the last of them longer than a batch. In each mode a log is taken into a store by one
`reduce`, by one of each of several parts, and by one that goes on with `--resume` as the log grows, cut at ends of lines and within lines. Then each
question is asked of the store, and of `watch` over the whole log with a `settle` wherever a part ends: the counts, all objects of a small log or some
random ones of a large one, backward and forward, also at times, paths of random pairs, names, and questions outside the grammar. The replies must be
the same byte for byte. And the commands that docs/QUESTIONS.md names for a log that grows and is rotated are run in their order, in each mode, over a log
that does so. Prints the first difference, and ends with status 1 if there is one.
"""
import argparse
import os
import random
import sys
import tempfile
from pathlib import Path

from compare import names_of, times_of
from runs import MODES, PROGRAM, TOP, lines_of, made_log, run

EXAMPLES = ['two_flows.log', 'waited_read.log', 'web1_reads_writes.log', 'web1_sample.log']
# The events of the generated logs, and whether their lines are mixed; the last log is longer than a batch of 4 MiB.
GENERATED = [(2_000, ['--mix']), (1_500, []), (12_000, ['--mix'])]
BAD = ['back', 'fore x', 'why 0', 'find', 'show 4294967296', 'back 0 1', 'stat ', '', 'why 99999999 0', 'back 4294967295']


def questions_for(rng, log, known, asked):
    """Questions about the objects of a log."""
    times, names = times_of(log), names_of(log)
    of = range(known) if known <= asked else sorted(rng.sample(range(known), asked))
    at = lambda: rng.choice(['', f' {rng.choice(times)}'])
    lines = ['stat'] + [f'{way} {one}' for one in of for way in ('back', 'fore', 'show')]
    lines += [f'{way} {one} {rng.choice(times)}' for one in of for way in ('back', 'fore')]
    lines += [f'why {rng.choice(of)} {rng.choice(of)}{at()}' for _ in range(asked)] if known else []
    lines += [f'find {name}' for name in rng.sample(names, min(asked, len(names)))]
    return '\n'.join([*lines, *BAD, 'end', '']).encode('latin1')


def cuts_of(rng, log):
    """The sizes of parts: the whole log, two parts that end with lines, and some that end anywhere."""
    size, text = log.stat().st_size, log.read_bytes()
    line_end = text.find(b'\n', size // 2) + 1 or size
    anywhere = sorted(rng.randrange(size + 1) for _ in range(3))
    return [[size], [line_end, size - line_end], [end - begin for begin, end in zip([0, *anywhere], [*anywhere, size])]]


class Stores:
    """The program and a folder for stores, and how many replies were the same."""

    def __init__(self, folder, options):
        self.folder, self.program, self.asked = folder, os.path.abspath(options.program), options.asked
        self.rng, self.replies, self.stores = random.Random(options.seed), 0, 0

    def file(self, name, content):
        (self.folder / name).write_bytes(content)
        return self.folder / name

    def reduce(self, mode, log, store, *words):
        ran = run(['reduce', mode, log, store, *words], program=self.program)
        if ran.status != 0:
            raise SystemExit(f'reduce {mode} {log} {" ".join(words)}: status {ran.status}, {ran.text}')
        return ran.out

    def reduced(self, mode, log, parts, grows):
        """A store into which a log was taken in parts, or as it grows, and the last counts."""
        store, text, at = self.folder / 'store', log.read_bytes(), 0
        store.unlink(missing_ok=True)
        for size in parts:
            part = self.folder / 'part'
            part.write_bytes(text[:at + size] if grows else text[at:at + size])
            at += size
            counts = self.reduce(mode, part, store, *(['--resume'] if grows else []))
        return store, counts

    def difference(self, mode, log, parts):
        """What differs over a log that is taken in these parts, or None."""
        taken = [f'take {size}\nsettle' for size in parts]
        known = int(run(['watch', mode, log], lines_of([*taken, 'stat']), self.program).out.rpartition(b'"known":')[2].partition(b',')[0])
        asked = questions_for(self.rng, log, known, self.asked)
        wanted = run(['watch', mode, log], lines_of(taken) + asked, self.program).out.split(b'\n')[2 * len(parts):]
        for grows in (False, True):
            store, counts = self.reduced(mode, log, parts, grows)
            got = run(['query', store], asked, self.program).out.split(b'\n')
            self.stores, self.replies = self.stores + 1, self.replies + len(got) - 1
            if counts != wanted[0] + b'\n':
                return f'reduce says {counts!r}, watch {wanted[0]!r}'
            if got != wanted:
                place = next((place for place, (one, other) in enumerate(zip(got, wanted)) if one != other), min(len(got), len(wanted)))
                return f'{asked.splitlines()[place:place + 1]} has {got[place:place + 1]}, but watch says {wanted[place:place + 1]}'
        return None


def commands_for_rotated_logs():
    """The words of the commands in docs/QUESTIONS.md, in their order."""
    text = (TOP / 'docs/QUESTIONS.md').read_text()
    return [line.partition('#')[0].split()[1:] for line in text.splitlines() if line.startswith('    ./audit_cli reduce ') and '/var/log/audit' in line]


def difference_of_rotated_logs(here, mode):
    """What differs if a log is kept by these commands as it grows and is rotated, and then grows again; or None."""
    log, older, store = here.folder / 'audit.log', here.folder / 'audit.log.1', here.folder / 'host.store'
    text = (TOP / 'examples/web1_sample.log').read_bytes()
    ends = sorted(here.rng.sample(range(1, len(text)), 5)) + [len(text)]
    first, begun, grown, rotated, new, last = ends
    store.unlink(missing_ok=True)
    whole, begins, goes_on, rest, begins_again = commands_for_rotated_logs()
    # Each command, and what the two files are when it is given.
    for words, of_older, of_log in [(whole, (0, first), None), (begins, (0, first), (first, begun)), (goes_on, (0, first), (first, grown)),
                                    (rest, (first, rotated), (rotated, rotated)), (begins_again, (first, rotated), (rotated, new)),
                                    (goes_on, (first, rotated), (rotated, last))]:
        for path, part in ((older, of_older), (log, of_log)):
            path.write_bytes(text[part[0]:part[1]] if part else b'')
        places = {'full': mode, '/var/log/audit/audit.log': log, '/var/log/audit/audit.log.1': older, 'host.store': store}
        ran = run([places.get(word, word) for word in words], program=here.program)
        if ran.status != 0:
            return f'{words} has status {ran.status}, {ran.text!r}'
    taken = [f'take {end - begin}\nsettle' for begin, end in zip([0, *ends], ends)]
    asked = questions_for(here.rng, here.file('whole.log', text), 52, here.asked)
    wanted = run(['watch', mode, here.file('whole.log', text)], lines_of(taken) + asked, here.program).out.split(b'\n', 2 * len(taken))[-1]
    here.stores, here.replies = here.stores + 1, here.replies + wanted.count(b'\n')
    return None if run(['query', store], asked, here.program).out == wanted else f'parts that end at {ends} are answered otherwise'


def main():
    parser = argparse.ArgumentParser(description=__doc__, formatter_class=argparse.RawDescriptionHelpFormatter)
    parser.add_argument('--program', default=PROGRAM)
    parser.add_argument('--seed', type=int, default=1)
    parser.add_argument('--asked', type=int, default=200)
    options = parser.parse_args()
    with tempfile.TemporaryDirectory() as name:
        here = Stores(Path(name), options)
        logs = [TOP / 'examples' / log for log in EXAMPLES]
        logs += [made_log(here.folder / f'log{number}', options.seed + number, events, *words) for number, (events, words) in enumerate(GENERATED)]
        for mode in MODES:
            text = difference_of_rotated_logs(here, mode)
            if text:
                print(f'{mode}, a log that is rotated: {text}')
                return 1
            for log in logs:
                for parts in cuts_of(here.rng, log):
                    text = here.difference(mode, log, parts)
                    if text:
                        print(f'{mode}, {log.name} in parts of {parts} bytes: {text}')
                        return 1
    print(f'{here.stores} stores, {here.replies} replies as those of watch')
    return 0


if __name__ == '__main__':
    sys.exit(main())
