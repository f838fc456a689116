#!/usr/bin/env python3
"""Times questions over rows in memory and over a store, on logs whose answers grow with the log and on logs whose answers don't.

    bench/time_walks.py [--program ./crates/audit_cli/out/audit_cli] [--seed 1] [--sizes 10,100,1000] [--asked 200] [--modes plain,continuous]
                        [--logs local,shared]

A `shared` log is one run of make_log.py: its processes share few objects, so answers grow with the log. A `local` log has parts of about 0.5 MB, like a
host with many short jobs in containers. Up to 20 parts come from make_log.py by seeds of their own; then they are repeated. Each has its own pids, file
numbers, names and addresses, times and serial numbers go on from part to part, and the processes of a part end with it. So no flow leads from one part to
another. First it is checked, over a small such log, that the answers of `back` and `fore` about each object are those over its part alone.

Each log is taken by `watch` (rows in memory) and by `reduce` into a store, which `query` opens. Both are asked the same, once all is taken or opened:
`back` and `fore` about random objects, `why` for each of these, by turns from any object and, if there is one, from another that reaches it, and `show`,
which walks nowhere. Printed are the median and the 95th of a hundred of the time from a question to its reply, of the objects in its answer, and of the
rows that its walk may read, counted in the store by plain_store.py: those that enter an object of the answer (`back`), that leave one (`fore`), or that
enter an object of the second object's answer to `back` (`why`). Beside them stands the time of all questions of a kind for each of these rows. Below them
stand the same of the small answers, whose walks read ten rows at most, and of the large ones, with at least half of all objects, whose walks read nearly
all rows and so cost what a scan would. Last come the growths from the smallest to the largest log. Peaks are those of the program alone (VmHWM). It ends
with status 1 if a reply over the store isn't, byte for byte, the one in memory.
"""
import argparse
import array
import itertools
import json
import os
import random
import re
import struct
import subprocess
import sys
import tempfile
from pathlib import Path
from time import perf_counter

from plain_store import ENTITY, KEPT, ROWS, Spelling, batches_of
from runs import PROGRAM, made_log
from time_log import BYTES_OF_AN_EVENT, machine
from time_stores import HEAD, Cost

TAKE_ALL = ['take 999999999999999', 'settle', 'stat']
WAYS = ['back', 'fore', 'why']
MODES_OF_ALL = ['plain', 'continuous', 'full']
KEPT_ROW = struct.Struct('<xII37x')
# Of a small answer: what it costs is what every question costs.
FEW_ROWS = 10

BYTES_OF_A_PART = 500_000
DIFFERENT_PARTS = 20
# How far the numbers of one part are from those of the next. No part has greater ones.
STEPS = {'process': 1_000, 'file': 10_000}
FORKS = [b'56', b'57', b'435']
END = b'231'
CALL = re.compile(rb' syscall=(\d+)(?: success=\w+ exit=(-?\d+))? .* pid=(\d+) ')
# Where a number stands that is a part's own: in the stamp of a line, of a process or the child of a fork, of a file or in its name, and in an address.
OWN = re.compile(b'|'.join([
    rb'(?<=audit\()(?P<second>\d+)',
    rb'(?<=:)(?P<serial>\d+)(?=\):)',
    rb'(?:(?<=pid=)%s)(?P<process>\d+)' % b''.join(rb'|(?<=syscall=%s success=yes exit=)' % call for call in FORKS),
    rb'(?:(?<=inode=)|(?<=name="data/f))(?P<file>\d+)',
    rb'(?<=saddr=0200[0-9A-F]{4})(?P<address>C0A800)']))


# ---- logs


def live_at_end(log):
    """The pids that live when this log ends."""
    live = {}
    for call, exited, pid in CALL.findall(log):
        live[pid] = None
        if call in FORKS:
            live[exited] = None
        if call == END:
            del live[pid]
    return list(live)


def ends(pids, second, serial):
    """The lines by which these processes end."""
    for number, pid in enumerate(pids, serial):
        stamp = f'msg=audit({second}.000:{number}):'
        yield f'type=SYSCALL {stamp} arch=c000003e syscall=231 a0=0 a1=0 a2=0 a3=0 items=0 ppid=1 pid={pid.decode()} \ntype=EOE {stamp} \n'.encode()


class Part:
    """The lines of a part, with room for each number that is its own."""

    def __init__(self, path, seed):
        log = made_log(path, seed, BYTES_OF_A_PART // BYTES_OF_AN_EVENT).read_bytes()
        self.kinds, self.numbers = [], []
        self.text = OWN.sub(self.room, log.replace(b'%', b'%%'))
        last = b''.join(ends(live_at_end(log), self.greatest('second') + 1, self.greatest('serial') + 1))
        self.text += OWN.sub(self.room, last)
        self.seconds = self.greatest('second') - min(self.all_of('second')) + 1
        self.events = self.greatest('serial')
        if any(self.greatest(kind) >= step for kind, step in STEPS.items()):
            raise SystemExit(f'the part of seed {seed} has a number above {STEPS}')

    def room(self, found):
        kind = found.lastgroup
        self.kinds.append(kind)
        self.numbers.append(0 if kind == 'address' else int(found[0]))
        return b'0A%04X' if kind == 'address' else b'%d'

    def all_of(self, kind):
        return [number for number, of in zip(self.numbers, self.kinds) if of == kind]

    def greatest(self, kind):
        return max(self.all_of(kind))

    def lines(self, shifts):
        """The part's lines with numbers that are greater by this much."""
        return self.text % tuple([number + shifts[kind] for number, kind in zip(self.numbers, self.kinds)])


def pieces(parts):
    """The lines of one part after the other, without an end."""
    second = serial = 0
    for number, part in enumerate(itertools.cycle(parts)):
        yield part.lines({'second': second, 'serial': serial, 'address': number, **{kind: number * step for kind, step in STEPS.items()}})
        second, serial = second + part.seconds, serial + part.events


def write_local(path, megabytes, parts):
    """Writes a local log of this size, and gives the number of its parts."""
    with open(path, 'wb') as out:
        for number, piece in enumerate(pieces(parts), 1):
            out.write(piece)
            if out.tell() >= megabytes * 1_000_000:
                return number


# ---- runs


class Session:
    """A run of the program that is asked one question after the other."""

    def __init__(self, *words):
        self.child = subprocess.Popen(list(map(str, words)), stdin=subprocess.PIPE, stdout=subprocess.PIPE, bufsize=0)
        self.replies = os.fdopen(os.dup(self.child.stdout.fileno()), 'rb', 1 << 20)

    def ask(self, question):
        """The seconds from the question to its reply, and the reply."""
        line = question.encode() + b'\n'
        begun = perf_counter()
        self.child.stdin.write(line)
        reply = self.replies.readline()
        taken = perf_counter() - begun
        if not reply:
            raise SystemExit(f'{self.child.args}: status {self.child.wait()} at {question}')
        return taken, reply

    def ask_all(self, questions, note):
        """The seconds of each of these questions; the replies are noted one by one."""
        taken = []
        for question in questions:
            seconds, reply = self.ask(question)
            taken.append(seconds)
            note(question, reply)
        return taken

    def end(self):
        """The peak of memory in MB, once the program has ended."""
        status = Path(f'/proc/{self.child.pid}/status').read_text(encoding='utf-8')
        self.ask('end')
        self.child.stdin.close()
        self.replies.close()
        if self.child.wait():
            raise SystemExit(f'{self.child.args}: status {self.child.returncode}')
        return next(int(line.split()[1]) / 1024 for line in status.splitlines() if line.startswith('VmHWM'))


def rows_by_object(store, known):
    """How many rows of a store enter each object, and how many leave it."""
    into, out = array.array('Q', bytes(8 * known)), array.array('Q', bytes(8 * known))
    for _, payload in batches_of(store.read_bytes())[0]:
        read = Spelling(payload)
        read.take(HEAD)
        while payload[read.at] == ENTITY:
            ROWS[read.number(1)](read)
        end = read.at
        while payload[end] == KEPT:
            end += KEPT_ROW.size
        for source, target in KEPT_ROW.iter_unpack(memoryview(payload)[read.at:end]):
            into[target] += 1
            out[source] += 1
    return into, out


class Walks:
    """The questions about one log in one mode, the seconds of each in memory and over the store, and the sizes of their answers."""

    def __init__(self, program, mode, log, folder, options):
        self.program, self.mode, self.log, self.asked, self.seed = program, mode, log, options.asked, options.seed
        self.store, self.replies, self.differing = folder / 'store', folder / 'replies', []
        self.megabytes = log.stat().st_size / 1e6
        self.ask_memory()
        self.ask_store()
        self.measure_answers()
        self.store.unlink()
        self.replies.unlink()

    def ask_memory(self):
        session = Session(self.program, 'watch', self.mode, self.log)
        take, settle, (_, self.counts) = [session.ask(question) for question in TAKE_ALL]
        self.taking, self.stat = take[0] + settle[0], json.loads(self.counts)
        rng, known = random.Random(self.seed), self.stat['known']
        objects = [rng.randrange(known) for _ in range(self.asked)]
        self.questions = [f'{way} {one}' for way in WAYS[:2] for one in objects]
        with open(self.replies, 'w+b') as replies:
            self.memory = session.ask_all(self.questions, lambda _, reply: replies.write(reply))
            replies.seek(0)
            others = [self.other(rng, index, replies.readline()) for index in range(self.asked)]
            replies.seek(0, os.SEEK_END)
            more = [f'why {other} {one}' for other, one in zip(others, objects)] + [f'show {one}' for one in objects]
            self.memory += session.ask_all(more, lambda _, reply: replies.write(reply))
        self.questions += more
        self.memory_peak = session.end()

    def other(self, rng, index, reply):
        """By turns any object, and another one that reaches the object of this reply to `back`, if there is one."""
        said = json.loads(reply)
        reaching = [one for one in said['ids'] if one != said['back']] if index % 2 else []
        return rng.choice(reaching or range(self.stat['known']))

    def ask_store(self):
        self.store.unlink(missing_ok=True)
        self.reducing = Cost([self.program, 'reduce', self.mode, self.log, self.store], b'', 1).seconds
        self.opening = Cost([self.program, 'query', self.store], b'end\n', 3).seconds
        session = Session(self.program, 'query', self.store)
        self.compare('stat', self.counts, session.ask('stat')[1])
        with open(self.replies, 'rb') as replies:
            self.over_store = session.ask_all(self.questions, lambda question, reply: self.compare(question, replies.readline(), reply))
        self.store_peak = session.end()

    def compare(self, question, expected, reply):
        if reply != expected:
            self.differing.append(question)
            print(f'{self.mode}, {self.megabytes:.1f} MB: {question}: in memory {expected[:300]!r}, over the store {reply[:300]!r}')

    def measure_answers(self):
        """The objects of each answer, and the rows that its walk may read; of `why` those of its second object's `back`."""
        into, out = rows_by_object(self.store, self.stat['known'])
        if sum(into) != self.stat['kept']:
            raise SystemExit(f'{self.store}: {sum(into)} rows, not {self.stat["kept"]}')
        self.stored = self.store.stat().st_size / 1e6
        self.objects, self.rows = [], []
        with open(self.replies, 'rb') as replies:
            for counts in [into] * self.asked + [out] * self.asked:
                ids = json.loads(replies.readline())['ids']
                self.objects.append(len(ids))
                self.rows.append(sum(map(counts.__getitem__, ids)))
            paths = [json.loads(replies.readline())['path'] for _ in range(self.asked)]
        self.objects += self.objects[:self.asked]
        self.rows += self.rows[:self.asked]
        self.steps = [len(path) for path in paths if path is not None]

    def of(self, way):
        """For each question of this kind its seconds in memory, its seconds over the store, the objects and the rows of its walk."""
        begun = [*WAYS, 'show'].index(way) * self.asked
        return [column[begun:begun + self.asked] for column in (self.memory, self.over_store, self.objects, self.rows)]

    def print_runs(self):
        print(f'  {self.mode}: {self.stat["kept"]} rows of {self.stat["flows"]} flows, {self.stat["known"]} objects')
        print(f'    memory: taken in {self.taking:.3f} s, peak {self.memory_peak:.1f} MB')
        print(f'    store: reduced in {self.reducing:.3f} s to {self.stored:.1f} MB, opened in {self.opening:.3f} s, peak {self.store_peak:.1f} MB; '
              f'{len(self.questions) - len(self.differing)} of {len(self.questions)} replies as in memory')

    def print_way(self, way):
        memory, store, objects, rows = self.of(way)
        print(f'    {way}: memory {milliseconds(memory)}; store {milliseconds(store)}; objects {counted(objects)}; rows {counted(rows)}; '
              f'for each row {1e9 * sum(memory) / max(1, sum(rows)):.0f} and {1e9 * sum(store) / max(1, sum(rows)):.0f} ns')
        self.print_some('small answers', memory, store, rows, [place for place, count in enumerate(rows) if count <= FEW_ROWS])
        self.print_some('large answers', memory, store, rows, [place for place, count in enumerate(objects) if 2 * count >= self.stat['known']])

    def print_some(self, text, memory, store, rows, places):
        memory, store, rows = [[column[place] for place in places] for column in (memory, store, rows)]
        if places:
            print(f'      {text}, {len(places)} of {self.asked}: memory {milliseconds(memory)}; store {milliseconds(store)}; '
                  f'rows {counted(rows)} of {self.stat["kept"]}')

    def print_all(self):
        self.print_runs()
        for way in WAYS:
            self.print_way(way)
        print(f'      {len(self.steps)} of {self.asked} pairs have a path; steps {counted(self.steps)}')
        memory, store, _, _ = self.of('show')
        print(f'    show, which walks nowhere: memory {milliseconds(memory)}; store {milliseconds(store)}', flush=True)


def middle_and_high(column):
    """The median and the 95th of a hundred, or zeros of nothing."""
    ascending = sorted(column) or [0]
    return ascending[len(ascending) // 2], ascending[len(ascending) * 95 // 100]


def milliseconds(column):
    middle, high = middle_and_high(column)
    return f'median {1000 * middle:.3f} ms, 95th {1000 * high:.3f} ms'


def counted(column):
    middle, high = middle_and_high(column)
    return f'median {middle}, 95th {high}'


# ---- the check of a local log


def answers_of(program, log):
    """The number of objects of a log, and of each the ids in the answers to `back` and `fore`."""
    session = Session(program, 'watch', 'plain', log)
    known = json.loads([session.ask(question) for question in TAKE_ALL][2][1])['known']
    found = [[json.loads(session.ask(f'{way} {one}')[1])['ids'] for way in WAYS[:2]] for one in range(known)]
    session.end()
    return known, found


def check_local(program, folder, parts, count):
    """Ends the script if an answer over these many parts isn't the one over its part alone."""
    log, alone = folder / 'log', folder / 'alone'
    log.write_bytes(b''.join(itertools.islice(pieces(parts), count)))
    _, found = answers_of(program, log)
    expected = []
    for part in itertools.islice(itertools.cycle(parts), count):
        alone.write_bytes(next(pieces([part])))
        begun = len(expected)
        expected += [[[begun + other for other in ids] for ids in answers] for answers in answers_of(program, alone)[1]]
    if found != expected:
        raise SystemExit('a local log: its answers are not those of its parts')
    print(f'a local log of {count} parts: the answers to back and fore about each of its {len(found)} objects are those over its part alone')


# ---- all logs


def print_growth(kind, small, large):
    """By what each cost is greater than for the smallest log, all questions of a kind together, and for the medians of their times."""
    sizes = f'from {small.megabytes:.1f} to {large.megabytes:.1f} MB'
    print(f'{kind}, {large.mode}, {sizes}: {large.stat["kept"] / small.stat["kept"]:.2f} times the rows of the log')
    for way in WAYS:
        memory, store, _, rows = [sum(more) / max(1e-9, sum(less)) for more, less in zip(large.of(way), small.of(way))]
        middles = [middle_and_high(more)[0] / middle_and_high(less)[0] for more, less in zip(large.of(way)[:2], small.of(way)[:2])]
        print(f'  {way}: {rows:.2f} times the rows that walks may read, {memory:.2f} times the time in memory (the median {middles[0]:.2f}), '
              f'{store:.2f} times over the store (the median {middles[1]:.2f})')


def print_kind(kind, program, folder, parts, options):
    """Whether all replies agree."""
    found, log = {mode: [] for mode in options.modes.split(',')}, folder / 'log'
    for megabytes in map(int, options.sizes.split(',')):
        begun = perf_counter()
        if kind == 'local':
            text = f'{write_local(log, megabytes, parts)} parts'
        else:
            made_log(log, options.seed, megabytes * 1_000_000 // BYTES_OF_AN_EVENT)
            text = 'one part'
        print(f'{kind}, {log.stat().st_size / 1e6:.1f} MB, {text}, made in {perf_counter() - begun:.1f} s', flush=True)
        for mode, walks in found.items():
            walks.append(Walks(program, mode, log, folder, options))
            walks[-1].print_all()
    for walks in found.values():
        if len(walks) > 1:
            print_growth(kind, walks[0], walks[-1])
    return not any(walk.differing for walks in found.values() for walk in walks)


def main():
    parser = argparse.ArgumentParser(description=__doc__, formatter_class=argparse.RawDescriptionHelpFormatter)
    parser.add_argument('--program', default=PROGRAM)
    parser.add_argument('--seed', type=int, default=1)
    parser.add_argument('--sizes', default='10,100,1000')
    parser.add_argument('--asked', type=int, default=200)
    parser.add_argument('--modes', default='plain,continuous')
    parser.add_argument('--logs', default='local,shared')
    options = parser.parse_args()
    if not set(options.modes.split(',')) <= set(MODES_OF_ALL) or not set(options.logs.split(',')) <= {'local', 'shared'}:
        parser.error(f'modes are {", ".join(MODES_OF_ALL)}, logs local and shared')
    program = os.path.abspath(options.program)
    print(machine())
    with tempfile.TemporaryDirectory() as name:
        folder = Path(name)
        parts = [Part(folder / 'part', options.seed + number) for number in range(DIFFERENT_PARTS)] if 'local' in options.logs else []
        if parts:
            check_local(program, folder, parts[:3], 5)
        agree = [print_kind(kind, program, folder, parts, options) for kind in options.logs.split(',')]
    print(f'the load of the machine meanwhile: {os.getloadavg()[0]:.1f}')
    return 0 if all(agree) else 1


if __name__ == '__main__':
    sys.exit(main())
