#!/usr/bin/env python3
"""Whether what users do by mistake at a store ends with its status, and leaves the store as it was.

    bench/mistakes.py [--program ./crates/audit_cli/out/audit_cli] [--seed 1] [--only WORD] [--values 2]

A store of another mode, files that are none, empty files, folders, files without permission, logs and stores in each other's place, a shorter
log, a full disk, numbers at the edge of what continues a store, a store cut short at each length, and one of which each byte is changed in turn, to
`--values` values. A changed store is refused, with its place, or answered as the plain reading of bench/plain_store.py answers it, and a further log can
be taken into it. The stores that are changed are the example of docs/FORMATS.md and one that the program wrote. Prints what is wrong, and ends with
status 1 if something is.
"""
import argparse
import os
import random
import re
import subprocess
import sys
import tempfile
from pathlib import Path

from plain_store import NoStore, answer, batches_of, read_store, spelled
from runs import MODES, PROGRAM, TOP, lines_of, made_log, run

TWO_FLOWS = TOP / 'examples/two_flows.log'
FIRST_LINE = 140
QUESTIONS = ['stat', *(f'{way} {of}' for of in range(4) for way in ('back', 'fore', 'show')), 'back 1 1.000', 'fore 0 1.001', 'find /p', 'end']
# Two processes write a file, and then the first one again.
THREE_WRITES = ''.join(
    f'type=SYSCALL msg=audit({at}.000:{at}): arch=c000003e syscall=90 success=yes exit=0 a0=0 a1=0 a2=0 a3=0 items=0 ppid=1 pid={pid} comm="p" exe="/p"\n'
    f'type=PATH msg=audit({at}.000:{at}): item=0 name="/f7" inode=7 dev=08:01 nametype=NORMAL\ntype=EOE msg=audit({at}.000:{at}): \n'
    for at, pid in ((1, 100), (2, 200), (3, 100)))
LIMITED_EVENTS, DISKS, PAGE = 24_000, 3, 4096
SHOWN = 20


def example_of_the_formats():
    """The store that stands byte for byte in docs/FORMATS.md."""
    text = (TOP / 'docs/FORMATS.md').read_text().partition('An example, made by hand: a store')[2]
    return b''.join(bytes.fromhex(row) for row in re.findall(r'^\| [0-9]+ \|.*\| `([0-9A-F ]+)` \|$', text.partition('## ')[0], re.M))


class Mistakes:
    """The folder in which the mistakes are made, and what was wrong."""

    def __init__(self, folder, options):
        self.folder, self.program, self.values = folder, options.program, options.values
        self.rng, self.faults, self.runs = random.Random(options.seed), [], 0

    def file(self, name, content=b''):
        path = self.folder / name
        path.write_bytes(content)
        return path

    def run(self, *words, questions=b'', **limits):
        self.runs += 1
        ran = run(words, questions, self.program, **limits)
        if ran.fault():
            self.faults.append(f'{" ".join(map(str, words))}: {ran.fault()}')
        return ran

    def expect(self, status, text, *words, keeps=(), **limits):
        """A run that ends so, and leaves these files as they were."""
        kept = [path.read_bytes() for path in keeps]
        ran = self.run(*words, **limits)
        changed = [path.name for path, content in zip(keeps, kept) if path.read_bytes() != content]
        if (ran.status, ran.text) != (status, text) or (status and ran.out) or changed:
            got = f'status {ran.status}, {ran.text!r}, {ran.out[:80]!r} written, {changed} changed'
            self.faults.append(f'{" ".join(map(str, words))}: {got}; wanted status {status}, {text!r}')
        return ran

    def store(self, name, mode='plain', log=TWO_FLOWS):
        path = self.file(name)
        self.expect(0, '', 'reduce', mode, log, path)
        return path


def other_modes(here):
    for kept in MODES:
        store = here.store(f'{kept}.store', kept)
        for asked in (mode for mode in MODES if mode != kept):
            for words in ([], ['--resume']):
                here.expect(8, f'wrong mode: kept {kept}, asked {asked}', 'reduce', asked, TWO_FLOWS, store, *words, keeps=[store])


def files_that_are_no_stores(here):
    one = example_of_the_formats()
    other = here.store('plain.store').read_bytes()
    last = len(one) - 1
    for content, place in [(TWO_FLOWS.read_bytes(), 0), (bytes(100), 0), (b'\xa5', 0), (one[:-1], 0), (one[:13] + b'\x02' + one[14:], 0),
                           (one[:last] + other, last), (one[:last] + one, last), (one[:last] + b'\x00', last),
                           (one[:last] + b'\xa5' + bytes(8) + b'\x5a', last)]:
        path = here.file('no.store', content)
        for words in (['reduce', 'continuous', TWO_FLOWS, path], ['reduce', 'continuous', TWO_FLOWS, path, '--resume'], ['query', path]):
            here.expect(7, f'bad store at {place}', *words, keeps=[path])


def one_change(here):
    """The store of three writes in full mode, changed at one place: where it is refused, or what it still answers."""
    log = here.file('writes.log', THREE_WRITES.encode())
    store = here.store('full.store', 'full', log)
    one, counts = store.read_bytes(), here.run('query', store, questions=b'stat\n').out
    last = 9 + int.from_bytes(one[1:9], 'little')
    if (one[:1], one[9:14], one[last:]) != (b'\xa5', b'ADLR\x01', b'\x5a'):
        here.faults.append(f'a new store is {one[:14].hex()} .. {one[last:].hex()}')
    for content, place in [(b'\x5a' + one[1:], 0), (b'\x41' + one[1:], 0), (one[:9] + b'\x42' + one[10:], 0), (one[:13] + b'\x09' + one[14:], 0),
                           (one[:-1], 0), (one[:-1] + b'\x00', last)]:
        path = here.file('changed.store', content)
        here.expect(7, f'bad store at {place}', 'query', path, keeps=[path])
        if content[:1] == b'\x5a':
            if here.expect(0, '', 'reduce', 'full', log, path).out != counts or path.read_bytes() != one:
                here.faults.append('a store whose first gate was closed is made again otherwise')
        else:
            here.expect(7, f'bad store at {place}', 'reduce', 'full', log, path, keeps=[path])
    path = here.file('longer.store', one + b'\x00')
    if here.expect(0, '', 'query', path, questions=b'stat\n', keeps=[path]).out != counts:
        here.faults.append('a store with a byte after its end has other counts')


def empty_files(here):
    for content in (b'', b'\x5a', b'\x5a and what no gate opens'):
        path = here.file('empty.store', content)
        here.expect(7, 'bad store at 0', 'query', path, keeps=[path])
        here.expect(0, '', 'reduce', 'full', TWO_FLOWS, path)
        if here.run('query', path, questions=b'back 2\n').out != b'{"back":2,"ids":[0,1,2]}\n':
            here.faults.append(f'a store that began with {content!r} has another answer')


def no_files(here):
    folder, missing = here.folder / 'folder', here.folder / 'missing'
    folder.mkdir()
    store = here.store('kept.store')
    for words in (['reduce', 'plain', TWO_FLOWS, folder], ['query', folder], ['query', missing], ['query', missing / 'store'],
                  ['reduce', 'plain', TWO_FLOWS, missing / 'store'], ['reduce', 'plain', TWO_FLOWS, '/dev/full'], ['query', '/dev/null']):
        here.expect(6, 'store fault', *words)
    for log in (folder, missing):
        here.expect(4, 'read fault', 'reduce', 'plain', log, store, keeps=[store])
        here.expect(4, 'read fault', 'reduce', 'plain', log, store, '--resume', keeps=[store])
    here.expect(2, 'bad words', 'reduce', 'plain', TWO_FLOWS, '')
    here.expect(2, 'bad words', 'query')
    if missing.exists():
        here.faults.append('a query made a store')
    here.expect(4, 'read fault', 'reduce', 'plain', missing, here.folder / 'new')
    if (here.folder / 'new').read_bytes():
        here.faults.append('a store without a log isn\'t empty')


def files_without_permission(here):
    """As nobody, if a user who may everything runs this."""
    here.folder.chmod(0o755)
    store, log, closed = here.store('kept.store'), here.file('closed.log', TWO_FLOWS.read_bytes()), here.folder / 'closed'
    closed.mkdir(mode=0o555)
    own = here.file('own.store')
    here.expect(0, '', 'reduce', 'plain', TWO_FLOWS, own)
    own.chmod(0o666)
    store.chmod(0)
    log.chmod(0)
    for words in (['reduce', 'plain', TWO_FLOWS, store], ['query', store], ['reduce', 'plain', TWO_FLOWS, closed / 'new']):
        here.expect(6, 'store fault', *words, as_nobody=True, keeps=[store] if os.getuid() == 0 else [])
    here.expect(4, 'read fault', 'reduce', 'plain', log, own, as_nobody=True, keeps=[own])
    store.chmod(0o444)
    here.expect(6, 'store fault', 'query', store, as_nobody=True, keeps=[store])


def logs_and_stores(here):
    log, store = here.file('some.log', TWO_FLOWS.read_bytes()), here.store('some.store')
    for words in (['reduce', 'plain', log, log], ['reduce', 'plain', log, log, '--resume'], ['reduce', 'plain', store, log], ['query', log]):
        here.expect(7, 'bad store at 0', *words, keeps=[log, store])
    here.expect(0, '', 'watch', 'plain', store, keeps=[store], questions=b'take 9999\nsettle\n')
    first = here.file('first.log', TWO_FLOWS.read_bytes()[:FIRST_LINE])
    here.expect(10, f'short log: taken {log.stat().st_size}, had {FIRST_LINE}', 'reduce', 'plain', first, store, '--resume', keeps=[first, store])
    asked = lines_of(f'{way} {of}' for of in range(4) for way in ('back', 'fore', 'show'))
    wanted = here.run('query', store, questions=asked).out
    here.expect(0, '', 'reduce', 'plain', store, store)
    if here.run('query', store, questions=asked).out != wanted:
        here.faults.append('a store that was taken as a log into itself answers otherwise')


def mounted(folder, size):
    """Whether a disk of this size could be put in the place of a folder."""
    return subprocess.run(['mount', '-t', 'tmpfs', '-o', f'size={size}', 'tmpfs', folder], stderr=subprocess.DEVNULL).returncode == 0


def full_disks(here):
    """A disk that is full, or a limit on the size of files where none can be mounted: later the run goes on."""
    log = made_log(here.folder / 'long.log', 3, LIMITED_EVENTS)
    asked = lines_of([*(f'{way} {of}' for of in range(0, 5000, 250) for way in ('back', 'fore', 'show')), 'stat'])
    for mode in MODES:
        whole = here.store(f'{mode}.whole', mode, log)
        for turn in range(DISKS):
            size, disk = here.rng.randrange(PAGE, whole.stat().st_size - PAGE), here.folder / 'disk'
            disk.mkdir(exist_ok=True)
            is_mounted = turn > 0 and mounted(disk, size)
            store = disk / 'store'
            here.expect(6, 'store fault', 'reduce', mode, log, store, file_size=None if is_mounted else size)
            left = here.file('left.store', store.read_bytes())
            store.unlink()
            if is_mounted:
                subprocess.run(['umount', disk], check=True)
            whole_batches, (batches, broken, _) = batches_of(whole.read_bytes())[0], batches_of(left.read_bytes())
            if broken is not None or batches != whole_batches[:len(batches)]:
                here.faults.append(f'{mode}: a disk of {size} bytes has other batches')
            here.expect(0, '', 'reduce', mode, log, left, '--resume')
            if here.run('query', left, questions=asked).out != here.run('query', whole, questions=asked).out:
                here.faults.append(f'{mode}: after a full disk of {size} bytes the store answers otherwise')


def written_store(here):
    """A store of two batches that the program wrote, of a mode and with a line that isn't whole."""
    lines, mode = TWO_FLOWS.read_bytes(), here.rng.choice(['full', 'source'])
    store = here.store('written.store', mode, here.file('first.log', lines[:FIRST_LINE]))
    here.expect(0, '', 'reduce', mode, here.file('second.log', lines[FIRST_LINE:]), store)
    return store.read_bytes()


def wanted_of(content):
    """The status, text and replies over a store, by the plain reading; or the texts, if it has several faults."""
    try:
        store = read_store(content)
    except NoStore as fault:
        return 7, [f'bad store at {place}' for place in fault.args], b'', None
    if store is None:
        return 7, ['bad store at 0'], b'', None
    return 0, [''], lines_of(spelled(answer(store, question)) for question in QUESTIONS), store.mode


def asked_of(here, content, what, takes):
    """Asks a store of these bytes, and takes a further log into it."""
    path = here.file('changed.store', content)
    status, texts, replies, mode = wanted_of(content)
    ran = here.run('query', path, questions=lines_of(QUESTIONS))
    if ran.status != status or ran.text not in texts or ran.out != replies:
        here.faults.append(f'{what}: status {ran.status}, {ran.text!r}, {ran.out!r}; by the plain reading {status}, {texts}, {replies!r}')
    if path.read_bytes() != content:
        here.faults.append(f'{what}: a query changed it')
    if not takes:
        return
    if mode is None and content[:1] not in (b'', b'\x5a'):
        here.expect(7, ran.text, 'reduce', 'continuous', TWO_FLOWS, path, keeps=[path])
        return
    taken = here.run('reduce', mode or 'plain', TWO_FLOWS, path)
    if taken.status not in (0, 9):
        here.faults.append(f'{what}: reduce ends with status {taken.status}, {taken.text!r}')
    if taken.status == 0:
        here.expect(0, '', 'query', path, questions=b'stat\n')


def cut_stores(here):
    for name, content in ('the example', example_of_the_formats()), ('a written store', written_store(here)):
        for length in range(len(content) + 1):
            asked_of(here, content[:length], f'{name}, cut to {length} bytes', length % 7 == 0)


def changed_stores(here):
    for name, content in ('the example', example_of_the_formats()), ('a written store', written_store(here)):
        for at, byte in enumerate(content):
            values = sorted({0, 1, 2, 0x5a, 0xa5, 0xff, byte ^ 1, byte ^ 0x80, (byte + 1) % 256, (byte - 1) % 256} - {byte})
            for value in here.rng.sample(values, min(here.values, len(values))):
                asked_of(here, content[:at] + bytes([value]) + content[at + 1:], f'{name}, byte {at} is {value}', here.rng.random() < 0.4)


# Numbers of the example in docs/FORMATS.md, by what they are: the place, the size, values that continue a store, and values that don't.
EDGES = {
    'version': (13, 1, [1], [0, 2]),
    'mode, which alone may have Extend rows': (14, 1, [2], [0, 1, 3, 4, 5]),
    'source of a Kept row': (38, 4, [0], [1, 2]),
    'target of a Kept row': (42, 4, [1], [0, 2]),
    'how of a Kept row': (62, 1, [1, 6], [0, 7]),
    'link by target': (67, 8, [0], [1]),
    'link by source': (75, 8, [0], [1]),
    'row of an Extend row': (84, 8, [0], [1, 2 ** 63]),
    'time of an Extend row': (92, 8, [1000, 1001], [999, 1002]),
    'place of an Extend row': (100, 8, [1], [0, 2]),
    'life, at most the acts': (132, 8, [0, 6], [7]),
    'live flag of a pid that holds': (140, 1, [1], [0, 2]),
    'awaits flag before a pid': (141, 1, [1], [0]),
    'pid of a Held row': (148, 4, [100], [99]),
    'act of an address, below the acts': (167, 8, [0, 5], [6]),
    'births, at most the acts': (204, 8, [0, 6], [7]),
    'serial of what waits, which its line has': (221, 4, [9], [8]),
    'closed flag of the least group': (225, 1, [0], [1]),
    'bytes taken, one for each line and the one that has begun': (271, 8, [10, 2 ** 60], [9, 2 ** 60 + 1]),
    'bytes of this part': (279, 8, [0, 2 ** 60], [2 ** 60 + 1]),
    'lines, the sum of the classes': (287, 8, [9], [8, 10]),
    'excess': (327, 8, [2 ** 60], [2 ** 60 + 1]),
    'flows, above each place': (359, 8, [2, 2 ** 60], [1, 2 ** 60 + 1]),
    'acts, above each act that is named': (367, 8, [3, 2 ** 62], [2, 2 ** 62 + 1]),
    'greatest time seen, not before what waits nor 2,000 after it': (376, 8, [1002, 3002], [1001, 3003]),
    'released flag before a key': (384, 1, [1], [0]),
    'effective time, no earlier than a mark': (397, 8, [1001, 2 ** 60], [1000, 2 ** 60 + 1]),
    'long flag before a tail': (405, 1, [0], [1]),
    'byte of the tail': (410, 1, [0, 255], [10]),
    'number of a malformed line': (418, 8, [1, 9], [0, 10]),
    'fault of a malformed line': (426, 1, [0, 255], []),
}


def edges(here):
    example = example_of_the_formats()
    for what, (place, size, good, bad) in EDGES.items():
        for value in good + bad:
            content = example[:place] + value.to_bytes(size, 'little') + example[place + size:]
            path = here.file('edge.store', content)
            ran = here.run('query', path, questions=b'stat\n')
            status, text = (0, '') if value in good else (7, 'bad store at 0')
            if (ran.status, ran.text) != (status, text) or wanted_of(content)[0] != status:
                here.faults.append(f'{what}, {value}: status {ran.status}, {ran.text!r}, by the plain reading {wanted_of(content)[0]}; wanted {status}')


KINDS = [other_modes, files_that_are_no_stores, one_change, empty_files, no_files, files_without_permission, logs_and_stores, full_disks, edges, cut_stores,
         changed_stores]


def main():
    parser = argparse.ArgumentParser(description=__doc__, formatter_class=argparse.RawDescriptionHelpFormatter)
    parser.add_argument('--program', default=PROGRAM)
    parser.add_argument('--seed', type=int, default=1)
    parser.add_argument('--only', default='')
    parser.add_argument('--values', type=int, default=2)
    options = parser.parse_args()
    options.program = os.path.abspath(options.program)
    runs, faults = 0, []
    for kind in (kind for kind in KINDS if options.only in kind.__name__):
        with tempfile.TemporaryDirectory() as folder:
            here = Mistakes(Path(folder), options)
            kind(here)
        runs, faults = runs + here.runs, faults + [f'{kind.__name__.replace("_", " ")}: {fault}' for fault in here.faults]
    print(''.join(f'{fault}\n' for fault in faults[:SHOWN]), end='')
    print(f'{runs} runs over stores, {len(faults)} faults')
    return 1 if faults else 0


if __name__ == '__main__':
    sys.exit(main())
