#!/usr/bin/env python3
"""Whether a log whose keys were chosen to collide is taken as fast as one with keys at random.

    bench/chosen_keys.py [--events 100000] [--runs 5] [--limit 1.2] [--only files,births,addresses,pids,names] [--program ./crates/audit_cli/out/audit_cli]

    files      changes of files with chosen file numbers
    births     files made, with chosen file numbers
    addresses  datagrams to chosen addresses
    pids       calls by chosen pids
    names      changes of files of which only the chosen name is known

Each case is two logs of one shape, one with chosen keys and one with keys at random. The keys are chosen against the kit's
hasher with its fixed seed: file numbers that all have one hash, and addresses, pids and names whose hashes stand for one
place in 128. So a program whose hashes begin with that seed looks through many keys for each of them. Printed are the
seconds of the processor, of each log the least of some runs, and how many times as long the chosen keys take. It ends with
status 1 if that is more than the limit in a case.
"""
import argparse
import os
import random
import sys
import tempfile

from hostile_tables import AS_BIRTH, AS_OBJECT, MASK, MULTIPLIER, SEED, Log, met, taken, written

# Of this many groups of the table chosen keys have one. A table of 100,000 keys has 8,192 groups, and its group is known
# by the lowest bits of a hash.
GROUPS = 128
LETTERS = b'abcdefghijklmnopqrstuvwxyzABCDEFGHIJKLMNOPQRSTUVWXYZ0123456789-_'
VARIANTS = {'path': 2, 'address': 3}


def group(state):
    """The lowest bits of the hash by which a table looks up."""
    return (state ^ state >> 32) & (GROUPS - 1)


def byte_written(state, byte):
    product = (state ^ (byte * 0x010101)) * (MULTIPLIER ^ 2)
    return (product & MASK) ^ (product >> 64)


def texts(count, variant, begin, chosen, rng):
    """Texts of one length that begin so: each with an object's key in the one group, or any."""
    found = []
    state = written(written(SEED, VARIANTS[variant], 8), len(begin) + 8, 8)
    for byte in begin:
        state = byte_written(state, byte)
    while len(found) < count:
        middle = bytes(rng.choices(LETTERS, k=7))
        now = state
        for byte in middle:
            now = byte_written(now, byte)
        lasts = [last for last in LETTERS if group(byte_written(now, last)) == 0] if chosen else [rng.choice(LETTERS)]
        found.extend(begin + middle + bytes([last]) for last in lasts)
    return found[:count]


def numbers(count, prefix, chosen, rng):
    """Devices with inodes: all with one hash, or any."""
    return [met(index, prefix) if chosen else (1 + index // 1024, index % 1024, rng.getrandbits(64)) for index in range(count)]


def files(log, count, chosen, rng):
    for place in numbers(count, AS_OBJECT, chosen, rng):
        log.call(90, 100, path=(*place, 'NORMAL'))


def births(log, count, chosen, rng):
    for place in numbers(count, AS_BIRTH, chosen, rng):
        log.call(2, 100, 3, path=(*place, 'CREATE'))


def addresses(log, count, chosen, rng):
    for address in texts(count, 'address', b'\1\0/run/', chosen, rng):
        log.call(44, 100, 5, args=(3, 0, 5, 0))
        print(f'{log.head("SOCKADDR")} saddr={address.hex().upper()}', file=log.file)


def names(log, count, chosen, rng):
    for name in texts(count, 'path', b'/srv/', chosen, rng):
        log.call(90, 100)
        print(f'{log.head("PATH")} item=0 name="{name.decode()}" nametype=NORMAL', file=log.file)


def pids(log, count, chosen, rng):
    found = set()
    while len(found) < count:
        pid = rng.randrange(2, 1 << 31)
        if not chosen or group(written(SEED, pid, 4)) == 0:
            found.add(pid)
    for pid in sorted(found, key=lambda _: rng.random()):
        log.call(90, pid, path=(8, 1, 7, 'NORMAL'))


CASES = {case.__name__: case for case in (files, births, addresses, pids, names)}


def least(program, paths, runs):
    """The least seconds of the processor for each log, the runs over them in turn, and the counts of the replies."""
    best, stats = [float('inf')] * len(paths), [''] * len(paths)
    for _ in range(runs):
        for place, path in enumerate(paths):
            _, busy, _, stats[place] = taken(program, 'plain', path)
            best[place] = min(best[place], busy)
    return best, stats


def main():
    parser = argparse.ArgumentParser(description=__doc__.splitlines()[0])
    parser.add_argument('--program', default=os.path.join(os.path.dirname(os.path.abspath(__file__)), '../crates/audit_cli/out/audit_cli'))
    parser.add_argument('--events', type=int, default=100_000)
    parser.add_argument('--runs', type=int, default=5)
    parser.add_argument('--limit', type=float, default=1.2)
    parser.add_argument('--only', default=','.join(CASES))
    options = parser.parse_args()
    slow = []
    with tempfile.TemporaryDirectory() as folder:
        for name in options.only.split(','):
            paths = [os.path.join(folder, f'{name}_{kind}.log') for kind in ('chosen', 'random')]
            for path, chosen in zip(paths, (True, False)):
                with open(path, 'w', encoding='utf-8') as file:
                    CASES[name](Log(file), options.events, chosen, random.Random(1))
            (chosen, plain), stats = least(options.program, paths, options.runs)
            times = chosen / plain
            print(f'{name:10} {options.events:,} events: chosen {chosen:.2f} s, random {plain:.2f} s, {times:.2f} times', flush=True)
            for stat in stats:
                if f'"events":{options.events},' not in stat:
                    sys.exit(f'not all events were taken: {stat}')
            if times > options.limit:
                slow.append(name)
            for path in paths:
                os.remove(path)
    if slow:
        print(f'chosen keys take more than {options.limit:g} times as long: {", ".join(slow)}')
    else:
        print(f'{len(options.only.split(","))} cases')
    return 1 if slow else 0


if __name__ == '__main__':
    sys.exit(main())
