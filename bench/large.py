#!/usr/bin/env python3
"""Gives the built program large hostile logs and dialogues, and prints what each costs at two sizes.

    bench/large.py [--program ./audit_cli] [--mode plain] [--only WORD] [--scale 1.0] [--store]

For each shape, at a size and at four times of it: the seconds of the processor, the peak of memory, and the exponent of the seconds between the two, after
the time of an empty run is taken off. With `--store` the logs are taken by `reduce` into a store, whose bytes are printed, and the questions are asked of
it. It ends with status 1 if a run has another status than 0, or if an exponent is above 1.3 where the larger run takes a second or more.
"""
import argparse
import math
import os
import random
import subprocess
import sys
import tempfile

from compare import HERE

TAKE_ALL = b'take 999999999999999\nsettle\nstat\nend\n'
STEEPEST = 1.3
# The last second of that year, in milliseconds after the first time of these logs.
YEAR_9999 = (253_402_300_799 - 1_700_000_000) * 1000


def stamp(number, ms=None):
    ms = number if ms is None else ms
    return f'msg=audit({1_700_000_000 + ms // 1000}.{ms % 1000:03}:{number % 2 ** 32}):'


def call(number, syscall, pid, exit_=3, a0=3, a1=0, a2=0, ppid=1, ms=None):
    return (f'type=SYSCALL {stamp(number, ms)} arch=c000003e syscall={syscall} success=yes exit={exit_} a0={a0:x} a1={a1:x} a2={a2:x} a3=0 '
            f'ppid={ppid} pid={pid} exe="/p"\n')


def path(number, name, inode, kind='NORMAL', ms=None):
    return f'type=PATH {stamp(number, ms)} item=0 name={name} inode={inode} dev=08:01 nametype={kind}\n'


def end(number, ms=None):
    return f'type=EOE {stamp(number, ms)} \n'


def one_line(size):
    for _ in range(size // 1_000_000):
        yield 'x' * 1_000_000


def line_feeds(size):
    for _ in range(size // 1_000_000):
        yield '\n' * 1_000_000


def random_bytes(size):
    rng = random.Random(1)
    for _ in range(size // 1_000_000):
        yield rng.randbytes(1_000_000).decode('latin1')


def one_key(size):
    yield call(1, 257, 9)
    for item in range(size):
        yield path(1, '"/f"', item, ms=1)


def waiting_groups(size):
    for number in range(1, size):
        yield call(number, 0, 9, exit_=1, ms=0)


def descriptors(size):
    for number in range(1, size):
        yield call(number, 257, 9, exit_=number) + path(number, f'"/f{number}"', number) + end(number)


def chained_forks(size):
    for number in range(1, size):
        yield call(number, 57, number, exit_=number + 1, ppid=number - 1) + end(number)


def copied_descriptors(size):
    """A process opens a hundredth as many sockets as it then forks children, none of which is seen to end."""
    opened = size // 100
    for number in range(1, opened):
        yield call(number, 41, 9, exit_=number + 2) + end(number)
    for number in range(opened, opened + size):
        yield call(number, 57, 9, exit_=number + 100) + end(number)


def long_names(size):
    for number in range(1, size):
        yield call(number, 257, 9, exit_=3, a2=0x200) + path(number, f'"/{number:x>4095}"', number) + end(number)


def one_long_name(size):
    for number in range(1, size):
        yield call(number, 257, 9, exit_=3, a2=0x200) + path(number, f'"/{"x" * 4095}"', 7) + end(number)


def falling_times(size):
    for number in range(1, size):
        yield call(number, 1, 9, exit_=5, ms=10 ** 10 - number) + end(number, ms=10 ** 10 - number)


def standing_times(size):
    for number in range(1, size):
        yield call(number, 1, 9, exit_=5, ms=0) + end(number, ms=0)


def jumping_times(size):
    for number in range(1, size):
        ms = YEAR_9999 if number % 2 else number
        yield call(number, 1, 9, exit_=5, ms=ms) + end(number, ms=ms)


def far_future(size):
    yield 'type=EOE msg=audit(999999999999999.999:1): \n'
    for number in range(2, size):
        yield call(number, 1, 9, exit_=5) + end(number)


def many_sources(size):
    """Half as many files as events, each executed by one process, which writes to as many others."""
    for number in range(1, size, 2):
        yield call(number, 59, 9) + path(number, f'"/s{number}"', number) + end(number)
        yield call(number + 1, 90, 9) + path(number + 1, f'"/t{number}"', 10 ** 9 + number) + end(number + 1)


def nothing(size):
    return iter(())


def take_all(size):
    return iter([TAKE_ALL])


def many_questions(size):
    yield TAKE_ALL[:TAKE_ALL.index(b'stat')]
    for number in range(size):
        yield b'show %d\n' % (number % 7)


def one_question(size):
    yield b'find '
    for _ in range(size // 1_000_000):
        yield b'x' * 1_000_000


def bad_questions(size):
    for _ in range(size):
        yield b'\xff\xfe\n'


# The smaller size of each shape, its log and its questions.
SHAPES = {
    'one line without a line feed': (256_000_000, one_line, take_all),
    'line feeds alone': (64_000_000, line_feeds, take_all),
    'random bytes': (16_000_000, random_bytes, take_all),
    'records of one key': (250_000, one_key, take_all),
    'waiting groups': (250_000, waiting_groups, take_all),
    'descriptors of one process': (250_000, descriptors, take_all),
    'a chain of forks': (250_000, chained_forks, take_all),
    'forks of a process with descriptors': (5_000, copied_descriptors, take_all),
    'names of 4,096 bytes, all different': (25_000, long_names, take_all),
    'one name of 4,096 bytes': (25_000, one_long_name, take_all),
    'times that fall': (250_000, falling_times, take_all),
    'times that stand still': (250_000, standing_times, take_all),
    'times that jump to the year 9999 and back': (250_000, jumping_times, take_all),
    'a far future time first': (250_000, far_future, take_all),
    'many sources': (20_000, many_sources, take_all),
    'many questions': (250_000, nothing, many_questions),
    'one question line of megabytes': (10_000_000, nothing, one_question),
    'questions outside the grammar': (250_000, nothing, bad_questions),
}


def cost(words, questions):
    """The seconds of the processor and the peak of memory in MB of one run, and its status."""
    with open(questions, 'rb') as asked:
        child = subprocess.Popen(words, stdin=asked, stdout=subprocess.DEVNULL, stderr=subprocess.DEVNULL)
        _, status, usage = os.wait4(child.pid, 0)
        child.returncode = 0
        return usage.ru_utime + usage.ru_stime, usage.ru_maxrss / 1024, os.waitstatus_to_exitcode(status)


def costs(program, mode, log, questions, store):
    """What a run of `watch` costs, or runs of `reduce` and `query`: the seconds, the peak of memory and the first status but 0, and the store's bytes."""
    if store is None:
        return *cost([program, 'watch', mode, log], questions), ''
    if os.path.exists(store):
        os.unlink(store)
    seconds, peak, status = cost([program, 'reduce', mode, log, store], os.devnull)
    asked, asked_peak, asked_status = cost([program, 'query', store], questions) if status == 0 else (0, 0, 0)
    stored = f', of these {asked:.2f} s of query; a store of {os.path.getsize(store) / 1e6:.0f} MB'
    return seconds + asked, max(peak, asked_peak), status or asked_status, stored


def main():
    parser = argparse.ArgumentParser()
    parser.add_argument('--program', default=os.path.join(HERE, '..', 'crates', 'audit_cli', 'out', 'audit_cli'))
    parser.add_argument('--mode', default='plain')
    parser.add_argument('--only', default='')
    parser.add_argument('--scale', type=float, default=1.0)
    parser.add_argument('--store', action='store_true')
    options = parser.parse_args()
    program, bad = os.path.abspath(options.program), 0
    with tempfile.TemporaryDirectory() as folder:
        log, questions = os.path.join(folder, 'log'), os.path.join(folder, 'questions')
        store = os.path.join(folder, 'store') if options.store else None
        for name, (size, log_of, asked_of) in SHAPES.items():
            if options.only not in name:
                continue
            seconds = []
            for factor in (1, 4):
                count = int(size * factor * options.scale)
                with open(log, 'w', encoding='latin1') as file:
                    file.writelines(log_of(count))
                with open(questions, 'wb') as file:
                    file.writelines(asked_of(count))
                megabytes = (os.path.getsize(log) + os.path.getsize(questions)) / 1e6
                taken, peak, status, stored = costs(program, options.mode, log, questions, store)
                seconds.append(max(taken - 0.005, 0.001))
                bad += status != 0
                print(f'{options.mode}, {name}, {count}: {megabytes:.0f} MB in {taken:.2f} s, peak {peak:.0f} MB, status {status}{stored}', flush=True)
            exponent = math.log(seconds[1] / seconds[0], 4)
            bad += exponent > STEEPEST and seconds[1] >= 1
            print(f'{options.mode}, {name}: exponent {exponent:.2f}', flush=True)
    return 1 if bad else 0


if __name__ == '__main__':
    sys.exit(main())
