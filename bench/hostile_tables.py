#!/usr/bin/env python3
"""Times the built program on logs that were made to strain its tables: seconds, seconds of the processor, and the peak of memory.

    bench/hostile_tables.py [--scale 1.0] [--mode plain] [--only children,chain,..] [--program ./crates/audit_cli/out/audit_cli]

    children   a process with 10,000 descriptors has 1,000 children, all live; each closes one descriptor and opens one
    chain      100,000 forks in a chain, each of the youngest process, over 1,000 descriptors; each child opens one
    ends       the same, but each parent ends after its fork
    files      100,000 changes of files with random file numbers
    files_met  the same with file numbers whose objects have one hash, if hashes begin with the kit's fixed seed
    births     100,000 files made, with random file numbers
    births_met the same with file numbers that have one hash
    again      100,000 calls by 50,000 random pids

--scale makes each log shorter or longer. A log of `files_met` that takes much longer than one of `files` shows that whoever
writes the log decides how fast it is taken. FoldHasher of the kit multiplies (state xor word) by a constant for each word that
is written, so a word equal to the state gives the state 0, whatever came before: for each device the inode is chosen so.
"""
import argparse, os, random, subprocess, sys, tempfile, time

MASK = (1 << 64) - 1
MULTIPLIER = 0x9E3779B97F4A7C15
SEED = 0x243F6A8885A308D3


def written(state, word, size):
    """FoldHasher's state after a word of 4 or 8 bytes."""
    if size == 4:
        word |= word << 32
    product = (state ^ word) * (MULTIPLIER ^ 2 * size)
    return (product & MASK) ^ (product >> 64)


def met(index, prefix):
    """A device and an inode after whose words the state is 0; no two of these are equal."""
    major, minor = 1 + index // 1024, index % 1024
    state = prefix
    for word in (major, minor):
        state = written(state, word, 4)
    return major, minor, state


# An object's key begins with the number of its variant, 1 for a file with a number; a birth's key has no variant.
AS_OBJECT = written(SEED, 1, 8)
AS_BIRTH = SEED


class Log:
    """A log whose events come a millisecond apart."""

    def __init__(self, file):
        self.file, self.serial = file, 0

    def head(self, kind):
        return f'type={kind} msg=audit({self.serial // 1000}.{self.serial % 1000:03}:{self.serial}):'

    def call(self, number, pid, exit_=0, args=(0, 0, 0, 0), ppid=1, path=None):
        """An event of one call, with the device, the inode and the kind of its file if it has one."""
        self.serial += 1
        words = ' '.join(f'a{i}={value:x}' for i, value in enumerate(args))
        print(f'{self.head("SYSCALL")} arch=c000003e syscall={number} success=yes exit={exit_} {words} items={int(path is not None)} '
              f'ppid={ppid} pid={pid} comm="p" exe="/p"', file=self.file)
        if path:
            major, minor, inode, kind = path
            print(f'{self.head("PATH")} item=0 name="/f" inode={inode} dev={major:02x}:{minor:02x} mode=0100644 nametype={kind}', file=self.file)

    def open(self, pid, fd, ppid=1):
        self.call(2, pid, fd, ppid=ppid, path=(8, 1, 1000 + fd, 'NORMAL'))

    def fork(self, pid, child, ppid=1):
        self.call(57, pid, child, ppid=ppid)


def children(log, scale):
    descriptors, count = int(10_000 * scale), int(1_000 * scale)
    for fd in range(3, 3 + descriptors):
        log.open(100, fd)
    for child in range(101, 101 + count):
        log.fork(100, child)
        log.call(3, child, args=(child, 0, 0, 0), ppid=100)
        log.open(child, 3, 100)


def chain(log, scale, ending=False):
    for fd in range(3, 1003):
        log.open(100, fd)
    for pid in range(100, 100 + int(100_000 * scale)):
        log.fork(pid, pid + 1, pid - 1)
        log.open(pid + 1, 3 + pid % 1000, pid)
        if ending:
            log.call(231, pid, ppid=pid - 1)


def ends(log, scale):
    chain(log, scale, True)


def files(log, scale, prefix=None, number=90, kind='NORMAL'):
    rng = random.Random(1)
    for index in range(int(100_000 * scale)):
        place = met(index, prefix) if prefix is not None else (8, 1, rng.getrandbits(64))
        log.call(number, 100, 3, path=(*place, kind))


def files_met(log, scale):
    files(log, scale, AS_OBJECT)


def births(log, scale, prefix=None):
    files(log, scale, prefix, 2, 'CREATE')


def births_met(log, scale):
    births(log, scale, AS_BIRTH)


def again(log, scale):
    rng = random.Random(1)
    pids = [rng.getrandbits(31) for _ in range(int(50_000 * scale))]
    for pid in pids + pids:
        log.call(90, pid, path=(8, 1, pid, 'NORMAL'))


CASES = {case.__name__: case for case in (children, chain, ends, files, files_met, births, births_met, again)}


def taken(program, mode, path):
    """The seconds, those of the processor, the peak of memory in MB, and the counts of one run over the log."""
    begun = time.perf_counter()
    child = subprocess.Popen([program, 'watch', mode, path], stdin=subprocess.PIPE, stdout=subprocess.PIPE)
    child.stdin.write(b'take 999999999999999\nsettle\nstat\nend\n')
    child.stdin.close()
    replies = child.stdout.read().decode().splitlines()
    _, status, usage = os.wait4(child.pid, 0)
    child.returncode = os.waitstatus_to_exitcode(status)
    stat = replies[2] if len(replies) > 2 else f'no counts, status {child.returncode}'
    return time.perf_counter() - begun, usage.ru_utime + usage.ru_stime, usage.ru_maxrss / 1024, stat


def main():
    parser = argparse.ArgumentParser()
    parser.add_argument('--program', default=os.path.join(os.path.dirname(os.path.abspath(__file__)), '../crates/audit_cli/out/audit_cli'))
    parser.add_argument('--mode', default='plain')
    parser.add_argument('--scale', type=float, default=1.0)
    parser.add_argument('--only', default=','.join(CASES))
    parser.add_argument('--keep', help='keep the logs in this folder, and run nothing')
    options = parser.parse_args()
    with tempfile.TemporaryDirectory() as folder:
        for name in options.only.split(','):
            path = os.path.join(options.keep or folder, name + '.log')
            with open(path, 'w', encoding='utf-8') as file:
                CASES[name](Log(file), options.scale)
            if options.keep:
                continue
            seconds, busy, peak, stat = taken(options.program, options.mode, path)
            print(f'{name:10} {os.path.getsize(path) / 1e6:6.1f} MB: {seconds:8.2f} s, processor {busy:8.2f} s, peak {peak:7.1f} MB  {stat}', flush=True)
            os.remove(path)


if __name__ == '__main__':
    sys.exit(main())
