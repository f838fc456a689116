#!/usr/bin/env python3
"""Refuses one allocation of a run after the other, one a run, and checks that no other answer takes its place.

    bench/refused_memory.py [--program ./crates/audit_cli/out/audit_cli] [--only WORD] [--every 1]

The runs are dialogues and stores of a few events. Each is traced (ptrace, on Linux and x86-64), and the call of the program's allocator that has the
number is made to answer that there is no memory. Then the run must end with status 3 and its line, and what it wrote must be a prefix of what the run
writes that nothing disturbs. A store must have the batches that it had and the first of those that the whole run adds, and `reduce` that is made again
must end with all of them. Not refused is the one allocation that a run over a store does without: a block of 4 MiB that it frees at once, so that the
C library keeps what is freed later. Prints how many allocations were refused and what is wrong, and ends with status 1 if something is.
"""
import argparse
import ctypes
import os
import platform
import signal
import struct
import subprocess
import sys
import tempfile
from pathlib import Path

from plain_store import batches_of
from runs import PROGRAM, TOP, run

TRACEME, CONT, SINGLESTEP, GETREGS, SETREGS = 0, 7, 9, 12, 13
RAX, RDI, RIP, RSP = 10, 14, 16, 19
# How many bytes the block has that a run does without.
NEEDLESS = 4 << 20
BREAKPOINT = b'\xcc'
ALLOCATORS = ['rattle_alloc', 'rattle_realloc']
NO_MEMORY = b'audit_cli: no memory\n'
ptrace = ctypes.CDLL(None, use_errno=True).ptrace
ptrace.argtypes, ptrace.restype = [ctypes.c_long, ctypes.c_long, ctypes.c_void_p, ctypes.c_void_p], ctypes.c_long


def call(number, *fields):
    """The line of one system call by process 100; each line of a log has a millisecond and a serial number of its own."""
    return f'syscall={number} success={"no" if fields[0] < 0 else "yes"} exit={fields[0]} ' + ' '.join(
        f'a{index}={value}' for index, value in enumerate(fields[1:])) + ' items=0 ppid=1 pid={pid} comm="p" exe="/p"'


def event(serial, text, *others, pid=100):
    stamp = f'msg=audit(1.{serial:03}:{serial}):'
    return ''.join([f'type=SYSCALL {stamp} arch=c000003e {text.format(pid=pid)}\n'] + [f'type={kind} {stamp} {rest}\n' for kind, rest in others])


def file(inode):
    return 'PATH', f'item=0 name="/f{inode}" inode={inode} dev=08:01 nametype=NORMAL'


TWO_FLOWS = (TOP / 'examples/two_flows.log').read_text()
DESCRIPTORS = ''.join([
    event(1, call(257, 3, 'ffffff9c', 0, 80000, 0), file(7)), event(2, call(33, 9, 3, 9, 0, 0)), event(3, call(59, 0, 0, 0, 0, 0), file(8)),
    event(4, call(0, 1, 3, 0, 1, 0)), event(5, call(0, 1, 9, 0, 1, 0)), event(6, call(41, 4, 2, 1, 0, 0)),
    event(7, call(42, -115, 4, 0, 10, 0), ('SOCKADDR', 'saddr=020001BBC00002010000000000000000')), event(8, call(1, 1, 4, 0, 1, 0))])
WRITES = ''.join(event(serial, call(90, 0, 0, 0, 0, 0), file(7), ('EOE', ''), pid=pid) for serial, pid in ((1, 100), (2, 200), (3, 100)))
ABOUT_WRITES = b'back 1\nback 1 1.001\nfore 0\nfore 0 1.002\nwhy 0 1\nshow 1\nfind /f7\nstat\ntake 1\nend\n'
# A run: its words, its log and its questions. {log} and {store} stand for files.
DIALOGUES = {
    'two flows': (['watch', 'plain', '{log}'], TWO_FLOWS, b'take 1000\nsettle\nback 2\nshow 0\nshow 2\n'),
    'descriptors': (['watch', 'plain', '{log}'], DESCRIPTORS, b'take 5000\nsettle\nback 4\nshow 2\nshow 3\nshow 4\nwhy 0 4\nwhy 4 0\nfind /f7\nfore 1\n'),
    'malformed lines': (['watch', 'continuous', '{log}'], WRITES + 'x\n' * 20, b'take 5000\nsettle\nfore 0\nstat\nx\n'),
    'full mode': (['watch', 'full', '{log}'], WRITES, b'take 5000\n' + ABOUT_WRITES),
    'source mode': (['watch', 'source', '{log}'], WRITES, b'take 5000\n' + ABOUT_WRITES),
    'from standard input': (['back', '2'], '', TWO_FLOWS.encode()),
    'a trial': (['trial', '1', '3'], '', b''),
}
# Runs over a store that an earlier run left, by the words of that one if there is one.
STORES = {
    'a first log': (None, ['reduce', 'full', '{log}', '{store}'], b''),
    'a second log': (['reduce', 'continuous', '{log}', '{store}'], ['reduce', 'continuous', '{log}', '{store}'], b''),
    'a log that goes on': (['reduce', 'source', '{part}', '{store}'], ['reduce', 'source', '{log}', '{store}', '--resume'], b''),
    'a watch': (['reduce', 'plain', '{part}', '{store}'], ['watch', 'plain', '{log}', '{store}'], b'take 300\nsettle\nback 0\ntake 5000\nstat\nend\n'),
    'questions': (['reduce', 'full', '{log}', '{store}'], ['query', '{store}'], ABOUT_WRITES),
}


def entries_of(program):
    """Where the allocator's functions begin in the program, and whether it may be loaded anywhere."""
    listed = subprocess.run(['nm', program], capture_output=True, text=True, check=True).stdout.split('\n')
    places = {words[2]: int(words[0], 16) for words in map(str.split, listed) if len(words) == 3}
    missing = [name for name in ALLOCATORS if name not in places]
    if missing:
        raise SystemExit(f'{program} has no function {missing[0]}')
    with open(program, 'rb') as elf:
        is_anywhere = elf.read(18)[16] == 3
    return [places[name] for name in ALLOCATORS], is_anywhere


class Traced:
    """A run of the program that stops where it allocates."""

    def __init__(self, words, streams, entries, is_anywhere):
        self.pid = os.fork()
        if self.pid == 0:
            for descriptor, stream in enumerate(streams):
                os.dup2(stream, descriptor)
            ptrace(TRACEME, 0, None, None)
            os.execv(words[0], words)
        os.waitpid(self.pid, 0)
        begin = int(Path(f'/proc/{self.pid}/maps').read_text().split('-')[0], 16) if is_anywhere else 0
        self.memory = os.open(f'/proc/{self.pid}/mem', os.O_RDWR)
        self.first_bytes = {begin + entry: os.pread(self.memory, 1, begin + entry) for entry in entries}
        self.registers = ctypes.create_string_buffer(27 * 8)

    def go_on(self, request, signal_number=0):
        ptrace(request, self.pid, None, signal_number)
        return os.waitpid(self.pid, 0)[1]

    def ended(self, number):
        """The status of the run whose allocation of this number is refused, and how many there were; 0 refuses none.

        If it was refused, only those up to then are counted, since nothing stops the run after it."""
        for place in self.first_bytes:
            os.pwrite(self.memory, BREAKPOINT, place)
        count, status = 0, self.go_on(CONT)
        while os.WIFSTOPPED(status):
            ptrace(GETREGS, self.pid, None, ctypes.addressof(self.registers))
            registers = list(struct.unpack('27Q', self.registers.raw))
            place = registers[RIP] - 1
            if os.WSTOPSIG(status) != signal.SIGTRAP or place not in self.first_bytes:
                status = self.go_on(CONT, os.WSTOPSIG(status))
                continue
            count += 1
            if count == number and registers[RDI] != NEEDLESS:
                registers[RAX], registers[RIP] = 0, struct.unpack('Q', os.pread(self.memory, 8, registers[RSP]))[0]
                registers[RSP] += 8
                self.set(registers)
                for entry, byte in self.first_bytes.items():
                    os.pwrite(self.memory, byte, entry)
            else:
                registers[RIP] = place
                self.set(registers)
                os.pwrite(self.memory, self.first_bytes[place], place)
                self.go_on(SINGLESTEP)
                os.pwrite(self.memory, BREAKPOINT, place)
            status = self.go_on(CONT)
        os.close(self.memory)
        return os.waitstatus_to_exitcode(status), count

    def set(self, registers):
        self.registers = ctypes.create_string_buffer(struct.pack('27Q', *registers), 27 * 8)
        ptrace(SETREGS, self.pid, None, ctypes.addressof(self.registers))


class Refusals:
    """The program, a folder for files, and what was wrong."""

    def __init__(self, folder, options):
        self.folder, self.every, self.program = folder, options.every, os.path.abspath(options.program)
        self.entries, self.is_anywhere = entries_of(self.program)
        self.refused, self.faults = 0, []

    def words(self, words):
        return [word.format(log=self.folder / 'log', part=self.folder / 'part', store=self.folder / 'store') for word in words]

    def traced(self, words, questions, number):
        """The status, the number of allocations and what was written."""
        (self.folder / 'questions').write_bytes(questions)
        names = [self.folder / name for name in ('questions', 'out', 'err')]
        streams = [os.open(names[0], os.O_RDONLY), *(os.open(name, os.O_WRONLY | os.O_CREAT | os.O_TRUNC) for name in names[1:])]
        ended = Traced([self.program, *words], streams, self.entries, self.is_anywhere).ended(number)
        for stream in streams:
            os.close(stream)
        return *ended, names[1].read_bytes(), names[2].read_bytes()

    def refuse_each(self, name, words, questions, begin, check):
        """Runs with one allocation refused, each of a state that `begin` makes."""
        begin()
        status, count, wanted, text = self.traced(words, questions, 0)
        if status or text or not count:
            self.faults.append(f'{name}: status {status}, {text!r} and {count} allocations if nothing is refused')
        for number in range(1, count + 1, self.every):
            begin()
            status, made, out, text = self.traced(words, questions, number)
            if made > number:
                # It was the block that the run does without.
                continue
            self.refused += 1
            if status != 3 or text != NO_MEMORY or not wanted.startswith(out):
                self.faults.append(f'{name}, allocation {number} of {count}: status {status}, {text!r}, {out!r} written')
            fault = check()
            if fault:
                self.faults.append(f'{name}, allocation {number} of {count}: {fault}')
        print(f'{name}: {count} allocations', flush=True)

    def dialogue(self, name):
        words, log, questions = DIALOGUES[name]
        (self.folder / 'log').write_text(log)
        self.refuse_each(name, self.words(words), questions, lambda: None, lambda: None)

    def over_store(self, name):
        before, words, questions = STORES[name]
        store, words = self.folder / 'store', self.words(words)
        (self.folder / 'log').write_text(WRITES + TWO_FLOWS)
        (self.folder / 'part').write_text(WRITES)
        store.write_bytes(b'')
        if before:
            run(self.words(before), program=self.program)
        first = store.read_bytes()
        run(words, questions, self.program)
        last = store.read_bytes()
        least, whole = len(batches_of(first)[0]), batches_of(last)[0]

        def check():
            left = store.read_bytes()
            batches, broken, _ = batches_of(left)
            if broken is not None or len(batches) < least or batches != whole[:len(batches)]:
                return f'the store has {len(batches)} batches and is bad at {broken}'
            if left == last or words[0] == 'watch':
                return None
            ran = run(words, questions, self.program)
            return f'made again, the run has status {ran.status}, {ran.text!r}, or leaves another store' if ran.status or store.read_bytes() != last else None
        self.refuse_each(name, words, questions, lambda: store.write_bytes(first), check)


def can_trace():
    """Whether a process of this machine may be traced, and has the registers that are named here."""
    if platform.machine() != 'x86_64':
        return False
    child = os.fork()
    if not child:
        os._exit(0 if ptrace(TRACEME, 0, None, None) == 0 else 1)
    return os.waitpid(child, 0)[1] == 0


def main():
    parser = argparse.ArgumentParser(description=__doc__, formatter_class=argparse.RawDescriptionHelpFormatter)
    parser.add_argument('--program', default=PROGRAM)
    parser.add_argument('--only', default='')
    parser.add_argument('--every', type=int, default=1, help='refuse each so manieth allocation alone')
    options = parser.parse_args()
    if not can_trace():
        print('skipped: refused memory, since this machine is no x86-64 or lets no process be traced')
        return 0
    with tempfile.TemporaryDirectory() as folder:
        here = Refusals(Path(folder), options)
        for name in DIALOGUES:
            if options.only in name:
                here.dialogue(name)
        for name in STORES:
            if options.only in name:
                here.over_store(name)
    print(''.join(f'{fault}\n' for fault in here.faults[:40]), end='')
    print(f'{here.refused} allocations were refused, {len(here.faults)} faults')
    return 1 if here.faults else 0


if __name__ == '__main__':
    sys.exit(main())
