#!/usr/bin/env python3
"""Checks which paths the main program finds in logs made by hand that `audit_order` has put in the order of effects.

    bench/effects.py [--program ./crates/audit_cli/out/audit_cli] [--order ./crates/audit_order/out/audit_order]

The logs are made here, call by call, in the order in which the calls return, so it is known what can have reached what: each case names pairs of
objects with a path and pairs without one. Of each case the ordered log is taken in each mode but `source`, which answers about sources alone. Then the
same is asked of the log with blank and malformed lines in it, which have to pass, and of a store that has taken the ordered log in parts. A log that was cut
into rotated files is ordered as the whole log is. Of two nodes in one log each one's lines are asked. Prints what isn't so, and ends with status 1 if there is any.
"""
import argparse
import json
import random
import subprocess
import sys
import tempfile
from pathlib import Path

from runs import MODES, PROGRAM, TOP, lines_of, run

ORDER = TOP / 'crates/audit_order/out/audit_order'
READ, WRITE, CLOSE, PIPE, DUP2, SOCKET, CONNECT, ACCEPT, SEND, RECEIVE, BIND, FORK, VFORK, EXIT, OPEN = 0, 1, 3, 22, 33, 41, 42, 43, 44, 45, 49, 57, 58, 231, 257
FILE, FIFO = '0100644', '010600'
# Lines that are no records: they pass, and change nothing.
ODD_LINES = [b'', b'garbage', b' \t', b'type=SYSCALL msg=audit(x:1)', b'\xff\x00\xfe', b'type=SYSCALL msg=audit(1000.000:77: arch=c000003e', b'(((:)))']
PIECES = 3


def inet(port, host='7F000001'):
    """An address of family 2, as a record has it."""
    return f'0200{port:04X}{host}0000000000000000'


def unix(path=''):
    """An address of family 1; that of a client has no path."""
    return '0100' + path.encode().hex().upper() + ('00' if path else '')


class Log:
    """The records of calls, which are written as the calls return. Times are milliseconds after a moment, at which each call was entered."""

    def __init__(self, node='', begins=1000):
        self.node, self.begins, self.serial, self.texts, self.inodes, self.parents = f'node={node} ' if node else '', begins, 0, [], {}, {}

    def line(self, at, serial, kind, text):
        return f'{self.node}type={kind} msg=audit({self.begins + at // 1000}.{at % 1000:03}:{serial}): {text}\n'

    def call(self, at, number, pid, answer=0, a=(0, 0, 0, 0), more=(), serial=None):
        """A call, with the records between its own and its title."""
        if serial is None:
            self.serial += 1
            serial = self.serial
        record = (f'arch=c000003e syscall={number} success={"yes" if answer >= 0 else "no"} exit={answer} a0={a[0]:x} a1={a[1]:x} a2={a[2]:x} a3={a[3]:x} '
                  f'items={len(more)} ppid={self.parents.get(pid, 1)} pid={pid} comm="p{pid}" exe="/bin/p{pid}"')
        title = [] if number == EXIT else [('PROCTITLE', 'proctitle="p"')]
        self.texts.append(''.join(self.line(at, serial, kind, text) for kind, text in [('SYSCALL', record), *more, *title]))

    def open(self, at, pid, fd, path, mode=FILE, new=False):
        inode = self.inodes.setdefault(path, len(self.inodes) + 10)
        self.call(at, OPEN, pid, fd, (0xffffff9c, 0, 0x41 if new else 0, 0), [('CWD', 'cwd="/"'), (
            'PATH', f'item=0 name="{path}" inode={inode} dev=fe:00 mode={mode} ouid=0 ogid=0 rdev=00:00 nametype={"CREATE" if new else "NORMAL"}')])

    def read(self, at, pid, fd):
        self.call(at, READ, pid, 8, (fd, 0, 8, 0))

    def write(self, at, pid, fd):
        self.call(at, WRITE, pid, 8, (fd, 0, 8, 0))

    def close(self, at, pid, fd):
        self.call(at, CLOSE, pid, 0, (fd, 0, 0, 0))

    def dup(self, at, pid, fd, copy):
        self.call(at, DUP2, pid, copy, (fd, copy, 0, 0))

    def pipe(self, at, pid, first, second):
        self.call(at, PIPE, pid, 0, more=[('FD_PAIR', f'fd0={first} fd1={second}')])

    def fork(self, at, pid, child):
        self.call(at, FORK, pid, child)

    def end(self, at, pid):
        self.call(at, EXIT, pid)

    def socket(self, at, pid, fd, family=2, kind=1):
        self.call(at, SOCKET, pid, fd, (family, kind, 0, 0))

    def bind(self, at, pid, fd, address):
        self.call(at, BIND, pid, 0, (fd, 0, 16, 0), [('SOCKADDR', f'saddr={address}')])

    def connect(self, at, pid, fd, address):
        self.call(at, CONNECT, pid, 0, (fd, 0, 16, 0), [('SOCKADDR', f'saddr={address}')])

    def accept(self, at, pid, fd, new, peer=None):
        """An accept; one without a peer doesn't ask for its address, so it has no record of that."""
        self.call(at, ACCEPT, pid, new, (fd, 0x7f00 if peer else 0, 0, 0), [('SOCKADDR', f'saddr={peer}')] if peer else [])

    def receive(self, at, pid, fd, peer):
        self.call(at, RECEIVE, pid, 8, (fd, 0, 8, 0), [('SOCKADDR', f'saddr={peer}')])

    def send(self, at, pid, fd, peer):
        self.call(at, SEND, pid, 8, (fd, 0, 8, 0), [('SOCKADDR', f'saddr={peer}')])

    def clock(self, at, pid=9):
        """Two calls that move the clock: another process reads nothing."""
        for _ in range(2):
            self.call(at, READ, pid, 0, (0, 0, 8, 0))

    def copies(self, at, pid, source, target, mode=FILE):
        """A process opens one file and reads it, and opens another and waits to write it: its descriptors are 3 and 4."""
        self.open(at, pid, 3, source, mode)
        self.open(at, pid, 4, target)

    def boots(self, begins):
        """The node is started, with its clock at this second."""
        self.begins, self.serial = begins, 1
        self.texts.append(self.line(0, 1, 'SYSTEM_BOOT', 'pid=1 uid=0'))

    def swap_last(self):
        """The records of the last two events come in the other order: two processors wrote them."""
        self.texts[-2:] = self.texts[:-3:-1]

    def tear_last(self):
        """The title of the last event but one comes after the records of the last one."""
        first, last = self.texts[-2:]
        *records, title = first.splitlines(keepends=True)
        self.texts[-2:] = [''.join(records) + last, title]

    def text(self):
        return ''.join(self.texts).encode()


# ---- cases: a log, pairs with a path, and pairs without one


def waits_two_seconds():
    """A connect waits for more than two seconds, so its event would be released before its address is there."""
    log = Log()
    log.clock(0)
    log.copies(10, 300, '/secret', '/log')
    log.read(12, 300, 3)
    log.socket(14, 300, 5)
    for at in range(500, 3000, 250):
        log.clock(at)
    # It was entered at .500 and returns at 3.000.
    log.connect(500, 300, 5, inet(443, '0A000009'))
    log.write(3004, 300, 5)
    log.open(3008, 300, 6, '/later')
    log.read(3012, 300, 6)
    log.clock(3100)
    return log.text(), [('/secret', '10.0.0.9:443')], [('/later', '10.0.0.9:443')]


def torn_apart():
    """The records of a connect that waited come one by one, and others between them."""
    log = Log()
    log.clock(0)
    log.copies(10, 300, '/secret', '/log')
    log.read(12, 300, 3)
    log.socket(14, 300, 5)
    log.clock(2900)
    log.connect(500, 300, 5, inet(443, '0A000009'))
    whole = log.texts.pop().splitlines(keepends=True)
    for line in whole:
        log.texts.append(line)
        log.clock(3000)
    log.write(3004, 300, 5)
    return log.text(), [('/secret', '10.0.0.9:443')], []


def idle_reader(mode):
    """A process reads, sleeps ten seconds and writes; the file was written meanwhile."""
    log = Log()
    log.clock(0)
    log.copies(10, 400, '/data', '/out', mode)
    log.read(12, 400, 3)
    log.copies(14, 500, '/secret', '/none')
    log.open(16, 500, 5, '/data', mode)
    log.clock(4000)
    log.read(5000, 500, 3)
    log.write(5004, 500, 5)
    log.clock(9000)
    log.write(10012, 400, 4)
    log.clock(10100)
    return log.text(), [('/data', '/out'), ('/secret', '/data')], [('/secret', '/out')]


def done_before():
    """A read of a regular file was done 10 ms before a write to it, and its record came after that of the write."""
    log = Log()
    log.clock(0)
    log.copies(10, 400, '/data', '/out')
    log.copies(14, 500, '/secret', '/none')
    log.open(16, 500, 5, '/data')
    log.read(18, 500, 3)
    log.clock(24)
    log.read(30, 400, 3)
    log.write(40, 500, 5)
    log.swap_last()
    log.write(60, 400, 4)
    log.clock(100)
    return log.text(), [('/data', '/out'), ('/secret', '/data')], [('/secret', '/out')]


def waited_read():
    """A read of a FIFO was entered long before the write that it waited for, and its records are complete before those of the write."""
    log = Log()
    log.clock(0)
    log.copies(10, 400, '/run/fifo', '/out', FIFO)
    log.copies(14, 500, '/secret', '/none')
    log.open(16, 500, 5, '/run/fifo', FIFO)
    log.read(300, 500, 3)
    log.write(304, 500, 5)
    log.read(40, 400, 3)
    log.tear_last()
    log.write(320, 400, 4)
    log.clock(400)
    return log.text(), [('/secret', '/out')], []


def inherited_accept():
    """A server forks just after an accept that had waited, and the child reads from the connection."""
    log = Log()
    log.clock(0)
    log.copies(4, 300, '/secret', '/none')
    log.socket(10, 100, 3)
    log.bind(11, 100, 3, inet(8080))
    log.read(12, 300, 3)
    log.socket(90, 300, 5)
    log.connect(100, 300, 5, inet(8080))
    log.accept(14, 100, 3, 4, inet(54321))
    log.fork(101, 100, 101)
    log.write(101, 300, 5)
    log.close(102, 100, 4)
    log.read(102, 101, 4)
    log.open(104, 101, 6, '/out')
    log.write(105, 101, 6)
    log.end(106, 101)
    log.clock(200)
    return log.text(), [('/secret', '/out')], []


def inherited_copy():
    """A descriptor is copied just before a fork, and the child writes to the copy; all in one tick of the clock."""
    log = Log()
    log.clock(0)
    log.copies(10, 100, '/secret', '/out')
    log.read(20, 100, 3)
    log.dup(20, 100, 4, 7)
    log.fork(20, 100, 101)
    log.close(20, 100, 4)
    log.write(20, 101, 7)
    log.clock(100)
    return log.text(), [('/secret', '/out')], []


def child_first():
    """A child reads and writes what it has from its parent, and ends, in the millisecond of its vfork, which is recorded after that."""
    log = Log()
    log.clock(0)
    log.copies(10, 100, '/secret', '/out')
    log.open(12, 100, 5, '/later')
    log.read(20, 101, 3)
    log.write(20, 101, 4)
    log.end(20, 101)
    log.call(20, VFORK, 100, 101)
    log.read(24, 100, 5)
    log.clock(100)
    return log.text(), [('/secret', '/out')], [('/later', '/out')]


def inherited_pipe():
    """A pipe is made just before two forks, one child writes into it, and the other reads; the writes and forks in one tick."""
    log = Log()
    log.clock(0)
    log.pipe(20, 100, 5, 6)
    log.fork(20, 100, 101)
    log.fork(20, 100, 102)
    log.close(20, 100, 5)
    log.close(20, 100, 6)
    log.copies(24, 101, '/secret', '/none')
    log.read(28, 101, 3)
    log.open(24, 102, 4, '/out')
    log.write(32, 101, 6)
    log.read(28, 102, 5)
    log.open(33, 101, 7, '/later')
    log.read(34, 101, 7)
    log.write(36, 102, 4)
    log.clock(100)
    return log.text(), [('/secret', '/out')], [('/later', '/out')]


def in_a_container(inside):
    """A process reads a file, opens another one and forks a child, which writes to that; then it reads a third file and forks another child, which writes a fourth one. In a pid
    namespace the forks are recorded with the numbers that the children have there."""
    log = Log()
    log.parents |= {102: 100, 103: 100}
    log.clock(0)
    log.copies(10, 100, '/secret', '/out')
    log.read(20, 100, 3)
    log.fork(28, 100, 7 if inside else 102)
    log.write(32, 102, 4)
    log.end(40, 102)
    log.open(44, 100, 5, '/later')
    log.read(48, 100, 5)
    log.fork(52, 100, 8 if inside else 103)
    log.open(56, 103, 6, '/other')
    log.write(60, 103, 6)
    log.end(64, 103)
    log.clock(100)
    return log.text(), [('/secret', '/out'), ('/later', '/other')], [('/later', '/out')]


def clients_of_a_server(count, family, silent=False):
    """A server forks for each of its clients, each of which sends a file, and its child writes what came and sends an answer. They overlap. A silent server
    accepts them without asking for their addresses."""
    log, chance = Log(), random.Random(count)
    at_server, at_client = (inet(8080), lambda it: inet(40000 + it)) if family == 2 else (unix('/run/server'), lambda it: unix())
    log.clock(0)
    log.socket(4, 100, 3, family)
    log.bind(8, 100, 3, at_server)
    waits = []
    for it in range(count):
        at, client, child = 100 + 40 * it, 1000 + it, 2000 + it
        log.open(at, client, 3, f'/in/{it}')
        log.read(at + 1, client, 3)
        log.socket(at + 2, client, 5, family)
        log.connect(at + 4, client, 5, at_server)
        # The accept had waited since the one before.
        log.accept(at - 30, 100, 3, 4, None if silent else at_client(it))
        log.fork(at + 5, 100, child)
        log.close(at + 6, 100, 4)
        waits.append((client, child, it))
        # Now and then some of those that were accepted go on, in any order.
        if len(waits) == 4 or it == count - 1:
            chance.shuffle(waits)
            for place, (client, child, mine) in enumerate(waits):
                log.write(at + 8 + place, client, 5)
            for place, (client, child, mine) in enumerate(waits):
                log.read(at + 7, child, 4)
                log.open(at + 14, child, 6, f'/out/{mine}', new=True)
                log.write(at + 15, child, 6)
                log.open(at + 16, child, 7, f'/answer/{mine}')
                log.read(at + 17, child, 7)
                log.write(at + 18 + place, child, 4)
                log.end(at + 22, child)
            for client, child, mine in waits:
                log.read(at + 16, client, 5)
                log.open(at + 24, client, 8, f'/got/{mine}', new=True)
                log.write(at + 25, client, 8)
                log.end(at + 26, client)
            waits = []
    log.clock(200 + 40 * count)
    paths = [pair for it in range(count) for pair in ((f'/in/{it}', f'/out/{it}'), (f'/answer/{it}', f'/got/{it}'))]
    none = [(f'/{source}/{it}', f'/{target}/{other}') for it in range(count) for other in range(count) if it != other
            for source, target in (('in', 'out'), ('answer', 'got'))]
    return log.text(), paths, none


def connected_datagrams():
    """Two clients connect datagram sockets to a server's port, and send a file and get an answer."""
    log = Log()
    log.clock(0)
    log.socket(4, 100, 3, kind=2)
    log.bind(8, 100, 3, inet(5353))
    log.open(9, 100, 4, '/out')
    log.open(9, 100, 5, '/answer')
    for it, client in enumerate((300, 301)):
        at = 100 + 100 * it
        log.copies(at, client, f'/in/{it}', f'/got/{it}')
        log.read(at + 1, client, 3)
        log.socket(at + 2, client, 5, kind=2)
        log.connect(at + 3, client, 5, inet(5353))
        log.write(at + 4, client, 5)
        log.receive(at + 4, 100, 3, inet(40000 + it))
        log.write(at + 8, 100, 4)
        log.read(at + 9, 100, 5)
        log.send(at + 10, 100, 3, inet(40000 + it))
        log.read(at + 10, client, 5)
        log.write(at + 14, client, 4)
    log.clock(400)
    return log.text(), [('/in/0', '/out'), ('/in/1', '/out'), ('/answer', '/got/0'), ('/answer', '/got/1')], [('/in/1', '/got/0')]


def opened_by_name():
    """A shell's child opens a pipe by the name of its descriptor, as `cat <(cat /secret)` does. Another process opens a pipe of its own by the same name."""
    log = Log()
    log.clock(0)
    log.pipe(20, 100, 63, 62)
    log.fork(22, 100, 101)
    log.fork(22, 100, 102)
    log.pipe(23, 300, 63, 62)
    log.copies(24, 101, '/secret', '/none')
    log.open(26, 102, 3, '/dev/fd/63', FIFO)
    log.open(27, 102, 4, '/out')
    log.open(26, 300, 3, '/dev/fd/63', FIFO)
    log.open(27, 300, 4, '/other')
    log.read(28, 101, 3)
    log.write(32, 101, 62)
    log.read(30, 102, 3)
    log.read(31, 300, 3)
    log.write(36, 102, 4)
    log.write(37, 300, 4)
    log.clock(100)
    return log.text(), [('/secret', '/out')], [('/secret', '/other')]


def two_boots():
    """A node is started anew with its clock set back. What was read then can't have reached what was written before."""
    log = Log(begins=2000)
    log.clock(0)
    log.copies(10, 400, '/x', '/early')
    log.read(20, 400, 3)
    log.write(30, 400, 4)
    log.boots(1000)
    log.clock(10)
    log.copies(20, 400, '/secret', '/none')
    log.open(22, 400, 5, '/x')
    log.read(24, 400, 3)
    log.write(26, 400, 5)
    log.copies(30, 500, '/x', '/late')
    log.read(34, 500, 3)
    log.write(36, 500, 4)
    log.clock(100)
    return log.text(), [('/x', '/early'), ('/secret', '/x'), ('/secret', '/late')], [('/secret', '/early')]


CASES = {
    'a connect that waits for more than two seconds': waits_two_seconds,
    'a connect whose records stand apart': torn_apart,
    'a reader of a file that sleeps': lambda: idle_reader(FILE),
    'a reader of a FIFO that sleeps': lambda: idle_reader(FIFO),
    'a read of a file that was done before a write': done_before,
    'a read that waited': waited_read,
    'an accept just before a fork': inherited_accept,
    'a copy just before a fork': inherited_copy,
    'a child that was recorded before its vfork': child_first,
    'a pipe just before two forks': inherited_pipe,
    'a child outside a pid namespace': lambda: in_a_container(False),
    'a child in a pid namespace': lambda: in_a_container(True),
    'forty clients over TCP': lambda: clients_of_a_server(40, 2),
    'forty clients over a unix socket': lambda: clients_of_a_server(40, 1),
    'forty clients of a silent server over TCP': lambda: clients_of_a_server(40, 2, silent=True),
    'forty clients of a silent server over a unix socket': lambda: clients_of_a_server(40, 1, silent=True),
    'datagrams of sockets that are connected': connected_datagrams,
    'a pipe that is opened by the name of a descriptor': opened_by_name,
    'two boots': two_boots,
}


# ---- what the programs make of them


def ordered(order, log):
    done = subprocess.run([order], input=log, capture_output=True, check=False)
    if done.returncode:
        raise ValueError(f'audit_order ends with status {done.returncode}: {done.stderr.decode()}')
    return done.stdout


def answers(program, words, questions):
    """The replies to questions, without those to `take`, `settle` and `end`."""
    done = run(words, lines_of(questions), program=program)
    if fault := done.fault():
        raise ValueError(fault)
    replies = [json.loads(line) for line in done.out.decode().splitlines()]
    return [it for it in replies if not {'take', 'settle', 'end'} & set(it)]


def faults_of_paths(program, words, taking, paths, none):
    """What isn't so of the paths: which are there, and which aren't."""
    names = sorted({name for pair in (*paths, *none) for name in pair})
    found = dict(zip(names, (it['ids'] for it in answers(program, words, [*taking, *(f'find {name}' for name in names), 'end']))))
    for name in names:
        if not found[name]:
            yield f'{name} is no object'
    sources = sorted({it for name in {pair[0] for pair in (*paths, *none)} for it in found[name]})
    reached = dict(zip(sources, (set(it['ids']) for it in answers(program, words, [*taking, *(f'fore {it}' for it in sources), 'end']))))
    has_path = {pair: any(other in reached[it] for it in found[pair[0]] for other in found[pair[1]]) for pair in (*paths, *none)}
    yield from (f'no path from {source} to {target}' for source, target in paths if not has_path[source, target])
    yield from (f'a path from {source} to {target}' for source, target in none if has_path[source, target])


def with_odd_lines(log):
    """The log with lines that are no records between those of it."""
    chance = random.Random(len(log))
    return b''.join(line + (chance.choice(ODD_LINES) + b'\n') * (chance.random() < 0.3) for line in log.splitlines(keepends=True))


def rotated(folder, lines):
    """Lines as rotated files, the oldest first."""
    ends = [len(lines) * it // PIECES for it in range(PIECES + 1)]
    files = [folder / f'audit.log.{PIECES - it}' for it in range(PIECES)]
    for file, first, end in zip(files, ends, ends[1:]):
        file.write_bytes(b''.join(lines[first:end]))
    return files


def events_of(written):
    """The events of an ordered log, each with all of its lines."""
    events = []
    for line in written.splitlines(keepends=True):
        if line.startswith(b'type=SYSCALL ') or not events:
            events.append(b'')
        events[-1] += line
    return events


def faults_of(program, order, folder, case):
    """What isn't so of a case."""
    log, paths, none = case()
    written = ordered(order, log)
    file = folder / 'ordered.log'
    file.write_bytes(written)
    for mode in MODES[:3]:
        yield from (f'{mode}: {fault}' for fault in faults_of_paths(program, ['watch', mode, file], [f'take {len(written)}', 'settle'], paths, none))
    if ordered(order, b''.join(it.read_bytes() for it in rotated(folder, log.splitlines(keepends=True)))) != written:
        yield 'rotated files are ordered otherwise'
    store = folder / 'store'
    store.unlink(missing_ok=True)
    for piece in rotated(folder, events_of(written)):
        if fault := run(['reduce', 'plain', piece, store], program=program).fault():
            yield f'a part of the ordered log: {fault}'
    yield from (f'a store: {fault}' for fault in faults_of_paths(program, ['query', store], [], paths, none))
    odd = with_odd_lines(log)
    file.write_bytes(ordered(order, odd))
    if sorted(line for line in odd.split(b'\n') if line in ODD_LINES) != sorted(line for line in file.read_bytes().split(b'\n') if line in ODD_LINES):
        yield 'blank and malformed lines do not pass'
    yield from (f'with blank and malformed lines: {fault}' for fault in
                faults_of_paths(program, ['watch', 'plain', file], [f'take {file.stat().st_size}', 'settle'], paths, none))


def faults_of_nodes(program, order, folder):
    """What isn't so of two nodes whose processes, serial numbers and times are the same, and whose lines stand mixed."""
    log, paths, none = waited_read()
    other, paths_there, none_there = done_before()
    by_node = {node: b''.join(b'node=%b ' % node + line for line in lines.splitlines(keepends=True)) for node, lines in ((b'a', log), (b'b', other))}
    chance, left = random.Random(2), {node: lines.splitlines(keepends=True) for node, lines in by_node.items()}
    mixed = b''
    while any(left.values()):
        mixed += left[chance.choice([node for node, lines in left.items() if lines])].pop(0)
    written = ordered(order, mixed).splitlines(keepends=True)
    for node, there, absent in ((b'a', paths, none), (b'b', paths_there, none_there)):
        file = folder / 'node.log'
        file.write_bytes(b''.join(line for line in written if line.startswith(b'node=%b ' % node)))
        yield from (f'node {node.decode()}: {fault}' for fault in
                    faults_of_paths(program, ['watch', 'plain', file], [f'take {file.stat().st_size}', 'settle'], there, absent))


def main():
    parser = argparse.ArgumentParser()
    parser.add_argument('--program', type=Path, default=PROGRAM)
    parser.add_argument('--order', type=Path, default=ORDER)
    words = parser.parse_args()
    faults = []
    with tempfile.TemporaryDirectory() as name:
        folder = Path(name)
        for case, made in CASES.items():
            faults += [f'{case}: {fault}' for fault in faults_of(words.program, words.order, folder, made)]
        faults += [f'two nodes: {fault}' for fault in faults_of_nodes(words.program, words.order, folder)]
    print('\n'.join(faults[:30] or [f'{len(CASES) + 1} logs in the order of effects']))
    return 1 if faults else 0


if __name__ == '__main__':
    sys.exit(main())
