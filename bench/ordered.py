"""Checks the program `audit_order` over logs, apart from its proofs.

    bench/ordered.py [LOG..]

Of each log: the status is 0; the lines of the answer, with their marks undone, are the lines of the log and EOE lines, in some order;
each of those EOE lines is of an event that has a call; the times in the answer never fall; each line of it is the line of the log as the rules rewrite it
(by the plain reading of `plain_rules.py`, too) and with the greatest time before it; `--report` counts the events, the added ends, the rewritten lines and the raised
times that the answer has, also if no line may wait; and `--undo` writes the lines of the answer, and those of the log, with their marks undone. The calls
of the 32-bit gate become those that the kernel's own tables name, if these are on the machine. The events
of small logs made by hand stand in the order that the documents say, those with reads of regular files too, and are late where it says so; and as many of their lines are rewritten as it says. Other words have the status 2 and write nothing.
Without a LOG the checks go over the examples, over
generated logs, and over logs that were made to be odd. Prints what isn't so, and ends with status 1 if there is any.
"""
import collections
import functools
import itertools
import json
import re
import subprocess
import sys
from pathlib import Path

from plain_rules import Rules

TOP = Path(__file__).resolve().parent.parent
PROGRAM = TOP / 'crates/audit_order/out/audit_order'
STAMP = re.compile(rb'^([^(]*msg=audit)\((\d{1,15}\.\d{3}):(\d{1,10})\)(.*)$', re.S)
MARK = re.compile(rb'^(.*)\x1dWAS=\{ audit\(([^:\x1d]*):([^\x1d]*)$', re.S)
PART = re.compile(rb'^[^)]*\) (\d{1,10}) (.*) \}$', re.S)
CALL_32 = re.compile(rb'^: arch=40000003 syscall=(\d{1,10}) ')
KERNEL_ADDRESS = re.compile(rb'^: saddr=1000[^ \x1d]{4}00000000[^ \x1d]*')
TABLES = [Path('/usr/include/x86_64-linux-gnu/asm') / name for name in ('unistd_32.h', 'unistd_64.h')]
TABLES_ARE_THERE = all(it.exists() for it in TABLES)
# The calls that the main program or the rules follow, by the kernel's names for the 64-bit gate; and 32-bit calls that have another name there.
FOLLOWED = '''read pread64 readv preadv preadv2 recvfrom recvmsg write pwrite64 writev pwritev pwritev2 sendto sendmsg sendfile tee splice copy_file_range open creat
    openat openat2 close close_range dup dup2 dup3 fcntl pipe socketpair pipe2 socket bind connect accept accept4 execve execveat fork vfork clone3 clone exit_group truncate
    chmod chown lchown fchownat fchmodat ftruncate fchmod fchown rename link renameat linkat renameat2 rmdir unlink unlinkat mkdir symlink mknod mkdirat mknodat
    symlinkat'''.split()
RENAMED = {'mmap2': 'mmap', **{name: name.removesuffix('32') for name in ('chown32', 'lchown32', 'fchown32')},
           **{name: name.removesuffix('64') for name in ('truncate64', 'ftruncate64', 'fcntl64', 'sendfile64')}}
# The words that turn rules off.
RULES = ('--no-join', '--shared-connections', '--no-names', '--no-compat', '--no-descriptors')
END = re.compile(rb'^(.*)type=EOE msg=audit\((\d+\.\d{3}):(\d+)\): $', re.S)
FORK_ANSWER = re.compile(rb': arch=(?:c000003e syscall=(?:5[678]|435)|40000003 syscall=2) .*?exit=([^ ]*)')
ANSWER = re.compile(rb'^: arch=[^ ]* syscall=[^ ]* (?:per=[^ ]* )?success=yes exit=([^ \x1d]*)', re.S)
ADDED_PEER = re.compile(rb'^(.*)type=SOCKADDR msg=audit\((\d+\.\d{3}):(\d+)\): saddr=0100\x1dADDED=yes$', re.S)

ODD = {
    'empty': b'',
    'blank lines': b'\n\n \n',
    'no line feed at the end': b'type=EOE msg=audit(1.000:1): ',
    'two boots': b'type=SYSCALL msg=audit(900.000:9): arch=c000003e syscall=1\ntype=SYSCALL msg=audit(1000.000:1): arch=c000003e syscall=1\n',
    'two nodes': b'node=a type=SYSCALL msg=audit(5.000:7): syscall=1\nnode=b type=SYSCALL msg=audit(5.000:7): syscall=1\n',
    'marks of its own': b'type=PATH msg=audit(2.000:1): name="a"\x1dWAS={ audit(1.000:1) }\ntype=PATH msg=audit(1.000:2): name="b"\x1dUID="x"\n',
    'marks with a part': b'type=PATH msg=audit(2.000:1): a\x1dWAS={ audit(1.000:1) 99 : b }\ntype=PATH msg=audit(1.000:2): a\x1dWAS={ audit(1.000:2) x : b }\n',
    'lines to rewrite': b'type=SYSCALL msg=audit(2.000:1): arch=40000003 syscall=4 per=8 a0=1\ntype=SYSCALL msg=audit(1.000:2): arch=40000003 syscall=102 a0=1\n'
                        b'type=SOCKADDR msg=audit(2.000:1): saddr=100000000000000000000000\x1dSADDR={ fam=netlink }\x1dWAS={ audit(1.000:1) 1 x }\n'
                        b'type=SOCKADDR msg=audit(1.000:2): saddr=1000\ntype=SOCKADDR msg=audit(1.000:2): saddr=10000000D204000000000000\n'
                        b'type=SECCOMP msg=audit(1.000:3): arch=40000003 syscall=4 per=8\ntype=SYSCALL msg=audit(3.000:4): arch=40000003 syscall=003 per=8\n'
                        b'type=SYSCALL msg=audit(3.000:5): arch=40000003 syscall=3',
    'malformed lines': b'\x00\xff\ntype=SYSCALL msg=audit(x:1)\n(((:)))\ntype=SYSCALL msg=audit(1.00:1): x\nmsg=audit(99999999999999999999.000:1)\n',
    'a time far ahead': b'type=PATH msg=audit(999999999999999.999:1): a\ntype=PATH msg=audit(1.000:2): b\n',
}


def call(at, serial, number, pid, more='', node='', a0=3, a1=0, answer=1, done='yes', path='', cwd='', parent=1, arch='c000003e', a2=1):
    """The records of an event with one call."""
    kind = f'arch={arch} syscall={number} success={done} exit={answer} a0={a0} a1={a1} a2={a2} a3=0 items=0 ppid={parent} pid={pid} comm="p" exe="/p"'
    rest = [('SOCKADDR', more)] * bool(more) + [('CWD', f'cwd="{cwd}"')] * bool(cwd) + [('PATH', path)] * bool(path) + [('EOE', '')]
    return ''.join(f'{node}type={name} msg=audit({at}:{serial}): {text}\n' for name, text in [('SYSCALL', kind), *rest])


def opening(at, serial, pid, fd, mode, done='yes', kind='NORMAL', node='', arch='c000003e'):
    """The records of an open of a file of this mode."""
    return call(at, serial, OPEN_32 if arch == GATE else OPEN, pid, node=node, answer=fd, done=done, arch=arch, path=f'item=0 name="/f" inode=7 dev=fe:00 mode={mode} ouid=0 ogid=0 rdev=00:00 nametype={kind}')


def torn(event, other):
    """The records of an event, with another event after the first of them."""
    first, rest = event.split('\n', 1)
    return first + '\n' + other + rest


READ, WRITE, OPEN, CLOSE, DUP2, CONNECT, CLONE, FORK, VFORK, EXEC, EXIT, CLONE3, CLOSE_RANGE = 0, 1, 257, 3, 33, 42, 56, 57, 58, 59, 231, 435, 436
SPLICE, TEE, PREADV2 = 275, 276, 327
# The 32-bit gate, and its numbers of fork, read, write, close and openat.
GATE, FORK_32, READ_32, WRITE_32, CLOSE_32, OPEN_32 = '40000003', 2, 3, 4, 6, 295
FILE, FIFO, FOLDER = '0100644', '010644', '040755'
EARLY = call('1000.000', 1, WRITE, 9) + call('1000.000', 2, WRITE, 9)
# Logs made by hand, and the serial numbers of their events in the order of effects.
ORDERS = {
    'a read that waited': (EARLY + call('1000.030', 3, WRITE, 1) + call('1000.010', 4, READ, 2) + call('1000.040', 5, WRITE, 2), [1, 2, 3, 4, 5]),
    'a 32-bit read that waited': (EARLY + call('1000.030', 3, WRITE, 1) + call('1000.010', 4, READ_32, 2, arch=GATE) + call('1000.040', 5, WRITE_32, 2, arch=GATE), [1, 2, 3, 4, 5]),
    **{f'{name} that waited': (EARLY + call('1000.030', 3, WRITE, 1) + call('1000.010', 4, number, 2) + call('1000.040', 5, WRITE, 2), [1, 2, 3, 4, 5])
       for name, number in (('a splice', SPLICE), ('a tee', TEE), ('a preadv2', PREADV2))},
    'a pread': (EARLY + call('1000.030', 3, WRITE, 1) + call('1000.010', 4, 17, 2), [1, 2, 4, 3]),
    'a 32-bit write': (EARLY + call('1000.030', 3, WRITE, 1) + call('1000.010', 4, WRITE_32, 2, arch=GATE), [1, 2, 4, 3]),
    'a reader that sleeps ten seconds': (EARLY + call('1000.010', 3, READ, 2) + call('1005.000', 4, WRITE, 1) + call('1010.010', 5, WRITE, 2), [1, 2, 3, 4, 5]),
    'a call that waited more than two seconds': (EARLY + torn(call('1000.500', 4, CONNECT, 2, 'saddr=0200'), call('1003.000', 3, WRITE, 1)), [1, 2, 4, 3]),
    'one event far ahead': (EARLY + call('9000.000', 3, WRITE, 7) + call('1000.020', 4, READ, 2) + call('1000.030', 5, WRITE, 1), [1, 2, 4, 5, 3]),
    'two events far ahead': (EARLY + call('9000.000', 3, WRITE, 7) + call('9000.001', 4, WRITE, 7) + call('1000.020', 5, READ, 2)
                             + call('1000.030', 6, WRITE, 1), [1, 2, 6, 3, 4, 5]),
    'a process of an event far ahead': (EARLY + call('9000.000', 3, WRITE, 1) + call('1000.030', 4, WRITE, 1) + call('1000.040', 5, WRITE, 2), [1, 2, 4, 5, 3]),
    'two nodes with one process number': (EARLY + call('1000.010', 4, READ, 5, node='node=b ') + call('1000.030', 3, READ, 5) + call('1000.015', 5, WRITE, 5, node='node=b '),
                                          [1, 2, 4, 5, 3]),
    'two nodes with two clocks': (EARLY + call('1015.000', 4, READ, 5, node='node=b ') + call('1015.000', 6, READ, 5, node='node=b ')
                                  + call('1000.010', 3, READ, 5) + call('1000.020', 5, WRITE, 6), [1, 2, 3, 5, 4, 6]),
    'a child that was recorded before its vfork': (EARLY + call('1000.020', 3, READ, 2, parent=5) + call('1000.020', 4, VFORK, 5, answer=2), [1, 2, 4, 3]),
    'a vfork after a call of its process': (EARLY + call('1000.020', 3, WRITE, 5) + call('1000.020', 4, WRITE, 2, parent=5) + call('1000.020', 5, VFORK, 5, answer=2), [1, 2, 3, 5, 4]),
    'two forks of one process': (EARLY + call('1000.020', 3, WRITE, 2, parent=5) + call('1000.020', 4, FORK, 5, answer=2) + call('1000.020', 5, WRITE, 6, parent=5)
                                 + call('1000.020', 6, FORK, 5, answer=6), [1, 2, 4, 3, 6, 5]),
    'a child whose serial number is less than that of its fork': (EARLY + call('1000.020', 4, CLONE, 5, a0='1200011', answer=2) + call('1000.020', 3, WRITE, 2, parent=5), [1, 2, 4, 3]),
    'a child of a process that waited': (EARLY + call('1000.030', 3, WRITE, 1) + call('1000.010', 4, READ, 5) + call('1000.020', 6, CLONE3, 5, answer=2)
                                         + call('1000.025', 5, WRITE, 2, parent=5), [1, 2, 3, 4, 6, 5]),
    'a fork that failed': (EARLY + call('1000.020', 3, WRITE, 2) + call('1000.020', 4, FORK, 5, done='no', answer=-11), [1, 2, 3, 4]),
    'a fork of the 32-bit gate': (EARLY + call('1000.020', 3, WRITE, 2, parent=5) + call('1000.020', 4, FORK_32, 5, answer=2, arch=GATE), [1, 2, 4, 3]),
    'two boots, the clock set back': (EARLY + call('1000.010', 3, WRITE, 5) + 'type=SYSTEM_BOOT msg=audit(500.000:4): pid=1\n' + call('500.010', 6, READ, 5)
                                      + call('500.020', 5, WRITE, 6), [1, 2, 3, 4, 6, 5]),
}


# The record of a read (of pid 2 at descriptor 3, if nothing else is said) that was entered at .020 comes after those of writes that were entered at .030 and
# .040. From a regular file it had read before them; otherwise it may have waited. These lines say what was read from.
# Process 5 holds a file at descriptor 3, and forks process 2; a call of that is one of a child of process 5.
HELD, BORN, CHILD = opening('1000.010', 3, 5, 3, FILE), call('1000.011', 7, FORK, 5, answer=2), {'parent': 5}
READ_FROM = {
    'a regular file': (opening('1000.010', 3, 2, 3, FILE), {}, True),
    'a new file': (opening('1000.010', 3, 2, 3, FILE, kind='CREATE'), {}, True),
    'a FIFO': (opening('1000.010', 3, 2, 3, FIFO), {}, False),
    # The type of a file stands above the twelve bits of what its mode allows: setuid, setgid and sticky are among these.
    **{f'a file of the mode {mode}': (opening('1000.010', 3, 2, 3, mode), {}, True) for mode in ('0104755', '0102755', '0101777', '0107777', '0100000')},
    **{f'what has the mode {mode}': (opening('1000.010', 3, 2, 3, mode), {}, False) for mode in ('010044', '0140755', '0120777', '020620', '060660', '01006440', '0100864')},
    'a file whose folder alone is there': (opening('1000.010', 3, 2, 3, FILE, kind='PARENT'), {}, False),
    'another descriptor': (opening('1000.010', 3, 2, 4, FILE), {}, False),
    'a descriptor of another process': (opening('1000.010', 3, 5, 3, FILE), {}, False),
    'a descriptor of another node': (opening('1000.010', 3, 2, 3, FILE, node='node=b '), {}, False),
    'a file that could not be opened': (opening('1000.010', 3, 2, 3, FILE, done='no'), {}, False),
    'a descriptor that was closed': (opening('1000.010', 3, 2, 3, FILE) + call('1000.011', 7, CLOSE, 2, answer=0), {}, False),
    'a descriptor of a range that was closed': (opening('1000.010', 3, 2, 3, FILE) + call('1000.011', 7, CLOSE_RANGE, 2, a0=3, a1='ffffffff', a2=0, answer=0), {}, False),
    'a descriptor of a range that was closed in a table of its own': (opening('1000.010', 3, 2, 3, FILE) + call('1000.011', 7, CLOSE_RANGE, 2, a0=2, a1=3, a2=2, answer=0), {}, False),
    'a descriptor of a range of long numbers': (opening('1000.010', 3, 2, 3, FILE) + call('1000.011', 7, CLOSE_RANGE, 2, a0=3, a1='ffffffffffffffff', a2=0, answer=0), {}, False),
    'a descriptor of a range that a 32-bit call closed': (opening('1000.010', 3, 2, 3, FILE)
                                                          + call('1000.011', 7, CLOSE_RANGE, 2, a0=3, a1='ffffffff', a2=0, answer=0, arch=GATE), {}, False),
    'a descriptor of a range that an exec will close': (opening('1000.010', 3, 2, 3, FILE) + call('1000.011', 7, CLOSE_RANGE, 2, a0=3, a1='ffffffff', a2=4, answer=0), {}, True),
    'a descriptor below a range that was closed': (opening('1000.010', 3, 2, 3, FILE) + call('1000.011', 7, CLOSE_RANGE, 2, a0=4, a1='ffffffff', a2=0, answer=0), {}, True),
    'a descriptor above a range that was closed': (opening('1000.010', 3, 2, 3, FILE) + call('1000.011', 7, CLOSE_RANGE, 2, a0=0, a1=2, a2=0, answer=0), {}, True),
    'a descriptor of a range that another process closed': (opening('1000.010', 3, 2, 3, FILE) + call('1000.011', 7, CLOSE_RANGE, 8, a0=3, a1='ffffffff', a2=0, answer=0), {}, True),
    'a descriptor of a range that could not be closed': (opening('1000.010', 3, 2, 3, FILE) + call('1000.011', 7, CLOSE_RANGE, 2, a0=3, a1=2, a2=0, done='no', answer=-22), {}, True),
    'a descriptor that is another file now': (opening('1000.010', 3, 2, 3, FILE) + opening('1000.011', 7, 2, 3, FIFO), {}, False),
    'a copy': (opening('1000.010', 3, 2, 3, FILE) + call('1000.011', 7, DUP2, 2, answer=0), {'a0': 0}, True),
    'a copy of a FIFO over a file': (opening('1000.009', 3, 2, 3, FILE) + opening('1000.010', 7, 2, 4, FIFO) + call('1000.011', 8, DUP2, 2, a0=4, answer=3), {}, False),
    'the standard input after an exec': (opening('1000.010', 3, 2, 0, FILE) + call('1000.011', 7, EXEC, 2, answer=0), {'a0': 0}, True),
    'another descriptor after an exec': (opening('1000.010', 3, 2, 3, FILE) + call('1000.011', 7, EXEC, 2, answer=0), {}, False),
    'a descriptor of a process that is a new one': (opening('1000.010', 3, 2, 3, FILE) + call('1000.011', 7, FORK, 8, answer=2), {}, False),
    'a file that a 32-bit call opened': (opening('1000.010', 3, 2, 3, FILE, arch=GATE), {}, True),
    'a descriptor that a 32-bit call closed': (opening('1000.010', 3, 2, 3, FILE) + call('1000.011', 7, CLOSE_32, 2, answer=0, arch=GATE), {}, False),
    'a file that was inherited': (HELD + BORN, CHILD, True),
    'a file that was inherited twice': (opening('1000.008', 3, 6, 3, FILE) + call('1000.009', 4, FORK, 6, answer=5) + call('1000.011', 7, FORK, 5, answer=2, parent=6), CHILD, True),
    'a file that was inherited by a clone': (HELD + call('1000.011', 7, CLONE, 5, a0='1200011', answer=2), CHILD, True),
    'a file that was inherited by a clone of descriptors': (HELD + call('1000.011', 7, CLONE, 5, a0='411', answer=2), CHILD, False),
    'a file that was inherited by a clone3': (HELD + call('1000.011', 7, CLONE3, 5, answer=2), CHILD, False),
    'a file that was inherited from another parent': (HELD + BORN, {}, False),
    'a copy of a file that was inherited': (HELD + BORN + call('1000.012', 8, DUP2, 2, answer=0, parent=5), CHILD | {'a0': 0}, True),
    'a file that the child closed': (HELD + BORN + call('1000.012', 8, CLOSE, 2, answer=0, parent=5), CHILD, False),
    'a file that the child closed, as was recorded before the fork': (HELD + call('1000.012', 8, CLOSE, 2, answer=0, parent=5) + BORN, CHILD, False),
    'a file that the child opened, as was recorded before the fork': (opening('1000.012', 8, 2, 3, FILE) + BORN, CHILD, True),
    'a file that the parent had closed': (HELD + call('1000.011', 8, CLOSE, 5, answer=0) + BORN, CHILD, False),
    'a file that the parent closed later': (HELD + BORN + call('1000.012', 8, CLOSE, 5, answer=0), CHILD, True),
    'a file that the parent opened later': (BORN + opening('1000.012', 8, 5, 3, FILE), CHILD, False),
    'a file that the parent opened during the fork': (opening('1000.012', 8, 5, 3, FILE) + BORN, CHILD, False),
    'a file whose parent had ended': (HELD + call('1000.011', 8, EXIT, 5, done='no') + BORN, CHILD, False),
    'the standard input after a vfork and an exec': (opening('1000.010', 3, 5, 0, FILE) + call('1000.012', 8, EXEC, 2, answer=0, parent=5)
                                                     + call('1000.011', 7, VFORK, 5, answer=2), CHILD | {'a0': 0}, True),
    'another descriptor after a vfork and an exec': (HELD + call('1000.012', 8, EXEC, 2, answer=0, parent=5) + call('1000.011', 7, VFORK, 5, answer=2), CHILD, False),
    'a file before a start': (opening('1000.010', 3, 2, 3, FILE) + 'type=DAEMON_START msg=audit(1000.011:7): op=start\n' + call('1000.012', 8, WRITE, 9)
                              + call('1000.013', 9, WRITE, 9), {}, False),
}

BIND, ACCEPT, UNLINKAT, SEND, RECEIVE, SOCKET = 49, 43, 263, 44, 45, 41
BOUND = call('1000.010', 3, BIND, 1, 'saddr=02001F90000000000000000000000000', answer=0)
BOUND_PATH = call('1000.010', 3, BIND, 1, 'saddr=01002F72756E2F73', answer=0)
CALLED, PEER, ELSEWHERE = 'saddr=02001F907F0000010000000000000000', 'saddr=0200D4317F0000010000000000000000', 'saddr=0200D4310A0000090000000000000000'
OPENED_FD = call('1000.020', 4, OPEN, 2, answer=4, a0='ffffff9c', a1='7ffc', a2=0, cwd='/', path='item=0 name="/dev/fd/63" inode=9 dev=00:0d mode=010600 ouid=0 ogid=0 rdev=00:00 nametype=NORMAL')
# Logs made by hand, and how many of their lines are rewritten: with all rules, with shared connections, without those on addresses, without those on names, and without that
# on names of descriptors.
MEETINGS = {
    'a connection': (BOUND + call('1000.020', 4, CONNECT, 2, CALLED, answer=0) + call('1000.030', 5, ACCEPT, 1, PEER, answer=4), (2, 1, 0, 2)),
    'a connection that was accepted first': (BOUND + call('1000.020', 4, ACCEPT, 1, PEER, answer=4) + call('1000.030', 5, CONNECT, 2, CALLED, answer=0), (2, 1, 0, 2)),
    'an accept a tick before its connect': (BOUND + call('1000.020', 4, ACCEPT, 1, PEER, answer=4) + call('1000.024', 5, CONNECT, 2, CALLED, answer=0), (2, 1, 0, 2)),
    'an accept and a connect at a path': (BOUND_PATH + call('1000.020', 4, ACCEPT, 1, 'saddr=0100', answer=4) + call('1000.020', 5, CONNECT, 2, 'saddr=01002F72756E2F7300', answer=0),
                                          (2, 0, 0, 2)),
    'two connections that wait': (BOUND + call('1000.020', 4, CONNECT, 2, CALLED, answer=0) + call('1000.021', 5, CONNECT, 5, CALLED, done='no', answer=-115)
                                  + call('1000.030', 6, ACCEPT, 1, PEER, answer=4) + call('1000.031', 7, ACCEPT, 1, PEER, answer=5), (4, 2, 0, 4)),
    'a connect that nobody accepts': (BOUND + call('1000.020', 4, CONNECT, 2, CALLED, answer=0) + call('1020.020', 5, CONNECT, 2, CALLED, answer=0)
                                      + call('1020.021', 6, CONNECT, 2, CALLED, answer=0) + call('1020.022', 7, ACCEPT, 1, PEER, answer=4), (4, 1, 0, 4)),
    'a connect that was accepted too late': (BOUND + call('1000.020', 4, CONNECT, 2, CALLED, answer=0) + call('1020.021', 5, ACCEPT, 1, PEER, answer=4), (2, 1, 0, 2)),
    'a bind to no port': (call('1000.010', 3, BIND, 1, 'saddr=02000000000000000000000000000000', answer=0) + call('1000.020', 4, CONNECT, 2, 'saddr=020000007F0000010000000000000000', answer=0),
                          (0, 0, 0, 0)),
    'a connection to a socket of a range that was closed': (BOUND + call('1000.015', 6, CLOSE_RANGE, 1, a0=3, a1=3, a2=0, answer=0) + call('1000.030', 5, ACCEPT, 1, PEER, answer=4), (0, 0, 0, 0)),
    'a connection to a socket of a range that an exec will close': (BOUND + call('1000.015', 6, CLOSE_RANGE, 1, a0=3, a1=3, a2=4, answer=0) + call('1000.030', 5, ACCEPT, 1, PEER, answer=4),
                                                                    (1, 1, 0, 1)),
    'a connection to a socket that was inherited': (call('1000.010', 3, BIND, 1, 'saddr=02001F90000000000000000000000000', answer=0, a0='ff') + call('1000.015', 6, FORK, 1, answer=8)
                                                    + call('1000.030', 5, ACCEPT, 8, PEER, answer=4, a0='ff'), (1, 1, 0, 1)),
    'a connection to a socket of a great number that was inherited': (call('1000.010', 3, BIND, 1, 'saddr=02001F90000000000000000000000000', answer=0, a0='100')
                                                                      + call('1000.015', 6, FORK, 1, answer=8) + call('1000.030', 5, ACCEPT, 8, PEER, answer=4, a0='100'), (0, 0, 0, 0)),
    'an open of a descriptor by its name': (OPENED_FD, (1, 1, 1, 1, 0)),
    'an open of a standard stream': (OPENED_FD.replace('/dev/fd/63', '/dev/stdin'), (1, 1, 1, 1, 0)),
    'an open of a descriptor of the process by its number': (OPENED_FD.replace('/dev/fd', '/proc/2/fd'), (1, 1, 1, 1, 0)),
    'an open of a descriptor of another process': (OPENED_FD.replace('/dev/fd', '/proc/3/fd'), (0, 0, 0, 0, 0)),
    'an open of a descriptor by its name that failed': (OPENED_FD.replace('success=yes', 'success=no'), (0, 0, 0, 0, 0)),
    'a connect that failed': (BOUND + call('1000.020', 4, CONNECT, 2, CALLED, done='no', answer=-111), (0, 0, 0, 0)),
    'a peer from elsewhere': (BOUND + call('1000.020', 4, ACCEPT, 1, ELSEWHERE, answer=4), (0, 0, 0, 0)),
    'a connection after a start': (BOUND + 'type=DAEMON_START msg=audit(1000.011:9): op=start\n' + call('1000.020', 4, CONNECT, 2, CALLED, answer=0)
                                   + call('1000.030', 5, ACCEPT, 1, PEER, answer=4), (0, 0, 0, 0)),
    'datagrams, received and answered': (BOUND + call('1000.020', 4, SEND, 2, CALLED) + call('1000.021', 5, RECEIVE, 1, PEER) + call('1000.022', 6, SEND, 1, PEER)
                                         + call('1000.023', 7, RECEIVE, 2, CALLED), (2, 2, 0, 2)),
    'datagrams of a client that is bound': (BOUND + call('1000.011', 4, BIND, 2, 'saddr=0200D431000000000000000000000000', answer=0) + call('1000.020', 5, SEND, 2, CALLED)
                                            + call('1000.021', 6, RECEIVE, 1, PEER) + call('1000.022', 7, SEND, 1, PEER) + call('1000.023', 8, RECEIVE, 2, CALLED), (2, 2, 0, 2)),
    'a stream that is bound': (call('1000.009', 7, SOCKET, 1, a1=1, answer=3) + BOUND + call('1000.021', 5, RECEIVE, 1, PEER) + call('1000.022', 6, SEND, 1, PEER), (0, 0, 0, 0)),
    'a silent accept': (BOUND + call('1000.020', 4, CONNECT, 2, CALLED, answer=0) + call('1000.030', 5, ACCEPT, 1, answer=4), (2, 0, 0, 2)),
    'a silent accept that no connect waits for': (BOUND + call('1000.030', 5, ACCEPT, 1, answer=4), (0, 0, 0, 0)),
    'a silent accept at a path': (BOUND_PATH + call('1000.020', 4, ACCEPT, 1, answer=4) + call('1000.020', 5, CONNECT, 2, 'saddr=01002F72756E2F7300', answer=0), (2, 0, 0, 2)),
    'an accept of another gate than that of x86-64': (BOUND + call('1000.020', 4, CONNECT, 2, CALLED, answer=0) + call('1000.030', 5, 364, 1, arch=GATE, answer=4), (2, 1, 1, 2)),
    'an accept whose peer was asked for': (BOUND + call('1000.020', 4, CONNECT, 2, CALLED, answer=0) + call('1000.030', 5, ACCEPT, 1, a1='7f00', answer=4), (1, 0, 0, 1)),
    'a silent accept that failed': (BOUND + call('1000.020', 4, CONNECT, 2, CALLED, answer=0) + call('1000.030', 5, ACCEPT, 1, done='no', answer=-11), (1, 0, 0, 1)),
    'a silent accept of a socket that is not bound': (BOUND + call('1000.020', 4, CONNECT, 2, CALLED, answer=0) + call('1000.030', 5, ACCEPT, 1, a0=7, answer=4), (1, 0, 0, 1)),
    'a datagram socket that is connected': (call('1000.009', 7, SOCKET, 2, a1=2, answer=3) + BOUND + call('1000.020', 4, CONNECT, 2, CALLED, answer=0), (0, 0, 0, 0)),
    'a stream that is connected': (call('1000.009', 7, SOCKET, 2, a1=80001, answer=3) + BOUND + call('1000.020', 4, CONNECT, 2, CALLED, answer=0), (1, 0, 0, 1)),
    'a name in a folder': (opening('1000.010', 3, 2, 3, FOLDER) + call('1000.020', 4, UNLINKAT, 2, cwd='/home'), (1, 1, 1, 0)),
    'a folder in a folder': (opening('1000.010', 3, 2, 3, FOLDER) + call('1000.012', 4, OPEN, 2, cwd='/home', path='item=0 name="d" inode=8 dev=fe:00 mode=040755 nametype=NORMAL', answer=6)
                             + call('1000.020', 5, UNLINKAT, 2, cwd='/home', a0=6), (2, 2, 2, 0)),
    'a folder in a folder that is not known': (call('1000.012', 4, OPEN, 2, cwd='/home', path='item=0 name="d" inode=8 dev=fe:00 mode=040755 nametype=NORMAL', answer=6, a0=5)
                                               + call('1000.020', 5, UNLINKAT, 2, cwd='/home', a0=6), (0, 0, 0, 0)),
    'a name in what was closed': (opening('1000.010', 3, 2, 3, FOLDER) + call('1000.015', 4, CLOSE, 2, answer=0) + call('1000.020', 5, UNLINKAT, 2, cwd='/home'), (0, 0, 0, 0)),
    'a name in a folder of another process': (opening('1000.010', 3, 5, 3, FOLDER) + call('1000.020', 4, UNLINKAT, 2, cwd='/home'), (0, 0, 0, 0)),
}


# Forks of the process 5 in a pid namespace, by their answers there, and its children 502 and 503, whose first calls these are.
INSIDE, INSIDE_2 = call('1000.010', 3, FORK, 5, answer=7), call('1000.040', 5, FORK, 5, answer=8)
OUTSIDE, OUTSIDE_2 = call('1000.014', 4, EXEC, 502, answer=0, parent=5), call('1000.044', 6, EXEC, 503, answer=0, parent=5)
# Logs made by hand, and the answers of their forks as they are written, in the order of the events.
NAMESPACES = {
    'a fork in a pid namespace': (INSIDE + OUTSIDE, ['502']),
    'a child that was recorded before its fork': (OUTSIDE.replace('1000.014', '1000.010') + INSIDE, ['502']),
    'a vfork': (INSIDE.replace('syscall=57', 'syscall=58') + OUTSIDE, ['502']),
    'a clone': (INSIDE.replace('syscall=57', 'syscall=56').replace('a0=3', 'a0=1200011') + OUTSIDE, ['502']),
    'a clone that makes a thread': (INSIDE.replace('syscall=57', 'syscall=56').replace('a0=3', 'a0=3d0f00') + OUTSIDE, ['7']),
    'a clone3': (INSIDE.replace('syscall=57', 'syscall=435') + OUTSIDE, ['502']),
    'a 32-bit fork': (INSIDE.replace('c000003e syscall=57', f'{GATE} syscall=2 per=8') + OUTSIDE, ['502']),
    'a fork with a personality': (INSIDE.replace('syscall=57', 'syscall=57 per=40000') + OUTSIDE, ['502']),
    'a fork that failed': (INSIDE.replace('success=yes exit=7', 'success=no exit=-11') + OUTSIDE, ['-11']),
    'a child of another process': (INSIDE + OUTSIDE.replace('ppid=5', 'ppid=6'), ['7']),
    'a child of another node': (INSIDE + OUTSIDE.replace('type=', 'node=b type='), ['7']),
    'a child that was there before the fork': (INSIDE + OUTSIDE.replace('1000.014', '1000.006'), ['7']),
    'a child that comes after the window': (INSIDE + call('1030.000', 8, WRITE, 9) + call('1030.001', 9, WRITE, 8) + OUTSIDE.replace('1000.014', '1030.014'), ['7']),
    'a child whose number was answered': (INSIDE.replace('exit=7', 'exit=502') + OUTSIDE, ['502']),
    'a child whose number another fork has answered': (INSIDE + INSIDE_2.replace('exit=8', 'exit=502') + OUTSIDE, ['7', '502']),
    'two children of one fork': (INSIDE + OUTSIDE + OUTSIDE_2, ['7']),
    'two forks, one after the other': (INSIDE + OUTSIDE + INSIDE_2 + OUTSIDE_2, ['502', '503']),
    'two forks in one tick': (INSIDE + INSIDE_2.replace('1000.040', '1000.010') + OUTSIDE + OUTSIDE_2, ['7', '8']),
    'two forks whose children come after both': (INSIDE + INSIDE_2 + OUTSIDE.replace('1000.014', '1000.043') + OUTSIDE_2, ['7', '8']),
    'a second fork whose child alone has come': (INSIDE + INSIDE_2 + OUTSIDE_2, ['7', '8']),
    'a fork after two in one tick whose children have come': (INSIDE + INSIDE.replace(':3)', ':8)') + OUTSIDE + OUTSIDE.replace('pid=502', 'pid=504').replace(':4)', ':9)') + INSIDE_2 + OUTSIDE_2,
                                                              ['7', '7', '503']),
    'a process that another fork shows outside': (call('1000.006', 8, FORK, 5, answer=501) + call('1000.007', 9, EXEC, 501, answer=0, parent=5) + INSIDE + OUTSIDE, ['501', '7']),
    'a child of a process that has ended': (INSIDE + OUTSIDE + call('1000.020', 8, EXIT, 5), ['7']),
    'a child before a start': (OUTSIDE.replace('1000.014', '1000.010') + 'type=DAEMON_START msg=audit(1000.010:9): op=start\n' + INSIDE, ['7']),
}


def faults_of_namespaces():
    """What isn't so of the answers of forks in pid namespaces; without the rule on them they stay."""
    for name, (log, wanted) in NAMESPACES.items():
        for words in ([], ['--no-compat']):
            written = lines_of(subprocess.run([PROGRAM, *words], input=(EARLY + log).encode(), stdout=subprocess.PIPE, check=True).stdout)
            stay = [it[1].decode() for line in map(undone, written) if (it := FORK_ANSWER.search(line))]
            found = [it[1].decode() for line in written if (it := FORK_ANSWER.search(line))]
            if found != (stay if words else wanted):
                yield f'{name}: the answers {found} and not {wanted}, by {words}'


# The names that connections get in some of these logs, one after the other.
NAMES_MET = {
    'a connection': ['127.0.0.1:8080#1000020:4'] * 2,
    'a connection that was accepted first': ['127.0.0.1:8080#1000020:4', '127.0.0.1:8080#1000030:5'],
    'an accept a tick before its connect': ['127.0.0.1:8080#1000020:4'] * 2,
    'an accept and a connect at a path': ['/run/s#1000020:4'] * 2,
    'a silent accept': ['127.0.0.1:8080#1000020:4'] * 2,
    'a silent accept at a path': ['/run/s#1000020:4'] * 2,
    'two connections that wait': ['127.0.0.1:8080#1000020:4'] * 4,
    'a connect that nobody accepts': ['127.0.0.1:8080#1000020:4'] * 2 + ['127.0.0.1:8080#1020021:6'] * 2,
    'a connect that was accepted too late': ['127.0.0.1:8080#1000020:4', '127.0.0.1:8080#1020021:5'],
}


def names_in(written):
    """The names of connections in lines."""
    return [bytes.fromhex(it[1].decode())[2:].decode() for line in written if (it := re.search(rb': saddr=(0100[0-9A-F]+23[0-9A-F]+)\x1d', line))]


def faults_of_names():
    """What isn't so of the names of connections, in what the program writes and by the plain reading."""
    for name, wanted in NAMES_MET.items():
        log = (EARLY + MEETINGS[name][0]).encode()
        written = subprocess.run([PROGRAM], input=log, stdout=subprocess.PIPE, check=True).stdout
        for way, lines in [('the program', lines_of(written)), ('the plain reading', shown(lines_of(written), []))]:
            if (found := names_in(lines)) != wanted:
                yield f'{name}: the names {found} and not {wanted}, by {way}'


def faults_of_meetings():
    """What isn't so of how many lines are rewritten."""
    for name, (log, wanted) in MEETINGS.items():
        for word, count in zip((None, '--shared-connections', '--no-join', '--no-names', '--no-descriptors'), wanted):
            ran = subprocess.run([PROGRAM, *filter(None, [word]), '--report'], input=(EARLY + log).encode(), stdout=subprocess.PIPE, stderr=subprocess.PIPE, check=True)
            if (found := json.loads(ran.stderr)['rewrites']) != count:
                yield f'{name}: {found} lines are rewritten and not {count}, by {word}'


def faults_of_reads():
    """What isn't so of the order of a read and two writes."""
    for name, (before, given, early) in READ_FROM.items():
        log = EARLY + before + call('1000.040', 26, WRITE, 7) + call('1000.030', 25, WRITE, 1) + call('1000.020', 24, READ, 2, **given)
        found = events_in(lines_of(subprocess.run([PROGRAM], input=log.encode(), stdout=subprocess.PIPE, check=True).stdout))[-3:]
        if found != ([24, 25, 26] if early else [25, 24, 26]):
            yield f'a read from {name}: events {found}'


def events_in(written):
    """The serial numbers of the events, as their lines stand."""
    serials = [int(stamp[3]) for line in written if (stamp := STAMP.match(line))]
    return [it for it, before in zip(serials, [None, *serials]) if it != before]


def faults_of_orders():
    """What isn't so of the logs made by hand."""
    for name, (log, wanted) in ORDERS.items():
        found = events_in(lines_of(subprocess.run([PROGRAM], input=log.encode(), stdout=subprocess.PIPE, check=True).stdout))
        if found != wanted:
            yield f'{name}: events {found} and not {wanted}'


def undone(line):
    """A line as it was before it was changed."""
    stamp = STAMP.match(line)
    mark = stamp and MARK.match(stamp[4])
    if not mark:
        return line
    part = PART.match(mark[3])
    return stamp[1] + b'(' + mark[2] + b':' + stamp[3] + b')' + (part[2] + mark[1][int(part[1]):] if part else mark[1])


def is_rewritten(line):
    """Whether the last mark of a line keeps a part."""
    stamp = STAMP.match(line)
    mark = stamp and MARK.match(stamp[4])
    return bool(mark and PART.match(mark[3]))


@functools.cache
def native_calls():
    """The number of the 64-bit call for that of each 32-bit call which the main program follows by the same arguments, as the kernel's tables say."""
    old, new = ({name: int(number) for name, number in re.findall(r'#define __NR_(\w+) (\d+)', table.read_text())} for table in TABLES)
    followed = {*FOLLOWED, 'mmap'}
    # The first one of the 32-bit gate takes its arguments from memory.
    return {number: new[RENAMED.get(name, name)] for name, number in old.items() if name != 'mmap' and RENAMED.get(name, name) in followed}


def rewrite_alone(front, rest, leaves_out):
    """What of a line is rewritten by what it says alone, and to what; nothing if no rule says so."""
    call = CALL_32.match(rest) if '--no-compat' not in leaves_out and front.endswith(b'type=SYSCALL msg=audit') else None
    if call and int(call[1]) in native_calls():
        return call[0][:-1], b': arch=c000003e syscall=%d' % native_calls()[int(call[1])]
    address = KERNEL_ADDRESS.match(rest) if '--no-join' not in leaves_out and front.endswith(b'type=SOCKADDR msg=audit') else None
    return (address[0], b': saddr=0100') if address else None


def child_in(line, leaves_out):
    """The number of the child that is told of a line, as it is written: the answer of the fork, if that is another one than it was."""
    answers = [stamp and ANSWER.match(stamp[4]) for stamp in (STAMP.match(line), STAMP.match(undone(line)))]
    return answers[0][1] if all(answers) and answers[0][1] != answers[1][1] and '--no-compat' not in leaves_out and b'syscall=72 ' not in answers[0][0] else None


def with_answer(rest, child, found):
    """What of the text after a stamp is rewritten, and to what, if its call has this answer, beside another rewrite."""
    old, new = found or (b'', b'')
    stands = ANSWER.match(rest)
    return (stands[0], new + stands[0][len(old):-len(stands[1])] + child) if stands else found


def shown(written, leaves_out):
    """Lines as they are to be written one after the other, of lines as they are written: which child is told of a fork is taken from them."""
    greatest, text, rules = 0, b'0.000', Rules(leaves_out)
    for line, child in ((undone(it), child_in(it, leaves_out)) for it in written):
        stamp = STAMP.match(line)
        if not stamp or int(stamp[3]) >= 2 ** 32:
            yield line
            continue
        time = int(stamp[2].replace(b'.', b''))
        if time > greatest:
            greatest, text = time, stamp[2]
        at = text if time < greatest else stamp[2]
        answer = with_answer(stamp[4], child, None) if child else None
        rest = answer[1] + stamp[4][len(answer[0]):] if answer else stamp[4]
        by_others = rules.see(stamp[1], time, rest, b'%s(%s:%s)%s' % (stamp[1], stamp[2], stamp[3], rest))
        found = rewrite_alone(stamp[1], stamp[4], leaves_out) or by_others
        found = with_answer(stamp[4], child, found) if answer else found
        if found:
            old, new = found
            yield b'%s(%s:%s)%s\x1dWAS={ audit(%s:%s) %d %s }' % (stamp[1], at, stamp[3], new + stamp[4][len(old):], stamp[2], stamp[3], len(new), old)
        elif at != stamp[2] or MARK.match(stamp[4]):
            yield b'%s(%s:%s)%s\x1dWAS={ audit(%s:%s) }' % (stamp[1], at, stamp[3], stamp[4], stamp[2], stamp[3])
        else:
            yield line


def faults_of_calls():
    """What isn't so of the calls of the 32-bit gate."""
    numbers = range(600)
    log = b''.join(b'type=SYSCALL msg=audit(1.000:%d): arch=40000003 syscall=%d per=8\ntype=EOE msg=audit(1.000:%d): \n' % (it + 1, it, it + 1) for it in numbers)
    written = subprocess.run([PROGRAM], input=log, stdout=subprocess.PIPE, check=True).stdout
    found = dict(zip(numbers, re.findall(rb'syscall=(\d+) per=8', written)))
    rewritten = {number: int(new) for number, new in found.items() if b'arch=c000003e syscall=%b per=8\x1dWAS={ audit(1.000:%d) ' % (new, number + 1) in written}
    if rewritten != native_calls():
        yield f'32-bit calls that are rewritten otherwise: {sorted(set(rewritten.items()) ^ set(native_calls().items()))}'


def lines_of(text):
    lines = text.split(b'\n')
    return lines if lines[-1] else lines[:-1]


def event_of(line):
    """The time, the serial number and the node of a line that bears them."""
    stamp = STAMP.match(line)
    return stamp and (stamp[2], stamp[3], stamp[1].split(b' ')[0] if stamp[1].startswith(b'node=') else b'')


def faults_of_peers(lines, leaves_out):
    """What isn't so of the peers that were added to lines: which don't lack, and which lack still at the end of their event."""
    rules = Rules(leaves_out)
    for line in lines:
        stamp = STAMP.match(line)
        if not stamp or int(stamp[3]) >= 2 ** 32:
            continue
        time = int(stamp[2].replace(b'.', b''))
        lacks = rules.lacks_peer(stamp[1], time, int(stamp[3]))
        if ADDED_PEER.match(line) and not lacks:
            yield f'a peer that did not lack: {line!r}'
        if lacks and stamp[1].endswith((b'type=PROCTITLE msg=audit', b'type=EOE msg=audit')):
            yield f'a peer lacks before {line!r}'
        rules.see(stamp[1], time, stamp[4], line)


def counts_of(written, added):
    """What a report has to count of an answer with these lines added, except late lines; and events, if some line bears no stamp: it may stand apart from its event."""
    events = [event_of(undone(line)) for line in written]
    return {'added_ends': sum(1 for it in added if END.match(it)), 'added_peers': sum(1 for it in added if ADDED_PEER.match(it)), **({} if None in events else {'events': sum(1 for _ in itertools.groupby(events))}),
            'rewrites': sum(map(is_rewritten, written)), 'times_raised': sum(STAMP.match(line)[2] != STAMP.match(undone(line))[2] for line in written if STAMP.match(line))}


def faults_of(log, words=()):
    """What isn't as it is to be of the answer over the bytes of a log."""
    switches = [it for it in words if it in RULES]
    ran = subprocess.run([PROGRAM, *switches, '--report', *words[len(switches):]], input=log, stdout=subprocess.PIPE, stderr=subprocess.PIPE)
    if ran.returncode:
        yield f'status {ran.returncode}, {ran.stderr!r}'
        return
    written = lines_of(ran.stdout)
    left = collections.Counter(map(undone, written))
    left.subtract(lines_of(log))
    report = json.loads(ran.stderr)
    counts = counts_of(written, list((+left).elements()))
    if any(report[name] != count for name, count in counts.items()):
        yield f'the report is {report} and not {counts}'
    for line, count in left.items():
        if count < 0:
            yield f'lost: {line!r}'
        elif count and not END.match(line) and not ADDED_PEER.match(line):
            yield f'made up: {line!r}'
    calls = {stamp[2] + stamp[3] for line in lines_of(log) if (stamp := STAMP.match(line)) and stamp[1].endswith(b'type=SYSCALL msg=audit')}
    for line in (+left).elements():
        end = END.match(line) or ADDED_PEER.match(line)
        if end and end[2] + end[3] not in calls:
            yield f'an end or a peer of no call: {line!r}'
    if TABLES_ARE_THERE and list(shown(written, switches)) != written:
        yield 'lines are written otherwise than the rules say'
    yield from faults_of_peers(map(undone, written), switches)
    yield from faults_of_undoing(ran.stdout)
    yield from faults_of_undoing(log)
    greatest = 0
    for line in written:
        stamp = STAMP.match(line)
        if stamp:
            time = int(stamp[2].replace(b'.', b''))
            if time < greatest:
                yield f'a time that falls: {line!r}'
            greatest = max(greatest, time)


def faults_of_undoing(lines):
    """What isn't as it is to be of `--undo` over the bytes of some lines."""
    ran = subprocess.run([PROGRAM, '--undo'], input=lines, stdout=subprocess.PIPE, stderr=subprocess.PIPE)
    if ran.returncode or ran.stderr:
        yield f'--undo: status {ran.returncode}, {ran.stderr!r}'
    if ran.stdout != b''.join(undone(line) + b'\n' for line in lines_of(lines)):
        yield '--undo: other lines'


def faults_of_words():
    """What isn't as it is to be of words that name no job."""
    for words in [['--order'], ['--undo', '--undo'], ['--und'], [''], ['--undo', '--report'], ['--report', '--report'], ['--window'], ['--window', 'x'], ['--memory', '-1'],
                  ['--memory', '1', '--window', '1'], ['--window', '1', '--report'], ['--window', '1', '--window', '1'], ['--window', '4294967296'], ['--report', 'x'],
                  ['--report', '--no-join'], ['--no-compat', '--no-join'], ['--no-compat', '--no-names'], ['--no-names', '--no-join'], ['--no-names', '--shared-connections'], ['--shared-connections', '--no-join'], ['--no-join', '--no-join'], ['--no-compat', '--undo'], ['--join'], ['--no-descriptors', '--no-compat'], ['--report', '--no-descriptors'], ['--no-descriptors', '--no-descriptors']]:
        ran = subprocess.run([PROGRAM, *words], input=b'x\n', stdout=subprocess.PIPE, stderr=subprocess.PIPE)
        if ran.returncode != 2 or ran.stdout or ran.stderr != b'audit_order: bad words\n':
            yield f'status {ran.returncode}, {ran.stdout!r}, {ran.stderr!r} for the words {words}'


def faults_of_late_lines():
    """What isn't so of the lines that are late in logs made by hand. Each event has two, the record of its call and its end; a boot has one."""
    for words, name, late in [([], 'a read that waited', 0), (['--memory', '0'], 'a read that waited', 0), (['--memory', '0'], 'two events far ahead', 2),
                              (['--window', '0'], 'one event far ahead', 0), ([], 'two boots, the clock set back', 5), (['--memory', '0'], 'two nodes with two clocks', 4)]:
        ran = subprocess.run([PROGRAM, '--report', *words], input=ORDERS[name][0].encode(), stdout=subprocess.PIPE, stderr=subprocess.PIPE, check=True)
        if (found := json.loads(ran.stderr)['late']) != late:
            yield f'{name}: {found} late lines and not {late}, by {words}'


def generated(seed):
    """A log of which some lines stand out of order."""
    made = [sys.executable, TOP / 'bench/make_log.py', str(seed), '300', '--mix']
    return subprocess.run(made, stdout=subprocess.PIPE, check=True).stdout


def main(names):
    logs = {name: Path(name).read_bytes() for name in names} if names else {
        **ODD, **{name: log.encode() for name, (log, _) in (ORDERS | MEETINGS | NAMESPACES).items()}, **{path.name: path.read_bytes() for path in sorted((TOP / 'examples').glob('*.log'))},
        **{f'generated log {seed}': generated(seed) for seed in range(1, 21)}}
    faults = [('words', fault) for fault in faults_of_words()] + [('order', fault) for fault in (*faults_of_orders(), *faults_of_reads(), *faults_of_late_lines(), *faults_of_meetings(), *faults_of_names(), *faults_of_namespaces())]
    if TABLES_ARE_THERE:
        faults += [('calls', fault) for fault in faults_of_calls()]
    else:
        print(f'not checked, since {TABLES[0].parent} has no tables of calls: how lines are rewritten')
    faults += [(name, fault) for name, log in logs.items() for words in ((), ('--window', '0'), ('--no-join', '--memory', '0'), ('--shared-connections', '--no-compat'), ('--no-join', '--no-names'), ('--no-descriptors',))
               for fault in faults_of(log, words)]
    for name, fault in faults[:20]:
        print(f'{name}: {fault}')
    return 1 if faults else 0


if __name__ == '__main__':
    sys.exit(main(sys.argv[1:]))
