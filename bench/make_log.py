#!/usr/bin/env python3
"""Makes an audit log of a busy host from a random seed, for timing and for comparing.

    make_log.py SEED EVENTS [--mix] > LOG

Processes fork, run programs, open, read, write, copy, connect and end. Every event has the lines that auditd writes for
it. With --mix lines of events interleave, some come late, and some lines are blank, unknown or broken.
"""
import argparse, random, sys

parser = argparse.ArgumentParser()
parser.add_argument('seed', type=int)
parser.add_argument('events', type=int)
parser.add_argument('--mix', action='store_true')
options = parser.parse_args()
rng = random.Random(options.seed)
out = sys.stdout
pids, parents, opened = [100], {100: 1}, {100: {}}
next_pid = 101
time_ms = 1_700_000_000_000
files = 2000


def head(kind, key):
    return f'type={kind} msg=audit({key[0] // 1000}.{key[0] % 1000:03}:{key[1]}):'


def call(key, number, pid, exit_=0, args=(0, 0, 0, 0), success=True):
    a = ' '.join(f'a{i}={x:x}' for i, x in enumerate(args))
    done = '' if success is None else f' success={"yes" if success else "no"} exit={exit_}'
    return (f'{head("SYSCALL", key)} arch=c000003e syscall={number}{done} {a} items=1 ppid={parents[pid]} pid={pid} auid=1000 uid=0 gid=0 '
            f'euid=0 suid=0 fsuid=0 egid=0 sgid=0 fsgid=0 tty=(none) ses=2 comm="p{pid % 40}" exe="/usr/bin/p{pid % 40}" subj=unconfined key="all"')


def path(key, item, file, kind='NORMAL'):
    return f'{head("PATH", key)} item={item} name="data/f{file}" inode={1000 + file} dev=08:01 mode=0100644 ouid=0 ogid=0 rdev=00:00 nametype={kind} cap_fp=0 cap_fi=0 cap_fe=0 cap_fver=0 cap_frootid=0'


def cwd(key):
    return f'{head("CWD", key)} cwd="/srv/app"'


def some_fd(pid):
    return rng.choice(list(opened[pid])) if opened[pid] and rng.random() < 0.95 else rng.randrange(40)


def event(key):
    global next_pid
    pid = rng.choice(pids)
    kind = rng.random()
    if kind < 0.30:
        return [call(key, 0, pid, rng.choice([0, 17, 4096]), (some_fd(pid), 0, 4096, 0), rng.random() > 0.05)]
    if kind < 0.52:
        return [call(key, 1, pid, 512, (some_fd(pid), 0, 512, 0))]
    if kind < 0.66:
        fd = rng.randrange(3, 40)
        file = int(rng.paretovariate(0.8)) % files
        made = rng.random() < 0.15
        if not made or rng.random() < 0.9:
            opened[pid][fd] = file
        flags = rng.choice([0, 0x80000, 0x201, 0x41])
        return [call(key, 257, pid, fd, (0xffffff9c, 1, flags, 0)), cwd(key)] + ([path(key, 0, 0, 'PARENT')] if made else []) + [path(key, 1, file, 'CREATE' if made else 'NORMAL')]
    if kind < 0.72:
        fd = some_fd(pid)
        opened[pid].pop(fd, None)
        return [call(key, 3, pid, 0, (fd, 0, 0, 0))]
    if kind < 0.77 and len(pids) < 300:
        child = next_pid
        next_pid += 1
        pids.append(child)
        parents[child] = pid
        opened[child] = dict(opened[pid])
        return [call(key, rng.choice([56, 57, 435]), pid, child, (rng.choice([0x1200011, 0x11]), 0, 0, 0))]
    if kind < 0.81:
        return [call(key, 59, pid, 0, (1, 2, 3, 0)), f'{head("EXECVE", key)} argc=1 a0="p"', cwd(key), path(key, 0, rng.randrange(30)), path(key, 1, 31)]
    if kind < 0.84 and len(pids) > 20:
        pids.remove(pid)
        if rng.random() < 0.3:
            next_pid = max(101, next_pid - 1)
        return [call(key, 231, pid, args=(0, 0, 0, 0), success=None)]
    if kind < 0.87:
        to = rng.randrange(3, 40)
        return [call(key, rng.choice([32, 33, 292]), pid, to, (some_fd(pid), to, rng.choice([0, 0x80000]), 0))]
    if kind < 0.90:
        fd = rng.randrange(3, 40)
        opened[pid][fd] = -1
        return [call(key, 41, pid, fd, (2, rng.choice([1, 0x80001]), 0, 0))]
    if kind < 0.93:
        address = f'0200{rng.choice([80, 443, 5432]):04X}C0A800{rng.randrange(1, 60):02X}0000000000000000'
        return [call(key, 42, pid, rng.choice([0, -115]), (some_fd(pid), 1, 16, 0), rng.random() < 0.5), f'{head("SOCKADDR", key)} saddr={address}']
    if kind < 0.95:
        first, second = rng.randrange(3, 40), rng.randrange(3, 40)
        opened[pid][first] = opened[pid][second] = -2
        return [call(key, rng.choice([22, 293, 53]), pid, 0, (0, 0x80000, 0, 0)), f'{head("FD_PAIR", key)} fd0={first} fd1={second}']
    if kind < 0.97:
        file = rng.randrange(files)
        return [call(key, rng.choice([82, 316]), pid), cwd(key), path(key, 0, file, 'DELETE'), path(key, 1, rng.randrange(files), 'CREATE')]
    if kind < 0.98:
        return [call(key, 87, pid), cwd(key), path(key, 0, rng.randrange(files), 'DELETE')]
    if kind < 0.99:
        return [call(key, 9, pid, 4096, (0, 4096, rng.choice([1, 3]), rng.choice([1, 2, 0x22]))), f'{head("MMAP", key)} fd={some_fd(pid)} flags=0x2']
    return [call(key, rng.choice([39, 72, 72, 288]), pid, rng.randrange(3, 40), (some_fd(pid), rng.choice([0, 2, 1030]), 1, 0))]


window = []


def flush(most):
    while len(window) > most:
        lines = window[0] if rng.random() < 0.7 else rng.choice(window)
        out.write(lines.pop(0) + '\n')
        if not lines:
            window.remove(lines)


for serial in range(1, options.events + 1):
    time_ms += rng.choice([0, 0, 1, 1, 2, 5, 2500 if options.mix and rng.random() < 0.02 else 3])
    key = (time_ms - (rng.randrange(4000) if options.mix and rng.random() < 0.02 else 0), serial)
    lines = event(key)
    if not options.mix or rng.random() < 0.8:
        lines.append(f'{head("PROCTITLE", key)} proctitle=2F7573722F62696E2F70' if rng.random() < 0.9 else f'{head("EOE", key)} ')
    if options.mix and rng.random() < 0.02:
        lines.append(rng.choice(['', ' \t', 'garbage', f'type=USER_CMD msg=audit(1.000:{serial}): pid=1', lines[0][:-30], lines[0].replace('pid=', 'pid=x')]))
    if options.mix:
        window.append(lines)
        flush(6)
    else:
        out.write('\n'.join(lines) + '\n')
flush(0)
