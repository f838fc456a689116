"""What autrail reads from the log's own lines: calls, users, sessions, terminals and arguments of processes."""
from __future__ import annotations

import re
from collections import Counter, defaultdict
from dataclasses import dataclass, field
from typing import NamedTuple

from .signs import HEAD, NEAR, NO_STAMP, Times, X86_64, stamp_of, time_of

# Calls without which the answers mean little: by x86-64 number.
NEEDED_CALLS = {
    'reads': {b'0', b'17', b'19', b'295', b'327'},
    'writes': {b'1', b'18', b'20', b'296', b'328'},
    'opens': {b'2', b'85', b'257', b'437'},
    'starts of processes': {b'56', b'57', b'58', b'435'},
    'starts of programs': {b'59', b'322'},
}
EXECS = (b'59', b'322')
EXIT_GROUP = b'231'
# Starts of processes, whose result is the number of the new one. A clone with this flag starts a thread.
FORKS = frozenset((b'56', b'57', b'58', b'435'))
CLONE, THREAD = b'56', 0x10000
UNSET = '4294967295'
OUR_MACHINE = X86_64.encode()
AFTER_TYPE = len('type=SYSCALL')
READ_LINES = (b'type=SYSCALL ', b'type=EXECVE ', b'node=')
CALL = re.compile(
    rb'(?:node=(\S+) )?type=SYSCALL msg=audit\((\d{1,15})\.(\d{3}):(\d{1,10})\) ?: arch=(\w{1,8}) syscall=(\d{1,10})'
    rb'(?: per=\w+)?(?: success=(\w+))?[^\x1d]*? ppid=\d{1,10} pid=(\d{1,10})')
STARTED = re.compile(rb' exit=(\d{1,10}) a0=([0-9A-Fa-f]{1,16}) ')
# What is read of a call's line only if its process is shown.
CALLER = re.compile(
    rb' ppid=(\d{1,10}) pid=\d{1,10}(?: auid=(\d{1,10}) uid=(\d{1,10}))?'
    rb'(?:[^\x1d]*? tty=(\S+) ses=(\d{1,10}))?(?:[^\x1d]*\x1d.*?AUID="([^"]*)" UID="([^"]*)")?')
ARGUMENTS = re.compile(rb'(?:node=\S+ )?type=EXECVE msg=audit\((\d+\.\d{3}:\d+)\) ?: ([^\x1d]*)')
ARGUMENT = re.compile(rb'(?:^|\s)a(\d{1,6})(?:\[\d+\])?=("[^"]*"|[0-9A-Fa-f]+)')
HEADER = re.compile(rb'(?:node=\S+ )?type=\S+ msg=audit\((\d{1,15})\.(\d{3}):(\d{1,10})\) ?:')
# The mark by which audit_order keeps the time that a line had, and a part that was rewritten.
MARK = re.compile(rb'\x1dWAS=\{ audit\((\d{1,15})\.(\d{3}):\d{1,10}\)(?: \d{1,10} [^\x1d]*)? \}$')


class Caller(NamedTuple):
    """Who made a call, as the fields that CALLER finds. A field that the line doesn't have is empty."""
    parent: bytes
    audit_user: bytes
    user: bytes
    terminal: bytes
    session: bytes
    audit_user_name: bytes
    user_name: bytes


@dataclass
class Life:
    """What the lines with one process number say, up to its end: the line of the last call, the times, and the events of the execs.

    A life that a fork began has no line before its first call. One that its own call began awaits its parent, as the program has it: a fork by that
    one begins no other life. If the process before had ended all the same, or its lines can't be told apart, the life has lines of `several`.
    """
    line: bytes
    first: int
    last: int
    awaited: int | None = None
    ended: bool = False
    several: bool = False
    execs: list[bytes] = field(default_factory=list)

    @property
    def caller(self) -> Caller:
        return Caller(*CALLER.search(self.line).groups(b''))


def argument_words(text: bytes) -> list[str]:
    """The arguments that EXECVE records spell: quoted, in hex, or in numbered parts of either."""
    words: dict[int, bytes] = defaultdict(bytes)
    for number, value in ARGUMENT.findall(text):
        if value.startswith(b'"'):
            words[int(number)] += value[1:-1]
        elif len(value) % 2 == 0:
            words[int(number)] += bytes.fromhex(value.decode())
    return [words[it].decode('utf-8', 'replace') for it in sorted(words)]


class Reading:
    """One pass over the log's lines: users and arguments by process, and what to mistrust."""

    def __init__(self) -> None:
        self.start = b''
        self.bytes = 0
        self.calls: Counter[tuple[bytes, bytes, bytes]] = Counter()
        self.lives: dict[int, list[Life]] = defaultdict(list)
        self.arguments: dict[bytes, bytes] = defaultdict(bytes)
        self.least: int | None = None
        self.greatest = 0
        self.times = Times()
        self.stamp = NO_STAMP

    def take(self, lines: bytes) -> None:
        self.start = self.start or lines[:4096]
        self.bytes += len(lines)
        for line in lines.split(b'\n'):
            if line.startswith(READ_LINES):
                if found := CALL.match(line):
                    self.take_call(line, *found.groups())
                    self.stamp = line[AFTER_TYPE:line.find(b':', AFTER_TYPE) + 1]
                    continue
                if found := ARGUMENTS.match(line):
                    self.arguments[found[1]] += b' ' + found[2]
            if line.find(self.stamp, 0, NEAR) < 0 and (head := HEAD.match(line)):
                self.stamp = stamp_of(head)
                self.times.take(time_of(head))

    def take_call(self, line: bytes, host: bytes | None, seconds: bytes, part: bytes, serial: bytes, arch: bytes, number: bytes,
                  success: bytes | None, pid: bytes) -> None:
        at = int(seconds + part)
        self.calls[host or b'', arch, number] += 1
        self.times.take(at)
        if self.least is None or at < self.least:
            self.least = at
        if at > self.greatest:
            self.greatest = at
        lives = self.lives[int(pid)]
        if not lives or lives[-1].ended:
            lives.append(Life(line, at, at, int(CALLER.search(line)[1])))
        life = lives[-1]
        if not life.line or at < life.first:
            life.first = at
        if not life.line or at > life.last:
            life.last = at
        life.line = line
        if arch != OUR_MACHINE:
            return
        if number in EXECS and success == b'yes':
            life.execs.append(seconds + b'.' + part + b':' + serial)
        elif number == EXIT_GROUP:
            life.ended = True
        elif number in FORKS and success == b'yes':
            self.take_fork(line, number, int(pid), at)

    def take_fork(self, line: bytes, number: bytes, parent: int, at: int) -> None:
        """Begins a life of the process that was forked. A process that a signal ended has no record of that: its lines are from before the fork."""
        started = STARTED.search(line)
        if not started or int(started[1]) == parent or number == CLONE and int(started[2], 16) & THREAD:
            return
        lives = self.lives[int(started[1])]
        life = lives[-1] if lives else None
        # The child's first lines may stand before that of the fork, as they do after a vfork.
        mixed = life is not None and life.last >= at
        if life and life.first >= at:
            life.awaited = None
        elif life and not life.ended and (mixed or life.awaited == parent):
            life.awaited, life.several = None, True
        else:
            if life:
                life.ended, life.several = True, life.several or mixed
            lives.append(Life(b'', at, at, ended=mixed))

    @property
    def calls_read(self) -> int:
        return sum(self.calls.values())

    @property
    def hosts(self) -> set[str]:
        return {host.decode('utf-8', 'surrogateescape') for host, _, _ in self.calls}

    @property
    def machines(self) -> Counter[str]:
        """How many calls each machine has."""
        counts: Counter[str] = Counter()
        for (_, arch, _), count in self.calls.items():
            counts[arch.decode()] += count
        return counts

    def life_of(self, pid: int, number: int) -> tuple[Life | None, bool]:
        """The lines of a life of a process, and whether they can be distinguished from the lines of its other lives."""
        lives = self.lives.get(pid, [])
        if not lives:
            return None, False
        life = lives[min(number, len(lives) - 1)]
        return (life if life.line else None), number < len(lives) and not life.several

    def arguments_of(self, life: Life) -> list[list[str]]:
        return [argument_words(self.arguments[it]) for it in life.execs if it in self.arguments]


def user_text(number: bytes, name: bytes = b'') -> str:
    text = number.decode()
    if text == UNSET:
        return 'unset'
    return f'{text} ({name.decode("utf-8", "replace")})' if name and name != b'unset' else text or 'not recorded'
