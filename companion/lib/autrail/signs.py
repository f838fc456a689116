"""What in a log's lines tells that it is less fit for answers: hosts, machines and times."""
from __future__ import annotations

import re
from collections import Counter
from dataclasses import dataclass, field

X86_64 = 'c000003e'
# A step back in time that is no wider than this is no sign of a wrong time, in milliseconds.
NO_STEP = 3600_000
# The head of a line: the node, the type, the time, and of a call the machine.
HEAD = re.compile(rb'(?:node=(\S+) )?type=([A-Z0-9_\[\]]+) msg=audit\((\d{1,15}\.\d{3}):\d{1,10}\) ?:(?: arch=(\w{1,8}) )?')
# In this many first bytes of a line there is no room for a second stamp, which a user may have written.
NEAR = 40
# What no line has, since a line ends at its line feed.
NO_STAMP = b'\n\n'


class Times:
    """The greatest time of the lines so far, and the widest step back: after a time far ahead all later lines seem to be from before it."""

    def __init__(self, greatest: int = 0, back: tuple[int, int] | None = None) -> None:
        self.greatest, self.back = greatest, back

    def take(self, at: int) -> None:
        if at >= self.greatest:
            self.greatest = at
        elif self.greatest - at > NO_STEP and (self.back is None or self.greatest - at > self.back[0] - self.back[1]):
            self.back = (self.greatest, at)


def stamp_of(head: re.Match[bytes]) -> bytes:
    """What stands near the head of each line of an event, if there is no node name: the time of most lines need not be read again."""
    return b' msg=audit(' + head[3] + b':'


def time_of(head: re.Match[bytes]) -> int:
    return int(head[3].replace(b'.', b''))


@dataclass(frozen=True)
class Signs:
    """Of some lines the node names and the machines of the calls, with how many calls each machine has, the greatest time, and the widest step back."""
    hosts: tuple[str, ...] = ()
    machines: dict[str, int] = field(default_factory=dict)
    greatest: int = 0
    back: tuple[int, int] | None = None

    @classmethod
    def of(cls, said: dict) -> Signs:
        return cls(**{**said, 'hosts': tuple(said['hosts']), 'back': said['back'] and tuple(said['back'])})


def signs_of(name: str, before: Signs) -> Signs:
    """The signs of earlier lines and of those of this file."""
    times, counts, stamp = Times(before.greatest, before.back), Counter(), NO_STAMP
    with open(name, 'rb') as file:
        while lines := file.readlines(1 << 20):
            for line in lines:
                if line.find(stamp, 0, NEAR) >= 0 and not line.startswith(b'type=SYSCALL '):
                    continue
                if head := HEAD.match(line):
                    stamp = stamp_of(head)
                    times.take(time_of(head))
                    if head[4] and head[2] == b'SYSCALL':
                        counts[head[1] or b'', head[4]] += 1
    hosts = {host.decode('utf-8', 'surrogateescape') for host, _ in counts} | set(before.hosts)
    machines = Counter(before.machines)
    for (_, machine), count in counts.items():
        machines[machine.decode()] += count
    return Signs(tuple(sorted(hosts)), dict(sorted(machines.items())), times.greatest, times.back)
