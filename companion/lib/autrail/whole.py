"""Where the lines of a log that still grows may be cut off, so that no event is torn."""
from __future__ import annotations

import re
from typing import BinaryIO, NamedTuple

WINDOW = 1 << 20
# Twice the bytes of lines that wait in the program at most.
WIDEST = 1 << 25
# As the program has it: an event whose last record didn't come waits until another one is this much later, in milliseconds.
APART = 2000
LAST_RECORDS = (b'EOE', b'PROCTITLE')
# The records that the program joins into events.
RECORD = re.compile(rb'(?:node=\S+ )?type=(SYSCALL|PATH|CWD|SOCKADDR|FD_PAIR|MMAP|EOE|PROCTITLE) msg=audit\((\d{1,15})\.(\d{3}):(\d{1,10})\) ?:(?=[ \x1d]|$)')


class Ends(NamedTuple):
    """Where lines may be cut off: after the last `line` that has ended; at the last place where no event `waits`, and whether the time before it is long
    enough that none from before these lines does; and before the first event that waits at their end."""
    line: int
    none_waits: int
    surely: bool
    first_waits: int


def ends_of(lines: bytes) -> Ends:
    """The program joins records into events by the same rule. So when none waits, it stands as if the log went on without a break."""
    waiting: dict[tuple[int, int], int] = {}
    first, latest, looked = None, 0, 0
    place = none_waits = 0
    surely = False
    for line in lines.split(b'\n')[:-1]:
        begin, place = place, place + len(line) + 1
        match = RECORD.match(line)
        if match and match[1] in LAST_RECORDS:
            waiting.pop(key_of(match), None)
        elif match:
            key = key_of(match)
            first = key[0] if first is None else first
            latest = max(latest, key[0])
            if key[0] + APART >= latest:
                waiting.setdefault(key, begin)
            # If many wait they are looked through less often, and a place is found later than it might be.
            if latest > looked + len(waiting) // 64:
                waiting, looked = {it: at for it, at in waiting.items() if it[0] + APART >= latest}, latest
        if not waiting:
            none_waits, surely = place, first is not None and latest > first + APART
    return Ends(place, none_waits, surely, min(waiting.values(), default=place))


def key_of(match: re.Match[bytes]) -> tuple[int, int]:
    """The time and serial number that make records an event."""
    return int(match[2] + match[3]), int(match[4])


def whole_of(portion: BinaryIO, size: int, quiet: bool) -> int:
    """How many bytes of a portion hold whole events alone. Only its end is looked at, as far back as events may wait there."""
    window = WINDOW
    while True:
        begin = max(0, size - window)
        portion.seek(begin)
        ends = ends_of(portion.read(size - begin))
        if begin == 0 or quiet and ends.line:
            return begin + (ends.line if quiet else ends.none_waits)
        if ends.surely:
            return begin + ends.none_waits
        if window >= WIDEST:
            # In a log whose events have no last record some wait at any place.
            return begin + (ends.first_waits or ends.line)
        window *= 2
