"""The log's own lines for the steps of a path."""
from __future__ import annotations

import os
import re
import shutil
import subprocess
from bisect import bisect_left
from collections import defaultdict
from dataclasses import dataclass
from typing import Sequence

from .basics import many, say
from .lines import HEADER, MARK
from .logs import pieces
from .session import Session
from .things import Step, Thing

ADMIN_PATH = os.environ.get('PATH', os.defpath) + ':/usr/sbin:/sbin'
# The part of a file's mode that says what kind of file it is, and that of a regular file.
KIND_OF_FILE, REGULAR = 0o170000, 0o100000
# Where a serial number stands in a line.
SERIAL = re.compile(rb'\.\d{3}:(\d{1,10})\) ?:')


@dataclass
class Evidence:
    """The log's own lines for a step, and the time that they were recorded with if the step's is a raised one."""
    lines: list[bytes]
    recorded: int | None


def evidence(session: Session, path: Sequence[Step]) -> dict[Step, Evidence]:
    """The log's lines for the event of each step: of its serial number, and of the last time up to the step's.

    Serial numbers begin again at a boot. The time of a late event is that of the event before it, and audit_order raises times too.
    """
    found: dict[int, dict[int, list[bytes]]] = {it.serial: defaultdict(list) for it in path}
    for file in session.program.logs.files:
        for piece in pieces(file):
            # Most pieces of a long log have none of these events, and need not be taken apart.
            if found.keys().isdisjoint(map(int, SERIAL.findall(piece))):
                continue
            for line in piece.split(b'\n'):
                match = HEADER.match(line)
                if match and int(match[3]) in found:
                    found[int(match[3])][time_of(match)].append(line)
    records = {step: evidence_of(session, step, found[step.serial]) for step in path}
    without = sum(not it.lines for it in records.values())
    if without:
        say(f'the logs that were named have no lines for {many(without, "step")}')
    return records


def evidence_of(session: Session, step: Step, found: dict[int, list[bytes]]) -> Evidence:
    times = sorted(found)
    place = bisect_left(times, step.order + 1)
    if not place:
        return Evidence([], None)
    at = times[place - 1]
    lines = found[at]
    # A log that was ordered before keeps the time in a mark of the line.
    recorded = min((time_of(mark) for mark in map(MARK.search, lines) if mark), default=at if session.ordered else step.order)
    return Evidence([it.split(b'\x1d')[0] for it in lines], recorded if recorded != step.order else None)


def may_be_regular(session: Session, thing: Thing) -> bool:
    """Whether the object may be a regular file. Of a FIFO, a terminal and the like the lines of the log say what it is."""
    if thing.kind not in ('file', 'path', 'lost'):
        return False
    inode = re.fullmatch(r'file (\w+:\w+) (\d+) \d+', thing.key)
    mode = inode and re.compile(rf' inode={inode[2]} dev={inode[1]} mode=0?([0-7]{{1,7}}) '.encode())
    kinds = {int(it, 8) & KIND_OF_FILE for file in session.program.logs.files for piece in pieces(file) for it in mode.findall(piece)} if mode else set()
    return REGULAR in kinds or not kinds


def time_of(match: re.Match[bytes]) -> int:
    """The milliseconds that the first two groups of a match spell."""
    return int(match[1] + match[2])


def in_words(records: dict[Step, list[bytes]]) -> dict[Step, list[bytes]]:
    """The same lines with their numbers as words, by ausearch, or as they are if it isn't on this machine."""
    if not shutil.which('ausearch', path=ADMIN_PATH):
        say('ausearch isn\'t on this machine (package auditd or audit), so the lines are shown as the log has them')
        return records
    return {step: interpreted(lines) or lines for step, lines in records.items()}


def interpreted(lines: Sequence[bytes]) -> list[bytes]:
    """What ausearch says of the lines of one event; nothing if it doesn't take them."""
    done = subprocess.run([shutil.which('ausearch', path=ADMIN_PATH), '-i'], input=b'\n'.join(lines) + b'\n', stdout=subprocess.PIPE,
                          stderr=subprocess.DEVNULL, check=False)
    return [it.rstrip() for it in done.stdout.split(b'\n') if it and it != b'----']
