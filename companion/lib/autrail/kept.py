"""What `keep` notes beside a store: how far it has taken a log. And the lock that keeps other runs from the store."""
from __future__ import annotations

import contextlib
import fcntl
import json
import os
from dataclasses import asdict, dataclass
from pathlib import Path
from typing import BinaryIO, Iterator

from .basics import NO_ANSWER, READ_FAULT, Refused, WRITE_FAULT, shown
from .lines import NEEDED_CALLS
from .signs import Signs
from .times import clock


@dataclass(frozen=True)
class Place:
    """How many bytes of a file of a log were taken, and what tells the file from others, also when it was renamed, packed or copied."""
    device: int
    inode: int
    start: int
    digest: str
    offset: int


@dataclass(frozen=True)
class Taken:
    """What a store has of a log: up to which place, from which record to which, which kinds of calls never came, between which records files were missing,
    and what its lines tell of hosts, machines and times.

    `size` is how long the store is then. A store only grows, so one of this size has nothing else. `counts` is the program's reply to `stat`.
    """
    bytes: int = 0
    size: int = 0
    place: Place | None = None
    first: str = ''
    last: str = ''
    unseen: tuple[str, ...] = tuple(NEEDED_CALLS)
    gaps: tuple[tuple[str, str], ...] = ()
    counts: dict | None = None
    signs: Signs = Signs()

    @classmethod
    def of(cls, said: dict | None) -> Taken | None:
        if said is None:
            return None
        place = said['place'] and Place(**said['place'])
        # What an earlier version wrote has no signs.
        signs = Signs.of(said['signs']) if 'signs' in said else Signs()
        return cls(**{**said, 'place': place, 'unseen': tuple(said['unseen']), 'gaps': tuple(map(tuple, said['gaps'])), 'signs': signs})


@dataclass(frozen=True)
class Kept:
    """What STORE.state says. If a portion is `coming`, that is what the store has taken when it has taken the portion too."""
    mode: str
    taken: Taken
    coming: Taken | None = None

    @classmethod
    def read(cls, store: str) -> Kept | None:
        name = store + '.state'
        try:
            said = json.loads(Path(name).read_text(encoding='ascii'))
            return cls(said['mode'], Taken.of(said['taken']), Taken.of(said['coming']))
        except FileNotFoundError:
            return None
        except (ValueError, KeyError, TypeError) as fault:
            raise Refused(READ_FAULT, f'{shown(name)}: this isn\'t what autrail keep wrote ({shown(str(fault))})') from fault

    def write(self, store: str) -> None:
        """The file is there as a whole or as it was before, whenever this ends."""
        with written_beside(store + '.state.new') as file:
            file.write(json.dumps(asdict(self)).encode())
        os.replace(store + '.state.new', store + '.state')
        on_the_disk(os.path.dirname(store) or '.')


@contextlib.contextmanager
def written_beside(name: str) -> Iterator[BinaryIO]:
    """A new file for the owner alone, since it has what a log has. At the end it is on the disk."""
    descriptor = os.open(name, os.O_RDWR | os.O_CREAT | os.O_TRUNC | os.O_CLOEXEC | os.O_NOFOLLOW, 0o600)
    try:
        with open(descriptor, 'w+b') as file:
            yield file
            file.flush()
            os.fsync(file.fileno())
    except OSError as fault:
        raise fault if fault.filename else Refused(WRITE_FAULT, f'{shown(name)}: it can\'t be written ({fault.strerror}); nothing is lost, and the next run goes on')


def on_the_disk(folder: str) -> None:
    """The names in the folder are on the disk."""
    descriptor = os.open(folder, os.O_RDONLY)
    try:
        os.fsync(descriptor)
    finally:
        os.close(descriptor)


@contextlib.contextmanager
def alone(store: str, wait: bool) -> Iterator[int]:
    """Keeps other runs from the store. The program is handed the lock too, so that it is there as long as either of them."""
    with open(os.open(store + '.lock', os.O_RDWR | os.O_CREAT | os.O_CLOEXEC | os.O_NOFOLLOW, 0o600), 'rb') as file:
        # A script that builds the program may use the numbers below 10.
        lock = fcntl.fcntl(file.fileno(), fcntl.F_DUPFD_CLOEXEC, 10)
    try:
        fcntl.flock(lock, fcntl.LOCK_EX if wait else fcntl.LOCK_EX | fcntl.LOCK_NB)
        yield lock
    except BlockingIOError:
        raise Refused(NO_ANSWER, f'{shown(store)}: another run is at work on this store, so this one took nothing') from None
    finally:
        os.close(lock)


def record_shown(record: str) -> str:
    return f'{clock(time_text(record))} (serial {record.partition(":")[2]})' if record else 'a line without a time'


def time_text(record: str) -> str:
    return record.partition(':')[0]


def gap_text(gap: tuple[str, str]) -> str:
    return f'files of the log are missing: between {record_shown(gap[0])} and {record_shown(gap[1])}'


def noted_of(store: str, count: int) -> Taken | None:
    """What keep noted of a store with this many bytes of logs; nothing if it didn't note it, or something else changed the store."""
    try:
        kept = Kept.read(store)
    except (OSError, Refused):
        return None
    return next((it for it in (kept.taken, kept.coming) if it and it.bytes == count), None) if kept else None
