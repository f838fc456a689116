"""The files of a log that is being written: held open, so that each is the same file whatever it is called meanwhile."""
from __future__ import annotations

import contextlib
import hashlib
import lzma
import os
import re
import time
from typing import BinaryIO

from .basics import bad_words, shown
from .kept import Place
from .logs import LogFile, PIECE, RENAMING, bad_log, files_of, must_be_readable, unpacked, without_doubles
from .stores import begins_as_a_store
from .whole import WINDOW

# This many first bytes tell a file of a log from another one: they have the time and serial number of its first record.
START = 4096
ANY_RECORD = re.compile(rb'^(?:node=\S+ )?type=\w+ msg=audit\((\d{1,15}\.\d{3}:\d{1,10})\) ?:', re.MULTILINE)


class Held:
    """A file of a log that is held open, so that it is the same one whatever it is called meanwhile."""

    def __init__(self, file: LogFile, raw: BinaryIO) -> None:
        self.path, self.number, self.raw = file.path, file.number, raw
        self.status = os.fstat(raw.fileno())
        self.start = self.read_start()

    def read_start(self) -> bytes:
        try:
            return self.unpacked().read(START)
        except (OSError, EOFError, lzma.LZMAError) as fault:
            bad_log(self.path, f'the file is damaged or can\'t be read ({fault})')

    def unpacked(self) -> BinaryIO:
        self.raw.seek(0)
        return unpacked(self.raw)

    def starts_as(self, place: Place) -> bool:
        return len(self.start) >= place.start and digest_of(self.start[:place.start]) == place.digest

    def is_inode_of(self, place: Place) -> bool:
        return (self.status.st_dev, self.status.st_ino) == (place.device, place.inode)

    def place(self, offset: int) -> Place:
        return Place(self.status.st_dev, self.status.st_ino, len(self.start), digest_of(self.start), offset)

    def first_record(self) -> str:
        return record_text(self.start, 0)

    def last_record(self) -> str:
        rest = b''
        source = self.unpacked()
        while piece := source.read(PIECE):
            rest = (rest + piece)[-WINDOW:]
        return record_text(rest, -1)


def digest_of(data: bytes) -> str:
    return hashlib.sha256(data).hexdigest()


def record_text(lines: bytes, place: int) -> str:
    """The time and serial number of the first record (0) or the last one (-1)."""
    found = ANY_RECORD.findall(lines)
    return found[place].decode() if found else ''


def held_files(word: str, ends: contextlib.ExitStack) -> list[Held]:
    """The files of a log, oldest first, as they are at one moment. auditd may rename them meanwhile: then they are looked at again."""
    for attempt in range(RENAMING):
        with contextlib.ExitStack() as these:
            # A number that is missing may be that of a file which is just being renamed.
            held = held_at_once(word, these)
            if held and (attempt == RENAMING - 1 or all(older.number == newer.number + 1 for older, newer in zip(held, held[1:]))):
                ends.push(these.pop_all())
                return held
        time.sleep(0.05)
    must_be_readable(word)
    bad_log(word, 'its files were renamed again and again; run keep again')


def held_at_once(word: str, ends: contextlib.ExitStack) -> list[Held]:
    """The files of a log, or nothing if one was renamed meanwhile."""
    try:
        files = files_to_keep(word)
        held = [Held(it, ends.enter_context(open(it.path, 'rb'))) for it in files]
        same = files_to_keep(word) == files and all(os.stat(it.path).st_ino == it.status.st_ino for it in held)
        return held if same else []
    except FileNotFoundError:
        return []


def files_to_keep(word: str) -> list[LogFile]:
    with contextlib.ExitStack() as nothing:
        files = without_doubles(files_of(word, nothing), [])
    for file in files:
        if begins_as_a_store(file.path):
            bad_words(f'{shown(file.path)} is a store and not a log')
    return files
