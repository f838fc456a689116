"""The files of a log: rotated and packed ones in order, and their bytes in pieces of whole lines."""
from __future__ import annotations

import bz2
import contextlib
import gzip
import lzma
import os
import re
import shutil
import sys
import tempfile
from dataclasses import dataclass, field
from typing import BinaryIO, Iterable, Iterator, NoReturn, Sequence

from .basics import MAY_NOT, READ_FAULT, Refused, WRITE_FAULT, bad_words, shown
from .stores import begins_as_a_store

DEFAULT_LOG = '/var/log/audit/audit.log'
PIECE = 1 << 20


# How often the names of a log's files are looked at again if auditd renames them meanwhile.
RENAMING = 20


@dataclass(frozen=True)
class LogFile:
    """One file of a log. The number is 0 for the newest file, and greater for older ones. By the inode it is found if it was renamed since."""
    path: str
    number: int = 0
    inode: tuple[int, int] | None = None

    def open(self) -> BinaryIO:
        """The file's bytes, unpacked if it begins as a packed file does."""
        for path in self.paths():
            with contextlib.suppress(FileNotFoundError):
                raw = open(path, 'rb')
                if self.inode in (None, inode_of(os.fstat(raw.fileno()))):
                    return unpacked(raw)
                raw.close()
        bad_log(self.path, 'the log was rotated meanwhile, and this file was packed or removed; ask again')

    def paths(self) -> Iterator[str]:
        """Where the file was, and then, if it isn't there, where it is now."""
        yield self.path
        for _ in range(RENAMING):
            yield from (it.path for it in rotated(family(self.path)) if it.inode == self.inode)


def inode_of(status: os.stat_result) -> tuple[int, int]:
    """What stays the same of a file when it is renamed."""
    return status.st_dev, status.st_ino


def inode_at(path: str) -> tuple[int, int] | None:
    with contextlib.suppress(OSError):
        return inode_of(os.stat(path))
    return None


def unpacked(raw: BinaryIO) -> BinaryIO:
    """What a file has, from its first byte on, unpacked if it begins as a packed file does."""
    start = raw.read(6)
    raw.seek(0)
    for magic, module in ((b'\x1f\x8b', gzip), (b'\xfd7zXZ', lzma), (b'BZh', bz2)):
        if start.startswith(magic):
            return module.open(raw, 'rb')  # type: ignore[return-value]
    return raw


@dataclass
class Logs:
    """The files of all logs that were named, oldest first within each, and what to mistrust about them."""
    files: list[LogFile]
    warnings: list[str] = field(default_factory=list)


def rotated(name: str) -> list[LogFile]:
    """The files of one log, oldest first: audit.log.4.gz .. audit.log.1 audit.log. If they are renamed meanwhile, they are looked at again."""
    found = rotated_at_once(name)
    for _ in range(RENAMING):
        before, found = found, rotated_at_once(name)
        if found == before:
            break
    return found


def rotated_at_once(name: str) -> list[LogFile]:
    pattern = re.compile(re.escape(os.path.basename(name)) + r'(?:\.(\d+))?(?:\.(?:gz|xz|bz2))?')
    folder = os.path.dirname(name) or '.'
    found = []
    try:
        entries = sorted(os.listdir(folder)) if os.path.isdir(folder) else []
    except PermissionError:
        bad_log(folder, MAY_NOT)
    for entry in entries:
        if match := pattern.fullmatch(entry):
            path = os.path.join(os.path.dirname(name), entry)
            found.append(LogFile(path, int(match[1] or 0), inode_at(path)))
    return sorted(found, key=lambda it: -it.number)


def family(path: str) -> str:
    """The name that a file of a rotated log had when it was the newest."""
    return re.sub(r'(\.\d+)?(\.(gz|xz|bz2))?$', '', path)


def files_of(word: str, ends: contextlib.ExitStack) -> list[LogFile]:
    if word == '-':
        return [LogFile(spooled(sys.stdin.buffer, ends))]
    if os.path.exists(word) and not os.path.isfile(word) and not os.path.isdir(word):
        must_be_readable(word)
        with open(word, 'rb') as stream:
            return [LogFile(spooled(stream, ends))]
    if os.path.isdir(word):
        return rotated(os.path.join(word, 'audit.log')) or bad_log(word, 'no audit.log in this folder')
    number = re.search(r'\.(\d+)(?:\.(?:gz|xz|bz2))?$', word)
    if number:
        return [LogFile(word, int(number[1]), inode_at(word))]
    return rotated(word) or [LogFile(word, inode=inode_at(word))]


def spooled(stream: BinaryIO, ends: contextlib.ExitStack) -> str:
    """A pipe as a file, since the log is read again for its lines. It is removed at the end."""
    try:
        copy = ends.enter_context(tempfile.NamedTemporaryFile(prefix='autrail-'))
        shutil.copyfileobj(stream, copy)
        copy.flush()
    except OSError as fault:
        raise Refused(WRITE_FAULT, f'the log comes through a pipe, and no copy of it can be made ({fault.strerror or shown(str(fault))}): '
                                   'set TMPDIR to a folder that has room for it') from None
    return copy.name


def bad_log(name: str, why: str) -> NoReturn:
    raise Refused(READ_FAULT, f'{shown(name)}: {why}')


def logs_of(words: Sequence[str], ends: contextlib.ExitStack) -> Logs:
    """The files that the words name, none twice, and each rotated log in order."""
    if words.count('-') > 1:
        bad_words('-if - can stand once')
    families: dict[str, dict[str, LogFile]] = {}
    for word in words or [DEFAULT_LOG]:
        for file in files_of(word, ends):
            families.setdefault(os.path.realpath(family(file.path)), {}).setdefault(os.path.realpath(file.path), file)
    logs = Logs([])
    for found in families.values():
        files = without_doubles(sorted(found.values(), key=lambda it: (-it.number, len(it.path))), logs.warnings)
        for file in files:
            must_be_readable(file.path)
            if begins_as_a_store(file.path):
                bad_words(f'{shown(file.path)} is a store and not a log; name it by --store')
        logs.files += files
        logs.warnings += gaps(files)
    return logs


def without_doubles(files: Sequence[LogFile], warnings: list[str]) -> list[LogFile]:
    """One file of each number: the file with the shortest name, which isn't packed."""
    kept: dict[int, LogFile] = {}
    for file in files:
        if kept.setdefault(file.number, file) is not file:
            warnings.append(f'{shown(kept[file.number].path)} is read, and {shown(file.path)} isn\'t: they have the same number')
    return list(kept.values())


def must_be_readable(path: str) -> None:
    if not os.path.exists(path):
        bad_log(path, 'no such log; name it by -if LOG')
    if not os.access(path, os.R_OK):
        bad_log(path, MAY_NOT)


def gaps(files: Sequence[LogFile]) -> list[str]:
    """What is missing of one rotated log, and which of its files weren't named. A file alone may have any number."""
    name, numbers = family(files[-1].path), {it.number for it in files}
    there = {it.number for it in rotated(name)} | numbers
    missing = sorted(set(range(max(numbers))) - there) if len(there) > 1 else []
    found = [f'rotated files of {shown(name)} are missing: number {listed(missing)}'] * bool(missing)
    return found + [f'other files of {shown(name)} are there and were not named: number {listed(there - numbers)}'] * (there != numbers)


def listed(numbers: Iterable[int]) -> str:
    """The numbers of some rotated files, as many as fit into a line."""
    texts = [str(it) if it else '0 (the newest)' for it in sorted(numbers)]
    return ', '.join(texts[:10] + ['..'] * (len(texts) > 10))


def pieces(file: LogFile) -> Iterator[bytes]:
    """The file's bytes in pieces of whole lines, except lines that are far too long. A last line without a line feed stays so."""
    rest = b''
    try:
        with file.open() as source:
            while piece := source.read(PIECE):
                cut = piece.rfind(b'\n') + 1 or len(piece) * (len(rest) > PIECE)
                if cut:
                    yield rest + piece[:cut]
                    rest = b''
                rest += piece[cut:]
    except (OSError, EOFError, lzma.LZMAError) as fault:
        bad_log(file.path, f'the file is damaged or can\'t be read ({fault})')
    if rest:
        yield rest
